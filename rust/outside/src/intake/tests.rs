use super::*;
use crate::examples::{assemble, copy, four_changes, set, tables, Change, INVALID, NEW, VALID};
use crate::program::{Instruction, Malformed};
use crate::tables::MAX_CAPACITY;

/// Takes in a change on a copy of these tables, which a refusal or already held must not alter, and
/// returns the answer.
#[track_caller]
fn answer_unaltered(
    n: usize,
    tables: &Tables,
    timestamp: u64,
    version: u16,
    program: &[u8],
) -> Result<Taken, Refusal> {
    let mut lent = tables.clone();
    let answer = take_in(n, &mut lent, timestamp, version, program);
    assert_ne!(answer, Ok(Taken::Done));
    assert_eq!(lent, *tables);
    answer
}

/// As [`answer_unaltered`], for a withdrawal that is refused.
#[track_caller]
fn refused_withdrawal(n: usize, tables: &Tables, timestamp: u64) -> Refusal {
    let mut lent = tables.clone();
    let refusal = withdraw(n, &mut lent, timestamp).expect_err("it is refused");
    assert_eq!(lent, *tables);
    refusal
}

/// Tables of capacity 4 that are full: the four changes alone.
fn full() -> Tables {
    let mut tables = four_changes();
    for by_place in [
        &mut tables.order,
        &mut tables.status,
        &mut tables.withdrawn,
        &mut tables.lengths,
        &mut tables.reads,
        &mut tables.writes,
        &mut tables.versions,
    ] {
        by_place.truncate(4);
    }
    tables.timestamps.truncate(4);
    tables.programs.truncate(256 * 4);
    for settings in [&mut tables.sources, &mut tables.targets] {
        settings.truncate(32 * 4);
    }
    for values in [&mut tables.seen, &mut tables.written] {
        values.truncate(32 * 4);
    }
    tables
}

// Take in.

#[test]
fn a_change_has_the_next_place_and_its_rank_in_the_order() {
    let mut lent = Tables::new(3);
    let mut changes = Vec::new();
    for (timestamp, version, program, order) in [
        (20, 0, set(34, 7), &[0][..]),
        (10, 1, copy(34, 50), &[1, 0]),
        (15, 1, vec![], &[1, 2, 0]),
    ] {
        let taken = take_in(3, &mut lent, timestamp, version, &assemble(&program));
        assert_eq!(taken, Ok(Taken::Done));
        changes.push(Change {
            timestamp,
            version,
            program,
            ..Change::default()
        });
        assert_eq!(lent, tables(3, order, &changes));
    }
}

#[test]
fn taking_in_leaves_the_changes_before_it_as_they_are() {
    for version in [0, 1] {
        let mut tables = four_changes();
        let mut expected = four_changes();
        assert_eq!(take_in(6, &mut tables, 5, version, &[]), Ok(Taken::Done));
        expected.held[0] = 5;
        expected.timestamps[4] = 5;
        expected.versions[4] = version;
        expected.order[..5].copy_from_slice(&[4, 1, 3, 0, 2]);
        assert_eq!(tables, expected);
    }
}

/// "Accepted: timestamps 1 and 2^64 − 2, 256 bytes, setting 1,023, N = 4,096."
#[test]
fn what_document_01_accepts() {
    let mut tables = Tables::new(MAX_CAPACITY);
    let program = assemble(&set(1023, 1).repeat(16));
    assert_eq!(program.len(), 256);
    for (timestamp, version) in [(1, 0), (u64::MAX - 1, 1)] {
        let taken = take_in(MAX_CAPACITY, &mut tables, timestamp, version, &program);
        assert_eq!(taken, Ok(Taken::Done));
    }
}

/// "Refused: 0, 264 bytes, 7 bytes, 1,024, 4,097."
#[test]
fn what_document_01_refuses() {
    let tables = four_changes();
    let refusal = |timestamp, program: &[u8]| {
        let answer = answer_unaltered(6, &tables, timestamp, 0, program);
        answer.map_err(Refusal::number)
    };
    assert_eq!(refusal(0, &[]), Err(4));
    assert_eq!(refusal(u64::MAX, &[]), Err(4));
    assert_eq!(refusal(50, &[0; 264]), Err(6));
    assert_eq!(refusal(50, &[0; 7]), Err(6));
    assert_eq!(refusal(50, &assemble(&set(1024, 1))), Err(7));
    let tables = Tables::new(4097);
    let answer = answer_unaltered(4097, &tables, 50, 0, &[]);
    assert_eq!(answer, Err(Refusal::Length));
}

/// What [`four_changes`] hold: timestamp, version and program.
fn held() -> [(u64, u16, Vec<Instruction>); 4] {
    [
        (30, 0, copy(34, 50)),
        (10, 1, [set(34, 7), set(40, 3)].concat()),
        (40, 1, set(34, -5)),
        (20, 0, set(34, 9)),
    ]
}

#[test]
fn the_same_program_is_already_held_withdrawn_or_not_full_or_not() {
    for (n, tables) in [(6, four_changes()), (4, full())] {
        for (timestamp, version, program) in held() {
            let program = assemble(&program);
            let answer = answer_unaltered(n, &tables, timestamp, version, &program);
            assert_eq!(answer, Ok(Taken::AlreadyHeld));
        }
    }
}

#[test]
fn another_program_of_a_held_timestamp_is_8_full_or_not() {
    for (n, tables) in [(6, four_changes()), (4, full())] {
        for program in [
            vec![],
            set(34, 8),
            set(34, 7),
            // Longer by a stop, and a part.
            [set(34, 9), vec![Default::default()]].concat(),
            set(34, 9)[..1].to_vec(),
        ] {
            let program = assemble(&program);
            for version in [0, 1] {
                let answer = answer_unaltered(n, &tables, 20, version, &program);
                assert_eq!(answer, Err(Refusal::OtherProgram));
            }
        }
    }
}

/// "The version is part of the program when a timestamp is already held." (document 02, R-6)
#[test]
fn another_version_of_a_held_program_is_8_withdrawn_or_not_full_or_not() {
    for (n, tables) in [(6, four_changes()), (4, full())] {
        for (timestamp, version, program) in held() {
            let program = assemble(&program);
            let answer = answer_unaltered(n, &tables, timestamp, 1 - version, &program);
            assert_eq!(answer, Err(Refusal::OtherProgram));
        }
    }
}

/// A version above 1 is no other program: it is refused before what is held is looked at.
#[test]
fn a_version_above_1_is_13_held_or_not_full_or_not() {
    for (n, tables) in [(6, four_changes()), (4, full())] {
        for version in [2, 3, 255, 256, 257, u16::MAX] {
            for (timestamp, _, program) in held() {
                let program = assemble(&program);
                for timestamp in [timestamp, 50] {
                    let answer = answer_unaltered(n, &tables, timestamp, version, &program);
                    assert_eq!(answer.map_err(Refusal::number), Err(13));
                }
            }
        }
    }
}

#[test]
fn a_new_timestamp_is_9_when_full() {
    for timestamp in [1, 11, 21, 50, u64::MAX - 1] {
        let answer = answer_unaltered(4, &full(), timestamp, 1, &[]);
        assert_eq!(answer, Err(Refusal::Full));
    }
    let mut one = Tables::new(1);
    assert_eq!(take_in(1, &mut one, 7, 0, &[]), Ok(Taken::Done));
    assert_eq!(answer_unaltered(1, &one, 8, 0, &[]), Err(Refusal::Full));
}

#[test]
fn n_changes_are_held_before_it_is_full() {
    let mut tables = Tables::new(64);
    for timestamp in (1..=64).rev() {
        assert_eq!(take_in(64, &mut tables, timestamp, 1, &[]), Ok(Taken::Done));
    }
    assert_eq!(
        answer_unaltered(64, &tables, 65, 1, &[]),
        Err(Refusal::Full)
    );
}

/// Each program breaks its own refusal and all that come later where it can.
#[test]
fn take_in_refuses_in_order() {
    let mut tables = full();
    let malformed = Refusal::Program(Malformed::Instruction);
    let wrong_length = Refusal::Program(Malformed::Length);
    let no_version = Refusal::Program(Malformed::Version);
    let other = assemble(&set(34, 8));
    let held = assemble(&set(34, 9));
    for (timestamp, version, program, refusal) in [
        (0, 2, &[255; 9][..], Refusal::Timestamp),
        (u64::MAX, 2, &[255; 9], Refusal::Timestamp),
        (20, 2, &[255; 9], wrong_length),
        (50, 2, &[255; 264], wrong_length),
        (20, 2, &[255; 16], no_version),
        (50, 2, &[255; 16], no_version),
        (20, 2, &held, no_version),
        (50, 2, &held, no_version),
        (20, 1, &[255; 16], malformed),
        (50, 1, &[255; 16], malformed),
        (20, 1, &other, Refusal::OtherProgram),
        (20, 1, &held, Refusal::OtherProgram),
        (50, 1, &other, Refusal::Full),
    ] {
        let answer = answer_unaltered(4, &tables, timestamp, version, program);
        assert_eq!(answer, Err(refusal));
    }
    tables.status[0] = 3;
    let answer = answer_unaltered(4, &tables, 0, 2, &[255; 9]);
    assert_eq!(answer, Err(Refusal::Form));
    let answer = answer_unaltered(3, &tables, 0, 2, &[255; 9]);
    assert_eq!(answer, Err(Refusal::Length));
}

/// "Refusal 14, just after 4" (document 02, R-7): the programs are refused too, or held, or there is no
/// room for them.
#[test]
fn a_timestamp_below_the_cutoff_is_14_full_or_not() {
    for (n, mut tables) in [(6, four_changes()), (4, full())] {
        tables.cutoff[0] = 10;
        for timestamp in [1, 9] {
            for (version, program) in [(0, &[][..]), (2, &[255; 9]), (2, &[]), (1, &[255; 16])] {
                let answer = answer_unaltered(n, &tables, timestamp, version, program);
                assert_eq!(answer, Err(Refusal::Cutoff));
            }
            let refusal = refused_withdrawal(n, &tables, timestamp);
            assert_eq!(refusal, Refusal::Cutoff);
        }
        for timestamp in [0, u64::MAX] {
            let answer = answer_unaltered(n, &tables, timestamp, 2, &[255; 9]);
            assert_eq!(answer, Err(Refusal::Timestamp));
            let refusal = refused_withdrawal(n, &tables, timestamp);
            assert_eq!(refusal, Refusal::Timestamp);
        }
    }
}

#[test]
fn a_change_stamped_at_the_cutoff_is_taken_in_and_withdrawn() {
    for cutoff in [1, 10, u64::MAX - 1] {
        let mut tables = Tables::new(2);
        tables.cutoff[0] = cutoff;
        tables.kept.fill(-1);
        let mut expected = tables.clone();
        expected.held[0] = 1;
        expected.timestamps[0] = cutoff;
        assert_eq!(take_in(2, &mut tables, cutoff, 0, &[]), Ok(Taken::Done));
        assert_eq!(tables, expected);
        expected.withdrawn[0] = 1;
        assert_eq!(withdraw(2, &mut tables, cutoff), Ok(()));
        assert_eq!(tables, expected);
    }
}

// Withdraw.

/// "Withdrawing sets the flag; Valid becomes Invalid."
#[test]
fn withdrawing_sets_the_flag_and_makes_valid_invalid() {
    for (status, left) in [(NEW, NEW), (VALID, INVALID), (INVALID, INVALID)] {
        let mut change = Change {
            timestamp: 10,
            status,
            version: 1,
            program: copy(34, 50),
            ..Change::default()
        };
        if status != NEW {
            change.reads = vec![(34, 1)];
            change.writes = vec![(50, 1)];
        }
        let mut lent = tables(2, &[0], &[change.clone()]);
        assert_eq!(withdraw(2, &mut lent, 10), Ok(()));
        change.status = left;
        change.withdrawn = 1;
        assert_eq!(lent, tables(2, &[0], &[change]));
    }
}

#[test]
fn withdraw_refuses_in_order() {
    let mut tables = four_changes();
    for (timestamp, refusal) in [
        (0, Refusal::Timestamp),
        (u64::MAX, Refusal::Timestamp),
        (1, Refusal::NotHeld),
        (11, Refusal::NotHeld),
        ((1 << 32) + 10, Refusal::NotHeld),
        (40, Refusal::Withdrawn),
    ] {
        assert_eq!(refused_withdrawal(6, &tables, timestamp), refusal);
    }
    tables.status[0] = 3;
    for timestamp in [0, 11, 40] {
        let refusal = refused_withdrawal(6, &tables, timestamp);
        assert_eq!(refusal, Refusal::Form);
        let refusal = refused_withdrawal(5, &tables, timestamp);
        assert_eq!(refusal, Refusal::Length);
    }
}

#[test]
fn a_withdrawn_change_stays_held() {
    let mut tables = four_changes();
    assert_eq!(withdraw(6, &mut tables, 20), Ok(()));
    assert_eq!(refused_withdrawal(6, &tables, 20), Refusal::Withdrawn);
    let program = assemble(&set(34, 9));
    let answer = answer_unaltered(6, &tables, 20, 0, &program);
    assert_eq!(answer, Ok(Taken::AlreadyHeld));
    for (version, program) in [(0, &[][..]), (1, &program)] {
        let answer = answer_unaltered(6, &tables, 20, version, program);
        assert_eq!(answer, Err(Refusal::OtherProgram));
    }
}
