use super::*;
use crate::examples::{add, copy, four_changes, moved, set, tables, Change, NEW, VALID};
use crate::start::settings_at_start;
use crate::tables::MAX_CAPACITY;

/// What each call that tests form answers on these tables, with arguments that are right and with
/// arguments that a later refusal turns down.
#[track_caller]
fn assert_all_refused(n: usize, tables: &Tables, refusal: Refusal) {
    for setting in [34, 1024] {
        assert_eq!(current_value(n, tables, setting), Err(refusal));
        for timestamp in [0, 10] {
            let answer = value_as_of(n, tables, timestamp, setting);
            assert_eq!(answer, Err(refusal));
        }
    }
    for timestamp in [0, 10, 11] {
        assert_eq!(standing(n, tables, timestamp), Err(refusal));
    }
    let mut lent = [-1; SETTINGS];
    assert_eq!(plain_run(n, tables, &mut lent), Err(refusal));
    assert_eq!(lent, [-1; SETTINGS]);
}

/// The settings that a plain run leaves other than at their start.
fn plain(n: usize, tables: &Tables) -> Vec<(usize, i32)> {
    let mut lent = [i32::MIN; SETTINGS];
    assert_eq!(plain_run(n, tables, &mut lent), Ok(()));
    moved(&lent)
}

#[test]
fn refusals_have_their_numbers() {
    let refusals = [
        (Refusal::Length, 1),
        (Refusal::Form, 2),
        (Refusal::Package, 3),
        (Refusal::Timestamp, 4),
        (Refusal::Setting, 5),
        (Refusal::Program(Malformed::Length), 6),
        (Refusal::Program(Malformed::Version), 13),
        (Refusal::Program(Malformed::Instruction), 7),
        (Refusal::OtherProgram, 8),
        (Refusal::Full, 9),
        (Refusal::NotHeld, 10),
        (Refusal::Withdrawn, 11),
        (Refusal::Room, 12),
        (Refusal::Cutoff, 14),
        (Refusal::Unsettled, 15),
    ];
    for (refusal, number) in refusals {
        assert_eq!(refusal.number(), number);
    }
}

#[test]
fn lengths_come_before_form_and_form_before_arguments() {
    let mut tables = four_changes();
    tables.status[0] = 3;
    assert_all_refused(6, &tables, Refusal::Form);
    assert_all_refused(5, &tables, Refusal::Length);
    tables.view.pop();
    assert_all_refused(6, &tables, Refusal::Length);
    let mut tables = four_changes();
    tables.versions[0] = 2;
    assert_all_refused(6, &tables, Refusal::Form);
    tables.versions.push(0);
    assert_all_refused(6, &tables, Refusal::Length);
    let mut tables = four_changes();
    tables.cutoff[0] = 11;
    assert_all_refused(6, &tables, Refusal::Form);
    tables.kept.push(0);
    assert_all_refused(6, &tables, Refusal::Length);
    tables.kept.pop();
    tables.cutoff.push(0);
    assert_all_refused(6, &tables, Refusal::Length);
    assert_all_refused(0, &Tables::new(0), Refusal::Length);
    assert_all_refused(4097, &Tables::new(4097), Refusal::Length);
}

// Set up.

#[test]
fn set_up_fills_every_table_with_0_and_view_and_kept_values_with_the_start_values() {
    let mut tables = four_changes();
    tables.held[0] = 7;
    tables.order.fill(9);
    tables.versions.fill(1);
    tables.view.fill(-1);
    tables.cutoff.fill(u64::MAX);
    tables.kept.fill(-1);
    assert_eq!(set_up(6, &mut tables), Ok(()));
    assert_eq!(tables, Tables::new(6));
    assert_eq!(tables.view, settings_at_start());
    assert_eq!(tables.versions, [0; 6]);
    assert_eq!(tables.cutoff, [0]);
    assert_eq!(tables.kept, settings_at_start());
    let mut largest = Tables::new(MAX_CAPACITY);
    assert_eq!(set_up(MAX_CAPACITY, &mut largest), Ok(()));
}

#[test]
fn set_up_refused_alters_nothing() {
    for n in [0, 5, 7, usize::MAX] {
        let mut tables = four_changes();
        assert_eq!(set_up(n, &mut tables), Err(Refusal::Length));
        assert_eq!(tables, four_changes());
    }
}

// Current value.

#[test]
fn the_current_value_is_that_of_the_view() {
    let mut tables = four_changes();
    assert_eq!(current_value(6, &tables, 34), Ok(-5));
    assert_eq!(current_value(6, &tables, 0), Ok(0));
    tables.view[1023] = i32::MIN;
    assert_eq!(current_value(6, &tables, 1023), Ok(i32::MIN));
}

#[test]
fn a_setting_above_1023_is_5() {
    let tables = four_changes();
    for setting in [1024, 65_536 + 34, (1 << 32) + 34, usize::MAX] {
        assert_eq!(current_value(6, &tables, setting), Err(Refusal::Setting));
        let answer = value_as_of(6, &tables, 35, setting);
        assert_eq!(answer, Err(Refusal::Setting));
    }
}

// Value as of a timestamp.

#[test]
fn p2_as_of_15_it_is_7() {
    let change = |timestamp, value| Change {
        timestamp,
        status: VALID,
        program: set(34, value),
        writes: vec![(34, value)],
        ..Change::default()
    };
    let tables = tables(2, &[1, 0], &[change(20, 5), change(10, 7)]);
    for (timestamp, value) in [
        (1, 1),
        (10, 1),
        (11, 7),
        (15, 7),
        (20, 7),
        (21, 5),
        (u64::MAX, 5),
    ] {
        assert_eq!(value_as_of(2, &tables, timestamp, 34), Ok(value));
        assert_eq!(value_as_of(2, &tables, timestamp, 35), Ok(0));
    }
}

#[test]
fn writes_of_a_withdrawn_change_count_until_its_turn() {
    let tables = four_changes();
    assert_eq!(value_as_of(6, &tables, 40, 34), Ok(7));
    assert_eq!(value_as_of(6, &tables, 41, 34), Ok(-5));
}

#[test]
fn the_value_as_of_is_that_of_the_lists_and_not_of_the_programs_or_the_view() {
    let mut tables = four_changes();
    tables.view.fill(99);
    // Change 20 is New: its program sets 34 to 9, its write list is empty.
    assert_eq!(value_as_of(6, &tables, 25, 34), Ok(7));
    tables.written[33] = 4;
    assert_eq!(value_as_of(6, &tables, 25, 40), Ok(4));
    assert_eq!(value_as_of(6, &tables, 25, 41), Ok(0));
}

#[test]
fn a_timestamp_of_0_is_4_and_infinity_is_allowed() {
    let tables = four_changes();
    let as_of = |timestamp, setting| value_as_of(6, &tables, timestamp, setting);
    assert_eq!(as_of(0, 34), Err(Refusal::Timestamp));
    assert_eq!(as_of(0, 1024), Err(Refusal::Timestamp));
    assert_eq!(as_of(u64::MAX, 34), Ok(-5));
    assert_eq!(as_of(u64::MAX, 1024), Err(Refusal::Setting));
    assert_eq!(as_of(1, 34), Ok(1));
}

/// Four changes with this cutoff, at most 10, and with each setting kept at 1,000 more than its number.
fn with_cutoff(cutoff: u64) -> Tables {
    let mut tables = four_changes();
    tables.cutoff[0] = cutoff;
    for (setting, kept) in tables.kept.iter_mut().enumerate() {
        *kept = 1_000 + setting as i32;
    }
    tables
}

/// "a value as of a time before any write" begins "from the kept values" (document 02, R-7).
#[test]
fn a_value_as_of_a_time_before_any_write_is_the_kept_one() {
    for cutoff in [0, 10] {
        let tables = with_cutoff(cutoff);
        for (timestamp, setting, value) in [
            (10, 34, 1_034),
            (11, 34, 7),
            (u64::MAX, 34, -5),
            (10, 40, 1_040),
            (u64::MAX, 40, 3),
            (30, 50, 1_050),
            (31, 50, 7),
            (10, 0, 1_000),
            (u64::MAX, 1023, 2_023),
        ] {
            assert_eq!(value_as_of(6, &tables, timestamp, setting), Ok(value));
        }
    }
}

/// "Refusal 14, just after 4, meets a timestamp below the cutoff in any call" (document 02, R-7).
#[test]
fn a_timestamp_below_the_cutoff_is_14() {
    let tables = with_cutoff(10);
    for timestamp in [1, 5, 9] {
        assert_eq!(standing(6, &tables, timestamp), Err(Refusal::Cutoff));
        for setting in [34, 1024] {
            let answer = value_as_of(6, &tables, timestamp, setting);
            assert_eq!(answer, Err(Refusal::Cutoff));
        }
    }
    // The cutoff itself, and what is above it.
    assert!(standing(6, &tables, 10).is_ok());
    assert_eq!(standing(6, &tables, 11), Err(Refusal::NotHeld));
    for timestamp in [10, u64::MAX] {
        assert!(value_as_of(6, &tables, timestamp, 34).is_ok());
        let answer = value_as_of(6, &tables, timestamp, 1024);
        assert_eq!(answer, Err(Refusal::Setting));
    }
    // 0 is below every other cutoff.
    assert_eq!(standing(6, &tables, 0), Err(Refusal::Timestamp));
    assert_eq!(value_as_of(6, &tables, 0, 34), Err(Refusal::Timestamp));
    let mut highest = Tables::new(1);
    highest.cutoff[0] = u64::MAX - 1;
    assert_eq!(standing(1, &highest, u64::MAX), Err(Refusal::Timestamp));
    for timestamp in [1, u64::MAX - 2] {
        assert_eq!(standing(1, &highest, timestamp), Err(Refusal::Cutoff));
    }
    for timestamp in [u64::MAX - 1, u64::MAX] {
        assert_eq!(value_as_of(1, &highest, timestamp, 34), Ok(1));
    }
}

// Standing.

#[test]
fn standing_is_status_and_flag() {
    let tables = four_changes();
    for (timestamp, status, withdrawn) in [
        (10, Status::Valid, false),
        (20, Status::New, false),
        (30, Status::Valid, false),
        (40, Status::Invalid, true),
    ] {
        let expected = Standing { status, withdrawn };
        assert_eq!(standing(6, &tables, timestamp), Ok(expected));
    }
}

#[test]
fn standing_refuses_4_then_10() {
    let tables = four_changes();
    for timestamp in [0, u64::MAX] {
        let answer = standing(6, &tables, timestamp);
        assert_eq!(answer, Err(Refusal::Timestamp));
    }
    for timestamp in [1, 9, 11, 50, (1 << 32) + 10, u64::MAX - 1] {
        assert_eq!(standing(6, &tables, timestamp), Err(Refusal::NotHeld));
    }
}

// Plain run.

#[test]
fn the_plain_run_goes_by_timestamp_and_passes_over_withdrawn_changes() {
    assert_eq!(plain(6, &four_changes()), [(34, 9), (40, 3), (50, 9)]);
    let mut tables = four_changes();
    tables.withdrawn.fill(0);
    assert_eq!(plain(6, &tables), [(34, -5), (40, 3), (50, 9)]);
    assert_eq!(plain(6, &Tables::new(6)), []);
}

#[test]
fn the_plain_run_uses_neither_the_lists_nor_the_status_nor_the_view() {
    let mut tables = four_changes();
    tables.view.fill(99);
    tables.status[..3].fill(VALID);
    tables.written[0] = 99;
    tables.targets[32] = 99;
    assert_eq!(plain(6, &tables), [(34, 9), (40, 3), (50, 9)]);
}

#[test]
fn each_run_sees_what_those_before_it_leave() {
    let change = |timestamp, program| Change {
        timestamp,
        status: NEW,
        program,
        ..Change::default()
    };
    let changes = [
        change(50, copy(34, 50)),
        change(40, [set(60, 1), set(60, 1)].concat()),
        change(30, add(34, 1)),
        change(20, add(34, 1)),
        change(10, set(34, i32::MAX - 1)),
    ];
    let tables = tables(5, &[4, 3, 2, 1, 0], &changes);
    // Change 40 faults and writes nothing.
    assert_eq!(plain(5, &tables), [(34, i32::MIN), (50, i32::MIN)]);
}

/// "running each change by its own version" (document 02, R-6).
#[test]
fn the_plain_run_runs_each_change_by_its_own_version() {
    let change = |timestamp, version, program| Change {
        timestamp,
        version,
        program,
        ..Change::default()
    };
    // 20 sets 34 to 7, copies it to 50 and sets it to 9; 10 writes 60 twice, 30 copies 34.
    let by = |twice, back| {
        let changes = [
            change(20, back, [set(34, 7), copy(34, 50), set(34, 9)].concat()),
            change(10, twice, [set(60, 1), set(60, 2)].concat()),
            change(30, 0, copy(34, 51)),
        ];
        plain(3, &tables(3, &[1, 0, 2], &changes))
    };
    assert_eq!(by(0, 0), [(51, 1)]);
    assert_eq!(by(1, 0), [(51, 1), (60, 2)]);
    assert_eq!(by(0, 1), [(34, 9), (50, 7), (51, 9)]);
    assert_eq!(by(1, 1), [(34, 9), (50, 7), (51, 9), (60, 2)]);
}

/// "the plain run" begins "from the kept values" (document 02, R-7).
#[test]
fn the_plain_run_begins_from_the_kept_values() {
    for cutoff in [0, 10] {
        let tables = with_cutoff(cutoff);
        let mut expected = tables.kept_settings();
        // 10 sets 34 and 40, 20 sets 34 and 30 copies it.
        (expected[34], expected[40], expected[50]) = (9, 3, 9);
        let mut lent = [0; SETTINGS];
        assert_eq!(plain_run(6, &tables, &mut lent), Ok(()));
        assert_eq!(lent, expected);
    }
    let change = Change {
        timestamp: 10,
        program: copy(34, 50),
        ..Change::default()
    };
    let mut tables = tables(1, &[0], &[change]);
    tables.kept[34] = 77;
    assert_eq!(plain(1, &tables), [(34, 77), (50, 77)]);
}

#[test]
fn the_plain_run_refuses_a_slice_that_is_not_1024_long() {
    let mut tables = four_changes();
    for length in [0, 1, 1023, 1025, 2048] {
        let mut lent = vec![-1; length];
        assert_eq!(plain_run(6, &tables, &mut lent), Err(Refusal::Length));
        assert_eq!(lent, vec![-1; length]);
    }
    tables.status[0] = 3;
    let answer = plain_run(6, &tables, &mut [0; 1023]);
    assert_eq!(answer, Err(Refusal::Length));
}
