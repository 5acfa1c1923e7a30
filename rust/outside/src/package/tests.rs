use super::*;
use crate::examples::{
    assemble, copy, four_changes, package, package_of_70_bytes, set, set_version, tables, Change,
};
use crate::program::Instruction;
use crate::tables::MAX_CAPACITY;

/// A program of so many stops.
fn stops(count: usize) -> Vec<Instruction> {
    vec![Instruction::default(); count]
}

/// A package of `count` entries, each a change without instructions, that has a body of `last`
/// instructions behind the last of them.
fn with_count(count: usize, last: usize) -> Vec<u8> {
    let body = stops(last);
    let mut entries: Vec<(u64, u8, &[Instruction])> = Vec::new();
    for timestamp in 1..=count as u64 {
        let last = timestamp == count as u64;
        entries.push((timestamp, 0, if last { &body } else { &[] }));
    }
    package(&entries)
}

/// A package of `full` changes of 32 instructions and one of `rest`.
fn with_bodies(full: usize, rest: usize) -> Vec<u8> {
    let (whole, part) = (stops(32), stops(rest));
    let mut entries: Vec<(u64, u8, &[Instruction])> = Vec::new();
    for timestamp in 1..=full as u64 {
        entries.push((timestamp, 0, &whole));
    }
    entries.push((full as u64 + 1, 0, &part));
    package(&entries)
}

/// The tables and the answers that a package, which must be taken in, leaves where all answers were
/// 99.
#[track_caller]
fn taken_in(n: usize, mut tables: Tables, package: &[u8]) -> (Tables, Vec<u8>) {
    let mut answers = vec![99; ANSWERS];
    let answer = take_in_package(n, &mut tables, package, &mut answers);
    assert_eq!(answer, Ok(()));
    (tables, answers)
}

/// That the package is refused so, and alters neither the tables nor the answers.
#[track_caller]
fn assert_refused(n: usize, tables: &Tables, package: &[u8], length: usize, refusal: Refusal) {
    let mut lent = tables.clone();
    let mut answers = vec![99; length];
    let answer = take_in_package(n, &mut lent, package, &mut answers);
    assert_eq!(answer, Err(refusal));
    assert_eq!(lent, *tables);
    assert_eq!(answers, vec![99; length]);
}

// Layout.

#[test]
fn the_70_bytes_have_three_entries() {
    let package = package_of_70_bytes();
    let expected = vec![
        Entry::Change {
            timestamp: 20,
            version: Version::Zero,
            program: assemble(&copy(34, 50)),
        },
        Entry::Change {
            timestamp: 10,
            version: Version::Zero,
            program: assemble(&set(34, 7)),
        },
        Entry::Withdrawal { timestamp: 15 },
    ];
    assert_eq!(entries(&package), Some(expected));
}

#[test]
fn numbers_are_low_byte_first() {
    let mut package = package(&[(0x0807_0605_0403_0201, 1, &[])]);
    assert_eq!(package, [1, 0, 1, 2, 3, 4, 5, 6, 7, 8, 1, 0, 0, 0]);
    let expected = Entry::Withdrawal {
        timestamp: 0x0807_0605_0403_0201,
    };
    assert_eq!(entries(&package), Some(vec![expected]));
    // 256 entries, of which one is there.
    package[..2].copy_from_slice(&[0, 1]);
    assert_eq!(entries(&package), None);
}

#[test]
fn less_than_a_count_is_no_package() {
    for bytes in [&[][..], &[0], &[1]] {
        assert_eq!(entries(bytes), None);
    }
}

#[test]
fn a_package_of_no_entries_has_two_bytes() {
    assert_eq!(entries(&[0, 0]), Some(vec![]));
    assert_eq!(entries(&[0, 0, 0]), None);
}

#[test]
fn a_package_has_0_to_512_entries() {
    for count in [1, 2, 255, 256, 257, 511, 512] {
        let entries = entries(&with_count(count, 0)).expect("the layout is right");
        assert_eq!(entries.len(), count);
    }
    for count in [513, 514, 1024, 4096, 5461] {
        assert_eq!(entries(&with_count(count, 0)), None, "{count}");
    }
}

#[test]
fn one_byte_or_one_instruction_too_few_or_too_many_is_no_package() {
    for good in [
        package_of_70_bytes(),
        package(&[(1, 1, &[])]),
        with_count(512, 32),
    ] {
        assert!(entries(&good).is_some());
        for length in (0..good.len()).rev().take(80) {
            assert_eq!(entries(&good[..length]), None, "{length}");
        }
        for more in [1, 2, 7, 8, 12, 256] {
            let mut longer = good.clone();
            longer.resize(good.len() + more, 0);
            assert_eq!(entries(&longer), None, "{more}");
        }
    }
}

#[test]
fn the_kind_is_0_or_1() {
    let mut package = package_of_70_bytes();
    // The kind of the withdrawal: as a change it has no instructions.
    let kind = 2 + 2 * ENTRY_BYTES + 8;
    package[kind] = 0;
    assert!(entries(&package).is_some());
    for wrong in 2..=255 {
        package[kind] = wrong;
        assert_eq!(entries(&package), None, "{wrong}");
    }
}

#[test]
fn a_change_has_0_to_32_instructions() {
    for count in 0..=32 {
        assert!(entries(&package(&[(1, 0, &stops(count))])).is_some());
    }
    for count in [33, 34, 64, 255] {
        assert_eq!(entries(&package(&[(1, 0, &stops(count))])), None, "{count}");
    }
}

#[test]
fn a_withdrawal_has_no_instructions() {
    for count in [1, 2, 32, 33] {
        assert_eq!(entries(&package(&[(1, 1, &stops(count))])), None, "{count}");
        let mut without_body = package(&[(1, 1, &[])]);
        without_body[11] = count as u8;
        assert_eq!(entries(&without_body), None, "{count}");
    }
}

/// "The first zero byte of a package entry becomes the version, 0 or 1, kept with the change." "in a
/// package that is refusal 3." (document 02, R-6)
#[test]
fn the_version_of_a_change_is_0_or_1() {
    let mut package = package_of_70_bytes();
    for versions in [[0, 0], [0, 1], [1, 0], [1, 1]] {
        for (entry, version) in versions.into_iter().enumerate() {
            set_version(&mut package, entry, version);
        }
        let read = entries(&package).expect("the layout is right");
        let read: Vec<u16> = read
            .iter()
            .filter_map(|entry| match entry {
                Entry::Change { version, .. } => Some(version.number()),
                Entry::Withdrawal { .. } => None,
            })
            .collect();
        assert_eq!(read, versions.map(u16::from));
    }
    for entry in [0, 1] {
        for wrong in 2..=255 {
            let mut package = package_of_70_bytes();
            set_version(&mut package, entry, wrong);
            assert_eq!(entries(&package), None, "{wrong}");
        }
    }
}

/// "A withdrawal has version 0." (document 02, R-6)
#[test]
fn the_version_of_a_withdrawal_is_0() {
    let mut package = package_of_70_bytes();
    set_version(&mut package, 2, 0);
    assert!(entries(&package).is_some());
    for wrong in 1..=255 {
        set_version(&mut package, 2, wrong);
        assert_eq!(entries(&package), None, "{wrong}");
    }
}

#[test]
fn the_last_byte_of_an_entry_is_0() {
    for entry in 0..3 {
        for wrong in [1, 2, 128, 255] {
            let mut package = package_of_70_bytes();
            package[2 + ENTRY_BYTES * entry + 11] = wrong;
            assert_eq!(entries(&package), None);
        }
    }
}

/// "Its length is at most 65,535 and fits exactly." A length that fits leaves 2 modulo 4, so 65,534
/// is the longest.
#[test]
fn the_length_is_at_most_65535() {
    let longest = with_bodies(244, 16);
    assert_eq!(longest.len(), 65_534);
    assert!(entries(&longest).is_some());
    for length in [65_533, 65_535, 65_536, 70_000] {
        let mut other = longest.clone();
        other.resize(length, 0);
        assert_eq!(entries(&other), None, "{length}");
    }
    let over = with_bodies(244, 17);
    assert_eq!(over.len(), 65_542);
    assert_eq!(entries(&over), None);
    assert_eq!(entries(&with_bodies(511, 32)), None);
}

/// The timestamp and the instructions are not part of the layout.
#[test]
fn timestamps_and_instructions_are_not_tested() {
    let wrong = Instruction {
        op: 99,
        ..Instruction::default()
    };
    for timestamp in [0, u64::MAX] {
        assert!(entries(&package(&[(timestamp, 0, &[wrong])])).is_some());
        assert!(entries(&package(&[(timestamp, 1, &[])])).is_some());
    }
}

// Taking in.

#[test]
fn the_70_bytes_are_taken_in() {
    let (left, answers) = taken_in(4, Tables::new(4), &package_of_70_bytes());
    let change = |timestamp, program| Change {
        timestamp,
        program,
        ..Change::default()
    };
    let changes = [change(20, copy(34, 50)), change(10, set(34, 7))];
    assert_eq!(left, tables(4, &[1, 0], &changes));
    assert_eq!(answers[..3], [0, 0, 10]);
    assert_eq!(answers[3..], [99; 509]);
}

#[test]
fn the_version_is_kept_with_the_change() {
    let mut package = package_of_70_bytes();
    set_version(&mut package, 1, 1);
    let (left, answers) = taken_in(4, Tables::new(4), &package);
    let change = |timestamp, version, program| Change {
        timestamp,
        version,
        program,
        ..Change::default()
    };
    let changes = [change(20, 0, copy(34, 50)), change(10, 1, set(34, 7))];
    assert_eq!(left, tables(4, &[1, 0], &changes));
    assert_eq!(answers[..3], [0, 0, 10]);
    // Again, and each with the other version.
    let (left_again, answers) = taken_in(4, left.clone(), &package);
    assert_eq!(
        (left_again, &answers[..3]),
        (left.clone(), &[255, 255, 10][..])
    );
    for (versions, expected) in [
        ([0, 0], [255, 8, 10]),
        ([1, 1], [8, 255, 10]),
        ([1, 0], [8, 8, 10]),
    ] {
        set_version(&mut package, 0, versions[0]);
        set_version(&mut package, 1, versions[1]);
        let (left_again, answers) = taken_in(4, left.clone(), &package);
        assert_eq!((left_again, &answers[..3]), (left.clone(), &expected[..]));
    }
}

/// The same change twice in a package, by both versions: the first counts.
#[test]
fn a_change_comes_by_both_versions_in_a_package() {
    for version in [0, 1] {
        let set = set(34, 7);
        let mut package = package(&[(10, 0, &set), (10, 0, &set), (10, 1, &[]), (10, 0, &set)]);
        for (entry, version) in [(0, version), (1, 1 - version), (3, 1 - version)] {
            set_version(&mut package, entry, version);
        }
        let (left, answers) = taken_in(1, Tables::new(1), &package);
        assert_eq!(answers[..4], [0, 8, 0, 8]);
        assert_eq!(left.versions, [u16::from(version)]);
    }
}

#[test]
fn every_answer_of_an_entry() {
    let malformed = Instruction {
        op: 18,
        ..Instruction::default()
    };
    let package = package(&[
        (15, 1, &[]),
        (15, 0, &set(34, 1)),
        (15, 0, &set(34, 1)),
        (15, 1, &[]),
        (15, 0, &set(34, 1)),
        (15, 1, &[]),
        (15, 0, &set(34, 2)),
        (15, 0, &[malformed]),
        (16, 0, &[malformed]),
        (0, 0, &[malformed]),
        (u64::MAX, 1, &[]),
        (17, 0, &[]),
        (18, 0, &[]),
        (17, 0, &[]),
        (30, 1, &[]),
        (40, 1, &[]),
    ]);
    let (tables, answers) = taken_in(6, four_changes(), &package);
    let expected = [10, 0, 255, 0, 255, 11, 8, 7, 7, 4, 4, 0, 9, 255, 0, 11];
    assert_eq!(answers[..16], expected);
    assert_eq!(answers[16..], [99; 496]);
    assert_eq!(tables.timestamps, [30, 10, 40, 20, 15, 17]);
    assert_eq!(tables.withdrawn, [1, 0, 1, 0, 1, 0]);
    assert_eq!(tables.status, [2, 1, 2, 0, 0, 0]);
}

/// "Refusal 14, just after 4" (document 02, R-7), for each entry: what else is wrong with one below the
/// cutoff does not count, and it stops nothing.
#[test]
fn an_entry_below_the_cutoff_is_answered_14() {
    let malformed = Instruction {
        op: 18,
        ..Instruction::default()
    };
    let package = package(&[
        (9, 0, &set(34, 1)),
        (10, 0, &[set(34, 7), set(40, 3)].concat()),
        (9, 0, &[malformed]),
        (1, 1, &[]),
        (0, 0, &set(34, 1)),
        (0, 1, &[]),
        (u64::MAX, 1, &[]),
        (11, 0, &set(34, 1)),
        (9, 1, &[]),
        (10, 1, &[]),
        (12, 0, &set(34, 1)),
        (13, 0, &set(34, 1)),
        (9, 0, &set(34, 1)),
    ]);
    let mut tables = four_changes();
    tables.cutoff[0] = 10;
    let (tables, answers) = taken_in(6, tables, &package);
    let expected = [14, 8, 14, 14, 4, 4, 4, 0, 14, 0, 0, 9, 14];
    assert_eq!(answers[..13], expected);
    assert_eq!(answers[13..], [99; 499]);
    assert_eq!(tables.timestamps, [30, 10, 40, 20, 11, 12]);
    assert_eq!(tables.withdrawn, [0, 1, 1, 0, 0, 0]);
    assert_eq!(tables.cutoff, [10]);
}

#[test]
fn a_package_of_no_entries_touches_nothing() {
    let (tables, answers) = taken_in(6, four_changes(), &[0, 0]);
    assert_eq!(tables, four_changes());
    assert_eq!(answers, [99; ANSWERS]);
}

#[test]
fn a_package_of_512_entries_has_512_answers() {
    let (tables, answers) = taken_in(500, Tables::new(500), &with_count(512, 3));
    assert_eq!(answers[..500], [0; 500]);
    assert_eq!(answers[500..], [9; 12]);
    assert_eq!(tables.held, [500]);
}

#[test]
fn a_package_is_refused_1_then_2_then_3() {
    let mut tables = four_changes();
    let good = package_of_70_bytes();
    let bad = &good[..69];
    assert_refused(6, &tables, bad, ANSWERS, Refusal::Package);
    tables.status[0] = 3;
    assert_refused(6, &tables, bad, ANSWERS, Refusal::Form);
    assert_refused(6, &tables, &good, ANSWERS, Refusal::Form);
    assert_refused(5, &tables, bad, ANSWERS, Refusal::Length);
    for length in [0, 3, 511, 513, 1024] {
        assert_refused(6, &tables, bad, length, Refusal::Length);
        assert_refused(6, &four_changes(), &good, length, Refusal::Length);
    }
}

/// The layout is tested whole before any entry is carried out.
#[test]
fn a_breach_in_the_last_entry_leaves_the_first_out() {
    let mut package = package_of_70_bytes();
    package[2 + 2 * ENTRY_BYTES + 11] = 1;
    assert_refused(4, &Tables::new(4), &package, ANSWERS, Refusal::Package);
    for (entry, version) in [(2, 1), (1, 2)] {
        let mut package = package_of_70_bytes();
        set_version(&mut package, entry, version);
        assert_refused(4, &Tables::new(4), &package, ANSWERS, Refusal::Package);
    }
}

// Package out.

/// What package out answers, lent so many bytes that are all 99, and what it leaves in them.
fn written(n: usize, tables: &Tables, length: usize) -> (Result<usize, Refusal>, Vec<u8>) {
    let mut lent = vec![99; length];
    let answer = package_out(n, tables, &mut lent);
    (answer, lent)
}

/// The package that tables of the highest capacity write.
#[track_caller]
fn package_of(tables: &Tables) -> Vec<u8> {
    let (answer, mut lent) = written(MAX_CAPACITY, tables, MAX_BYTES);
    lent.truncate(answer.expect("the package passes no limit"));
    lent
}

#[track_caller]
fn assert_no_room(n: usize, tables: &Tables, length: usize) {
    let (answer, lent) = written(n, tables, length);
    assert_eq!(answer, Err(Refusal::Room));
    assert_eq!(lent, vec![99; length]);
}

/// Tables of the highest capacity that hold a change of so many stops for each of these numbers,
/// arrived by falling timestamp, of which the first so many places are withdrawn and every third has
/// version 1.
fn holding(stops_of: &[usize], withdrawn: usize) -> Tables {
    let held = stops_of.len();
    let change = |(place, &count)| Change {
        timestamp: (held - place) as u64,
        withdrawn: u16::from(place < withdrawn),
        version: u16::from(place % 3 == 0),
        program: stops(count),
        ..Change::default()
    };
    let changes: Vec<Change> = stops_of.iter().enumerate().map(change).collect();
    let order: Vec<u16> = (0..held as u16).rev().collect();
    tables(MAX_CAPACITY, &order, &changes)
}

/// The bytes that [`four_changes`] are written as.
const FOUR_CHANGES: [&[u8]; 11] = [
    &[5, 0],
    // 10 and 40 have version 1, but the withdrawal of 40 has version 0.
    &[10, 0, 0, 0, 0, 0, 0, 0, 0, 4, 1, 0],
    &[20, 0, 0, 0, 0, 0, 0, 0, 0, 2, 0, 0],
    &[30, 0, 0, 0, 0, 0, 0, 0, 0, 2, 0, 0],
    &[40, 0, 0, 0, 0, 0, 0, 0, 0, 2, 1, 0],
    &[40, 0, 0, 0, 0, 0, 0, 0, 1, 0, 0, 0],
    // 10 sets 34 to 7 and 40 to 3.
    &[1, 0, 0, 0, 7, 0, 0, 0, 13, 0, 0, 0, 34, 0, 0, 0],
    &[1, 0, 0, 0, 3, 0, 0, 0, 13, 0, 0, 0, 40, 0, 0, 0],
    // 20 sets 34 to 9, 30 copies 34 to 50, 40 sets 34 to -5.
    &[1, 0, 0, 0, 9, 0, 0, 0, 13, 0, 0, 0, 34, 0, 0, 0],
    &[11, 0, 0, 0, 34, 0, 0, 0, 13, 0, 0, 0, 50, 0, 0, 0],
    &[1, 0, 0, 0, 251, 255, 255, 255, 13, 0, 0, 0, 34, 0, 0, 0],
];

#[test]
fn four_changes_are_written() {
    let expected = FOUR_CHANGES.concat();
    assert_eq!(expected.len(), 142);
    for length in [142, 143, 200, MAX_BYTES, MAX_BYTES + 1] {
        let (answer, lent) = written(6, &four_changes(), length);
        assert_eq!(answer, Ok(142));
        assert_eq!(lent[..142], expected);
        assert_eq!(lent[142..], vec![99; length - 142]);
    }
    for length in [0, 1, 2, 12, 141] {
        assert_no_room(6, &four_changes(), length);
    }
}

#[test]
fn only_timestamps_flags_versions_and_programs_are_written() {
    let mut tables = four_changes();
    tables.status[..4].copy_from_slice(&[2, 2, 1, 1]);
    tables.written[0] = 99;
    tables.seen[0] = 99;
    tables.view.fill(99);
    let (answer, lent) = written(6, &tables, 142);
    assert_eq!((answer, lent), (Ok(142), FOUR_CHANGES.concat()));
    // As if no change had had a turn.
    for place in 0..4 {
        tables.status[place] = 0;
        tables.replace_lists(place, &[], &[]);
    }
    let (answer, lent) = written(6, &tables, 142);
    assert_eq!((answer, lent), (Ok(142), FOUR_CHANGES.concat()));
}

#[test]
fn where_nothing_is_held_a_package_of_no_entries_is_written() {
    assert_eq!(written(1, &Tables::new(1), 3), (Ok(2), vec![0, 0, 99]));
    assert_eq!(written(1, &Tables::new(1), 2), (Ok(2), vec![0, 0]));
    for length in [0, 1] {
        assert_no_room(1, &Tables::new(1), length);
    }
}

#[test]
fn timestamps_are_written_low_byte_first() {
    let change = |timestamp| Change {
        timestamp,
        withdrawn: 1,
        ..Change::default()
    };
    let changes = [change(u64::MAX - 1), change(0x0807_0605_0403_0201)];
    let expected = [
        &[4, 0][..],
        &[1, 2, 3, 4, 5, 6, 7, 8, 0, 0, 0, 0],
        &[254, 255, 255, 255, 255, 255, 255, 255, 0, 0, 0, 0],
        &[1, 2, 3, 4, 5, 6, 7, 8, 1, 0, 0, 0],
        &[254, 255, 255, 255, 255, 255, 255, 255, 1, 0, 0, 0],
    ];
    let package = package_of(&tables(MAX_CAPACITY, &[1, 0], &changes));
    assert_eq!(package, expected.concat());
}

#[test]
fn what_is_written_is_taken_in() {
    let tables = holding(&[3, 0, 32, 1, 0], 2);
    let package = package_of(&tables);
    let (filled, answers) = taken_in(5, Tables::new(5), &package);
    assert_eq!(answers[..7], [DONE; 7]);
    assert_eq!(answers[7..], [99; 505]);
    assert_eq!(filled.timestamps, [1, 2, 3, 4, 5]);
    assert_eq!(filled.lengths, [0, 1, 32, 0, 3]);
    assert_eq!(filled.withdrawn, [0, 0, 0, 1, 1]);
    assert_eq!(filled.versions, [0, 1, 0, 0, 1]);
}

/// "a 16-bit count k, 0 to 512": of held changes and withdrawn ones.
#[test]
fn a_package_of_512_entries_is_written_and_none_of_513() {
    for (held, withdrawn) in [(512, 0), (511, 1), (256, 256)] {
        let package = package_of(&holding(&vec![0; held], withdrawn));
        assert_eq!(package.len(), 2 + 512 * ENTRY_BYTES);
        let entries = entries(&package).expect("the layout is right");
        let changes = entries.iter();
        let changes = changes.filter(|entry| matches!(entry, Entry::Change { .. }));
        assert_eq!((entries.len(), changes.count()), (512, held));
    }
    for (held, withdrawn) in [(513, 0), (512, 1), (257, 256), (4096, 0), (4096, 4096)] {
        let tables = holding(&vec![0; held], withdrawn);
        assert_no_room(MAX_CAPACITY, &tables, 2 * MAX_BYTES);
    }
}

/// "Its length is at most 65,535": 2 + 12 k + 8 s, for k entries and s instructions, leaves 2
/// modulo 4.
#[test]
fn a_package_of_65534_bytes_is_written_and_none_of_65538() {
    let with = |last: usize, withdrawn| {
        let mut stops_of = vec![32; 245];
        stops_of[244] = last;
        holding(&stops_of, withdrawn)
    };
    assert_eq!(package_of(&with(16, 0)).len(), 65_534);
    assert_eq!(written(MAX_CAPACITY, &with(16, 0), 65_534).0, Ok(65_534));
    assert_no_room(MAX_CAPACITY, &with(16, 0), 65_533);
    // 246 entries and 7,823 instructions.
    assert_eq!(2 + 12 * 246 + 8 * (32 * 244 + 15), 65_538);
    for (last, withdrawn) in [(15, 1), (16, 1), (17, 0), (32, 245)] {
        assert_no_room(MAX_CAPACITY, &with(last, withdrawn), 2 * MAX_BYTES);
    }
    assert_eq!(package_of(&with(13, 2)).len(), 65_534);
}

#[test]
fn a_package_is_not_written_for_1_then_2_then_12() {
    let mut tables = four_changes();
    assert_eq!(written(6, &tables, 141).0, Err(Refusal::Room));
    tables.versions[0] = 2;
    for length in [0, 141, 142] {
        assert_eq!(
            written(6, &tables, length),
            (Err(Refusal::Form), vec![99; length])
        );
        for n in [0, 5, 7, 4097] {
            assert_eq!(
                written(n, &tables, length),
                (Err(Refusal::Length), vec![99; length])
            );
        }
    }
}
