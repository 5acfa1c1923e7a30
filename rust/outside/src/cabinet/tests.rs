use super::*;
use crate::examples::{add, copy, package, package_of_70_bytes, set, set_version};
use crate::program::Instruction;

#[test]
fn the_listing_of_the_70_bytes() {
    let expected = "\
entry 0 taken
entry 1 taken
entry 2 refused 10
turn 10 ran
turn 20 ran
setting 34 7
setting 50 7
";
    assert_eq!(listing(&package_of_70_bytes()), expected);
}

#[test]
fn a_bad_package_gives_one_line() {
    let good = package_of_70_bytes();
    for length in 0..good.len() {
        assert_eq!(listing(&good[..length]), "package refused 3\n");
    }
    let mut longer = good;
    longer.resize(70_000, 0);
    assert_eq!(listing(&longer), "package refused 3\n");
}

#[test]
fn a_package_of_no_entries_gives_nothing() {
    assert_eq!(listing(&[0, 0]), "");
}

#[test]
fn every_word_of_an_entry_and_of_a_turn() {
    let package = package(&[
        (u64::MAX - 1, 0, &set(1023, i32::MIN)),
        (256, 0, &add(0, -1)),
        (256, 0, &add(0, -1)),
        (1, 0, &copy(1, 2)),
        (1, 1, &[]),
        (0, 1, &[]),
        (
            7,
            0,
            &[Instruction {
                op: 18,
                ..Instruction::default()
            }],
        ),
    ]);
    let expected = "\
entry 0 taken
entry 1 taken
entry 2 held
entry 3 taken
entry 4 withdrawn
entry 5 refused 4
entry 6 refused 7
turn 1 cleared
turn 256 ran
turn 18446744073709551614 ran
setting 0 -1
setting 1023 -2147483648
";
    assert_eq!(listing(&package), expected);
}

/// "`turn 10 faulted 2` where the third instruction broke off" (document 02, R-2).
#[test]
fn a_turn_that_faults_is_listed_with_the_place() {
    let package = package(&[
        (20, 0, &copy(34, 51)),
        (10, 0, &[set(34, 7), copy(34, 51)].concat()),
    ]);
    let expected = "\
entry 0 taken
entry 1 taken
turn 10 faulted 2
turn 20 ran
setting 51 1
";
    assert_eq!(listing(&package), expected);
}

/// The package of the test before with 10 by version 1 (document 02, R-6), and with a version that
/// there is not.
#[test]
fn each_change_is_listed_by_its_own_version() {
    let mut package = package(&[
        (20, 0, &copy(34, 51)),
        (10, 0, &[set(34, 7), copy(34, 51)].concat()),
    ]);
    set_version(&mut package, 1, 1);
    let expected = "\
entry 0 taken
entry 1 taken
turn 10 ran
turn 20 ran
setting 34 7
setting 51 7
";
    assert_eq!(listing(&package), expected);
    set_version(&mut package, 1, 2);
    assert_eq!(listing(&package), "package refused 3\n");
}

#[test]
fn the_capacity_is_128() {
    let program = set(34, 0);
    let entries: Vec<(u64, u8, &[Instruction])> = (1..=130)
        .map(|timestamp| (timestamp, 0, &program[..]))
        .collect();
    let listing = listing(&package(&entries));
    let lines: Vec<&str> = listing.lines().collect();
    assert_eq!(
        lines[127..130],
        [
            "entry 127 taken",
            "entry 128 refused 9",
            "entry 129 refused 9"
        ]
    );
    assert_eq!(lines[130], "turn 1 ran");
    assert_eq!(lines[257..], ["turn 128 ran", "setting 34 0"]);
}

#[test]
fn settings_that_differ_from_their_start_are_listed() {
    let package = package(&[(
        10,
        0,
        &[set(2, 0), set(3, 0), set(18, 1), set(19, 1), set(1010, -1)].concat(),
    )]);
    let expected = "\
entry 0 taken
turn 10 ran
setting 2 0
setting 19 1
setting 1010 -1
";
    assert_eq!(listing(&package), expected);
}
