//! The lines that explain answers.

mod random;

use crate::outside_tables;
use crate::programs::{
    add, constant, copy, instruction, package, package_of_versions, read, set, take, take_in,
    take_in_version, write,
};
use crate::{printed, program, text, write_file};
use outside::tables::Tables;
use std::fs;
use std::io::{BufRead, BufReader, Write};

/// What is refused where a lent slice has another length.
const LENGTH: &str =
    "# refused 1: a lent slice has another length than stated, or the capacity is \
                      outside 1 to 4,096";

const IDLE: &str = "# no change is New or Invalid";

/// What the program prints for a script with `--explain`. But for the lines that begin with `#` it is
/// what it prints without.
#[track_caller]
fn explained(arguments: &[&str], script: &str) -> String {
    let explained = printed(&[arguments, &["--explain"]].concat(), script);
    let answers = explained.lines().filter(|line| !line.starts_with('#'));
    assert!(answers.eq(printed(arguments, script).lines()), "{script}");
    explained
}

/// Carries out calls, each with its answer and the lines that explain it.
#[track_caller]
fn assert_explained(arguments: &[&str], calls: &[(&str, &[&str])]) {
    let lines: Vec<&str> = calls.iter().map(|(line, _)| *line).collect();
    let explained = explained(arguments, &lines.join("\n"));
    let mut explained = explained.lines();
    for (line, expected) in calls {
        for expected in *expected {
            assert_eq!(explained.next(), Some(*expected), "{line}");
        }
    }
    assert_eq!(explained.next(), None);
}

#[test]
fn first_turns() {
    assert_explained(
        &[],
        &[
            (&take_in(30, set(36, 300)), &["done"]),
            (&take_in(10, set(36, 400) + &set(34, 5)), &["done"]),
            (
                "drain",
                &[
                    r#"done by console {"40": 1, "120": 1}"#,
                    "# 10 ran: it is New",
                    "#   changed port 2 vlan from 1 to 5",
                    "#   changed port 2 power from 0 to 400",
                    "# 30 ran: it is New",
                    "#   changed port 2 power from 400 to 300",
                ],
            ),
            (&take_in(20, set(36, 350)), &["done"]),
            (
                "turn",
                &[
                    "ran 20",
                    "# 20 ran: it is New",
                    "#   changed port 2 power from 400 to 350, up to 30, which wrote it",
                ],
            ),
            // It writes what is there.
            (&take_in(25, set(36, 350)), &["done"]),
            (
                "turn",
                &["ran 25", "# 25 ran: it is New", "#   no setting changed"],
            ),
            // 26 breaks off, and 40 has no instructions.
            (&take_in(26, copy(36, 36) + &set(36, 1)), &["done"]),
            ("take_in 40 -", &["done"]),
            (
                "drain",
                &[
                    r#"done by console {"107": 1, "160": 1}"#,
                    "# 26 faulted: it is New",
                    "#   it broke off at instruction 3, port 2 power = r0, and writes nothing: it writes a \
                     setting twice",
                    "#   no setting changed",
                    "# 40 ran: it is New",
                    "#   no setting changed",
                ],
            ),
            ("turn", &["idle", IDLE]),
            ("drain", &["done by console {}", IDLE]),
        ],
    );
}

/// Case P11 of document 01, as in `examples/power.calls`.
#[test]
fn power() {
    assert_explained(
        &[],
        &[
            ("set_up", &["done"]),
            (&take_in(10, set(36, 400)), &["done"]),
            (&take_in(30, take(36, 300, 37)), &["done"]),
            (
                "drain",
                &[
                    r#"done by console {"40": 1, "120": 1}"#,
                    "# 10 ran: it is New",
                    "#   changed port 2 power from 0 to 400",
                    "# 30 ran: it is New",
                    "#   changed port 2 power from 400 to 100",
                ],
            ),
            ("current 36", &["value 100"]),
            (&take_in(20, take(36, 200, 37)), &["done"]),
            (
                "turn",
                &[
                    "ran 20",
                    "# 20 ran: it is New",
                    "#   changed port 2 power from 400 to 200, up to 30, which wrote it",
                    "#   30 is Invalid now: it had read port 2 power",
                ],
            ),
            ("standing 30", &["standing 2 0"]),
            (
                "turn",
                &[
                    "ran 30",
                    "# 30 ran again: a value that it had read has changed",
                    "#   port 2 power: seen 400, now 200, written by 20",
                    "#   changed port 2 power from 100 to -100",
                    "#   changed port 2 alarm from 0 to 1",
                ],
            ),
            ("turn", &["idle", IDLE]),
            (
                "withdraw 20",
                &[
                    "done",
                    "# 20 is withdrawn: it waits for its turn, in which what it wrote is taken back",
                    "#   it wrote port 2 power 200",
                ],
            ),
            (
                "drain",
                &[
                    r#"done by console {"82": 1, "120": 1}"#,
                    "# 20 was cleared: it is withdrawn",
                    "#   changed port 2 power from 200 to 400, up to 30, which wrote it",
                    "#   30 is Invalid now: it had read port 2 power",
                    "# 30 ran again: a value that it had read has changed",
                    "#   port 2 power: seen 200, now 400, written by 10",
                    "#   changed port 2 power from -100 to 100",
                    "#   changed port 2 alarm from 1 to 0",
                ],
            ),
        ],
    );
}

/// No held change is left that wrote what 30 had read.
#[test]
fn back_to_the_value_before_all_held_changes() {
    assert_explained(
        &[],
        &[
            (&take_in(10, set(36, 400) + &set(34, 5)), &["done"]),
            (
                &take_in(30, copy(36, 52) + &copy(34, 50) + &copy(33, 49)),
                &["done"],
            ),
            (
                "drain",
                &[
                    r#"done by console {"40": 1, "120": 1}"#,
                    "# 10 ran: it is New",
                    "#   changed port 2 vlan from 1 to 5",
                    "#   changed port 2 power from 0 to 400",
                    "# 30 ran: it is New",
                    "#   changed port 3 vlan from 1 to 5",
                    "#   changed port 3 power from 0 to 400",
                ],
            ),
            (
                "withdraw 10",
                &[
                    "done",
                    "# 10 is withdrawn: it waits for its turn, in which what it wrote is taken back",
                    "#   it wrote port 2 power 400",
                    "#   it wrote port 2 vlan 5",
                ],
            ),
            (
                "turn",
                &[
                    "cleared 10",
                    "# 10 was cleared: it is withdrawn",
                    "#   changed port 2 vlan from 5 to 1",
                    "#   changed port 2 power from 400 to 0",
                    "#   30 is Invalid now: it had read port 2 vlan, port 2 power",
                ],
            ),
            (
                "turn",
                &[
                    "ran 30",
                    "# 30 ran again: a value that it had read has changed",
                    "#   port 2 power: seen 400, now 0, the value before all held changes",
                    "#   port 2 vlan: seen 5, now 1, the value before all held changes",
                    "#   changed port 3 vlan from 5 to 1",
                    "#   changed port 3 power from 400 to 0",
                ],
            ),
            // A cutoff keeps the value that is then before all held changes.
            (&take_in(20, set(36, -7)), &["done"]),
            (
                "turn",
                &[
                    "ran 20",
                    "# 20 ran: it is New",
                    "#   changed port 2 power from 0 to -7",
                    "#   30 is Invalid now: it had read port 2 power",
                ],
            ),
            ("cutoff 21", &["done"]),
            (
                "turn",
                &[
                    "ran 30",
                    "# 30 ran again: a value that it had read has changed",
                    "#   port 2 power: seen 0, now -7, the value before all held changes",
                    "#   changed port 3 power from 0 to -7",
                ],
            ),
        ],
    );
}

/// Case P7 of document 01, with a setting more that 30 reads.
#[test]
fn a_change_that_stands() {
    assert_explained(
        &[],
        &[
            (&take_in(30, copy(36, 52) + &copy(34, 50)), &["done"]),
            (
                "turn",
                &["ran 30", "# 30 ran: it is New", "#   no setting changed"],
            ),
            (&take_in(10, set(36, 400)), &["done"]),
            (
                "turn",
                &[
                    "ran 10",
                    "# 10 ran: it is New",
                    "#   changed port 2 power from 0 to 400",
                    "#   30 is Invalid now: it had read port 2 power",
                ],
            ),
            // 30 is Invalid already.
            (&take_in(20, set(36, 0)), &["done"]),
            (
                "drain",
                &[
                    r#"done by console {"80": 1, "121": 1}"#,
                    "# 20 ran: it is New",
                    "#   changed port 2 power from 400 to 0",
                    "# 30 stood: every value that it had read is again what it saw",
                    "#   port 2 power: seen 0, now 0, written by 20",
                    "#   port 2 vlan: seen 1, now 1, the value before all held changes",
                ],
            ),
        ],
    );
}

/// 40 writes the power of port 2 next, and is marked for it as well. 50, which had read the power that
/// 40 wrote, is marked for the VLAN alone.
#[test]
fn several_marked_changes() {
    assert_explained(
        &[],
        &[
            (&take_in(60, set(36, 9)), &["done"]),
            (&take_in(50, copy(36, 52) + &copy(34, 82)), &["done"]),
            (&take_in(40, add(36, 1)), &["done"]),
            (&take_in(30, copy(36, 68) + &copy(34, 66)), &["done"]),
            (&take_in(20, copy(34, 50) + &copy(35, 51)), &["done"]),
            ("take_in 10 -", &["done"]),
            (
                "drain",
                &[
                    r#"done by console {"40": 1, "80": 1, "120": 1, "160": 1, "200": 1, "240": 1}"#,
                    "# 10 ran: it is New",
                    "#   no setting changed",
                    "# 20 ran: it is New",
                    "#   no setting changed",
                    "# 30 ran: it is New",
                    "#   no setting changed",
                    "# 40 ran: it is New",
                    "#   changed port 2 power from 0 to 1",
                    "# 50 ran: it is New",
                    "#   changed port 3 power from 0 to 1",
                    "# 60 ran: it is New",
                    "#   changed port 2 power from 1 to 9",
                ],
            ),
            (
                &take_in(5, set(40, 3) + &set(36, 400) + &set(34, 5)),
                &["done"],
            ),
            (
                "turn",
                &[
                    "ran 5",
                    "# 5 ran: it is New",
                    "#   changed port 2 vlan from 1 to 5",
                    "#   changed port 2 power from 0 to 400, up to 40, which wrote it",
                    "#   changed port 2 mask 0 from 0 to 3",
                    "#   20 is Invalid now: it had read port 2 vlan",
                    "#   30 is Invalid now: it had read port 2 vlan, port 2 power",
                    "#   40 is Invalid now: it had read port 2 power",
                    "#   50 is Invalid now: it had read port 2 vlan",
                ],
            ),
        ],
    );
}

/// Each way to break off: by number in version 0, by register in both versions.
#[test]
fn faults() {
    let write_by = |a, b| instruction(14, a, b, 0, 0);
    let read_by = |a, b| instruction(12, a, b, 0, 0);
    let names_none = constant(1, 1024);
    let names_36 = constant(1, 36);
    let no_setting = "its register names no setting";
    let no_setting_or_written = "its register names no setting, or one that it has written";
    for (program, version, place, words, reason) in [
        (
            set(36, 7) + &read(1, 36),
            0,
            2,
            "r1 = port 2 power",
            "it reads a setting that it has written",
        ),
        (
            set(36, 7) + &write(1, 36),
            0,
            2,
            "port 2 power = r1",
            "it writes a setting twice",
        ),
        (
            names_none.clone() + &read_by(0, 1),
            0,
            1,
            "r0 = setting r1",
            no_setting_or_written,
        ),
        (
            names_none.clone() + &write_by(0, 1),
            0,
            1,
            "setting r1 = r0",
            no_setting_or_written,
        ),
        (
            set(36, 7) + &names_36 + &read_by(0, 1),
            0,
            3,
            "r0 = setting r1",
            no_setting_or_written,
        ),
        (
            set(36, 7) + &names_36 + &write_by(0, 1),
            0,
            3,
            "setting r1 = r0",
            no_setting_or_written,
        ),
        (
            names_none.clone() + &read_by(0, 1),
            1,
            1,
            "r0 = setting r1",
            no_setting,
        ),
        (
            set(36, 7) + &constant(1, -1) + &write_by(0, 1),
            1,
            3,
            "setting r1 = r0",
            no_setting,
        ),
    ] {
        let breaks_off = format!(
            "#   it broke off at instruction {place}, {words}, and writes nothing: {reason}"
        );
        assert_explained(
            &[],
            &[
                (&take_in_version(10, program, version), &["done"]),
                (
                    "turn",
                    &[
                        &format!("faulted 10 {place}"),
                        "# 10 faulted: it is New",
                        &breaks_off,
                        "#   no setting changed",
                    ],
                ),
            ],
        );
    }
}

/// 20 sets to 1 what setting 48 names: at first setting 36, then none, then 52.
#[test]
fn a_change_that_faults_when_run_again() {
    let program = read(0, 48) + &constant(1, 1) + &instruction(14, 1, 0, 0, 0);
    assert_explained(
        &[],
        &[
            (&take_in(10, set(48, 36)), &["done"]),
            (&take_in(20, program), &["done"]),
            (&take_in(30, copy(36, 37)), &["done"]),
            (
                "drain",
                &[
                    r#"done by console {"40": 1, "80": 1, "120": 1}"#,
                    "# 10 ran: it is New",
                    "#   changed port 3 field 0 from 0 to 36",
                    "# 20 ran: it is New",
                    "#   changed port 2 power from 0 to 1",
                    "# 30 ran: it is New",
                    "#   changed port 2 alarm from 0 to 1",
                ],
            ),
            (&take_in(15, set(48, 2000)), &["done"]),
            (
                "drain",
                &[
                    r#"done by console {"60": 1, "83": 1, "120": 1}"#,
                    "# 15 ran: it is New",
                    "#   changed port 3 field 0 from 36 to 2000",
                    "#   20 is Invalid now: it had read port 3 field 0",
                    "# 20 faulted: a value that it had read has changed",
                    "#   port 3 field 0: seen 36, now 2000, written by 15",
                    "#   it broke off at instruction 2, setting r0 = r1, and writes nothing: its register \
                     names no setting, or one that it has written",
                    "#   changed port 2 power from 1 to 0",
                    "#   30 is Invalid now: it had read port 2 power",
                    "# 30 ran again: a value that it had read has changed",
                    "#   port 2 power: seen 1, now 0, the value before all held changes",
                    "#   changed port 2 alarm from 1 to 0",
                ],
            ),
            (&take_in(16, set(48, 52)), &["done"]),
            (
                "drain",
                &[
                    r#"done by console {"64": 1, "80": 1}"#,
                    "# 16 ran: it is New",
                    "#   changed port 3 field 0 from 2000 to 52",
                    "#   20 is Invalid now: it had read port 3 field 0",
                    "# 20 ran again: a value that it had read has changed",
                    "#   port 3 field 0: seen 2000, now 52, written by 16",
                    "#   changed port 3 power from 0 to 1",
                ],
            ),
        ],
    );
}

#[test]
fn withdrawals() {
    let waits = ": it waits for its turn, in which what it wrote is taken back";
    let (of_valid, of_invalid, of_faulted) = (
        format!("# 10 is withdrawn{waits}"),
        format!("# 20 is withdrawn{waits}"),
        format!("# 30 is withdrawn{waits}"),
    );
    assert_explained(
        &[],
        &[
            (&take_in(10, set(36, 400) + &set(1023, -1)), &["done"]),
            (&take_in(20, copy(36, 3)), &["done"]),
            (&take_in(30, set(36, 1) + &set(36, 2)), &["done"]),
            (
                "drain",
                &[
                    r#"done by console {"40": 1, "80": 1, "123": 1}"#,
                    "# 10 ran: it is New",
                    "#   changed port 2 power from 0 to 400",
                    "#   changed port 63 mask 7 from 0 to -1",
                    "# 20 ran: it is New",
                    "#   changed port 0 field 3 from 0 to 400",
                    "# 30 faulted: it is New",
                    "#   it broke off at instruction 3, port 2 power = r0, and writes nothing: it writes a \
                     setting twice",
                    "#   no setting changed",
                ],
            ),
            (&take_in(15, set(36, 7)), &["done"]),
            (
                "turn",
                &[
                    "ran 15",
                    "# 15 ran: it is New",
                    "#   changed port 2 power from 400 to 7",
                    "#   20 is Invalid now: it had read port 2 power",
                ],
            ),
            (&take_in(40, set(36, 7)), &["done"]),
            (
                "withdraw 10",
                &[
                    "done",
                    &of_valid,
                    "#   it wrote port 2 power 400",
                    "#   it wrote port 63 mask 7 -1",
                ],
            ),
            (
                "withdraw 20",
                &["done", &of_invalid, "#   it wrote port 0 field 3 400"],
            ),
            ("withdraw 30", &["done", &of_faulted]),
            (
                "withdraw 40",
                &[
                    "done",
                    "# 40 is withdrawn before its first turn: it will not run",
                ],
            ),
            (
                "drain",
                &[
                    r#"done by console {"42": 1, "82": 1, "122": 1, "162": 1}"#,
                    "# 10 was cleared: it is withdrawn",
                    "#   changed port 2 power from 400 to 0, up to 15, which wrote it",
                    "#   changed port 63 mask 7 from -1 to 0",
                    "# 20 was cleared: it is withdrawn",
                    "#   changed port 0 field 3 from 400 to 0",
                    "# 30 was cleared: it is withdrawn",
                    "#   no setting changed",
                    "# 40 was cleared: it is withdrawn",
                    "#   no setting changed",
                ],
            ),
        ],
    );
}

#[test]
fn entries_of_a_package() {
    let wrong = "1200000000000000";
    let seven = set(34, 7);
    let entries = package_of_versions(&[
        (20, 0, 0, &copy(34, 50)),
        (10, 0, 1, &seven),
        (10, 0, 1, &seven),
        (10, 0, 0, &seven),
        (20, 1, 0, ""),
        (20, 1, 0, ""),
        (15, 1, 0, ""),
        (15, 0, 0, wrong),
        (0, 0, 0, ""),
        (u64::MAX, 1, 0, ""),
        (u64::MAX - 1, 0, 0, ""),
        (15, 0, 0, &seven),
        (20, 0, 0, &copy(34, 50)),
    ]);
    let below = package(&[(9, 0, ""), (9, 1, "")]);
    assert_explained(
        &["--n", "3"],
        &[
            (
                &format!("take_in_package {entries}"),
                &[
                    "done answers [0, 0, 255, 8, 0, 11, 10, 7, 4, 4, 0, 9, 255]",
                    "# entry 0: change 20 taken",
                    "# entry 1: change 10 taken",
                    "# entry 2: change 10 held already",
                    "# entry 3: change 10 refused 8: the timestamp is held with another program",
                    "# entry 4: change 20 withdrawn",
                    "# entry 5: withdrawal of 20 refused 11: the change is withdrawn already",
                    "# entry 6: withdrawal of 15 refused 10: the timestamp is not held",
                    "# entry 7: change 15 refused 7: an instruction of the program is wrong",
                    "# entry 8: change 0 refused 4: the timestamp is out of range",
                    "# entry 9: withdrawal of 18446744073709551615 refused 4: the timestamp is out \
                     of range",
                    "# entry 10: change 18446744073709551614 taken",
                    "# entry 11: change 15 refused 9: the tables are full",
                    "# entry 12: change 20 held already",
                ],
            ),
            ("cutoff 10", &["done"]),
            (
                &format!("take_in_package {below}"),
                &[
                    "done answers [14, 14]",
                    "# entry 0: change 9 refused 14: the timestamp is below the cutoff",
                    "# entry 1: withdrawal of 9 refused 14: the timestamp is below the cutoff",
                ],
            ),
            ("take_in_package 0000", &["done answers []"]),
        ],
    );
}

#[test]
fn every_refusal() {
    let tables = Tables {
        held: vec![2],
        ..Tables::new(2)
    };
    write_file("explained_refused.json", outside_tables::file(&tables));
    let waiting = "# 6 is withdrawn before its first turn: it will not run";
    assert_explained(
        &["--n", "2"],
        &[
            ("drain len3", &["refused 1", LENGTH]),
            ("take_in_package 0000 len511", &["refused 1", LENGTH]),
            (
                "take_in_package 00",
                &[
                    "refused 3",
                    "# refused 3: the package breaks its layout or length",
                ],
            ),
            (
                "value_as_of 0 34",
                &["refused 4", "# refused 4: the timestamp is out of range"],
            ),
            (
                "current 1024",
                &["refused 5", "# refused 5: there is no such setting"],
            ),
            (
                "take_in 5 00",
                &[
                    "refused 6",
                    "# refused 6: the program is over 256 bytes or no multiple of 8",
                ],
            ),
            (
                "take_in 5 1200000000000000",
                &[
                    "refused 7",
                    "# refused 7: an instruction of the program is wrong",
                ],
            ),
            (
                "take_in 5 - 2",
                &["refused 13", "# refused 13: the version is above 1"],
            ),
            ("take_in 5 -", &["done"]),
            ("take_in 5 -", &["held"]),
            (
                "take_in 5 - 1",
                &[
                    "refused 8",
                    "# refused 8: the timestamp is held with another program",
                ],
            ),
            ("take_in 6 -", &["done"]),
            (
                "take_in 7 -",
                &["refused 9", "# refused 9: the tables are full"],
            ),
            (
                "withdraw 7",
                &["refused 10", "# refused 10: the timestamp is not held"],
            ),
            ("withdraw 6", &["done", waiting]),
            (
                "withdraw 6",
                &[
                    "refused 11",
                    "# refused 11: the change is withdrawn already",
                ],
            ),
            (
                "package_out 0",
                &[
                    "refused 12",
                    "# refused 12: the package would have over 512 entries or 65,535 bytes, or does \
                     not fit into the lent slice",
                ],
            ),
            (
                "cutoff 6",
                &[
                    "refused 15",
                    "# refused 15: a New or Invalid change is stamped below the new cutoff",
                ],
            ),
            ("cutoff 5", &["done"]),
            (
                "standing 4",
                &["refused 14", "# refused 14: the timestamp is below the cutoff"],
            ),
            ("load explained_refused.json", &["done"]),
            (
                "turn",
                &["refused 2", "# refused 2: the tables are not in form"],
            ),
            (
                "drain",
                &["refused 2", "# refused 2: the tables are not in form"],
            ),
        ],
    );
    for call in ["set_up", "turn", "drain", "withdraw 10", "plain_run"] {
        for n in ["0", "4097"] {
            assert_explained(&["--n", n], &[(call, &["refused 1", LENGTH])]);
        }
    }
}

/// Tables in form that no calls leave: full lists of programs without instructions, an Invalid change
/// with empty lists, and timestamps at both ends.
#[test]
fn tables_that_no_calls_leave() {
    let mut tables = Tables {
        held: vec![3],
        timestamps: vec![5, u64::MAX - 1, 1],
        order: vec![2, 0, 1],
        status: vec![2, 1, 2],
        reads: vec![0, 32, 32],
        writes: vec![0, 0, 32],
        ..Tables::new(3)
    };
    // 1 had read settings 0 to 31 and written 32 to 63, which the highest one had read. Each saw, and
    // wrote, what was there but for the last.
    for entry in 0..32 {
        let (low, high) = (entry, 32 + entry);
        tables.sources[64 + entry] = low as u16;
        tables.seen[64 + entry] = tables.kept[low];
        for (settings, values, first) in [
            (&mut tables.targets, &mut tables.written, 64),
            (&mut tables.sources, &mut tables.seen, 32),
        ] {
            settings[first + entry] = high as u16;
            values[first + entry] = tables.kept[high];
        }
    }
    tables.seen[95] = 5;
    tables.written[95] = i32::MIN;
    tables.seen[63] = i32::MIN;
    write_file("explained_odd.json", outside_tables::file(&tables));
    assert_explained(
        &["--n", "3"],
        &[
            ("load explained_odd.json", &["done"]),
            (
                "turn",
                &[
                    "ran 1",
                    "# 1 ran again: a value that it had read has changed",
                    "#   port 1 mask 7: seen 5, now 0, the value before all held changes",
                    "#   changed port 3 mask 7 from -2147483648 to 0",
                    "#   18446744073709551614 is Invalid now: it had read port 3 mask 7",
                ],
            ),
            (
                "turn",
                &[
                    "stood 5",
                    "# 5 stood: every value that it had read is again what it saw",
                ],
            ),
            (
                "turn",
                &[
                    "ran 18446744073709551614",
                    "# 18446744073709551614 ran again: a value that it had read has changed",
                    "#   port 3 mask 7: seen -2147483648, now 0, the value before all held changes",
                    "#   no setting changed",
                ],
            ),
        ],
    );
}

#[test]
fn the_examples_keep_their_answers() {
    let examples = concat!(env!("CARGO_MANIFEST_DIR"), "/../../examples");
    let mut count = 0;
    for file in fs::read_dir(examples).expect("the examples are there") {
        let path = file.expect("its name can be read").path();
        let path = path.to_str().expect("it is UTF-8");
        if path.ends_with(".calls") {
            explained(&["--n", "4", path], "");
            count += 1;
        }
    }
    assert!(count > 0);
}

/// The explanation comes with its answer, before the next line is sent.
#[test]
fn explanations_come_at_once() {
    let mut child = program(&["--explain"]).spawn().expect("the program starts");
    let mut stdin = child.stdin.take().expect("its input is piped");
    let mut stdout = BufReader::new(child.stdout.take().expect("its output is piped"));
    for _ in 0..2 {
        stdin.write_all(b"turn\n").expect("the program reads");
        for expected in ["idle", IDLE] {
            let mut line = String::new();
            stdout.read_line(&mut line).expect("the program answers");
            assert_eq!(line, format!("{expected}\n"));
        }
    }
    drop(stdin);
    let output = child.wait_with_output().expect("the program ends");
    assert_eq!(text(&output.stderr), "");
    assert_eq!(output.status.code(), Some(0));
}
