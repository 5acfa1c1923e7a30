//! Every form of answer, and every refusal.

use crate::programs::{copy, package, package_of_versions, set, take_in, take_in_version};
use crate::{assert_answers, printed, write_file};

/// A list with these values at these places, and else 0.
fn list(length: usize, values: &[(usize, i32)]) -> String {
    let mut list = vec!["0".to_string(); length];
    for (place, value) in values {
        list[*place] = value.to_string();
    }
    format!("[{}]", list.join(", "))
}

/// The 1,024 settings: these, and the others at their start, 1 for the untagged VLAN of each port.
fn settings(values: &[(usize, i32)]) -> String {
    let start = (0..64).map(|port| (16 * port + 2, 1));
    list(
        1024,
        &start.chain(values.iter().copied()).collect::<Vec<_>>(),
    )
}

#[test]
fn every_form_of_answer() {
    let of_three = package(&[(10, 0, &set(34, 7)), (10, 1, ""), (77, 1, "")]);
    assert_answers(
        &[],
        &[
            ("set_up", "done"),
            ("take_in 5 -", "done"),
            ("take_in 5 -", "held"),
            ("standing 5", "standing 0 0"),
            ("turn", "ran 5"),
            ("turn", "idle"),
            (&take_in(30, copy(34, 50)), "done"),
            ("drain", r#"done by console {"120": 1}"#),
            (&take_in(10, set(34, 7)), "done"),
            ("turn", "ran 10"),
            ("standing 30", "standing 2 0"),
            (&take_in(20, set(34, 1)), "done"),
            ("turn", "ran 20"),
            ("turn", "stood 30"),
            ("standing 30", "standing 1 0"),
            ("value_as_of 20 34", "value 7"),
            ("value_as_of 21 34", "value 1"),
            ("value_as_of 10 34", "value 1"),
            ("value_as_of 10 35", "value 0"),
            ("withdraw 10", "done"),
            ("standing 10", "standing 2 1"),
            ("turn", "cleared 10"),
            ("standing 10", "standing 1 1"),
            (&take_in(40, set(60, -2147483648)), "done"),
            ("withdraw 40", "done"),
            ("standing 40", "standing 0 1"),
            (&take_in(45, set(60, 1) + &copy(60, 61)), "done"),
            ("withdraw 20", "done"),
            ("turn", "cleared 20"),
            ("turn", "cleared 40"),
            ("turn", "faulted 45 2"),
            ("standing 45", "standing 1 0"),
            (&take_in(50, set(61, -2147483648)), "done"),
            ("withdraw 45", "done"),
            ("drain", r#"done by console {"182": 1, "200": 1}"#),
            ("drain", "done by console {}"),
            ("current 61", "value -2147483648"),
            (
                "plain_run",
                &format!("done {}", settings(&[(61, i32::MIN)])),
            ),
            ("start_values", &format!("done {}", settings(&[]))),
            (
                &format!("take_in_package {of_three}"),
                "done answers [255, 11, 10]",
            ),
            ("take_in_package 0000", "done answers []"),
            ("withdraw 77", "refused 10"),
            ("set_up", "done"),
            ("package_out 2", "length 2 0000"),
        ],
    );
}

/// Two drains with these totals: in the first three changes run, in the second four run, two stand,
/// one is cleared and three fault. `at` has the timestamps of the changes 10 to 80.
#[track_caller]
fn assert_totals(at: impl Fn(u64) -> u64, first: &str, second: &str) {
    let twice = set(53, 1) + &set(53, 1);
    let ran = format!("ran {}", at(10));
    let [first, second] = [first, second].map(|totals| format!("done by console {totals}"));
    let calls = [
        (take_in(at(30), copy(34, 50)), "done"),
        (take_in(at(40), copy(34, 51)), "done"),
        (take_in(at(50), set(52, 1)), "done"),
        ("drain".to_string(), &first),
        // 10 marks 30 and 40, and 20 lets them stand. 60, 70 and 80 write 53 twice.
        (take_in(at(10), set(34, 7)), "done"),
        ("turn".to_string(), &ran),
        (take_in(at(20), set(34, 1)), "done"),
        (format!("withdraw {}", at(50)), "done"),
        (take_in(at(60), &twice), "done"),
        (take_in(at(70), &twice), "done"),
        (take_in(at(80), &twice), "done"),
        (take_in(at(55), set(54, 1)), "done"),
        (take_in(at(56), set(54, 2)), "done"),
        (take_in(at(57), set(54, 3)), "done"),
        ("drain".to_string(), &second),
    ];
    assert_answers(&[], &calls);
}

/// The totals of one console are four numbers other than 0, from place console × 4.
#[test]
fn totals_in_order() {
    for (console, first, second) in [
        (0, r#"{"0": 3}"#, r#"{"0": 4, "1": 2, "2": 1, "3": 3}"#),
        (1, r#"{"4": 3}"#, r#"{"4": 4, "5": 2, "6": 1, "7": 3}"#),
        (
            255,
            r#"{"1020": 3}"#,
            r#"{"1020": 4, "1021": 2, "1022": 1, "1023": 3}"#,
        ),
    ] {
        assert_totals(|time| 256 * time + console, first, second);
    }
}

/// Each change is of another console.
#[test]
fn totals_of_many_consoles() {
    let second = [
        r#""80": 1, "121": 1, "161": 1, "202": 1, "220": 1, "224": 1, "228": 1"#,
        r#""243": 1, "283": 1, "323": 1"#,
    ];
    assert_totals(
        |time| time,
        r#"{"120": 1, "160": 1, "200": 1}"#,
        &format!("{{{}}}", second.join(", ")),
    );
}

#[test]
fn tables_after_a_change() {
    let taken_in = take_in_version(10, copy(34, 50), 1);
    let script = ["set_up", &taken_in, "drain"].join("\n");
    let lines = printed(&["--n", "2"], &format!("{script}\ntables\n"));
    let program = [11, 0, 0, 0, 34, 0, 0, 0, 13, 0, 0, 0, 50];
    let program: Vec<(usize, i32)> = program.into_iter().enumerate().collect();
    let expected = [
        ("held", list(1, &[(0, 1)])),
        ("timestamps", list(2, &[(0, 10)])),
        ("order", list(2, &[])),
        ("status", list(2, &[(0, 1)])),
        ("withdrawn", list(2, &[])),
        ("length", list(2, &[(0, 2)])),
        ("programs", list(512, &program)),
        ("read_count", list(2, &[(0, 1)])),
        ("write_count", list(2, &[(0, 1)])),
        ("read_settings", list(64, &[(0, 34)])),
        ("seen_values", list(64, &[(0, 1)])),
        ("write_settings", list(64, &[(0, 50)])),
        ("written_values", list(64, &[(0, 1)])),
        ("view", settings(&[])),
        ("version", list(2, &[(0, 1)])),
        ("cutoff", list(1, &[])),
        ("kept", settings(&[])),
    ];
    let expected = expected.map(|(key, list)| format!("\"{key}\": {list}"));
    let drained = r#"done by console {"40": 1}"#;
    let expected = format!("done\ndone\n{drained}\n{{{}}}\n", expected.join(", "));
    assert_eq!(lines, expected);
}

/// The runner begins with tables that are set up.
#[test]
fn tables_need_not_be_set_up() {
    assert_eq!(
        printed(&["--n", "3"], "tables\n"),
        printed(&["--n", "3"], "set_up\ntables\n").replace("done\n", "")
    );
    assert_answers(
        &[],
        &[
            (take_in(10, set(34, 7)), "done"),
            ("drain".to_string(), r#"done by console {"40": 1}"#),
            ("current 34".to_string(), "value 7"),
            ("set_up".to_string(), "done"),
            ("current 34".to_string(), "value 1"),
            ("standing 10".to_string(), "refused 10"),
        ],
    );
}

/// Refusals 1 and 2 of every call are in `loading`.
#[test]
fn every_refusal() {
    let wrong = "1200000000000000";
    assert_answers(
        &["--n", "2"],
        &[
            ("take_in_package 0000 len511", "refused 1"),
            ("drain len1023", "refused 1"),
            ("take_in_package -", "refused 3"),
            ("take_in_package 00", "refused 3"),
            ("take_in_package 000000", "refused 3"),
            ("take_in_package 0100", "refused 3"),
            ("take_in 0 -", "refused 4"),
            ("take_in 18446744073709551615 -", "refused 4"),
            ("withdraw 0", "refused 4"),
            ("value_as_of 0 34", "refused 4"),
            ("value_as_of 18446744073709551615 34", "value 1"),
            ("standing 18446744073709551615", "refused 4"),
            ("current 1024", "refused 5"),
            ("current 65536", "refused 5"),
            ("current 4294967296", "refused 5"),
            ("current 18446744073709551615", "refused 5"),
            ("value_as_of 5 1024", "refused 5"),
            ("take_in 5 00", "refused 6"),
            (&take_in(5, "00".repeat(264)), "refused 6"),
            ("take_in 5 00 2", "refused 6"),
            ("take_in 5 - 2", "refused 13"),
            ("take_in 5 - 65535", "refused 13"),
            ("take_in 0 - 2", "refused 4"),
            (&take_in_version(5, wrong, 2), "refused 13"),
            (&take_in(5, wrong), "refused 7"),
            (&take_in_version(5, wrong, 1), "refused 7"),
            ("take_in 5 -", "done"),
            ("take_in 5 - 1", "refused 8"),
            ("take_in 5 - 2", "refused 13"),
            ("take_in 5 - 0", "held"),
            (&take_in(5, set(34, 7)), "refused 8"),
            ("take_in 6 -", "done"),
            ("take_in 7 -", "refused 9"),
            ("take_in 6 -", "held"),
            ("withdraw 7", "refused 10"),
            ("standing 7", "refused 10"),
            ("withdraw 6", "done"),
            ("withdraw 6", "refused 11"),
            (
                &format!("take_in_package {}", package(&[(8, 0, wrong), (8, 0, "")])),
                "done answers [7, 9]",
            ),
            // Two changes and a withdrawal.
            ("package_out 37", "refused 12"),
            ("cutoff 0", "refused 4"),
            ("cutoff 18446744073709551615", "refused 4"),
            ("cutoff 6", "refused 15"),
            ("cutoff 5", "done"),
            ("cutoff 4", "refused 14"),
            ("cutoff 0", "refused 4"),
            ("withdraw 0", "refused 4"),
            ("take_in 4 00 2", "refused 14"),
            ("withdraw 4", "refused 14"),
            ("value_as_of 4 1024", "refused 14"),
            ("standing 4", "refused 14"),
            (
                &format!("take_in_package {}", package(&[(4, 0, wrong), (4, 1, "")])),
                "done answers [14, 14]",
            ),
        ],
    );
    write_file(
        "held_2.json",
        printed(&["--n", "2"], "tables\n").replacen("[0]", "[2]", 1),
    );
    assert_answers(
        &["--n", "2"],
        &[
            ("load held_2.json", "done"),
            ("turn", "refused 2"),
            ("drain", "refused 2"),
            ("drain len1023", "refused 1"),
        ],
    );
}

/// The same bytes, of version 0 and of version 1, taken in one by one and in packages.
#[test]
fn changes_of_both_versions() {
    let program = set(34, 7) + &copy(34, 50) + &set(34, 8);
    let entry = |timestamp, version| (timestamp, 0, version, program.as_str());
    let taking = |entries: &[_]| format!("take_in_package {}", package_of_versions(entries));
    let written = package_of_versions(&[entry(10, 1), entry(20, 0), entry(30, 1)]);
    assert_answers(
        &["--n", "3"],
        &[
            ("set_up", "done"),
            (&take_in(20, &program), "done"),
            (&take_in_version(20, &program, 1), "refused 8"),
            (&take_in_version(20, &program, 2), "refused 13"),
            (&take_in_version(20, &program, 0), "held"),
            (&take_in_version(10, &program, 1), "done"),
            (&take_in(10, &program), "refused 8"),
            ("turn", "ran 10"),
            ("turn", "faulted 20 2"),
            ("current 34", "value 8"),
            ("current 50", "value 7"),
            (
                &taking(&[entry(30, 1), entry(10, 1), entry(10, 0), entry(40, 1)]),
                "done answers [0, 255, 8, 9]",
            ),
            (&taking(&[entry(10, 1), entry(40, 2)]), "refused 3"),
            (&taking(&[entry(10, 1), (10, 1, 1, "")]), "refused 3"),
            ("drain", r#"done by console {"120": 1}"#),
            (
                "plain_run",
                &format!("done {}", settings(&[(34, 8), (50, 7)])),
            ),
            ("package_out 182", &format!("length 182 {written}")),
        ],
    );
}

/// 30, which arrived last, stays; what 10 and 20 leave is kept, and their places take new changes.
#[test]
fn a_cutoff() {
    let twice = set(50, 1) + &set(50, 2);
    let changes = [
        take_in(10, set(34, 7)),
        take_in_version(20, twice, 1),
        take_in(30, copy(34, 51)),
    ];
    let kept = settings(&[(34, 7), (50, 2)]);
    assert_answers(
        &["--n", "3"],
        &[
            (changes[0].as_str(), "done"),
            (&changes[1], "done"),
            (&changes[2], "done"),
            ("take_in 40 -", "refused 9"),
            ("cutoff 30", "refused 15"),
            ("drain", r#"done by console {"40": 1, "80": 1, "120": 1}"#),
            ("cutoff 30", "done"),
            (&take_in(29, set(34, 9)), "refused 14"),
            (&take_in(40, copy(50, 52)), "done"),
            (&take_in(35, set(34, 8)), "done"),
            ("take_in 50 -", "refused 9"),
            ("value_as_of 30 50", "value 2"),
            ("drain", r#"done by console {"140": 1, "160": 1}"#),
            (
                "plain_run",
                &format!("done {}", settings(&[(34, 8), (50, 2), (51, 7), (52, 2)])),
            ),
            ("current 52", "value 2"),
            ("withdraw 35", "done"),
            ("cutoff 30", "done"),
            ("cutoff 36", "refused 15"),
            ("turn", "cleared 35"),
            ("current 34", "value 7"),
            ("cutoff 50", "done"),
            ("cutoff 49", "refused 14"),
            ("standing 30", "refused 14"),
        ],
    );

    let script = [&changes.join("\n"), "drain", "cutoff 30", "tables"].join("\n");
    let printed = printed(&["--n", "3"], &script);
    let tables = printed.lines().last().expect("the tables are printed");
    let program = [11, 0, 0, 0, 34, 0, 0, 0, 13, 0, 0, 0, 51];
    let program: Vec<(usize, i32)> = program.into_iter().enumerate().collect();
    for (key, list) in [
        ("held", list(1, &[(0, 1)])),
        ("timestamps", list(3, &[(0, 30)])),
        ("order", list(3, &[])),
        ("programs", list(3 * 256, &program)),
        ("written_values", list(3 * 32, &[(0, 7)])),
        ("view", settings(&[(34, 7), (50, 2), (51, 7)])),
        ("version", list(3, &[])),
        ("cutoff", list(1, &[(0, 30)])),
        ("kept", kept),
    ] {
        let member = format!("\"{key}\": {list}");
        assert!(tables.contains(&member), "{member} in {tables}");
    }
}

/// The lent answer slice must have 512 bytes, whatever the package is.
#[test]
fn length_of_the_answer_slice() {
    let package = package(&[(10, 0, &set(34, 7)), (20, 1, "")]);
    let line = |length: &str| format!("take_in_package {package} {length}");
    assert_answers(
        &[],
        &[
            (line("len0"), "refused 1"),
            (line("len2"), "refused 1"),
            (line("len511"), "refused 1"),
            (line("len513"), "refused 1"),
            (line("len66048"), "refused 1"),
            ("take_in_package - len0".to_string(), "refused 1"),
            ("standing 10".to_string(), "refused 10"),
            (line("len512"), "done answers [0, 10]"),
            ("standing 10".to_string(), "standing 0 0"),
            (line("len511"), "refused 1"),
            (line("len0512"), "done answers [255, 10]"),
            (line(""), "done answers [255, 10]"),
        ],
    );
}

/// The lent slice must have 1,024 totals, whether changes wait or not.
#[test]
fn length_of_the_slice_of_totals() {
    assert_answers(
        &[],
        &[
            ("drain len1023", "refused 1"),
            ("drain len1024", "done by console {}"),
            (&take_in(10, set(34, 7)), "done"),
            ("drain len0", "refused 1"),
            ("drain len4", "refused 1"),
            ("drain len1023", "refused 1"),
            ("drain len1025", "refused 1"),
            ("drain len2048", "refused 1"),
            ("drain len66560", "refused 1"),
            ("standing 10", "standing 0 0"),
            ("drain len01024", r#"done by console {"40": 1}"#),
            ("standing 10", "standing 1 0"),
            ("drain len1025", "refused 1"),
            ("drain", "done by console {}"),
        ],
    );
}

/// A package of 512 entries has 512 answers. Its changes are two of each console.
#[test]
fn the_most_entries() {
    let entries: Vec<(u64, u8, &str)> = (1..=512).map(|timestamp| (timestamp, 0, "")).collect();
    let line = format!("take_in_package {}", package(&entries));
    let answers = [vec!["0"; 512], vec!["255"; 512]];
    let [first, second] = answers.map(|answers| format!("done answers [{}]", answers.join(", ")));
    let totals: Vec<String> = (0..256)
        .map(|console| format!("\"{}\": 2", 4 * console))
        .collect();
    let drained = format!("done by console {{{}}}", totals.join(", "));
    assert_answers(
        &["--n", "512"],
        &[
            (&line, &first),
            (&line, &second),
            (&"drain".to_string(), &drained),
        ],
    );
}

/// The lent slice may have any length. 0xAB and more are two digits, in lower case.
#[test]
fn a_package_out() {
    let (first, second) = (copy(34, 0xAB), set(34, -2));
    let entries = [
        (10, 0, second.as_str()),
        (0xCDEF, 0, first.as_str()),
        (10, 1, ""),
    ];
    let written = package(&entries);
    assert_eq!(written.len(), 2 * 70);
    assert!(written.contains("ab") && written.contains("efcd") && written.contains("feff"));
    let answer = format!("length 70 {written}");
    let (of_no_entries, refused) = ("length 2 0000", "refused 12");
    assert_answers(
        &["--n", "2"],
        &[
            ("package_out 0", refused),
            ("package_out 1", refused),
            ("package_out 2", of_no_entries),
            ("package_out 65535", of_no_entries),
            ("package_out 1000000", of_no_entries),
            (&take_in(0xCDEF, &first), "done"),
            ("drain", r#"done by console {"956": 1}"#),
            (&take_in(10, &second), "done"),
            ("withdraw 10", "done"),
            ("package_out 0", refused),
            ("package_out 69", refused),
            ("package_out 70", &answer),
            ("package_out 000071", &answer),
            ("package_out 70000", &answer),
            ("standing 10", "standing 0 1"),
            ("drain", r#"done by console {"42": 1}"#),
            ("package_out 70", &answer),
            // What was written is taken in.
            ("set_up", "done"),
            (
                &format!("take_in_package {written}"),
                "done answers [0, 0, 0]",
            ),
            ("package_out 70", &answer),
            (
                &format!("take_in_package {written}"),
                "done answers [255, 255, 11]",
            ),
            ("drain", r#"done by console {"42": 1, "956": 1}"#),
            ("package_out 70", &answer),
        ],
    );
}

/// 512 entries are let through, 513 are not, whether changes or withdrawals.
#[test]
fn the_most_entries_of_a_package_out() {
    let change = |timestamp| (timestamp, 0, "");
    let withdrawal = |timestamp| (timestamp, 1, "");
    for (held, withdrawn) in [(512, 0), (256, 256), (511, 1)] {
        let changes = (1..=held).map(change);
        let entries: Vec<_> = changes.chain((1..=withdrawn).map(withdrawal)).collect();
        let written = package(&entries);
        let calls = [
            (
                format!("take_in_package {written}"),
                format!("done answers [{}]", vec!["0"; 512].join(", ")),
            ),
            (
                "package_out 65535".to_string(),
                format!("length 6146 {written}"),
            ),
            (take_in(600, "-"), "done".to_string()),
            ("package_out 65535".to_string(), "refused 12".to_string()),
        ];
        let calls = calls.each_ref();
        let calls = calls.map(|(line, answer)| (line, answer.as_str()));
        assert_answers(&["--n", "600"], &calls);
    }
}

/// 65,534 bytes are let through. No package has one byte more, and 65,538 are too many.
#[test]
fn the_most_bytes_of_a_package_out() {
    let long = "00".repeat(256);
    let lines: Vec<String> = (1..=244)
        .map(|timestamp| take_in(timestamp, &long))
        .collect();
    let of_last = |instructions: usize, rest: &str| {
        let last = take_in(245, "00".repeat(8 * instructions));
        let script = format!("{}\n{last}\n{rest}", lines.join("\n"));
        let printed = printed(&["--n", "300"], &script);
        let answers: Vec<String> = printed.lines().skip(245).map(str::to_string).collect();
        answers
    };
    let mut entries: Vec<(u64, u8, &str)> = (1..=244).map(|t| (t, 0, long.as_str())).collect();
    let last = "00".repeat(8 * 16);
    entries.push((245, 0, &last));
    let answer = format!("length 65534 {}", package(&entries));
    let rest = "package_out 65534\npackage_out 65533\npackage_out 100000\n";
    let answers = of_last(16, rest);
    assert!(answers == [answer.as_str(), "refused 12", &answer]);
    let answers = of_last(15, "package_out 65526\nwithdraw 7\npackage_out 100000\n");
    assert!(answers[0].starts_with("length 65526 f500"));
    assert_eq!(answers[1..], ["done", "refused 12"]);
}
