//! Lines that cannot be read.

use crate::outside_tables;
use crate::{run, text, write_file, FOLDER};
use outside::tables::Tables;
use std::process::Output;

/// A script whose line 4 is this, after one call and before others.
fn script(line: &[u8]) -> Vec<u8> {
    [b"# a comment\nset_up\n\n", line, b"\nturn\nwhat\n"].concat()
}

/// Whether one call was answered, and the one after line 4 was not, with this message for line 4.
#[track_caller]
fn assert_stopped(output: &Output, message: &str) {
    assert_eq!(text(&output.stderr), format!("{message}\n"));
    assert_eq!(text(&output.stdout), "done\n", "{message}");
    assert_eq!(output.status.code(), Some(1), "{message}");
}

/// Asserts that the program stops at this line.
#[track_caller]
fn assert_unreadable(line: impl AsRef<[u8]>, message: &str) {
    let script = script(line.as_ref());
    assert_stopped(&run(&[], &script), &format!("line 4: {message}"));
}

#[test]
fn lines_that_are_no_calls() {
    assert_unreadable("what", r#"there is no call "what""#);
    assert_unreadable("Turn", r#"there is no call "Turn""#);
    assert_unreadable("withdraw", "TS is missing");
    assert_unreadable("cutoff", "TS is missing");
    assert_unreadable("take_in 10", "HEX is missing");
    assert_unreadable("current", "S is missing");
    assert_unreadable("package_out", "L is missing");
    assert_unreadable("load", "FILE is missing");
    assert_unreadable("turn 10", r#""10" is a word too many"#);
    assert_unreadable("take_in 10 - 1 1", r#""1" is a word too many"#);
    assert_unreadable("cutoff 10 34", r#""34" is a word too many"#);
    assert_unreadable("turn # a comment", r##""#" is a word too many"##);
    assert_unreadable("load my tables", r#""tables" is a word too many"#);
    assert_unreadable(
        "standing -1",
        r#"TS is not a number in decimal digits: "-1""#,
    );
    assert_unreadable(
        "withdraw 18446744073709551616",
        r#"TS is too large: "18446744073709551616""#,
    );
    assert_unreadable(
        "current 18446744073709551616",
        r#"S is too large: "18446744073709551616""#,
    );
    assert_unreadable(
        "take_in 10 - -1",
        r#"VERSION is not a number in decimal digits: "-1""#,
    );
    assert_unreadable("take_in 10 - 65536", r#"VERSION is too large: "65536""#);
    assert_unreadable("take_in 10 0d0", "HEX has an odd number of digits");
    assert_unreadable(
        "take_in_package 0x",
        "HEX has 'x', which is no hexadecimal digit",
    );
    assert_unreadable(
        "take_in_package 0000 511",
        r#"lenL is not len and a length: "511""#,
    );
    assert_unreadable(
        "take_in_package 0000 len",
        r#"the L of lenL is not a number in decimal digits: """#,
    );
    assert_unreadable(
        "take_in_package 0000 len18446744073709551616",
        r#"the L of lenL is too large: "18446744073709551616""#,
    );
    assert_unreadable("drain 3", r#"lenL is not len and a length: "3""#);
    assert_unreadable(
        "drain len",
        r#"the L of lenL is not a number in decimal digits: """#,
    );
    assert_unreadable("drain len3 4", r#""4" is a word too many"#);
    assert_unreadable(
        "drain len18446744073709551616",
        r#"the L of lenL is too large: "18446744073709551616""#,
    );
    assert_unreadable(
        "package_out len200",
        r#"L is not a number in decimal digits: "len200""#,
    );
    assert_unreadable(
        "package_out 18446744073709551616",
        r#"L is too large: "18446744073709551616""#,
    );
    assert_unreadable(b"turn \xFF", "this is not UTF-8");
    assert_unreadable(b"# \xE9", "this is not UTF-8");
}

#[test]
fn a_slice_beyond_all_memory() {
    for length in [usize::MAX, isize::MAX as usize, isize::MAX as usize - 4096] {
        for line in ["take_in_package 0000 len", "package_out "] {
            assert_unreadable(
                format!("{line}{length}"),
                &format!("there is no room for {length} bytes"),
            );
        }
    }
    // A total has two bytes.
    for length in [
        usize::MAX,
        isize::MAX as usize,
        isize::MAX as usize / 2 - 4096,
    ] {
        let bytes = 2 * length as u128;
        assert_unreadable(
            format!("drain len{length}"),
            &format!("there is no room for {bytes} bytes"),
        );
    }
}

#[test]
fn a_file_that_is_not_there() {
    for file in ["no_tables.json", FOLDER] {
        let output = run(&[], &script(format!("load {file}").as_bytes()));
        let message = text(&output.stderr).trim_end();
        assert_stopped(&output, message);
        assert!(message.starts_with("line 4: cannot read \""), "{message}");
    }
}

#[test]
fn files_that_hold_no_tables() {
    let whole = outside_tables::line(&Tables::new(1));
    let altered = |from: &str, to: &str| {
        assert_eq!(whole.matches(from).count(), 1, "{from}");
        whole.replace(from, to)
    };
    for (contents, message) in [
        (String::new(), "line 1, column 1: expected {"),
        ("tables\n".to_string(), "line 1, column 1: expected {"),
        (
            altered("[0], \"timestamps\"", "[0] \"timestamps\""),
            "line 1, column 14: expected , or }",
        ),
        (
            altered("\"held\": [0], ", "\"held\": [0],\n\n,"),
            "line 3, column 1: expected a key in quotes",
        ),
        (
            altered("\"held\": [0]", "\"held\": [0.5]"),
            "line 1, column 12: expected no leading 0, fraction or exponent",
        ),
        (
            altered("\"held\": [0]", "\"held\": 0"),
            "line 1, column 10: expected [",
        ),
        (
            altered("\"held\": [0], ", ""),
            r#"the key "held" is missing"#,
        ),
        (
            altered("\"status\"", "\"order\""),
            r#"the key "order" comes twice"#,
        ),
        (
            altered("\"length\"", "\"lengths\""),
            r#"the key "lengths" is unknown"#,
        ),
        (
            altered("\"held\": [0]", "\"held\": [0, 65536]"),
            r#"entry 1 of "held" does not fit 16 bits: "65536""#,
        ),
        (
            altered("\"order\": [0]", "\"order\": [-1]"),
            r#"entry 0 of "order" does not fit 16 bits: "-1""#,
        ),
        (
            altered(
                "\"timestamps\": [0]",
                "\"timestamps\": [18446744073709551616]",
            ),
            r#"entry 0 of "timestamps" does not fit 64 bits: "18446744073709551616""#,
        ),
        (
            altered("\"programs\": [0", "\"programs\": [256"),
            r#"entry 0 of "programs" does not fit 8 bits: "256""#,
        ),
        (
            altered(", \"version\": [0]", ""),
            r#"the key "version" is missing"#,
        ),
        (
            altered("\"version\": [0]", "\"version\": [65536]"),
            r#"entry 0 of "version" does not fit 16 bits: "65536""#,
        ),
        (
            altered("\"cutoff\": [0], ", ""),
            r#"the key "cutoff" is missing"#,
        ),
        (
            altered("\"cutoff\": [0]", "\"cutoff\": [18446744073709551616]"),
            r#"entry 0 of "cutoff" does not fit 64 bits: "18446744073709551616""#,
        ),
        (
            altered("\"kept\": [0", "\"kept\": [2147483648"),
            r#"entry 0 of "kept" does not fit signed 32 bits: "2147483648""#,
        ),
        (
            altered("\"view\": [0", "\"view\": [-2147483649"),
            r#"entry 0 of "view" does not fit signed 32 bits: "-2147483649""#,
        ),
    ] {
        write_file("wrong.json", contents);
        let message = format!("\"wrong.json\" does not hold tables: {message}");
        assert_unreadable("load wrong.json", &message);
    }
}

#[test]
fn the_message_names_the_file_of_the_script() {
    write_file("wrong.calls", script(b"what"));
    let message = r#"wrong.calls: line 4: there is no call "what""#;
    assert_stopped(&run(&["wrong.calls"], b""), message);
    // A folder can be opened, but it has no line.
    let output = run(&[FOLDER], b"");
    let message = text(&output.stderr);
    assert!(
        message.starts_with(&format!("{FOLDER}: line 1: ")),
        "{message}"
    );
    assert_eq!(text(&output.stdout), "");
    assert_eq!(output.status.code(), Some(1));
}

#[test]
fn the_first_line_and_the_last_may_be_wrong() {
    let output = run(&[], b"what\nturn\n");
    assert_eq!(text(&output.stderr), "line 1: there is no call \"what\"\n");
    assert_eq!(text(&output.stdout), "");
    assert_eq!(output.status.code(), Some(1));
    let output = run(&[], b"turn\r\n\r\nturn\r\nwhat");
    assert_eq!(text(&output.stderr), "line 4: there is no call \"what\"\n");
    assert_eq!(text(&output.stdout), "idle\nidle\n");
    assert_eq!(output.status.code(), Some(1));
}
