use super::{read, Call, Error, Line, Reader, Unreadable};

#[track_caller]
fn assert_read(line: &str, call: Call) {
    assert_eq!(read(line.as_bytes()), Ok(Line::Call(call)), "{line:?}");
}

/// The message for a line that cannot be read.
#[track_caller]
fn message(line: &str) -> String {
    let error = read(line.as_bytes()).expect_err("it cannot be read");
    error.to_string()
}

#[test]
fn every_kind_of_line_is_read() {
    assert_read("set_up", Call::SetUp);
    assert_read(
        "take_in 20 0d000000",
        Call::TakeIn {
            timestamp: 20,
            program: vec![13, 0, 0, 0],
            version: 0,
        },
    );
    for (line, version) in [
        ("take_in 20 0d000000 0", 0),
        ("take_in 20 0d000000 1", 1),
        ("take_in 20 0d000000 2", 2),
        ("take_in 20 0d000000 00000000000000000001", 1),
        ("take_in 20 0d000000 65535", u16::MAX),
    ] {
        assert_read(
            line,
            Call::TakeIn {
                timestamp: 20,
                program: vec![13, 0, 0, 0],
                version,
            },
        );
    }
    assert_read("withdraw 20", Call::Withdraw { timestamp: 20 });
    assert_read("turn", Call::Turn);
    assert_read("drain", Call::Drain { totals: None });
    for (line, length) in [
        ("drain len0", 0),
        ("drain len1023", 1_023),
        ("drain len01024", 1_024),
        ("drain len18446744073709551615", usize::MAX),
    ] {
        let totals = Some(length);
        assert_read(line, Call::Drain { totals });
    }
    for (line, timestamp) in [("cutoff 20", 20), ("cutoff 18446744073709551615", u64::MAX)] {
        assert_read(line, Call::Cutoff { timestamp });
    }
    assert_read("current 34", Call::CurrentValue { setting: 34 });
    assert_read(
        "value_as_of 15 34",
        Call::ValueAsOf {
            timestamp: 15,
            setting: 34,
        },
    );
    assert_read("standing 20", Call::Standing { timestamp: 20 });
    assert_read(
        "take_in_package 0000",
        Call::TakeInPackage {
            package: vec![0, 0],
            answers: None,
        },
    );
    for (line, length) in [
        ("take_in_package 0000 len0", 0),
        ("take_in_package 0000 len511", 511),
        ("take_in_package 0000 len512", 512),
        ("take_in_package 0000 len18446744073709551615", usize::MAX),
    ] {
        assert_read(
            line,
            Call::TakeInPackage {
                package: vec![0, 0],
                answers: Some(length),
            },
        );
    }
    for (line, length) in [
        ("package_out 0", 0),
        ("package_out 00200", 200),
        ("package_out 65535", 65_535),
        ("package_out 18446744073709551615", usize::MAX),
    ] {
        assert_read(line, Call::PackageOut { length });
    }
    assert_read("plain_run", Call::PlainRun);
    assert_read("start_values", Call::StartValues);
    assert_read("tables", Call::Tables);
    let file = "dir/tables.json".to_string();
    assert_read("load dir/tables.json", Call::Load { file });
}

#[test]
fn empty_lines_and_comments_are_passed_over() {
    for line in [
        "", " ", "\t \t", "\r", "  \r", "#", "# turn", "#turn", "  # turn", "\t#\r", "# é",
    ] {
        assert_eq!(read(line.as_bytes()), Ok(Line::Empty), "{line:?}");
    }
}

#[test]
fn blanks_may_stand_around_words() {
    for line in [
        "value_as_of\t15\t34",
        "  value_as_of 15 34",
        "\tvalue_as_of  15 \t 34  ",
        "value_as_of 15 34\r",
        "value_as_of 15 34 \r",
    ] {
        assert_read(
            line,
            Call::ValueAsOf {
                timestamp: 15,
                setting: 34,
            },
        );
    }
}

#[test]
fn numbers_are_read_up_to_their_ends() {
    for (digits, timestamp) in [
        ("0", 0),
        ("1", 1),
        ("007", 7),
        ("18446744073709551614", u64::MAX - 1),
        ("18446744073709551615", u64::MAX),
        ("00000000000000000000000018446744073709551615", u64::MAX),
    ] {
        assert_read(&format!("standing {digits}"), Call::Standing { timestamp });
    }
    for (digits, setting) in [
        ("0", 0),
        ("1023", 1023),
        ("1024", 1024),
        ("18446744073709551615", usize::MAX),
    ] {
        assert_read(&format!("current {digits}"), Call::CurrentValue { setting });
    }
}

#[test]
fn bytes_are_pairs_of_digits_of_either_case() {
    for (word, program) in [
        ("-", vec![]),
        ("00", vec![0]),
        ("7f80ff", vec![0x7F, 0x80, 0xFF]),
        (
            "aBcDeF0123456789",
            vec![0xAB, 0xCD, 0xEF, 1, 0x23, 0x45, 0x67, 0x89],
        ),
    ] {
        for (line, version) in [
            (format!("take_in 1 {word}"), 0),
            (format!("take_in 1 {word} 1"), 1),
        ] {
            let (timestamp, program) = (1, program.clone());
            assert_read(
                &line,
                Call::TakeIn {
                    timestamp,
                    program,
                    version,
                },
            );
        }
    }
}

#[test]
fn settings_by_port_and_field() {
    for (words, setting) in [
        ("port 2 power", 36),
        ("port 2 field 4", 36),
        ("port  63\tmask 7", 1_023),
        ("port 0 field 0", 0),
    ] {
        assert_read(&format!("current {words}"), Call::CurrentValue { setting });
        assert_read(
            &format!("value_as_of 15 {words} "),
            Call::ValueAsOf {
                timestamp: 15,
                setting,
            },
        );
    }
    for (words, why) in [
        (
            "port",
            r#"expected a port from 0 to 63, found the end of the line"#,
        ),
        (
            "port 64 vlan",
            r#"expected a port from 0 to 63, found "64""#,
        ),
        ("port 2 mask 8", r#"expected a mask from 0 to 7, found "8""#),
        (
            "port 2 vlan 1",
            r#"expected the end of the line, found "1""#,
        ),
    ] {
        let expected = format!("S is not a setting: {why}");
        assert_eq!(message(&format!("current {words}")), expected);
        assert_eq!(message(&format!("value_as_of 15 {words}")), expected);
    }
}

/// Reads lines, numbered from 1, up to the first call, and how many lines were read.
fn read_lines(lines: &str) -> Result<(Option<Call>, usize), Unreadable> {
    let mut reader = Reader::default();
    for (number, line) in (1..).zip(lines.split('\n')) {
        if let Some(call) = reader.read(number, line.as_bytes())? {
            return Ok((Some(call), number));
        }
    }
    reader.finish().map(|()| (None, 0))
}

#[test]
fn programs_in_words() {
    let stop = vec![0; 8];
    for (lines, version, program, last) in [
        ("take_in 20 {\n}", 0, vec![], 2),
        ("take_in 20 {\n stop\n}\nturn", 0, stop.clone(), 3),
        ("take_in 20 version 1 {\nstop\n}", 1, stop.clone(), 3),
        (
            "take_in 20 version 65535 {\nstop\n}",
            u16::MAX,
            stop.clone(),
            3,
        ),
        (
            "# one\n\n\ttake_in\t20 { # two }\r\n\n#}\nstop # three }\r\n end:\n } # four\r\n",
            0,
            stop,
            8,
        ),
    ] {
        let call = Call::TakeIn {
            timestamp: 20,
            program,
            version,
        };
        assert_eq!(read_lines(lines), Ok((Some(call), last)), "{lines:?}");
    }
    // After one there may be another.
    let mut reader = Reader::default();
    for (number, (line, is_call)) in (1..).zip([
        ("take_in 1 {", false),
        ("skip to on", false),
        ("on:", false),
        ("}", true),
        ("take_in 2 {", false),
        ("on:", false),
        ("}", true),
        ("turn", true),
    ]) {
        let call = reader.read(number, line.as_bytes());
        assert_eq!(call.map(|call| call.is_some()), Ok(is_call), "{line}");
    }
    assert_eq!(reader.finish(), Ok(()));
}

#[test]
fn programs_in_words_that_cannot_be_read() {
    for (lines, line, message) in [
        ("turn {", 1, r#""{" is a word too many"#),
        ("take_in {", 1, r#"TS is not a number in decimal digits: "{""#),
        ("take_in 20{", 1, r#"TS is not a number in decimal digits: "20{""#),
        ("take_in 20 { }", 1, r#""}" is a word too many"#),
        ("take_in 20 version", 1, "VERSION is missing"),
        ("take_in 20 version 1", 1, "{ is missing"),
        ("take_in 20 version 1 00", 1, "{ is missing"),
        ("take_in 20 version 1 { 1", 1, r#""1" is a word too many"#),
        (
            "take_in 20 version x {",
            1,
            r#"VERSION is not a number in decimal digits: "x""#,
        ),
        (
            "\ntake_in 20 {\nstop\n  return\n}",
            4,
            "column 3: expected an instruction (\"stop\", \"skip\", \"if\", \"setting\", \"port\" or \
             a register r0 to r7) or a label and \":\", found \"return\"",
        ),
        (
            "take_in 20 {\nskip to there\nstop\n}",
            2,
            r#"column 9: expected a label further down, found "there""#,
        ),
        (
            "take_in 20 {\nchange 30\n}",
            2,
            "column 1: expected an instruction (\"stop\", \"skip\", \"if\", \"setting\", \"port\" or \
             a register r0 to r7) or a label and \":\", found \"change\"",
        ),
        (
            "# a comment\ntake_in 20 {\nstop",
            2,
            "no } ends the program that begins here",
        ),
    ] {
        let unreadable = read_lines(lines).expect_err("it cannot be read");
        assert_eq!(unreadable.error.to_string(), message, "{lines:?}");
        assert_eq!(unreadable.line, line, "{lines:?}");
    }
}

#[test]
fn another_name_is_no_call() {
    for (line, word) in [
        ("setup", "setup"),
        ("SET_UP", "SET_UP"),
        ("take_in_packages 0000", "take_in_packages"),
        ("turn#", "turn#"),
        ("turn\r\r", "turn\r"),
        ("turn\u{a0}", "turn\u{a0}"),
        ("\u{feff}turn", "\u{feff}turn"),
        ("turn;drain", "turn;drain"),
        ("turn\0", "turn\0"),
    ] {
        let error = Error::NoSuchCall(word.to_string());
        assert_eq!(read(line.as_bytes()), Err(error), "{line:?}");
    }
    assert_eq!(message("setup 5"), r#"there is no call "setup""#);
}

#[test]
fn every_argument_may_be_missing() {
    for (line, argument) in [
        ("take_in", "TS"),
        ("take_in 20", "HEX"),
        ("take_in 20 \r", "HEX"),
        ("withdraw", "TS"),
        ("cutoff", "TS"),
        ("current", "S"),
        ("value_as_of", "TS"),
        ("value_as_of 15", "S"),
        ("standing", "TS"),
        ("take_in_package", "HEX"),
        ("package_out", "L"),
        ("load", "FILE"),
    ] {
        let error = Err(Error::Missing(argument));
        assert_eq!(read(line.as_bytes()), error, "{line:?}");
    }
    assert_eq!(message("take_in 20"), "HEX is missing");
}

#[test]
fn a_word_may_be_too_many() {
    for line in [
        "set_up x",
        "take_in 20 - 1 x",
        "withdraw 20 x",
        "turn x",
        "drain len5 x",
        "cutoff 20 x",
        "current 34 x",
        "value_as_of 15 34 x",
        "standing 20 x",
        "take_in_package 0000 len5 x",
        "package_out 200 x",
        "plain_run x",
        "start_values x",
        "tables x",
        "load tables.json x",
        "turn x y",
    ] {
        let error = Err(Error::TooMany("x".to_string()));
        assert_eq!(read(line.as_bytes()), error, "{line:?}");
    }
    // No word is passed over.
    let line = "take_in 20 - 1 1";
    assert_eq!(message(line), r#""1" is a word too many"#);
    assert_eq!(message("turn # why"), r##""#" is a word too many"##);
}

/// Panics unless every line with this word for a timestamp, a version, a setting or a length has the
/// error for it.
#[track_caller]
fn assert_numbers_refused(word: &str, error: impl Fn(&'static str) -> Error) {
    for (argument, line) in [
        ("TS", format!("take_in {word} -")),
        ("VERSION", format!("take_in 20 - {word}")),
        ("TS", format!("withdraw {word}")),
        ("TS", format!("cutoff {word}")),
        ("TS", format!("value_as_of {word} 34")),
        ("TS", format!("standing {word}")),
        ("S", format!("current {word}")),
        ("S", format!("value_as_of 15 {word}")),
        ("L", format!("package_out {word}")),
    ] {
        assert_eq!(read(line.as_bytes()), Err(error(argument)), "{line:?}");
    }
}

#[test]
fn numbers_have_decimal_digits_alone() {
    for word in [
        "-1", "+1", "1.0", "1e3", "0x10", "1_000", "1,000", "ten", "-", "١",
    ] {
        assert_numbers_refused(word, |argument| {
            Error::NotANumber(argument, word.to_string())
        });
    }
    assert_eq!(
        message("withdraw -1"),
        r#"TS is not a number in decimal digits: "-1""#
    );
}

#[test]
fn numbers_may_be_too_large() {
    let word = "18446744073709551616";
    let error = |argument| Error::TooLarge(argument, word.to_string());
    assert_numbers_refused(word, error);
    for call in ["drain", "take_in_package 0000"] {
        let line = format!("{call} len{word}");
        assert_eq!(read(line.as_bytes()), Err(error("the L of lenL")));
    }
    // A version has 16 bits.
    for word in ["65536", "065536", "4294967297"] {
        let line = format!("take_in 20 - {word}");
        let error = Error::TooLarge("VERSION", word.to_string());
        assert_eq!(read(line.as_bytes()), Err(error), "{line:?}");
    }
    assert_eq!(
        message(&format!("current {word}")),
        r#"S is too large: "18446744073709551616""#
    );
}

#[test]
fn bytes_are_whole_and_hexadecimal() {
    for call in ["take_in 20", "take_in_package"] {
        for word in ["0", "000", "0d0"] {
            let line = format!("{call} {word}");
            assert_eq!(read(line.as_bytes()), Err(Error::OddDigits), "{line:?}");
        }
        for (word, character) in [
            ("0g", 'g'),
            ("0x0d", 'x'),
            ("--", '-'),
            ("-00", '-'),
            ("00-", '-'),
            ("+0", '+'),
            ("0é", 'é'),
            ("\"00\"", '"'),
        ] {
            let line = format!("{call} {word}");
            let error = Err(Error::NotADigit(character));
            assert_eq!(read(line.as_bytes()), error, "{line:?}");
        }
    }
    assert_eq!(message("take_in 1 0"), "HEX has an odd number of digits");
    assert_eq!(
        message("take_in 1 0g"),
        "HEX has 'g', which is no hexadecimal digit"
    );
}

#[test]
fn a_length_is_len_and_a_number() {
    for call in ["drain", "take_in_package 0000"] {
        for word in ["512", "LEN512", "lem5", "le", "-"] {
            let line = format!("{call} {word}");
            let error = Error::NotALength(word.to_string());
            assert_eq!(read(line.as_bytes()), Err(error), "{line:?}");
        }
        for length in ["", "-1", "+5", "5x", "gth"] {
            let line = format!("{call} len{length}");
            let error = Error::NotANumber("the L of lenL", length.to_string());
            assert_eq!(read(line.as_bytes()), Err(error), "{line:?}");
        }
        // The length is a word of its own.
        let line = format!("{call} len 5");
        let error = Err(Error::NotANumber("the L of lenL", String::new()));
        assert_eq!(read(line.as_bytes()), error);
    }
    assert_eq!(
        message("take_in_package 0000 512"),
        r#"lenL is not len and a length: "512""#
    );
}

#[test]
fn a_line_is_utf_8() {
    for line in [&b"turn \xFF"[..], b"\xE9", b"# \xFF"] {
        assert_eq!(read(line), Err(Error::NotText), "{line:?}");
    }
    assert_eq!(Error::NotText.to_string(), "this is not UTF-8");
}

#[test]
fn messages_show_the_beginning_of_a_long_word() {
    let long = "é".repeat(100_000);
    let shown = "é".repeat(40);
    assert_eq!(message(&shown), format!(r#"there is no call "{shown}""#));
    assert_eq!(message(&long), format!(r#"there is no call "{shown}".."#));
}
