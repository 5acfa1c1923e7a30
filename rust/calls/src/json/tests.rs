use super::{read, write, Error, KEYS};
use tolbezun::Tables;

/// Tables whose lists are short, each another.
fn short() -> Tables {
    Tables {
        held: vec![1],
        timestamps: vec![0, u64::MAX],
        order: vec![2],
        status: vec![3],
        withdrawn: vec![4],
        length: vec![5],
        programs: vec![0, 255],
        read_count: vec![6],
        write_count: vec![0, u16::MAX],
        read_settings: vec![7, 8, 9],
        seen_values: vec![i32::MIN, -1, 0, i32::MAX],
        write_settings: vec![],
        written_values: vec![-10],
        view: vec![11],
        version: vec![12, 13],
        cutoff: vec![u64::MAX, 14],
        kept: vec![-15, 16],
    }
}

/// What [`short`] is written as.
const SHORT: &str = concat!(
    r#"{"held": [1], "timestamps": [0, 18446744073709551615], "order": [2], "status": [3], "#,
    r#""withdrawn": [4], "length": [5], "programs": [0, 255], "read_count": [6], "#,
    r#""write_count": [0, 65535], "read_settings": [7, 8, 9], "#,
    r#""seen_values": [-2147483648, -1, 0, 2147483647], "write_settings": [], "#,
    r#""written_values": [-10], "view": [11], "version": [12, 13], "#,
    r#""cutoff": [18446744073709551615, 14], "kept": [-15, 16]}"#,
);

/// [`SHORT`] with another text for one that comes once in it.
#[track_caller]
fn altered(from: &str, to: &str) -> String {
    assert_eq!(SHORT.matches(from).count(), 1, "{from}");
    SHORT.replace(from, to)
}

#[track_caller]
fn error(text: &str) -> Error {
    read(text.as_bytes()).expect_err(text)
}

/// Where the text breaks, on its first line, and what is expected there.
#[track_caller]
fn broken(text: &str) -> (usize, &'static str) {
    match error(text) {
        Error::Broken {
            line: 1,
            column,
            expected,
        } => (column, expected),
        error => panic!("{error} in {text}"),
    }
}

#[test]
fn tables_are_written_as_one_line() {
    assert_eq!(write(&short()), SHORT);
}

#[test]
fn what_is_written_is_read() {
    let mut all = vec![short()];
    all.extend([0, 1, 2, 128].map(Tables::new));
    all.push(Tables {
        held: vec![],
        view: vec![i32::MIN; 3],
        ..Tables::new(5)
    });
    for tables in all {
        let text = write(&tables);
        assert_eq!(text.lines().count(), 1);
        assert_eq!(read(text.as_bytes()), Ok(tables));
    }
}

#[test]
fn keys_come_in_the_order_of_the_scope() {
    let keys = SHORT.split('"').skip(1).step_by(2);
    assert!(keys.eq(KEYS.iter().copied()));
}

#[test]
fn keys_may_come_in_any_order() {
    let lists = SHORT
        .strip_prefix("{")
        .and_then(|text| text.strip_suffix("}"));
    let mut lists: Vec<&str> = lists.expect("an object").split(", \"").collect();
    lists.reverse();
    let quoted = lists.iter().map(|list| match list.starts_with('"') {
        true => list.to_string(),
        false => format!("\"{list}"),
    });
    let text = format!("{{{}}}", quoted.collect::<Vec<_>>().join(","));
    assert_eq!(read(text.as_bytes()), Ok(short()), "{text}");
}

#[test]
fn blanks_may_stand_between_parts() {
    let without = SHORT.replace(' ', "");
    assert_eq!(read(without.as_bytes()), Ok(short()));
    for blank in [" ", "\t", "\n", "\r\n", " \n\t\r "] {
        let mut text = without.clone();
        for part in ["{", "}", "[", "]", ",", ":"] {
            text = text.replace(part, &format!("{blank}{part}{blank}"));
        }
        assert_eq!(read(text.as_bytes()), Ok(short()), "{text}");
    }
}

#[test]
fn minus_0_is_0() {
    for (from, to) in [
        ("[1]", "[0]"),
        ("[0, 255]", "[0, 0]"),
        ("[0, 18446744073709551615]", "[0, 0]"),
        ("[-10]", "[0]"),
    ] {
        let minus = altered(from, &to.replace('0', "-0"));
        let zero = read(altered(from, to).as_bytes());
        assert!(zero.is_ok());
        assert_eq!(read(minus.as_bytes()), zero, "{minus}");
    }
}

#[test]
fn every_key_may_be_missing() {
    for &key in KEYS {
        let start = SHORT.find(&format!("\"{key}\"")).expect("it is there");
        let length = SHORT[start..].find(']').expect("it has a list") + 1;
        let mut text = SHORT.to_string();
        text.replace_range(start..start + length, "");
        let text = text.replace("{, ", "{").replace(", , ", ", ");
        let text = text.replace(", }", "}");
        assert_eq!(error(&text), Error::Missing(key), "{text}");
    }
    assert_eq!(error("{}"), Error::Missing("held"));
    assert_eq!(error("{}").to_string(), r#"the key "held" is missing"#);
}

#[test]
fn every_key_may_come_twice() {
    for &key in KEYS {
        let text = altered("16]}", &format!("16], \"{key}\": []}}"));
        assert_eq!(error(&text), Error::Twice(key), "{text}");
    }
    let error = Error::Twice("view");
    assert_eq!(error.to_string(), r#"the key "view" comes twice"#);
}

#[test]
fn a_key_may_be_unknown() {
    for (key, shown) in [
        ("", "\"\""),
        ("Held", "\"Held\""),
        ("held ", "\"held \""),
        ("lengths", "\"lengths\""),
        ("versions", "\"versions\""),
        ("\\u0068eld", "\"\\\\u0068eld\""),
        ("é", "\"é\""),
    ] {
        let text = altered("\"held\"", &format!("\"{key}\""));
        assert_eq!(error(&text), Error::Unknown(key.to_string()), "{text}");
        let message = format!("the key {shown} is unknown");
        assert_eq!(error(&text).to_string(), message);
        // Also where all keys are there, and whatever its value is.
        let text = altered("16]}", &format!("16], \"{key}\": true}}"));
        assert_eq!(error(&text), Error::Unknown(key.to_string()), "{text}");
    }
    let text = [b"{\"\xFF\": []}".as_slice()].concat();
    assert_eq!(read(&text), Err(Error::Unknown("\u{fffd}".to_string())));
}

#[test]
fn a_number_may_not_fit() {
    let bits = [
        ("8 bits", "programs", &["-1", "256"][..]),
        ("16 bits", "held", &["-1", "65536", "70000"]),
        ("16 bits", "order", &["-1", "65536"]),
        ("16 bits", "status", &["-1", "65536"]),
        ("16 bits", "withdrawn", &["-1", "65536"]),
        ("16 bits", "length", &["-1", "65536"]),
        ("16 bits", "read_count", &["-1", "65536"]),
        ("16 bits", "write_count", &["-1", "65536"]),
        ("16 bits", "read_settings", &["-1", "65536"]),
        ("16 bits", "write_settings", &["-1", "65536"]),
        ("16 bits", "version", &["-1", "65536"]),
        ("64 bits", "timestamps", &["-1", "18446744073709551616"]),
        ("64 bits", "cutoff", &["-1", "18446744073709551616"]),
        (
            "signed 32 bits",
            "seen_values",
            &["-2147483649", "2147483648"],
        ),
        (
            "signed 32 bits",
            "written_values",
            &["-2147483649", "2147483648"],
        ),
        ("signed 32 bits", "view", &["-2147483649", "2147483648"]),
        ("signed 32 bits", "kept", &["-2147483649", "2147483648"]),
    ];
    for (width, table, numbers) in bits {
        for &number in numbers {
            let text = format!("{{\"{table}\": [0, 1, {number}]}}");
            let index = 2;
            let number = number.to_string();
            let expected = Error::DoesNotFit {
                table,
                index,
                number,
                width,
            };
            assert_eq!(error(&text), expected);
        }
    }
    assert_eq!(
        error(r#"{"held": [70000]}"#).to_string(),
        r#"entry 0 of "held" does not fit 16 bits: "70000""#
    );
    let long = "9".repeat(100_000);
    assert_eq!(
        error(&format!(r#"{{"view": [{long}]}}"#)).to_string(),
        format!(
            r#"entry 0 of "view" does not fit signed 32 bits: "{}".."#,
            &long[..40]
        )
    );
}

#[test]
fn a_text_may_break_anywhere() {
    for (text, column, expected) in [
        ("", 1, "{"),
        ("  ", 3, "{"),
        ("[]", 1, "{"),
        ("null", 1, "{"),
        ("\u{feff}{}", 1, "{"),
        ("{", 2, "a key in quotes"),
        ("{held: []}", 2, "a key in quotes"),
        ("{'held': []}", 2, "a key in quotes"),
        ("{,}", 2, "a key in quotes"),
        ("{\"held\": [],}", 13, "a key in quotes"),
        ("{\"held", 7, "the quote that ends the key"),
        ("{\"held\n\": []}", 7, "the quote that ends the key"),
        ("{\"he\tld\": []}", 5, "the quote that ends the key"),
        ("{\"held\"}", 8, ":"),
        ("{\"held\" []}", 9, ":"),
        ("{\"held\": 5}", 10, "["),
        ("{\"held\": null}", 10, "["),
        ("{\"held\": {}}", 10, "["),
        ("{\"held\": }", 10, "["),
        ("{\"held\": [", 11, "a whole number"),
        ("{\"held\": [,]}", 11, "a whole number"),
        ("{\"held\": [1,]}", 13, "a whole number"),
        ("{\"held\": [1,,2]}", 13, "a whole number"),
        ("{\"held\": [-]}", 12, "a whole number"),
        ("{\"held\": [- 1]}", 12, "a whole number"),
        ("{\"held\": [+1]}", 11, "a whole number"),
        ("{\"held\": [--1]}", 12, "a whole number"),
        ("{\"held\": [\"1\"]}", 11, "a whole number"),
        ("{\"held\": [[1]]}", 11, "a whole number"),
        ("{\"held\": [null]}", 11, "a whole number"),
        ("{\"held\": [.5]}", 11, "a whole number"),
        ("{\"held\": [01]}", 12, "no leading 0, fraction or exponent"),
        (
            "{\"held\": [-01]}",
            13,
            "no leading 0, fraction or exponent",
        ),
        ("{\"held\": [00]}", 12, "no leading 0, fraction or exponent"),
        (
            "{\"held\": [1.0]}",
            12,
            "no leading 0, fraction or exponent",
        ),
        (
            "{\"held\": [1e3]}",
            12,
            "no leading 0, fraction or exponent",
        ),
        (
            "{\"held\": [10E0]}",
            13,
            "no leading 0, fraction or exponent",
        ),
        ("{\"held\": [1", 12, ", or ]"),
        ("{\"held\": [1 2]}", 13, ", or ]"),
        ("{\"held\": [1}", 12, ", or ]"),
        ("{\"held\": [0x1]}", 12, ", or ]"),
        ("{\"held\": [1_000]}", 12, ", or ]"),
        ("{\"held\": []", 12, ", or }"),
        ("{\"held\": []]", 12, ", or }"),
        ("{\"held\": [] \"view\": []}", 13, ", or }"),
        ("{} {}", 4, "nothing after the object"),
        ("{}x", 3, "nothing after the object"),
        ("{}\0", 3, "nothing after the object"),
    ] {
        assert_eq!(broken(text), (column, expected), "{text:?}");
    }
}

#[test]
fn no_beginning_is_read() {
    for length in 0..SHORT.len() {
        broken(&SHORT[..length]);
    }
}

#[test]
fn a_break_has_its_line_and_column() {
    let text = SHORT.replace("], ", "],\n  ");
    let text = text.replace("\"order\": [2]", "\"order\": [2.5]");
    assert_eq!(
        error(&text).to_string(),
        "line 3, column 14: expected no leading 0, fraction or exponent"
    );
    assert_eq!(
        error("{\n").to_string(),
        "line 2, column 1: expected a key in quotes"
    );
}
