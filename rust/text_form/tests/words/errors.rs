//! What cannot be said: each error with its place, what was expected and what was found.

use crate::read_program;
use text_form::{Error, Package};

#[track_caller]
fn assert_error(error: Error, line: usize, column: usize, expected: &str, found: &str) {
    let message = format!("line {line}, column {column}: expected {expected}, found {found}");
    assert_eq!(error.to_string(), message);
    assert_eq!((error.line, error.column), (line, column));
    assert_eq!(
        (error.expected.as_str(), error.found.as_str()),
        (expected, found)
    );
}

/// Asserts what is wrong with line 2 of a program, which is this.
#[track_caller]
fn assert_wrong(line: &str, column: usize, expected: &str, found: &str) {
    let text = format!("stop\n{line}\nr0 = 1\n");
    let error = read_program(&text).expect_err(line);
    assert_error(error, 2, column, expected, found);
}

/// Asserts what is wrong with a package in words.
#[track_caller]
fn assert_broken(text: impl AsRef<[u8]>, line: usize, column: usize, expected: &str, found: &str) {
    let error = Package::from_text(text.as_ref()).expect_err("the text is wrong");
    assert_error(error, line, column, expected, found);
}

const REGISTER: &str = "a register r0 to r7";
const INSTRUCTION: &str = r#"an instruction ("stop", "skip", "if", "setting", "port" or a register r0 to r7) or a label and ":""#;
const RIGHT_SIDE: &str = r#"a number, a register r0 to r7, "-", "ones", "setting" or "port""#;
const FIELD: &str = r#""state", "vlan", "power", "alarm", "mask" or "field""#;
const END: &str = "the end of the line";
const NUMBER: &str = "a number from -2147483648 to 2147483647";
const LABEL: &str = "a label further down";

#[test]
fn unknown_names() {
    assert_wrong("what", 1, INSTRUCTION, r#""what""#);
    assert_wrong("Stop", 1, INSTRUCTION, r#""Stop""#);
    assert_wrong("  r8 = 1", 3, INSTRUCTION, r#""r8""#);
    assert_wrong("refused 1200000000000000", 1, INSTRUCTION, r#""refused""#);
    assert_wrong("= r0", 1, INSTRUCTION, r#""=""#);
    assert_wrong("ä", 1, INSTRUCTION, r#""ä""#);
    assert_wrong("r0 = what", 6, RIGHT_SIDE, r#""what""#);
    assert_wrong("r0 = r8", 6, RIGHT_SIDE, r#""r8""#);
    assert_wrong("r0 = 0x10", 6, RIGHT_SIDE, r#""0x10""#);
    assert_wrong("r0 = port 2 powr", 13, FIELD, r#""powr""#);
    assert_wrong("port 2 = r0", 8, FIELD, r#""=""#);
    assert_wrong("port 2 Power = r0", 8, FIELD, r#""Power""#);
    assert_wrong("skip to nowhere", 9, LABEL, r#""nowhere""#);
    let long = "x".repeat(50);
    assert_wrong(&long, 1, INSTRUCTION, &format!("{:?}..", &long[..40]));
}

#[test]
fn registers_that_are_none() {
    assert_wrong("r0 = r1 + r8", 11, REGISTER, r#""r8""#);
    assert_wrong("r0 = r1 + 5", 11, REGISTER, r#""5""#);
    assert_wrong("r0 = r1 - r00", 11, REGISTER, r#""r00""#);
    assert_wrong("r0 = r1 xor", 12, REGISTER, END);
    assert_wrong("r0 = ones 5", 11, REGISTER, r#""5""#);
    assert_wrong("setting 36 = 400", 14, REGISTER, r#""400""#);
    assert_wrong("setting r1 = R0", 14, REGISTER, r#""R0""#);
    assert_wrong("if r9 < 0 skip 1", 4, REGISTER, r#""r9""#);
}

#[test]
fn numbers_beyond_their_range() {
    assert_wrong("r0 = 2147483648", 6, NUMBER, r#""2147483648""#);
    assert_wrong("r0 = -2147483649", 6, NUMBER, r#""-2147483649""#);
    let long = "9".repeat(60);
    let found = format!("{:?}..", &long[..40]);
    assert_wrong(&format!("r0 = {long}"), 6, NUMBER, &found);
    assert_wrong("r0 = r1 / 2^32", 13, "a power from 0 to 31", r#""32""#);
    let setting = "a setting from 0 to 1023";
    assert_wrong("r0 = setting 1024", 14, setting, r#""1024""#);
    assert_wrong("setting 1024 = r0", 9, setting, r#""1024""#);
    assert_wrong(
        "setting 18446744073709551616 = r0",
        9,
        setting,
        r#""18446744073709551616""#,
    );
    assert_wrong("port 64 vlan = r0", 6, "a port from 0 to 63", r#""64""#);
    assert_wrong(
        "port 2 field 16 = r0",
        14,
        "a field from 0 to 15",
        r#""16""#,
    );
    assert_wrong("port 2 mask 8 = r0", 13, "a mask from 0 to 7", r#""8""#);
}

#[test]
fn forms_that_end_too_soon_or_go_on() {
    let setting = "the number of a setting or a register r0 to r7";
    assert_wrong("r0", 3, r#""=""#, END);
    assert_wrong("r0 =", 5, RIGHT_SIDE, END);
    assert_wrong("r0 = -", 7, "a number or a register r0 to r7", END);
    assert_wrong("r0 = -x", 7, "a number or a register r0 to r7", r#""x""#);
    assert_wrong("r0 = setting", 13, setting, END);
    assert_wrong("setting -1 = r0", 9, setting, r#""-""#);
    assert_wrong("setting 36 r0", 12, r#""=""#, r#""r0""#);
    assert_wrong("port vlan = r0", 6, "a port from 0 to 63", r#""vlan""#);
    assert_wrong("port 2 mask = r0", 13, "a mask from 0 to 7", r#""=""#);
    assert_wrong("r0 = r1 / 3", 11, r#""2""#, r#""3""#);
    assert_wrong("r0 = r1 / 2", 12, r#""^""#, END);
    assert_wrong("r0 = r1 / 2^-1", 13, "a power from 0 to 31", r#""-""#);
    let operation = r#""+", "-", "/", "and", "or", "xor" or the end of the line"#;
    assert_wrong("r0 = r1 * r2", 9, operation, r#""*""#);
    assert_wrong("r0 = r1 r2", 9, operation, r#""r2""#);
    assert_wrong("if r0 > 0 skip 1", 7, r#""< 0" or "= 0""#, r#"">""#);
    assert_wrong("if r0 < 1 skip 1", 9, r#""0""#, r#""1""#);
    assert_wrong("if r0 <= 0 skip 1", 8, r#""0""#, r#""=""#);
    assert_wrong("if r0 == 0 skip 1", 8, r#""0""#, r#""=""#);
    assert_wrong("if r0 =< 0 skip 1", 8, r#""0""#, r#""<""#);
    assert_wrong("if r0 != 0 skip 1", 7, r#""< 0" or "= 0""#, r#""!""#);
    assert_wrong("r0 == 1", 5, RIGHT_SIDE, r#""=""#);
    assert_wrong("r0 = --1", 7, "a number or a register r0 to r7", r#""-""#);
    assert_wrong("r0 = r1 + -r2", 11, REGISTER, r#""-""#);
    assert_wrong("setting 36 == r0", 13, REGISTER, r#""=""#);
    assert_wrong("if r0 = 0", 10, r#""skip""#, END);
    assert_wrong("stop r0", 6, END, r#""r0""#);
    assert_wrong("r0 = 1 2", 8, END, r#""2""#);
    assert_wrong("r0 = r1 + r2 + r3", 14, END, r#""+""#);
    assert_wrong("here: stop", 7, END, r#""stop""#);
    assert_wrong("übel: stop", 7, END, r#""stop""#);
    assert_wrong("r0 = ü r1", 6, RIGHT_SIDE, r#""ü""#);
    assert_wrong("ü = r1 # é", 1, INSTRUCTION, r#""ü""#);
}

#[test]
fn skips_and_labels() {
    let to = r#"a number of instructions, or "to" and a label"#;
    assert_wrong("skip", 5, to, END);
    assert_wrong("if r0 < 0 skip there", 16, to, r#""there""#);
    assert_wrong("skip to", 8, LABEL, END);
    assert_wrong("skip to 3", 9, LABEL, r#""3""#);
    assert_wrong(
        "skip 33",
        6,
        "a number of instructions from 0 to 32",
        r#""33""#,
    );
    let far = "at most 1, as many instructions as follow";
    assert_wrong("skip 2", 6, far, r#""2""#);
    assert_wrong("if r0 = 0 skip 32", 16, far, r#""32""#);
    let name = "a name that begins with a letter";
    assert_wrong("3:", 1, name, r#""3""#);
    assert_wrong("_x:", 1, name, r#""_x""#);

    let error = read_program("again:\nstop\nskip to again\n").expect_err("it is above");
    assert_error(error, 3, 9, LABEL, r#""again", which line 1 has"#);
    let error = read_program("stop\non:\nstop\n on:\n").expect_err("it comes twice");
    assert_error(error, 4, 2, "another name", r#""on", which line 2 has"#);
    // The label of another change is none.
    let text = "change 1\nskip to on\nchange 2\non:\n";
    assert_broken(text, 2, 9, LABEL, r#""on""#);
}

#[test]
fn a_33rd_instruction() {
    let mut text = "change 7\n".to_string() + &"stop # one\n".repeat(32);
    Package::from_text(text.as_bytes()).expect("there may be 32");
    text += "  end:\n   stop\n";
    assert_broken(&text, 35, 4, "at most 32 instructions", "one more");
}

#[test]
fn entries_of_a_package() {
    let entry = r#""change" or "withdraw""#;
    assert_broken("\n  r0 = 1\n", 2, 3, entry, r#""r0""#);
    assert_broken("start:\n", 1, 1, entry, r#""start""#);
    assert_broken("withdraw 1\nstop\n", 2, 1, entry, r#""stop""#);
    let timestamp = "a timestamp from 0 to 18446744073709551615";
    assert_broken("change", 1, 7, timestamp, END);
    assert_broken("change -1", 1, 8, timestamp, r#""-""#);
    assert_broken(
        "withdraw 18446744073709551616",
        1,
        10,
        timestamp,
        r#""18446744073709551616""#,
    );
    let version = r#""version" or the end of the line"#;
    assert_broken("change 1 1", 1, 10, version, r#""1""#);
    assert_broken("change 1 version 2", 1, 18, "version 0 or 1", r#""2""#);
    assert_broken("change 1 version", 1, 17, "version 0 or 1", END);
    assert_broken("change 1 version 1 1", 1, 20, END, r#""1""#);
    assert_broken("withdraw 1 version 0", 1, 12, END, r#""version""#);
    assert_broken("change 1\nstop\nreturn\n", 3, 1, INSTRUCTION, r#""return""#);
}

#[test]
fn a_513th_entry() {
    let text = "withdraw 1\n".repeat(512);
    Package::from_text(text.as_bytes()).expect("there may be 512");
    let more = text.clone() + "# one more\n withdraw 1\n";
    assert_broken(&more, 514, 2, "at most 512 entries", "one more");
    let more = text + "change 1\n";
    assert_broken(&more, 513, 1, "at most 512 entries", "one more");
}

/// Bytes 65,535 and up: a length leaves 2 when divided by 4, so that 65,534 is the longest.
#[test]
fn a_package_that_is_too_long() {
    let change = |instructions| "change 1\n".to_string() + &"stop\n".repeat(instructions);
    // 2 + 244 × 268 = 65,394; 12 + 16 × 8 = 140 more is 65,534.
    let text = change(32).repeat(244);
    let longest = text.clone() + &change(16);
    let package = Package::from_text(longest.as_bytes()).expect("so long it may be");
    assert_eq!(package.to_bytes().len(), 65_534);
    let expected = "a package of at most 65535 bytes";
    let found = "65542 with this entry";
    assert_broken(text + &change(17), 8053, 1, expected, found);
    let found = "65546 with this entry";
    assert_broken(longest + "withdraw 1", 8070, 1, expected, found);
}

#[test]
fn bytes_that_are_not_utf_8() {
    assert_broken(b"change 1\nr0 = \xFF1\n", 2, 6, "UTF-8", "other bytes");
    assert_broken(b"# \xC3\xA9 \xC3\n", 1, 5, "UTF-8", "other bytes");
    assert_broken(
        "\u{FEFF}change 1\n",
        1,
        1,
        r#""change" or "withdraw""#,
        "\"\\u{feff}\"",
    );
}
