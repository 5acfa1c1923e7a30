//! How lines are read and answers are written.

use crate::{printed, program, text};
use std::io::{BufRead, BufReader, Read, Write};

#[test]
fn nothing_is_answered_for_empty_lines_and_comments() {
    assert_eq!(printed(&[], ""), "");
    assert_eq!(printed(&[], "\n\n# turn\n  \n\t# turn\n\r\n"), "");
    assert_eq!(
        printed(&[], "\nturn\n\n# drain\n drain \n"),
        "idle\ndone by console {}\n"
    );
}

#[test]
fn lines_may_end_in_any_way() {
    for script in [
        "turn\nturn\n",
        "turn\nturn",
        "turn\r\nturn\r\n",
        "turn\r\nturn\r",
    ] {
        assert_eq!(printed(&[], script), "idle\nidle\n", "{script:?}");
    }
}

/// An answer comes before the next line is sent.
#[test]
fn answers_come_at_once() {
    let mut child = program(&[]).spawn().expect("the program starts");
    let mut stdin = child.stdin.take().expect("its input is piped");
    let mut stdout = BufReader::new(child.stdout.take().expect("its output is piped"));
    for (call, expected) in [
        ("set_up\n", "done\n"),
        ("take_in 10 -\n", "done\n"),
        ("# a comment\n\nturn\n", "ran 10\n"),
        ("turn\n", "idle\n"),
    ] {
        stdin.write_all(call.as_bytes()).expect("the program reads");
        let mut answer = String::new();
        stdout.read_line(&mut answer).expect("the program answers");
        assert_eq!(answer, expected);
    }
    // All before a line that cannot be read is answered as well, and the program does not wait for
    // more.
    stdin
        .write_all(b"drain\nwhat\n")
        .expect("the program reads");
    let mut rest = String::new();
    stdout.read_to_string(&mut rest).expect("the program ends");
    assert_eq!(rest, "done by console {}\n");
    let output = child.wait_with_output().expect("the program ends");
    assert_eq!(text(&output.stderr), "line 8: there is no call \"what\"\n");
    assert_eq!(output.status.code(), Some(1));
}

#[test]
fn a_closed_output_ends_the_run_quietly() {
    let mut child = program(&[]).spawn().expect("the program starts");
    drop(child.stdout.take());
    let mut stdin = child.stdin.take().expect("its input is piped");
    // The process of another test, just forked, may still have the output for a moment, so that one
    // line is not enough.
    while stdin.write_all(b"turn\n").is_ok() {}
    let output = child.wait_with_output().expect("the program ends");
    assert_eq!(text(&output.stderr), "");
    assert_eq!(output.status.code(), Some(1));
}

#[cfg(target_os = "linux")]
#[test]
fn an_output_that_takes_nothing_ends_the_run() {
    let full = std::fs::OpenOptions::new().write(true).open("/dev/full");
    let mut child = program(&[])
        .stdout(full.expect("Linux has this file"))
        .spawn()
        .expect("the program starts");
    let mut stdin = child.stdin.take().expect("its input is piped");
    stdin.write_all(b"turn\n").expect("the program reads");
    let output = child.wait_with_output().expect("the program ends");
    let message = text(&output.stderr);
    let beginning = "an answer cannot be written: ";
    assert!(message.starts_with(beginning), "{message}");
    assert_eq!(output.status.code(), Some(1));
}
