//! The program `calls`, run on scripts.

mod answers;
mod arguments;
mod cases;
mod explained;
mod lessons;
mod loading;
mod outside_explanations;
mod outside_tables;
mod programs;
mod random;
mod running;
mod unreadable;
mod words;

use std::fs;
use std::io::Write;
use std::process::{Command, Output, Stdio};
use std::thread;

/// The folder in which the program runs, with the files that the tests make.
const FOLDER: &str = env!("CARGO_TARGET_TMPDIR");

/// The program, to be started with these arguments.
fn program(arguments: &[&str]) -> Command {
    let mut program = Command::new(env!("CARGO_BIN_EXE_calls"));
    program
        .args(arguments)
        .current_dir(FOLDER)
        .stdin(Stdio::piped())
        .stdout(Stdio::piped())
        .stderr(Stdio::piped());
    program
}

/// Runs the program on this input.
fn run(arguments: &[&str], input: &[u8]) -> Output {
    let mut child = program(arguments).spawn().expect("the program starts");
    let mut stdin = child.stdin.take().expect("its input is piped");
    thread::scope(|scope| {
        // The program may end before it has read all.
        scope.spawn(move || stdin.write_all(input));
        child.wait_with_output().expect("the program ends")
    })
}

/// What the program prints for a script that it carries out to the end.
#[track_caller]
fn printed(arguments: &[&str], script: &str) -> String {
    let output = run(arguments, script.as_bytes());
    assert_eq!(text(&output.stderr), "");
    assert_eq!(output.status.code(), Some(0));
    text(&output.stdout).to_string()
}

/// Carries out calls, each with its answer.
#[track_caller]
fn assert_answers<L: AsRef<str>>(arguments: &[&str], calls: &[(L, &str)]) {
    let lines = calls.iter().map(|(line, _)| line.as_ref());
    let script = lines.clone().collect::<Vec<_>>().join("\n");
    let printed = printed(arguments, &script);
    let mut answers = printed.lines();
    for (number, (line, expected)) in (1..).zip(calls) {
        let line = line.as_ref();
        assert_eq!(answers.next(), Some(*expected), "line {number}: {line}");
    }
    assert_eq!(answers.next(), None);
}

/// Makes a file for the program to read.
fn write_file(name: &str, contents: impl AsRef<[u8]>) {
    fs::write(format!("{FOLDER}/{name}"), contents).expect("the file is written");
}

fn text(bytes: &[u8]) -> &str {
    str::from_utf8(bytes).expect("the program prints UTF-8")
}
