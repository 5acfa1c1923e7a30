//! Programs and packages in words, to bytes and back.

mod errors;
mod forms;
mod layout;
mod random;

use text_form::package::Entry;
use text_form::program::{Listing, Program, Reader};
use text_form::{Error, Package};
use tolbezun::Version;

/// The program of these lines.
fn read_program(text: &str) -> Result<Program, Error> {
    let mut reader = Reader::default();
    for (number, line) in (1..).zip(text.lines()) {
        reader.read_line(number, line.as_bytes())?;
    }
    reader.finish()
}

/// The program of these lines, which must be one.
#[track_caller]
fn program(text: &str) -> Program {
    read_program(text).unwrap_or_else(|error| panic!("{error} of {text}"))
}

fn listing(program: &[[u8; 8]]) -> String {
    Listing(program).to_string()
}

/// An instruction: operation, a, b, c and n.
fn bytes(op: u8, a: u8, b: u8, c: u8, n: i32) -> [u8; 8] {
    let [n0, n1, n2, n3] = n.to_le_bytes();
    [op, a, b, c, n0, n1, n2, n3]
}

/// A change of version 0.
fn change(timestamp: u64, program: Program) -> Entry {
    Entry::Change {
        timestamp,
        version: Version::Zero,
        program,
    }
}

/// The package of this text, which must be one.
#[track_caller]
fn package(text: &str) -> Package {
    Package::from_text(text.as_bytes()).unwrap_or_else(|error| panic!("{error} of {text}"))
}
