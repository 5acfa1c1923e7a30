//! The cabinet program.
//!
//! Document 01, "Cases to know", after the cases.

use crate::checker::{turn, Turned};
use crate::package::{entries, take_in_package, Entry, ALREADY_HELD, ANSWERS, DONE};
use crate::start::start_value;
use crate::tables::Tables;
use std::fmt::Write;

/// "The cabinet program (N = 128)".
pub const CAPACITY: usize = 128;

/// What the cabinet program writes to standard output where this is its standard input.
///
/// "Entry lines give the index in the contents and taken, held, withdrawn or refused with the
/// number. Then come the turns of one drain by timestamp, then settings", rising, with values: "The
/// program lists settings that differ from their start" (document 02, R-1). Faulted "with the place
/// instead of ran" stands in the listing too: "`turn 10 faulted 2` where the third instruction broke
/// off" (document 02, R-2). "A bad package gives only `package refused 3`."
pub fn listing(input: &[u8]) -> String {
    let mut tables = Tables::new(CAPACITY);
    let mut answers = [0; ANSWERS];
    let taken = take_in_package(CAPACITY, &mut tables, input, &mut answers);
    let mut lines = Lines(String::new());
    if let Err(refusal) = taken {
        lines.push(format_args!("package refused {}", refusal.number()));
        return lines.0;
    }
    let entries = entries(input).expect("the package is not refused");
    for (index, (entry, answer)) in entries.iter().zip(answers).enumerate() {
        match (entry, answer) {
            (Entry::Change { .. }, DONE) => lines.push(format_args!("entry {index} taken")),
            (Entry::Withdrawal { .. }, DONE) => {
                lines.push(format_args!("entry {index} withdrawn"));
            }
            (_, ALREADY_HELD) => lines.push(format_args!("entry {index} held")),
            (_, refusal) => lines.push(format_args!("entry {index} refused {refusal}")),
        }
    }
    while let Some(turn) = turn(CAPACITY, &mut tables).expect("the tables are in form") {
        let timestamp = turn.timestamp;
        match turn.turned {
            Turned::Ran => lines.push(format_args!("turn {timestamp} ran")),
            Turned::Stood => lines.push(format_args!("turn {timestamp} stood")),
            Turned::Cleared => lines.push(format_args!("turn {timestamp} cleared")),
            Turned::Faulted(place) => {
                lines.push(format_args!("turn {timestamp} faulted {place}"));
            }
        }
    }
    for (setting, &value) in tables.view.iter().enumerate() {
        if value != start_value(setting) {
            lines.push(format_args!("setting {setting} {value}"));
        }
    }
    lines.0
}

/// Lines that end in a line feed.
struct Lines(String);

impl Lines {
    fn push(&mut self, line: std::fmt::Arguments<'_>) {
        writeln!(self.0, "{line}").expect("a string takes all");
    }
}

#[cfg(test)]
mod tests;
