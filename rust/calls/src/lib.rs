//! A script runner: reads calls one to a line and answers each with a line.
//!
//! [`script`] says what the lines are, [`answer`] what is answered, [`explain`] what may follow an
//! answer. The calls are those of the crate `tolbezun`, on tables that the runner keeps from line to
//! line.
//!
//! ```
//! use calls::Options;
//!
//! let script = "set_up\ntake_in 10 01000000070000000d00000022000000\ndrain\ncurrent 34\n";
//! let options = Options { n: 128, explain: false };
//! let mut answers = Vec::new();
//! calls::run(options, script.as_bytes(), &mut answers).expect("every line can be read");
//! assert_eq!(answers, b"done\ndone\ndone by console {\"40\": 1}\nvalue 7\n");
//! ```

#![forbid(unsafe_code)]
#![warn(missing_docs)]

pub mod answer;
pub mod explain;
pub mod json;
pub mod script;

use answer::Runner;
use script::Unreadable;
use std::error::Error;
use std::fmt;
use std::io::{self, BufRead, Write};

/// How a script is carried out.
#[derive(Clone, Copy, Debug, PartialEq, Eq)]
pub struct Options {
    /// The capacity.
    pub n: usize,
    /// Whether an answer is followed by the lines that explain it.
    pub explain: bool,
}

/// Why the rest of a script is not carried out.
#[derive(Debug)]
pub enum Stop {
    /// A line cannot be read.
    Line {
        /// The number of the line, counted from 1.
        number: usize,
        /// What is wrong with it.
        why: Box<dyn Error>,
    },
    /// An answer cannot be written.
    Output(io::Error),
}

impl fmt::Display for Stop {
    fn fmt(&self, f: &mut fmt::Formatter<'_>) -> fmt::Result {
        match self {
            Self::Line { number, why } => write!(f, "line {number}: {why}"),
            Self::Output(error) => write!(f, "an answer cannot be written: {error}"),
        }
    }
}

impl Error for Stop {}

impl From<Unreadable> for Stop {
    fn from(Unreadable { line, error }: Unreadable) -> Self {
        Self::Line {
            number: line,
            why: error.into(),
        }
    }
}

/// Carries out a script line by line. An answer is written, and flushed, before the next line is
/// read.
pub fn run(options: Options, mut input: impl BufRead, mut output: impl Write) -> Result<(), Stop> {
    let Options { n, explain } = options;
    let mut runner = Runner::new(n);
    let mut reader = script::Reader::default();
    let mut line = Vec::new();
    for number in 1.. {
        let unreadable = |why| Stop::Line { number, why };
        line.clear();
        let length = input.read_until(b'\n', &mut line);
        if length.map_err(|error| unreadable(error.into()))? == 0 {
            break;
        }
        let text = line.strip_suffix(b"\n").unwrap_or(&line);
        let Some(call) = reader.read(number, text)? else {
            continue;
        };
        let before = explain.then(|| runner.tables().clone());
        let answer = runner.answer(&call);
        let answer = answer.map_err(|error| unreadable(error.into()))?;
        let explanation = match before {
            Some(before) => explain::lines(n, before, &call, &answer, runner.tables()),
            None => String::new(),
        };
        let written = write!(output, "{answer}\n{explanation}").and_then(|()| output.flush());
        written.map_err(Stop::Output)?;
    }
    Ok(reader.finish()?)
}
