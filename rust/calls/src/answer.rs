//! The answer to a line: the call carried out on the tables.
//!
//! | answer | of |
//! |---|---|
//! | `done` | `set_up`, `take_in`, `withdraw`, `cutoff`, `load` |
//! | `held` | `take_in`: the same change is already held |
//! | `idle`, `ran TS`, `stood TS`, `cleared TS`, `faulted TS PLACE` | `turn`: PLACE is that of the instruction that broke off, counted from 0 |
//! | `done by console {"P": T, ..}` | `drain`: the totals that are not 0, by rising place. P is 4 × the console of a change, the lowest 8 bits of its timestamp, + 0 ran, 1 stood, 2 cleared, 3 faulted; T is the number of such turns |
//! | `value V` | `current`, `value_as_of` |
//! | `standing STATUS FLAG` | `standing`: 0 New, 1 Valid, 2 Invalid; 1 withdrawn, else 0 |
//! | `done answers [a, b, ..]` | `take_in_package`: for each entry 0 done, 255 already held, else the refusal |
//! | `length N HEX` | `package_out`: HEX is the N bytes written, as pairs of lower-case hexadecimal digits |
//! | `done [v, v, ..]` | `plain_run`, `start_values`: the 1,024 settings |
//! | one line of JSON | `tables`: an object with a list for each table |
//! | `refused R` | all but `start_values`, `tables` and `load` |

use crate::json;
use crate::script::Call;
use std::{fmt, fs, io};
use text_form::Quoted;
use tolbezun::calls::{self, ANSWERS, TOTALS};
use tolbezun::{start_values, Refusal, Standing, Tables, Taken, Turned, MAX_CAPACITY, SETTINGS};

/// The answer to a line. It shows itself as the table of this module says.
#[derive(Clone, Debug, PartialEq, Eq)]
pub enum Answer {
    /// Of a call with no other result.
    Done,
    /// Of `take_in`.
    Taken(Taken),
    /// Of `turn`.
    Turned(Turned),
    /// Of `drain`: all totals.
    Totals(Vec<u16>),
    /// Of `current` and `value_as_of`.
    Value(i32),
    /// Of `standing`.
    Standing(Standing),
    /// Of `take_in_package`: a byte for each entry.
    Entries(Vec<u8>),
    /// Of `package_out`: the bytes written.
    Package(Vec<u8>),
    /// Of `plain_run` and `start_values`.
    Settings(Vec<i32>),
    /// Of `tables`: the line of JSON.
    Tables(String),
    /// Of a call that is turned down.
    Refused(Refusal),
}

impl fmt::Display for Answer {
    fn fmt(&self, f: &mut fmt::Formatter<'_>) -> fmt::Result {
        match self {
            Self::Done | Self::Taken(Taken::Done) => f.write_str("done"),
            Self::Taken(Taken::AlreadyHeld) => f.write_str("held"),
            Self::Turned(Turned::Idle) => f.write_str("idle"),
            Self::Turned(Turned::Ran(timestamp)) => write!(f, "ran {timestamp}"),
            Self::Turned(Turned::Stood(timestamp)) => write!(f, "stood {timestamp}"),
            Self::Turned(Turned::Cleared(timestamp)) => write!(f, "cleared {timestamp}"),
            Self::Turned(Turned::Faulted(timestamp, place)) => {
                write!(f, "faulted {timestamp} {place}")
            }
            Self::Totals(totals) => write!(f, "done by console {{{}}}", counted(totals)),
            Self::Value(value) => write!(f, "value {value}"),
            Self::Standing(Standing { status, withdrawn }) => {
                write!(f, "standing {} {}", status.number(), u8::from(*withdrawn))
            }
            Self::Entries(answers) => write!(f, "done answers {answers:?}"),
            Self::Package(bytes) => write!(f, "length {} {}", bytes.len(), Hex(bytes)),
            Self::Settings(settings) => write!(f, "done {settings:?}"),
            Self::Tables(line) => f.write_str(line),
            Self::Refused(refusal) => write!(f, "refused {}", refusal.number()),
        }
    }
}

/// The totals that are not 0, each behind its place.
fn counted(totals: &[u16]) -> String {
    let counted: Vec<String> = totals
        .iter()
        .enumerate()
        .filter(|(_, total)| **total != 0)
        .map(|(place, total)| format!(r#""{place}": {total}"#))
        .collect();
    counted.join(", ")
}

/// Shows bytes as pairs of hexadecimal digits.
struct Hex<'a>(&'a [u8]);

impl fmt::Display for Hex<'_> {
    fn fmt(&self, f: &mut fmt::Formatter<'_>) -> fmt::Result {
        self.0.iter().try_for_each(|byte| write!(f, "{byte:02x}"))
    }
}

/// A capacity, and the tables that each call is lent.
pub struct Runner {
    n: usize,
    tables: Tables,
}

/// Why a line is not carried out although it is a call.
#[derive(Debug)]
pub enum Error {
    /// There is no room for a lent slice of so many bytes.
    Room(u128),
    /// The file to load cannot be read.
    File(String, io::Error),
    /// The file to load does not hold tables.
    Contents(String, json::Error),
}

impl fmt::Display for Error {
    fn fmt(&self, f: &mut fmt::Formatter<'_>) -> fmt::Result {
        match self {
            Self::Room(bytes) => write!(f, "there is no room for {bytes} bytes"),
            Self::File(file, error) => write!(f, "cannot read {}: {error}", Quoted(file)),
            Self::Contents(file, error) => {
                write!(f, "{} does not hold tables: {error}", Quoted(file))
            }
        }
    }
}

impl std::error::Error for Error {}

impl Runner {
    /// A runner for this capacity, whatever it is, with tables just set up. Where set up refuses the
    /// capacity they have 0 in every slot.
    pub fn new(n: usize) -> Self {
        // Above the highest capacity every call is refused, whatever the tables' lengths are: no
        // more is allocated than for one above it.
        let mut tables = Tables::new(n.min(MAX_CAPACITY + 1));
        let _ = calls::set_up(n, &mut tables);
        Self { n, tables }
    }

    /// The tables as they stand.
    pub fn tables(&self) -> &Tables {
        &self.tables
    }

    /// Carries out a call and returns its answer. After an error the tables are as before.
    pub fn answer(&mut self, call: &Call) -> Result<Answer, Error> {
        let (n, tables) = (self.n, &mut self.tables);
        let done = |()| Answer::Done;
        let answer = match *call {
            Call::SetUp => calls::set_up(n, tables).map(done),
            Call::TakeIn {
                timestamp,
                ref program,
                version,
            } => calls::take_in(n, tables, timestamp, version, program).map(Answer::Taken),
            Call::Withdraw { timestamp } => calls::withdraw(n, tables, timestamp).map(done),
            Call::Turn => calls::turn(n, tables).map(Answer::Turned),
            Call::Drain { totals } => {
                let mut totals = zeros(totals.unwrap_or(TOTALS))?;
                calls::drain(n, tables, &mut totals).map(|()| Answer::Totals(totals))
            }
            Call::Cutoff { timestamp } => calls::cutoff(n, tables, timestamp).map(done),
            Call::CurrentValue { setting } => {
                calls::current_value(n, tables, setting).map(Answer::Value)
            }
            Call::ValueAsOf { timestamp, setting } => {
                calls::value_as_of(n, tables, timestamp, setting).map(Answer::Value)
            }
            Call::Standing { timestamp } => {
                calls::standing(n, tables, timestamp).map(Answer::Standing)
            }
            Call::TakeInPackage {
                ref package,
                answers,
            } => {
                let mut answers = zeros(answers.unwrap_or(ANSWERS))?;
                calls::take_in_package(n, tables, package, &mut answers).map(|()| {
                    answers.truncate(calls::entry_count(package));
                    Answer::Entries(answers)
                })
            }
            Call::PackageOut { length } => {
                let mut package = zeros(length)?;
                calls::package_out(n, tables, &mut package).map(|length| {
                    package.truncate(length);
                    Answer::Package(package)
                })
            }
            Call::PlainRun => {
                let mut settings = vec![0; SETTINGS];
                calls::plain_run(n, tables, &mut settings).map(|()| Answer::Settings(settings))
            }
            Call::StartValues => Ok(Answer::Settings(start_values().to_vec())),
            Call::Tables => Ok(Answer::Tables(json::write(tables))),
            Call::Load { ref file } => {
                *tables = load(file)?;
                Ok(Answer::Done)
            }
        };
        Ok(answer.unwrap_or_else(Answer::Refused))
    }
}

/// So many zeros.
fn zeros<T: Clone + Default>(length: usize) -> Result<Vec<T>, Error> {
    let mut zeros = Vec::new();
    let reserved = zeros.try_reserve_exact(length);
    reserved.map_err(|_| Error::Room(length as u128 * size_of::<T>() as u128))?;
    zeros.resize(length, T::default());
    Ok(zeros)
}

fn load(file: &str) -> Result<Tables, Error> {
    let text = fs::read(file).map_err(|error| Error::File(file.to_string(), error))?;
    json::read(&text).map_err(|error| Error::Contents(file.to_string(), error))
}
