//! The proved calls, with the outside implementation's names for their answers, and the tables that
//! the proved library is lent.
//!
//! Each function makes its call on lent tables. The error is the refusal's number.

use outside::book::LoggedTurn;
use outside::calls::Standing;
use outside::checker::{Turn, Turned};
use outside::intake::Taken;
use outside::program::Access;
use outside::tables::{self, Status, LIST_ENTRIES};
use tolbezun::{calls, with_tables, Refusal, Tables};

/// Has functions written out for all tables. The outside implementation names them as the library's
/// source does.
macro_rules! functions {
    ($(#$doc:tt $proved:ident ($in_header:ident, $outside:ident) $entries:tt)*) => {
        /// The outside implementation's tables, for the proved library.
        pub fn lend(tables: &tables::Tables) -> Tables {
            Tables { $($proved: tables.$outside.clone()),* }
        }

        /// The other way round.
        pub fn take_back(tables: &Tables) -> tables::Tables {
            tables::Tables { $($outside: tables.$proved.clone()),* }
        }

        /// The names of the tables that differ.
        pub fn unlike(proved: &Tables, outside: &tables::Tables) -> Vec<&'static str> {
            let mut unlike = Vec::new();
            $(if proved.$proved != outside.$outside {
                unlike.push(stringify!($proved));
            })*
            unlike
        }
    };
}

with_tables!(functions);

/// Sets up the tables.
pub fn set_up(n: usize, tables: &mut Tables) -> Result<(), u8> {
    calls::set_up(n, tables).map_err(Refusal::number)
}

/// Takes in a change. The version may be any number.
pub fn take_in(
    n: usize,
    tables: &mut Tables,
    timestamp: u64,
    version: u16,
    program: &[u8],
) -> Result<Taken, u8> {
    match calls::take_in(n, tables, timestamp, version, program) {
        Ok(tolbezun::Taken::Done) => Ok(Taken::Done),
        Ok(tolbezun::Taken::AlreadyHeld) => Ok(Taken::AlreadyHeld),
        Err(refusal) => Err(refusal.number()),
    }
}

/// Withdraws a change.
pub fn withdraw(n: usize, tables: &mut Tables, timestamp: u64) -> Result<(), u8> {
    calls::withdraw(n, tables, timestamp).map_err(Refusal::number)
}

/// Drops every change stamped below a timestamp, and keeps the values as of it.
pub fn cutoff(n: usize, tables: &mut Tables, timestamp: u64) -> Result<(), u8> {
    calls::cutoff(n, tables, timestamp).map_err(Refusal::number)
}

/// Takes in a package.
pub fn take_in_package(
    n: usize,
    tables: &mut Tables,
    package: &[u8],
    answers: &mut [u8],
) -> Result<(), u8> {
    calls::take_in_package(n, tables, package, answers).map_err(Refusal::number)
}

/// Makes a turn. The answer is none for idle.
pub fn turn(n: usize, tables: &mut Tables) -> Result<Option<Turn>, u8> {
    let (turned, timestamp) = match calls::turn(n, tables).map_err(Refusal::number)? {
        tolbezun::Turned::Idle => return Ok(None),
        tolbezun::Turned::Ran(timestamp) => (Turned::Ran, timestamp),
        tolbezun::Turned::Stood(timestamp) => (Turned::Stood, timestamp),
        tolbezun::Turned::Cleared(timestamp) => (Turned::Cleared, timestamp),
        tolbezun::Turned::Faulted(timestamp, place) => (Turned::Faulted(place), timestamp),
    };
    Ok(Some(Turn { timestamp, turned }))
}

/// Makes a turn, and logs what demand 3 needs of it. The answer is none for idle.
pub fn logged_turn(n: usize, tables: &mut Tables) -> Result<Option<LoggedTurn>, u8> {
    let Some(turn) = turn(n, tables)? else {
        return Ok(None);
    };
    let held = &tables.timestamps[..usize::from(tables.held[0])];
    let place = held.iter().position(|&held| held == turn.timestamp);
    let reads = place.map_or(Vec::new(), |place| {
        let count = usize::from(tables.read_count[place]);
        let settings = &tables.read_settings[LIST_ENTRIES * place..][..count];
        let pairs = settings
            .iter()
            .zip(&tables.seen_values[LIST_ENTRIES * place..]);
        let access = |(&setting, &value)| Access { setting, value };
        pairs.map(access).collect()
    });
    Ok(Some(LoggedTurn { turn, reads }))
}

/// Drains.
pub fn drain(n: usize, tables: &mut Tables, totals: &mut [u16]) -> Result<(), u8> {
    calls::drain(n, tables, totals).map_err(Refusal::number)
}

/// The current value of a setting.
pub fn current_value(n: usize, tables: &Tables, setting: usize) -> Result<i32, u8> {
    calls::current_value(n, tables, setting).map_err(Refusal::number)
}

/// The value of a setting as of a timestamp.
pub fn value_as_of(n: usize, tables: &Tables, timestamp: u64, setting: usize) -> Result<i32, u8> {
    calls::value_as_of(n, tables, timestamp, setting).map_err(Refusal::number)
}

/// The standing of a timestamp.
pub fn standing(n: usize, tables: &Tables, timestamp: u64) -> Result<Standing, u8> {
    let standing = calls::standing(n, tables, timestamp).map_err(Refusal::number)?;
    Ok(Standing {
        status: match standing.status {
            tolbezun::Status::New => Status::New,
            tolbezun::Status::Valid => Status::Valid,
            tolbezun::Status::Invalid => Status::Invalid,
        },
        withdrawn: standing.withdrawn,
    })
}

/// Runs the held changes and writes what they leave to the lent slice.
pub fn plain_run(n: usize, tables: &Tables, settings: &mut [i32]) -> Result<(), u8> {
    calls::plain_run(n, tables, settings).map_err(Refusal::number)
}

/// Writes a package to the lent slice, and returns its length.
pub fn package_out(n: usize, tables: &Tables, package: &mut [u8]) -> Result<usize, u8> {
    calls::package_out(n, tables, package).map_err(Refusal::number)
}

/// Writes the start values to the lent slice.
pub fn start_values(settings: &mut [i32]) -> Result<(), u8> {
    calls::start_values(settings).map_err(Refusal::number)
}
