//! The calls that take in a change and withdraw one.
//!
//! Document 01, "Calls" and "Turned down, in checking order"; document 02, R-6 and R-7.

use crate::calls::{check, check_timestamp, refuse_unless, Refusal};
use crate::program::{self, INSTRUCTION_BYTES};
use crate::tables::{Status, Tables, PROGRAM_BYTES};

/// What [`take_in`] answers where it does not refuse.
#[derive(Clone, Copy, Debug, PartialEq, Eq, PartialOrd, Ord)]
pub enum Taken {
    /// The change is taken in.
    Done,
    /// "The same timestamp with the same program bytes answers already held, withdrawn or not, full
    /// or not, and alters nothing." And with the same version, which "is part of the program when a
    /// timestamp is already held" (document 02, R-6).
    AlreadyHeld,
}

/// "take in (the next place, New, not withdrawn, lists empty)". The version may be any number: one
/// above 1 is refused.
pub fn take_in(
    n: usize,
    tables: &mut Tables,
    timestamp: u64,
    version: u16,
    program: &[u8],
) -> Result<Taken, Refusal> {
    check(n, tables)?;
    take_in_checked(tables, timestamp, version, program)
}

/// "withdraw": "Withdrawing sets the flag; Valid becomes Invalid."
pub fn withdraw(n: usize, tables: &mut Tables, timestamp: u64) -> Result<(), Refusal> {
    check(n, tables)?;
    withdraw_checked(tables, timestamp)
}

/// As [`take_in`], on tables in form.
pub(crate) fn take_in_checked(
    tables: &mut Tables,
    timestamp: u64,
    version: u16,
    program: &[u8],
) -> Result<Taken, Refusal> {
    check_timestamp(tables, timestamp)?;
    let version = program::check(version, program).map_err(Refusal::Program)?;
    if let Some(place) = tables.place_of(timestamp) {
        let same = tables.version(place) == version && tables.program(place) == program;
        refuse_unless(same, Refusal::OtherProgram)?;
        return Ok(Taken::AlreadyHeld);
    }
    let place = tables.held_count();
    refuse_unless(place < tables.timestamps.len(), Refusal::Full)?;

    // What is not stored to here is 0 at a place that is not held: New, not withdrawn, lists empty.
    tables.held[0] += 1;
    tables.timestamps[place] = timestamp;
    tables.versions[place] = version.number();
    tables.lengths[place] = (program.len() / INSTRUCTION_BYTES) as u16;
    tables.programs[PROGRAM_BYTES * place..][..program.len()].copy_from_slice(program);
    // "order (N, the places by rising timestamp)".
    tables.order[place] = place as u16;
    let timestamps = &tables.timestamps;
    tables.order[..=place].sort_unstable_by_key(|&place| timestamps[usize::from(place)]);
    Ok(Taken::Done)
}

/// As [`withdraw`], on tables in form.
pub(crate) fn withdraw_checked(tables: &mut Tables, timestamp: u64) -> Result<(), Refusal> {
    check_timestamp(tables, timestamp)?;
    let place = tables.place_of(timestamp).ok_or(Refusal::NotHeld)?;
    refuse_unless(tables.withdrawn[place] == 0, Refusal::Withdrawn)?;

    tables.withdrawn[place] = 1;
    if tables.status(place) == Status::Valid {
        tables.status[place] = Status::Invalid.number();
    }
    Ok(())
}

#[cfg(test)]
mod tests;
