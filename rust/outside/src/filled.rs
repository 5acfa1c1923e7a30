//! A package that a cabinet writes, and another cabinet that is filled from it.
//!
//! Document 02, R-3, whose sentences are quoted here, and R-7. Nothing here uses the calls: as [`book`]
//! does, it looks at calls as they were made and answered, by whatever implementation, and at the
//! tables that they left.
//!
//! [`book`]: crate::book

use crate::book::{Book, Call};
use crate::calls::Refusal;
use crate::package::{entries, Entry, DONE, ENTRY_BYTES, MAX_BYTES, MAX_ENTRIES};
use crate::program::{Access, Version, SETTINGS};
use crate::tables::{Status, Tables};
use std::collections::BTreeMap;

/// What a written package, or a cabinet filled from it, breaks.
#[derive(Clone, Copy, Debug, PartialEq, Eq)]
pub enum Breach {
    /// The package is refused, although it would pass neither its limits nor the lent slice.
    Refused(u8),
    /// The package would pass its limits or the lent slice, and this is not refusal 12.
    NotRefused,
    /// What is written breaks the layout of a package.
    Layout,
    /// The entries are not "all held changes by rising timestamp, then the withdrawals by rising
    /// timestamp".
    Entries,
    /// A cabinet has a cutoff. Nothing is claimed then: "filling an empty cabinet holds only where both
    /// cabinets have cutoff 0" (document 02, R-7).
    Cutoff,
    /// This entry, counted from 0, is not answered done.
    Answer(usize),
    /// The filled cabinet does not hold the neighbour's timestamps and no others.
    Timestamps,
    /// Version, program, flag, status or lists of this timestamp are not the neighbour's.
    Change(u64),
    /// This setting of the view is not the neighbour's.
    View(usize),
}

/// Checks what package out answered, lent a slice of `room` bytes, after a list of calls that began
/// on tables just set up: the bytes that it wrote, or the refusal.
///
/// "Cabinets that hold the same changes and withdrawn marks write the same bytes if neither is
/// refused." What they hold is the book, and here the book alone says what is written; a package
/// has no other bytes than its entries say.
pub fn check_package(calls: &[Call], room: usize, answer: Result<&[u8], u8>) -> Result<(), Breach> {
    let booked = Book::of(calls).entries();
    let bodies = booked.iter().map(|entry| match entry {
        Entry::Change { program, .. } => program.len(),
        Entry::Withdrawal { .. } => 0,
    });
    let length = 2 + ENTRY_BYTES * booked.len() + bodies.sum::<usize>();
    let fits = booked.len() <= MAX_ENTRIES && length <= MAX_BYTES && length <= room;
    match answer {
        Err(refusal) if fits => Err(Breach::Refused(refusal)),
        Err(refusal) if refusal == Refusal::Room.number() => Ok(()),
        Ok(package) if fits => {
            let written = entries(package).ok_or(Breach::Layout)?;
            unless(written == booked, Breach::Entries)
        }
        _ => Err(Breach::NotRefused),
    }
}

/// "A package so written, taken into empty tables with enough capacity and drained, gives the
/// neighbour's drained state by timestamp." `answers` are those of the package's entries, in order;
/// both tables are in form and drained.
pub fn check_filled(answers: &[u8], filled: &Tables, neighbour: &Tables) -> Result<(), Breach> {
    let cutoffs = [filled, neighbour].map(Tables::cutoff);
    unless(cutoffs == [0, 0], Breach::Cutoff)?;
    if let Some(refused) = answers.iter().position(|&answer| answer != DONE) {
        return Err(Breach::Answer(refused));
    }
    let (changes, expected) = (State::by_timestamp(filled), State::by_timestamp(neighbour));
    unless(changes.keys().eq(expected.keys()), Breach::Timestamps)?;
    for (&timestamp, change) in &changes {
        unless(*change == expected[&timestamp], Breach::Change(timestamp))?;
    }
    let unlike = (0..SETTINGS).find(|&setting| filled.view[setting] != neighbour.view[setting]);
    unlike.map_or(Ok(()), |setting| Err(Breach::View(setting)))
}

/// What tables hold of a change, wherever its place is.
#[derive(PartialEq)]
pub(crate) struct State {
    version: Version,
    program: Vec<u8>,
    withdrawn: bool,
    status: Status,
    /// With the values seen.
    reads: Vec<Access>,
    writes: Vec<Access>,
}

impl State {
    /// All that tables in form hold.
    pub(crate) fn by_timestamp(tables: &Tables) -> BTreeMap<u64, Self> {
        let state = |place| Self {
            version: tables.version(place),
            program: tables.program(place).to_vec(),
            withdrawn: tables.withdrawn[place] != 0,
            status: tables.status(place),
            reads: tables.read_list(place).collect(),
            writes: tables.write_list(place).collect(),
        };
        let places = 0..tables.held_count();
        places
            .map(|place| (tables.timestamps[place], state(place)))
            .collect()
    }
}

fn unless(condition: bool, breach: Breach) -> Result<(), Breach> {
    match condition {
        true => Ok(()),
        false => Err(breach),
    }
}

#[cfg(test)]
mod tests;
