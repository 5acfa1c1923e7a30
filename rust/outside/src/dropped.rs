//! A cabinet that drops changes beside one that holds them all.
//!
//! Document 02, R-7: a cutoff "drops every change stamped below it and keeps each setting's value as of
//! it", so that nothing else is lost. Nothing here makes calls: as [`book`] does, it looks at the tables
//! that they left, by whatever implementation.
//!
//! [`book`]: crate::book

use crate::calls::value_upto;
use crate::filled::State;
use crate::program::SETTINGS;
use crate::tables::Tables;

/// What a cabinet that drops changes breaks.
#[derive(Clone, Copy, Debug, PartialEq, Eq)]
pub enum Breach {
    /// It does not hold those timestamps of the other that are not below its cutoff, and no others.
    Timestamps,
    /// Version, program, flag, status or lists of this timestamp are not the other's.
    Change(u64),
    /// This kept value is not the other's value as of the cutoff.
    Kept(usize),
    /// This setting of the view is not the other's.
    View(usize),
}

/// Checks a cabinet beside one that took in and withdrew the same, has room for all and never dropped a
/// change. Both tables are in form and drained.
pub fn check_nothing_lost(dropping: &Tables, holding: &Tables) -> Result<(), Breach> {
    let cutoff = dropping.cutoff();
    let (changes, all) = (State::by_timestamp(dropping), State::by_timestamp(holding));
    if !changes
        .keys()
        .eq(all.range(cutoff..).map(|(timestamp, _)| timestamp))
    {
        return Err(Breach::Timestamps);
    }
    for (&timestamp, change) in &changes {
        if *change != all[&timestamp] {
            return Err(Breach::Change(timestamp));
        }
    }
    for setting in 0..SETTINGS {
        if dropping.kept[setting] != value_upto(holding, cutoff, setting) {
            return Err(Breach::Kept(setting));
        }
        if dropping.view[setting] != holding.view[setting] {
            return Err(Breach::View(setting));
        }
    }
    Ok(())
}

#[cfg(test)]
mod tests;
