//! The calls that set up the tables and that only read them.
//!
//! Document 01, "Calls" and "Turned down, in checking order"; document 02, R-7.

use crate::program::{self, Malformed, SETTINGS};
use crate::tables::{check_lengths, in_form, Status, Tables, INFINITY};

/// Why a call is turned down. "A refusal gives its number alone and alters no lent slice."
#[derive(Clone, Copy, Debug, PartialEq, Eq)]
pub enum Refusal {
    /// "1. A lent slice has another length than stated, or N is outside 1 to 4,096".
    Length,
    /// "2. The tables are not in form."
    Form,
    /// "3. The package breaks its layout or length."
    Package,
    /// "4. The timestamp is 0 or 2^64 − 1; value as of allows 2^64 − 1."
    Timestamp,
    /// "5. The setting number is above 1,023."
    Setting,
    /// 6, 13 or 7, in this order, which are about the program alone.
    Program(Malformed),
    /// "8. The timestamp is held with another program." Or with another version, which "is part of
    /// the program" (document 02, R-6).
    OtherProgram,
    /// "9. The held count equals N and the timestamp is not held."
    Full,
    /// "10. The timestamp is not held (withdraw, standing)."
    NotHeld,
    /// "11. The change is withdrawn already (withdraw)."
    Withdrawn,
    /// "Refusal 12, last in the order: the package would pass its own limits or the lent slice."
    /// (document 02, R-3)
    Room,
    /// "Refusal 14, just after 4, meets a timestamp below the cutoff in any call, a lower new cutoff
    /// included" (document 02, R-7).
    Cutoff,
    /// "Refusal 15, after 11, meets a cutoff with a New or Invalid change below it." (document 02,
    ///
    Unsettled,
}

impl Refusal {
    /// The number of the refusal.
    pub fn number(self) -> u8 {
        match self {
            Self::Length => 1,
            Self::Form => 2,
            Self::Package => 3,
            Self::Timestamp => 4,
            Self::Setting => 5,
            Self::Program(malformed) => malformed.refusal(),
            Self::OtherProgram => 8,
            Self::Full => 9,
            Self::NotHeld => 10,
            Self::Withdrawn => 11,
            Self::Room => 12,
            Self::Cutoff => 14,
            Self::Unsettled => 15,
        }
    }
}

/// What [`standing`] answers.
#[derive(Clone, Copy, Debug, PartialEq, Eq)]
#[allow(missing_docs)]
pub struct Standing {
    pub status: Status,
    pub withdrawn: bool,
}

/// "Set up (every table to 0, the view to the start)", and the kept values to the start values
/// (document 02, R-7). Refusal 1 is "all that set up tests".
pub fn set_up(n: usize, tables: &mut Tables) -> Result<(), Refusal> {
    refuse_unless(check_lengths(n, tables), Refusal::Length)?;
    *tables = Tables::new(n);
    Ok(())
}

/// "current value (from the view)".
pub fn current_value(n: usize, tables: &Tables, setting: usize) -> Result<i32, Refusal> {
    check(n, tables)?;
    refuse_unless(setting < SETTINGS, Refusal::Setting)?;
    Ok(tables.view[setting])
}

/// "value as of a timestamp (the highest write stamped below it, else the start)". The value "as of a
/// time before any write" is the kept one (document 02, R-7).
pub fn value_as_of(
    n: usize,
    tables: &Tables,
    timestamp: u64,
    setting: usize,
) -> Result<i32, Refusal> {
    check(n, tables)?;
    refuse_unless(timestamp != 0, Refusal::Timestamp)?;
    check_cutoff(tables, timestamp)?;
    refuse_unless(setting < SETTINGS, Refusal::Setting)?;
    Ok(value_upto(tables, timestamp, setting))
}

/// As [`value_as_of`], on tables in form, of a setting that there is.
pub(crate) fn value_upto(tables: &Tables, timestamp: u64, setting: usize) -> i32 {
    let highest = (0..tables.held_count())
        .filter(|&place| tables.timestamps[place] < timestamp)
        .flat_map(|place| {
            let writes = tables.write_list(place);
            writes.map(move |write| (tables.timestamps[place], write))
        })
        .filter(|(_, write)| usize::from(write.setting) == setting)
        .max_by_key(|&(stamp, _)| stamp);
    highest.map_or(tables.kept[setting], |(_, write)| write.value)
}

/// "standing of a timestamp (status and flag)".
pub fn standing(n: usize, tables: &Tables, timestamp: u64) -> Result<Standing, Refusal> {
    check(n, tables)?;
    check_timestamp(tables, timestamp)?;
    let place = tables.place_of(timestamp).ok_or(Refusal::NotHeld)?;
    Ok(Standing {
        status: tables.status(place),
        withdrawn: tables.withdrawn[place] != 0,
    })
}

/// "The plain run starts its own 1,024 settings" at the kept values (document 02, R-7) "and writes to
/// a lent slice of 1,024 what all held changes leave, run in timestamp order, withdrawn ones passed
/// over." Each runs by its own version (document 02, R-6).
pub fn plain_run(n: usize, tables: &Tables, lent: &mut [i32]) -> Result<(), Refusal> {
    refuse_unless(lent.len() == SETTINGS, Refusal::Length)?;
    check(n, tables)?;
    let mut places: Vec<usize> = (0..tables.held_count())
        .filter(|&place| tables.withdrawn[place] == 0)
        .collect();
    places.sort_unstable_by_key(|&place| tables.timestamps[place]);
    let mut settings = tables.kept_settings();
    for place in places {
        let outcome = program::run(tables.version(place), tables.program(place), &settings);
        for write in outcome.writes() {
            settings[usize::from(write.setting)] = write.value;
        }
    }
    lent.copy_from_slice(&settings);
    Ok(())
}

/// Refusals 1 and 2, as every call but set up tests them.
pub(crate) fn check(n: usize, tables: &Tables) -> Result<(), Refusal> {
    refuse_unless(check_lengths(n, tables), Refusal::Length)?;
    refuse_unless(in_form(n, tables), Refusal::Form)
}

/// Refusals 4 and 14, as every call but value as of tests them.
pub(crate) fn check_timestamp(tables: &Tables, timestamp: u64) -> Result<(), Refusal> {
    let valid = timestamp != 0 && timestamp != INFINITY;
    refuse_unless(valid, Refusal::Timestamp)?;
    check_cutoff(tables, timestamp)
}

/// Refusal 14.
fn check_cutoff(tables: &Tables, timestamp: u64) -> Result<(), Refusal> {
    refuse_unless(timestamp >= tables.cutoff(), Refusal::Cutoff)
}

pub(crate) fn refuse_unless(condition: bool, refusal: Refusal) -> Result<(), Refusal> {
    match condition {
        true => Ok(()),
        false => Err(refusal),
    }
}

#[cfg(test)]
mod tests;
