//! The tables: their lengths and their form.
//!
//! Document 01, "Tables", and refusals 1 and 2 of "Turned down, in checking order"; document 02, R-6
//! and R-7.

use crate::program::{
    self, Access, SettingSet, Version, INSTRUCTION_BYTES, MAX_INSTRUCTIONS, SETTINGS,
};
use crate::start::settings_at_start;
use std::collections::HashSet;

/// "Capacity N is 1 to 4,096."
pub const MAX_CAPACITY: usize = 4096;

/// "programs (256 × N bytes)".
pub const PROGRAM_BYTES: usize = 256;

/// "read settings, seen values, write settings, written values (32 × N each)".
pub const LIST_ENTRIES: usize = 32;

/// "2^64 − 1 is infinity."
pub const INFINITY: u64 = u64::MAX;

/// "status (N: 0 New, 1 Valid, 2 Invalid)".
#[derive(Clone, Copy, Debug, PartialEq, Eq, PartialOrd, Ord)]
#[allow(missing_docs)]
pub enum Status {
    New,
    Valid,
    Invalid,
}

impl Status {
    /// The status with this number, if there is one.
    pub fn from_number(number: u16) -> Option<Self> {
        match number {
            0 => Some(Self::New),
            1 => Some(Self::Valid),
            2 => Some(Self::Invalid),
            _ => None,
        }
    }

    /// The number of this status.
    pub fn number(self) -> u16 {
        match self {
            Self::New => 0,
            Self::Valid => 1,
            Self::Invalid => 2,
        }
    }
}

/// The seventeen tables, of any lengths and with any contents. "by place, in order of arrival" are
/// all but the held count, the order, the view, the cutoff and the kept values.
#[derive(Clone, Debug, PartialEq, Eq)]
pub struct Tables {
    /// "held count (1 entry)".
    pub held: Vec<u16>,
    /// "timestamps (N)".
    pub timestamps: Vec<u64>,
    /// "order (N, the places by rising timestamp)".
    pub order: Vec<u16>,
    /// "status (N: 0 New, 1 Valid, 2 Invalid)".
    pub status: Vec<u16>,
    /// "withdrawn (N: 0 or 1)".
    pub withdrawn: Vec<u16>,
    /// "program length in instructions (N)".
    pub lengths: Vec<u16>,
    /// "programs (256 × N bytes)".
    pub programs: Vec<u8>,
    /// The read counts: "read and write counts (N each)".
    pub reads: Vec<u16>,
    /// The write counts.
    pub writes: Vec<u16>,
    /// The read settings: "read settings, seen values, write settings, written values (32 × N
    /// each)".
    pub sources: Vec<u16>,
    /// The seen values.
    pub seen: Vec<i32>,
    /// The write settings.
    pub targets: Vec<u16>,
    /// The written values.
    pub written: Vec<i32>,
    /// "and the view (1,024)."
    pub view: Vec<i32>,
    /// The version of each change (N), which "gets a lent table of its own, in document 01's widths
    /// unless another is told and in form only with the values named", 0 and 1 (document 02, R-6).
    pub versions: Vec<u16>,
    /// "The tables gain the cutoff, 0 at set-up" (document 02, R-7): 1 entry. It is a timestamp, so it
    /// has 64 bits.
    pub cutoff: Vec<u64>,
    /// "and 1,024 kept values, at set-up the start values." (document 02, R-7)
    pub kept: Vec<i32>,
}

impl Tables {
    /// Tables of the lengths that belong to capacity `n`, as set up leaves them: "every table to 0,
    /// the view to the start", and the kept values to the start values (document 02, R-7).
    pub fn new(n: usize) -> Self {
        Self {
            held: vec![0; 1],
            timestamps: vec![0; n],
            order: vec![0; n],
            status: vec![0; n],
            withdrawn: vec![0; n],
            lengths: vec![0; n],
            programs: vec![0; PROGRAM_BYTES * n],
            reads: vec![0; n],
            writes: vec![0; n],
            sources: vec![0; LIST_ENTRIES * n],
            seen: vec![0; LIST_ENTRIES * n],
            targets: vec![0; LIST_ENTRIES * n],
            written: vec![0; LIST_ENTRIES * n],
            view: settings_at_start().to_vec(),
            versions: vec![0; n],
            cutoff: vec![0; 1],
            kept: settings_at_start().to_vec(),
        }
    }

    /// The held count of tables in form.
    pub fn held_count(&self) -> usize {
        usize::from(self.held[0])
    }

    /// The cutoff of tables in form.
    pub fn cutoff(&self) -> u64 {
        self.cutoff[0]
    }

    /// The kept values of tables in form.
    pub fn kept_settings(&self) -> [i32; SETTINGS] {
        let kept = self.kept.as_slice().try_into();
        kept.expect("the tables are in form")
    }

    /// The place of a timestamp that tables in form hold.
    pub fn place_of(&self, timestamp: u64) -> Option<usize> {
        (0..self.held_count()).find(|&place| self.timestamps[place] == timestamp)
    }

    /// The status at a held place of tables in form.
    pub fn status(&self, place: usize) -> Status {
        Status::from_number(self.status[place]).expect("the tables are in form")
    }

    /// The version at a held place of tables in form.
    pub fn version(&self, place: usize) -> Version {
        Version::from_number(self.versions[place]).expect("the tables are in form")
    }

    /// The bytes of the program at a held place of tables in form.
    pub fn program(&self, place: usize) -> &[u8] {
        let length = usize::from(self.lengths[place]);
        &self.program_bytes(place)[..INSTRUCTION_BYTES * length]
    }

    /// The read list, with the values seen, at a held place of tables in form.
    pub fn read_list(&self, place: usize) -> impl Iterator<Item = Access> + '_ {
        list(place, &self.reads, &self.sources, &self.seen)
    }

    /// The write list at a held place of tables in form.
    pub fn write_list(&self, place: usize) -> impl Iterator<Item = Access> + '_ {
        list(place, &self.writes, &self.targets, &self.written)
    }

    /// Replaces both lists at a place: "Unused slots hold 0."
    pub(crate) fn replace_lists(&mut self, place: usize, reads: &[Access], writes: &[Access]) {
        let (counts, settings, values) = (&mut self.reads, &mut self.sources, &mut self.seen);
        replace_list(place, counts, settings, values, reads);
        let (counts, settings, values) = (&mut self.writes, &mut self.targets, &mut self.written);
        replace_list(place, counts, settings, values, writes);
    }

    /// Lets a place have what a place of other tables has. The order stays.
    pub(crate) fn copy_place(&mut self, place: usize, other: &Self, from: usize) {
        self.timestamps[place] = other.timestamps[from];
        self.status[place] = other.status[from];
        self.withdrawn[place] = other.withdrawn[from];
        self.lengths[place] = other.lengths[from];
        self.versions[place] = other.versions[from];
        let program = &mut self.programs[PROGRAM_BYTES * place..][..PROGRAM_BYTES];
        program.copy_from_slice(other.program_bytes(from));
        let reads: Vec<Access> = other.read_list(from).collect();
        let writes: Vec<Access> = other.write_list(from).collect();
        self.replace_lists(place, &reads, &writes);
    }

    /// All bytes for the program at a place, used or not.
    fn program_bytes(&self, place: usize) -> &[u8] {
        &self.programs[PROGRAM_BYTES * place..][..PROGRAM_BYTES]
    }
}

/// The list at a place, by the tables of counts, settings and values that hold it.
fn list<'a>(
    place: usize,
    counts: &[u16],
    settings: &'a [u16],
    values: &'a [i32],
) -> impl Iterator<Item = Access> + 'a {
    let count = usize::from(counts[place]);
    let settings = &entries(settings, place)[..count];
    let pairs = settings.iter().zip(entries(values, place));
    pairs.map(|(&setting, &value)| Access { setting, value })
}

/// Replaces the list at a place in the tables that hold it.
fn replace_list(
    place: usize,
    counts: &mut [u16],
    settings: &mut [u16],
    values: &mut [i32],
    list: &[Access],
) {
    counts[place] = list.len() as u16;
    for index in 0..LIST_ENTRIES {
        let entry = list.get(index).copied().unwrap_or_default();
        settings[LIST_ENTRIES * place + index] = entry.setting;
        values[LIST_ENTRIES * place + index] = entry.value;
    }
}

/// All slots for the list at a place, used or not, of a table that has one for each entry.
fn entries<T>(table: &[T], place: usize) -> &[T] {
    &table[LIST_ENTRIES * place..][..LIST_ENTRIES]
}

/// Whether N is a capacity and each table is "of exactly the length given". If not, the refusal is
/// 1.
pub fn check_lengths(n: usize, tables: &Tables) -> bool {
    if !(1..=MAX_CAPACITY).contains(&n) {
        return false;
    }
    let lengths = [
        (tables.held.len(), 1),
        (tables.timestamps.len(), n),
        (tables.order.len(), n),
        (tables.status.len(), n),
        (tables.withdrawn.len(), n),
        (tables.lengths.len(), n),
        (tables.programs.len(), PROGRAM_BYTES * n),
        (tables.reads.len(), n),
        (tables.writes.len(), n),
        (tables.sources.len(), LIST_ENTRIES * n),
        (tables.seen.len(), LIST_ENTRIES * n),
        (tables.targets.len(), LIST_ENTRIES * n),
        (tables.written.len(), LIST_ENTRIES * n),
        (tables.view.len(), SETTINGS),
        (tables.versions.len(), n),
        (tables.cutoff.len(), 1),
        (tables.kept.len(), SETTINGS),
    ];
    lengths.iter().all(|(length, given)| length == given)
}

/// Whether tables of the right lengths are in form. If not, the refusal is 2.
///
/// "Tables are in form when counts, order, status, flags, settings, programs and unused slots obey
/// this section, timestamps are valid and distinct, no list names a setting twice, and a New
/// change's lists are empty. The view is not tested." The version is "0 or 1" (document 02, R-6). "In
/// form, the cutoff is at most 2^64 − 2 and no held timestamp lies below it." (document 02, R-7) The
/// kept values are not tested.
///
/// # Panics
///
/// May panic on tables that [`check_lengths`] turns down.
pub fn in_form(n: usize, tables: &Tables) -> bool {
    let held = usize::from(tables.held[0]);
    held <= n
        && timestamps_in_form(&tables.timestamps[..held])
        && order_in_form(&tables.order, &tables.timestamps[..held])
        && cutoff_in_form(tables.cutoff[0], &tables.timestamps[..held])
        && (0..held).all(|place| change_in_form(tables, place))
        && (held..n).all(|place| is_unused(tables, place))
}

/// "A timestamp is an unsigned 64-bit number from 1 to 2^64 − 2", and no two are equal.
fn timestamps_in_form(timestamps: &[u64]) -> bool {
    let distinct: HashSet<u64> = timestamps.iter().copied().collect();
    distinct.len() == timestamps.len() && !distinct.contains(&0) && !distinct.contains(&INFINITY)
}

/// Whether the order has the places of these timestamps, which are distinct, "by rising timestamp",
/// and 0 in its other slots.
fn order_in_form(order: &[u16], timestamps: &[u64]) -> bool {
    let mut places: Vec<usize> = (0..timestamps.len()).collect();
    places.sort_unstable_by_key(|&place| timestamps[place]);
    let (used, unused) = order.split_at(places.len());
    used.iter().map(|&place| usize::from(place)).eq(places) && all_zero(unused)
}

/// Whether the cutoff is no infinity, and none of these timestamps is lower.
fn cutoff_in_form(cutoff: u64, timestamps: &[u64]) -> bool {
    let lowest = timestamps.iter().copied().min();
    cutoff < INFINITY && lowest.is_none_or(|lowest| cutoff <= lowest)
}

/// Whether status, flag, version, program and lists at a held place are in form.
fn change_in_form(tables: &Tables, place: usize) -> bool {
    let Some(status) = Status::from_number(tables.status[place]) else {
        return false;
    };
    let (reads, writes) = (tables.reads[place], tables.writes[place]);
    tables.withdrawn[place] <= 1
        && program_in_form(
            tables.versions[place],
            tables.lengths[place],
            tables.program_bytes(place),
        )
        && list_in_form(
            reads,
            entries(&tables.sources, place),
            entries(&tables.seen, place),
        )
        && list_in_form(
            writes,
            entries(&tables.targets, place),
            entries(&tables.written, place),
        )
        && (status != Status::New || (reads == 0 && writes == 0))
}

/// Whether the version and the first `length` instructions of these bytes are a program that none of
/// refusals 6, 13 and 7 turns down, and the bytes behind it are 0.
fn program_in_form(version: u16, length: u16, bytes: &[u8]) -> bool {
    let length = usize::from(length);
    if length > MAX_INSTRUCTIONS {
        return false;
    }
    let (program, unused) = bytes.split_at(INSTRUCTION_BYTES * length);
    program::check(version, program).is_ok() && all_zero(unused)
}

/// Whether a list of `count` entries fits, names settings that there are, none of them twice, and
/// has 0 in the slots behind its entries.
fn list_in_form(count: u16, settings: &[u16], values: &[i32]) -> bool {
    let count = usize::from(count);
    if count > LIST_ENTRIES {
        return false;
    }
    let (named, unused) = settings.split_at(count);
    let mut distinct = SettingSet::EMPTY;
    named
        .iter()
        .all(|&setting| usize::from(setting) < SETTINGS && distinct.insert(setting))
        && all_zero(unused)
        && all_zero(&values[count..])
}

/// Whether all slots of a place are 0: "Unused slots hold 0." The order is by rank and not by
/// place, so it is tested with the held places.
fn is_unused(tables: &Tables, place: usize) -> bool {
    tables.timestamps[place] == 0
        && tables.status[place] == 0
        && tables.withdrawn[place] == 0
        && tables.lengths[place] == 0
        && all_zero(tables.program_bytes(place))
        && tables.reads[place] == 0
        && tables.writes[place] == 0
        && all_zero(entries(&tables.sources, place))
        && all_zero(entries(&tables.seen, place))
        && all_zero(entries(&tables.targets, place))
        && all_zero(entries(&tables.written, place))
        && tables.versions[place] == 0
}

fn all_zero<T: Copy + Default + PartialEq>(slots: &[T]) -> bool {
    slots.iter().all(|&slot| slot == T::default())
}

#[cfg(test)]
mod tests;
