//! Random tables: in form, and then with a single breach, with a slot changed or of another length.

use super::{change_part, number, program_naming, version, Random, Settings, Style};
use outside::program::{self, Access, Version, INSTRUCTION_BYTES, MAX_INSTRUCTIONS, SETTINGS};
use outside::tables::{Tables, INFINITY, LIST_ENTRIES, PROGRAM_BYTES};
use std::collections::BTreeSet;

/// A capacity from 1 to 64: most often a small one.
pub fn capacity(random: &mut Random) -> usize {
    let most = random.pick(&[4, 8, 8, 16, 64]);
    1 + random.below(most)
}

/// A held count from 0 to `n`: often `n`.
pub fn held_count(random: &mut Random, n: usize) -> usize {
    match random.below(4) {
        0 => n,
        _ => random.below(n + 1),
    }
}

/// Tables in form of capacity `n` that hold so many changes. Calls need not reach them: nothing
/// ties a change's lists to its program, or the view to the lists.
pub fn in_form(random: &mut Random, n: usize, held: usize) -> Tables {
    let statuses: &[u16] = random.pick::<&[u16]>(&[&[0, 1, 2], &[1], &[1, 1, 1, 2, 0]]);
    let flags: &[u16] = random.pick::<&[u16]>(&[&[0, 0, 0, 1], &[0], &[0, 1]]);
    // Most often both.
    let versions: &[Version] = random.pick(&[
        &Version::ALL[..],
        &Version::ALL,
        &Version::ALL[..1],
        &Version::ALL[1..],
    ]);
    let settings = named(random);
    let mut tables = Tables::new(n);
    hold(random, &mut tables, held);
    for place in 0..held {
        tables.status[place] = random.pick(statuses);
        tables.withdrawn[place] = random.pick(flags);
        let longest = random.pick(&[4, 8, MAX_INSTRUCTIONS]);
        let length = count(random, longest);
        let version = random.pick(versions);
        put_program(random, &mut tables, place, version, &settings, length);
        if tables.status[place] != 0 {
            for list in List::ALL {
                let longest = random.pick(&[1, 4, LIST_ENTRIES]);
                let count = count(random, longest);
                list.put(random, &mut tables, place, &settings, count);
            }
        }
    }
    tables.view.fill_with(|| number(random, &settings));
    keep(random, &mut tables, &settings);
    tables
}

/// Tables in form of capacity `n` that hold so many changes, all Valid, each with a program of 32
/// instructions, 32 reads and 32 writes.
pub fn in_form_with_full_lists(random: &mut Random, n: usize, held: usize) -> Tables {
    let settings = Settings::new(random, SETTINGS);
    let mut tables = Tables::new(n);
    hold(random, &mut tables, held);
    for place in 0..held {
        tables.status[place] = 1;
        let version = version(random);
        put_program(
            random,
            &mut tables,
            place,
            version,
            &settings,
            MAX_INSTRUCTIONS,
        );
        for list in List::ALL {
            list.put(random, &mut tables, place, &settings, LIST_ENTRIES);
        }
    }
    tables.view.fill_with(|| number(random, &settings));
    keep(random, &mut tables, &settings);
    tables
}

/// Sets the cutoff, most often to other than 0, and half of the time the kept values, to any values.
fn keep(random: &mut Random, tables: &mut Tables, settings: &Settings) {
    let held = &tables.timestamps[..tables.held_count()];
    let highest = held.iter().copied().min().unwrap_or(INFINITY - 1);
    tables.cutoff[0] = match random.below(4) {
        0 => 0,
        1 => highest,
        2 => highest - random.below(3).min(highest as usize) as u64,
        _ => random.below(highest as usize) as u64,
    };
    if random.below(2) == 0 {
        tables.kept.fill_with(|| number(random, settings));
    }
}

/// The settings that the changes of tables name: few, so that many changes name the same one, or
/// all.
fn named(random: &mut Random) -> Settings {
    let count = random.pick(&[4, 8, 40, SETTINGS]);
    Settings::new(random, count)
}

/// A count from 0 to `most`: 0, 1 and `most` more often.
fn count(random: &mut Random, most: usize) -> usize {
    match random.below(8) {
        0 => 0,
        1 => 1,
        2 => most,
        _ => random.below(most + 1),
    }
}

/// Sets the held count, the timestamps and the order.
fn hold(random: &mut Random, tables: &mut Tables, held: usize) {
    tables.held[0] = held as u16;
    let timestamps = timestamps(random, held);
    tables.timestamps[..held].copy_from_slice(&timestamps);
    let mut places: Vec<u16> = (0..held as u16).collect();
    places.sort_unstable_by_key(|&place| timestamps[usize::from(place)]);
    tables.order[..held].copy_from_slice(&places);
}

/// So many distinct timestamps.
fn timestamps(random: &mut Random, count: usize) -> Vec<u64> {
    let style = random.below(6);
    let low_bits = random.bits() >> 17;
    let mut distinct = BTreeSet::new();
    while distinct.len() < count {
        let index = distinct.len() as u64;
        distinct.insert(match style {
            // The lowest.
            0 => 1 + index,
            // The highest.
            1 => INFINITY - 1 - index,
            // Close together, with gaps.
            2 => 1 + random.below(2 * count) as u64,
            // Alike in all but their highest bits.
            3 => (1 + random.below(65_535) as u64) << 48 | low_bits,
            // About the middle.
            4 => (1 << 63) - count as u64 + random.below(2 * count) as u64,
            // The lowest, the highest and any.
            _ if index == 0 => 1,
            _ if index == 1 => INFINITY - 1,
            _ => random.bits().clamp(1, INFINITY - 1),
        });
    }
    let mut timestamps: Vec<u64> = distinct.into_iter().collect();
    match random.below(4) {
        0 => {}
        1 => timestamps.reverse(),
        _ => random.shuffle(&mut timestamps),
    }
    timestamps
}

fn put_program(
    random: &mut Random,
    tables: &mut Tables,
    place: usize,
    version: Version,
    settings: &Settings,
    length: usize,
) {
    let of_both = [
        &Style::MANY_SETTINGS,
        &Style::INDEXED,
        &Style::ACCESSES,
        &Style::DIRECT,
        &Style::DIRECT,
        &Style::DIRECT,
    ];
    let style = match version {
        Version::One if random.below(2) == 0 => &Style::OWN_WRITES,
        _ => random.pick(&of_both),
    };
    let program = program_naming(random, style, settings, length);
    tables.versions[place] = version.number();
    tables.lengths[place] = length as u16;
    tables.programs[PROGRAM_BYTES * place..][..program.len()].copy_from_slice(&program);
}

/// One of the two lists of a change.
#[derive(Clone, Copy, Debug, PartialEq, Eq, PartialOrd, Ord)]
#[allow(missing_docs)]
pub enum List {
    Reads,
    Writes,
}

impl List {
    const ALL: [Self; 2] = [Self::Reads, Self::Writes];

    /// The slots of this list at a place: its count, its settings and its values.
    fn slots(self, tables: &mut Tables, place: usize) -> (&mut u16, &mut [u16], &mut [i32]) {
        let (counts, settings, values) = match self {
            Self::Reads => (&mut tables.reads, &mut tables.sources, &mut tables.seen),
            Self::Writes => (&mut tables.writes, &mut tables.targets, &mut tables.written),
        };
        (
            &mut counts[place],
            &mut settings[LIST_ENTRIES * place..][..LIST_ENTRIES],
            &mut values[LIST_ENTRIES * place..][..LIST_ENTRIES],
        )
    }

    fn count(self, tables: &Tables, place: usize) -> usize {
        usize::from(match self {
            Self::Reads => tables.reads[place],
            Self::Writes => tables.writes[place],
        })
    }

    /// Replaces the list by one of `count` entries, or as many as there are settings to name.
    fn put(
        self,
        random: &mut Random,
        tables: &mut Tables,
        place: usize,
        named: &Settings,
        count: usize,
    ) {
        let mut list: Vec<Access> = Vec::with_capacity(LIST_ENTRIES);
        while list.len() < count.min(named.count) {
            let setting = named.pick(random) as u16;
            if list.iter().all(|entry| entry.setting != setting) {
                let value = number(random, named);
                list.push(Access { setting, value });
            }
        }
        let (count, settings, values) = self.slots(tables, place);
        *count = list.len() as u16;
        settings.fill(0);
        values.fill(0);
        for (index, entry) in list.into_iter().enumerate() {
            settings[index] = entry.setting;
            values[index] = entry.value;
        }
    }
}

/// Declares [`Table`] with these tables, each with its field.
macro_rules! declare {
    ($($name:ident: $table:ident,)*) => {
        /// One of the tables.
        #[derive(Clone, Copy, Debug, PartialEq, Eq, PartialOrd, Ord)]
        #[allow(missing_docs)]
        pub enum Table {
            $($name),*
        }

        // Not compiled where a table is missing in the list.
        const _: fn(Tables) = |Tables { $($table: _),* }| {};

        impl Table {
            /// All tables.
            pub const ALL: &[Self] = &[$(Self::$name),*];

            /// The length of this table.
            pub fn length(self, tables: &Tables) -> usize {
                match self {
                    $(Self::$name => tables.$table.len()),*
                }
            }

            /// Gives this table another length. New slots are 0.
            pub fn resize(self, tables: &mut Tables, length: usize) {
                match self {
                    $(Self::$name => tables.$table.resize(length, 0)),*
                }
            }

            /// Sets a slot to the lowest bits of this number.
            pub fn set(self, tables: &mut Tables, index: usize, bits: u64) {
                match self {
                    $(Self::$name => tables.$table[index] = bits as _),*
                }
            }

            /// A slot as a number.
            fn get(self, tables: &Tables, index: usize) -> u64 {
                match self {
                    $(Self::$name => tables.$table[index] as u64),*
                }
            }
        }
    };
}

declare! {
    Held: held,
    Timestamps: timestamps,
    Order: order,
    Status: status,
    Withdrawn: withdrawn,
    Lengths: lengths,
    Programs: programs,
    Reads: reads,
    Writes: writes,
    Sources: sources,
    Seen: seen,
    Targets: targets,
    Written: written,
    View: view,
    Versions: versions,
    Cutoff: cutoff,
    Kept: kept,
}

/// Fills every table with random bits.
pub fn fill(random: &mut Random, tables: &mut Tables) {
    for &table in Table::ALL {
        for index in 0..table.length(tables) {
            table.set(tables, index, random.bits());
        }
    }
}

/// Changes a slot of tables in form. They may still be in form.
pub fn change_slot(random: &mut Random, tables: &mut Tables) {
    let table = random.pick(Table::ALL);
    let length = table.length(tables);
    let n = tables.timestamps.len();
    // Most often a slot of a held place or of the next one.
    let index = match random.below(4) {
        0 => random.below(length),
        _ => random.below((length * (tables.held_count() + 1) / n).clamp(1, length)),
    };
    let old = table.get(tables, index);
    let bits = match random.below(4) {
        0 => random.bits(),
        1 => table.get(tables, random.below(length)),
        2 => old.wrapping_add(random.below(5) as u64).wrapping_sub(2),
        _ => random.pick(&[0, 1, 2, 3, 31, 32, 33, 34, 1023, 1024, INFINITY]),
    };
    table.set(tables, index, bits);
}

/// A single thing for which tables are not in form.
#[derive(Clone, Copy, Debug, PartialEq, Eq, PartialOrd, Ord)]
pub enum Breach {
    /// The held count is above N.
    HeldAboveCapacity,
    /// The held count counts unused places.
    HeldTooMany,
    /// The held count leaves out used places.
    HeldTooFew,
    /// A timestamp is 0. It is the first in the order.
    TimestampZero,
    /// A timestamp is 2^64 − 1. It is the last in the order.
    TimestampInfinity,
    /// Two timestamps are equal. They are neighbours in the order.
    TimestampRepeated,
    /// The cutoff is 2^64 − 1. Nothing is held.
    CutoffInfinity,
    /// Timestamps are below the cutoff: the lowest alone, some or all.
    TimestampBelowCutoff,
    /// An entry of the order is no held place.
    OrderNoPlace,
    /// Two entries of the order are exchanged.
    OrderNotRising,
    /// An entry of the order is a place that stands there already.
    OrderRepeated,
    /// A status is above 2.
    StatusAbove2,
    /// A flag is above 1.
    FlagAbove1,
    /// A version is above 1.
    VersionAbove1,
    /// A program's length is above 32.
    LengthAbove32,
    /// Refusal 7 turns a program down.
    ProgramMalformed,
    /// A byte behind a program is not 0.
    ProgramFiller,
    /// A read or write count is above 32.
    CountAbove32(List),
    /// A list names a setting above 1,023.
    SettingAbove1023(List),
    /// A list names a setting twice.
    SettingRepeated(List),
    /// A slot for a setting behind a list is not 0.
    SettingFiller(List),
    /// A slot for a value behind a list is not 0.
    ValueFiller(List),
    /// A New change has an entry in this list.
    NewWith(List),
    /// A slot of an unused place, or of the order behind the places, is not 0.
    Unused(Table),
}

impl Breach {
    /// All breaches.
    pub const ALL: [Self; 42] = [
        Self::HeldAboveCapacity,
        Self::HeldTooMany,
        Self::HeldTooFew,
        Self::TimestampZero,
        Self::TimestampInfinity,
        Self::TimestampRepeated,
        Self::CutoffInfinity,
        Self::TimestampBelowCutoff,
        Self::OrderNoPlace,
        Self::OrderNotRising,
        Self::OrderRepeated,
        Self::StatusAbove2,
        Self::FlagAbove1,
        Self::VersionAbove1,
        Self::LengthAbove32,
        Self::ProgramMalformed,
        Self::ProgramFiller,
        Self::CountAbove32(List::Reads),
        Self::CountAbove32(List::Writes),
        Self::SettingAbove1023(List::Reads),
        Self::SettingAbove1023(List::Writes),
        Self::SettingRepeated(List::Reads),
        Self::SettingRepeated(List::Writes),
        Self::SettingFiller(List::Reads),
        Self::SettingFiller(List::Writes),
        Self::ValueFiller(List::Reads),
        Self::ValueFiller(List::Writes),
        Self::NewWith(List::Reads),
        Self::NewWith(List::Writes),
        Self::Unused(Table::Timestamps),
        Self::Unused(Table::Order),
        Self::Unused(Table::Status),
        Self::Unused(Table::Withdrawn),
        Self::Unused(Table::Lengths),
        Self::Unused(Table::Programs),
        Self::Unused(Table::Reads),
        Self::Unused(Table::Writes),
        Self::Unused(Table::Sources),
        Self::Unused(Table::Seen),
        Self::Unused(Table::Targets),
        Self::Unused(Table::Written),
        Self::Unused(Table::Versions),
    ];

    /// Makes this breach in tables in form, or returns none where they have no place for it.
    pub fn make(self, random: &mut Random, tables: &mut Tables) -> Option<()> {
        let n = tables.timestamps.len();
        let held = tables.held_count();
        match self {
            Self::HeldAboveCapacity => tables.held[0] = above(random, n),
            Self::HeldTooMany => tables.held[0] += 1 + index_below(random, n - held)? as u16,
            Self::HeldTooFew => tables.held[0] -= 1 + index_below(random, held)? as u16,
            Self::TimestampZero => {
                index_below(random, held)?;
                tables.timestamps[usize::from(tables.order[0])] = 0;
                // It is below no cutoff.
                tables.cutoff[0] = 0;
            }
            Self::TimestampInfinity => {
                index_below(random, held)?;
                tables.timestamps[usize::from(tables.order[held - 1])] = INFINITY;
            }
            Self::TimestampRepeated => {
                let rank = index_below(random, held.saturating_sub(1))?;
                let [first, second] = [rank, rank + 1].map(|r| usize::from(tables.order[r]));
                tables.timestamps[second] = tables.timestamps[first];
            }
            Self::CutoffInfinity if held > 0 => return None,
            Self::CutoffInfinity => tables.cutoff[0] = INFINITY,
            Self::TimestampBelowCutoff => {
                let rank = match random.below(2) {
                    0 => 0,
                    _ => index_below(random, held)?,
                };
                let timestamp = tables.timestamps[usize::from(tables.order[rank])];
                if held == 0 || timestamp == INFINITY - 1 {
                    return None;
                }
                tables.cutoff[0] = timestamp + 1;
            }
            Self::OrderNoPlace => {
                let rank = index_below(random, held)?;
                tables.order[rank] = above(random, held - 1);
            }
            Self::OrderNotRising => {
                let (one, other) = two_below(random, held)?;
                tables.order.swap(one, other);
            }
            Self::OrderRepeated => {
                let (one, other) = two_below(random, held)?;
                tables.order[one] = tables.order[other];
            }
            Self::StatusAbove2 => tables.status[index_below(random, held)?] = above(random, 2),
            Self::FlagAbove1 => tables.withdrawn[index_below(random, held)?] = above(random, 1),
            Self::VersionAbove1 => tables.versions[index_below(random, held)?] = above(random, 1),
            Self::LengthAbove32 => {
                tables.lengths[index_below(random, held)?] = above(random, MAX_INSTRUCTIONS);
            }
            Self::ProgramMalformed => {
                let place = place_where(random, tables, |place| tables.lengths[place] > 0)?;
                let malformed = malformed(random, tables.program(place));
                tables.programs[PROGRAM_BYTES * place..][..malformed.len()]
                    .copy_from_slice(&malformed);
            }
            Self::ProgramFiller => {
                let shorter = |place: usize| usize::from(tables.lengths[place]) < MAX_INSTRUCTIONS;
                let place = place_where(random, tables, shorter)?;
                let used = INSTRUCTION_BYTES * usize::from(tables.lengths[place]);
                let index = PROGRAM_BYTES * place + index_from(random, used, PROGRAM_BYTES);
                Table::Programs.set(tables, index, not_zero(random));
            }
            Self::CountAbove32(list) => {
                let place = index_below(random, held)?;
                *list.slots(tables, place).0 = above(random, LIST_ENTRIES);
            }
            Self::SettingAbove1023(list) => {
                let place = place_where(random, tables, |place| list.count(tables, place) > 0)?;
                let entry = index_from(random, 0, list.count(tables, place));
                list.slots(tables, place).1[entry] = above(random, SETTINGS - 1);
            }
            Self::SettingRepeated(list) => {
                let place = place_where(random, tables, |place| list.count(tables, place) > 1)?;
                let (one, other) = two_below(random, list.count(tables, place))?;
                let settings = list.slots(tables, place).1;
                settings[one] = settings[other];
            }
            Self::SettingFiller(list) => {
                let (place, entry) = slot_behind(random, tables, list)?;
                let setting = not_zero(random) as u16;
                list.slots(tables, place).1[entry] = setting;
            }
            Self::ValueFiller(list) => {
                let (place, entry) = slot_behind(random, tables, list)?;
                let value = not_zero(random) as i32;
                list.slots(tables, place).2[entry] = value;
            }
            Self::NewWith(list) => {
                let place = index_below(random, held)?;
                let named = named(random);
                tables.status[place] = 0;
                for each in List::ALL {
                    let count = usize::from(each == list);
                    each.put(random, tables, place, &named, count);
                }
            }
            Self::Unused(table) => {
                let in_place = table.length(tables) / n;
                index_below(random, n - held)?;
                let index = index_from(random, in_place * held, in_place * n);
                table.set(tables, index, not_zero(random));
            }
        }
        Some(())
    }
}

/// A number above `most`: often the next one.
fn above(random: &mut Random, most: usize) -> u16 {
    let number = match random.below(4) {
        // Its lowest byte alone would be right.
        0 => most / 256 * 256 + 256,
        1 => most + 1 + random.below(usize::from(u16::MAX) - most),
        _ => most + 1,
    };
    number as u16
}

/// A number whose lowest 8 bits are not all 0: often 1.
fn not_zero(random: &mut Random) -> u64 {
    match random.below(2) {
        0 => 1,
        _ => random.bits() | 1 << random.below(8),
    }
}

/// An index from 0 to `end` − 1, or none where there is none.
fn index_below(random: &mut Random, end: usize) -> Option<usize> {
    (end > 0).then(|| random.below(end))
}

/// An index from `start` to `end` − 1, of which there must be one: the first and the last more
/// often.
fn index_from(random: &mut Random, start: usize, end: usize) -> usize {
    match random.below(4) {
        0 => start,
        1 => end - 1,
        _ => start + random.below(end - start),
    }
}

/// Two distinct indices below `end`, or none where there are none: neighbours more often.
fn two_below(random: &mut Random, end: usize) -> Option<(usize, usize)> {
    let one = index_below(random, end)?;
    let distance = match random.below(2) {
        0 => 0,
        _ => index_below(random, end - 1)?,
    };
    let other = (one + 1 + distance) % end;
    (one != other).then_some((one, other))
}

/// A held place for which the condition holds, or none where there is none.
fn place_where(
    random: &mut Random,
    tables: &Tables,
    condition: impl Fn(usize) -> bool,
) -> Option<usize> {
    let places: Vec<usize> = (0..tables.held_count())
        .filter(|&place| condition(place))
        .collect();
    index_below(random, places.len()).map(|index| places[index])
}

/// A slot of a list behind its entries, by place and index, or none where there is none.
fn slot_behind(random: &mut Random, tables: &Tables, list: List) -> Option<(usize, usize)> {
    let shorter = |place| list.count(tables, place) < LIST_ENTRIES;
    let place = place_where(random, tables, shorter)?;
    let index = index_from(random, list.count(tables, place), LIST_ENTRIES);
    Some((place, index))
}

/// The program with one part of an instruction changed so that it is malformed. It must have an
/// instruction.
fn malformed(random: &mut Random, program: &[u8]) -> Vec<u8> {
    loop {
        let mut changed = program.to_vec();
        change_part(random, &mut changed);
        if program::check(0, &changed).is_err() {
            return changed;
        }
    }
}
