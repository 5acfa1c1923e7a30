//! What turns do, to count it.

use crate::own_writes::{self, OwnWrite};
use outside::checker::{Turn, Turned, CONSOLES, KINDS};
use outside::program::{self, Access, Fault, Version, SETTINGS};
use outside::start::start_value;
use outside::tables::{Status, Tables, INFINITY};
use std::collections::{BTreeMap, BTreeSet};

/// Something that a turn does.
#[derive(Clone, Copy, Debug, PartialEq, Eq, PartialOrd, Ord)]
#[allow(missing_docs)]
pub enum TurnEvent {
    /// Its answer.
    Answered(Turned),
    /// A New change runs, and an Invalid one, without a fault.
    RanFirst,
    RanAgain,
    /// A New change faults, and an Invalid one.
    FaultedFirst,
    FaultedAgain,
    /// The run faults so, by this version, and after reads.
    Faulted(Version, Fault),
    FaultedAfterReads,
    /// The run, by version 1, does so, of a New change, and of an Invalid one.
    OwnWriteFirst(OwnWrite),
    OwnWriteAgain(OwnWrite),
    /// An Invalid change stands whose run, by what it had seen, did so.
    OwnWriteStood(OwnWrite),
    /// The run, by version 1, faults after it came to a setting that it had written.
    FaultedAfterOwnWrite,
    /// An Invalid change that had faulted, by what it had seen, runs without a fault, faults, stands.
    RanAfterFault,
    FaultedAfterFault,
    StoodAfterFault,
    /// An Invalid change that had not faulted, by what it had seen, faults.
    FaultedAfterRan,
    /// A change that had written nothing writes, running again.
    WritesSecondTime,
    /// A change that had written faults, running again.
    FaultsSecondTime,
    /// A withdrawn change is cleared that is New, and one that has written.
    ClearedNew,
    ClearedWriter,
    /// A setting is written that was not, with another value than the previous writer's, and with
    /// that value.
    Added,
    AddedEqual,
    /// The other way round.
    Removed,
    RemovedEqual,
    /// A setting is written again, with another value, and with the same.
    Rewritten,
    RewrittenEqual,
    /// A later change is marked, one that writes the setting that marks it, and one that is
    /// withdrawn and still writes something.
    Marked,
    MarkedWriter,
    MarkedWithdrawn,
    /// A later Valid change that read a changed setting is not marked: there is a writer between.
    /// The next writer is Invalid, or withdrawn.
    NextWriterStops,
    InvalidWriterStops,
    WithdrawnWriterStops,
    /// The view has a changed setting's new value, or the previous writer's since a write is gone,
    /// or what a later writer wrote.
    ViewWritten,
    ViewOnRemoval,
    ViewOfLaterWriter,
    /// The view stays other than what the last writer of a setting wrote: that one is later than the
    /// change, or the change does not change the setting.
    WrongViewOfLaterWriter,
    WrongViewOfUnchanged,
    /// A run sees a kept value that is not the start value, and a change stands that saw one.
    KeptSeen,
    KeptHolds,
    /// A write is added, or removed, that is equal to such a value, or to the start value in its place.
    KeptEqual,
    KeptUnlikeStart,
    /// The view has such a value, since a write is gone.
    KeptOnRemoval,
}

/// Something that comes of several turns of a drain.
#[derive(Clone, Copy, Debug, PartialEq, Eq, PartialOrd, Ord)]
#[allow(missing_docs)]
pub enum DrainEvent {
    /// A change stands that an earlier turn marked: a New change between gave a setting the value
    /// back that it had seen.
    StoodRestored,
    /// A setting is changed that an earlier turn changed, below the next writer where that turn's
    /// marking ended, or from there on.
    ChangedWithin,
    ChangedBeyond,
    /// A change stays Valid and has no turn, though it saw another value than that as of its
    /// timestamp.
    WrongSeenStays,
    /// So many consoles have turns, and one has so many, which is the most. Both are rounded down to
    /// a power of two.
    Consoles(usize),
    MostOfConsole(usize),
    /// Console 0 has turns, and console 255.
    FirstConsole,
    LastConsole,
    /// A console has turns of several kinds.
    KindsOfConsole,
}

/// What a turn did that altered the tables so.
pub fn events(before: &Tables, after: &Tables, turn: Turn) -> Vec<TurnEvent> {
    let mut events = vec![TurnEvent::Answered(turn.turned)];
    let place = before.place_of(turn.timestamp).expect("the change is held");
    let possible = at_change(before, after, place, turn.turned).into_iter();
    events.extend(possible.filter_map(|(happened, event)| happened.then_some(event)));
    events.extend(own_writes(before, after, place, turn.turned));
    if after
        .read_list(place)
        .any(|read| is_kept(before, turn.timestamp, read.setting))
    {
        events.push(match turn.turned {
            Turned::Stood => TurnEvent::KeptHolds,
            _ => TurnEvent::KeptSeen,
        });
    }
    for touched in touched(before, after, turn) {
        touched.events(&mut events, before, after);
    }
    events
}

/// What the turn of the change at this place may do with it, and whether it does.
fn at_change(
    before: &Tables,
    after: &Tables,
    place: usize,
    turned: Turned,
) -> Vec<(bool, TurnEvent)> {
    let first = before.status(place) == Status::New;
    let again = !first;
    let had_faulted = again && fault(before, place).is_some();
    let had_written = before.writes[place] > 0;
    let writes_now = !had_written && after.writes[place] > 0;
    match turned {
        Turned::Ran => vec![
            (first, TurnEvent::RanFirst),
            (again, TurnEvent::RanAgain),
            (had_faulted, TurnEvent::RanAfterFault),
            (again && writes_now, TurnEvent::WritesSecondTime),
        ],
        Turned::Faulted(_) => {
            let fault = fault(after, place).expect("its run is one that faults");
            vec![
                (first, TurnEvent::FaultedFirst),
                (again, TurnEvent::FaultedAgain),
                (true, TurnEvent::Faulted(after.version(place), fault)),
                (after.reads[place] > 0, TurnEvent::FaultedAfterReads),
                (had_faulted, TurnEvent::FaultedAfterFault),
                (again && !had_faulted, TurnEvent::FaultedAfterRan),
                (had_written, TurnEvent::FaultsSecondTime),
            ]
        }
        Turned::Stood => vec![(had_faulted, TurnEvent::StoodAfterFault)],
        Turned::Cleared => vec![
            (first, TurnEvent::ClearedNew),
            (had_written, TurnEvent::ClearedWriter),
        ],
    }
}

/// What the run of the change at this place, or the one that stands, does with its own writes.
fn own_writes(before: &Tables, after: &Tables, place: usize, turned: Turned) -> Vec<TurnEvent> {
    let event = match (turned, before.status(place)) {
        (Turned::Cleared, _) => return Vec::new(),
        (Turned::Stood, _) => TurnEvent::OwnWriteStood,
        (Turned::Ran | Turned::Faulted(_), Status::New) => TurnEvent::OwnWriteFirst,
        (Turned::Ran | Turned::Faulted(_), _) => TurnEvent::OwnWriteAgain,
    };
    let run = own_writes::of_run(
        after.version(place),
        after.program(place),
        &saw(after, place),
    );
    let faulted = matches!(turned, Turned::Faulted(_)) && !run.is_empty();
    let after_own_write = faulted.then_some(TurnEvent::FaultedAfterOwnWrite);
    run.into_iter().map(event).chain(after_own_write).collect()
}

/// A setting that the change of a turn had written or writes.
struct Touched<'a> {
    setting: u16,
    /// What the change had written, and what it writes.
    written: [Option<i32>; 2],
    /// The value as of its timestamp, and whether that is a kept one and not the start value.
    previous: i32,
    kept: bool,
    /// The places of later changes by rising timestamp, up to and including the next writer, and
    /// beyond it.
    within: &'a [u16],
    beyond: &'a [u16],
    /// The place of the next writer.
    next_writer: Option<usize>,
}

/// All of them. A turn whose change stands has none.
fn touched<'a>(before: &'a Tables, after: &Tables, turn: Turn) -> Vec<Touched<'a>> {
    if turn.turned == Turned::Stood {
        return Vec::new();
    }
    let place = before.place_of(turn.timestamp).expect("the change is held");
    let written = [before, after].map(|tables| pairs(tables.write_list(place)));
    let order = &before.order[..before.held_count()];
    let rank = order.iter().position(|&other| usize::from(other) == place);
    let later = &order[rank.expect("the place is in the order") + 1..];
    let settings: BTreeSet<u16> = written
        .iter()
        .flat_map(|list| list.keys().copied())
        .collect();
    let touched = settings.into_iter().map(|setting| {
        let mut places = later.iter().map(|&place| usize::from(place));
        let writer = places.position(|place| names(before.write_list(place), setting));
        let (within, beyond) = later.split_at(writer.map_or(later.len(), |index| index + 1));
        Touched {
            setting,
            written: written.each_ref().map(|list| list.get(&setting).copied()),
            previous: previous_value(before, turn.timestamp, setting),
            kept: is_kept(before, turn.timestamp, setting),
            within,
            beyond,
            next_writer: writer.map(|index| usize::from(later[index])),
        }
    });
    touched.collect()
}

impl Touched<'_> {
    /// The values of the setting above the change, before the turn and after it.
    fn values(&self) -> [i32; 2] {
        self.written.map(|value| value.unwrap_or(self.previous))
    }

    fn changed(&self) -> bool {
        let [old, new] = self.values();
        old != new
    }

    fn events(&self, events: &mut Vec<TurnEvent>, before: &Tables, after: &Tables) {
        let changed = self.changed();
        events.push(match (self.written, changed) {
            ([None, _], true) => TurnEvent::Added,
            ([None, _], false) => TurnEvent::AddedEqual,
            ([Some(_), None], true) => TurnEvent::Removed,
            ([Some(_), None], false) => TurnEvent::RemovedEqual,
            ([Some(_), Some(_)], true) => TurnEvent::Rewritten,
            ([Some(_), Some(_)], false) => TurnEvent::RewrittenEqual,
        });
        if let ([None, Some(value)] | [Some(value), None], true) = (self.written, self.kept) {
            let start = start_value(self.setting.into());
            if !changed {
                events.push(TurnEvent::KeptEqual);
            } else if value == start {
                events.push(TurnEvent::KeptUnlikeStart);
            }
        }
        let last = previous_value(after, INFINITY, self.setting);
        let wrong_view = after.view[usize::from(self.setting)] != last;
        if !changed {
            if wrong_view && self.next_writer.is_none() {
                events.push(TurnEvent::WrongViewOfUnchanged);
            }
            return;
        }
        // The Valid readers among these places that the turn leaves with this status.
        let readers = |places: &[u16], left: Status| {
            let places = places.iter().map(|&place| usize::from(place));
            let readers = places.filter(|&place| {
                before.status(place) == Status::Valid
                    && names(before.read_list(place), self.setting)
                    && after.status(place) == left
            });
            readers.collect::<Vec<_>>()
        };
        for place in readers(self.within, Status::Invalid) {
            events.push(match Some(place) == self.next_writer {
                true => TurnEvent::MarkedWriter,
                false => TurnEvent::Marked,
            });
            if before.withdrawn[place] == 1 && before.writes[place] > 0 {
                events.push(TurnEvent::MarkedWithdrawn);
            }
        }
        if let Some(writer) = self.next_writer {
            for _ in readers(self.beyond, Status::Valid) {
                events.push(TurnEvent::NextWriterStops);
                if before.status(writer) == Status::Invalid {
                    events.push(TurnEvent::InvalidWriterStops);
                }
                if before.withdrawn[writer] == 1 {
                    events.push(TurnEvent::WithdrawnWriterStops);
                }
            }
        }
        events.push(match self.written[1] {
            _ if self.next_writer.is_some() => TurnEvent::ViewOfLaterWriter,
            Some(_) => TurnEvent::ViewWritten,
            None => TurnEvent::ViewOnRemoval,
        });
        if wrong_view && self.next_writer.is_some() {
            events.push(TurnEvent::WrongViewOfLaterWriter);
        }
        if self.kept && self.written[1].is_none() && self.next_writer.is_none() {
            events.push(TurnEvent::KeptOnRemoval);
        }
    }
}

/// The turns of a drain so far.
#[derive(Default)]
pub struct Drain {
    /// The changes that had a turn, those that turns marked, and of these those whose seen value a
    /// New change gave back, by timestamp.
    turned: BTreeSet<u64>,
    marked: BTreeSet<u64>,
    restored: BTreeSet<u64>,
    /// The timestamp where the last marking by each changed setting ended.
    ends: BTreeMap<u16, u64>,
}

impl Drain {
    /// What comes of this turn, which altered the tables so, and the earlier ones.
    pub fn events(&mut self, before: &Tables, after: &Tables, turn: Turn) -> Vec<DrainEvent> {
        let mut events = Vec::new();
        let place = before.place_of(turn.timestamp).expect("the change is held");
        if turn.turned == Turned::Stood && self.restored.contains(&turn.timestamp) {
            events.push(DrainEvent::StoodRestored);
        }
        for touched in touched(before, after, turn) {
            if !touched.changed() {
                continue;
            }
            if before.status(place) == Status::New {
                self.restore(before, &touched);
            }
            let next_writer = touched.next_writer;
            let end = next_writer.map_or(INFINITY, |place| before.timestamps[place]);
            if let Some(earlier) = self.ends.insert(touched.setting, end) {
                events.push(match turn.timestamp < earlier {
                    true => DrainEvent::ChangedWithin,
                    false => DrainEvent::ChangedBeyond,
                });
            }
        }
        self.turned.insert(turn.timestamp);
        let marked = (0..before.held_count()).filter(|&place| {
            before.status(place) == Status::Valid && after.status(place) == Status::Invalid
        });
        self.marked
            .extend(marked.map(|place| before.timestamps[place]));
        events
    }

    /// Notes the changes that earlier turns marked by this setting and that saw what it is now and
    /// was not.
    fn restore(&mut self, before: &Tables, touched: &Touched) {
        let Some(&end) = self.ends.get(&touched.setting) else {
            return;
        };
        let [old, new] = touched.values();
        for &place in touched.within {
            let place = usize::from(place);
            let timestamp = before.timestamps[place];
            let mut reads = before.read_list(place);
            let read = reads.find(|read| read.setting == touched.setting);
            let restored = read.is_some_and(|read| read.value == new && read.value != old);
            if restored && timestamp <= end && self.marked.contains(&timestamp) {
                self.restored.insert(timestamp);
            }
        }
    }

    /// What the drain, which is at its end, left as it was.
    pub fn left(&self, after: &Tables) -> Vec<DrainEvent> {
        let mut events = Vec::new();
        let mut values = after.kept_settings();
        for &place in &after.order[..after.held_count()] {
            let place = usize::from(place);
            let mut reads = after.read_list(place);
            let wrong = reads.any(|read| read.value != values[usize::from(read.setting)]);
            if wrong && !self.turned.contains(&after.timestamps[place]) {
                events.push(DrainEvent::WrongSeenStays);
            }
            for write in after.write_list(place) {
                values[usize::from(write.setting)] = write.value;
            }
        }
        events
    }
}

/// How many turns of a drain were of each kind, by its totals.
pub fn sums(totals: &[u16]) -> [usize; KINDS] {
    let mut sums = [0; KINDS];
    let (consoles, _) = totals.as_chunks::<KINDS>();
    for console in consoles {
        for (sum, &total) in sums.iter_mut().zip(console) {
            *sum += usize::from(total);
        }
    }
    sums
}

/// What comes of the turns of a drain, by its totals.
pub fn counted(totals: &[u16]) -> Vec<DrainEvent> {
    let (consoles, _) = totals.as_chunks::<KINDS>();
    let turns = |console: &[u16; KINDS]| console.iter().copied().map(usize::from).sum();
    let turns: Vec<usize> = consoles.iter().map(turns).collect();
    let with_turns = turns.iter().filter(|&&turns| turns > 0).count();
    let most = turns.iter().copied().max().unwrap_or(0);
    let rounded = |count: usize| count.checked_ilog2().map_or(0, |log| 1 << log);
    let kinds = |console: &[u16; KINDS]| console.iter().filter(|&&total| total > 0).count();
    let several = consoles.iter().any(|console| kinds(console) > 1);
    let possible = [
        (true, DrainEvent::Consoles(rounded(with_turns))),
        (true, DrainEvent::MostOfConsole(rounded(most))),
        (turns[0] > 0, DrainEvent::FirstConsole),
        (turns[CONSOLES - 1] > 0, DrainEvent::LastConsole),
        (several, DrainEvent::KindsOfConsole),
    ];
    let happened = possible.into_iter().filter(|(happened, _)| *happened);
    happened.map(|(_, event)| event).collect()
}

/// The value of a setting as of a timestamp.
pub fn previous_value(tables: &Tables, timestamp: u64, setting: u16) -> i32 {
    let written = previous_write(tables, timestamp, setting);
    written.unwrap_or(tables.kept[usize::from(setting)])
}

/// What the highest change stamped below a timestamp wrote to a setting.
fn previous_write(tables: &Tables, timestamp: u64, setting: u16) -> Option<i32> {
    let below = (0..tables.held_count()).filter(|&place| tables.timestamps[place] < timestamp);
    let written = |place: usize| {
        let mut writes = tables.write_list(place);
        let write = writes.find(|write| write.setting == setting)?;
        Some((tables.timestamps[place], write.value))
    };
    let highest = below.filter_map(written).max();
    highest.map(|(_, value)| value)
}

/// Whether the value of a setting as of a timestamp is the kept one, and not the start value.
fn is_kept(tables: &Tables, timestamp: u64, setting: u16) -> bool {
    let number = usize::from(setting);
    tables.kept[number] != start_value(number)
        && previous_write(tables, timestamp, setting).is_none()
}

/// The fault of the run that left this read list.
fn fault(tables: &Tables, place: usize) -> Option<Fault> {
    let (version, settings) = (tables.version(place), saw(tables, place));
    let outcome = program::run(version, tables.program(place), &settings);
    outcome.fault().map(|(fault, _)| fault)
}

/// The settings as the run saw them that left this read list. Those that it did not read do not
/// matter to it.
fn saw(tables: &Tables, place: usize) -> [i32; SETTINGS] {
    let mut settings = [0; SETTINGS];
    for read in tables.read_list(place) {
        settings[usize::from(read.setting)] = read.value;
    }
    settings
}

fn names(mut list: impl Iterator<Item = Access>, setting: u16) -> bool {
    list.any(|entry| entry.setting == setting)
}

fn pairs(list: impl Iterator<Item = Access>) -> BTreeMap<u16, i32> {
    list.map(|entry| (entry.setting, entry.value)).collect()
}
