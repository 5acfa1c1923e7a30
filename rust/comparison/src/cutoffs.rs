//! What cutoffs do, to count it.

use outside::program::SETTINGS;
use outside::start::start_value;
use outside::tables::{Status, Tables};
use std::collections::{BTreeMap, BTreeSet};

/// Something that a cutoff does.
#[derive(Clone, Copy, Debug, PartialEq, Eq, PartialOrd, Ord)]
#[allow(missing_docs)]
pub enum CutoffEvent {
    Done,
    Refused(u8),
    /// It is refused, 15, for changes of this status alone, and for those alone that are withdrawn.
    Unsettled(Status),
    UnsettledWithdrawn(Status),
    /// It is refused, 15, for the highest change below it alone, which others are below.
    UnsettledHighest,
    /// It is that of the tables.
    Again,
    /// Nothing is held; none, some and all of what is held is dropped; all of tables that are full.
    OfNone,
    DropsNone,
    DropsSome,
    DropsAll,
    DropsAllOfFull,
    /// A change has its timestamp, and stays; one has the timestamp below it, and goes.
    StaysAt,
    GoesBelow,
    /// A change stays that came before one that goes, and one that came after.
    StaysBefore,
    ClosesUp,
    /// The changes that stay did not come in the order of their timestamps, and those that go did not.
    OtherArrival,
    DroppedArrival,
    /// Changes wait for their turns, of this status, and stay.
    Waiting(Status),
    /// A withdrawn change goes, without writes, and with writes.
    Withdrawn,
    WithdrawnWriter,
    /// A change goes that has no writes and is not withdrawn.
    NoWrites,
    /// A setting gets another kept value. There was a cutoff before, and the one replaced is not its
    /// start value.
    Kept,
    KeptAfterKept,
    /// Several changes that go write it; the highest of them did not come last.
    KeptOfSeveral,
    KeptEarlierArrival,
    /// The view has another value.
    KeptUnlikeView,
    /// A change that stays writes it too.
    KeptBelowWrite,
    /// A setting keeps a kept value that is not its start value, though changes go.
    KeepsKept,
}

/// What a cutoff did that was lent these tables, in form.
pub fn events(tables: &Tables, timestamp: u64, answer: Result<(), u8>) -> Vec<CutoffEvent> {
    let possible = match answer {
        Ok(()) => done(tables, timestamp),
        Err(refusal) => refused(tables, timestamp, refusal),
    };
    let happened = possible.into_iter().filter(|(happened, _)| *happened);
    happened.map(|(_, event)| event).collect()
}

/// What may be so where it is refused, and whether it is.
fn refused(tables: &Tables, timestamp: u64, refusal: u8) -> Vec<(bool, CutoffEvent)> {
    let mut events = vec![(true, CutoffEvent::Refused(refusal))];
    if refusal != 15 {
        return events;
    }
    let (below, _) = split(tables, timestamp);
    let is_waiting = |place: usize| tables.status(place) != Status::Valid;
    let waiting = || below.iter().filter(|&&place| is_waiting(place));
    for status in [Status::New, Status::Invalid] {
        let alone = waiting().all(|&place| tables.status(place) == status);
        let withdrawn = waiting().all(|&place| tables.withdrawn[place] == 1);
        events.push((alone, CutoffEvent::Unsettled(status)));
        events.push((alone && withdrawn, CutoffEvent::UnsettledWithdrawn(status)));
    }
    let highest = below.iter().max_by_key(|&&place| tables.timestamps[place]);
    let alone = waiting().all(|place| Some(place) == highest);
    events.push((alone && below.len() > 1, CutoffEvent::UnsettledHighest));
    events
}

/// What may be so where it is done, and whether it is.
fn done(tables: &Tables, timestamp: u64) -> Vec<(bool, CutoffEvent)> {
    let (below, rest) = split(tables, timestamp);
    let stamp = |place: usize| tables.timestamps[place];
    let full = below.len() == tables.timestamps.len();
    let (none, all) = (below.is_empty(), rest.is_empty());
    let rising = |places: &[usize]| places.is_sorted_by_key(|&place| stamp(place));
    let (first_gone, last_gone) = (below.first(), below.last());
    let stays = |status| rest.iter().any(|&place| tables.status(place) == status);
    let gone = |flag, writes: fn(u16) -> bool| {
        let mut below = below.iter();
        below.any(|&place| tables.withdrawn[place] == flag && writes(tables.writes[place]))
    };
    let mut events = vec![
        (true, CutoffEvent::Done),
        (timestamp == tables.cutoff(), CutoffEvent::Again),
        (none && all, CutoffEvent::OfNone),
        (none && !all, CutoffEvent::DropsNone),
        (!none && !all, CutoffEvent::DropsSome),
        (!none && all, CutoffEvent::DropsAll),
        (full, CutoffEvent::DropsAllOfFull),
        (
            rest.iter().any(|&place| stamp(place) == timestamp),
            CutoffEvent::StaysAt,
        ),
        (
            below.iter().any(|&place| stamp(place) + 1 == timestamp),
            CutoffEvent::GoesBelow,
        ),
        (
            rest.iter().any(|place| Some(place) < last_gone),
            CutoffEvent::StaysBefore,
        ),
        (
            first_gone.is_some_and(|first| rest.iter().any(|place| place > first)),
            CutoffEvent::ClosesUp,
        ),
        (!none && !rising(&rest), CutoffEvent::OtherArrival),
        (!rising(&below), CutoffEvent::DroppedArrival),
        (
            !none && stays(Status::New),
            CutoffEvent::Waiting(Status::New),
        ),
        (
            !none && stays(Status::Invalid),
            CutoffEvent::Waiting(Status::Invalid),
        ),
        (gone(1, |writes| writes == 0), CutoffEvent::Withdrawn),
        (gone(1, |writes| writes > 0), CutoffEvent::WithdrawnWriter),
        (gone(0, |writes| writes == 0), CutoffEvent::NoWrites),
    ];
    events.extend(kept(tables, &below, &rest));
    events
}

/// What may be so of kept values where changes go and others stay, and whether it is.
fn kept(tables: &Tables, below: &[usize], rest: &[usize]) -> Vec<(bool, CutoffEvent)> {
    // By setting, with the timestamp, the place and the value of each write.
    let mut writes: BTreeMap<u16, Vec<(u64, usize, i32)>> = BTreeMap::new();
    for &place in below {
        for write in tables.write_list(place) {
            let of_setting = writes.entry(write.setting).or_default();
            of_setting.push((tables.timestamps[place], place, write.value));
        }
    }
    let unlike_start = |setting: u16| {
        let setting = usize::from(setting);
        tables.kept[setting] != start_value(setting)
    };
    let stays = |setting| unlike_start(setting) && !writes.contains_key(&setting);
    let stays = !below.is_empty() && (0..SETTINGS as u16).any(stays);
    let mut events = vec![(stays, CutoffEvent::KeepsKept)];
    let written_above: BTreeSet<u16> = rest
        .iter()
        .flat_map(|&place| tables.write_list(place).map(|write| write.setting))
        .collect();
    for (&setting, writes) in &writes {
        let number = usize::from(setting);
        let (old, view) = (tables.kept[number], tables.view[number]);
        let Some((&(_, highest, new), &(_, _, lowest))) =
            writes.iter().max().zip(writes.iter().min())
        else {
            continue;
        };
        let again = tables.cutoff() > 0 && unlike_start(setting);
        let last = writes.iter().all(|&(_, place, _)| place <= highest);
        events.extend([
            (new != old, CutoffEvent::Kept),
            (new != old && again, CutoffEvent::KeptAfterKept),
            (new != lowest, CutoffEvent::KeptOfSeveral),
            (new != lowest && !last, CutoffEvent::KeptEarlierArrival),
            (new != view, CutoffEvent::KeptUnlikeView),
            (
                written_above.contains(&setting),
                CutoffEvent::KeptBelowWrite,
            ),
        ]);
    }
    events
}

/// The places of the held changes stamped below a timestamp, and of the others, in order of arrival.
fn split(tables: &Tables, timestamp: u64) -> (Vec<usize>, Vec<usize>) {
    (0..tables.held_count()).partition(|&place| tables.timestamps[place] < timestamp)
}
