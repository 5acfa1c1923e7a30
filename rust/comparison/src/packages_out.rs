//! What package out does, to count it.

use outside::package::{ENTRY_BYTES, MAX_BYTES, MAX_ENTRIES};
use outside::program::{Version, INSTRUCTION_BYTES};
use outside::tables::{Status, Tables};

/// How large the package of tables in form is, whatever its limits. Of other tables it is some
/// size.
#[derive(Clone, Copy, Debug)]
#[allow(missing_docs)]
pub struct Size {
    pub entries: usize,
    pub bytes: usize,
}

impl Size {
    /// The size of these tables' package.
    pub fn of(tables: &Tables) -> Self {
        let sum = |table: &[u16]| table.iter().copied().map(usize::from).sum::<usize>();
        let entries = sum(&tables.held) + sum(&tables.withdrawn);
        let bodies = INSTRUCTION_BYTES * sum(&tables.lengths);
        Self {
            entries,
            bytes: 2 + ENTRY_BYTES * entries + bodies,
        }
    }
}

/// Something that package out does.
#[derive(Clone, Copy, Debug, PartialEq, Eq, PartialOrd, Ord)]
#[allow(missing_docs)]
pub enum PackageEvent {
    Written,
    /// The package has no entries, the most entries, the most bytes.
    OfNone,
    MostEntries,
    MostBytes,
    /// The lent slice is as long as the package, and longer.
    Exact,
    Longer,
    /// A change of this status is written, and one that is withdrawn.
    Change(Status),
    Withdrawn(Status),
    /// A change of this version is written, one that is withdrawn, and changes of both.
    Version(Version),
    WithdrawnVersion(Version),
    BothVersions,
    /// The changes did not arrive in the order in which they are written.
    OtherArrival,
    /// It is refused for one reason alone: there are too many entries, too many bytes, or more than
    /// the lent slice has.
    TooManyEntries,
    TooManyBytes,
    TooShort,
    /// The same by the least: one entry too many, bytes next to the most, one byte missing.
    OneEntryMore,
    NextBytes,
    OneByteShort,
    Refused(u8),
}

/// The most bytes of a package: its length leaves 2 modulo 4.
const MOST_BYTES: usize = MAX_BYTES - 1;

/// What package out did that was lent these tables and `room` bytes.
pub fn events<A>(tables: &Tables, room: usize, answer: &Result<A, u8>) -> Vec<PackageEvent> {
    let size = Size::of(tables);
    let possible = match answer {
        Ok(_) => written(tables, size, room),
        Err(12) => refused_12(size, room),
        Err(refusal) => vec![(true, PackageEvent::Refused(*refusal))],
    };
    let happened = possible.into_iter().filter(|(happened, _)| *happened);
    happened.map(|(_, event)| event).collect()
}

/// What may be so where a package is written, and whether it is.
fn written(tables: &Tables, size: Size, room: usize) -> Vec<(bool, PackageEvent)> {
    let held = tables.held_count();
    let arrived = tables.order[..held].is_sorted();
    let mut events = vec![
        (true, PackageEvent::Written),
        (size.entries == 0, PackageEvent::OfNone),
        (size.entries == MAX_ENTRIES, PackageEvent::MostEntries),
        (size.bytes == MOST_BYTES, PackageEvent::MostBytes),
        (size.bytes == room, PackageEvent::Exact),
        (size.bytes < room, PackageEvent::Longer),
        (!arrived, PackageEvent::OtherArrival),
    ];
    for status in [Status::New, Status::Valid, Status::Invalid] {
        let with = |flag| {
            let mut places = 0..held;
            places.any(|place| tables.status(place) == status && tables.withdrawn[place] == flag)
        };
        events.push((with(0), PackageEvent::Change(status)));
        events.push((with(1), PackageEvent::Withdrawn(status)));
    }
    let of = |version| (0..held).filter(move |&place| tables.version(place) == version);
    for version in Version::ALL {
        let withdrawn = of(version).any(|place| tables.withdrawn[place] == 1);
        events.push((of(version).next().is_some(), PackageEvent::Version(version)));
        events.push((withdrawn, PackageEvent::WithdrawnVersion(version)));
    }
    let both = Version::ALL
        .into_iter()
        .all(|version| of(version).next().is_some());
    events.push((both, PackageEvent::BothVersions));
    events
}

/// Why the package is refused, 12: what may be so, and whether it is.
fn refused_12(size: Size, room: usize) -> Vec<(bool, PackageEvent)> {
    let entries = size.entries > MAX_ENTRIES;
    let bytes = size.bytes > MAX_BYTES;
    let short = size.bytes > room;
    let (by_entries, by_bytes) = (entries && !bytes && !short, bytes && !entries && !short);
    let by_room = short && !entries && !bytes;
    vec![
        (true, PackageEvent::Refused(12)),
        (by_entries, PackageEvent::TooManyEntries),
        (by_bytes, PackageEvent::TooManyBytes),
        (by_room, PackageEvent::TooShort),
        (
            by_entries && size.entries == MAX_ENTRIES + 1,
            PackageEvent::OneEntryMore,
        ),
        (
            by_bytes && size.bytes == MOST_BYTES + 4,
            PackageEvent::NextBytes,
        ),
        (
            by_room && size.bytes == room + 1,
            PackageEvent::OneByteShort,
        ),
    ]
}
