//! The proved writing of packages against the outside implementation, on tables in form that calls
//! need not reach and at the limits of a package.

use comparison::both::Both;
use comparison::generate::scripts::{Shape, Source};
use comparison::generate::tables as random_tables;
use comparison::generate::{packages, Random};
use comparison::packages_out::{events, PackageEvent, Size};
use comparison::reached::Reached;
use comparison::seeds::{count_reached, with_seeds};
use outside::package::{
    entries, lay_out, Entry, ANSWERS, DONE, ENTRY_BYTES, MAX_BYTES, MAX_ENTRIES,
};
use outside::program::{Version, INSTRUCTION_BYTES, MAX_INSTRUCTIONS};
use outside::tables::{in_form, Status, Tables, MAX_CAPACITY};

/// How many tables packages are written from, and how many larger ones.
const TABLES: usize = 3_000;
const LARGER: usize = 300;

/// How often a package is written from each, into slices of several lengths.
const WRITTEN: usize = 4;

/// Writes a package, lent so many bytes, and counts what comes of it. What is written must be the
/// tables' changes and withdrawals, in order.
fn package_out(both: &Both, room: usize, reached: &mut Reached<PackageEvent>) -> Result<(), u8> {
    let package = both.package_out(room);
    for event in events(both.tables(), room, &package) {
        reached.count(event);
    }
    let tables = both.tables();
    let written = entries(&package?).expect("what is written keeps the layout");
    let in_order = || {
        let order = tables.order[..tables.held_count()].iter();
        order.map(|&place| usize::from(place))
    };
    let changes = in_order().map(|place| Entry::Change {
        timestamp: tables.timestamps[place],
        version: tables.version(place),
        program: tables.program(place).to_vec(),
    });
    let withdrawn = in_order().filter(|&place| tables.withdrawn[place] == 1);
    let withdrawals = withdrawn.map(|place| Entry::Withdrawal {
        timestamp: tables.timestamps[place],
    });
    assert!(written.into_iter().eq(changes.chain(withdrawals)));
    Ok(())
}

/// The same, several times, lent slices of random lengths.
fn packages_out(random: &mut Random, both: &Both, reached: &mut Reached<PackageEvent>) {
    assert!(in_form(both.capacity(), both.tables()));
    for _ in 0..WRITTEN {
        let room = packages::room(random, both.tables());
        let _ = package_out(both, room, reached);
    }
}

/// Panics unless changes of every status and of both versions, withdrawn or not, were written so
/// often.
#[track_caller]
fn assert_changes(reached: &Reached<PackageEvent>, least: usize) {
    for status in [Status::New, Status::Valid, Status::Invalid] {
        reached.assert_at_least(least, PackageEvent::Change(status));
        reached.assert_at_least(least, PackageEvent::Withdrawn(status));
    }
    for version in Version::ALL {
        reached.assert_at_least(least, PackageEvent::Version(version));
        reached.assert_at_least(least, PackageEvent::WithdrawnVersion(version));
    }
    reached.assert_at_least(least, PackageEvent::BothVersions);
}

#[test]
fn packages_of_any_tables_are_the_same() {
    let reached = count_reached(TABLES, |random, index, reached| {
        let n = random_tables::capacity(random);
        let held = random_tables::held_count(random, n);
        let tables = match index % 2 {
            0 => random_tables::in_form(random, n, held),
            _ => Source::new(random, n).tables(random, n, held),
        };
        packages_out(random, &Both::new(n, tables), reached);
    });
    for event in [
        PackageEvent::Written,
        PackageEvent::OtherArrival,
        PackageEvent::Exact,
        PackageEvent::Longer,
        PackageEvent::TooShort,
    ] {
        reached.assert_at_least(TABLES / 4, event);
    }
    for event in [PackageEvent::OfNone, PackageEvent::OneByteShort] {
        reached.assert_at_least(TABLES / 20, event);
    }
    assert_changes(&reached, TABLES / 20);
}

/// Tables whose package passes one of its limits or comes near them.
#[test]
fn packages_of_larger_tables_are_the_same() {
    let reached = count_reached(LARGER, |random, index, reached| {
        let n = random.pick(&[256, 300, 512, 600, 1_000]);
        let held = n - random.below(n / 2);
        let tables = match index % 3 {
            0 => random_tables::in_form(random, n, held),
            1 => Source::new(random, n).tables_of(random, n, held, &Shape::SMALL),
            _ => {
                let mut tables = random_tables::in_form_with_full_lists(random, n, held);
                let flags: &[u16] = random.pick::<&[u16]>(&[&[0], &[0, 0, 0, 1]]);
                tables.withdrawn[..held].fill_with(|| random.pick(flags));
                tables
            }
        };
        packages_out(random, &Both::new(n, tables), reached);
    });
    for event in [
        PackageEvent::Written,
        PackageEvent::TooManyEntries,
        PackageEvent::TooManyBytes,
        PackageEvent::TooShort,
    ] {
        reached.assert_at_least(LARGER / 10, event);
    }
    assert_changes(&reached, LARGER / 10);
}

/// The highest capacity, with few changes and with so many that every package is refused.
#[test]
fn packages_of_tables_of_capacity_4096_are_the_same() {
    let reached = count_reached(3, |random, index, reached| {
        let held = [MAX_CAPACITY, 100, 513][index];
        let tables = random_tables::in_form(random, MAX_CAPACITY, held);
        packages_out(random, &Both::new(MAX_CAPACITY, tables), reached);
    });
    reached.assert_at_least(2 * WRITTEN, PackageEvent::Refused(12));
    reached.assert_at_least(1, PackageEvent::Written);
}

/// A cabinet of capacity `n` that takes in changes of so many stops each, by falling timestamp, of
/// which every second has version 1 and so many are withdrawn.
fn holding(random: &mut Random, n: usize, stops: &[usize], withdrawn: usize) -> Both {
    let change = |(index, count): (usize, &usize)| Entry::Change {
        timestamp: (stops.len() - index) as u64,
        version: Version::ALL[index % 2],
        program: vec![0; INSTRUCTION_BYTES * count],
    };
    let changes = stops.iter().enumerate().map(change);
    let withdrawals = (1..=withdrawn as u64).map(|timestamp| Entry::Withdrawal { timestamp });
    let entries: Vec<Entry> = changes.chain(withdrawals).collect();
    let mut both = Both::just_set_up(n);
    // So many are no package that is too long.
    for entries in entries.chunks(128) {
        let mut answers = packages::answers(random, ANSWERS);
        let taken = both.take_in_package(&lay_out(entries), &mut answers);
        assert_eq!(taken, Ok(()));
        assert_eq!(answers[..entries.len()], vec![DONE; entries.len()]);
    }
    both
}

/// The cabinet's package is written to slices that have room for it, to the byte, and to no shorter
/// one. A cabinet of the least capacity is filled from it.
#[track_caller]
fn assert_written(both: &Both, entries: usize, bytes: usize, reached: &mut Reached<PackageEvent>) {
    let size = Size::of(both.tables());
    assert_eq!((size.entries, size.bytes), (entries, bytes));
    for room in [bytes, bytes + 1, MAX_BYTES, MAX_BYTES + 1, 2 * MAX_BYTES] {
        assert_eq!(package_out(both, room, reached), Ok(()));
    }
    for room in [0, 1, bytes / 2, bytes - 1] {
        assert_eq!(package_out(both, room, reached), Err(12));
    }
    let package = both.package_out(bytes).expect("it was written before");
    let mut filled = Both::just_set_up(both.tables().held_count());
    let mut answers = [99; ANSWERS];
    assert_eq!(filled.take_in_package(&package, &mut answers), Ok(()));
    assert_eq!(answers[..entries], vec![DONE; entries]);
    assert_eq!(filled.package_out(bytes), Ok(package));
}

#[track_caller]
fn assert_refused(both: &Both, entries: usize, bytes: usize, reached: &mut Reached<PackageEvent>) {
    let size = Size::of(both.tables());
    assert_eq!((size.entries, size.bytes), (entries, bytes));
    for room in [0, bytes - 1, bytes, MAX_BYTES, MAX_BYTES + 1, 2 * MAX_BYTES] {
        assert_eq!(
            package_out(both, room, reached),
            Err(12),
            "lent {room} bytes"
        );
    }
}

#[test]
fn packages_of_512_entries_are_written_and_none_of_513() {
    let reached = with_seeds(|random, _| {
        let mut reached = Reached::default();
        for (held, withdrawn) in [(512, 0), (511, 1), (400, 112), (256, 256)] {
            let both = holding(random, 600, &vec![1; held], withdrawn);
            let bytes = 2 + ENTRY_BYTES * 512 + INSTRUCTION_BYTES * held;
            assert_written(&both, MAX_ENTRIES, bytes, &mut reached);
        }
        for (held, withdrawn) in [(513, 0), (512, 1), (400, 113), (257, 256)] {
            let both = holding(random, 600, &vec![1; held], withdrawn);
            let bytes = 2 + ENTRY_BYTES * 513 + INSTRUCTION_BYTES * held;
            assert_refused(&both, MAX_ENTRIES + 1, bytes, &mut reached);
        }
        reached
    });
    reached.print();
    reached.assert_at_least(4 * 5, PackageEvent::MostEntries);
    reached.assert_at_least(4, PackageEvent::OneByteShort);
    reached.assert_at_least(4 * 4, PackageEvent::OneEntryMore);
}

/// 2 + 12 k + 8 s bytes, for k entries and s instructions, leave 2 modulo 4: 65,534 are the most,
/// and 65,538 the next.
#[test]
fn packages_of_65534_bytes_are_written_and_none_of_65538() {
    let shared = |held: usize, instructions: usize| -> Vec<usize> {
        let share = |index: usize| {
            let rest = instructions.saturating_sub(MAX_INSTRUCTIONS * index);
            rest.min(MAX_INSTRUCTIONS)
        };
        (0..held).map(share).collect()
    };
    let reached = with_seeds(|random, _| {
        let mut reached = Reached::default();
        // The fewest entries, withdrawals among them, and the most of an odd number.
        for (held, withdrawn, instructions) in [
            (245, 0, 7_824),
            (245, 2, 7_821),
            (511, 0, 7_425),
            (256, 255, 7_425),
        ] {
            let both = holding(random, 600, &shared(held, instructions), withdrawn);
            assert_written(&both, held + withdrawn, 65_534, &mut reached);
        }
        for (held, withdrawn, instructions) in [
            (246, 0, 7_823),
            (245, 1, 7_823),
            (512, 0, 7_424),
            (256, 256, 7_424),
        ] {
            let both = holding(random, 600, &shared(held, instructions), withdrawn);
            assert_refused(&both, held + withdrawn, 65_538, &mut reached);
        }
        reached
    });
    reached.print();
    reached.assert_at_least(4 * 5, PackageEvent::MostBytes);
    reached.assert_at_least(4, PackageEvent::OneByteShort);
    reached.assert_at_least(4 * 2, PackageEvent::NextBytes);
}

/// Every length of the lent slice, for a small package.
#[test]
fn slices_of_every_length_are_left_the_same() {
    with_seeds(|random, _| {
        let both = holding(random, 3, &[2, 0, 1], 1);
        let bytes = Size::of(both.tables()).bytes;
        assert_eq!(bytes, 2 + 4 * 12 + 3 * 8);
        for room in 0..2 * bytes {
            let refused = (room < bytes).then_some(12);
            assert_eq!(both.package_out(room).err(), refused);
        }
        let none = Both::new(1, Tables::new(1));
        for room in 0..8 {
            let expected = match room {
                0 | 1 => Err(12),
                _ => Ok(vec![0, 0]),
            };
            assert_eq!(none.package_out(room), expected);
        }
    });
}
