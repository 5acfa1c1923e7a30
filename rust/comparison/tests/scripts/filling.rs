//! Cabinets reached by random lists of calls, and others that are filled from them or hold the
//! same.

use crate::{calls_in_list, Script, CAPACITIES};
use comparison::generate::scripts::{Call, Change, Source};
use comparison::generate::{self, packages, Random};
use comparison::packages_out::{self, PackageEvent, Size};
use comparison::reached::Reached;
use comparison::seeds::count_reached;
use outside::book;
use outside::checker::TOTALS;
use outside::filled;
use outside::package::{entries, Entry, ANSWERS, DONE, MAX_BYTES};
use outside::program::Version;
use outside::tables::{Status, Tables, MAX_CAPACITY};

/// How many cabinets others are filled from, and one in how many of them fills one of the highest
/// capacity.
const NEIGHBOURS: usize = 8 * CAPACITIES;
const LARGEST: usize = 16;

/// What the tests are to reach.
#[derive(Clone, Copy, Debug, PartialEq, Eq, PartialOrd, Ord)]
enum Event {
    /// The package that others are filled from is written so.
    Neighbour(PackageEvent),
    /// A cabinet is filled that holds changes: there is room for no more, for one more, for several
    /// more, or it has the highest capacity.
    Exactly,
    OneMore,
    SeveralMore,
    Largest,
    /// There is not enough room: a change is refused, and the withdrawal of such a change.
    ChangeRefused,
    WithdrawalRefused,
    /// Two cabinets hold the same: they arrived in another order, have other statuses.
    Same,
    OtherArrival,
    OtherStatus,
    /// One of them has dropped changes.
    OtherCutoff,
    /// The cabinet that is filled has the lists and the view of a neighbour with a cutoff, and has not.
    SameState,
    OtherState,
}

/// A cabinet reached by a random list of calls from this source, most often with changes that wait for
/// their turns, and the package that it writes.
fn neighbour(
    random: &mut Random,
    n: usize,
    source: &mut Source,
    reached: &mut Reached<Event>,
) -> (Script, Vec<u8>) {
    let mut script = Script::new(n);
    let count = calls_in_list(random, n);
    script.make_all(random, source, count, &mut Reached::default());
    for _ in 0..random.below(24) {
        let call = source.call(random, script.both.tables());
        // Few turns, so that changes wait.
        if !matches!(call, Call::Turn | Call::Drain { .. }) || random.below(4) == 0 {
            script.make(call, &mut Reached::default());
        }
    }
    let written = script.package_out(MAX_BYTES, &mut Reached::default());
    for event in packages_out::events(script.both.tables(), MAX_BYTES, &written) {
        reached.count(Event::Neighbour(event));
    }
    let package = written.expect("so few changes pass no limit");
    (script, package)
}

/// Panics unless packages were written so often from changes of every status and of both versions,
/// withdrawn or not, that did not arrive in order.
#[track_caller]
fn assert_neighbours(reached: &Reached<Event>) {
    let of_status = |status| {
        [
            PackageEvent::Change(status),
            PackageEvent::Withdrawn(status),
        ]
    };
    let statuses = [Status::New, Status::Valid, Status::Invalid].map(of_status);
    for &event in statuses.as_flattened() {
        reached.assert_at_least(NEIGHBOURS / 20, Event::Neighbour(event));
    }
    for version in Version::ALL {
        let withdrawn = PackageEvent::WithdrawnVersion(version);
        reached.assert_at_least(NEIGHBOURS / 20, Event::Neighbour(withdrawn));
    }
    for event in [PackageEvent::OtherArrival, PackageEvent::BothVersions] {
        reached.assert_at_least(NEIGHBOURS / 2, Event::Neighbour(event));
    }
}

/// A cabinet of this capacity, just set up, that takes in a package, and the answers of its
/// entries.
fn taken_in(random: &mut Random, n: usize, package: &[u8]) -> (Script, Vec<u8>) {
    let mut script = Script::new(n);
    let call = Call::TakeInPackage {
        package: package.to_vec(),
        answers: packages::answers(random, ANSWERS),
    };
    script.make(call, &mut Reached::default());
    let Some(book::Call::TakeInPackage {
        answers,
        answer: DONE,
        ..
    }) = script.calls.last()
    else {
        panic!("the package is refused");
    };
    let count = entries(package).expect("it is not refused").len();
    let answers = answers[..count].to_vec();
    (script, answers)
}

/// Fills a cabinet of this capacity, which is enough, from the package of a neighbour, which is
/// drained since.
fn fill(random: &mut Random, n: usize, package: &[u8], neighbour: &Script) {
    let calls = &mut Reached::default();
    let (mut script, answers) = taken_in(random, n, package);
    let written = script.package_out(package.len(), calls);
    assert_eq!(written.as_deref(), Ok(package), "before the drain");
    let totals = generate::totals(random, TOTALS);
    match n {
        MAX_CAPACITY => script.drain_as_alone(totals, calls),
        _ => script.drain(totals, calls),
    }
    let (tables, expected) = (script.both.tables(), neighbour.both.tables());
    let checked = filled::check_filled(&answers, tables, expected);
    assert!(checked.is_ok(), "{checked:?} of {:?}", neighbour.calls);
    let written = script.package_out(MAX_BYTES, calls);
    assert_eq!(written.as_deref(), Ok(package), "after the drain");
}

/// Takes in a package where there is room for `n` changes, which is not enough: those of the lowest
/// timestamps are held.
fn fill_in_part(random: &mut Random, n: usize, package: &[u8], reached: &mut Reached<Event>) {
    let (mut script, answers) = taken_in(random, n, package);
    let entries = entries(package).expect("it is not refused");
    let mut held = Vec::new();
    for (entry, answer) in entries.into_iter().zip(answers) {
        let expected = match entry {
            Entry::Change { timestamp, .. } if held.len() < n => {
                held.push(timestamp);
                DONE
            }
            Entry::Change { .. } => 9,
            Entry::Withdrawal { timestamp } if held.contains(&timestamp) => DONE,
            Entry::Withdrawal { .. } => 10,
        };
        assert_eq!(answer, expected);
        reached.count_if(answer == 9, Event::ChangeRefused);
        reached.count_if(answer == 10, Event::WithdrawalRefused);
    }
    script.drain(generate::totals(random, TOTALS), &mut Reached::default());
}

#[test]
fn a_cabinet_is_filled_from_its_neighbour() {
    let reached = count_reached(NEIGHBOURS, |random, index, reached| {
        let n = 1 + index % CAPACITIES;
        // "filling an empty cabinet holds only where both cabinets have cutoff 0" (document 02, R-7).
        let source = &mut Source::new(random, n).without_cutoffs();
        let (mut neighbour, package) = neighbour(random, n, source, reached);
        let totals = generate::totals(random, TOTALS);
        neighbour.drain(totals, &mut Reached::default());
        let written = neighbour.package_out(package.len(), &mut Reached::default());
        assert_eq!(written.as_ref(), Ok(&package), "after the drain");

        let held = neighbour.both.tables().held_count();
        let several = 2 + random.below(100);
        for (more, event) in [
            (0, Event::Exactly),
            (1, Event::OneMore),
            (several, Event::SeveralMore),
        ] {
            // A capacity is at least 1.
            fill(random, (held + more).max(1), &package, &neighbour);
            reached.count_if(held > 0, event);
        }
        if index % LARGEST == 0 {
            fill(random, MAX_CAPACITY, &package, &neighbour);
            reached.count_if(held > 0, Event::Largest);
        }
        if held > 1 {
            let fewer = 1 + random.below(held - 1);
            fill_in_part(random, fewer, &package, reached);
        }
    });
    for event in [Event::Exactly, Event::OneMore, Event::SeveralMore] {
        reached.assert_at_least(NEIGHBOURS * 9 / 10, event);
    }
    reached.assert_at_least(NEIGHBOURS / LARGEST / 2, Event::Largest);
    reached.assert_at_least(NEIGHBOURS, Event::ChangeRefused);
    reached.assert_at_least(NEIGHBOURS, Event::WithdrawalRefused);
    assert_neighbours(&reached);
}

/// A cabinet of capacity `n` that is brought to hold what a package has: in random order, with
/// turns and drains between.
fn holding_the_same(random: &mut Random, n: usize, package: &[u8]) -> Script {
    let calls = &mut Reached::default();
    let mut script = Script::new(n);
    let mut entries = entries(package).expect("it is not refused");
    while !entries.is_empty() {
        let entry = entries.swap_remove(random.below(entries.len()));
        let call = match entry.clone() {
            Entry::Change {
                timestamp,
                version,
                program,
            } => {
                let change = Change {
                    timestamp,
                    version,
                    program,
                };
                change.call()
            }
            Entry::Withdrawal { timestamp } => {
                // It is refused where its change is not held yet, and comes again.
                if script.both.tables().place_of(timestamp).is_none() {
                    entries.push(entry);
                }
                Call::Withdraw { timestamp }
            }
        };
        script.make(call, calls);
        match random.below(8) {
            0..4 => script.make(Call::Turn, calls),
            4 => script.drain(generate::totals(random, TOTALS), calls),
            _ => {}
        }
    }
    script
}

/// The statuses by timestamp.
fn statuses(tables: &Tables) -> Vec<Status> {
    let places = tables.order[..tables.held_count()].iter();
    places
        .map(|&place| tables.status(usize::from(place)))
        .collect()
}

#[test]
fn cabinets_with_equal_books_write_the_same_package() {
    let reached = count_reached(NEIGHBOURS, |random, index, reached| {
        let n = 1 + index % CAPACITIES;
        let source = &mut Source::new(random, n);
        let (one, package) = neighbour(random, n, source, reached);
        let held = one.both.tables().held_count();
        let capacity = held.max(1) + random.below(8);
        let other = holding_the_same(random, capacity, &package);
        let room = Size::of(other.both.tables()).bytes;
        let written = other.package_out(room, &mut Reached::default());
        assert_eq!(written, Ok(package));

        let [one, other] = [&one, &other].map(|script| script.both.tables());
        reached.count(Event::Same);
        let arrival = one.timestamps[..held] != other.timestamps[..held];
        reached.count_if(arrival, Event::OtherArrival);
        reached.count_if(statuses(one) != statuses(other), Event::OtherStatus);
        reached.count_if(one.cutoff() > 0, Event::OtherCutoff);
    });
    for event in [
        Event::Same,
        Event::OtherArrival,
        Event::OtherStatus,
        Event::OtherCutoff,
    ] {
        reached.assert_at_least(NEIGHBOURS / 2, event);
    }
    assert_neighbours(&reached);
}

/// Where a neighbour has a cutoff, a cabinet takes in its package, and begins from other kept values.
#[test]
fn a_neighbour_with_a_cutoff_may_leave_another_state() {
    let reached = count_reached(NEIGHBOURS, |random, index, reached| {
        let n = 1 + index % CAPACITIES;
        let source = &mut Source::new(random, n).with_cutoffs();
        let (mut neighbour, package) = neighbour(random, n, source, reached);
        neighbour.drain(generate::totals(random, TOTALS), &mut Reached::default());
        let mut expected = neighbour.both.tables().clone();
        if expected.cutoff() == 0 {
            return;
        }
        let (mut script, answers) = taken_in(random, n, &package);
        script.drain(generate::totals(random, TOTALS), &mut Reached::default());
        let tables = script.both.tables();
        let checked = filled::check_filled(&answers, tables, &expected);
        assert_eq!(checked, Err(filled::Breach::Cutoff));
        // As if it had none.
        expected.cutoff[0] = 0;
        reached.count(match filled::check_filled(&answers, tables, &expected) {
            Ok(()) => Event::SameState,
            Err(_) => Event::OtherState,
        });
    });
    reached.assert_at_least(NEIGHBOURS / 4, Event::OtherState);
    reached.assert_at_least(NEIGHBOURS / 100, Event::SameState);
}
