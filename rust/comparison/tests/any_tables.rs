//! The proved calls that alter held changes against the outside implementation, on tables in form that
//! calls need not reach.

use comparison::both::Both;
use comparison::cutoffs::{self, CutoffEvent};
use comparison::generate::scripts::{Shape, Source};
use comparison::generate::tables as random_tables;
use comparison::generate::{self, packages, Random};
use comparison::own_writes::OwnWrite;
use comparison::proved::calls as proved;
use comparison::reached::Reached;
use comparison::seeds::{count_reached, with_seeds};
use comparison::turns::{self, DrainEvent, TurnEvent};
use outside::checker::{Turned, CONSOLES, KINDS, TOTALS};
use outside::intake::Taken;
use outside::package::{lay_out, ANSWERS};
use outside::program::{op, Access, Fault, Instruction, Version, MAX_INSTRUCTIONS};
use outside::tables::{
    in_form, Status, Tables, INFINITY, LIST_ENTRIES, MAX_CAPACITY, PROGRAM_BYTES,
};
use std::{array, iter};

/// How many tables with lists unrelated to their programs are drained.
const TABLES: usize = 6_000;

/// How many of them are of any settings and values.
const ANY_VALUES: usize = 1_500;

/// How many larger ones are drained, and how many of the highest capacity.
const LARGER: usize = 120;
const LARGEST: usize = 3;

/// What the tests with any tables are to reach.
#[derive(Clone, Copy, Debug, PartialEq, Eq, PartialOrd, Ord)]
enum Event {
    Turn(TurnEvent),
    Drain(DrainEvent),
    /// Tables with a change whose turn is to come, and without.
    Waiting,
    Idle,
    Taken(Taken),
    TakeInRefused(u8),
    Withdrawn,
    WithdrawRefused(u8),
    Package,
    PackageRefused(u8),
    Cutoff(CutoffEvent),
    /// A cutoff drops changes, and as many are taken in after it as there is room for: at the cutoff
    /// first.
    Refilled,
    /// The kept values have a setting whose value as of a later time is another.
    OtherValueLater,
}

/// What a drain that is not made of single turns may well miss.
const SUBTLE: [Event; 9] = [
    Event::Drain(DrainEvent::StoodRestored),
    Event::Drain(DrainEvent::ChangedWithin),
    Event::Drain(DrainEvent::ChangedBeyond),
    Event::Drain(DrainEvent::WrongSeenStays),
    Event::Turn(TurnEvent::InvalidWriterStops),
    Event::Turn(TurnEvent::WithdrawnWriterStops),
    Event::Turn(TurnEvent::MarkedWithdrawn),
    Event::Turn(TurnEvent::WrongViewOfLaterWriter),
    Event::Turn(TurnEvent::WrongViewOfUnchanged),
];

/// Makes turns until one is idle, and a drain on the tables as they were, which must do the same and
/// count them.
fn drain(random: &mut Random, both: Both, reached: &mut Reached<Event>) {
    let mut drained = both.clone();
    let mut single = both;
    let mut totals = [0; TOTALS];
    let mut of_kind = [0; KINDS];
    let mut turns = turns::Drain::default();
    loop {
        let before = single.tables().clone();
        let Some(turn) = single.turn().expect("the tables are in form") else {
            break;
        };
        totals[turn.total_place()] += 1;
        of_kind[turn.turned.kind()] += 1;
        for event in turns::events(&before, single.tables(), turn) {
            reached.count(Event::Turn(event));
        }
        for event in turns.events(&before, single.tables(), turn) {
            reached.count(Event::Drain(event));
        }
    }
    for event in turns.left(single.tables()) {
        reached.count(Event::Drain(event));
    }
    let turned: usize = of_kind.iter().sum();
    reached.count(match turned {
        0 => Event::Idle,
        _ => Event::Waiting,
    });
    let held = single.tables().held_count();
    assert!(turned <= held, "{turned} turns of {held} changes");
    let mut lent = generate::totals(random, TOTALS);
    assert_eq!(drained.drain(&mut lent), Ok(()));
    assert!(lent == totals, "{lent:?}, of single turns {totals:?}");
    assert_eq!(turns::sums(&lent), of_kind);
    for event in turns::counted(&lent) {
        reached.count(Event::Drain(event));
    }
    assert!(
        drained.tables() == single.tables(),
        "a drain's turns are single turns"
    );
    assert!(in_form(single.capacity(), single.tables()));
}

/// Tables of few settings and values, so that many seen values hold.
fn interfering_tables(random: &mut Random) -> (Source, Both) {
    let n = 2 + random.below(15);
    let held = random_tables::held_count(random, n);
    let source = Source::new(random, n);
    let shape = Shape {
        waiting: random.pick(&[2, 4]),
        settled: random.below(2) == 0,
        ..Shape::SMALL
    };
    let tables = source.tables_of(random, n, held, &shape);
    assert!(in_form(n, &tables));
    (source, Both::new(n, tables))
}

#[test]
fn turns_and_drains_leave_the_same_tables() {
    let reached = count_reached(TABLES, |random, _, reached| {
        let (_, both) = interfering_tables(random);
        drain(random, both, reached);
    });
    for turned in [Turned::Ran, Turned::Stood, Turned::Cleared] {
        let event = Event::Turn(TurnEvent::Answered(turned));
        reached.assert_at_least(TABLES / 4, event);
    }
    for event in [
        Event::Waiting,
        Event::Idle,
        Event::Turn(TurnEvent::RanFirst),
        Event::Turn(TurnEvent::RanAgain),
        Event::Turn(TurnEvent::FaultedFirst),
        Event::Turn(TurnEvent::FaultedAgain),
        Event::Turn(TurnEvent::Faulted(Version::Zero, Fault::ReadOfWritten)),
        Event::Turn(TurnEvent::Faulted(Version::Zero, Fault::WrittenTwice)),
        Event::Turn(TurnEvent::FaultedAfterReads),
        Event::Turn(TurnEvent::WritesSecondTime),
        Event::Turn(TurnEvent::FaultsSecondTime),
        Event::Turn(TurnEvent::ClearedNew),
        Event::Turn(TurnEvent::ClearedWriter),
        Event::Turn(TurnEvent::Added),
        Event::Turn(TurnEvent::AddedEqual),
        Event::Turn(TurnEvent::Removed),
        Event::Turn(TurnEvent::RemovedEqual),
        Event::Turn(TurnEvent::Rewritten),
        Event::Turn(TurnEvent::RewrittenEqual),
        Event::Turn(TurnEvent::Marked),
        Event::Turn(TurnEvent::MarkedWriter),
        Event::Turn(TurnEvent::NextWriterStops),
        Event::Turn(TurnEvent::ViewWritten),
        Event::Turn(TurnEvent::ViewOnRemoval),
        Event::Turn(TurnEvent::ViewOfLaterWriter),
        Event::Turn(TurnEvent::KeptSeen),
        Event::Turn(TurnEvent::KeptHolds),
        Event::Turn(TurnEvent::KeptEqual),
        Event::Turn(TurnEvent::KeptUnlikeStart),
        Event::Turn(TurnEvent::KeptOnRemoval),
        Event::Drain(DrainEvent::Consoles(1)),
        Event::Drain(DrainEvent::Consoles(2)),
        Event::Drain(DrainEvent::Consoles(4)),
        Event::Drain(DrainEvent::KindsOfConsole),
    ] {
        reached.assert_at_least(TABLES / 20, event);
    }
    for event in [
        DrainEvent::MostOfConsole(2),
        DrainEvent::MostOfConsole(4),
        DrainEvent::FirstConsole,
        DrainEvent::LastConsole,
    ] {
        reached.assert_at_least(TABLES / 100, Event::Drain(event));
    }
    for event in SUBTLE {
        reached.assert_at_least(TABLES / 300, event);
    }
    let highest = Turned::Faulted(MAX_INSTRUCTIONS - 1);
    for event in [
        TurnEvent::Faulted(Version::Zero, Fault::NoSuchSetting),
        TurnEvent::Faulted(Version::One, Fault::NoSuchSetting),
        TurnEvent::Answered(highest),
        TurnEvent::RanAfterFault,
        TurnEvent::FaultedAfterFault,
        TurnEvent::StoodAfterFault,
        TurnEvent::FaultedAfterRan,
    ] {
        reached.assert_at_least(TABLES / 300, Event::Turn(event));
    }
    let faulted = Event::Turn(TurnEvent::FaultedAfterOwnWrite);
    reached.assert_at_least(TABLES / 600, faulted);
    for own_write in OwnWrite::ALL {
        for event in [
            TurnEvent::OwnWriteFirst,
            TurnEvent::OwnWriteAgain,
            TurnEvent::OwnWriteStood,
        ] {
            reached.assert_at_least(TABLES / 300, Event::Turn(event(own_write)));
        }
    }
}

#[test]
fn turns_and_drains_of_larger_tables_leave_the_same_tables() {
    let reached = count_reached(LARGER, |random, _, reached| {
        let n = random.pick(&[64, 100, 200, 300]);
        let held = n - random.below(3);
        let settings = random.pick(&[16, 64, 1_024]);
        let shape = Shape {
            waiting: random.pick(&[2, 8, 50]),
            blocks: random.pick(&[1, 3, 8]),
            longest: random.pick(&[2, 4, 16, LIST_ENTRIES]),
            settled: true,
        };
        let source = Source::naming(random, n, settings);
        let tables = source.tables_of(random, n, held, &shape);
        drain(random, Both::new(n, tables), reached);
    });
    for event in SUBTLE {
        reached.assert_at_least(LARGER / 4, event);
    }
    for event in [DrainEvent::Consoles(128), DrainEvent::MostOfConsole(64)] {
        reached.assert_at_least(LARGER / 40, Event::Drain(event));
    }
}

#[test]
fn turns_and_drains_at_the_highest_capacity_leave_the_same_tables() {
    let reached = count_reached(LARGEST, |random, _, reached| {
        let n = MAX_CAPACITY;
        // Few readers between two writers of a setting, so that not all changes run again.
        let shape = Shape {
            waiting: 50,
            blocks: 1,
            longest: 2,
            settled: true,
        };
        let source = Source::naming(random, n, 1_024);
        let tables = source.tables_of(random, n, n, &shape);
        drain(random, Both::new(n, tables), reached);
    });
    for event in [TurnEvent::RanFirst, TurnEvent::RanAgain, TurnEvent::Marked] {
        reached.assert_at_least(10 * LARGEST, Event::Turn(event));
    }
}

/// Here only the proved library makes single turns: each of the outside implementation's looks at
/// all tables.
#[test]
fn a_drain_of_thousands_of_turns_leaves_the_same_tables() {
    with_seeds(|random, _| {
        let n = MAX_CAPACITY;
        let source = Source::naming(random, n, 1_024);
        let shape = Shape {
            settled: true,
            ..Shape::SMALL
        };
        let tables = source.tables_of(random, n, n, &shape);
        let mut single = proved::lend(&tables);
        let mut totals = [0; TOTALS];
        while let Some(turn) = proved::turn(n, &mut single).expect("the tables are in form") {
            totals[turn.total_place()] += 1;
        }
        let of_kind @ [ran, ..] = turns::sums(&totals);
        println!("ran, stood, cleared, faulted: {of_kind:?}");
        assert!(ran > 1_000);
        let mut drained = Both::new(n, tables);
        let mut lent = generate::totals(random, TOTALS);
        assert_eq!(drained.drain(&mut lent), Ok(()));
        assert!(lent == totals, "{lent:?}, of single turns {totals:?}");
        assert!(
            *drained.proved_tables() == single,
            "a drain's turns are single turns"
        );
    });
}

/// An answer of each kind, in the order of the totals. The fault is that of [`assert_counted`].
const OF_KIND: [Turned; KINDS] = [
    Turned::Ran,
    Turned::Stood,
    Turned::Cleared,
    Turned::Faulted(1),
];

/// Drains tables of the highest capacity that hold changes with these timestamps, each of which has a
/// turn with this answer, and panics unless these are the totals.
#[track_caller]
fn assert_counted(random: &mut Random, turns: &[(u64, Turned)], totals: &[u16; TOTALS]) {
    // It writes to setting −1.
    let faulting = [(op::CONSTANT, -1), (op::WRITE_INDEXED, 0)].map(|(op, n)| {
        let unused = Instruction::default();
        Instruction { op, n, ..unused }.to_bytes()
    });
    let mut tables = Tables::new(MAX_CAPACITY);
    tables.held[0] = turns.len() as u16;
    for (place, &(timestamp, turned)) in turns.iter().enumerate() {
        tables.timestamps[place] = timestamp;
        tables.order[place] = place as u16;
        match turned {
            Turned::Ran => {}
            Turned::Stood => tables.status[place] = Status::Invalid.number(),
            Turned::Cleared => tables.withdrawn[place] = 1,
            Turned::Faulted(_) => {
                let program = faulting.as_flattened();
                tables.lengths[place] = faulting.len() as u16;
                tables.programs[PROGRAM_BYTES * place..][..program.len()].copy_from_slice(program);
            }
        }
    }
    tables.order[..turns.len()].sort_unstable_by_key(|&place| turns[usize::from(place)].0);
    let mut both = Both::new(MAX_CAPACITY, tables);
    let mut lent = generate::totals(random, TOTALS);
    assert_eq!(both.drain(&mut lent), Ok(()));
    assert!(lent == totals, "{lent:?}, not {totals:?}");
}

/// Each of the 1,024 totals is 1 to 7.
#[test]
fn every_total_counts_the_turns_of_its_console_and_kind() {
    with_seeds(|random, _| {
        let totals = array::from_fn(|place| 1 + place as u16 % 7);
        let turns = totals.iter().enumerate();
        let turns = turns.flat_map(|(place, &total)| iter::repeat_n(place, total.into()));
        let mut above: Vec<u64> = (1..=MAX_CAPACITY as u64).collect();
        random.shuffle(&mut above);
        let turns = turns.zip(above).map(|(place, above)| {
            let console = (place / KINDS) as u64;
            (above << 8 | console, OF_KIND[place % KINDS])
        });
        assert_counted(random, &turns.collect::<Vec<_>>(), &totals);
    });
}

#[test]
fn a_console_may_have_every_turn() {
    with_seeds(|random, _| {
        for (kind, turned) in OF_KIND.into_iter().enumerate() {
            let console = random.pick(&[0, 10, CONSOLES - 1]);
            let turns = (1..=MAX_CAPACITY).map(|above| ((above << 8 | console) as u64, turned));
            let mut totals = [0; TOTALS];
            totals[KINDS * console + kind] = MAX_CAPACITY as u16;
            assert_counted(random, &turns.collect::<Vec<_>>(), &totals);
        }
    });
}

#[test]
fn turns_and_drains_of_any_settings_and_values_leave_the_same_tables() {
    let reached = count_reached(ANY_VALUES, |random, _, reached| {
        let n = random_tables::capacity(random).min(16);
        let held = random_tables::held_count(random, n);
        let tables = random_tables::in_form(random, n, held);
        drain(random, Both::new(n, tables), reached);
    });
    for turned in [Turned::Ran, Turned::Stood, Turned::Cleared] {
        let event = Event::Turn(TurnEvent::Answered(turned));
        reached.assert_at_least(ANY_VALUES / 20, event);
    }
    reached.assert_at_least(ANY_VALUES / 4, Event::Waiting);
}

#[test]
fn full_lists_are_replaced() {
    let reached = count_reached(100, |random, index, reached| {
        let mut tables = random_tables::in_form_with_full_lists(random, 4, 3 + index % 2);
        for place in 0..tables.held_count() {
            tables.status[place] = random.pick(&[1, 2]);
            tables.withdrawn[place] = random.pick(&[0, 0, 1]);
        }
        drain(random, Both::new(4, tables), reached);
    });
    for event in [
        TurnEvent::RanAgain,
        TurnEvent::ClearedWriter,
        TurnEvent::Removed,
    ] {
        reached.assert_at_least(20, Event::Turn(event));
    }
}

#[test]
fn changes_and_packages_taken_in_and_withdrawals_leave_the_same_tables() {
    let reached = count_reached(TABLES, |random, _, reached| {
        let (source, mut both) = interfering_tables(random);
        let held = both.tables().timestamps[..both.tables().held_count()].to_vec();
        let timestamp = match random.below(10) {
            0 => random.pick(&[0, INFINITY]),
            1..5 if !held.is_empty() => random.pick(&held),
            5 => both.tables().cutoff().saturating_sub(1),
            6 => both.tables().cutoff(),
            _ => random.bits().max(both.tables().cutoff()),
        };
        match random.below(3) {
            0 => {
                let version = generate::version(random);
                let (mut version, mut program) = match both.tables().place_of(timestamp) {
                    Some(place) => {
                        let tables = both.tables();
                        (tables.version(place), tables.program(place).to_vec())
                    }
                    None => (version, source.program(random, version)),
                };
                match random.below(8) {
                    0..4 => generate::damage(random, &mut program),
                    4 => version = generate::other_version(version),
                    _ => {}
                }
                let number = match random.below(8) {
                    0 => generate::no_version(random),
                    _ => version.number(),
                };
                reached.count(match both.take_in(timestamp, number, &program) {
                    Ok(taken) => Event::Taken(taken),
                    Err(refusal) => Event::TakeInRefused(refusal),
                });
            }
            1 => reached.count(match both.withdraw(timestamp) {
                Ok(()) => Event::Withdrawn,
                Err(refusal) => Event::WithdrawRefused(refusal),
            }),
            _ => {
                let cutoff = both.tables().cutoff();
                let entries = packages::entries(random, &held, cutoff);
                let mut package = lay_out(&entries);
                if random.below(4) == 0 {
                    package.pop();
                }
                let mut answers = packages::answers(random, ANSWERS);
                reached.count(match both.take_in_package(&package, &mut answers) {
                    Ok(()) => Event::Package,
                    Err(refusal) => Event::PackageRefused(refusal),
                });
            }
        }
        assert!(in_form(both.capacity(), both.tables()));
    });

    for event in [
        Event::Taken(Taken::Done),
        Event::Taken(Taken::AlreadyHeld),
        Event::Withdrawn,
        Event::Package,
        Event::PackageRefused(3),
    ] {
        reached.assert_at_least(TABLES / 50, event);
    }
    for refusal in [4, 14, 6, 13, 7, 8, 9] {
        reached.assert_at_least(TABLES / 100, Event::TakeInRefused(refusal));
    }
    for refusal in [4, 14, 10, 11] {
        reached.assert_at_least(TABLES / 100, Event::WithdrawRefused(refusal));
    }
}

/// How many tables have cutoffs, and how many larger ones.
const CUT: usize = 6_000;
const LARGER_CUT: usize = 24;

/// How many of the settings that lists name are looked at after a cutoff.
const SETTINGS_LOOKED_AT: usize = 16;

/// A timestamp for a cutoff of these tables: most often a held one, or one next to it.
fn new_cutoff(random: &mut Random, tables: &Tables) -> u64 {
    let held = &tables.timestamps[..tables.held_count()];
    let cutoff = tables.cutoff();
    match random.below(16) {
        0 => random.pick(&[0, 1, INFINITY - 1, INFINITY]),
        1 => cutoff,
        2 => cutoff.saturating_sub(1 + random.below(3) as u64),
        3 => random.bits(),
        _ if held.is_empty() => random.bits(),
        _ => random.pick(held) + random.below(2) as u64,
    }
}

/// All that a place of tables has.
#[derive(Debug, PartialEq)]
struct Held {
    timestamp: u64,
    status: u16,
    withdrawn: u16,
    version: u16,
    program: Vec<u8>,
    reads: Vec<Access>,
    writes: Vec<Access>,
}

/// The held places of tables, in order of arrival.
fn held(tables: &Tables) -> Vec<Held> {
    let held = |place| Held {
        timestamp: tables.timestamps[place],
        status: tables.status[place],
        withdrawn: tables.withdrawn[place],
        version: tables.versions[place],
        program: tables.program(place).to_vec(),
        reads: tables.read_list(place).collect(),
        writes: tables.write_list(place).collect(),
    };
    (0..tables.held_count()).map(held).collect()
}

/// Makes a cutoff, and where it is done checks what document 02 says of it on these tables: the changes
/// that are not below it close up in order of arrival, the kept values are the values as of it, those as
/// of later times are what they were, and the view stays. Returns whether it is done.
fn cut(both: &mut Both, timestamp: u64, reached: &mut Reached<Event>) -> bool {
    let old = both.tables().clone();
    let made = both.cutoff(timestamp);
    for event in cutoffs::events(&old, timestamp, made) {
        reached.count(Event::Cutoff(event));
    }
    if made.is_err() {
        return false;
    }
    let new = both.tables();
    assert!(in_form(both.capacity(), new));
    assert_eq!(new.cutoff(), timestamp);
    assert!(new.view == old.view, "the view stays");
    let mut stay = held(&old);
    stay.retain(|held| held.timestamp >= timestamp);
    assert!(held(new) == stay, "they close up in order of arrival");

    let of_lists = held(&old).into_iter();
    let mut settings: Vec<u16> = of_lists
        .flat_map(|held| [held.reads, held.writes].concat())
        .map(|entry| entry.setting)
        .collect();
    settings.sort_unstable();
    settings.dedup();
    let mut other = false;
    for &setting in settings.iter().take(SETTINGS_LOOKED_AT) {
        let kept = new.kept[usize::from(setting)];
        assert_eq!(kept, turns::previous_value(&old, timestamp, setting));
        for later in [timestamp + 1, INFINITY] {
            let value = turns::previous_value(new, later, setting);
            assert_eq!(value, turns::previous_value(&old, later, setting));
            other |= value != kept;
        }
    }
    reached.count_if(other, Event::OtherValueLater);
    both.ask_all(timestamp, settings.first().copied().unwrap_or(0).into());
    true
}

/// Takes in changes until the tables are full, from the cutoff on, and one more, which is refused.
fn refill(random: &mut Random, source: &Source, both: &mut Both, reached: &mut Reached<Event>) {
    let cutoff = both.tables().cutoff();
    let stamps = (cutoff..INFINITY).take(2 * both.capacity());
    let held = both.tables().timestamps.clone();
    let missing = both.capacity() - both.tables().held_count();
    let new: Vec<u64> = stamps.filter(|stamp| !held.contains(stamp)).collect();
    if new.len() <= missing {
        return;
    }
    for (index, &timestamp) in new[..=missing].iter().enumerate() {
        let change = source.stamped(random, timestamp);
        let taken = both.take_in(timestamp, change.version.number(), &change.program);
        match index < missing {
            true => assert_eq!(taken, Ok(Taken::Done)),
            false => assert_eq!(taken, Err(9)),
        }
    }
    reached.count(Event::Refilled);
}

#[test]
fn cutoffs_leave_the_same_tables() {
    let reached = count_reached(CUT, |random, index, reached| {
        let n = 2 + random.below(15);
        let held = random_tables::held_count(random, n);
        let source = Source::new(random, n);
        let shape = Shape {
            // Most often nothing waits below many a timestamp.
            waiting: random.pick(&[2, 8, 40]),
            settled: random.below(2) == 0,
            ..Shape::SMALL
        };
        let tables = match index % 4 {
            0 => random_tables::in_form(random, n, held),
            _ => source.tables_of(random, n, held, &shape),
        };
        let mut both = Both::new(n, tables);
        let timestamp = new_cutoff(random, both.tables());
        if !cut(&mut both, timestamp, reached) {
            return;
        }
        match random.below(4) {
            // Again, and a later one.
            0 => {
                let before = both.tables().clone();
                assert!(cut(&mut both, timestamp, reached));
                assert!(*both.tables() == before, "the same alters nothing");
                let timestamp = new_cutoff(random, both.tables());
                cut(&mut both, timestamp, reached);
            }
            1 => refill(random, &source, &mut both, reached),
            _ => {}
        }
        drain(random, both, &mut Reached::default());
    });
    for event in [
        CutoffEvent::Done,
        CutoffEvent::Refused(15),
        CutoffEvent::DropsSome,
        CutoffEvent::DropsNone,
        CutoffEvent::StaysAt,
        CutoffEvent::GoesBelow,
        CutoffEvent::StaysBefore,
        CutoffEvent::ClosesUp,
        CutoffEvent::Kept,
        CutoffEvent::KeptUnlikeView,
        CutoffEvent::KeptBelowWrite,
        CutoffEvent::KeepsKept,
    ] {
        reached.assert_at_least(CUT / 10, Event::Cutoff(event));
    }
    for event in [
        CutoffEvent::Refused(4),
        CutoffEvent::Refused(14),
        CutoffEvent::Unsettled(Status::New),
        CutoffEvent::Unsettled(Status::Invalid),
        CutoffEvent::UnsettledWithdrawn(Status::New),
        CutoffEvent::UnsettledWithdrawn(Status::Invalid),
        CutoffEvent::UnsettledHighest,
        CutoffEvent::Again,
        CutoffEvent::OfNone,
        CutoffEvent::DropsAll,
        CutoffEvent::DropsAllOfFull,
        CutoffEvent::OtherArrival,
        CutoffEvent::DroppedArrival,
        CutoffEvent::Waiting(Status::New),
        CutoffEvent::Waiting(Status::Invalid),
        CutoffEvent::Withdrawn,
        CutoffEvent::WithdrawnWriter,
        CutoffEvent::NoWrites,
        CutoffEvent::KeptAfterKept,
        CutoffEvent::KeptOfSeveral,
        CutoffEvent::KeptEarlierArrival,
    ] {
        reached.assert_at_least(CUT / 100, Event::Cutoff(event));
    }
    for event in [Event::Refilled, Event::OtherValueLater] {
        reached.assert_at_least(CUT / 40, event);
    }
}

#[test]
fn cutoffs_of_larger_tables_leave_the_same_tables() {
    let reached = count_reached(LARGER_CUT, |random, index, reached| {
        let n = match index {
            0 => MAX_CAPACITY,
            _ => random.pick(&[64, 300, 1_000]),
        };
        let held = n - random.below(3);
        let mut tables = random_tables::in_form_with_full_lists(random, n, held);
        for flag in &mut tables.withdrawn[..n / 2] {
            *flag = random.pick(&[0, 1]);
        }
        let mut both = Both::new(n, tables);
        // By rising rank, so that none is refused.
        let ranks = [n / 8, n / 2, n / 2 + 1, n - 3];
        for rank in ranks {
            let tables = both.tables();
            let rank = rank.min(tables.held_count() - 1);
            let timestamp = tables.timestamps[usize::from(tables.order[rank])];
            assert!(cut(&mut both, timestamp, reached));
        }
    });
    for event in [
        CutoffEvent::DropsSome,
        CutoffEvent::KeptAfterKept,
        CutoffEvent::KeptEarlierArrival,
        CutoffEvent::WithdrawnWriter,
    ] {
        reached.assert_at_least(LARGER_CUT, Event::Cutoff(event));
    }
}
