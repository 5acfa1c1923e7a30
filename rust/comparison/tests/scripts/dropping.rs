//! Cabinets that drop changes beside cabinets that hold them all, and chosen lists of calls with cutoffs.

use crate::{calls_in_list, instruction, Event as ListEvent, Script, CAPACITIES, NAMES, WRITTEN};
use comparison::cutoffs::CutoffEvent;
use comparison::generate::scripts::{Call, Source};
use comparison::generate::{self, packages, Random};
use comparison::reached::Reached;
use comparison::seeds::{count_reached, with_seeds};
use outside::book;
use outside::checker::{Turned, TOTALS};
use outside::dropped;
use outside::package::{entries, lay_out, Entry, ANSWERS, DONE};
use outside::program::{op, Instruction, Version};
use outside::tables::{Status, INFINITY};

/// How many lists of calls are made again without cutoffs.
const LISTS: usize = 8 * CAPACITIES;

/// What the tests are to reach.
#[derive(Clone, Copy, Debug, PartialEq, Eq, PartialOrd, Ord)]
enum Event {
    /// A cabinet has dropped changes, holds some, and more than it has room for came in.
    Dropped,
    Holds,
    MoreThanRoom,
    /// A kept value is not the start value, and not that of the view.
    Kept,
    KeptUnlikeView,
    /// A withdrawn change was dropped.
    DroppedWithdrawn,
}

/// The call that makes again what was answered done, if there is one. Cutoffs are left out, and of a
/// package what is not answered done.
fn again(random: &mut Random, call: &book::Call) -> Option<Call> {
    match call {
        book::Call::TakeIn {
            timestamp,
            version,
            program,
            answer: DONE,
        } => Some(Call::TakeIn {
            timestamp: *timestamp,
            version: *version,
            program: program.clone(),
        }),
        book::Call::Withdraw {
            timestamp,
            answer: DONE,
        } => Some(Call::Withdraw {
            timestamp: *timestamp,
        }),
        book::Call::TakeInPackage {
            package,
            answers,
            answer: DONE,
        } => {
            let entries = entries(package).expect("it is not refused");
            let done = entries.into_iter().zip(answers);
            let done = done.filter(|(_, &answer)| answer == DONE);
            let done: Vec<Entry> = done.map(|(entry, _)| entry).collect();
            Some(Call::TakeInPackage {
                package: lay_out(&done),
                answers: packages::answers(random, ANSWERS),
            })
        }
        book::Call::Turn(Some(_)) => Some(Call::Turn),
        book::Call::Drain(Some(_)) => Some(Call::Drain {
            totals: generate::totals(random, TOTALS),
        }),
        _ => None,
    }
}

/// A cabinet that has room for all that these calls took in, and holds it.
fn holding_all(random: &mut Random, calls: &[book::Call]) -> Script {
    let again: Vec<Call> = calls
        .iter()
        .filter_map(|call| again(random, call))
        .collect();
    let taken_in = again.iter().map(|call| match call {
        Call::TakeIn { .. } => 1,
        Call::TakeInPackage { package, .. } => entries(package).map_or(0, |entries| entries.len()),
        _ => 0,
    });
    let mut script = Script::new(taken_in.sum::<usize>().max(1));
    for call in again {
        script.make(call, &mut Reached::default());
    }
    script
}

#[test]
fn dropping_loses_nothing() {
    let reached = count_reached(LISTS, |random, index, reached| {
        let n = 1 + index % CAPACITIES;
        let mut script = Script::new(n);
        let source = &mut Source::new(random, n).with_cutoffs();
        let count = calls_in_list(random, n);
        script.make_all(random, source, count, &mut Reached::default());
        let all = holding_all(random, &script.calls);
        let (dropping, holding) = (script.both.tables(), all.both.tables());
        let checked = dropped::check_nothing_lost(dropping, holding);
        assert!(checked.is_ok(), "{checked:?} of {:?}", script.calls);

        let dropped = holding.held_count() - dropping.held_count();
        reached.count_if(dropped > 0, Event::Dropped);
        let holds = dropped > 0 && dropping.held_count() > 0;
        reached.count_if(holds, Event::Holds);
        reached.count_if(holding.held_count() > n, Event::MoreThanRoom);
        let start = all.both.tables().kept.iter();
        let mut kept = dropping.kept.iter().zip(start).zip(&dropping.view);
        reached.count_if(
            kept.clone().any(|((kept, start), _)| kept != start),
            Event::Kept,
        );
        let unlike = kept.any(|((kept, start), view)| kept != start && kept != view);
        reached.count_if(unlike, Event::KeptUnlikeView);
        let mut gone = (0..holding.held_count())
            .filter(|&place| holding.timestamps[place] < dropping.cutoff());
        let withdrawn = gone.any(|place| holding.withdrawn[place] == 1);
        reached.count_if(withdrawn, Event::DroppedWithdrawn);
    });
    for event in [Event::Dropped, Event::Holds, Event::Kept] {
        reached.assert_at_least(LISTS / 2, event);
    }
    for event in [
        Event::MoreThanRoom,
        Event::KeptUnlikeView,
        Event::DroppedWithdrawn,
    ] {
        reached.assert_at_least(LISTS / 8, event);
    }
}

/// A program that sets this setting.
fn set(setting: i32, value: i32) -> [Instruction; 2] {
    [
        instruction(op::CONSTANT, value),
        instruction(op::WRITE, setting),
    ]
}

/// A program that copies [`NAMES`] to [`WRITTEN`].
fn copy() -> [Instruction; 2] {
    [
        instruction(op::READ, NAMES),
        instruction(op::WRITE, WRITTEN),
    ]
}

/// Chosen lists of calls.
impl Script {
    /// Makes a cutoff, which must have this answer.
    #[track_caller]
    fn assert_cut(&mut self, timestamp: u64, answer: u8, reached: &mut Reached<ListEvent>) {
        self.cutoff(timestamp, reached);
        let Some(book::Call::Cutoff { answer: made, .. }) = self.calls.last() else {
            panic!("the last call is a cutoff");
        };
        assert_eq!(*made, answer, "a cutoff at {timestamp}");
    }

    /// Panics unless this is the kept value of [`NAMES`], and this its current one.
    #[track_caller]
    fn assert_named(&self, kept: i32, view: i32) {
        let tables = self.both.tables();
        let setting = NAMES as usize;
        assert_eq!((tables.kept[setting], tables.view[setting]), (kept, view));
    }
}

/// 10 and 20 set 36, 30 copies it. A late change at the cutoff reads what is kept, and where it goes
/// again 30 does.
#[test]
fn late_changes_at_the_cutoff_begin_from_the_kept_values() {
    let reached = &mut Reached::default();
    let mut script = Script::new(3);
    script.take_in(30, &copy(), reached);
    script.take_in(10, &set(NAMES, 7), reached);
    script.take_in(20, &set(NAMES, 9), reached);
    script.assert_cut(11, 15, reached);
    let turns = [10, 20, 30].map(|timestamp| (timestamp, Turned::Ran));
    script.assert_drains(&turns, reached);
    script.assert_cut(15, DONE, reached);
    script.assert_named(7, 9);
    script.assert_cut(14, 14, reached);
    script.assert_cut(15, DONE, reached);
    assert_eq!(script.try_take_in(Version::Zero, 14, &[], reached), 14);
    assert_eq!(
        script.try_take_in(Version::Zero, 10, &set(NAMES, 7), reached),
        14
    );

    script.assert_cut(25, DONE, reached);
    script.assert_named(9, 9);
    script.assert_drains(&[], reached);
    script.assert_lists(30, &[(36, 9)], &[(40, 9)]);
    // It adds 1.
    let add = [
        instruction(op::READ, NAMES),
        Instruction {
            a: 1,
            ..instruction(op::CONSTANT, 1)
        },
        Instruction {
            c: 1,
            ..instruction(op::ADD, 0)
        },
        instruction(op::WRITE, NAMES),
    ];
    script.take_in(25, &add, reached);
    script.assert_drains(&[(25, Turned::Ran), (30, Turned::Ran)], reached);
    script.assert_lists(25, &[(36, 9)], &[(36, 10)]);
    script.assert_lists(30, &[(36, 10)], &[(40, 10)]);
    script.make(Call::Withdraw { timestamp: 25 }, reached);
    script.assert_cut(26, 15, reached);
    script.assert_drains(&[(25, Turned::Cleared), (30, Turned::Ran)], reached);
    script.assert_named(9, 9);
    // What sets 36 to the kept value marks nobody, and what sets it to the start value marks 30.
    script.take_in(26, &set(NAMES, 9), reached);
    script.assert_drains(&[(26, Turned::Ran)], reached);
    let answer = script.try_take_in(Version::Zero, 27, &set(NAMES, 0), reached);
    assert_eq!(answer, 9);
    script.assert_cut(26, DONE, reached);
    script.take_in(27, &set(NAMES, 0), reached);
    script.assert_drains(&[(27, Turned::Ran), (30, Turned::Ran)], reached);
    script.assert_cut(31, DONE, reached);
    script.assert_named(0, 0);
    script.assert_drains(&[], reached);
}

/// Every rank of eight changes, in several orders of arrival, as the cutoff: at the change, and just
/// above it.
#[test]
fn every_rank_is_a_cutoff_in_any_order_of_arrival() {
    let dropped = with_seeds(|random, share| {
        let reached = &mut Reached::default();
        let mut dropped = 0;
        for _ in 0..share.of(24) {
            let mut stamps: Vec<u64> = (1..=8).map(|rank| 10 * rank).collect();
            random.shuffle(&mut stamps);
            let mut filled = Script::new(8);
            for &timestamp in &stamps {
                // Each sets a setting that all set, and one that every third sets.
                let [all, third] = [NAMES, WRITTEN + (timestamp / 10 % 3) as i32];
                let program = [set(all, timestamp as i32), set(third, -(timestamp as i32))];
                filled.take_in(timestamp, program.as_flattened(), reached);
            }
            filled.drain(generate::totals(random, TOTALS), reached);
            for rank in 1..=8 {
                for (timestamp, gone) in [(10 * rank, rank - 1), (10 * rank + 1, rank)] {
                    let mut script = Script {
                        both: filled.both.clone(),
                        calls: filled.calls.clone(),
                        ..Script::new(8)
                    };
                    script.assert_cut(timestamp, DONE, reached);
                    let tables = script.both.tables();
                    let stay = stamps.iter().filter(|&&stamp| stamp >= timestamp);
                    assert!(tables.timestamps[..tables.held_count()].iter().eq(stay));
                    assert_eq!(tables.held_count() as u64, 8 - gone);
                    script.assert_named(10 * gone as i32, 80);
                    // Freed places take new changes, and no more.
                    for more in 0..gone {
                        script.take_in(100 + more, &copy(), reached);
                    }
                    let full = script.try_take_in(Version::One, 200, &[], reached);
                    assert_eq!(full, 9);
                    script.drain(generate::totals(random, TOTALS), reached);
                    dropped += gone;
                }
            }
        }
        dropped
    });
    assert_eq!(dropped, 24 * (28 + 36));
}

/// 15 for a change that is New or Invalid, withdrawn or not, and not for one that had its turn.
#[test]
fn a_cutoff_waits_for_the_turns_below_it() {
    let reached = &mut Reached::default();
    let mut script = Script::new(4);
    script.take_in(20, &copy(), reached);
    script.assert_cut(21, 15, reached);
    script.make(Call::Withdraw { timestamp: 20 }, reached);
    script.assert_cut(21, 15, reached);
    script.assert_cut(20, DONE, reached);
    script.assert_drains(&[(20, Turned::Cleared)], reached);
    script.assert_cut(21, DONE, reached);

    script.take_in(40, &copy(), reached);
    script.assert_drains(&[(40, Turned::Ran)], reached);
    script.take_in(30, &set(NAMES, 5), reached);
    script.make(Call::Turn, reached);
    // 30 has marked 40.
    assert_eq!(script.both.tables().status(0), Status::Invalid);
    script.assert_cut(41, 15, reached);
    script.make(Call::Withdraw { timestamp: 40 }, reached);
    script.assert_cut(41, 15, reached);
    script.assert_cut(40, DONE, reached);
    script.assert_named(5, 5);
    script.assert_drains(&[(40, Turned::Cleared)], reached);
    script.assert_cut(41, DONE, reached);
    assert_eq!(script.both.tables().held_count(), 0);
    script.assert_drains(&[], reached);
}

/// Timestamps at the ends: a cutoff drops all but what is stamped 2^64 − 2.
#[test]
fn the_highest_cutoff_leaves_the_highest_timestamp() {
    let reached = &mut Reached::default();
    let mut script = Script::new(3);
    for timestamp in [INFINITY - 1, 1, INFINITY - 2] {
        script.take_in(timestamp, &set(NAMES, timestamp as i32), reached);
    }
    script.drain(vec![0; TOTALS], reached);
    script.assert_cut(0, 4, reached);
    script.assert_cut(INFINITY, 4, reached);
    script.assert_cut(1, DONE, reached);
    assert_eq!(script.both.tables().held_count(), 3);
    script.assert_cut(INFINITY - 1, DONE, reached);
    assert_eq!(script.both.tables().timestamps, [INFINITY - 1, 0, 0]);
    script.assert_named(-3, -2);
    for timestamp in [1, INFINITY - 2] {
        script.assert_cut(timestamp, 14, reached);
        assert_eq!(
            script.try_take_in(Version::Zero, timestamp, &[], reached),
            14
        );
    }
    script.assert_cut(INFINITY, 4, reached);
    script.assert_cut(INFINITY - 1, DONE, reached);
    script.assert_drains(&[], reached);
}

/// Takes in changes until the tables are full, in any order, and one more, which is refused. Each sets
/// one of 1,000 settings. Returns the timestamp of that one.
pub fn fill_up(random: &mut Random, script: &mut Script, reached: &mut Reached<ListEvent>) -> u64 {
    let tables = script.both.tables();
    let first = tables.timestamps.iter().max().map_or(1, |stamp| stamp + 1);
    let first = first.max(tables.cutoff());
    let end = first + (script.both.capacity() - tables.held_count()) as u64;
    let mut stamps: Vec<u64> = (first..end).collect();
    random.shuffle(&mut stamps);
    for stamps in stamps.chunks(256) {
        let entry = |&timestamp: &u64| {
            let program = set((timestamp % 1_000) as i32, timestamp as i32);
            Entry::Change {
                timestamp,
                version: Version::One,
                program: program.iter().flat_map(|i| i.to_bytes()).collect(),
            }
        };
        let package = lay_out(&stamps.iter().map(entry).collect::<Vec<_>>());
        let answers = packages::answers(random, ANSWERS);
        script.make(Call::TakeInPackage { package, answers }, reached);
    }
    assert_eq!(script.both.tables().held_count(), script.both.capacity());
    let answer = script.try_take_in(Version::Zero, end, &[], reached);
    assert_eq!(answer, 9);
    end
}

/// Half of them are dropped, and there is room for as many; then all.
#[test]
fn full_tables_are_filled_again_after_cutoffs() {
    let reached = with_seeds(|random, _| {
        let mut reached = Reached::default();
        let n = 300;
        let mut script = Script::new(n);
        let end = fill_up(random, &mut script, &mut reached);
        script.assert_cut(end, 15, &mut reached);
        script.drain_as_alone(generate::totals(random, TOTALS), &mut reached);
        script.assert_cut(1, DONE, &mut reached);
        assert_eq!(script.both.tables().held_count(), n);
        script.assert_cut(1 + n as u64 / 2, DONE, &mut reached);
        assert_eq!(script.both.tables().held_count(), n - n / 2);

        let end = fill_up(random, &mut script, &mut reached);
        script.drain_as_alone(generate::totals(random, TOTALS), &mut reached);
        script.assert_cut(end, DONE, &mut reached);
        assert_eq!(script.both.tables().held_count(), 0);
        let tables = script.both.tables();
        assert!(tables.kept == tables.view, "all that was written is kept");
        fill_up(random, &mut script, &mut reached);
        reached
    });
    reached.print();
    for event in [
        CutoffEvent::Refused(15),
        CutoffEvent::DropsNone,
        CutoffEvent::DropsSome,
        CutoffEvent::DropsAllOfFull,
    ] {
        reached.assert_at_least(1, ListEvent::Cutoff(event));
    }
}
