use super::*;
use crate::calls::Refusal;
use crate::checker::{drain, turn};
use crate::examples::{add, copy, not_zero, package, set, set_version, write_named_by, Script};
use crate::package::ALREADY_HELD;
use crate::program::Instruction;

/// 30 copies 34 to 50, drained; 10 sets 34 to 7 and 20 sets 40 to 1 and is withdrawn, drained.
fn drained() -> Script {
    let mut script = Script::new(4);
    script.take_in(30, &copy(34, 50));
    script.drain();
    script.take_in(10, &set(34, 7));
    script.take_in(20, &set(40, 1));
    script.withdraw(20);
    script.drain();
    script
}

/// The totals and the turns of a call, which must be an answered drain.
fn drain_of(call: &mut Call) -> (&mut Vec<u16>, &mut Vec<LoggedTurn>) {
    match call {
        Call::Drain(Some((totals, turns))) => (totals, turns),
        _ => panic!("{call:?}"),
    }
}

/// Lets the totals of a call, which must be an answered drain, be those of its turns.
fn count_again(call: &mut Call) {
    let (totals, turns) = drain_of(call);
    totals.fill(0);
    for logged in turns {
        totals[logged.turn.total_place()] += 1;
    }
}

#[test]
fn a_list_of_calls_meets_demand_3() {
    let mut script = Script::new(4);
    script.drain();
    assert_eq!(script.check(), Ok(()));
    assert_eq!(drained().check(), Ok(()));
}

#[test]
fn refused_and_held_calls_leave_the_book() {
    let mut script = drained();
    assert_eq!(script.try_take_in(30, 0, &copy(34, 50)), ALREADY_HELD);
    assert_eq!(script.try_take_in(30, 0, &copy(34, 51)), 8);
    assert_eq!(script.try_take_in(30, 1, &copy(34, 50)), 8);
    assert_eq!(script.try_take_in(30, 2, &copy(34, 50)), 13);
    assert_eq!(script.try_take_in(31, 2, &copy(34, 50)), 13);
    assert_eq!(script.try_take_in(0, 0, &[]), 4);
    assert_eq!(script.try_withdraw(20), 11);
    assert_eq!(script.try_withdraw(21), 10);
    assert_eq!(script.take_in_package(vec![0]), 3);
    assert_eq!(script.turn(), None);
    let refused = drain(4, &mut script.tables, &mut [0; 4]);
    assert_eq!(refused, Err(Refusal::Length));
    script.calls.push(Call::Drain(None));
    assert_eq!(script.drain(), []);
}

#[test]
fn entries_of_a_package_count_as_calls() {
    let mut script = Script::new(4);
    script.take_in_package(package(&[
        (9, 1, &[]),
        (9, 0, &set(34, 5)),
        (8, 0, &set(34, 6)),
        (9, 1, &[]),
        (9, 0, &set(34, 7)),
    ]));
    script.drain();
    assert_eq!(script.tables.view[34], 6);
    // An answer that the withdrawal did not have.
    let Call::TakeInPackage { answers, .. } = &mut script.calls[0] else {
        panic!("the first call is a package");
    };
    answers[3] = 11;
    assert_eq!(script.check(), Err(Breach::Writes(9)));
}

/// The version that a call took a change in with.
fn version_of(call: &mut Call) -> &mut u16 {
    match call {
        Call::TakeIn { version, .. } => version,
        _ => panic!("{call:?}"),
    }
}

/// "The drained state is that of running each change by its own version." (document 02, R-6)
#[test]
fn the_fresh_run_is_by_the_versions_of_the_calls() {
    let program = [add(34, 1), copy(34, 50)].concat();
    let mut script = Script::new(4);
    script.take_in(10, &program);
    script.take_in_1(20, &program);
    script.take_in_1(30, &[set(40, 5), set(40, 6)].concat());
    script.drain();
    assert_eq!(script.view(), [(34, 2), (40, 6), (50, 2)]);
    // The other version: 10 does not fault, 20 and 30 do.
    for (index, timestamp) in [10, 20, 30].into_iter().enumerate() {
        let version = version_of(&mut script.calls[index]);
        let right = *version;
        *version = 1 - right;
        assert_eq!(script.check(), Err(Breach::Writes(timestamp)));
        *version_of(&mut script.calls[index]) = right;
        assert_eq!(script.check(), Ok(()));
    }
}

#[test]
fn entries_of_a_package_count_with_their_versions() {
    let program = [set(40, 5), set(40, 6)].concat();
    let mut bytes = package(&[(9, 0, &program), (8, 0, &program), (9, 0, &program)]);
    set_version(&mut bytes, 0, 1);
    let mut script = Script::new(4);
    assert_eq!(script.take_in_package(bytes), DONE);
    let faulted = Turned::Faulted(3);
    assert_eq!(script.drain(), [(8, faulted), (9, Turned::Ran)]);
    assert_eq!(script.view(), [(40, 6)]);
    for (entry, version, breach) in [
        (0, 0, Err(Breach::Writes(9))),
        (1, 1, Err(Breach::Writes(8))),
        // It was answered 8.
        (2, 1, Ok(())),
    ] {
        let mut script = script.clone();
        let Call::TakeInPackage { package, .. } = &mut script.calls[0] else {
            panic!("the first call is a package");
        };
        set_version(package, entry, version);
        assert_eq!(script.check(), breach);
    }
}

/// There is none to run a change by, so the book lacks it.
#[test]
fn a_version_above_1_is_not_answered_done() {
    for version in [2, 256, u16::MAX] {
        let mut script = drained();
        *version_of(&mut script.calls[0]) = version;
        assert_eq!(script.check(), Err(Breach::Timestamps));
    }
}

/// Change 20 saw 7 in 34 before it wrote 8 there, which it read back.
#[test]
fn a_change_that_reads_back_is_not_run_again_in_vain() {
    let mut script = Script::new(4);
    script.take_in_1(20, &[add(34, 1), copy(34, 50)].concat());
    script.drain();
    script.take_in(10, &set(34, 7));
    script.drain();
    assert_eq!(script.reads(20), [(34, 7)]);
    for (seen, breach) in [(1, Ok(())), (8, Ok(())), (7, Err(Breach::RunInVain(20)))] {
        let (_, turns) = drain_of(&mut script.calls[1]);
        turns[0].reads[0].value = seen;
        assert_eq!(script.check(), breach);
    }
}

#[test]
fn the_last_call_is_an_answered_drain() {
    assert_eq!(Script::new(4).check(), Err(Breach::NotDrained));
    let mut script = drained();
    script.calls.push(Call::Drain(None));
    assert_eq!(script.check(), Err(Breach::NotDrained));
    script.turn();
    assert_eq!(script.check(), Err(Breach::NotDrained));
}

#[test]
fn the_tables_hold_the_books_timestamps() {
    let mut script = drained();
    script.take_in(40, &[]);
    script.calls.pop();
    assert_eq!(script.check(), Err(Breach::Timestamps));
    let mut script = drained();
    script.calls.remove(0);
    assert_eq!(script.check(), Err(Breach::Timestamps));
    let mut script = drained();
    script.tables.timestamps[2] = 25;
    assert_eq!(script.check(), Err(Breach::Timestamps));
}

#[test]
fn the_lists_are_those_of_the_fresh_run() {
    type Alter = fn(&mut Tables);
    let alterations: [(Alter, Breach); 6] = [
        (|tables| tables.seen[0] = 0, Breach::Reads(30)),
        (|tables| tables.sources[0] = 35, Breach::Reads(30)),
        (|tables| tables.reads[0] = 0, Breach::Reads(30)),
        (|tables| tables.written[0] = 0, Breach::Writes(30)),
        (|tables| tables.targets[0] = 51, Breach::Writes(30)),
        (|tables| tables.writes[2] = 1, Breach::Writes(20)),
    ];
    for (alter, breach) in alterations {
        let mut script = drained();
        alter(&mut script.tables);
        assert_eq!(script.check(), Err(breach));
    }
}

#[test]
fn the_view_is_that_of_the_fresh_run() {
    for setting in [0, 34, 40, 50, 1023] {
        let mut script = drained();
        script.tables.view[setting] += 1;
        assert_eq!(script.check(), Err(Breach::View(setting)));
    }
}

/// What is told of [`drained`] where the totals of its last drain are altered.
fn with_totals(alter: impl FnOnce(&mut Vec<u16>)) -> Result<(), Breach> {
    let mut script = drained();
    let (totals, _) = drain_of(&mut script.calls[5]);
    // 10 and 30 ran, and 20 was cleared.
    assert_eq!(not_zero(totals), [(40, 1), (82, 1), (120, 1)]);
    alter(totals);
    script.check()
}

#[test]
fn the_totals_are_those_of_the_turns() {
    assert_eq!(with_totals(|_| {}), Ok(()));
    let (ran, stood, cleared, faulted) = (0, 1, 2, 3);
    // One too many, wherever.
    for place in 0..TOTALS {
        let checked = with_totals(|totals| totals[place] += 1);
        assert_eq!(checked, Err(Breach::Sum(place % 4)), "{place}");
    }
    // A turn that is not counted.
    for (place, kind) in [(40, ran), (82, cleared), (120, ran)] {
        let checked = with_totals(|totals| totals[place] = 0);
        assert_eq!(checked, Err(Breach::Sum(kind)));
    }
    // Kinds exchanged.
    for (one, other, kind) in [
        (82, 81, stood),
        (82, 80, ran),
        (82, 83, cleared),
        (40, 43, ran),
    ] {
        let checked = with_totals(|totals| totals.swap(one, other));
        assert_eq!(checked, Err(Breach::Sum(kind)));
    }
    let checked = with_totals(|totals| totals[faulted] = u16::MAX);
    assert_eq!(checked, Err(Breach::Sum(faulted)));
}

/// Each kind has its sum here.
#[test]
fn a_turn_is_counted_for_its_console() {
    // The kinds of 10 and 20 exchanged.
    let checked = with_totals(|totals| {
        totals.swap(40, 42);
        totals.swap(80, 82);
    });
    assert_eq!(checked, Err(Breach::Total(40)));
    // The next console, and the one before.
    for (place, other, breach) in [(82, 86, 82), (82, 78, 78), (40, 36, 36), (120, 1020, 120)] {
        let checked = with_totals(|totals| totals.swap(place, other));
        assert_eq!(checked, Err(Breach::Total(breach)));
    }
    // All for one console.
    let checked = with_totals(|totals| (totals[40], totals[120]) = (2, 0));
    assert_eq!(checked, Err(Breach::Total(40)));
    // By the highest 8 bits of the timestamp.
    let checked = with_totals(|totals| {
        totals.fill(0);
        (totals[0], totals[2]) = (2, 1);
    });
    assert_eq!(checked, Err(Breach::Total(0)));
}

#[test]
fn what_the_lent_slice_held_does_not_count() {
    let mut script = drained();
    let (totals, _) = drain_of(&mut script.calls[1]);
    let held = totals.clone();
    assert_eq!(not_zero(&held), [(120, 1)]);
    let checked = with_totals(|totals| {
        for (total, held) in totals.iter_mut().zip(held) {
            *total += held;
        }
    });
    assert_eq!(checked, Err(Breach::Sum(0)));
    // Of a drain without turns, too.
    assert_eq!(script.drain(), []);
    let (totals, _) = drain_of(&mut script.calls[6]);
    assert_eq!(not_zero(totals), []);
    totals[1023] = 1;
    assert_eq!(script.check(), Err(Breach::Sum(3)));
}

#[test]
fn an_answered_drain_was_lent_1024_totals() {
    for length in [0, 4, 1023, 1025] {
        let checked = with_totals(|totals| totals.resize(length, 0));
        assert_eq!(checked, Err(Breach::Length));
    }
}

/// 10 and 266 are of the same console, 256 and 255 of the first and the last.
#[test]
fn turns_are_counted_by_the_lowest_8_bits() {
    let mut script = Script::new(8);
    for timestamp in [10, 266, 255, 256, 1 << 63, u64::MAX - 1] {
        script.take_in(timestamp, &set(34, 7));
    }
    script.take_in(522, &[set(34, 7), set(34, 7)].concat());
    script.withdraw(266);
    script.drain();
    let drain = script.calls.len() - 1;
    let (totals, _) = drain_of(&mut script.calls[drain]);
    let expected = [(0, 2), (40, 1), (42, 1), (43, 1), (1016, 1), (1020, 1)];
    assert_eq!(not_zero(totals), expected);
    totals.swap(0, 1020);
    assert_eq!(script.check(), Err(Breach::Total(0)));
}

#[test]
fn no_change_has_two_turns() {
    let mut script = drained();
    let (_, turns) = drain_of(&mut script.calls[5]);
    turns[2].turn.timestamp = 10;
    count_again(&mut script.calls[5]);
    assert_eq!(script.check(), Err(Breach::TwoTurns(10)));
}

#[test]
fn turns_are_of_changes_in_the_book() {
    let mut script = drained();
    let (_, turns) = drain_of(&mut script.calls[5]);
    turns[0].turn.timestamp = 11;
    count_again(&mut script.calls[5]);
    assert_eq!(script.check(), Err(Breach::NotBooked(11)));
}

/// Change 30 saw 1 in 34, which holds 7 before it in the fresh run.
#[test]
fn no_change_is_run_again_in_vain() {
    let mut script = drained();
    let (_, turns) = drain_of(&mut script.calls[1]);
    assert_eq!(turns[0].turn.timestamp, 30);
    turns[0].reads[0].value = 7;
    assert_eq!(script.check(), Err(Breach::RunInVain(30)));
    // A turn that did not run it is no earlier run.
    let (_, turns) = drain_of(&mut script.calls[1]);
    turns[0].turn.turned = Turned::Stood;
    count_again(&mut script.calls[1]);
    assert_eq!(script.check(), Ok(()));
}

/// A single turn counts as an earlier one, and of several the last.
#[test]
fn the_last_earlier_run_counts() {
    let mut script = Script::new(4);
    script.take_in(30, &copy(34, 50));
    script.turn();
    script.take_in(10, &set(34, 7));
    script.turn();
    assert_eq!(script.turn(), Some((30, Turned::Ran)));
    script.take_in(20, &set(34, 8));
    script.drain();
    let Call::Turn(Some(logged)) = &mut script.calls[4] else {
        panic!("the fifth call is a turn");
    };
    assert_eq!(logged.turn.timestamp, 30);
    logged.reads[0].value = 8;
    assert_eq!(script.check(), Err(Breach::RunInVain(30)));
}

/// 20 writes to the setting that 34 names, and faults at place 1 where there is none. 10, 15 and 17
/// set 34 to these values, each drained.
fn drained_thrice(values: [i32; 3]) -> Script {
    let mut script = Script::new(4);
    script.take_in(20, &write_named_by(34));
    for (timestamp, value) in [10, 15, 17].into_iter().zip(values) {
        script.take_in(timestamp, &set(34, value));
        assert_eq!(script.drain()[0], (timestamp, Turned::Ran));
    }
    script
}

/// The calls of [`drained_thrice`] that are drains.
const DRAINS: [usize; 3] = [2, 4, 6];

/// The turn of 20 in this drain.
fn turn_of_20(script: &mut Script, drain: usize) -> &mut LoggedTurn {
    let (_, turns) = drain_of(&mut script.calls[DRAINS[drain]]);
    assert_eq!(turns[1].turn.timestamp, 20);
    &mut turns[1]
}

/// Lets the turn of 20 in this drain have another answer, in the totals too.
fn let_20_answer(script: &mut Script, drain: usize, answer: Turned) {
    turn_of_20(script, drain).turn.turned = answer;
    count_again(&mut script.calls[DRAINS[drain]]);
}

#[test]
fn a_rerun_that_faults_is_not_in_vain_either() {
    let mut script = drained_thrice([50, 60, 1024]);
    assert_eq!(turn_of_20(&mut script, 1).turn.turned, Turned::Ran);
    let faulted = Turned::Faulted(1);
    assert_eq!(turn_of_20(&mut script, 2).turn.turned, faulted);
    turn_of_20(&mut script, 1).reads[0].value = 1024;
    assert_eq!(script.check(), Err(Breach::RunInVain(20)));
}

#[test]
fn a_turn_that_faulted_is_an_earlier_run() {
    let mut script = drained_thrice([50, -1, 60]);
    let faulted = Turned::Faulted(1);
    assert_eq!(turn_of_20(&mut script, 1).turn.turned, faulted);
    turn_of_20(&mut script, 1).reads[0].value = 60;
    assert_eq!(script.check(), Err(Breach::RunInVain(20)));
    // It comes after the one that saw what 20 sees now.
    let mut script = drained_thrice([50, -1, 50]);
    assert_eq!(script.check(), Ok(()));
    let_20_answer(&mut script, 1, Turned::Stood);
    assert_eq!(script.check(), Err(Breach::RunInVain(20)));
}

#[test]
fn a_fault_is_not_counted_as_ran() {
    let mut script = drained_thrice([50, 60, 1024]);
    let (totals, _) = drain_of(&mut script.calls[DRAINS[2]]);
    // 17 ran, and 20 faulted.
    assert_eq!(not_zero(totals), [(68, 1), (83, 1)]);
    totals.swap(80, 83);
    assert_eq!(script.check(), Err(Breach::Sum(0)));
}

#[test]
fn the_last_run_shows_the_fault_of_the_fresh_run_and_its_place() {
    let wrong = |values, answer| {
        let mut script = drained_thrice(values);
        let_20_answer(&mut script, 2, answer);
        script.check()
    };
    for answer in [Turned::Faulted(0), Turned::Faulted(2), Turned::Ran] {
        let checked = wrong([50, 60, 1024], answer);
        assert_eq!(checked, Err(Breach::FaultsShown(20)), "{answer:?}");
    }
    for place in [0, 1] {
        let checked = wrong([-1, 1024, 60], Turned::Faulted(place));
        assert_eq!(checked, Err(Breach::FaultsShown(20)));
    }
}

/// The last drain has no turns here.
#[test]
fn the_last_run_may_be_an_earlier_drains_or_a_single_turn() {
    let mut script = Script::new(4);
    script.take_in(10, &set(34, 1024));
    script.take_in(20, &write_named_by(34));
    script.take_in(30, &write_named_by(34));
    script.turn();
    assert_eq!(script.turn(), Some((20, Turned::Faulted(1))));
    assert_eq!(script.drain(), [(30, Turned::Faulted(1))]);
    assert_eq!(script.drain(), []);
    let (_, turns) = drain_of(&mut script.calls[5]);
    turns[0].turn.turned = Turned::Faulted(0);
    assert_eq!(script.check(), Err(Breach::FaultsShown(30)));
    let Call::Turn(Some(logged)) = &mut script.calls[4] else {
        panic!("the fifth call is a turn");
    };
    logged.turn.turned = Turned::Ran;
    assert_eq!(script.check(), Err(Breach::FaultsShown(20)));
}

/// Nothing is claimed of a run that another one follows, or of a change that was withdrawn since.
#[test]
fn an_earlier_answer_need_not_be_the_fresh_runs() {
    let mut script = drained_thrice([50, 60, 1024]);
    let_20_answer(&mut script, 1, Turned::Faulted(31));
    assert_eq!(script.check(), Ok(()));
    let_20_answer(&mut script, 2, Turned::Faulted(31));
    assert_eq!(script.check(), Err(Breach::FaultsShown(20)));
    script.withdraw(20);
    assert_eq!(script.drain(), [(20, Turned::Cleared)]);
}

#[test]
fn every_change_that_is_not_withdrawn_has_been_run() {
    let mut script = drained_thrice([50, 60, 1024]);
    for drain in 0..DRAINS.len() {
        let_20_answer(&mut script, drain, Turned::Stood);
    }
    assert_eq!(script.check(), Err(Breach::FaultsShown(20)));
}

#[test]
fn turns_of_a_drain_end_after_one_too_many() {
    let script = drained();
    let turn = Turn {
        timestamp: 10,
        turned: Turned::Stood,
    };
    let turns = turns_of_drain(3, || Some(LoggedTurn::new(turn, &script.tables)));
    assert_eq!(turns.len(), 4);
    assert_eq!(turns_of_drain(3, || None), []);
}

// Document 02, R-7.

/// 10 sets 34 to 7 and 40 to 3, 20 sets 40 to 5 and is withdrawn, 30 copies 34 to 50, 40 adds 1 to 34;
/// drained, and cut off at 30.
fn cut_off() -> Script {
    let mut script = Script::new(4);
    script.take_in(40, &add(34, 1));
    script.take_in(10, &[set(34, 7), set(40, 3)].concat());
    script.take_in(30, &copy(34, 50));
    script.take_in(20, &set(40, 5));
    script.drain();
    script.withdraw(20);
    script.drain();
    script.cutoff(30);
    script
}

#[test]
fn a_list_with_cutoffs_meets_demand_3() {
    let mut script = cut_off();
    assert_eq!(script.kept(), [(34, 7), (40, 3)]);
    assert_eq!(script.drain(), []);
    // Freed places take new changes, which begin from the kept values.
    script.take_in(31, &copy(40, 60));
    script.take_in(35, &set(34, 9));
    assert_eq!(script.try_take_in(36, 0, &[]), 9);
    let turns = [31, 35, 40].map(|timestamp| (timestamp, Turned::Ran));
    assert_eq!(script.drain(), turns);
    assert_eq!(script.view(), [(34, 10), (40, 3), (50, 7), (60, 3)]);
    script.cutoff(36);
    assert_eq!(script.drain(), []);
    assert_eq!(script.kept(), [(34, 9), (40, 3), (50, 7), (60, 3)]);
}

#[test]
fn refused_cutoffs_leave_the_book() {
    let mut script = cut_off();
    script.take_in(50, &[]);
    for (timestamp, refusal) in [(0, 4), (u64::MAX, 4), (29, 14), (1, 14), (51, 15)] {
        assert_eq!(script.try_cutoff(timestamp), refusal);
    }
    script.drain();
    assert_eq!(script.tables.held_count(), 3);
    // As if one of them had been answered done.
    for index in 9..14 {
        let mut script = script.clone();
        let Call::Cutoff { answer, .. } = &mut script.calls[index] else {
            panic!("{:?}", script.calls[index]);
        };
        *answer = DONE;
        assert_eq!(script.check(), Err(Breach::Cutoff));
    }
}

#[test]
fn the_cutoff_is_that_of_the_last_one_answered_done() {
    let mut script = Script::new(4);
    script.drain();
    for wrong in [1, 30, u64::MAX - 1] {
        let mut script = script.clone();
        script.tables.cutoff[0] = wrong;
        assert_eq!(script.check(), Err(Breach::Cutoff));
    }
    let mut script = cut_off();
    script.drain();
    for wrong in [0, 10, 29, 31, 40] {
        let mut script = script.clone();
        script.tables.cutoff[0] = wrong;
        assert_eq!(script.check(), Err(Breach::Cutoff));
    }
}

#[test]
fn the_kept_values_are_those_of_the_dropped_changes_and_no_others() {
    let mut script = cut_off();
    script.drain();
    for setting in [0, 34, 40, 50, 1023] {
        let mut script = script.clone();
        script.tables.kept[setting] += 1;
        assert_eq!(script.check(), Err(Breach::Kept(setting)));
        assert_eq!(
            check_kept(&script.calls, &script.tables),
            Err(Breach::Kept(setting))
        );
    }
    // Those of the view, and what the withdrawn change had written.
    let mut of_view = script.clone();
    of_view.tables.kept.clone_from(&script.tables.view);
    assert_eq!(of_view.check(), Err(Breach::Kept(34)));
    script.tables.kept[40] = 5;
    assert_eq!(script.check(), Err(Breach::Kept(40)));
}

/// 10 sets 34; 20 reads it. One fresh run goes through both, though they were dropped one by one.
#[test]
fn the_kept_values_are_those_of_one_fresh_run_of_all_dropped_changes() {
    let mut script = Script::new(1);
    script.take_in(10, &set(34, 7));
    script.drain();
    script.cutoff(15);
    script.take_in(20, &add(34, 1));
    script.drain();
    script.cutoff(25);
    script.take_in(30, &copy(34, 50));
    script.drain();
    assert_eq!(script.kept(), [(34, 8)]);
    assert_eq!(script.reads(30), [(34, 8)]);
    // From the start values again.
    script.tables.kept[34] = 2;
    assert_eq!(script.check(), Err(Breach::Kept(34)));
}

#[test]
fn cutoff_and_kept_values_do_not_wait_for_a_drain() {
    let mut script = cut_off();
    script.take_in(31, &set(34, 9));
    assert_eq!(check_kept(&script.calls, &script.tables), Ok(()));
    script.tables.cutoff[0] = 0;
    let checked = check_kept(&script.calls, &script.tables);
    assert_eq!(checked, Err(Breach::Cutoff));
}

#[test]
fn a_dropped_change_is_no_longer_held() {
    let mut script = cut_off();
    script.drain();
    // As if the tables still held it.
    script.tables.held[0] = 3;
    script.tables.timestamps[2] = 10;
    assert_eq!(script.check(), Err(Breach::Timestamps));
    // As if they had dropped the one at the cutoff too.
    let mut script = cut_off();
    script.drain();
    script.tables.held[0] = 1;
    assert_eq!(script.check(), Err(Breach::Timestamps));
}

/// The fresh run of what is held begins from the kept values: 30 saw 7 in 34.
#[test]
fn lists_and_view_after_a_cutoff_are_those_from_the_kept_values() {
    let mut script = cut_off();
    script.drain();
    assert_eq!(script.reads(30), [(34, 7)]);
    let [thirty, forty] = [30, 40].map(|timestamp| script.tables.place_of(timestamp));
    let (thirty, forty) = (thirty.expect("it is held"), forty.expect("it is held"));
    type Alter = fn(&mut Tables, usize, usize);
    let alterations: [(Alter, Breach); 5] = [
        (
            |tables, thirty, _| tables.seen[32 * thirty] = 1,
            Breach::Reads(30),
        ),
        (
            |tables, thirty, _| tables.written[32 * thirty] = 1,
            Breach::Writes(30),
        ),
        (
            |tables, _, forty| tables.written[32 * forty] = 2,
            Breach::Writes(40),
        ),
        (|tables, _, _| tables.view[34] = 7, Breach::View(34)),
        (|tables, _, _| tables.view[40] = 0, Breach::View(40)),
    ];
    for (alter, breach) in alterations {
        let mut script = script.clone();
        alter(&mut script.tables, thirty, forty);
        assert_eq!(script.check(), Err(breach));
    }
}

/// Tables that hold a change below the cutoff, as if it had been taken in since: it would have run
/// before what was dropped.
#[test]
fn what_is_held_has_the_lists_that_it_has_where_nothing_is_dropped() {
    let late = |program: &[Instruction]| {
        let mut script = Script::new(4);
        script.take_in(20, &set(34, 5));
        script.drain();
        script.cutoff(30);
        script.tables.cutoff[0] = 0;
        script.take_in(10, program);
        turn(4, &mut script.tables).expect("the tables are in form");
        script.tables.cutoff[0] = 30;
        let ran = LoggedTurn::new(
            Turn {
                timestamp: 10,
                turned: Turned::Ran,
            },
            &script.tables,
        );
        script
            .calls
            .push(Call::Drain(Some((vec![0; TOTALS], vec![ran]))));
        count_again(script.calls.last_mut().expect("it is the last"));
        script.check()
    };
    assert_eq!(late(&copy(34, 50)), Err(Breach::Lost(10)));
    assert_eq!(late(&set(34, 7)), Err(Breach::LostView(34)));
    assert_eq!(late(&set(35, 7)), Ok(()));
}
