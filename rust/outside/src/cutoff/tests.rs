use super::*;
use crate::calls::{standing, value_as_of};
use crate::checker::{turn, Turned};
use crate::examples::{
    add, copy, four_changes, moved, set, tables, Change, Script, INVALID, NEW, VALID,
};
use crate::package::DONE;
use crate::start::settings_at_start;

/// Makes a cutoff on a copy of these tables, which must be refused and alter nothing.
#[track_caller]
fn refusal(n: usize, tables: &Tables, timestamp: u64) -> Refusal {
    let mut lent = tables.clone();
    let refusal = cutoff(n, &mut lent, timestamp).expect_err("it is refused");
    assert_eq!(lent, *tables);
    refusal
}

/// The tables after a cutoff, which must be answered done.
#[track_caller]
fn cut(n: usize, tables: &Tables, timestamp: u64) -> Tables {
    let mut left = tables.clone();
    assert_eq!(cutoff(n, &mut left, timestamp), Ok(()));
    left
}

/// A Valid change of version 1 that has read 60 and written these entries, with a program of one stop.
fn valid(timestamp: u64, writes: &[(u16, i32)]) -> Change {
    Change {
        timestamp,
        status: VALID,
        version: 1,
        program: vec![Default::default()],
        reads: vec![(60, 5)],
        writes: writes.to_vec(),
        ..Change::default()
    }
}

/// Five changes in tables of capacity 6, arrived as 40, 10, 50, 20, 30.
fn five() -> [Change; 5] {
    [
        valid(40, &[(34, 4), (36, 4)]),
        valid(10, &[(34, 1), (35, 1), (36, 1)]),
        valid(50, &[(34, 5)]),
        valid(20, &[(34, 2), (35, 2)]),
        valid(30, &[(34, 3)]),
    ]
}

fn five_changes() -> Tables {
    let mut tables = tables(6, &[1, 3, 4, 0, 2], &five());
    tables.view.fill(-7);
    tables
}

/// "Remaining changes close up in order of arrival", with all that their places have, and freed slots
/// are 0. The view is as it was, whatever it shows.
#[test]
fn changes_below_it_go_and_the_others_close_up_in_order_of_arrival() {
    let [forty, ten, fifty, twenty, thirty] = five();
    for (timestamp, order, remaining) in [
        (
            5,
            &[1, 3, 4, 0, 2][..],
            &[&forty, &ten, &fifty, &twenty, &thirty][..],
        ),
        (
            10,
            &[1, 3, 4, 0, 2],
            &[&forty, &ten, &fifty, &twenty, &thirty],
        ),
        (11, &[2, 3, 0, 1], &[&forty, &fifty, &twenty, &thirty]),
        (20, &[2, 3, 0, 1], &[&forty, &fifty, &twenty, &thirty]),
        (25, &[2, 0, 1], &[&forty, &fifty, &thirty]),
        (30, &[2, 0, 1], &[&forty, &fifty, &thirty]),
        (40, &[0, 1], &[&forty, &fifty]),
        (50, &[0], &[&fifty]),
        (51, &[], &[]),
        (u64::MAX - 1, &[], &[]),
    ] {
        let remaining: Vec<Change> = remaining.iter().copied().cloned().collect();
        let mut expected = tables(6, order, &remaining);
        expected.view.fill(-7);
        let left = cut(6, &five_changes(), timestamp);
        expected.kept.clone_from(&left.kept);
        expected.cutoff[0] = timestamp;
        assert_eq!(left, expected, "{timestamp}");
    }
}

/// "keeps each setting's value as of it": the highest write below it counts, whenever it arrived.
#[test]
fn each_settings_value_as_of_it_is_kept() {
    for (timestamp, kept) in [
        (10, &[][..]),
        (11, &[(34, 1), (35, 1), (36, 1)]),
        (20, &[(34, 1), (35, 1), (36, 1)]),
        (30, &[(34, 2), (35, 2), (36, 1)]),
        (40, &[(34, 3), (35, 2), (36, 1)]),
        (50, &[(34, 4), (35, 2), (36, 4)]),
        (51, &[(34, 5), (35, 2), (36, 4)]),
    ] {
        let before = five_changes();
        let left = cut(6, &before, timestamp);
        // 34 starts at 1.
        let expected = kept.iter().filter(|&&entry| entry != (34, 1));
        assert_eq!(moved(&left.kept), expected.copied().collect::<Vec<_>>());
        for setting in 0..SETTINGS {
            let value = value_as_of(6, &before, timestamp, setting);
            assert_eq!(value, Ok(left.kept[setting]));
            for later in [timestamp, timestamp + 1, u64::MAX] {
                let value = value_as_of(6, &before, later, setting);
                assert_eq!(value_as_of(6, &left, later, setting), value);
            }
        }
    }
}

/// Settings that none of the dropped changes writes keep what they kept.
#[test]
fn kept_values_begin_from_those_there_were() {
    let mut tables = five_changes();
    for (setting, kept) in tables.kept.iter_mut().enumerate() {
        *kept = 1_000 + setting as i32;
    }
    let mut expected = tables.kept.clone();
    let left = cut(6, &tables, 20);
    (expected[34], expected[35], expected[36]) = (1, 1, 1);
    assert_eq!(left.kept, expected);
    // Step by step is as at once.
    let left = cut(6, &left, 40);
    (expected[34], expected[35]) = (3, 2);
    assert_eq!(left.kept, expected);
    assert_eq!(left, cut(6, &tables, 40));
}

#[test]
fn the_same_cutoff_again_is_done_and_alters_nothing() {
    for timestamp in [1, 10, 25, 50, u64::MAX - 1] {
        let once = cut(6, &five_changes(), timestamp);
        assert_eq!(cut(6, &once, timestamp), once);
    }
    let empty = cut(1, &Tables::new(1), 7);
    assert_eq!(
        (empty.cutoff[0], empty.kept_settings()),
        (7, settings_at_start())
    );
    assert_eq!(cut(1, &empty, 7), empty);
}

/// "a new cutoff is a timestamp to refusal 4 too", and "a lower new cutoff included" (14).
#[test]
fn a_cutoff_is_refused_4_then_14_then_15() {
    let mut tables = four_changes();
    tables.cutoff[0] = 10;
    for timestamp in [0, u64::MAX] {
        assert_eq!(refusal(6, &tables, timestamp), Refusal::Timestamp);
    }
    for timestamp in [1, 9] {
        assert_eq!(refusal(6, &tables, timestamp), Refusal::Cutoff);
    }
    // 20 is New, and 40 is withdrawn and Invalid.
    for timestamp in [10, 11, 19, 20] {
        assert_eq!(cut(6, &tables, timestamp).cutoff, [timestamp]);
    }
    for timestamp in [21, 30, 40, 41, u64::MAX - 1] {
        assert_eq!(refusal(6, &tables, timestamp), Refusal::Unsettled);
    }
    tables.status[0] = 3;
    for timestamp in [0, 9, 10, 41] {
        assert_eq!(refusal(6, &tables, timestamp), Refusal::Form);
        assert_eq!(refusal(5, &tables, timestamp), Refusal::Length);
    }
}

/// "Refusal 15 [..] meets a cutoff with a New or Invalid change below it", withdrawn or not, whichever
/// of them it is.
#[test]
fn one_change_below_it_that_is_new_or_invalid_is_15() {
    for place in 0..5 {
        for (status, withdrawn) in [(NEW, 0), (NEW, 1), (INVALID, 0), (INVALID, 1), (VALID, 1)] {
            let mut changes = five();
            changes[place].status = status;
            changes[place].withdrawn = withdrawn;
            if status == NEW {
                (changes[place].reads, changes[place].writes) = Default::default();
            }
            let stamp = changes[place].timestamp;
            let tables = tables(6, &[1, 3, 4, 0, 2], &changes);
            for timestamp in [5, 10, 20, 30, 40, 50, 60] {
                match stamp < timestamp && status != VALID {
                    true => assert_eq!(refusal(6, &tables, timestamp), Refusal::Unsettled),
                    false => assert_eq!(cut(6, &tables, timestamp).cutoff, [timestamp]),
                }
            }
        }
    }
}

/// Where its writes are still there, they count: its turn has been, whatever it left.
#[test]
fn a_valid_withdrawn_change_with_writes_is_kept_by_its_write_list() {
    let mut changes = five();
    changes[3].withdrawn = 1;
    let left = cut(6, &tables(6, &[1, 3, 4, 0, 2], &changes), 30);
    assert_eq!(moved(&left.kept), [(34, 2), (35, 2), (36, 1)]);
}

#[test]
fn a_withdrawn_change_that_was_cleared_leaves_nothing() {
    let mut script = Script::new(2);
    script.take_in(10, &set(34, 7));
    script.take_in(20, &set(34, 9));
    script.drain();
    script.withdraw(20);
    assert_eq!(script.try_cutoff(30), 15);
    assert_eq!(script.drain(), [(20, Turned::Cleared)]);
    script.cutoff(30);
    assert_eq!(script.kept(), [(34, 7)]);
    assert_eq!(script.tables.held_count(), 0);
    assert_eq!(script.view(), [(34, 7)]);
}

/// "Cabinets fill up." All N places take changes again.
#[test]
fn freed_places_take_new_changes() {
    let mut script = Script::new(4);
    for round in 0..5 {
        let first = 10 * round + 1;
        // By falling timestamp, so that the places are not in order.
        for timestamp in (first..first + 4).rev() {
            script.take_in(timestamp, &add(34, 1));
        }
        assert_eq!(script.try_take_in(first + 4, 0, &[]), 9);
        assert_eq!(script.drain().len(), 4);
        assert_eq!(script.view(), [(34, 1 + 4 * (round as i32 + 1))]);
        script.cutoff(first + 4);
        assert_eq!(script.tables.held_count(), 0);
    }
    // Two of four go, and two come.
    for timestamp in [104, 101, 103, 102] {
        script.take_in(timestamp, &copy(34, 50));
    }
    script.drain();
    script.cutoff(103);
    assert_eq!(script.tables.timestamps, [104, 103, 0, 0]);
    assert_eq!(script.tables.order, [1, 0, 0, 0]);
    script.take_in(110, &set(34, 0));
    script.take_in(103 + 256, &copy(50, 51));
    assert_eq!(script.tables.timestamps, [104, 103, 110, 359]);
    assert_eq!(script.try_take_in(111, 0, &[]), 9);
    script.drain();
}

/// A newly arriving change "can have timestamp as small as T_0" (source document 004).
#[test]
fn a_late_change_at_the_cutoff_reads_the_kept_values() {
    let mut script = Script::new(3);
    script.take_in(10, &set(34, 7));
    script.take_in(30, &copy(34, 50));
    script.drain();
    script.cutoff(20);
    assert_eq!(script.try_take_in(19, 0, &add(34, 1)), 14);
    assert_eq!(script.try_withdraw(10), 14);
    assert_eq!(standing(3, &script.tables, 10), Err(Refusal::Cutoff));
    script.take_in(20, &add(34, 1));
    assert_eq!(script.drain(), [(20, Turned::Ran), (30, Turned::Ran)]);
    assert_eq!(script.reads(20), [(34, 7)]);
    assert_eq!(script.view(), [(34, 8), (50, 8)]);
    // Gone again, it leaves the kept value.
    script.withdraw(20);
    assert_eq!(script.drain(), [(20, Turned::Cleared), (30, Turned::Ran)]);
    assert_eq!(script.view(), [(34, 7), (50, 7)]);
    // One that sets what is kept marks nobody.
    script.take_in(25, &set(34, 7));
    assert_eq!(script.drain(), [(25, Turned::Ran)]);
}

/// Changes above the cutoff may wait for their turns.
#[test]
fn waiting_changes_above_it_wait_on() {
    let mut script = Script::new(4);
    script.take_in(10, &set(34, 7));
    script.take_in(30, &copy(34, 50));
    script.drain();
    script.take_in(20, &set(34, 9));
    script.take_in(40, &copy(50, 51));
    assert_eq!(script.try_cutoff(21), 15);
    script.cutoff(20);
    assert_eq!(script.tables.status, [VALID, NEW, NEW, 0]);
    assert_eq!(script.kept(), [(34, 7)]);
    let mut turned = script.tables.clone();
    let first = turn(4, &mut turned).expect("the tables are in form");
    assert_eq!(first.map(|turn| turn.timestamp), Some(20));
    let turns = [20, 30, 40].map(|timestamp| (timestamp, Turned::Ran));
    assert_eq!(script.drain(), turns);
    assert_eq!(script.view(), [(34, 9), (50, 9), (51, 9)]);
    assert_eq!(script.try_cutoff(50), DONE);
    assert_eq!(script.kept(), script.view());
}
