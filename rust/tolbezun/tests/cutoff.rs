//! The cutoff and the kept values: document 02, R-7.

mod programs;

use programs::{copy, set};
use tolbezun::calls;
use tolbezun::Version::{One, Zero};
use tolbezun::{
    start_values, Cabinet, Refusal, Standing, Status, Tables, Taken, Totals, Turned, MAX_CAPACITY,
    SETTINGS,
};

/// Takes in a change of version 0.
#[track_caller]
fn take_in(cabinet: &mut Cabinet, timestamp: u64, program: &[u8]) {
    assert_eq!(cabinet.take_in(timestamp, Zero, program), Ok(Taken::Done));
}

/// A cabinet just set up that has taken in these changes, of version 0.
#[track_caller]
fn holding(capacity: usize, changes: &[(u64, Vec<u8>)]) -> Cabinet {
    let mut cabinet = Cabinet::new(capacity).unwrap();
    for (timestamp, program) in changes {
        take_in(&mut cabinet, *timestamp, program);
    }
    cabinet
}

/// Drains, and returns the sums of the totals.
#[track_caller]
fn drain(cabinet: &mut Cabinet) -> Totals {
    cabinet.drain().map(|totals| totals.sum()).unwrap()
}

/// Makes these turns, and finds no more, by single calls; a drain leaves the same, and so does a plain
/// run.
#[track_caller]
fn assert_turns(cabinet: &mut Cabinet, turns: &[Turned]) {
    let mut drained = cabinet.clone();
    for &turned in turns {
        assert_eq!(cabinet.turn(), Ok(turned));
    }
    assert_eq!(cabinet.turn(), Ok(Turned::Idle));
    let totals = drain(&mut drained);
    let Totals {
        ran,
        stood,
        cleared,
        faulted,
    } = totals;
    let all = ran + stood + cleared + faulted;
    assert_eq!(all, turns.len() as u64, "{totals}");
    assert_eq!(drained, *cabinet);
    assert_eq!(cabinet.plain_run(), Ok(cabinet.tables().view.clone()));
}

/// The start values, but these.
fn values(others: &[(usize, i32)]) -> Vec<i32> {
    let mut values = start_values().to_vec();
    for &(setting, value) in others {
        values[setting] = value;
    }
    values
}

/// The slots of these places, so many a place, and 0 in all behind them.
fn closed_up<T: Copy + Default>(table: &[T], slots: usize, places: &[usize]) -> Vec<T> {
    let stay = places
        .iter()
        .flat_map(|place| &table[slots * place..][..slots]);
    let mut left: Vec<T> = stay.copied().collect();
    left.resize(table.len(), T::default());
    left
}

/// "a cutoff drops every change stamped below it"; "Remaining changes close up in order of arrival".
/// Those that remain may have any status, flag, version and lists.
#[test]
fn changes_below_the_cutoff_are_dropped_and_the_others_close_up() {
    let mut cabinet = Cabinet::new(9).unwrap();
    take_in(&mut cabinet, 60, &copy(34, 51));
    take_in(&mut cabinet, 10, &set(34, 7));
    take_in(&mut cabinet, 40, &[set(40, 3), set(40, 4)].concat());
    let two_writes = [copy(34, 50), set(40, 9), set(40, 8)].concat();
    assert_eq!(cabinet.take_in(30, One, &two_writes), Ok(Taken::Done));
    take_in(&mut cabinet, 20, &copy(34, 52));
    take_in(&mut cabinet, 50, &set(36, -5));
    assert_eq!(drain(&mut cabinet).ran, 5);
    take_in(&mut cabinet, 31, &set(34, 8));
    assert_eq!(cabinet.turn(), Ok(Turned::Ran(31)));
    take_in(&mut cabinet, 45, &copy(34, 53));
    assert_eq!(cabinet.withdraw(45), Ok(()));
    assert_eq!(cabinet.withdraw(50), Ok(()));
    let before = cabinet.tables().clone();
    assert_eq!(before.status, [2, 1, 1, 1, 1, 2, 1, 0, 0]);

    // 30 is not below it, and stays.
    assert_eq!(cabinet.cutoff(30), Ok(()));
    // 60, 40, 30, 50, 31 and 45.
    let places = [0, 2, 3, 5, 6, 7];
    let numbers = |table: &[u16]| closed_up(table, 1, &places);
    let expected = Tables {
        held: vec![6],
        timestamps: vec![60, 40, 30, 50, 31, 45, 0, 0, 0],
        order: vec![2, 4, 1, 5, 3, 0, 0, 0, 0],
        status: vec![2, 1, 1, 2, 1, 0, 0, 0, 0],
        withdrawn: vec![0, 0, 0, 1, 0, 1, 0, 0, 0],
        length: vec![2, 4, 6, 2, 2, 2, 0, 0, 0],
        programs: closed_up(&before.programs, 256, &places),
        read_count: numbers(&before.read_count),
        write_count: numbers(&before.write_count),
        read_settings: closed_up(&before.read_settings, 32, &places),
        seen_values: closed_up(&before.seen_values, 32, &places),
        write_settings: closed_up(&before.write_settings, 32, &places),
        written_values: closed_up(&before.written_values, 32, &places),
        view: before.view.clone(),
        version: vec![0, 0, 1, 0, 0, 0, 0, 0, 0],
        cutoff: vec![30],
        kept: values(&[(34, 7), (52, 7)]),
    };
    assert_eq!(*cabinet.tables(), expected);

    // What was waiting waits for its turn as before.
    let turns = [Turned::Cleared(45), Turned::Cleared(50), Turned::Ran(60)];
    assert_turns(&mut cabinet, &turns);
    let left = values(&[(34, 8), (50, 7), (40, 8), (51, 8), (52, 7)]);
    assert_eq!(cabinet.tables().view, left);
}

/// The later a change arrives, the lower is its timestamp, among those of even index and among the
/// others. No change is dropped, then every other one that arrived, then those that arrived last, then
/// all.
#[test]
fn places_are_numbered_anew_at_the_highest_capacity() {
    let most = MAX_CAPACITY as u64;
    let mut cabinet = Cabinet::new(MAX_CAPACITY).unwrap();
    // The even ones are stamped from 2,048 down to 1, the others from 4,096 down to 2,049.
    let stamped = |index: u64| (most - index).div_ceil(2) + index % 2 * most / 2;
    let timestamps: Vec<u64> = (0..most).map(stamped).collect();
    for timestamps in timestamps.chunks(calls::ANSWERS) {
        let mut package = (timestamps.len() as u16).to_le_bytes().to_vec();
        for timestamp in timestamps {
            package.extend(timestamp.to_le_bytes());
            package.extend([0, 2, 0, 0]);
        }
        package.extend(timestamps.iter().flat_map(|&t| set(34, t as i32)));
        let answers = vec![Ok(Taken::Done); timestamps.len()];
        assert_eq!(cabinet.take_in_package(&package), Ok(answers));
    }
    assert_eq!(drain(&mut cabinet).ran, most);
    assert_eq!(cabinet.take_in(most + 1, Zero, &[]), Err(Refusal::Full));
    for (cutoff, held) in [
        (1, most),
        (most / 2 + 1, most / 2),
        (most * 3 / 4 + 1, most / 4),
        (most + 1, 0),
    ] {
        assert_eq!(cabinet.cutoff(cutoff), Ok(()));
        let tables = cabinet.tables();
        assert_eq!(tables.held, [held as u16]);
        let mut expected: Vec<u64> = timestamps.clone();
        expected.retain(|&timestamp| timestamp >= cutoff);
        let mut order: Vec<u16> = (0..held as u16).collect();
        order.sort_by_key(|&place| expected[usize::from(place)]);
        expected.resize(MAX_CAPACITY, 0);
        order.resize(MAX_CAPACITY, 0);
        assert_eq!(tables.timestamps, expected);
        assert_eq!(tables.order, order);
        let kept = match cutoff {
            1 => values(&[]),
            _ => values(&[(34, cutoff as i32 - 1)]),
        };
        assert_eq!(tables.kept, kept);
        assert_eq!(cabinet.current_value(34), Ok(most as i32));
    }
    let none_held = Tables {
        view: values(&[(34, most as i32)]),
        cutoff: vec![most + 1],
        kept: values(&[(34, most as i32)]),
        ..Tables::new(MAX_CAPACITY)
    };
    assert_eq!(*cabinet.tables(), none_held);
}

/// "keeps each setting's value as of it": not the current one, and nothing of what was withdrawn or
/// broke off.
#[test]
fn kept_values_are_the_values_as_of_the_cutoff() {
    let mut cabinet = holding(
        8,
        &[
            (10, [set(34, 7), set(0, 3)].concat()),
            (20, copy(34, 50)),
            (30, set(34, 9)),
            (40, set(2, 0)),
            (50, [set(41, 1), set(41, 1)].concat()),
            (60, set(0, 5)),
            (70, [set(34, 11), set(1_023, 1)].concat()),
        ],
    );
    assert_eq!(drain(&mut cabinet).faulted, 1);
    assert_eq!(cabinet.withdraw(60), Ok(()));
    assert_eq!(cabinet.turn(), Ok(Turned::Cleared(60)));
    let drained = cabinet.clone();
    for (cutoff, kept) in [
        (1, values(&[])),
        (10, values(&[])),
        (11, values(&[(34, 7), (0, 3)])),
        (20, values(&[(34, 7), (0, 3)])),
        (30, values(&[(34, 7), (0, 3), (50, 7)])),
        (40, values(&[(34, 9), (0, 3), (50, 7)])),
        (70, values(&[(34, 9), (0, 3), (50, 7), (2, 0)])),
        (71, values(&[(34, 11), (0, 3), (50, 7), (2, 0), (1_023, 1)])),
    ] {
        let as_of = |cabinet: &Cabinet| {
            let settings = 0..SETTINGS;
            let values = settings.map(|setting| cabinet.value_as_of(cutoff, setting));
            values.collect::<Result<Vec<i32>, _>>()
        };
        assert_eq!(as_of(&cabinet), Ok(kept.clone()), "{cutoff}");
        assert_eq!(cabinet.cutoff(cutoff), Ok(()));
        assert_eq!(cabinet.tables().kept, kept, "{cutoff}");
        assert_eq!(as_of(&cabinet), Ok(kept), "{cutoff}");
        // With no cutoff in between it is the same.
        let mut at_once = drained.clone();
        assert_eq!(at_once.cutoff(cutoff), Ok(()));
        assert_eq!(at_once, cabinet);
    }
    assert_eq!(cabinet.tables().held, [0]);
    assert_eq!(cabinet.plain_run(), Ok(cabinet.tables().view.clone()));
}

/// "Any other fresh run, the plain run and a value as of a time before any write then begin from the
/// kept values".
#[test]
fn what_comes_after_begins_from_the_kept_values() {
    let mut cabinet = holding(4, &[(10, set(34, 7)), (20, set(34, 8))]);
    assert_eq!(drain(&mut cabinet).ran, 2);
    assert_eq!(cabinet.cutoff(30), Ok(()));
    assert_eq!(cabinet.tables().held, [0]);
    assert_eq!(cabinet.value_as_of(30, 34), Ok(8));
    assert_eq!(cabinet.value_as_of(u64::MAX, 34), Ok(8));

    // A run reads the kept value. To write it is no change, to write the start value is one.
    take_in(&mut cabinet, 50, &copy(34, 50));
    assert_turns(&mut cabinet, &[Turned::Ran(50)]);
    assert_eq!(cabinet.current_value(50), Ok(8));
    take_in(&mut cabinet, 30, &set(34, 8));
    assert_turns(&mut cabinet, &[Turned::Ran(30)]);
    take_in(&mut cabinet, 40, &set(34, 1));
    assert_turns(&mut cabinet, &[Turned::Ran(40), Turned::Ran(50)]);
    assert_eq!(cabinet.tables().view, values(&[(34, 1), (50, 1)]));

    // With its writers withdrawn a setting goes back to its kept value.
    assert_eq!(cabinet.withdraw(30), Ok(()));
    assert_turns(&mut cabinet, &[Turned::Cleared(30)]);
    assert_eq!(cabinet.withdraw(40), Ok(()));
    assert_turns(&mut cabinet, &[Turned::Cleared(40), Turned::Ran(50)]);
    assert_eq!(cabinet.tables().view, values(&[(34, 8), (50, 8)]));

    // 45 marks 50, and once it is withdrawn what 50 saw holds.
    take_in(&mut cabinet, 45, &set(34, 5));
    assert_eq!(cabinet.turn(), Ok(Turned::Ran(45)));
    assert_eq!(cabinet.current_value(34), Ok(5));
    assert_eq!(cabinet.withdraw(45), Ok(()));
    assert_turns(&mut cabinet, &[Turned::Cleared(45), Turned::Stood(50)]);
    assert_eq!(cabinet.tables().view, values(&[(34, 8), (50, 8)]));
}

/// "Cabinets fill up"; "freed places take new changes."
#[test]
fn freed_places_take_new_changes() {
    let mut cabinet = holding(3, &[(30, set(36, 3)), (10, set(34, 7)), (20, copy(34, 50))]);
    assert_eq!(drain(&mut cabinet).ran, 3);
    assert_eq!(cabinet.take_in(40, Zero, &[]), Err(Refusal::Full));
    assert_eq!(cabinet.cutoff(21), Ok(()));
    assert_eq!(cabinet.take_in(40, One, &copy(50, 51)), Ok(Taken::Done));
    take_in(&mut cabinet, 21, &copy(36, 52));
    assert_eq!(cabinet.take_in(50, Zero, &[]), Err(Refusal::Full));
    assert_eq!(cabinet.tables().timestamps, [30, 40, 21]);
    assert_eq!(cabinet.tables().order, [2, 0, 1]);
    assert_eq!(cabinet.tables().version, [0, 1, 0]);
    assert_eq!(drain(&mut cabinet).ran, 2);
    let left = values(&[(34, 7), (36, 3), (50, 7), (51, 7)]);
    assert_eq!(cabinet.tables().view, left);

    // A package has the changes that are held.
    let mut contents = vec![3, 0];
    for (timestamp, version) in [(21u64, 0), (30, 0), (40, 1)] {
        contents.extend(timestamp.to_le_bytes());
        contents.extend([0, 2, version, 0]);
    }
    let bodies = [copy(36, 52), set(36, 3), copy(50, 51)];
    let package = [contents, bodies.concat()].concat();
    assert_eq!(cabinet.package_out(), Ok(package));
}

/// "Refusal 14, just after 4, meets a timestamp below the cutoff in any call, a lower new cutoff
/// included; a new cutoff is a timestamp to refusal 4 too."
#[test]
fn a_timestamp_below_the_cutoff_is_refused_just_after_4() {
    let mut cabinet = holding(1, &[(20, set(34, 7))]);
    assert_eq!(drain(&mut cabinet).ran, 1);
    assert_eq!(cabinet.cutoff(20), Ok(()));
    // So that a cutoff above 20 would be refused 15.
    assert_eq!(cabinet.withdraw(20), Ok(()));
    let before = cabinet.clone();
    let in_form = before.tables();
    let mut out_of_form = in_form.clone();
    out_of_form.status[0] = 3;
    for (n, tables, timestamp, refusal) in [
        (2, in_form, 19, Refusal::Length),
        (1, &out_of_form, 19, Refusal::Form),
        (1, in_form, 0, Refusal::Timestamp),
        (1, in_form, u64::MAX, Refusal::Timestamp),
        (1, in_form, 1, Refusal::Cutoff),
        (1, in_form, 19, Refusal::Cutoff),
    ] {
        let mut left = tables.clone();
        // Of a length, a version and instructions that are refused after 14, or held by none.
        for (version, program) in [(2, &[0; 7][..]), (2, &[18; 8]), (0, &[18; 8]), (0, &[])] {
            let answer = calls::take_in(n, &mut left, timestamp, version, program);
            assert_eq!(answer, Err(refusal), "{timestamp} {version} {program:?}");
        }
        assert_eq!(calls::withdraw(n, &mut left, timestamp), Err(refusal));
        assert_eq!(calls::cutoff(n, &mut left, timestamp), Err(refusal));
        assert_eq!(calls::standing(n, &left, timestamp), Err(refusal));
        if timestamp != u64::MAX {
            for setting in [34, SETTINGS] {
                let answer = calls::value_as_of(n, &left, timestamp, setting);
                assert_eq!(answer, Err(refusal), "{timestamp} {setting}");
            }
        }
        assert_eq!(left, *tables);
    }

    // The cutoff is not below itself.
    let standing = Standing {
        status: Status::Invalid,
        withdrawn: true,
    };
    assert_eq!(cabinet.standing(20), Ok(standing));
    assert_eq!(cabinet.withdraw(20), Err(Refusal::Withdrawn));
    assert_eq!(cabinet.value_as_of(20, 34), Ok(1));
    assert_eq!(cabinet.value_as_of(20, SETTINGS), Err(Refusal::Setting));
    assert_eq!(cabinet.take_in(20, Zero, &[]), Err(Refusal::OtherProgram));
    assert_eq!(cabinet.cutoff(20), Ok(()));
    assert_eq!(cabinet.cutoff(21), Err(Refusal::Unsettled));
    assert_eq!(cabinet, before);
}

/// Each entry of a package is refused 14 as its call would be, and the others are carried out.
#[test]
fn entries_of_a_package_may_be_below_the_cutoff() {
    let mut cabinet = Cabinet::new(2).unwrap();
    assert_eq!(cabinet.cutoff(20), Ok(()));
    let mut package = vec![6, 0];
    for (timestamp, kind) in [(19u64, 0), (20, 0), (19, 1), (20, 1), (0, 0), (1, 1)] {
        package.extend(timestamp.to_le_bytes());
        package.extend([kind, 0, 0, 0]);
    }
    let answers = vec![
        Err(Refusal::Cutoff),
        Ok(Taken::Done),
        Err(Refusal::Cutoff),
        Ok(Taken::Done),
        Err(Refusal::Timestamp),
        Err(Refusal::Cutoff),
    ];
    assert_eq!(cabinet.take_in_package(&package), Ok(answers));
    assert_eq!(cabinet.tables().timestamps, [20, 0]);
    assert_eq!(cabinet.tables().withdrawn, [1, 0]);
}

/// "Refusal 15, after 11, meets a cutoff with a New or Invalid change below it."
#[test]
fn changes_below_a_new_cutoff_have_had_their_turns() {
    let mut cabinet = holding(3, &[(30, copy(34, 50)), (10, set(34, 7))]);
    let refused = |cabinet: &Cabinet, cutoff| {
        let mut left = cabinet.clone();
        assert_eq!(left.cutoff(cutoff), Err(Refusal::Unsettled), "{cutoff}");
        assert_eq!(left, *cabinet);
    };
    // Both are New; then 30 is, and then it is Invalid; then 10 is, which is withdrawn.
    refused(&cabinet, 11);
    refused(&cabinet, u64::MAX - 1);
    assert_eq!(cabinet.clone().cutoff(10), Ok(()));
    assert_eq!(cabinet.turn(), Ok(Turned::Ran(10)));
    refused(&cabinet, 31);
    assert_eq!(cabinet.clone().cutoff(30), Ok(()));
    assert_eq!(cabinet.turn(), Ok(Turned::Ran(30)));
    take_in(&mut cabinet, 20, &set(34, 8));
    refused(&cabinet, 21);
    assert_eq!(cabinet.turn(), Ok(Turned::Ran(20)));
    refused(&cabinet, 31);
    assert_eq!(cabinet.turn(), Ok(Turned::Ran(30)));
    assert_eq!(cabinet.clone().cutoff(31), Ok(()));
    assert_eq!(cabinet.withdraw(10), Ok(()));
    refused(&cabinet, 11);
    refused(&cabinet, 31);
    assert_eq!(cabinet.turn(), Ok(Turned::Cleared(10)));
    assert_eq!(cabinet.cutoff(31), Ok(()));
    assert_eq!(cabinet.tables().kept, values(&[(34, 8), (50, 8)]));
}

/// The same cutoff again is answered done and alters nothing, whatever waits above it.
#[test]
fn the_same_cutoff_again_alters_nothing() {
    let mut cabinet = holding(3, &[(10, set(34, 7)), (20, copy(34, 50)), (30, set(36, 1))]);
    assert_eq!(drain(&mut cabinet).ran, 3);
    assert_eq!(cabinet.cutoff(20), Ok(()));
    assert_eq!(cabinet.withdraw(20), Ok(()));
    take_in(&mut cabinet, 25, &set(34, 8));
    let before = cabinet.clone();
    assert_eq!(cabinet.cutoff(20), Ok(()));
    assert_eq!(cabinet, before);
}

/// A new cutoff is 1 to 2^64 − 2.
#[test]
fn the_lowest_and_the_highest_cutoff() {
    let mut cabinet = holding(2, &[(1, set(34, 7)), (u64::MAX - 1, set(34, 8))]);
    assert_eq!(cabinet.cutoff(1), Ok(()));
    assert_eq!(drain(&mut cabinet).ran, 2);
    assert_eq!(cabinet.cutoff(u64::MAX - 1), Ok(()));
    assert_eq!(cabinet.tables().timestamps, [u64::MAX - 1, 0]);
    assert_eq!(cabinet.tables().kept, values(&[(34, 7)]));
    assert_eq!(cabinet.value_as_of(u64::MAX - 1, 34), Ok(7));
    assert_eq!(cabinet.value_as_of(u64::MAX, 34), Ok(8));
    let refused = cabinet.take_in(u64::MAX - 2, Zero, &[]);
    assert_eq!(refused, Err(Refusal::Cutoff));
    assert_eq!(cabinet.cutoff(u64::MAX), Err(Refusal::Timestamp));
    assert_eq!(cabinet.cutoff(0), Err(Refusal::Timestamp));
    assert_eq!(cabinet.withdraw(u64::MAX - 1), Ok(()));
    assert_eq!(cabinet.turn(), Ok(Turned::Cleared(u64::MAX - 1)));
    assert_eq!(cabinet.current_value(34), Ok(7));
    assert_eq!(cabinet.set_up(), Ok(()));
    assert_eq!(cabinet, Cabinet::new(2).unwrap());
}

/// "In form, the cutoff is at most 2^64 − 2 and no held timestamp lies below it." Kept values may be any.
#[test]
fn the_form_and_the_lengths_of_both_tables() {
    let cabinet = holding(2, &[(20, copy(34, 50)), (10, set(36, 7))]);
    let with = |cutoff, kept| Tables {
        cutoff,
        kept,
        ..cabinet.tables().clone()
    };
    let none_held = |cutoff| Tables {
        cutoff,
        ..Tables::new(2)
    };
    let kept = || values(&[]);
    for (tables, refusal) in [
        (with(vec![11], kept()), Refusal::Form),
        (with(vec![20], kept()), Refusal::Form),
        (with(vec![u64::MAX - 1], kept()), Refusal::Form),
        (with(vec![u64::MAX], kept()), Refusal::Form),
        (none_held(vec![u64::MAX]), Refusal::Form),
        (with(vec![], kept()), Refusal::Length),
        (with(vec![0; 2], kept()), Refusal::Length),
        (with(vec![0], vec![0; SETTINGS - 1]), Refusal::Length),
        (with(vec![0], vec![0; SETTINGS + 1]), Refusal::Length),
    ] {
        let before = Cabinet::with_tables(2, tables);
        let mut broken = before.clone();
        assert_eq!(broken.take_in(30, Zero, &[]), Err(refusal));
        assert_eq!(broken.withdraw(20), Err(refusal));
        assert_eq!(broken.take_in_package(&[0, 0]), Err(refusal));
        assert_eq!(broken.turn(), Err(refusal));
        assert_eq!(broken.drain(), Err(refusal));
        assert_eq!(broken.cutoff(20), Err(refusal));
        assert_eq!(broken.current_value(34), Err(refusal));
        assert_eq!(broken.value_as_of(20, 34), Err(refusal));
        assert_eq!(broken.standing(20), Err(refusal));
        assert_eq!(broken.plain_run(), Err(refusal));
        assert_eq!(broken.package_out(), Err(refusal));
        assert_eq!(broken, before);
        match refusal {
            Refusal::Length => assert_eq!(broken.set_up(), Err(refusal)),
            _ => {
                assert_eq!(broken.set_up(), Ok(()));
                assert_eq!(broken, Cabinet::new(2).unwrap());
            }
        }
    }
    let mut highest = Cabinet::with_tables(2, none_held(vec![u64::MAX - 1]));
    assert_eq!(highest.turn(), Ok(Turned::Idle));

    // Whatever they are, runs and values begin from them.
    let kept = values(&[(34, i32::MIN), (35, i32::MAX)]);
    let mut cabinet = Cabinet::with_tables(2, with(vec![10], kept));
    assert_eq!(drain(&mut cabinet).ran, 2);
    assert_eq!(cabinet.current_value(50), Ok(i32::MIN));
    assert_eq!(cabinet.value_as_of(10, 35), Ok(i32::MAX));
    let left = values(&[(34, i32::MIN), (35, i32::MAX), (36, 7), (50, i32::MIN)]);
    assert_eq!(cabinet.plain_run(), Ok(left));
}
