//! A cabinet's calls, their answers by name, and what people read.

mod programs;

use programs::{copy, set};
use tolbezun::calls::{self, PACKAGE_BYTES};
use tolbezun::Version::{One, Zero};
use tolbezun::{
    program, setting, start_values, Cabinet, Instruction, Refusal, Standing, Status, Tables, Taken,
    Totals, Turned, MAX_CAPACITY, SETTINGS,
};

#[test]
fn every_instruction_has_the_bytes_of_the_table() {
    let table = [
        (Instruction::Stop, [0, 0, 0, 0, 0, 0, 0, 0]),
        (
            Instruction::Constant { a: 7, n: -2 },
            [1, 7, 0, 0, 254, 255, 255, 255],
        ),
        (Instruction::Copy { a: 1, b: 2 }, [2, 1, 2, 0, 0, 0, 0, 0]),
        (
            Instruction::Add { a: 1, b: 2, c: 3 },
            [3, 1, 2, 3, 0, 0, 0, 0],
        ),
        (
            Instruction::Subtract { a: 1, b: 2, c: 3 },
            [4, 1, 2, 3, 0, 0, 0, 0],
        ),
        (Instruction::Negate { a: 1, b: 2 }, [5, 1, 2, 0, 0, 0, 0, 0]),
        (
            Instruction::ShiftRight { a: 1, b: 2, n: 31 },
            [6, 1, 2, 0, 31, 0, 0, 0],
        ),
        (
            Instruction::CountOnes { a: 1, b: 2 },
            [7, 1, 2, 0, 0, 0, 0, 0],
        ),
        (
            Instruction::And { a: 1, b: 2, c: 3 },
            [8, 1, 2, 3, 0, 0, 0, 0],
        ),
        (
            Instruction::Or { a: 1, b: 2, c: 3 },
            [9, 1, 2, 3, 0, 0, 0, 0],
        ),
        (
            Instruction::Xor { a: 1, b: 2, c: 3 },
            [10, 1, 2, 3, 0, 0, 0, 0],
        ),
        (
            Instruction::Read {
                a: 1,
                setting: 1023,
            },
            [11, 1, 0, 0, 255, 3, 0, 0],
        ),
        (
            Instruction::ReadIndexed { a: 1, b: 2 },
            [12, 1, 2, 0, 0, 0, 0, 0],
        ),
        (
            Instruction::Write {
                a: 1,
                setting: 1023,
            },
            [13, 1, 0, 0, 255, 3, 0, 0],
        ),
        (
            Instruction::WriteIndexed { a: 1, b: 2 },
            [14, 1, 2, 0, 0, 0, 0, 0],
        ),
        (
            Instruction::SkipIfNegative { b: 2, n: 2 },
            [15, 0, 2, 0, 2, 0, 0, 0],
        ),
        (
            Instruction::SkipIfZero { b: 2, n: 1 },
            [16, 0, 2, 0, 1, 0, 0, 0],
        ),
        (Instruction::Skip { n: 0 }, [17, 0, 0, 0, 0, 0, 0, 0]),
    ];
    for (instruction, bytes) in table {
        assert_eq!(instruction.to_bytes(), bytes, "{instruction:?}");
    }
    // The library accepts them all.
    let all = table.map(|(instruction, _)| instruction);
    let mut cabinet = Cabinet::new(2).unwrap();
    for (timestamp, version) in [(1, Zero), (2, One)] {
        let taken = cabinet.take_in(timestamp, version, &program(&all));
        assert_eq!(taken, Ok(Taken::Done));
    }
}

#[test]
fn capacities_other_than_1_to_4096_are_refused() {
    for capacity in [0, MAX_CAPACITY + 1, usize::MAX] {
        assert_eq!(Cabinet::new(capacity), Err(Refusal::Length));
    }
    for capacity in [1, MAX_CAPACITY] {
        let cabinet = Cabinet::new(capacity).unwrap();
        assert_eq!(cabinet.capacity(), capacity);
        let set_up = Tables {
            view: start_values().to_vec(),
            kept: start_values().to_vec(),
            ..Tables::new(capacity)
        };
        assert_eq!(*cabinet.tables(), set_up);
    }
}

#[test]
fn a_new_switch_has_untagged_vlan_1_and_all_else_at_0() {
    let values = start_values();
    for port in 0..64 {
        for field in 0..16 {
            let value = values[setting(port, field)];
            assert_eq!(value, i32::from(field == 2), "{port} {field}");
        }
    }
    for length in [0, 1_023, 1_025] {
        let mut settings = vec![7; length];
        let answer = calls::start_values(&mut settings);
        assert_eq!(answer, Err(Refusal::Length));
        assert_eq!(settings, vec![7; length]);
    }
}

#[test]
fn calls_answer_by_name() {
    let mut cabinet = Cabinet::new(3).unwrap();
    assert_eq!(cabinet.turn(), Ok(Turned::Idle));
    assert_eq!(cabinet.take_in(30, One, &copy(34, 50)), Ok(Taken::Done));
    assert_eq!(
        cabinet.take_in(30, One, &copy(34, 50)),
        Ok(Taken::AlreadyHeld)
    );
    assert_eq!(cabinet.turn(), Ok(Turned::Ran(30)));
    assert_eq!(cabinet.take_in(10, Zero, &set(34, 7)), Ok(Taken::Done));
    assert_eq!(cabinet.turn(), Ok(Turned::Ran(10)));
    let standing = |status, withdrawn| Ok(Standing { status, withdrawn });
    assert_eq!(cabinet.standing(30), standing(Status::Invalid, false));
    assert_eq!(cabinet.take_in(20, Zero, &set(34, 1)), Ok(Taken::Done));
    assert_eq!(cabinet.standing(20), standing(Status::New, false));
    assert_eq!(cabinet.turn(), Ok(Turned::Ran(20)));
    assert_eq!(cabinet.turn(), Ok(Turned::Stood(30)));
    assert_eq!(cabinet.withdraw(20), Ok(()));
    assert_eq!(cabinet.standing(20), standing(Status::Invalid, true));
    let single = cabinet.clone().turn();
    assert_eq!(single, Ok(Turned::Cleared(20)));
    let totals = Totals {
        ran: 1,
        cleared: 1,
        ..Totals::default()
    };
    assert_eq!(cabinet.drain().map(|drained| drained.sum()), Ok(totals));
    assert_eq!(cabinet.current_value(50), Ok(7));
    assert_eq!(cabinet.value_as_of(10, 34), Ok(1));
    assert_eq!(cabinet.value_as_of(u64::MAX, 34), Ok(7));
    assert_eq!(cabinet.plain_run(), Ok(cabinet.tables().view.clone()));
    assert_eq!(cabinet.set_up(), Ok(()));
    assert_eq!(cabinet, Cabinet::new(3).unwrap());
}

/// Case P9, and one that writes before and one that writes after it.
#[test]
fn a_change_that_breaks_off_answers_with_the_place() {
    let twice = [set(34, 7), set(34, 8)].concat();
    let mut cabinet = Cabinet::new(3).unwrap();
    for (timestamp, program) in [(5, set(34, 6)), (10, twice), (15, copy(34, 51))] {
        assert_eq!(cabinet.take_in(timestamp, Zero, &program), Ok(Taken::Done));
    }
    let mut single = cabinet.clone();
    assert_eq!(single.turn(), Ok(Turned::Ran(5)));
    assert_eq!(single.turn(), Ok(Turned::Faulted(10, 3)));
    assert_eq!(single.turn(), Ok(Turned::Ran(15)));
    let totals = Totals {
        ran: 2,
        faulted: 1,
        ..Totals::default()
    };
    assert_eq!(cabinet.drain().map(|drained| drained.sum()), Ok(totals));
    assert_eq!(cabinet, single);
    assert_eq!(cabinet.current_value(34), Ok(6));
    assert_eq!(cabinet.current_value(51), Ok(6));
}

#[test]
fn a_package_has_an_answer_for_each_entry() {
    let (take, withdrawal) = ([0, 1, 0, 0], [1, 0, 0, 0]);
    let mut package = vec![4, 0];
    for (timestamp, rest) in [
        (20u64, take),
        (15, withdrawal),
        (20, take),
        (20, withdrawal),
    ] {
        package.extend(timestamp.to_le_bytes());
        package.extend(rest);
    }
    package.extend(program(&[Instruction::Stop, Instruction::Stop]));
    let mut cabinet = Cabinet::new(1).unwrap();
    let answers = vec![
        Ok(Taken::Done),
        Err(Refusal::NotHeld),
        Ok(Taken::AlreadyHeld),
        Ok(Taken::Done),
    ];
    assert_eq!(cabinet.take_in_package(&package), Ok(answers));
    assert_eq!(cabinet.take_in_package(&[0, 0]), Ok(vec![]));
    let before = cabinet.clone();
    for bad in [&[][..], &[0], &[0, 0, 0], &package[..package.len() - 1]] {
        assert_eq!(cabinet.take_in_package(bad), Err(Refusal::Package));
    }
    assert_eq!(cabinet, before);
}

/// The later change arrives first, has version 1 and is Valid, the other is withdrawn and New.
#[test]
fn a_package_out_has_the_changes_and_then_the_withdrawals() {
    let mut cabinet = Cabinet::new(4).unwrap();
    assert_eq!(cabinet.package_out(), Ok(vec![0, 0]));
    assert_eq!(
        cabinet.take_in(0x0102_0304, One, &copy(34, 50)),
        Ok(Taken::Done)
    );
    assert_eq!(cabinet.drain().map(|totals| totals.sum().ran), Ok(1));
    assert_eq!(cabinet.take_in(10, Zero, &set(34, 7)), Ok(Taken::Done));
    assert_eq!(cabinet.withdraw(10), Ok(()));
    let contents = [
        &[3, 0][..],
        &[10, 0, 0, 0, 0, 0, 0, 0, 0, 2, 0, 0],
        &[4, 3, 2, 1, 0, 0, 0, 0, 0, 2, 1, 0],
        &[10, 0, 0, 0, 0, 0, 0, 0, 1, 0, 0, 0],
    ];
    let bodies = [set(34, 7), copy(34, 50)];
    let package = [contents.concat(), bodies.concat()].concat();
    assert_eq!(cabinet.package_out(), Ok(package.clone()));

    let mut filled = Cabinet::new(2).unwrap();
    let answers = filled.take_in_package(&package);
    assert_eq!(answers, Ok(vec![Ok(Taken::Done); 3]));
    assert_eq!(filled.package_out(), Ok(package.clone()));
    for cabinet in [&mut cabinet, &mut filled] {
        assert!(cabinet.drain().is_ok());
        assert_eq!(cabinet.package_out(), Ok(package.clone()));
    }
    assert_eq!(filled.tables().view, cabinet.tables().view);
    for timestamp in [10, 0x0102_0304] {
        assert_eq!(filled.standing(timestamp), cabinet.standing(timestamp));
    }
}

#[test]
fn a_lent_slice_gets_the_package_and_else_keeps_its_contents() {
    let mut cabinet = Cabinet::new(2).unwrap();
    assert_eq!(cabinet.take_in(10, Zero, &set(34, 7)), Ok(Taken::Done));
    let package = cabinet.package_out().unwrap();
    assert_eq!(package.len(), 30);
    for length in 0..40 {
        let mut lent = vec![99; length];
        let answer = calls::package_out(2, cabinet.tables(), &mut lent);
        match length {
            0..30 => {
                assert_eq!(answer, Err(Refusal::Room));
                assert_eq!(lent, vec![99; length]);
            }
            _ => {
                assert_eq!(answer, Ok(30));
                assert_eq!(lent[..30], package);
                assert_eq!(lent[30..], vec![99; length - 30]);
            }
        }
    }
}

/// The cabinet's package is refused, however long the lent slice is.
#[track_caller]
fn assert_no_room(cabinet: &Cabinet) {
    assert_eq!(cabinet.package_out(), Err(Refusal::Room));
    let mut lent = vec![99; 2 * PACKAGE_BYTES];
    let answer = calls::package_out(cabinet.capacity(), cabinet.tables(), &mut lent);
    assert_eq!(answer, Err(Refusal::Room));
    assert_eq!(lent, vec![99; 2 * PACKAGE_BYTES]);
}

/// 512 entries are let through, and 65,534 bytes; the next lengths of a package are not.
#[test]
fn a_package_has_its_limits_whatever_is_lent() {
    let mut cabinet = Cabinet::new(MAX_CAPACITY).unwrap();
    for timestamp in 1..=511 {
        assert_eq!(cabinet.take_in(timestamp, Zero, &[]), Ok(Taken::Done));
    }
    assert_eq!(
        cabinet.package_out().map(|package| package.len()),
        Ok(6_134)
    );
    assert_eq!(cabinet.withdraw(500), Ok(()));
    assert_eq!(
        cabinet.package_out().map(|package| package.len()),
        Ok(6_146)
    );
    let mut longer = cabinet.clone();
    assert_eq!(longer.withdraw(1), Ok(()));
    assert_no_room(&longer);

    // 2 + 12 × 245 + 8 × (32 × 244 + 16) = 65,534.
    let mut cabinet = Cabinet::new(MAX_CAPACITY).unwrap();
    for timestamp in 1..=244 {
        assert_eq!(cabinet.take_in(timestamp, Zero, &[0; 256]), Ok(Taken::Done));
    }
    let mut longer = cabinet.clone();
    assert_eq!(cabinet.take_in(245, Zero, &[0; 8 * 16]), Ok(Taken::Done));
    assert_eq!(
        cabinet.package_out().map(|package| package.len()),
        Ok(65_534)
    );
    // 2 + 12 × 246 + 8 × (32 × 244 + 15) = 65,538.
    assert_eq!(longer.take_in(245, Zero, &[0; 8 * 15]), Ok(Taken::Done));
    assert_eq!(longer.withdraw(1), Ok(()));
    assert_no_room(&longer);
}

#[test]
fn every_refusal_has_its_number_and_its_call() {
    let mut cabinet = Cabinet::new(1).unwrap();
    assert_eq!(cabinet.take_in(5, Zero, &set(1, 1)), Ok(Taken::Done));
    let mut short = Tables::new(1);
    short.view.pop();
    let mut broken = Tables::new(1);
    broken.held[0] = 2;
    let mut withdrawn = cabinet.clone();
    assert_eq!(withdrawn.withdraw(5), Ok(()));
    let mut cut_off = Cabinet::new(1).unwrap();
    assert_eq!(cut_off.cutoff(6), Ok(()));
    let refused = [
        Cabinet::with_tables(1, short).drain().err(),
        Cabinet::with_tables(1, broken).turn().err(),
        cabinet.take_in_package(&[1, 0]).err(),
        cabinet.withdraw(0).err(),
        cut_off.withdraw(5).err(),
        cabinet.current_value(SETTINGS).err(),
        cabinet.take_in(5, Zero, &[0; 264]).err(),
        calls::take_in(1, &mut cabinet.clone().into_tables(), 5, 2, &[]).err(),
        cabinet.take_in(5, Zero, &[18, 0, 0, 0, 0, 0, 0, 0]).err(),
        cabinet.take_in(5, Zero, &[]).err(),
        cabinet.take_in(6, Zero, &[]).err(),
        cabinet.standing(6).err(),
        withdrawn.withdraw(5).err(),
        cabinet.cutoff(6).err(),
        calls::package_out(1, cabinet.tables(), &mut [0; 29]).err(),
    ];
    assert_eq!(refused, Refusal::ALL.map(Some));
    let numbers = [1, 2, 3, 4, 14, 5, 6, 13, 7, 8, 9, 10, 11, 15, 12];
    for (number, refusal) in numbers.into_iter().zip(Refusal::ALL) {
        assert_eq!(refusal.number(), number);
        assert_eq!(Refusal::from_number(number), Some(refusal));
        assert!(refusal
            .to_string()
            .starts_with(&format!("refused {number}: ")));
    }
    for number in [0, 16, 255] {
        assert_eq!(Refusal::from_number(number), None);
    }
}

#[test]
fn answers_read_as_people_say_them() {
    let totals = Totals {
        ran: 2,
        stood: 1,
        cleared: 0,
        faulted: 1,
    };
    let standing = |status, withdrawn| Standing { status, withdrawn };
    for (said, expected) in [
        (Taken::Done.to_string(), "done"),
        (Taken::AlreadyHeld.to_string(), "already held"),
        (Turned::Idle.to_string(), "idle"),
        (Turned::Ran(20).to_string(), "20 ran"),
        (Turned::Stood(30).to_string(), "30 stood"),
        (Turned::Cleared(10).to_string(), "10 was cleared"),
        (Turned::Faulted(10, 3).to_string(), "10 faulted at place 3"),
        (totals.to_string(), "2 ran, 1 stood, 0 cleared, 1 faulted"),
        (standing(Status::New, false).to_string(), "New"),
        (
            standing(Status::Invalid, true).to_string(),
            "Invalid, withdrawn",
        ),
        (Refusal::Full.to_string(), "refused 9: the tables are full"),
        (
            Refusal::Version.to_string(),
            "refused 13: the version is above 1",
        ),
        (
            Refusal::Cutoff.to_string(),
            "refused 14: the timestamp is below the cutoff",
        ),
        (
            Refusal::Unsettled.to_string(),
            "refused 15: a New or Invalid change is stamped below the new cutoff",
        ),
    ] {
        assert_eq!(said, expected);
    }
}

#[test]
fn settings_are_numbered_by_port_and_field() {
    assert_eq!(setting(0, 0), 0);
    assert_eq!(setting(2, 4), 36);
    assert_eq!(setting(63, 15), SETTINGS - 1);
}
