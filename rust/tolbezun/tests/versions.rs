//! Changes of versions 0 and 1: document 02, R-6.

mod programs;

use programs::{copy, set};
use tolbezun::calls;
use tolbezun::Version::{self, One, Zero};
use tolbezun::{
    program, start_values, Cabinet, Instruction, Refusal, Tables, Taken, Totals, Turned,
};

/// A change that adds to a setting.
fn add(setting: i32, n: i32) -> Vec<u8> {
    program(&[
        Instruction::Read { a: 0, setting },
        Instruction::Constant { a: 1, n },
        Instruction::Add { a: 0, b: 0, c: 1 },
        Instruction::Write { a: 0, setting },
    ])
}

/// A package whose entries have these timestamps, kinds, versions and bodies.
fn package(entries: &[(u64, u8, u8, &[u8])]) -> Vec<u8> {
    let mut package = (entries.len() as u16).to_le_bytes().to_vec();
    for (timestamp, kind, version, body) in entries {
        package.extend(timestamp.to_le_bytes());
        package.extend([*kind, (body.len() / 8) as u8, *version, 0]);
    }
    package.extend(entries.iter().flat_map(|(_, _, _, body)| *body));
    package
}

/// The first entries, so many, of a list: settings with their values.
fn list(count: u16, settings: &[u16], values: &[i32]) -> Vec<(u16, i32)> {
    let pairs = settings.iter().copied().zip(values.iter().copied());
    pairs.take(count.into()).collect()
}

/// The read list, with the values seen, of the change that arrived first.
fn reads(tables: &Tables) -> Vec<(u16, i32)> {
    list(
        tables.read_count[0],
        &tables.read_settings,
        &tables.seen_values,
    )
}

/// Its write list.
fn writes(tables: &Tables) -> Vec<(u16, i32)> {
    list(
        tables.write_count[0],
        &tables.write_settings,
        &tables.written_values,
    )
}

/// The cabinet after the turn of a change 20, of this version and program, before which a change 10
/// has set setting 36 to 7; with what the turn answered.
#[track_caller]
fn run(version: Version, program: &[u8]) -> (Turned, Cabinet) {
    let mut cabinet = Cabinet::new(3).unwrap();
    assert_eq!(cabinet.take_in(20, version, program), Ok(Taken::Done));
    assert_eq!(cabinet.take_in(10, Zero, &set(36, 7)), Ok(Taken::Done));
    assert_eq!(cabinet.turn(), Ok(Turned::Ran(10)));
    let turned = cabinet.turn().unwrap();
    assert_eq!(cabinet.turn(), Ok(Turned::Idle));
    (turned, cabinet)
}

#[test]
fn versions_have_the_numbers_0_and_1() {
    assert_eq!(Version::default(), Zero);
    for (version, number) in [(Zero, 0), (One, 1)] {
        assert_eq!(version.number(), number);
        assert_eq!(u16::from(version), number);
        assert_eq!(Version::try_from(number), Ok(version));
    }
    for number in [2, 255, 256, 257, u16::MAX] {
        assert_eq!(Version::try_from(number), Err(Refusal::Version));
    }
}

/// "Version 1 reads its own written value, which enters no read list": also where the setting had been
/// read before it was written.
#[test]
fn version_1_reads_what_it_has_written() {
    let program = [add(36, 100), copy(36, 52), add(36, 100)].concat();
    let (turned, cabinet) = run(Zero, &program);
    assert_eq!(turned, Turned::Faulted(20, 4));
    assert_eq!(reads(cabinet.tables()), [(36, 7)]);
    assert_eq!(writes(cabinet.tables()), []);

    let (turned, cabinet) = run(One, &program);
    assert_eq!(turned, Turned::Ran(20));
    assert_eq!(reads(cabinet.tables()), [(36, 7)]);
    assert_eq!(writes(cabinet.tables()), [(36, 207), (52, 107)]);
}

/// What is not on the read list is no reason to run again.
#[test]
fn what_is_only_read_back_may_change() {
    let (turned, mut cabinet) = run(One, &[set(36, 400), copy(36, 52)].concat());
    assert_eq!(turned, Turned::Ran(20));
    assert_eq!(reads(cabinet.tables()), []);
    assert_eq!(writes(cabinet.tables()), [(36, 400), (52, 400)]);
    assert_eq!(cabinet.take_in(15, Zero, &set(36, 8)), Ok(Taken::Done));
    assert_eq!(cabinet.turn(), Ok(Turned::Ran(15)));
    assert_eq!(cabinet.turn(), Ok(Turned::Idle));
    assert_eq!(cabinet.current_value(36), Ok(400));
}

/// "a second write replaces the value in its first place in the list".
#[test]
fn version_1_may_write_a_setting_again() {
    let program = [set(36, 8), set(40, 3), set(36, 9), set(36, 9)].concat();
    let (turned, cabinet) = run(Zero, &program);
    assert_eq!(turned, Turned::Faulted(20, 5));
    assert_eq!(writes(cabinet.tables()), []);
    assert_eq!(cabinet.current_value(36), Ok(7));

    let (turned, cabinet) = run(One, &program);
    assert_eq!(turned, Turned::Ran(20));
    assert_eq!(writes(cabinet.tables()), [(36, 9), (40, 3)]);
    assert_eq!(cabinet.current_value(36), Ok(9));
}

/// A setting may be named by a register; one that names none faults in both versions.
#[test]
fn registers_name_settings_in_both_versions() {
    let by_register = |number| {
        program(&[
            Instruction::Constant { a: 1, n: number },
            Instruction::ReadIndexed { a: 2, b: 1 },
            Instruction::WriteIndexed { a: 1, b: 1 },
            Instruction::Write { a: 2, setting: 50 },
        ])
    };
    let (turned, cabinet) = run(One, &[set(36, 400), by_register(36)].concat());
    assert_eq!(turned, Turned::Ran(20));
    assert_eq!(reads(cabinet.tables()), []);
    assert_eq!(writes(cabinet.tables()), [(36, 36), (50, 400)]);

    for version in [Zero, One] {
        for number in [-1, 1_024, 65_572] {
            let (turned, cabinet) = run(version, &[set(36, 400), by_register(number)].concat());
            assert_eq!(turned, Turned::Faulted(20, 3));
            assert_eq!(writes(cabinet.tables()), []);
            assert_eq!(cabinet.current_value(36), Ok(7));
        }
    }
}

/// "The drained state is that of running each change by its own version."
#[test]
fn each_change_runs_by_its_own_version() {
    let program = [add(36, 100), copy(36, 52)].concat();
    let mut cabinet = Cabinet::new(4).unwrap();
    for (timestamp, version) in [(40, One), (30, Zero), (20, One), (10, Zero)] {
        assert_eq!(
            cabinet.take_in(timestamp, version, &program),
            Ok(Taken::Done)
        );
    }
    let before = cabinet.clone();
    let drained = cabinet.drain().map(|totals| totals.sum());
    let totals = Totals {
        ran: 2,
        faulted: 2,
        ..Totals::default()
    };
    assert_eq!(drained, Ok(totals));
    let mut view = start_values();
    (view[36], view[52]) = (200, 200);
    assert_eq!(cabinet.tables().view, view);
    assert_eq!(before.plain_run(), Ok(view.to_vec()));

    // The later one of version 1 is run again by its own version.
    assert_eq!(cabinet.withdraw(20), Ok(()));
    assert_eq!(cabinet.turn(), Ok(Turned::Cleared(20)));
    assert_eq!(cabinet.turn(), Ok(Turned::Faulted(30, 4)));
    assert_eq!(cabinet.turn(), Ok(Turned::Ran(40)));
    assert_eq!(cabinet.current_value(52), Ok(100));
}

/// "The version is part of the program when a timestamp is already held."
#[test]
fn the_same_program_of_another_version_is_another_program() {
    for (version, other) in [(Zero, One), (One, Zero)] {
        let mut cabinet = Cabinet::new(1).unwrap();
        assert_eq!(cabinet.take_in(5, version, &set(36, 7)), Ok(Taken::Done));
        for withdrawn in [false, true] {
            if withdrawn {
                assert_eq!(cabinet.withdraw(5), Ok(()));
            }
            let before = cabinet.clone();
            let again = cabinet.take_in(5, version, &set(36, 7));
            assert_eq!(again, Ok(Taken::AlreadyHeld));
            let refused = cabinet.take_in(5, other, &set(36, 7));
            assert_eq!(refused, Err(Refusal::OtherProgram));
            assert_eq!(cabinet, before);
        }
    }
}

/// "A direct call with a version above 1 gets refusal 13, just after 6".
#[test]
fn a_version_above_1_is_refused_after_6_and_before_7() {
    let mut cabinet = Cabinet::new(1).unwrap();
    assert_eq!(cabinet.take_in(5, Zero, &set(36, 7)), Ok(Taken::Done));
    let in_form = cabinet.into_tables();
    let mut out_of_form = in_form.clone();
    out_of_form.status[0] = 3;
    let no_operation = [18, 0, 0, 0, 0, 0, 0, 0];
    for version in [2, 256, 257, u16::MAX] {
        for (n, tables, timestamp, program, refusal) in [
            (2, &in_form, 5, &set(36, 7)[..], Refusal::Length),
            (1, &out_of_form, 5, &set(36, 7), Refusal::Form),
            (1, &in_form, 0, &set(36, 7), Refusal::Timestamp),
            (1, &in_form, 5, &[0; 7], Refusal::ProgramLength),
            (1, &in_form, 5, &no_operation, Refusal::Version),
            (1, &in_form, 5, &set(36, 7), Refusal::Version),
            (1, &in_form, 5, &set(36, 8), Refusal::Version),
            (1, &in_form, 6, &[], Refusal::Version),
        ] {
            let mut left = tables.clone();
            let answer = calls::take_in(n, &mut left, timestamp, version, program);
            assert_eq!(answer, Err(refusal), "{version} {timestamp} {program:?}");
            assert_eq!(left, *tables);
        }
    }
    let mut tables = in_form.clone();
    for version in [0, 1] {
        let answer = calls::take_in(1, &mut tables, 5, version, &no_operation);
        assert_eq!(answer, Err(Refusal::Instruction));
    }
}

/// A change has its version in the table, at its place, and a place that is not held has 0.
#[test]
fn versions_are_kept_by_place() {
    let mut cabinet = Cabinet::new(4).unwrap();
    for (timestamp, version) in [(30, One), (10, Zero), (20, One)] {
        assert_eq!(cabinet.take_in(timestamp, version, &[]), Ok(Taken::Done));
    }
    assert_eq!(cabinet.tables().version, [1, 0, 1, 0]);
    for (place, version) in [(0, 2), (1, u16::MAX), (3, 1), (3, 2)] {
        let mut tables = cabinet.tables().clone();
        tables.version[place] = version;
        let mut broken = Cabinet::with_tables(4, tables);
        let before = broken.clone();
        assert_eq!(broken.turn(), Err(Refusal::Form), "{place}");
        assert_eq!(broken, before);
        assert_eq!(broken.set_up(), Ok(()));
        assert_eq!(broken, Cabinet::new(4).unwrap());
    }
    for length in [0, 3, 5] {
        let version = vec![0; length];
        let tables = Tables {
            version,
            ..Tables::new(4)
        };
        let mut short = Cabinet::with_tables(4, tables);
        assert_eq!(short.turn(), Err(Refusal::Length), "{length}");
        assert_eq!(short.set_up(), Err(Refusal::Length), "{length}");
    }
}

/// "The first zero byte of a package entry becomes the version, 0 or 1". "A withdrawal has version 0."
/// A version above 1 "in a package [..] is refusal 3."
#[test]
fn a_package_has_versions() {
    let twice = [set(36, 8), set(36, 9)].concat();
    let mut cabinet = Cabinet::new(2).unwrap();
    let answers = cabinet.take_in_package(&package(&[
        (20, 0, 1, &twice),
        (10, 0, 0, &twice),
        (20, 0, 1, &twice),
        (20, 0, 0, &twice),
        (10, 1, 0, &[]),
    ]));
    let expected = vec![
        Ok(Taken::Done),
        Ok(Taken::Done),
        Ok(Taken::AlreadyHeld),
        Err(Refusal::OtherProgram),
        Ok(Taken::Done),
    ];
    assert_eq!(answers, Ok(expected));
    assert_eq!(cabinet.tables().version, [1, 0]);

    let before = cabinet.clone();
    for version in 2..=u8::MAX {
        let refused = cabinet.take_in_package(&package(&[(30, 0, version, &[])]));
        assert_eq!(refused, Err(Refusal::Package), "{version}");
    }
    for version in 1..=u8::MAX {
        let refused = cabinet.take_in_package(&package(&[(20, 1, version, &[])]));
        assert_eq!(refused, Err(Refusal::Package), "{version}");
    }
    assert_eq!(cabinet, before);

    // By rising timestamp, and the bytes that fill another cabinet.
    let written = package(&[(10, 0, 0, &twice), (20, 0, 1, &twice), (10, 1, 0, &[])]);
    assert_eq!(cabinet.package_out(), Ok(written.clone()));
    let mut filled = Cabinet::new(2).unwrap();
    let answers = filled.take_in_package(&written);
    assert_eq!(answers, Ok(vec![Ok(Taken::Done); 3]));
    assert_eq!(filled.tables().version, [0, 1]);
    assert_eq!(filled.package_out(), Ok(written));
    for cabinet in [&mut cabinet, &mut filled] {
        assert_eq!(cabinet.turn(), Ok(Turned::Cleared(10)));
        assert_eq!(cabinet.turn(), Ok(Turned::Ran(20)));
        assert_eq!(cabinet.current_value(36), Ok(9));
    }
}
