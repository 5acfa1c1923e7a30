use super::Turned::{Cleared, Faulted, Ran, Stood};
use super::*;
use crate::calls::value_as_of;
use crate::examples::{
    add, assemble, copy, four_changes, if_zero, not_zero, set, tables, take, write_named_by,
    Change, Script, INVALID, NEW, VALID,
};
use crate::intake::{take_in, Taken};
use crate::program::{op, Instruction};

/// The program of no instructions.
const NOTHING: [Instruction; 0] = [];

/// Drains, which must be answered, and returns the totals that are not 0, by place. The lent slice
/// held no 0 before.
#[track_caller]
fn totals(n: usize, tables: &mut Tables) -> Vec<(usize, u16)> {
    let mut totals = [u16::MAX; TOTALS];
    assert_eq!(drain(n, tables, &mut totals), Ok(()));
    not_zero(&totals)
}

// Document 01, "Cases to know". A drain of a script checks demand 3.

#[test]
fn p1_nothing_held() {
    for n in [1, 4, 128] {
        let mut script = Script::new(n);
        assert_eq!(script.drain(), []);
        assert_eq!(script.turn(), None);
        assert_eq!(script.tables, Tables::new(n));
    }
}

#[test]
fn p2_a_write_before_a_later_write() {
    let mut script = Script::new(4);
    script.take_in(20, &set(34, 5));
    script.drain();
    script.take_in(10, &set(34, 7));
    assert_eq!(script.drain(), [(10, Ran)]);
    assert_eq!(script.view(), [(34, 5)]);
    assert_eq!(value_as_of(4, &script.tables, 15, 34), Ok(7));
}

#[test]
fn p3_a_write_before_a_later_reader() {
    let mut script = Script::new(4);
    script.take_in(20, &copy(34, 50));
    script.drain();
    script.take_in(10, &set(34, 7));
    assert_eq!(script.drain(), [(10, Ran), (20, Ran)]);
    assert_eq!(script.view(), [(34, 7), (50, 7)]);
}

/// Also class mistake 3: "Marking all later readers although the value is equal (P4)."
#[test]
fn p4_a_write_of_an_equal_value() {
    let mut script = Script::new(4);
    script.take_in(20, &copy(34, 50));
    script.drain();
    script.take_in(10, &set(34, 1));
    assert_eq!(script.drain(), [(10, Ran)]);
}

#[test]
fn p5_a_reader_behind_the_next_writer() {
    let mut script = Script::new(4);
    script.take_in(20, &set(34, 5));
    script.take_in(30, &copy(34, 50));
    script.drain();
    script.take_in(10, &set(34, 7));
    assert_eq!(script.drain(), [(10, Ran)]);
}

/// Also class mistake 1: "Stopping before the next writer: it may have read the setting (P6)."
#[test]
fn p6_the_next_writer_has_read_the_setting() {
    let mut script = Script::new(4);
    script.take_in(20, &add(34, 1));
    script.drain();
    script.take_in(10, &set(34, 7));
    assert_eq!(script.drain(), [(10, Ran), (20, Ran)]);
    assert_eq!(script.view(), [(34, 8)]);
}

#[test]
fn p7_the_seen_values_hold_again() {
    let mut script = Script::new(4);
    script.take_in(30, &copy(34, 50));
    script.drain();
    script.take_in(10, &set(34, 7));
    assert_eq!(script.turn(), Some((10, Ran)));
    script.take_in(20, &set(34, 1));
    assert_eq!(script.drain(), [(20, Ran), (30, Stood)]);
}

#[test]
fn p8_a_withdrawal() {
    let mut script = Script::new(4);
    script.take_in(10, &[set(34, 7), set(40, 3)].concat());
    script.drain();
    assert_eq!(script.view(), [(34, 7), (40, 3)]);
    script.withdraw(10);
    assert_eq!(script.drain(), [(10, Cleared)]);
    assert_eq!((script.tables.view[34], script.tables.view[40]), (1, 0));
    assert_eq!(script.view(), []);
}

#[test]
fn p9_a_setting_written_twice() {
    let mut script = Script::new(4);
    script.take_in(10, &[set(34, 7), set(34, 8)].concat());
    assert_eq!(script.drain(), [(10, Faulted(3))]);
    assert_eq!(script.view(), []);
}

#[test]
fn p10_numbers_at_the_ends() {
    let ins = |op, n| Instruction {
        op,
        n,
        ..Instruction::default()
    };
    // Register 0 is set, changed and written.
    let changed = |value: i32, change: Instruction, setting: i32| {
        vec![ins(op::CONSTANT, value), change, ins(op::WRITE, setting)]
    };
    let one = Instruction {
        a: 1,
        ..ins(op::CONSTANT, 1)
    };
    let plus_one = Instruction {
        c: 1,
        ..ins(op::ADD, 0)
    };
    let mut script = Script::new(4);
    script.take_in(10, &changed(i32::MIN, ins(op::NEGATE, 0), 20));
    script.take_in(11, &[vec![one], changed(i32::MAX, plus_one, 21)].concat());
    script.take_in(12, &changed(-5, ins(op::SHIFT_RIGHT, 1), 22));
    script.take_in(13, &changed(-1, ins(op::COUNT_ONES, 0), 23));
    script.drain();
    let expected = [
        (20, -2_147_483_648),
        (21, -2_147_483_648),
        (22, -3),
        (23, 32),
    ];
    assert_eq!(script.view(), expected);
}

#[test]
fn p11_a_change_before_one_that_depends_on_it() {
    let mut script = Script::new(4);
    script.take_in(10, &set(36, 400));
    script.take_in(30, &take(36, 300, 37));
    script.drain();
    assert_eq!(script.view(), [(36, 100)]);
    script.take_in(20, &take(36, 200, 37));
    assert_eq!(script.drain(), [(20, Ran), (30, Ran)]);
    assert_eq!(script.view(), [(36, -100), (37, 1)]);
}

// Document 01, "Class mistakes". P6 and P4 are the first and the third.

#[test]
fn a_write_that_vanishes_on_a_second_run_counts() {
    let mut script = Script::new(4);
    script.take_in(20, &if_zero(35, &set(50, 9)));
    script.take_in(30, &copy(50, 66));
    script.drain();
    assert_eq!(script.view(), [(50, 9), (66, 9)]);
    script.take_in(10, &set(35, 1));
    assert_eq!(script.drain(), [(10, Ran), (20, Ran), (30, Ran)]);
    assert_eq!(script.view(), [(35, 1)]);
}

/// "Dropping a faulted run's reads, so that it is never tried again."
#[test]
fn a_faulted_run_is_tried_again() {
    let mut script = Script::new(4);
    script.take_in(10, &set(34, -1));
    script.take_in(20, &write_named_by(34));
    assert_eq!(script.drain(), [(10, Ran), (20, Faulted(1))]);
    assert_eq!(script.reads(20), [(34, -1)]);
    assert_eq!(script.view(), [(34, -1)]);
    script.take_in(15, &set(34, 50));
    assert_eq!(script.drain(), [(15, Ran), (20, Ran)]);
    assert_eq!(script.view(), [(34, 50), (50, 50)]);
}

#[test]
fn a_run_that_faults_again_or_for_the_first_time_writes_nothing() {
    let mut script = Script::new(4);
    script.take_in(10, &set(34, 50));
    script.take_in(20, &write_named_by(34));
    script.take_in(30, &copy(50, 66));
    script.drain();
    assert_eq!(script.view(), [(34, 50), (50, 50), (66, 50)]);
    script.take_in(15, &set(34, 1024));
    assert_eq!(script.drain(), [(15, Ran), (20, Faulted(1)), (30, Ran)]);
    assert_eq!(script.view(), [(34, 1024)]);
    script.withdraw(10);
    assert_eq!(script.drain(), [(10, Cleared)]);
    script.withdraw(15);
    assert_eq!(script.drain(), [(15, Cleared), (20, Ran)]);
    // It writes the 1 that it reads to setting 1.
    assert_eq!(script.view(), [(1, 1)]);
    assert_eq!(script.reads(20), [(34, 1)]);
}

// Document 02, R-2.

/// The lowest place is 1: before the first instruction every register names setting 0, and nothing
/// is written.
#[test]
fn a_turn_that_faults_names_the_place() {
    let mut script = Script::new(32);
    let ins = |op, n| Instruction {
        op,
        n,
        ..Instruction::default()
    };
    for place in 1..=31 {
        let mut program = vec![ins(op::CONSTANT, 1024); 32];
        program[place] = ins(op::WRITE_INDEXED, 0);
        script.take_in(place as u64, &program);
        assert_eq!(script.turn(), Some((place as u64, Faulted(place))));
    }
    assert_eq!(script.drain(), []);
}

#[test]
fn each_kind_of_fault_is_shown() {
    let mut script = Script::new(4);
    script.take_in(10, &set(35, 1024));
    script.take_in(20, &write_named_by(35));
    script.take_in(30, &[set(34, 7), copy(34, 51)].concat());
    script.take_in(40, &[set(34, 7), set(34, 7)].concat());
    let turns = [
        (10, Ran),
        (20, Faulted(1)),
        (30, Faulted(2)),
        (40, Faulted(3)),
    ];
    assert_eq!(script.drain(), turns);
    assert_eq!(script.view(), [(35, 1024)]);
}

/// It answers stood, as any other would, and so nothing of the fault.
#[test]
fn a_change_that_faulted_stands() {
    let mut script = Script::new(4);
    script.take_in(10, &set(34, -1));
    script.take_in(20, &write_named_by(34));
    assert_eq!(script.drain(), [(10, Ran), (20, Faulted(1))]);
    script.take_in(12, &set(34, 5));
    assert_eq!(script.turn(), Some((12, Ran)));
    script.take_in(15, &set(34, -1));
    assert_eq!(script.drain(), [(15, Ran), (20, Stood)]);
    assert_eq!(script.view(), [(34, -1)]);
}

#[test]
fn a_drain_counts_faults_by_themselves() {
    let mut tables = Tables::new(4);
    for (timestamp, program) in [
        (10, set(34, -1)),
        (20, write_named_by(34)),
        (30, write_named_by(34)),
    ] {
        let program = assemble(&program);
        assert_eq!(
            take_in(4, &mut tables, timestamp, 0, &program),
            Ok(Taken::Done)
        );
    }
    assert_eq!(totals(4, &mut tables), [(40, 1), (83, 1), (123, 1)]);
}

// Document 02, R-5.

/// Tables whose changes have these timestamps, each with what has its turn answered so.
fn to_be_turned(turns: &[(u64, Turned)]) -> Tables {
    let changes = turns.iter().map(|&(timestamp, turned)| Change {
        timestamp,
        status: match turned {
            Stood => INVALID,
            _ => NEW,
        },
        withdrawn: u16::from(turned == Cleared),
        program: match turned {
            Faulted(_) => [set(34, 7), set(34, 7)].concat(),
            _ => set(34, 7),
        },
        ..Change::default()
    });
    let mut order: Vec<u16> = (0..turns.len() as u16).collect();
    order.sort_by_key(|&place| turns[usize::from(place)].0);
    tables(turns.len(), &order, &changes.collect::<Vec<_>>())
}

/// From place console × 4: ran, stood, cleared, faulted.
#[test]
fn each_console_has_a_total_of_each_kind() {
    for console in [0, 1, 10, 127, 128, 254, 255] {
        for (kind, turned) in [Ran, Stood, Cleared, Faulted(3)].into_iter().enumerate() {
            let mut tables = to_be_turned(&[(256 + console, turned)]);
            let place = 4 * console as usize + kind;
            assert_eq!(totals(1, &mut tables), [(place, 1)]);
        }
    }
}

#[test]
fn the_console_is_the_lowest_8_bits_of_the_timestamp() {
    for (timestamp, console) in [
        (1, 1),
        (255, 255),
        (256, 0),
        (257, 1),
        (511, 255),
        (512, 0),
        (65_535, 255),
        (65_536, 0),
        (1 << 32, 0),
        ((1 << 32) + 20, 20),
        ((1 << 56) - 1, 255),
        (1 << 56, 0),
        (1 << 63, 0),
        (0xAB00_0000_0000_0012, 0x12),
        (u64::MAX - 257, 254),
        (u64::MAX - 256, 255),
        (u64::MAX - 255, 0),
        (u64::MAX - 254, 1),
        (u64::MAX - 2, 253),
        (u64::MAX - 1, 254),
    ] {
        let mut tables = to_be_turned(&[(timestamp, Ran)]);
        assert_eq!(totals(1, &mut tables), [(4 * console, 1)], "{timestamp}");
    }
}

#[test]
fn turns_of_a_console_are_counted_together() {
    let mut tables = to_be_turned(&[(10, Ran), (266, Ran)]);
    assert_eq!(totals(2, &mut tables), [(40, 2)]);
    // Two consoles, 0 and 255, with turns of each kind.
    let mut tables = to_be_turned(&[
        (256, Faulted(3)),
        (512, Faulted(3)),
        (768, Stood),
        (1 << 63, Ran),
        (u64::MAX - 255, Ran),
        (1024, Ran),
        (1280, Cleared),
        (255, Cleared),
        (511, Cleared),
        (767, Cleared),
        (u64::MAX - 256, Stood),
        (1023, Ran),
        (1279, Faulted(3)),
    ]);
    let expected = [
        (0, 3),
        (1, 1),
        (2, 1),
        (3, 2),
        (1020, 1),
        (1021, 1),
        (1022, 3),
        (1023, 1),
    ];
    assert_eq!(totals(13, &mut tables), expected);
}

/// The same slice is lent to each.
#[test]
fn each_drain_counts_its_own_turns() {
    let mut tables = four_changes();
    let mut lent = [5; TOTALS];
    assert_eq!(drain(6, &mut tables, &mut lent), Ok(()));
    assert_eq!(not_zero(&lent), [(80, 1), (120, 1), (162, 1)]);
    // 30 stands.
    tables.status[0] = INVALID;
    assert_eq!(drain(6, &mut tables, &mut lent), Ok(()));
    assert_eq!(not_zero(&lent), [(121, 1)]);
    assert_eq!(drain(6, &mut tables, &mut lent), Ok(()));
    assert_eq!(lent, [0; TOTALS]);
}

#[test]
fn an_idle_drain_stores_1024_zeros() {
    let mut lent = [u16::MAX; TOTALS];
    assert_eq!(drain(6, &mut Tables::new(6), &mut lent), Ok(()));
    assert_eq!(lent, [0; TOTALS]);
}

/// 16 bits are enough for a console that has all turns.
#[test]
fn a_console_may_have_every_turn() {
    let turns: Vec<_> = (1..=4096).map(|index| (256 * index, Stood)).collect();
    let mut tables = to_be_turned(&turns);
    assert_eq!(totals(4096, &mut tables), [(1, 4096)]);
}

#[test]
fn a_drain_refuses_totals_that_are_not_1024_before_it_looks_at_the_form() {
    for length in [0, 1, 4, 1023, 1025, 2048] {
        for status in [VALID, 3] {
            let mut tables = four_changes();
            tables.status[0] = status;
            let before = tables.clone();
            let mut lent = vec![9; length];
            let answer = drain(6, &mut tables, &mut lent);
            assert_eq!(answer, Err(Refusal::Length));
            assert_eq!(lent, vec![9; length]);
            assert_eq!(tables, before);
        }
    }
}

// Document 02, R-6.

/// Adds 1 to 34, and copies what it wrote to 50.
fn add_and_copy() -> Vec<Instruction> {
    [add(34, 1), copy(34, 50)].concat()
}

#[test]
fn a_change_is_run_by_its_own_version() {
    let mut script = Script::new(4);
    script.take_in(10, &add_and_copy());
    script.take_in_1(20, &add_and_copy());
    script.take_in_1(30, &[set(35, 5), set(36, 6), set(35, 7)].concat());
    script.take_in(40, &[set(35, 5), set(36, 6), set(35, 7)].concat());
    let turns = [(10, Faulted(4)), (20, Ran), (30, Ran), (40, Faulted(5))];
    assert_eq!(script.drain(), turns);
    assert_eq!(script.reads(10), [(34, 1)]);
    assert_eq!(script.writes(10), []);
    assert_eq!(script.reads(20), [(34, 1)]);
    assert_eq!(script.writes(20), [(34, 2), (50, 2)]);
    assert_eq!(script.reads(30), []);
    assert_eq!(script.writes(30), [(35, 7), (36, 6)]);
    assert_eq!(script.view(), [(34, 2), (35, 7), (36, 6), (50, 2)]);
}

/// What it read before it wrote is on its read list, with the value seen then.
#[test]
fn a_change_that_reads_back_runs_again_where_what_it_read_before_is_another() {
    let mut script = Script::new(4);
    script.take_in_1(20, &add_and_copy());
    script.take_in(30, &copy(50, 60));
    assert_eq!(script.drain(), [(20, Ran), (30, Ran)]);
    script.take_in_1(10, &set(34, 7));
    assert_eq!(script.drain(), [(10, Ran), (20, Ran), (30, Ran)]);
    assert_eq!(script.reads(20), [(34, 7)]);
    assert_eq!(script.writes(20), [(34, 8), (50, 8)]);
    assert_eq!(script.view(), [(34, 8), (50, 8), (60, 8)]);
    script.withdraw(10);
    assert_eq!(script.drain(), [(10, Cleared), (20, Ran), (30, Ran)]);
    assert_eq!(script.reads(20), [(34, 1)]);
    assert_eq!(script.writes(20), [(34, 2), (50, 2)]);
    script.withdraw(20);
    assert_eq!(script.drain(), [(20, Cleared), (30, Ran)]);
    // 30 copies the 1 that 50 starts at.
    assert_eq!(script.view(), [(60, 1)]);
}

/// What it only read back is on no read list: it saw nothing of others.
#[test]
fn a_change_that_only_reads_back_does_not_run_again() {
    let mut script = Script::new(4);
    script.take_in_1(20, &[set(34, 5), copy(34, 50)].concat());
    assert_eq!(script.drain(), [(20, Ran)]);
    assert_eq!(script.reads(20), []);
    script.take_in(10, &set(34, 7));
    assert_eq!(script.drain(), [(10, Ran)]);
    script.withdraw(10);
    assert_eq!(script.drain(), [(10, Cleared)]);
    assert_eq!(script.view(), [(34, 5), (50, 5)]);
}

#[test]
fn a_change_that_reads_back_stands() {
    let mut script = Script::new(4);
    script.take_in_1(30, &add_and_copy());
    script.drain();
    script.take_in(10, &set(34, 7));
    assert_eq!(script.turn(), Some((10, Ran)));
    script.take_in(20, &set(34, 1));
    assert_eq!(script.drain(), [(20, Ran), (30, Stood)]);
    assert_eq!(script.writes(30), [(34, 2), (50, 2)]);
}

/// Of two writes the last value is the one that others see, and that a later run is compared with.
#[test]
fn a_value_that_is_replaced_marks_nobody() {
    let mut script = Script::new(4);
    script.take_in_1(20, &[copy(40, 35), set(36, 1), set(35, 9)].concat());
    script.take_in(30, &copy(35, 60));
    assert_eq!(script.drain(), [(20, Ran), (30, Ran)]);
    assert_eq!(script.writes(20), [(35, 9), (36, 1)]);
    assert_eq!(script.reads(30), [(35, 9)]);
    script.take_in(10, &set(40, 3));
    assert_eq!(script.drain(), [(10, Ran), (20, Ran)]);
    assert_eq!(script.view(), [(35, 9), (36, 1), (40, 3), (60, 9)]);
}

/// A run by version 1 writes nothing either where it faults.
#[test]
fn a_register_that_names_no_setting_faults_by_version_1() {
    let mut script = Script::new(4);
    // 34 names what it then writes to, and so does 35, which it reads back.
    script.take_in_1(
        20,
        &[set(35, 1024), set(35, 60), write_named_by(34)].concat(),
    );
    script.take_in_1(
        30,
        &[set(35, 60), set(35, 1024), write_named_by(35)].concat(),
    );
    script.take_in(10, &set(34, -1));
    let turns = [(10, Ran), (20, Faulted(5)), (30, Faulted(5))];
    assert_eq!(script.drain(), turns);
    assert_eq!(script.reads(20), [(34, -1)]);
    assert_eq!(script.reads(30), []);
    assert_eq!(script.view(), [(34, -1)]);
    script.take_in(15, &set(34, 35));
    assert_eq!(script.drain(), [(15, Ran), (20, Ran)]);
    assert_eq!(script.writes(20), [(35, 35)]);
    assert_eq!(script.view(), [(34, 35), (35, 35)]);
}

/// The tables say by which version, whatever they say of earlier runs.
#[test]
fn tables_that_calls_need_not_reach_run_by_their_versions() {
    for (version, turned, writes) in [(0, Faulted(4), vec![]), (1, Ran, vec![(34, 6), (50, 6)])] {
        let invalid = |reads: &[(u16, i32)], writes: &[(u16, i32)], status| Change {
            version,
            program: add_and_copy(),
            ..change(20, status, reads, writes)
        };
        let writer = change(10, VALID, &[], &[(34, 5)]);
        let before = invalid(&[(34, 9), (7, 7)], &[(8, 8)], INVALID);
        let mut given = tables(2, &[1, 0], &[before, writer.clone()]);
        given.view[34] = 5;
        let answer = turn(2, &mut given);
        let timestamp = 20;
        assert_eq!(answer, Ok(Some(Turn { timestamp, turned })));
        let mut expected = tables(2, &[1, 0], &[invalid(&[(34, 5)], &writes, VALID), writer]);
        for (setting, value) in [&[(34, 5)], &writes[..]].concat() {
            expected.view[usize::from(setting)] = value;
        }
        assert_eq!(given, expected);
    }
}

// Which change has the turn.

#[test]
fn turns_go_by_timestamp_and_not_by_arrival() {
    let mut script = Script::new(4);
    for timestamp in [30, 1, u64::MAX - 1, 20] {
        script.take_in(timestamp, &NOTHING);
    }
    assert_eq!(script.turn(), Some((1, Ran)));
    assert_eq!(script.turn(), Some((20, Ran)));
    assert_eq!(script.drain(), [(30, Ran), (u64::MAX - 1, Ran)]);
    assert_eq!(script.turn(), None);
}

#[test]
fn a_turn_is_idle_with_all_valid_and_alters_nothing() {
    let mut tables = four_changes();
    tables.status[2] = VALID;
    tables.status[3] = VALID;
    let before = tables.clone();
    assert_eq!(turn(6, &mut tables), Ok(None));
    assert_eq!(totals(6, &mut tables), []);
    assert_eq!(tables, before);
}

#[test]
fn a_lower_arrival_between_turns_is_next() {
    let mut script = Script::new(4);
    script.take_in(20, &copy(34, 50));
    script.take_in(30, &copy(50, 60));
    assert_eq!(script.turn(), Some((20, Ran)));
    script.take_in(10, &set(34, 7));
    assert_eq!(script.drain(), [(10, Ran), (20, Ran), (30, Ran)]);
    assert_eq!(script.view(), [(34, 7), (50, 7), (60, 7)]);
}

// Withdrawn changes.

#[test]
fn a_withdrawn_new_change_has_one_turn() {
    let mut script = Script::new(4);
    script.take_in(10, &set(34, 7));
    script.withdraw(10);
    assert_eq!(script.drain(), [(10, Cleared)]);
    assert_eq!(script.view(), []);
    assert_eq!(script.drain(), []);
}

#[test]
fn the_writes_of_a_withdrawn_change_count_until_its_turn() {
    let mut script = Script::new(4);
    script.take_in(10, &set(34, 7));
    script.drain();
    script.withdraw(10);
    script.take_in(5, &copy(34, 50));
    script.take_in(20, &copy(34, 60));
    assert_eq!(value_as_of(4, &script.tables, 15, 34), Ok(7));
    assert_eq!(script.drain(), [(5, Ran), (10, Cleared), (20, Ran)]);
    assert_eq!(script.view(), [(60, 1)]);
}

#[test]
fn a_withdrawn_change_is_cleared_although_its_seen_values_hold() {
    let mut script = Script::new(4);
    script.take_in(10, &copy(34, 50));
    script.drain();
    script.withdraw(10);
    assert_eq!(script.drain(), [(10, Cleared)]);
    assert_eq!(script.reads(10), []);
}

#[test]
fn readers_of_a_withdrawn_write_run_again_unless_the_value_is_equal() {
    let mut script = Script::new(4);
    script.take_in(10, &set(34, 7));
    script.take_in(20, &set(34, 7));
    script.take_in(30, &copy(34, 50));
    script.drain();
    script.withdraw(20);
    assert_eq!(script.drain(), [(20, Cleared)]);
    script.withdraw(10);
    assert_eq!(script.drain(), [(10, Cleared), (30, Ran)]);
    assert_eq!(script.view(), []);
}

// The view.

#[test]
fn a_write_that_goes_leaves_the_previous_writers_value() {
    let mut script = Script::new(4);
    script.take_in(10, &set(34, 7));
    script.take_in(20, &set(34, 9));
    script.drain();
    script.withdraw(20);
    assert_eq!(script.drain(), [(20, Cleared)]);
    assert_eq!(script.view(), [(34, 7)]);
}

/// "the figure says T ≥ Last-Writer, and only the figure is right when the last writer runs again."
#[test]
fn the_last_writer_runs_again() {
    let mut script = Script::new(4);
    script.take_in(10, &set(34, 7));
    script.take_in(20, &copy(34, 50));
    script.drain();
    script.withdraw(10);
    assert_eq!(script.drain(), [(10, Cleared), (20, Ran)]);
    assert_eq!(script.view(), []);
}

#[test]
fn a_later_writer_keeps_the_view() {
    let mut script = Script::new(4);
    script.take_in(10, &set(34, 1));
    script.take_in(20, &copy(34, 50));
    script.take_in(30, &set(50, 3));
    script.drain();
    script.take_in(15, &set(34, 2));
    assert_eq!(script.drain(), [(15, Ran), (20, Ran)]);
    assert_eq!(script.view(), [(34, 2), (50, 3)]);
}

// Marking.

#[test]
fn a_rewritten_equal_value_marks_nobody() {
    let mut script = Script::new(4);
    script.take_in(20, &[copy(34, 35), set(50, 9)].concat());
    script.take_in(30, &copy(50, 60));
    script.drain();
    script.take_in(10, &set(34, 3));
    assert_eq!(script.drain(), [(10, Ran), (20, Ran)]);
    assert_eq!(script.view(), [(34, 3), (35, 3), (50, 9), (60, 9)]);
}

#[test]
fn marks_made_in_a_drain_have_their_turn_in_it() {
    let mut script = Script::new(8);
    for timestamp in [20, 30, 40, 50] {
        script.take_in(timestamp, &add(34, 1));
    }
    script.drain();
    script.take_in(10, &set(34, 7));
    let turns = [10, 20, 30, 40, 50].map(|timestamp| (timestamp, Ran));
    assert_eq!(script.drain(), turns);
    assert_eq!(script.view(), [(34, 11)]);
}

// Tables in form that calls need not reach.

/// A change with a program that writes nothing.
fn change(timestamp: u64, status: u16, reads: &[(u16, i32)], writes: &[(u16, i32)]) -> Change {
    Change {
        timestamp,
        status,
        reads: reads.to_vec(),
        writes: writes.to_vec(),
        ..Change::default()
    }
}

#[test]
fn an_invalid_change_without_reads_stood() {
    let mut tables = tables(2, &[0], &[change(10, INVALID, &[], &[(34, 7)])]);
    let mut expected = tables.clone();
    expected.status[0] = VALID;
    let answer = turn(2, &mut tables);
    let timestamp = 10;
    let turned = Stood;
    assert_eq!(answer, Ok(Some(Turn { timestamp, turned })));
    assert_eq!(tables, expected);
}

#[test]
fn a_stood_change_keeps_lists_that_its_program_would_not_give() {
    let changes = [
        change(10, VALID, &[], &[(34, 7)]),
        change(20, INVALID, &[(34, 7), (35, 0)], &[(60, 5), (34, 1)]),
    ];
    let mut tables = tables(2, &[0, 1], &changes);
    let mut expected = tables.clone();
    expected.status[1] = VALID;
    assert_eq!(totals(2, &mut tables), [(81, 1)]);
    assert_eq!(tables, expected);
}

#[test]
fn a_valid_withdrawn_change_with_lists_has_no_turn() {
    let mut withdrawn = change(10, VALID, &[(35, 1)], &[(34, 7)]);
    withdrawn.withdrawn = 1;
    let mut tables = tables(2, &[0], &[withdrawn]);
    let before = tables.clone();
    assert_eq!(totals(2, &mut tables), []);
    assert_eq!(tables, before);
}

#[test]
fn only_changed_settings_without_a_later_writer_are_stored_to_a_wrong_view() {
    let changes = [
        Change {
            program: [set(33, 1), set(34, 1), set(35, 2), set(36, 0)].concat(),
            ..change(10, NEW, &[], &[])
        },
        change(20, VALID, &[], &[(35, 9)]),
    ];
    let mut tables = tables(2, &[0, 1], &changes);
    tables.view.fill(-1);
    let mut expected = tables.view.clone();
    expected[33] = 1;
    assert_eq!(totals(2, &mut tables), [(40, 1)]);
    assert_eq!(tables.view, expected);
}

/// Tables with one change, and with these settings kept at these values.
fn keeping(kept: &[(usize, i32)], change: Change) -> Tables {
    let mut tables = tables(1, &[0], &[change]);
    for &(setting, value) in kept {
        tables.kept[setting] = value;
    }
    tables
}

/// "Any other fresh run, the plain run and a value as of a time before any write then begin from the
/// kept values" (document 02, R-7), whatever the cutoff is.
#[test]
fn a_run_reads_the_kept_values() {
    for cutoff in [0, 1, 10] {
        let copying = Change {
            program: copy(34, 50),
            ..change(10, NEW, &[], &[])
        };
        let mut tables = keeping(&[(34, 77)], copying.clone());
        tables.cutoff[0] = cutoff;
        let before = tables.clone();
        assert_eq!(totals(1, &mut tables), [(40, 1)]);
        let mut expected = keeping(
            &[(34, 77)],
            Change {
                status: VALID,
                reads: vec![(34, 77)],
                writes: vec![(50, 77)],
                ..copying
            },
        );
        expected.cutoff[0] = cutoff;
        expected.view.clone_from(&before.view);
        expected.view[50] = 77;
        assert_eq!(tables, expected);
    }
}

#[test]
fn a_seen_value_holds_where_it_is_the_kept_one() {
    for (seen, turned) in [(77, Stood), (1, Ran)] {
        let reader = Change {
            program: copy(34, 50),
            ..change(10, INVALID, &[(34, seen)], &[(50, seen)])
        };
        let mut tables = keeping(&[(34, 77)], reader);
        let timestamp = 10;
        let answer = turn(1, &mut tables);
        assert_eq!(answer, Ok(Some(Turn { timestamp, turned })));
    }
}

/// A write is added with the kept value, with the start value; one is removed with the kept value, with
/// the start value. Only another value than the kept one changes the setting.
#[test]
fn a_setting_changed_where_its_value_is_not_the_kept_one() {
    for (program, writes, changed) in [
        (set(34, 77), vec![], false),
        (set(34, 1), vec![], true),
        (vec![], vec![(34, 77)], false),
        (vec![], vec![(34, 1)], true),
    ] {
        let changes = [
            Change {
                program,
                ..change(10, INVALID, &[(99, 1)], &writes)
            },
            change(20, VALID, &[(34, 0)], &[]),
        ];
        let mut tables = tables(2, &[0, 1], &changes);
        tables.kept[34] = 77;
        tables.view.fill(-1);
        let removed = !writes.is_empty();
        let answer = turn(2, &mut tables);
        assert!(answer.is_ok_and(|turn| turn.is_some()));
        assert_eq!(tables.status[1], if changed { INVALID } else { VALID });
        // The view has what was written, or the kept value where a write is gone.
        let view = match (changed, removed) {
            (false, _) => -1,
            (true, false) => 1,
            (true, true) => 77,
        };
        assert_eq!(tables.view[34], view);
    }
}

#[test]
fn turns_and_drains_leave_cutoff_and_kept_values() {
    let mut tables = four_changes();
    tables.cutoff[0] = 10;
    tables.kept.fill(5);
    let before = tables.clone();
    assert!(turn(6, &mut tables).is_ok());
    totals(6, &mut tables);
    assert_eq!(tables.cutoff, before.cutoff);
    assert_eq!(tables.kept, before.kept);
}

/// The lowest writer above T is the last one to be marked, and only Valid changes are.
#[test]
fn marking_goes_through_the_next_writer() {
    let reader = |timestamp, status| change(timestamp, status, &[(34, 5)], &[]);
    let mut both = reader(40, VALID);
    both.writes = vec![(34, 6)];
    let changes = [
        reader(60, VALID),
        both,
        reader(20, VALID),
        change(10, INVALID, &[(99, 1)], &[(34, 5)]),
        reader(5, VALID),
        reader(50, VALID),
        change(30, NEW, &[], &[]),
    ];
    let mut tables = tables(7, &[4, 3, 2, 6, 1, 5, 0], &changes);
    let answer = turn(7, &mut tables);
    let timestamp = 10;
    let turned = Ran;
    assert_eq!(answer, Ok(Some(Turn { timestamp, turned })));
    let expected = [VALID, INVALID, INVALID, VALID, VALID, VALID, NEW];
    assert_eq!(tables.status, expected);
    // The write of 34 is gone, and change 40 writes it later.
    assert_eq!(tables.writes, [0, 1, 0, 0, 0, 0, 0]);
    assert_eq!(tables.view, Tables::new(7).view);
}

#[test]
fn slots_behind_shorter_lists_become_0() {
    let long: Vec<(u16, i32)> = (0..32).map(|i| (100 + i, -1)).collect();
    let mut invalid = change(10, INVALID, &long, &long);
    invalid.program = copy(34, 50);
    let mut tables = tables(2, &[0], &[invalid]);
    assert_eq!(totals(2, &mut tables), [(40, 1)]);
    let mut expected = Change {
        program: copy(34, 50),
        ..change(10, VALID, &[(34, 1)], &[(50, 1)])
    };
    assert_eq!(
        tables,
        crate::examples::tables(2, &[0], &[expected.clone()])
    );
    tables.status[0] = INVALID;
    tables.withdrawn[0] = 1;
    assert_eq!(totals(2, &mut tables), [(42, 1)]);
    expected.withdrawn = 1;
    expected.reads.clear();
    expected.writes.clear();
    assert_eq!(tables, crate::examples::tables(2, &[0], &[expected]));
}

#[test]
fn turn_and_drain_refuse_1_then_2_and_alter_nothing() {
    let mut tables = four_changes();
    tables.status[0] = 3;
    let broken = tables.clone();
    for (n, refusal) in [(5, Refusal::Length), (6, Refusal::Form)] {
        assert_eq!(turn(n, &mut tables), Err(refusal));
        let mut lent = [9; TOTALS];
        assert_eq!(drain(n, &mut tables, &mut lent), Err(refusal));
        assert_eq!(lent, [9; TOTALS]);
        assert_eq!(tables, broken);
    }
}

#[test]
fn a_drain_of_four_changes() {
    let mut tables = four_changes();
    // Change 20 sets 34 to 9 and has 30 run again; 40 is withdrawn.
    let expected = [(80, 1), (120, 1), (162, 1)];
    assert_eq!(totals(6, &mut tables), expected);
    assert_eq!(tables.view[34], 9);
    assert_eq!(tables.view[50], 9);
}
