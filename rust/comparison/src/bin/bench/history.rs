//! Histories to time calls on: changes, and the tables that the proved library makes of them.

use comparison::generate::Random;
use comparison::proved::calls as proved;
use outside::calls::Refusal;
use outside::checker::{self, TOTALS};
use outside::package::{lay_out, Entry, ANSWERS, DONE};
use outside::program::Version;
use std::iter;
use tolbezun::{program, Instruction, Tables, MAX_CAPACITY, SETTINGS};

/// Capacities with held counts: growth with the held count alone, then with both.
pub const SIZES: [(usize, usize); 5] = [
    (MAX_CAPACITY, 64),
    (MAX_CAPACITY, 512),
    (MAX_CAPACITY, MAX_CAPACITY),
    (64, 64),
    (512, 512),
];

/// Held counts of tables that are full.
pub const FULL: [usize; 3] = [64, 512, MAX_CAPACITY];

/// How many settings changes name that are to meet often: 0 to 63.
pub const FEW: usize = 64;

/// A setting that every [`long`] change reads and none writes.
pub const READ_BY_LONG: usize = 527;

/// A change of version 0.
pub struct Change {
    pub timestamp: u64,
    pub program: Vec<u8>,
}

/// The timestamp of the change of this rank.
pub fn stamp(rank: usize) -> u64 {
    1_000 * (rank as u64 + 1)
}

/// Changes with timestamps of these ranks.
pub fn changes(
    ranks: impl IntoIterator<Item = usize>,
    mut program: impl FnMut(usize) -> Vec<u8>,
) -> Vec<Change> {
    let change = |rank| Change {
        timestamp: stamp(rank),
        program: program(rank),
    };
    ranks.into_iter().map(change).collect()
}

/// A package of these changes.
pub fn package(changes: &[Change]) -> Vec<u8> {
    let entry = |change: &Change| Entry::Change {
        timestamp: change.timestamp,
        version: Version::Zero,
        program: change.program.clone(),
    };
    lay_out(&changes.iter().map(entry).collect::<Vec<_>>())
}

/// Tables of capacity `n` that hold these changes, all New, arrived in this order.
pub fn taken_in(n: usize, changes: &[Change]) -> Tables {
    let mut tables = Tables::new(n);
    assert_eq!(proved::set_up(n, &mut tables), Ok(()));
    take_in(n, &mut tables, changes);
    tables
}

/// Takes in these changes, in this order.
pub fn take_in(n: usize, tables: &mut Tables, changes: &[Change]) {
    // A package of so many is not too long, whatever their programs.
    for changes in changes.chunks(128) {
        let mut answers = [DONE; ANSWERS];
        let taken = proved::take_in_package(n, tables, &package(changes), &mut answers);
        assert_eq!((taken, answers), (Ok(()), [DONE; ANSWERS]));
    }
}

/// Tables of capacity `n` that hold these changes, drained.
pub fn drained(n: usize, changes: &[Change]) -> Tables {
    let mut tables = taken_in(n, changes);
    assert!(drain(n, &mut tables).is_ok());
    tables
}

/// Drains, and returns the totals.
pub fn drain(n: usize, tables: &mut Tables) -> Result<[u16; TOTALS], u8> {
    let mut totals = [u16::MAX; TOTALS];
    proved::drain(n, tables, &mut totals).map(|()| totals)
}

/// As [`drain`], by the outside implementation.
pub fn drain_outside(
    n: usize,
    tables: &mut outside::tables::Tables,
) -> Result<[u16; TOTALS], Refusal> {
    let mut totals = [u16::MAX; TOTALS];
    checker::drain(n, tables, &mut totals).map(|()| totals)
}

/// Panics unless the view is what a plain run leaves.
pub fn assert_drained(n: usize, tables: &Tables) {
    let mut settings = [0; SETTINGS];
    assert_eq!(proved::plain_run(n, tables, &mut settings), Ok(()));
    assert!(tables.view == settings, "the view is not a plain run's");
}

/// Sets these settings to a value.
pub fn set(settings: impl IntoIterator<Item = usize>, value: i32) -> Vec<u8> {
    let constant = Instruction::Constant { a: 0, n: value };
    let writes = settings.into_iter().map(|setting| write(0, setting));
    program(&iter::once(constant).chain(writes).collect::<Vec<_>>())
}

/// Adds 1 to a setting, and puts the sum into another.
pub fn pass_on(from: usize, to: usize) -> Vec<u8> {
    program(&[
        read(0, from),
        Instruction::Constant { a: 1, n: 1 },
        add(0, 1),
        write(0, to),
    ])
}

/// Adds two settings and 1, and puts the sum into a third.
pub fn sum(from: [usize; 2], to: usize) -> Vec<u8> {
    program(&[
        read(0, from[0]),
        read(1, from[1]),
        add(0, 1),
        Instruction::Constant { a: 1, n: 1 },
        add(0, 1),
        write(0, to),
    ])
}

/// A sum of two of so many settings into one of them.
pub fn sum_among(random: &mut Random, settings: usize) -> Vec<u8> {
    let mut setting = || random.below(settings);
    sum([setting(), setting()], setting())
}

/// Reads 16 settings that no such change writes, one of them [`READ_BY_LONG`], and writes 16 others.
pub fn long(random: &mut Random) -> Vec<u8> {
    let first = random.below(16);
    let reads = (0..16).map(|index| read(index as u8 % 8, READ_BY_LONG - first + index));
    let writes = (0..16).map(|index| write(index as u8 % 8, first + index));
    program(&reads.chain(writes).collect::<Vec<_>>())
}

/// Reads 12 of [`FEW`] settings, and writes 12 of them: four sums of three, each three times.
pub fn dense(random: &mut Random) -> Vec<u8> {
    const SUMS: [u8; 4] = [0, 2, 4, 6];
    let from = distinct(random, 12);
    let to = distinct(random, 12);
    let mut instructions = Vec::new();
    for (a, &setting) in (0..8).zip(&from) {
        instructions.push(read(a, setting));
    }
    instructions.extend(SUMS.map(|a| add(a, a + 1)));
    for (a, &setting) in SUMS.into_iter().zip(&from[8..]) {
        instructions.push(read(a + 1, setting));
    }
    instructions.extend(SUMS.map(|a| add(a, a + 1)));
    for (a, &setting) in SUMS.into_iter().cycle().zip(&to) {
        instructions.push(write(a, setting));
    }
    program(&instructions)
}

/// So many distinct ones of [`FEW`] settings.
fn distinct(random: &mut Random, count: usize) -> Vec<usize> {
    let mut settings: Vec<usize> = (0..FEW).collect();
    let mut pick = || settings.swap_remove(random.below(settings.len()));
    (0..count).map(|_| pick()).collect()
}

/// ra = ra + rb.
fn add(a: u8, b: u8) -> Instruction {
    Instruction::Add { a, b: a, c: b }
}

fn read(a: u8, setting: usize) -> Instruction {
    let setting = setting as i32;
    Instruction::Read { a, setting }
}

fn write(a: u8, setting: usize) -> Instruction {
    let setting = setting as i32;
    Instruction::Write { a, setting }
}
