//! Random lists of calls, and tables, whose changes read and write the same few settings.

use super::packages::{self, Breach};
use super::{
    damage, no_version, other_version, tables, totals, version, Random, Settings, EXTREMES,
    REFUSED_TOTALS,
};
use outside::checker::TOTALS;
use outside::package::{lay_out, Entry, ANSWERS};
use outside::program::{
    op, Access, Instruction, Version, INSTRUCTION_BYTES, MAX_INSTRUCTIONS, REGISTERS, SETTINGS,
};
use outside::tables::{Status, Tables, INFINITY, LIST_ENTRIES, PROGRAM_BYTES};
use std::collections::HashSet;
use std::iter;

/// A call that may alter the tables, with its arguments besides N and the tables.
#[derive(Clone, Debug)]
#[allow(missing_docs)]
pub enum Call {
    /// The version may be any number.
    TakeIn {
        timestamp: u64,
        version: u16,
        program: Vec<u8>,
    },
    Withdraw {
        timestamp: u64,
    },
    Cutoff {
        timestamp: u64,
    },
    /// `answers` is the lent slice.
    TakeInPackage {
        package: Vec<u8>,
        answers: Vec<u8>,
    },
    Turn,
    /// `totals` is the lent slice.
    Drain {
        totals: Vec<u16>,
    },
}

/// A change to take in.
#[derive(Clone, Debug)]
#[allow(missing_docs)]
pub struct Change {
    pub timestamp: u64,
    pub version: Version,
    pub program: Vec<u8>,
}

impl Change {
    /// The call that takes it in.
    pub fn call(self) -> Call {
        Call::TakeIn {
            timestamp: self.timestamp,
            version: self.version.number(),
            program: self.program,
        }
    }

    /// The entry of a package that does.
    pub fn entry(self) -> Entry {
        Entry::Change {
            timestamp: self.timestamp,
            version: self.version,
            program: self.program,
        }
    }
}

/// What the calls of a list are made of: few settings, few timestamps, and what was sent before.
pub struct Source {
    settings: Settings,
    /// By rising number, and how many of them from the cutoff on are sent: the others come where that
    /// is higher.
    timestamps: Vec<u64>,
    ahead: usize,
    sent: Vec<Change>,
    /// One call in so many is a cutoff, or none.
    cutoffs: Option<usize>,
    /// That of the tables that the last call was for.
    cutoff: u64,
}

/// The most blocks of a program that calls bring.
const MOST_BLOCKS: usize = 3;

/// How changes of tables are made of a source.
#[derive(Clone, Copy, Debug)]
pub struct Shape {
    /// One in so many changes is New or Invalid.
    pub waiting: usize,
    /// The most parts of a program that read or write.
    pub blocks: usize,
    /// The most entries of a list.
    pub longest: usize,
    /// Whether most Valid changes and some Invalid ones saw the values as of their timestamps, most
    /// New ones write what the last Invalid change below wrote, and half of the view is what the
    /// last writers wrote.
    pub settled: bool,
}

impl Shape {
    /// Of small tables.
    pub const SMALL: Self = Self {
        waiting: 2,
        blocks: MOST_BLOCKS,
        longest: 4,
        settled: false,
    };
}

impl Source {
    /// A source of calls for tables of capacity `n`.
    pub fn new(random: &mut Random, n: usize) -> Self {
        let count = 4 + random.below(3) * random.below(3);
        Self::naming(random, n, count)
    }

    /// The same, with changes that name so many settings.
    pub fn naming(random: &mut Random, n: usize, count: usize) -> Self {
        let settings = match random.below(2) {
            // Small values name these settings.
            0 => Settings {
                first: 0,
                step: 1,
                count,
            },
            _ => Settings::new(random, count),
        };
        let count = 6 * n as u64 + 24;
        let (first, step) = random.pick(&[
            (1, 1),
            (250, 1),
            ((1 << 32) - 10, 1),
            (INFINITY - count, 1),
            (1, INFINITY / count),
            // Of four consoles alone, the first or the last among them.
            (256, 64),
            (255, 64),
        ]);
        Self {
            settings,
            timestamps: (0..count).map(|index| first + step * index).collect(),
            ahead: 2 * n + 4,
            sent: Vec::new(),
            cutoffs: random.pick(&[None, Some(8), Some(16), Some(32)]),
            cutoff: 0,
        }
    }

    /// The same, without cutoffs among its calls.
    pub fn without_cutoffs(self) -> Self {
        Self {
            cutoffs: None,
            ..self
        }
    }

    /// The same, with cutoffs among its calls.
    pub fn with_cutoffs(self) -> Self {
        Self {
            cutoffs: self.cutoffs.or(Some(8)),
            ..self
        }
    }

    /// A setting to ask for: most often one that the changes name.
    pub fn setting(&self, random: &mut Random) -> usize {
        match random.below(16) {
            0 => random.pick(&[SETTINGS, 65_536, usize::MAX]),
            1 => random.below(SETTINGS),
            _ => self.settings.pick(random) as usize,
        }
    }

    /// A timestamp to ask for or to withdraw: most often one that was sent and is not below the
    /// cutoff, often the last, and some next to the cutoff.
    pub fn timestamp(&self, random: &mut Random) -> u64 {
        match (random.below(16), self.sent.last()) {
            (0, _) => random.pick(&[0, INFINITY]),
            (1, _) if self.cutoff > 0 => self.cutoff - 1 + random.below(3) as u64,
            (1 | 2, _) | (_, None) => {
                let (below, ahead) = self.about_cutoff();
                random.pick(if ahead.is_empty() { below } else { ahead })
            }
            (3..8, Some(last)) => last.timestamp,
            _ => {
                let mut pick = || self.sent[random.below(self.sent.len())].timestamp;
                let mut timestamp = pick();
                for _ in 0..3 {
                    if timestamp < self.cutoff {
                        timestamp = pick();
                    }
                }
                timestamp
            }
        }
    }

    /// The timestamps below the cutoff, and those from it on that are sent.
    fn about_cutoff(&self) -> (&[u64], &[u64]) {
        let stamps = &self.timestamps;
        let (below, rest) = stamps.split_at(stamps.partition_point(|&stamp| stamp < self.cutoff));
        (below, &rest[..rest.len().min(self.ahead)])
    }

    /// The next call on these tables, which must be in form.
    pub fn call(&mut self, random: &mut Random, tables: &Tables) -> Call {
        self.cutoff = tables.cutoff();
        if self.cutoffs.is_some_and(|calls| random.below(calls) == 0) {
            let timestamp = self.new_cutoff(random, tables);
            return Call::Cutoff { timestamp };
        }
        let held = 0..tables.held_count();
        let waiting = held
            .clone()
            .filter(|&place| tables.status(place) != Status::Valid);
        let waiting: Vec<u64> = waiting.map(|place| tables.timestamps[place]).collect();
        let marked = held
            .into_iter()
            .any(|place| tables.status(place) == Status::Invalid);
        if let (true, 0, Some(last)) = (marked, random.below(8), self.sent.last()) {
            // Where its writes have marked a change, that change will stand.
            let timestamp = last.timestamp;
            return Call::Withdraw { timestamp };
        }
        // Most often a turn where one is due, so that changes arrive and go between single turns.
        let kinds = match waiting.is_empty() {
            true => 11,
            false => 18,
        };
        match random.below(kinds) {
            0..6 => {
                let mut call = self.change(random).call();
                if let (Call::TakeIn { version, .. }, 0) = (&mut call, random.below(24)) {
                    *version = no_version(random);
                }
                call
            }
            6 => self.package(random),
            7 | 8 => Call::Withdraw {
                timestamp: match random.below(3) {
                    0 if !waiting.is_empty() => random.pick(&waiting),
                    _ => self.timestamp(random),
                },
            },
            9 => {
                let length = match random.below(24) {
                    0 => random.pick(&REFUSED_TOTALS),
                    _ => TOTALS,
                };
                let totals = totals(random, length);
                Call::Drain { totals }
            }
            _ => Call::Turn,
        }
    }

    /// A cutoff for these tables, which must be in form: most often one that drops a few changes, so
    /// that timestamps are left for others.
    fn new_cutoff(&self, random: &mut Random, tables: &Tables) -> u64 {
        let cutoff = tables.cutoff();
        let order = tables.order[..tables.held_count()].iter();
        let places: Vec<usize> = order.map(|&place| usize::from(place)).collect();
        let held: Vec<u64> = places
            .iter()
            .map(|&place| tables.timestamps[place])
            .collect();
        let waiting = |&place: &usize| tables.status(place) != Status::Valid;
        let settled = places.iter().position(waiting).unwrap_or(places.len());
        match (random.below(24), held.last()) {
            (0, _) => random.pick(&[0, INFINITY]),
            // A lower one, and the same.
            (1 | 2, _) if cutoff > 1 => match random.below(2) {
                0 => cutoff - 1,
                _ => 1 + random.below(cutoff as usize - 1) as u64,
            },
            (3, _) => cutoff.max(1),
            // One for which all go, or would.
            (4, Some(highest)) => highest + 1,
            // Any one.
            (5, Some(_)) => random.pick(&held) + random.below(2) as u64,
            // As many go as are settled, or would with the next one.
            (6, Some(_)) if settled > 0 => held[settled - 1] + 1,
            (7..10, Some(_)) if settled < held.len() => held[settled] + 1,
            (_, Some(_)) => {
                let gone = random.below(settled.min(4) + 1);
                match (gone, held.get(gone)) {
                    (0, _) => held[0],
                    // Next to one that goes, or that of the next one, which stays.
                    (_, Some(&next)) if random.below(2) == 0 => next,
                    _ => held[gone - 1] + 1,
                }
            }
            (_, None) => {
                let (_, ahead) = self.about_cutoff();
                let timestamp = ahead.get(random.below(3));
                timestamp.copied().unwrap_or(cutoff.max(1))
            }
        }
    }

    /// A change to take in: most often one that was not sent.
    fn change(&mut self, random: &mut Random) -> Change {
        let timestamp = self.timestamp(random);
        let mut any = self.stamped(random, timestamp);
        match random.below(16) {
            0 | 1 if !self.sent.is_empty() => {
                let mut again = self.sent[random.below(self.sent.len())].clone();
                if random.below(4) == 0 {
                    again.version = other_version(again.version);
                }
                return again;
            }
            2 => return any,
            3 => {
                damage(random, &mut any.program);
                return any;
            }
            _ => {}
        }
        self.new_change(random).unwrap_or(any)
    }

    /// A change with this timestamp.
    pub fn stamped(&self, random: &mut Random, timestamp: u64) -> Change {
        let version = version(random);
        Change {
            timestamp,
            version,
            program: self.program(random, version),
        }
    }

    /// A change that was not sent, most often not below the cutoff, or none where there is none.
    pub fn new_change(&mut self, random: &mut Random) -> Option<Change> {
        let sent: HashSet<u64> = self.sent.iter().map(|change| change.timestamp).collect();
        let (below, ahead) = self.about_cutoff();
        let [below, ahead] = [below, ahead].map(|timestamps| {
            let unsent = timestamps.iter().copied();
            let unsent = unsent.filter(|timestamp| !sent.contains(timestamp));
            unsent.collect::<Vec<u64>>()
        });
        let unsent = match random.below(16) {
            0 if !below.is_empty() => below,
            _ if ahead.is_empty() => return None,
            _ => ahead,
        };
        let timestamp = random.pick(&unsent);
        let change = self.stamped(random, timestamp);
        self.sent.push(change.clone());
        Some(change)
    }

    /// A package of few entries: most often one that keeps the layout.
    fn package(&mut self, random: &mut Random) -> Call {
        let mut entries = Vec::new();
        for _ in 0..random.below(7) {
            entries.push(match random.below(3) {
                0 => Entry::Withdrawal {
                    timestamp: self.timestamp(random),
                },
                _ => {
                    let mut change = self.change(random);
                    // A package has whole instructions, and at most 32 for a change.
                    let whole = change.program.len() / INSTRUCTION_BYTES;
                    let instructions = whole.min(MAX_INSTRUCTIONS);
                    change.program.truncate(INSTRUCTION_BYTES * instructions);
                    change.entry()
                }
            });
        }
        let mut package = lay_out(&entries);
        if random.below(8) == 0 {
            let breach = random.pick(&Breach::ALL);
            breach.make(random, &mut package);
        }
        let length = match random.below(24) {
            0 => random.pick(&[0, ANSWERS - 1, ANSWERS + 1]),
            _ => ANSWERS,
        };
        Call::TakeInPackage {
            package,
            answers: packages::answers(random, length),
        }
    }

    /// A well formed program for this version.
    pub fn program(&self, random: &mut Random, version: Version) -> Vec<u8> {
        self.program_of(random, version, MOST_BLOCKS)
    }

    /// A well formed program of at most so many blocks.
    fn program_of(&self, random: &mut Random, version: Version, most: usize) -> Vec<u8> {
        let mut program: Vec<Instruction> = Vec::new();
        let blocks = match random.below(16) {
            0 => 0,
            _ => 1 + random.below(most),
        };
        for _ in 0..blocks {
            let block = match version {
                Version::One if random.below(3) == 0 => self.own_write(random),
                _ => self.block(random),
            };
            // With what may come before the block.
            if program.len() + 2 + block.len() > MAX_INSTRUCTIONS {
                break;
            }
            let n = block.len() as i32;
            match random.below(24) {
                // The block is carried out or not, as a setting says.
                0..8 => {
                    let a = register(random);
                    program.push(with_number(op::READ, a, self.settings.pick(random)));
                    program.push(Instruction {
                        op: random.pick(&[op::SKIP_IF_ZERO, op::SKIP_IF_NEGATIVE]),
                        b: a,
                        n,
                        ..Instruction::default()
                    });
                }
                // It is not carried out, or all ends before it.
                8 => program.push(with_number(op::SKIP, 0, n)),
                9 => program.push(with_number(op::STOP, 0, 0)),
                _ => {}
            }
            program.extend(block);
        }
        // Some programs use every place, so that their last instructions are those of the highest.
        if random.below(8) == 0 {
            let unused = with_number(op::CONSTANT, REGISTERS as u8 - 1, 0);
            let missing = MAX_INSTRUCTIONS - program.len();
            program.splice(..0, iter::repeat_n(unused, missing));
        }
        program.iter().flat_map(|i| i.to_bytes()).collect()
    }

    /// A few instructions that read or write.
    fn block(&self, random: &mut Random) -> Vec<Instruction> {
        let (x, y) = (self.settings.pick(random), self.settings.pick(random));
        let (a, b) = (register(random), register(random));
        let constant = with_number(op::CONSTANT, b, self.value(random));
        let by_register = |op, a, b| Instruction {
            op,
            a,
            b,
            ..Instruction::default()
        };
        match random.below(9) {
            // A setting is set, copied, changed.
            0 | 1 => vec![constant, with_number(op::WRITE, b, x)],
            2 => vec![with_number(op::READ, a, x), with_number(op::WRITE, a, y)],
            3 | 4 => {
                let op = random.pick(&[op::ADD, op::SUBTRACT, op::XOR, op::AND]);
                let changed = Instruction {
                    c: b,
                    ..by_register(op, a, a)
                };
                let target = random.pick(&[x, x, y]);
                vec![
                    with_number(op::READ, a, x),
                    constant,
                    changed,
                    with_number(op::WRITE, a, target),
                ]
            }
            // A setting names the setting that is read, or written.
            5 => vec![
                with_number(op::READ, a, x),
                by_register(op::READ_INDEXED, b, a),
                with_number(op::WRITE, b, y),
            ],
            6 => vec![
                with_number(op::READ, a, x),
                constant,
                by_register(op::WRITE_INDEXED, b, a),
            ],
            // A setting is written twice, unless another one is 0.
            7 => vec![
                constant,
                with_number(op::WRITE, b, x),
                with_number(op::READ, a, y),
                Instruction {
                    n: 1,
                    ..by_register(op::SKIP_IF_ZERO, 0, a)
                },
                with_number(op::WRITE, b, x),
            ],
            // A setting is only read.
            _ => vec![with_number(op::READ, a, x)],
        }
    }

    /// A few instructions that come to a setting which they have written.
    fn own_write(&self, random: &mut Random) -> Vec<Instruction> {
        let (x, y) = (self.settings.pick(random), self.settings.pick(random));
        let (a, b) = (register(random), register(random));
        let constant = with_number(op::CONSTANT, b, self.value(random));
        let named = with_number(op::CONSTANT, a, x);
        let [read, write] = [op::READ, op::WRITE].map(|op| move |a, n| with_number(op, a, n));
        let [read_named, write_named] = [op::READ_INDEXED, op::WRITE_INDEXED].map(|op| {
            move |value, number| Instruction {
                op,
                a: value,
                b: number,
                ..Instruction::default()
            }
        });
        match random.below(6) {
            // A setting is written and read back, and a sum is written to it again, or to another.
            0 => {
                let sum = Instruction {
                    op: op::ADD,
                    a,
                    b: a,
                    c: b,
                    n: 0,
                };
                let target = random.pick(&[x, y]);
                vec![constant, write(b, x), read(a, x), sum, write(a, target)]
            }
            // It was read before.
            1 => vec![read(a, x), constant, write(b, x), read(a, x), write(a, y)],
            // By register.
            2 => vec![
                constant,
                named,
                write_named(b, a),
                read_named(b, a),
                write(b, y),
            ],
            3 => vec![
                read(b, x),
                named,
                write(7, x),
                read_named(b, a),
                write_named(b, a),
            ],
            // It is written again after another one.
            4 => vec![constant, write(b, x), write(a, y), named, write_named(a, a)],
            // What another setting names is written, read back and written again.
            _ => vec![
                read(a, x),
                constant,
                write_named(b, a),
                read_named(b, a),
                write_named(7, a),
                read_named(b, a),
                write(b, y),
            ],
        }
    }

    /// A value that a change writes: most often small, so that many are equal.
    fn value(&self, random: &mut Random) -> i32 {
        match random.below(12) {
            0 => random.pick(&EXTREMES),
            1 | 2 => self.settings.pick(random),
            3 => -1,
            _ => random.below(2) as i32,
        }
    }

    /// Small tables in form that hold so many changes, with programs and lists made of this. Calls
    /// need not reach them: nothing ties a change's lists to its program, or the view to the lists.
    pub fn tables(&self, random: &mut Random, n: usize, held: usize) -> Tables {
        self.tables_of(random, n, held, &Shape::SMALL)
    }

    /// The same, of another shape.
    pub fn tables_of(&self, random: &mut Random, n: usize, held: usize, shape: &Shape) -> Tables {
        let mut tables = tables::in_form(random, n, held);
        for place in 0..held {
            tables.status[place] = match random.below(3 * shape.waiting) {
                0 => 0,
                1 | 2 => 2,
                _ => 1,
            };
            tables.withdrawn[place] = random.pick(&[0, 0, 0, 0, 1]);
            let program = self.program_of(random, tables.version(place), shape.blocks);
            put_program(&mut tables, place, &program);
            let longest = match tables.status[place] {
                0 => 0,
                _ => shape.longest,
            };
            let slots = LIST_ENTRIES * place..LIST_ENTRIES * (place + 1);
            let (settings, values) = (&mut tables.sources, &mut tables.seen);
            let (settings, values) = (&mut settings[slots.clone()], &mut values[slots.clone()]);
            tables.reads[place] = self.put_list(random, longest, settings, values);
            let (settings, values) = (&mut tables.targets, &mut tables.written);
            let (settings, values) = (&mut settings[slots.clone()], &mut values[slots]);
            tables.writes[place] = self.put_list(random, longest, settings, values);
        }
        for value in &mut tables.view {
            *value = random.below(3) as i32;
        }
        for value in &mut tables.kept {
            *value = random.below(2) as i32;
        }
        if shape.settled {
            settle(random, &mut tables);
        }
        tables
    }

    /// Replaces a list by one of at most so many entries and returns its length.
    fn put_list(
        &self,
        random: &mut Random,
        longest: usize,
        settings: &mut [u16],
        values: &mut [i32],
    ) -> u16 {
        settings.fill(0);
        values.fill(0);
        let mut count = 0;
        for _ in 0..random.below(longest + 1) {
            let setting = self.settings.pick(random) as u16;
            if !settings[..count].contains(&setting) {
                settings[count] = setting;
                values[count] = random.below(2) as i32;
                count += 1;
            }
        }
        count as u16
    }
}

/// Ties changes and the view to the write lists, as [`Shape::settled`] says.
fn settle(random: &mut Random, tables: &mut Tables) {
    let mut values = tables.kept_settings();
    let mut last_invalid = Vec::new();
    for rank in 0..tables.held_count() {
        let place = usize::from(tables.order[rank]);
        let status = tables.status(place);
        let slots = LIST_ENTRIES * place..;
        let sources = &tables.sources[slots.clone()][..usize::from(tables.reads[place])];
        let seen = tables.seen[slots].iter_mut().zip(sources);
        match (status, random.below(4)) {
            (Status::New, 1..) => put_program(tables, place, &writing(&last_invalid)),
            (Status::Valid, 1..) | (Status::Invalid, 0) => {
                seen.for_each(|(seen, &setting)| *seen = values[usize::from(setting)]);
            }
            _ => {}
        }
        let writes: Vec<Access> = tables.write_list(place).collect();
        for write in &writes {
            values[usize::from(write.setting)] = write.value;
        }
        if status == Status::Invalid {
            last_invalid = writes;
        }
    }
    for (entry, value) in tables.view.iter_mut().zip(values) {
        if random.below(2) == 0 {
            *entry = value;
        }
    }
}

/// A program that writes these entries, or as many as it can.
fn writing(list: &[Access]) -> Vec<u8> {
    let instructions = list.iter().take(MAX_INSTRUCTIONS / 2).flat_map(|entry| {
        [
            with_number(op::CONSTANT, 0, entry.value),
            with_number(op::WRITE, 0, entry.setting.into()),
        ]
    });
    instructions.flat_map(|i| i.to_bytes()).collect()
}

/// Replaces the program at a place.
fn put_program(tables: &mut Tables, place: usize, program: &[u8]) {
    tables.lengths[place] = (program.len() / INSTRUCTION_BYTES) as u16;
    let bytes = &mut tables.programs[PROGRAM_BYTES * place..][..PROGRAM_BYTES];
    bytes.fill(0);
    bytes[..program.len()].copy_from_slice(program);
}

/// An instruction with a register and a number.
fn with_number(op: u8, a: u8, n: i32) -> Instruction {
    Instruction {
        op,
        a,
        n,
        ..Instruction::default()
    }
}

fn register(random: &mut Random) -> u8 {
    random.below(3) as u8
}
