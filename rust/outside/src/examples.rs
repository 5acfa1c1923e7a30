//! Tables, programs, packages and lists of calls for the tests.

use crate::book::{self, turns_of_drain, Breach, Call, LoggedTurn};
use crate::calls::Refusal;
use crate::checker::{drain, turn, Turned, TOTALS};
use crate::cutoff::cutoff;
use crate::intake::{take_in, withdraw, Taken};
use crate::package::{
    package_out, take_in_package, ALREADY_HELD, ANSWERS, DONE, ENTRY_BYTES, MAX_BYTES,
};
use crate::program::{op, Instruction, INSTRUCTION_BYTES};
use crate::start::start_value;
use crate::tables::{Tables, LIST_ENTRIES, PROGRAM_BYTES};

pub const NEW: u16 = 0;
pub const VALID: u16 = 1;
pub const INVALID: u16 = 2;

/// A change as the tables hold it.
#[derive(Clone, Default)]
pub struct Change {
    pub timestamp: u64,
    pub status: u16,
    pub withdrawn: u16,
    pub version: u16,
    pub program: Vec<Instruction>,
    /// The read list with the values seen.
    pub reads: Vec<(u16, i32)>,
    /// The write list with the values written.
    pub writes: Vec<(u16, i32)>,
}

/// Tables of capacity `n` with this order and these changes, in order of arrival. The view is
/// at the start.
pub fn tables(n: usize, order: &[u16], changes: &[Change]) -> Tables {
    let mut tables = Tables::new(n);
    tables.held[0] = changes.len() as u16;
    tables.order[..order.len()].copy_from_slice(order);
    for (place, change) in changes.iter().enumerate() {
        tables.timestamps[place] = change.timestamp;
        tables.status[place] = change.status;
        tables.withdrawn[place] = change.withdrawn;
        tables.versions[place] = change.version;
        tables.lengths[place] = change.program.len() as u16;
        for (index, byte) in change.program.iter().flat_map(|i| i.to_bytes()).enumerate() {
            tables.programs[PROGRAM_BYTES * place + index] = byte;
        }
        tables.reads[place] = change.reads.len() as u16;
        for (index, &(setting, value)) in change.reads.iter().enumerate() {
            tables.sources[LIST_ENTRIES * place + index] = setting;
            tables.seen[LIST_ENTRIES * place + index] = value;
        }
        tables.writes[place] = change.writes.len() as u16;
        for (index, &(setting, value)) in change.writes.iter().enumerate() {
            tables.targets[LIST_ENTRIES * place + index] = setting;
            tables.written[LIST_ENTRIES * place + index] = value;
        }
    }
    tables
}

/// Tables of capacity 6 that hold four changes, which calls can leave so:
///
/// - place 0: 30 copies 34 to 50, Valid;
/// - place 1: 10 sets 34 to 7 and 40 to 3, Valid, version 1;
/// - place 2: 40 sets 34 to −5, withdrawn and Invalid, its turn to come, version 1;
/// - place 3: 20 sets 34 to 9, New.
pub fn four_changes() -> Tables {
    let mut tables = tables(
        6,
        &[1, 3, 0, 2],
        &[
            Change {
                timestamp: 30,
                status: VALID,
                program: copy(34, 50),
                reads: vec![(34, 7)],
                writes: vec![(50, 7)],
                ..Change::default()
            },
            Change {
                timestamp: 10,
                status: VALID,
                version: 1,
                program: [set(34, 7), set(40, 3)].concat(),
                writes: vec![(34, 7), (40, 3)],
                ..Change::default()
            },
            Change {
                timestamp: 40,
                status: INVALID,
                withdrawn: 1,
                version: 1,
                program: set(34, -5),
                writes: vec![(34, -5)],
                ..Change::default()
            },
            Change {
                timestamp: 20,
                status: NEW,
                program: set(34, 9),
                ..Change::default()
            },
        ],
    );
    tables.view[34] = -5;
    tables.view[40] = 3;
    tables.view[50] = 7;
    tables
}

/// A list of calls, made one after the other on tables just set up.
#[derive(Clone)]
pub struct Script {
    n: usize,
    pub tables: Tables,
    pub calls: Vec<Call>,
}

impl Script {
    pub fn new(n: usize) -> Self {
        Self {
            n,
            tables: Tables::new(n),
            calls: Vec::new(),
        }
    }

    /// Takes in a change of version 0, which must be answered done.
    #[track_caller]
    pub fn take_in(&mut self, timestamp: u64, program: &[Instruction]) {
        assert_eq!(self.try_take_in(timestamp, 0, program), DONE);
    }

    /// Takes in a change of version 1, which must be answered done.
    #[track_caller]
    pub fn take_in_1(&mut self, timestamp: u64, program: &[Instruction]) {
        assert_eq!(self.try_take_in(timestamp, 1, program), DONE);
    }

    /// Takes in a change and returns the answer.
    pub fn try_take_in(&mut self, timestamp: u64, version: u16, program: &[Instruction]) -> u8 {
        let program = assemble(program);
        let answer = match take_in(self.n, &mut self.tables, timestamp, version, &program) {
            Ok(Taken::Done) => DONE,
            Ok(Taken::AlreadyHeld) => ALREADY_HELD,
            Err(refusal) => refusal.number(),
        };
        self.calls.push(Call::TakeIn {
            timestamp,
            version,
            program,
            answer,
        });
        answer
    }

    /// Withdraws a change, which must be answered done.
    #[track_caller]
    pub fn withdraw(&mut self, timestamp: u64) {
        assert_eq!(self.try_withdraw(timestamp), DONE);
    }

    /// Withdraws a change and returns the answer.
    pub fn try_withdraw(&mut self, timestamp: u64) -> u8 {
        let withdrawn = withdraw(self.n, &mut self.tables, timestamp);
        let answer = withdrawn.map_or_else(Refusal::number, |()| DONE);
        self.calls.push(Call::Withdraw { timestamp, answer });
        answer
    }

    /// Makes a cutoff, which must be answered done.
    #[track_caller]
    pub fn cutoff(&mut self, timestamp: u64) {
        assert_eq!(self.try_cutoff(timestamp), DONE);
    }

    /// Makes a cutoff, checks cutoff and kept values, and returns the answer.
    #[track_caller]
    pub fn try_cutoff(&mut self, timestamp: u64) -> u8 {
        let made = cutoff(self.n, &mut self.tables, timestamp);
        let answer = made.map_or_else(Refusal::number, |()| DONE);
        self.calls.push(Call::Cutoff { timestamp, answer });
        assert_eq!(book::check_kept(&self.calls, &self.tables), Ok(()));
        answer
    }

    /// Takes in a package and returns the answer.
    pub fn take_in_package(&mut self, package: Vec<u8>) -> u8 {
        let mut answers = vec![0; ANSWERS];
        let taken = take_in_package(self.n, &mut self.tables, &package, &mut answers);
        let answer = taken.map_or_else(Refusal::number, |()| DONE);
        self.calls.push(Call::TakeInPackage {
            package,
            answers,
            answer,
        });
        answer
    }

    /// The package that is written, which must not be refused.
    #[track_caller]
    pub fn package_out(&self) -> Vec<u8> {
        let mut package = vec![0; MAX_BYTES];
        let written = package_out(self.n, &self.tables, &mut package);
        package.truncate(written.expect("the package passes no limit"));
        package
    }

    /// Makes a turn and returns its timestamp and answer, or none for idle.
    pub fn turn(&mut self) -> Option<(u64, Turned)> {
        let turn = turn(self.n, &mut self.tables).expect("the tables are in form");
        let logged = turn.map(|turn| LoggedTurn::new(turn, &self.tables));
        self.calls.push(Call::Turn(logged));
        turn.map(|turn| (turn.timestamp, turn.turned))
    }

    /// Drains, checks demand 3, and returns the timestamps and answers of the turns.
    #[track_caller]
    pub fn drain(&mut self) -> Vec<(u64, Turned)> {
        let mut turned = self.tables.clone();
        let turns = turns_of_drain(turned.held_count(), || {
            let turn = turn(self.n, &mut turned).expect("the tables are in form");
            turn.map(|turn| LoggedTurn::new(turn, &turned))
        });
        let answers = turns.iter().map(|logged| logged.turn);
        let answers = answers.map(|turn| (turn.timestamp, turn.turned)).collect();
        let mut totals = vec![u16::MAX; TOTALS];
        drain(self.n, &mut self.tables, &mut totals).expect("the tables are in form");
        assert!(self.tables == turned, "its turns are single turns");
        self.calls.push(Call::Drain(Some((totals, turns))));
        assert_eq!(self.check(), Ok(()));
        answers
    }

    /// Checks demand 3.
    pub fn check(&self) -> Result<(), Breach> {
        book::check(&self.calls, &self.tables)
    }

    /// The kept values that differ from their start.
    pub fn kept(&self) -> Vec<(usize, i32)> {
        moved(&self.tables.kept)
    }

    /// The settings of the view that differ from their start.
    pub fn view(&self) -> Vec<(usize, i32)> {
        moved(&self.tables.view)
    }

    /// The read list of a change.
    pub fn reads(&self, timestamp: u64) -> Vec<(u16, i32)> {
        let place = self.tables.place_of(timestamp).expect("it is held");
        let reads = self.tables.read_list(place);
        reads.map(|read| (read.setting, read.value)).collect()
    }

    /// The write list of a change.
    pub fn writes(&self, timestamp: u64) -> Vec<(u16, i32)> {
        let place = self.tables.place_of(timestamp).expect("it is held");
        let writes = self.tables.write_list(place);
        writes.map(|write| (write.setting, write.value)).collect()
    }
}

/// The settings that differ from their start.
pub fn moved(settings: &[i32]) -> Vec<(usize, i32)> {
    let settings = settings.iter().copied().enumerate();
    let moved = settings.filter(|&(setting, value)| value != start_value(setting));
    moved.collect()
}

/// The totals that are not 0, by place.
pub fn not_zero(totals: &[u16]) -> Vec<(usize, u16)> {
    let totals = totals.iter().copied().enumerate();
    totals.filter(|&(_, total)| total != 0).collect()
}

/// The package whose entries have these timestamps, kinds and bodies, and version 0.
pub fn package(entries: &[(u64, u8, &[Instruction])]) -> Vec<u8> {
    let count = entries.len() as u16;
    let mut package = count.to_le_bytes().to_vec();
    for (timestamp, kind, body) in entries {
        package.extend(timestamp.to_le_bytes());
        package.extend([*kind, body.len() as u8, 0, 0]);
    }
    for (_, _, body) in entries {
        package.extend(assemble(body));
    }
    package
}

/// Gives an entry of a package another version.
pub fn set_version(package: &mut [u8], entry: usize, version: u8) {
    package[2 + ENTRY_BYTES * entry + 10] = version;
}

/// Document 01's package of 70 bytes: "20 (copy 34 to 50), 10 (set 34 to 7), withdrawal of 15".
pub fn package_of_70_bytes() -> Vec<u8> {
    let package = package(&[(20, 0, &copy(34, 50)), (10, 0, &set(34, 7)), (15, 1, &[])]);
    assert_eq!(package.len(), 2 + 3 * ENTRY_BYTES + 4 * INSTRUCTION_BYTES);
    assert_eq!(package.len(), 70);
    package
}

/// The bytes of a program.
pub fn assemble(program: &[Instruction]) -> Vec<u8> {
    program.iter().flat_map(|i| i.to_bytes()).collect()
}

/// The program that sets a setting to a value.
pub fn set(setting: i32, value: i32) -> Vec<Instruction> {
    vec![instruction(op::CONSTANT, value), write(setting)]
}

/// The program that copies a setting to another.
pub fn copy(from: i32, to: i32) -> Vec<Instruction> {
    vec![read(from), write(to)]
}

/// The program that adds to a setting.
pub fn add(setting: i32, value: i32) -> Vec<Instruction> {
    let sum = Instruction {
        b: 0,
        c: 1,
        ..instruction(op::ADD, 0)
    };
    let constant = Instruction {
        a: 1,
        ..instruction(op::CONSTANT, value)
    };
    vec![read(setting), constant, sum, write(setting)]
}

/// The program that takes from a setting and sets another to 1 if the result is negative.
pub fn take(setting: i32, value: i32, flag: i32) -> Vec<Instruction> {
    let skip_stop = instruction(op::SKIP_IF_NEGATIVE, 1);
    let stop = instruction(op::STOP, 0);
    [add(setting, -value), vec![skip_stop, stop], set(flag, 1)].concat()
}

/// The program that does the rest only if a setting is 0.
pub fn if_zero(setting: i32, rest: &[Instruction]) -> Vec<Instruction> {
    let skip_stop = instruction(op::SKIP_IF_ZERO, 1);
    let stop = instruction(op::STOP, 0);
    [&[read(setting), skip_stop, stop], rest].concat()
}

/// The program that writes the value of a setting to the setting with that number.
pub fn write_named_by(setting: i32) -> Vec<Instruction> {
    vec![read(setting), instruction(op::WRITE_INDEXED, 0)]
}

fn read(setting: i32) -> Instruction {
    instruction(op::READ, setting)
}

fn write(setting: i32) -> Instruction {
    instruction(op::WRITE, setting)
}

/// An instruction on register 0.
fn instruction(op: u8, n: i32) -> Instruction {
    Instruction {
        op,
        n,
        ..Instruction::default()
    }
}
