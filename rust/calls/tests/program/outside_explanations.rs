//! The lines that explain a call, written here on their own from the outside implementation's tables.

use comparison::generate::scripts::Call;
use outside::calls::value_as_of;
use outside::checker::{turn, Turn, Turned};
use outside::package::{entries, take_in_package, Entry, ALREADY_HELD, ANSWERS, DONE};
use outside::program::{self, op, Fault, Instruction, Version, SETTINGS};
use outside::tables::{Status, Tables, INFINITY};
use tolbezun::Refusal;

/// What a line is about.
#[derive(Clone, Copy, Debug, PartialEq, Eq, PartialOrd, Ord)]
pub enum Kind {
    Idle,
    /// The status before the turn.
    Ran(Status),
    Faulted(Status),
    Stood,
    Cleared(Status),
    /// Whether it is of a change that stood, and whether a held change wrote the value.
    Read {
        stood: bool,
        written: bool,
    },
    /// The operation of the instruction.
    BreaksOff(Fault, u8, Version),
    Changed {
        written_later: bool,
    },
    NothingChanged,
    /// Whether for several settings.
    Marked {
        several: bool,
    },
    /// The status before the withdrawal.
    Withdrawn(Status),
    Wrote,
    EntryTaken,
    EntryHeld,
    EntryWithdrawn,
    ChangeRefused,
    WithdrawalRefused,
    Refused(u8),
}

pub type Line = (Kind, String);

/// The line for a refusal.
pub fn refused(number: u8) -> Line {
    (Kind::Refused(number), format!("# {}", reason(number)))
}

fn reason(number: u8) -> String {
    let refusal = Refusal::from_number(number);
    refusal.expect("it is a refusal").to_string()
}

/// The lines for a call on these tables that is not refused.
pub fn lines(n: usize, tables: &Tables, call: &Call) -> Vec<Line> {
    match call {
        Call::Turn => {
            let mut after = tables.clone();
            match turn(n, &mut after).expect("it is not refused") {
                None => vec![idle()],
                Some(turn) => of_turn(n, tables, turn, &after),
            }
        }
        Call::Drain { .. } => of_drain(n, tables),
        Call::Withdraw { timestamp } => of_withdrawal(tables, *timestamp),
        Call::TakeInPackage { package, .. } => of_package(n, tables, package),
        Call::TakeIn { .. } | Call::Cutoff { .. } => Vec::new(),
    }
}

fn idle() -> Line {
    (Kind::Idle, "# no change is New or Invalid".to_string())
}

fn of_drain(n: usize, tables: &Tables) -> Vec<Line> {
    let mut lines = Vec::new();
    let (mut before, mut after) = (tables.clone(), tables.clone());
    while let Some(turn) = turn(n, &mut after).expect("a drain is not refused") {
        lines.extend(of_turn(n, &before, turn, &after));
        before.clone_from(&after);
    }
    match lines.is_empty() {
        true => vec![idle()],
        false => lines,
    }
}

/// The lines for a turn, from the tables before and after it.
fn of_turn(n: usize, before: &Tables, turn: Turn, after: &Tables) -> Vec<Line> {
    let Turn { timestamp, turned } = turn;
    let place = before.place_of(timestamp).expect("it is held");
    let mut lines = vec![headline(before.status(place), turn)];
    for read in before.read_list(place) {
        let setting = usize::from(read.setting);
        let now = value_as_of(n, before, timestamp, setting).expect("it is not refused");
        let shown = match turned {
            Turned::Stood => {
                assert_eq!(read.value, now);
                true
            }
            Turned::Ran | Turned::Faulted(_) => read.value != now,
            Turned::Cleared => false,
        };
        if shown {
            let lower = writers(before, setting).into_iter();
            let writer = lower.filter(|&writer| writer < timestamp).max();
            let kind = Kind::Read {
                stood: turned == Turned::Stood,
                written: writer.is_some(),
            };
            let from = match writer {
                Some(writer) => format!("written by {writer}"),
                None => "the value before all held changes".to_string(),
            };
            let (name, seen) = (name(setting), read.value);
            lines.push((kind, format!("#   {name}: seen {seen}, now {now}, {from}")));
        }
    }
    if let Turned::Faulted(instruction) = turned {
        lines.push(breaking_off(before, place, instruction));
    }
    if turned != Turned::Stood {
        lines.extend(effect(before, timestamp, after));
    }
    lines
}

fn headline(status: Status, turn: Turn) -> Line {
    let (kind, text) = match (turn.turned, status) {
        (Turned::Ran, Status::New) => (Kind::Ran(status), "ran: it is New"),
        (Turned::Ran, _) => (
            Kind::Ran(status),
            "ran again: a value that it had read has changed",
        ),
        (Turned::Faulted(_), Status::New) => (Kind::Faulted(status), "faulted: it is New"),
        (Turned::Faulted(_), _) => (
            Kind::Faulted(status),
            "faulted: a value that it had read has changed",
        ),
        (Turned::Stood, _) => (
            Kind::Stood,
            "stood: every value that it had read is again what it saw",
        ),
        (Turned::Cleared, _) => (Kind::Cleared(status), "was cleared: it is withdrawn"),
    };
    (kind, format!("# {} {text}", turn.timestamp))
}

/// The line for a run that broke off at this instruction. It is made again, so that the reason is
/// tried against what went wrong.
fn breaking_off(tables: &Tables, place: usize, instruction: usize) -> Line {
    let version = tables.version(place);
    let program = tables.program(place);
    let values = values_up_to(tables, tables.timestamps[place] - 1);
    let (fault, faulting) = program::run(version, program, &values)
        .fault()
        .expect("it faults");
    assert_eq!(faulting, instruction);
    let (instructions, _) = program.as_chunks();
    let Instruction { op, a, b, n, .. } = Instruction::from_bytes(instructions[instruction]);
    let words = match op {
        op::READ => format!("r{a} = {}", name(n as usize)),
        op::READ_INDEXED => format!("r{a} = setting r{b}"),
        op::WRITE => format!("{} = r{a}", name(n as usize)),
        op::WRITE_INDEXED => format!("setting r{b} = r{a}"),
        _ => panic!("operation {op} faults"),
    };
    let reason = match (version, op, fault) {
        (Version::Zero, op::READ, Fault::ReadOfWritten) => "it reads a setting that it has written",
        (Version::Zero, op::WRITE, Fault::WrittenTwice) => "it writes a setting twice",
        (Version::Zero, op::READ_INDEXED, Fault::NoSuchSetting | Fault::ReadOfWritten)
        | (Version::Zero, op::WRITE_INDEXED, Fault::NoSuchSetting | Fault::WrittenTwice) => {
            "its register names no setting, or one that it has written"
        }
        (Version::One, op::READ_INDEXED | op::WRITE_INDEXED, Fault::NoSuchSetting) => {
            "its register names no setting"
        }
        other => panic!("{other:?}"),
    };
    (
        Kind::BreaksOff(fault, op, version),
        format!(
            "#   it broke off at instruction {instruction}, {words}, and writes nothing: {reason}"
        ),
    )
}

/// The settings that changed just after this timestamp, and the changes that were marked.
fn effect(before: &Tables, timestamp: u64, after: &Tables) -> Vec<Line> {
    let mut lines = Vec::new();
    let from = values_up_to(before, timestamp);
    let to = values_up_to(after, timestamp);
    // The changed settings, each with the next writer or infinity.
    let mut changed = Vec::new();
    for setting in 0..SETTINGS {
        if from[setting] != to[setting] {
            let higher = writers(before, setting).into_iter();
            let writer = higher.filter(|&writer| writer > timestamp).min();
            changed.push((setting, writer.unwrap_or(INFINITY)));
            let kind = Kind::Changed {
                written_later: writer.is_some(),
            };
            let (name, from, to) = (name(setting), from[setting], to[setting]);
            let mut text = format!("#   changed {name} from {from} to {to}");
            if let Some(writer) = writer {
                text += &format!(", up to {writer}, which wrote it");
            }
            lines.push((kind, text));
        }
    }
    if changed.is_empty() {
        lines.push((Kind::NothingChanged, "#   no setting changed".to_string()));
    }
    for (marked, place) in by_timestamp(after) {
        if (before.status(place), after.status(place)) != (Status::Valid, Status::Invalid) {
            continue;
        }
        assert!(marked > timestamp);
        let mut names = Vec::new();
        for &(setting, writer) in &changed {
            let mut reads = before.read_list(place);
            if marked <= writer && reads.any(|read| usize::from(read.setting) == setting) {
                names.push(name(setting));
            }
        }
        assert!(!names.is_empty());
        let kind = Kind::Marked {
            several: names.len() > 1,
        };
        let names = names.join(", ");
        lines.push((
            kind,
            format!("#   {marked} is Invalid now: it had read {names}"),
        ));
    }
    lines
}

fn of_withdrawal(tables: &Tables, timestamp: u64) -> Vec<Line> {
    let place = tables.place_of(timestamp).expect("it is held");
    let status = tables.status(place);
    let withdrawn = match status {
        Status::New => "withdrawn before its first turn: it will not run",
        Status::Valid | Status::Invalid => {
            "withdrawn: it waits for its turn, in which what it wrote is taken back"
        }
    };
    let mut lines = vec![(
        Kind::Withdrawn(status),
        format!("# {timestamp} is {withdrawn}"),
    )];
    for write in tables.write_list(place) {
        let (name, value) = (name(write.setting.into()), write.value);
        lines.push((Kind::Wrote, format!("#   it wrote {name} {value}")));
    }
    lines
}

fn of_package(n: usize, tables: &Tables, package: &[u8]) -> Vec<Line> {
    let mut answers = [0; ANSWERS];
    let taken = take_in_package(n, &mut tables.clone(), package, &mut answers);
    taken.expect("it is not refused");
    let entries = entries(package).expect("it is not refused");
    let mut lines = Vec::new();
    for (number, entry) in entries.iter().enumerate() {
        let (kind, text) = match (entry, answers[number]) {
            (Entry::Change { timestamp, .. }, DONE) => {
                (Kind::EntryTaken, format!("change {timestamp} taken"))
            }
            (Entry::Change { timestamp, .. }, ALREADY_HELD) => {
                (Kind::EntryHeld, format!("change {timestamp} held already"))
            }
            (Entry::Change { timestamp, .. }, refusal) => (
                Kind::ChangeRefused,
                format!("change {timestamp} {}", reason(refusal)),
            ),
            (Entry::Withdrawal { timestamp }, DONE) => (
                Kind::EntryWithdrawn,
                format!("change {timestamp} withdrawn"),
            ),
            (Entry::Withdrawal { timestamp }, refusal) => (
                Kind::WithdrawalRefused,
                format!("withdrawal of {timestamp} {}", reason(refusal)),
            ),
        };
        lines.push((kind, format!("# entry {number}: {text}")));
    }
    lines
}

/// The timestamps, rising, each with its place.
fn by_timestamp(tables: &Tables) -> Vec<(u64, usize)> {
    let held = 0..tables.held_count();
    let mut changes: Vec<_> = held
        .map(|place| (tables.timestamps[place], place))
        .collect();
    changes.sort_unstable();
    changes
}

/// The timestamps of the changes that have this setting in their write lists.
fn writers(tables: &Tables, setting: usize) -> Vec<u64> {
    let mut writers = Vec::new();
    for (timestamp, place) in by_timestamp(tables) {
        let mut writes = tables.write_list(place);
        if writes.any(|write| usize::from(write.setting) == setting) {
            writers.push(timestamp);
        }
    }
    writers
}

/// What the changes up to this timestamp leave in all settings: their writes, one change after the
/// other.
fn values_up_to(tables: &Tables, timestamp: u64) -> [i32; SETTINGS] {
    let mut values = tables.kept_settings();
    for (stamp, place) in by_timestamp(tables) {
        if stamp <= timestamp {
            for write in tables.write_list(place) {
                values[usize::from(write.setting)] = write.value;
            }
        }
    }
    values
}

/// A setting by its port and field: "Field 1 is administrative state, 2 untagged VLAN, 4 power left, 5
/// power alarm, 8 to 15 membership masks of 32 VLANs each; the rest are free." (document 01)
fn name(setting: usize) -> String {
    let (port, field) = (setting / 16, setting % 16);
    let field = match field {
        1 => "state".to_string(),
        2 => "vlan".to_string(),
        4 => "power".to_string(),
        5 => "alarm".to_string(),
        8..16 => format!("mask {}", field - 8),
        _ => format!("field {field}"),
    };
    format!("port {port} {field}")
}
