//! What runs of version 1 do with settings that they have written, to count it.

use outside::program::{self, op, Instruction, Outcome, Version, SETTINGS};
use std::collections::{BTreeMap, BTreeSet};

/// Something that a run does with a setting that it has written, by this operation.
#[derive(Clone, Copy, Debug, PartialEq, Eq, PartialOrd, Ord)]
pub enum OwnWrite {
    /// It reads the setting back.
    ReadBack(u8),
    /// It reads it back, had read it before the first write, and saw another value then.
    ReadBackAfterRead(u8),
    /// It reads it back after several writes.
    ReadBackOfSecond(u8),
    /// It writes it again, with another value.
    WrittenAgain(u8),
    /// It writes it again, with another value, and has written another setting since the first
    /// write, so that its first place in the list is not the last one.
    WrittenAgainInPlace(u8),
}

impl OwnWrite {
    /// All of them, by each operation.
    pub const ALL: [Self; 10] = [
        Self::ReadBack(op::READ),
        Self::ReadBack(op::READ_INDEXED),
        Self::ReadBackAfterRead(op::READ),
        Self::ReadBackAfterRead(op::READ_INDEXED),
        Self::ReadBackOfSecond(op::READ),
        Self::ReadBackOfSecond(op::READ_INDEXED),
        Self::WrittenAgain(op::WRITE),
        Self::WrittenAgain(op::WRITE_INDEXED),
        Self::WrittenAgainInPlace(op::WRITE),
        Self::WrittenAgainInPlace(op::WRITE_INDEXED),
    ];
}

/// What was written to a setting.
struct Written {
    /// Its place in the write list.
    place: usize,
    value: i32,
    /// Whether it was written several times.
    again: bool,
}

/// What the run of a well formed program does, by version 1. By version 0 there is nothing of the
/// kind: it faults there.
pub fn of_run(version: Version, program: &[u8], settings: &[i32; SETTINGS]) -> BTreeSet<OwnWrite> {
    let mut events = BTreeSet::new();
    if version == Version::Zero {
        return events;
    }
    let (instructions, _) = program.as_chunks();
    let mut seen: BTreeMap<i32, i32> = BTreeMap::new();
    let mut written: BTreeMap<i32, Written> = BTreeMap::new();
    let mut outcome = Outcome::EMPTY;
    program::run_visiting(version, program, settings, &mut outcome, |place, r| {
        let Instruction { op, a, b, n, .. } = Instruction::from_bytes(instructions[place]);
        let setting = match op {
            op::READ | op::WRITE => n,
            op::READ_INDEXED | op::WRITE_INDEXED => r[usize::from(b)],
            _ => return,
        };
        if !(0..SETTINGS as i32).contains(&setting) {
            return;
        }
        let next = written.len();
        match (op, written.get_mut(&setting)) {
            (op::READ | op::READ_INDEXED, None) => {
                seen.insert(setting, settings[setting as usize]);
            }
            (op::READ | op::READ_INDEXED, Some(own)) => {
                events.insert(OwnWrite::ReadBack(op));
                if seen.get(&setting).is_some_and(|&seen| seen != own.value) {
                    events.insert(OwnWrite::ReadBackAfterRead(op));
                }
                if own.again {
                    events.insert(OwnWrite::ReadBackOfSecond(op));
                }
            }
            (_, None) => {
                let first = Written {
                    place: next,
                    value: r[usize::from(a)],
                    again: false,
                };
                written.insert(setting, first);
            }
            (_, Some(own)) => {
                let value = r[usize::from(a)];
                if value != own.value {
                    events.insert(OwnWrite::WrittenAgain(op));
                    if own.place + 1 < next {
                        events.insert(OwnWrite::WrittenAgainInPlace(op));
                    }
                }
                own.value = value;
                own.again = true;
            }
        }
    });
    events
}
