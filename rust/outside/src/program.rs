//! Programs of a change: the test of their form, and their runs.
//!
//! Document 01, "Instructions of a change", and refusals 6 and 7 of "Turned down, in checking
//! order"; document 02, R-6.

use std::fmt;

/// "There are 1,024 settings".
pub const SETTINGS: usize = 1024;

/// "A program has 0 to 32 instructions".
pub const MAX_INSTRUCTIONS: usize = 32;

/// "instructions of 8 bytes".
pub const INSTRUCTION_BYTES: usize = 8;

/// "Registers 0 to 7 start at 0."
pub const REGISTERS: usize = 8;

/// The rules that a program runs by: "the version, 0 or 1, kept with the change" (document 02, R-6).
#[derive(Clone, Copy, Debug, Default, PartialEq, Eq, PartialOrd, Ord)]
pub enum Version {
    /// "Version 0 runs as before."
    #[default]
    Zero,
    /// "Version 1 reads its own written value, which enters no read list, and a second write
    /// replaces the value in its first place in the list."
    One,
}

impl Version {
    /// Both versions.
    pub const ALL: [Self; 2] = [Self::Zero, Self::One];

    /// The version with this number, if there is one.
    pub fn from_number(number: u16) -> Option<Self> {
        match number {
            0 => Some(Self::Zero),
            1 => Some(Self::One),
            _ => None,
        }
    }

    /// The number of this version.
    pub fn number(self) -> u16 {
        match self {
            Self::Zero => 0,
            Self::One => 1,
        }
    }
}

/// The operations, by the number in an instruction's first byte, each with its effect by document
/// 01's table.
pub mod op {
    /// stop.
    pub const STOP: u8 = 0;
    /// ra = n.
    pub const CONSTANT: u8 = 1;
    /// ra = rb.
    pub const MOVE: u8 = 2;
    /// ra = rb + rc, wrapped to 32 bits.
    pub const ADD: u8 = 3;
    /// ra = rb − rc, wrapped to 32 bits.
    pub const SUBTRACT: u8 = 4;
    /// ra = −rb, wrapped.
    pub const NEGATE: u8 = 5;
    /// ra = rb divided by 2^n rounded down, n 0 to 31.
    pub const SHIFT_RIGHT: u8 = 6;
    /// ra = number of ones in rb's 32-bit pattern.
    pub const COUNT_ONES: u8 = 7;
    /// ra = and of the patterns of rb, rc.
    pub const AND: u8 = 8;
    /// ra = or of the patterns of rb, rc.
    pub const OR: u8 = 9;
    /// ra = exclusive or of the patterns of rb, rc.
    pub const XOR: u8 = 10;
    /// ra = setting n.
    pub const READ: u8 = 11;
    /// ra = setting rb.
    pub const READ_INDEXED: u8 = 12;
    /// setting n = ra.
    pub const WRITE: u8 = 13;
    /// setting rb = ra.
    pub const WRITE_INDEXED: u8 = 14;
    /// skip n instructions if rb < 0.
    pub const SKIP_IF_NEGATIVE: u8 = 15;
    /// skip n instructions if rb = 0.
    pub const SKIP_IF_ZERO: u8 = 16;
    /// skip n instructions always.
    pub const SKIP: u8 = 17;

    /// How many operations there are: the lowest number that is none.
    pub const COUNT: u8 = 18;
}

/// "operation, a, b, c (a byte each), then n, signed 32-bit, low byte first."
#[derive(Clone, Copy, Debug, Default, PartialEq, Eq)]
#[allow(missing_docs)]
pub struct Instruction {
    pub op: u8,
    pub a: u8,
    pub b: u8,
    pub c: u8,
    pub n: i32,
}

impl Instruction {
    /// The instruction that these bytes hold, well formed or not.
    #[inline]
    pub fn from_bytes(bytes: [u8; INSTRUCTION_BYTES]) -> Self {
        let [op, a, b, c, n0, n1, n2, n3] = bytes;
        let n = i32::from_le_bytes([n0, n1, n2, n3]);
        Self { op, a, b, c, n }
    }

    /// The bytes that hold this instruction.
    pub fn to_bytes(self) -> [u8; INSTRUCTION_BYTES] {
        let [n0, n1, n2, n3] = self.n.to_le_bytes();
        [self.op, self.a, self.b, self.c, n0, n1, n2, n3]
    }

    /// Whether the operation is in the table, and registers, n and unused parts are right, where
    /// `following` instructions of the program come after this one.
    ///
    /// "Unused parts are 0." "A setting n is 0 to 1,023. For a skip at place p, counted from 0, n ≥
    /// 0 and p + 1 + n is at most the instruction count".
    #[inline]
    fn is_well_formed(self, following: usize) -> bool {
        let Self { op, a, b, c, n } = self;
        let register = |r: u8| usize::from(r) < REGISTERS;
        let n_below = |end: usize| usize::try_from(n).is_ok_and(|n| n < end);
        match op {
            op::STOP => a == 0 && b == 0 && c == 0 && n == 0,
            op::CONSTANT => register(a) && b == 0 && c == 0,
            op::MOVE | op::NEGATE | op::COUNT_ONES | op::READ_INDEXED | op::WRITE_INDEXED => {
                register(a) && register(b) && c == 0 && n == 0
            }
            op::ADD | op::SUBTRACT | op::AND | op::OR | op::XOR => {
                register(a) && register(b) && register(c) && n == 0
            }
            op::SHIFT_RIGHT => register(a) && register(b) && c == 0 && n_below(32),
            op::READ | op::WRITE => register(a) && b == 0 && c == 0 && n_below(SETTINGS),
            op::SKIP_IF_NEGATIVE | op::SKIP_IF_ZERO => {
                a == 0 && register(b) && c == 0 && n_below(following + 1)
            }
            op::SKIP => a == 0 && b == 0 && c == 0 && n_below(following + 1),
            _ => false,
        }
    }
}

/// Why a program is turned down.
#[derive(Clone, Copy, Debug, PartialEq, Eq)]
pub enum Malformed {
    /// "6. The program is over 256 bytes or no multiple of 8."
    Length,
    /// "A direct call with a version above 1 gets refusal 13, just after 6" (document 02, R-6).
    Version,
    /// "7. An instruction is not in the table, or a register, n or unused part is wrong."
    Instruction,
}

impl Malformed {
    /// The number of the refusal.
    pub fn refusal(self) -> u8 {
        match self {
            Self::Length => 6,
            Self::Version => 13,
            Self::Instruction => 7,
        }
    }
}

/// Tests the form of a program, whose version may be any number: refusal 6, then 13, then refusal 7
/// over every instruction, reachable or not. Returns the version.
pub fn check(version: u16, program: &[u8]) -> Result<Version, Malformed> {
    let (instructions, rest) = program.as_chunks();
    if instructions.len() > MAX_INSTRUCTIONS || !rest.is_empty() {
        return Err(Malformed::Length);
    }
    let version = Version::from_number(version).ok_or(Malformed::Version)?;
    for (place, &bytes) in instructions.iter().enumerate() {
        let following = instructions.len() - place - 1;
        if !Instruction::from_bytes(bytes).is_well_formed(following) {
            return Err(Malformed::Instruction);
        }
    }
    Ok(version)
}

/// Why a run breaks off.
#[derive(Clone, Copy, Debug, PartialEq, Eq, PartialOrd, Ord)]
pub enum Fault {
    /// "A run faults when a register names a setting outside 0 to 1,023".
    NoSuchSetting,
    /// "when it reads a setting that it has written", by version 0. Also where it read the setting
    /// before it wrote it.
    ReadOfWritten,
    /// "when it writes one twice", by version 0. Also where both values are equal.
    WrittenTwice,
}

/// An entry of a read list, with the value seen, or of a write list, with the value written.
#[derive(Clone, Copy, Debug, Default, PartialEq, Eq)]
#[allow(missing_docs)]
pub struct Access {
    pub setting: u16,
    pub value: i32,
}

/// A list of accesses. A run makes at most one for each instruction, since no instruction is
/// carried out twice.
#[derive(Clone)]
struct AccessList {
    entries: [Access; MAX_INSTRUCTIONS],
    len: usize,
}

impl AccessList {
    const EMPTY: Self = Self {
        entries: [Access {
            setting: 0,
            value: 0,
        }; MAX_INSTRUCTIONS],
        len: 0,
    };

    fn as_slice(&self) -> &[Access] {
        &self.entries[..self.len]
    }

    #[inline]
    fn push(&mut self, setting: u16, value: i32) {
        self.entries[self.len] = Access { setting, value };
        self.len += 1;
    }

    /// The value of a setting that the list names.
    fn value_of(&mut self, setting: u16) -> &mut i32 {
        let mut entries = self.entries[..self.len].iter_mut();
        let entry = entries.find(|entry| entry.setting == setting);
        &mut entry.expect("the list names the setting").value
    }

    fn clear(&mut self) {
        self.len = 0;
    }
}

/// What a run gives.
#[derive(Clone)]
pub struct Outcome {
    reads: AccessList,
    writes: AccessList,
    fault: Option<(Fault, usize)>,
}

impl Outcome {
    /// The outcome of the empty program: storage for [`run_into`].
    pub const EMPTY: Self = Self {
        reads: AccessList::EMPTY,
        writes: AccessList::EMPTY,
        fault: None,
    };

    /// "The read list holds each setting once, in order of first reading, with the value seen".
    pub fn reads(&self) -> &[Access] {
        self.reads.as_slice()
    }

    /// "the write list is in order of writing." It is empty after a fault. By version 1 "a second
    /// write replaces the value in its first place in the list" (document 02, R-6).
    pub fn writes(&self) -> &[Access] {
        self.writes.as_slice()
    }

    /// The fault and the place of the instruction that faulted, counted from 0, or none for a
    /// completed run.
    pub fn fault(&self) -> Option<(Fault, usize)> {
        self.fault
    }
}

impl PartialEq for Outcome {
    fn eq(&self, other: &Self) -> bool {
        self.reads() == other.reads()
            && self.writes() == other.writes()
            && self.fault == other.fault
    }
}

impl Eq for Outcome {}

impl fmt::Debug for Outcome {
    fn fmt(&self, f: &mut fmt::Formatter<'_>) -> fmt::Result {
        f.debug_struct("Outcome")
            .field("reads", &self.reads())
            .field("writes", &self.writes())
            .field("fault", &self.fault)
            .finish()
    }
}

/// A set of settings, one bit for each.
pub(crate) struct SettingSet([u64; SETTINGS / 64]);

impl SettingSet {
    pub(crate) const EMPTY: Self = Self([0; SETTINGS / 64]);

    #[inline]
    fn contains(&self, setting: u16) -> bool {
        self.0[usize::from(setting / 64)] >> (setting % 64) & 1 != 0
    }

    /// Enters the setting and tells whether it is new.
    #[inline]
    pub(crate) fn insert(&mut self, setting: u16) -> bool {
        let word = &mut self.0[usize::from(setting / 64)];
        let bit = 1 << (setting % 64);
        let new = *word & bit == 0;
        *word |= bit;
        new
    }
}

/// The settings as a run meets them, and the record of what it reads and writes.
struct Accesses<'a> {
    version: Version,
    settings: &'a [i32; SETTINGS],
    read: SettingSet,
    written: SettingSet,
    reads: &'a mut AccessList,
    writes: &'a mut AccessList,
}

impl Accesses<'_> {
    #[inline]
    fn read(&mut self, number: i32) -> Result<i32, Fault> {
        let setting = setting_named(number)?;
        if self.written.contains(setting) {
            return match self.version {
                Version::Zero => Err(Fault::ReadOfWritten),
                // It "enters no read list" (document 02, R-6), also where the setting was read before
                // it was written: the list then keeps the value seen before.
                Version::One => Ok(*self.writes.value_of(setting)),
            };
        }
        let value = self.settings[usize::from(setting)];
        if self.read.insert(setting) {
            self.reads.push(setting, value);
        }
        Ok(value)
    }

    #[inline]
    fn write(&mut self, number: i32, value: i32) -> Result<(), Fault> {
        let setting = setting_named(number)?;
        if self.written.insert(setting) {
            self.writes.push(setting, value);
            return Ok(());
        }
        match self.version {
            Version::Zero => Err(Fault::WrittenTwice),
            Version::One => {
                *self.writes.value_of(setting) = value;
                Ok(())
            }
        }
    }
}

#[inline]
fn setting_named(number: i32) -> Result<u16, Fault> {
    match u16::try_from(number) {
        Ok(setting) if usize::from(setting) < SETTINGS => Ok(setting),
        _ => Err(Fault::NoSuchSetting),
    }
}

/// Runs a well formed program by the rules of its version on the given values of the settings. It
/// does not change them: the writes are in the outcome.
///
/// # Panics
///
/// May panic on a program that [`check`] turns down, or give an outcome without meaning.
pub fn run(version: Version, program: &[u8], settings: &[i32; SETTINGS]) -> Outcome {
    let mut outcome = Outcome::EMPTY;
    run_into(version, program, settings, &mut outcome);
    outcome
}

/// As [`run`], into a given outcome. What it held is overwritten.
pub fn run_into(
    version: Version,
    program: &[u8],
    settings: &[i32; SETTINGS],
    outcome: &mut Outcome,
) {
    run_visiting(version, program, settings, outcome, |_, _| ());
}

/// As [`run_into`], calling `visit` before each instruction is carried out, with its place and what
/// the registers hold.
pub fn run_visiting(
    version: Version,
    program: &[u8],
    settings: &[i32; SETTINGS],
    outcome: &mut Outcome,
    mut visit: impl FnMut(usize, &[i32; REGISTERS]),
) {
    outcome.reads.clear();
    outcome.writes.clear();
    let mut accesses = Accesses {
        version,
        settings,
        read: SettingSet::EMPTY,
        written: SettingSet::EMPTY,
        reads: &mut outcome.reads,
        writes: &mut outcome.writes,
    };
    let (instructions, _) = program.as_chunks();
    let mut r = [0i32; REGISTERS];
    let mut place = 0;
    let fault = loop {
        // "the end stops the run."
        let Some(&bytes) = instructions.get(place) else {
            break None;
        };
        visit(place, &r);
        let Instruction { op, a, b, c, n } = Instruction::from_bytes(bytes);
        let [a, b, c] = [a, b, c].map(usize::from);
        let mut next = place + 1;
        match op {
            op::STOP => break None,
            op::CONSTANT => r[a] = n,
            op::MOVE => r[a] = r[b],
            op::ADD => r[a] = r[b].wrapping_add(r[c]),
            op::SUBTRACT => r[a] = r[b].wrapping_sub(r[c]),
            op::NEGATE => r[a] = r[b].wrapping_neg(),
            op::SHIFT_RIGHT => r[a] = r[b] >> n,
            op::COUNT_ONES => r[a] = r[b].count_ones() as i32,
            op::AND => r[a] = r[b] & r[c],
            op::OR => r[a] = r[b] | r[c],
            op::XOR => r[a] = r[b] ^ r[c],
            op::READ | op::READ_INDEXED => {
                let number = if op == op::READ { n } else { r[b] };
                match accesses.read(number) {
                    Ok(value) => r[a] = value,
                    Err(fault) => break Some(fault),
                }
            }
            op::WRITE | op::WRITE_INDEXED => {
                let number = if op == op::WRITE { n } else { r[b] };
                if let Err(fault) = accesses.write(number, r[a]) {
                    break Some(fault);
                }
            }
            // A skip's n is not negative.
            op::SKIP_IF_NEGATIVE if r[b] < 0 => next += n as u32 as usize,
            op::SKIP_IF_ZERO if r[b] == 0 => next += n as u32 as usize,
            op::SKIP_IF_NEGATIVE | op::SKIP_IF_ZERO => {}
            op::SKIP => next += n as u32 as usize,
            _ => panic!("no operation has the number {op}"),
        }
        place = next;
    };
    outcome.fault = fault.map(|fault| (fault, place));
    // "A faulted run ends there, writes nothing and keeps its earlier reads; the faulting one is
    // not entered."
    if outcome.fault.is_some() {
        outcome.writes.clear();
    }
}

#[cfg(test)]
mod tests;
