//! The instructions of a change: document 01, "Instructions of a change"; and the version by which
//! they run: document 02, R-6.

use crate::answers::Refusal;
use crate::tables::SETTINGS;
use std::error::Error;
use std::fmt;

/// The number of registers.
pub const REGISTERS: u8 = 8;

/// The highest n of [`Instruction::ShiftRight`].
pub const MAX_SHIFT: i32 = 31;

/// The most instructions that a program has.
pub const MAX_INSTRUCTIONS: usize = 32;

/// An instruction. `a`, `b` and `c` are registers, 0 to 7.
///
/// Whether a program is right is told when it is taken in ([`Refusal::ProgramLength`],
/// [`Refusal::Instruction`]), not here.
///
/// [`Refusal::ProgramLength`]: crate::Refusal::ProgramLength
/// [`Refusal::Instruction`]: crate::Refusal::Instruction
#[derive(Clone, Copy, Debug, PartialEq, Eq, Hash)]
#[allow(missing_docs)]
pub enum Instruction {
    /// The run ends.
    Stop,
    /// ra = n.
    Constant { a: u8, n: i32 },
    /// ra = rb.
    Copy { a: u8, b: u8 },
    /// ra = rb + rc, wrapped to 32 bits.
    Add { a: u8, b: u8, c: u8 },
    /// ra = rb − rc, wrapped to 32 bits.
    Subtract { a: u8, b: u8, c: u8 },
    /// ra = −rb, wrapped.
    Negate { a: u8, b: u8 },
    /// ra = rb divided by 2^n rounded down, n 0 to 31.
    ShiftRight { a: u8, b: u8, n: i32 },
    /// ra = number of ones in rb's 32-bit pattern.
    CountOnes { a: u8, b: u8 },
    /// ra = and of the patterns of rb and rc.
    And { a: u8, b: u8, c: u8 },
    /// ra = or of the patterns of rb and rc.
    Or { a: u8, b: u8, c: u8 },
    /// ra = exclusive or of the patterns of rb and rc.
    Xor { a: u8, b: u8, c: u8 },
    /// ra = the setting of this number.
    Read { a: u8, setting: i32 },
    /// ra = the setting that rb names.
    ReadIndexed { a: u8, b: u8 },
    /// The setting of this number = ra.
    Write { a: u8, setting: i32 },
    /// The setting that rb names = ra.
    WriteIndexed { a: u8, b: u8 },
    /// Skips n instructions if rb < 0.
    SkipIfNegative { b: u8, n: i32 },
    /// Skips n instructions if rb = 0.
    SkipIfZero { b: u8, n: i32 },
    /// Skips n instructions.
    Skip { n: i32 },
}

impl Instruction {
    /// The 8 bytes: operation, a, b, c, then n, low byte first. Unused parts are 0.
    pub fn to_bytes(self) -> [u8; 8] {
        let (operation, a, b, c, n) = match self {
            Self::Stop => (0, 0, 0, 0, 0),
            Self::Constant { a, n } => (1, a, 0, 0, n),
            Self::Copy { a, b } => (2, a, b, 0, 0),
            Self::Add { a, b, c } => (3, a, b, c, 0),
            Self::Subtract { a, b, c } => (4, a, b, c, 0),
            Self::Negate { a, b } => (5, a, b, 0, 0),
            Self::ShiftRight { a, b, n } => (6, a, b, 0, n),
            Self::CountOnes { a, b } => (7, a, b, 0, 0),
            Self::And { a, b, c } => (8, a, b, c, 0),
            Self::Or { a, b, c } => (9, a, b, c, 0),
            Self::Xor { a, b, c } => (10, a, b, c, 0),
            Self::Read { a, setting } => (11, a, 0, 0, setting),
            Self::ReadIndexed { a, b } => (12, a, b, 0, 0),
            Self::Write { a, setting } => (13, a, 0, 0, setting),
            Self::WriteIndexed { a, b } => (14, a, b, 0, 0),
            Self::SkipIfNegative { b, n } => (15, 0, b, 0, n),
            Self::SkipIfZero { b, n } => (16, 0, b, 0, n),
            Self::Skip { n } => (17, 0, 0, 0, n),
        };
        let [n0, n1, n2, n3] = n.to_le_bytes();
        [operation, a, b, c, n0, n1, n2, n3]
    }

    /// The instruction of these 8 bytes, behind which the program has `following` more, or what is
    /// wrong with it.
    ///
    /// ```
    /// use tolbezun::{Instruction, Mistake};
    ///
    /// let skip = Instruction::Skip { n: 2 };
    /// assert_eq!(Instruction::from_bytes(skip.to_bytes(), 2), Ok(skip));
    /// let too_far = Mistake::Skip { n: 2, following: 1 };
    /// assert_eq!(Instruction::from_bytes(skip.to_bytes(), 1), Err(too_far));
    /// ```
    pub fn from_bytes(bytes: [u8; 8], following: usize) -> Result<Self, Mistake> {
        let [operation, a, b, c, n0, n1, n2, n3] = bytes;
        let n = i32::from_le_bytes([n0, n1, n2, n3]);
        let register = |part, register| match register < REGISTERS {
            true => Ok(register),
            false => Err(Mistake::Register { part, register }),
        };
        let (a, b, c) = (
            || register('a', a),
            || register('b', b),
            || register('c', c),
        );
        let shift = || match n {
            0..=MAX_SHIFT => Ok(n),
            _ => Err(Mistake::Shift(n)),
        };
        let setting = || match usize::try_from(n) {
            Ok(number) if number < SETTINGS => Ok(n),
            _ => Err(Mistake::Setting(n)),
        };
        let skip = || match usize::try_from(n) {
            Ok(distance) if distance <= following => Ok(n),
            _ => Err(Mistake::Skip { n, following }),
        };
        let instruction = match operation {
            0 => Self::Stop,
            1 => Self::Constant { a: a()?, n },
            2 => Self::Copy { a: a()?, b: b()? },
            3 => Self::Add {
                a: a()?,
                b: b()?,
                c: c()?,
            },
            4 => Self::Subtract {
                a: a()?,
                b: b()?,
                c: c()?,
            },
            5 => Self::Negate { a: a()?, b: b()? },
            6 => Self::ShiftRight {
                a: a()?,
                b: b()?,
                n: shift()?,
            },
            7 => Self::CountOnes { a: a()?, b: b()? },
            8 => Self::And {
                a: a()?,
                b: b()?,
                c: c()?,
            },
            9 => Self::Or {
                a: a()?,
                b: b()?,
                c: c()?,
            },
            10 => Self::Xor {
                a: a()?,
                b: b()?,
                c: c()?,
            },
            11 => Self::Read {
                a: a()?,
                setting: setting()?,
            },
            12 => Self::ReadIndexed { a: a()?, b: b()? },
            13 => Self::Write {
                a: a()?,
                setting: setting()?,
            },
            14 => Self::WriteIndexed { a: a()?, b: b()? },
            15 => Self::SkipIfNegative {
                b: b()?,
                n: skip()?,
            },
            16 => Self::SkipIfZero {
                b: b()?,
                n: skip()?,
            },
            17 => Self::Skip { n: skip()? },
            _ => return Err(Mistake::Operation(operation)),
        };
        // Its own bytes have 0 in the parts that it does not use.
        match instruction.unlike(bytes) {
            None => Ok(instruction),
            Some(part) => Err(Mistake::Unused(part)),
        }
    }

    /// The first part that these bytes of the same operation have other than the instruction.
    fn unlike(self, bytes: [u8; 8]) -> Option<char> {
        let own = self.to_bytes();
        let place = (0..8).find(|&place| own[place] != bytes[place])?;
        Some(match place {
            1 => 'a',
            2 => 'b',
            3 => 'c',
            _ => 'n',
        })
    }
}

/// What is wrong with an instruction: document 01, refusal 7.
#[derive(Clone, Copy, Debug, PartialEq, Eq, Hash)]
#[allow(missing_docs)]
pub enum Mistake {
    /// No operation has this number.
    Operation(u8),
    /// This part, a, b or c, is no register.
    Register { part: char, register: u8 },
    /// The n of a shift is outside 0 to 31.
    Shift(i32),
    /// There is no setting n.
    Setting(i32),
    /// A skip goes back or past the end: so many instructions follow.
    Skip { n: i32, following: usize },
    /// The operation does not use this part, a, b, c or n, and it is not 0.
    Unused(char),
}

impl fmt::Display for Mistake {
    fn fmt(&self, f: &mut fmt::Formatter<'_>) -> fmt::Result {
        match self {
            Self::Operation(number) => write!(f, "there is no operation {number}"),
            Self::Register { part, register } => {
                write!(f, "{part} is {register}, and registers are 0 to 7")
            }
            Self::Shift(n) => write!(f, "n is {n}, and 0 to {MAX_SHIFT} is right"),
            Self::Setting(n) => write!(f, "there is no setting {n}"),
            Self::Skip { n, following } => {
                let most = "as many instructions as follow";
                write!(f, "n is {n}, and 0 to {following} is right, {most}")
            }
            Self::Unused(part) => write!(f, "{part} is not used, and it is not 0"),
        }
    }
}

impl Error for Mistake {}

/// The rules that a program runs by.
///
/// ```
/// use tolbezun::{program, Cabinet, Instruction, Refusal, Turned, Version};
///
/// fn main() -> Result<(), Refusal> {
///     let program = program(&[
///         Instruction::Constant { a: 0, n: 400 },
///         Instruction::Write { a: 0, setting: 36 },
///         Instruction::Read { a: 1, setting: 36 },
///         Instruction::Write { a: 1, setting: 52 },
///     ]);
///     let mut cabinet = Cabinet::new(128)?;
///     cabinet.take_in(10, Version::Zero, &program)?;
///     cabinet.take_in(20, Version::One, &program)?;
///     assert_eq!(cabinet.turn(), Ok(Turned::Faulted(10, 2)));
///     assert_eq!(cabinet.turn(), Ok(Turned::Ran(20)));
///     assert_eq!(cabinet.current_value(52), Ok(400));
///     Ok(())
/// }
/// ```
#[derive(Clone, Copy, Debug, Default, PartialEq, Eq, PartialOrd, Ord, Hash)]
#[repr(u16)]
pub enum Version {
    /// A run faults where it reads a setting that it has written, and where it writes one twice.
    #[default]
    Zero = 0,
    /// A run reads the value that it has written, which enters no read list, and a second write
    /// replaces the value of the first, in its place in the write list.
    One = 1,
}

impl Version {
    /// The number of the version, as the tables hold it.
    pub const fn number(self) -> u16 {
        self as u16
    }
}

impl From<Version> for u16 {
    fn from(version: Version) -> Self {
        version.number()
    }
}

impl TryFrom<u16> for Version {
    type Error = Refusal;

    /// The version with this number, 0 or 1.
    fn try_from(number: u16) -> Result<Self, Refusal> {
        match number {
            0 => Ok(Self::Zero),
            1 => Ok(Self::One),
            _ => Err(Refusal::Version),
        }
    }
}

/// The bytes of a program.
pub fn program(instructions: &[Instruction]) -> Vec<u8> {
    instructions
        .iter()
        .flat_map(|instruction| instruction.to_bytes())
        .collect()
}
