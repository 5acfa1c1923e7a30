//! Random programs, values and tables, each determined by a seed.

pub mod packages;
pub mod scripts;
pub mod tables;
pub mod write_lists;

use outside::checker::TOTALS;
use outside::program::{
    op, Instruction, Version, INSTRUCTION_BYTES, MAX_INSTRUCTIONS, REGISTERS, SETTINGS,
};

/// The SplitMix64 generator.
pub struct Random(u64);

impl Random {
    /// A generator that starts at this seed.
    pub fn new(seed: u64) -> Self {
        Self(seed)
    }

    /// The next 64 bits.
    pub fn bits(&mut self) -> u64 {
        self.0 = self.0.wrapping_add(0x9E37_79B9_7F4A_7C15);
        let mut z = self.0;
        z = (z ^ (z >> 30)).wrapping_mul(0xBF58_476D_1CE4_E5B9);
        z = (z ^ (z >> 27)).wrapping_mul(0x94D0_49BB_1331_11EB);
        z ^ (z >> 31)
    }

    /// A number from 0 to `end` − 1.
    pub fn below(&mut self, end: usize) -> usize {
        ((u128::from(self.bits()) * end as u128) >> 64) as usize
    }

    /// One of these.
    pub fn pick<T: Copy>(&mut self, from: &[T]) -> T {
        from[self.below(from.len())]
    }

    /// Puts these in any order.
    pub fn shuffle<T>(&mut self, items: &mut [T]) {
        for index in 1..items.len() {
            items.swap(index, self.below(index + 1));
        }
    }
}

/// Numbers at the ends of the range, about 0 and about the ends of the settings.
pub const EXTREMES: [i32; 12] = [
    i32::MIN,
    i32::MIN + 1,
    -1024,
    -5,
    -1,
    0,
    1,
    5,
    1023,
    1024,
    i32::MAX - 1,
    i32::MAX,
];

/// A version.
pub fn version(random: &mut Random) -> Version {
    random.pick(&Version::ALL)
}

/// The version that this one is not.
pub fn other_version(version: Version) -> Version {
    match version {
        Version::Zero => Version::One,
        Version::One => Version::Zero,
    }
}

/// Numbers that are no versions: at the ends, and some whose lowest byte alone would be one.
pub const NO_VERSIONS: [u16; 5] = [2, 255, 256, 257, u16::MAX];

/// A number that is no version.
pub fn no_version(random: &mut Random) -> u16 {
    match random.below(2) {
        0 => random.pick(&NO_VERSIONS),
        _ => 2 + random.below(usize::from(u16::MAX) - 1) as u16,
    }
}

/// What random programs are made of.
pub struct Style {
    /// The operations to draw from: one that stands here twice is drawn twice as often.
    pub operations: &'static [u8],
    /// How many settings a program names, about: the fewer, the more faults.
    pub settings: usize,
}

impl Style {
    /// Every operation, on settings enough that many runs go far.
    pub const MANY_SETTINGS: Self = Self {
        operations: &[
            0, 1, 1, 1, 1, 2, 2, 3, 3, 4, 4, 5, 5, 6, 6, 7, 7, 8, 8, 9, 9, 10, 10, 11, 11, 11, 11,
            12, 13, 13, 13, 13, 14, 15, 15, 16, 16, 17,
        ],
        settings: 200,
    };

    /// Every operation, on so few settings that most runs fault.
    pub const FEW_SETTINGS: Self = Self {
        operations: &[
            0, 1, 1, 1, 2, 3, 4, 5, 6, 7, 8, 9, 10, 11, 11, 11, 11, 12, 12, 13, 13, 14, 15, 15, 16,
            16, 17,
        ],
        settings: 4,
    };

    /// Accesses by register and what sets the registers.
    pub const INDEXED: Self = Self {
        operations: &[1, 1, 1, 1, 2, 3, 4, 11, 12, 12, 12, 14, 14],
        settings: 24,
    };

    /// Reads and writes, with constants for those by register.
    pub const ACCESSES: Self = Self {
        operations: &[1, 1, 1, 11, 11, 11, 11, 12, 13, 13, 13, 13, 14],
        settings: 64,
    };

    /// Reads and writes of few settings, by number and by register: most runs come to settings that
    /// they have written.
    pub const OWN_WRITES: Self = Self {
        operations: &[1, 1, 1, 3, 11, 11, 12, 13, 13, 13, 14, 14],
        settings: 5,
    };

    /// Reads and writes of settings by number, and sums: most runs go through.
    pub const DIRECT: Self = Self {
        operations: &[1, 1, 3, 4, 11, 11, 11, 13, 13],
        settings: 400,
    };

    /// Reads alone.
    pub const READS: Self = Self {
        operations: &[op::READ],
        settings: 400,
    };

    /// Writes alone.
    pub const WRITES: Self = Self {
        operations: &[op::WRITE],
        settings: 400,
    };

    /// Operations 1 to 10, which touch only registers.
    pub const ARITHMETIC: Self = Self {
        operations: &[1, 1, 2, 3, 4, 5, 6, 7, 8, 9, 10],
        settings: 24,
    };
}

/// The settings that a program names, or that the programs and lists of tables name: an arithmetic
/// sequence modulo 1,024.
struct Settings {
    first: usize,
    step: usize,
    count: usize,
}

impl Settings {
    fn new(random: &mut Random, count: usize) -> Self {
        Self {
            first: setting(random) as usize,
            // No setting comes twice if the step is odd.
            step: 2 * random.below(SETTINGS / 2) + 1,
            count,
        }
    }

    fn pick(&self, random: &mut Random) -> i32 {
        ((self.first + self.step * random.below(self.count)) % SETTINGS) as i32
    }
}

/// A well formed program of `count` instructions.
pub fn program(random: &mut Random, style: &Style, count: usize) -> Vec<u8> {
    let settings = Settings::new(random, style.settings);
    program_naming(random, style, &settings, count)
}

/// A well formed program of `count` instructions that names these settings, about.
fn program_naming(
    random: &mut Random,
    style: &Style,
    settings: &Settings,
    count: usize,
) -> Vec<u8> {
    let registers = random.pick(&[2, 4, REGISTERS]);
    // Half of the programs first set the registers, where the style has constants.
    let constants = match style.operations.contains(&op::CONSTANT) {
        true => random.below(2) * registers.min(count / 2),
        false => 0,
    };
    let mut program = Vec::with_capacity(INSTRUCTION_BYTES * count);
    for place in 0..count {
        let instruction = if place < constants {
            Instruction {
                op: op::CONSTANT,
                a: place as u8,
                n: number(random, settings),
                ..Instruction::default()
            }
        } else {
            let op = random.pick(style.operations);
            let following = count - place - 1;
            instruction(random, op, registers, settings, following)
        };
        program.extend(instruction.to_bytes());
    }
    program
}

/// A well formed instruction with so many instructions after it.
fn instruction(
    random: &mut Random,
    op: u8,
    registers: usize,
    settings: &Settings,
    following: usize,
) -> Instruction {
    let (a, b, c) = match op {
        op::STOP | op::SKIP => (false, false, false),
        op::CONSTANT | op::READ | op::WRITE => (true, false, false),
        op::SKIP_IF_NEGATIVE | op::SKIP_IF_ZERO => (false, true, false),
        op::ADD | op::SUBTRACT | op::AND | op::OR | op::XOR => (true, true, true),
        _ => (true, true, false),
    };
    let mut register = |used: bool| match used {
        true => random.below(registers) as u8,
        false => 0,
    };
    let (a, b, c) = (register(a), register(b), register(c));
    let n = match op {
        op::CONSTANT => number(random, settings),
        op::SHIFT_RIGHT => random.below(32) as i32,
        op::READ | op::WRITE => settings.pick(random),
        op::SKIP_IF_NEGATIVE | op::SKIP_IF_ZERO | op::SKIP => skip(random, following),
        _ => 0,
    };
    Instruction { op, a, b, c, n }
}

/// Makes the last instructions write the registers, so that the outcome shows them. The program
/// stays well formed.
pub fn reveal_registers(random: &mut Random, program: &mut [u8]) {
    let first = random.below(SETTINGS - REGISTERS);
    let (instructions, _) = program.as_chunks_mut::<INSTRUCTION_BYTES>();
    for (register, bytes) in instructions.iter_mut().rev().take(REGISTERS).enumerate() {
        let revealing = Instruction {
            op: op::WRITE,
            a: register as u8,
            n: (first + register) as i32,
            ..Instruction::default()
        };
        *bytes = revealing.to_bytes();
    }
}

/// Values for all settings: many name a setting, some are extreme.
pub fn values(random: &mut Random) -> Box<[i32; SETTINGS]> {
    let settings = Settings::new(random, SETTINGS);
    let mut values = Box::new([0; SETTINGS]);
    values.fill_with(|| number(random, &settings));
    values
}

/// Lengths of lent totals for which a drain is refused.
pub const REFUSED_TOTALS: [usize; 4] = [0, 4, TOTALS - 1, TOTALS + 1];

/// Contents for a lent slice of totals.
pub fn totals(random: &mut Random, length: usize) -> Vec<u16> {
    (0..length).map(|_| random.bits() as u16).collect()
}

/// The number of a setting: any of them, and the first and the last more often.
fn setting(random: &mut Random) -> i32 {
    match random.below(16) {
        0 => 0,
        1 => SETTINGS as i32 - 1,
        _ => random.below(SETTINGS) as i32,
    }
}

/// Any number: most often one of these settings.
fn number(random: &mut Random, settings: &Settings) -> i32 {
    match random.below(8) {
        0..4 => settings.pick(random),
        4 => random.pick(&EXTREMES),
        5 => random.below(17) as i32 - 8,
        _ => random.bits() as i32,
    }
}

/// The n of a skip with so many instructions after it: most often small.
fn skip(random: &mut Random, following: usize) -> i32 {
    let most = match random.below(8) {
        0 => return following as i32,
        1 => following,
        _ => following.min(3),
    };
    random.below(most + 1) as i32
}

/// Changes a well formed program so that it may be malformed.
pub fn damage(random: &mut Random, program: &mut Vec<u8>) {
    match random.below(8) {
        // One byte.
        0 => change_byte(random, program, |random, _| random.bits() as u8),
        // One bit.
        1 => change_byte(random, program, |random, byte| byte ^ 1 << random.below(8)),
        // One part of an instruction, to a number that is right for some and wrong for others.
        2 | 3 => change_part(random, program),
        // Fewer bytes.
        4 => program.truncate(random.below(program.len() + 1)),
        // More bytes.
        5 => {
            for _ in 0..random.below(2 * INSTRUCTION_BYTES) {
                program.push(random.bits() as u8 & 1);
            }
        }
        // Too many instructions.
        6 => {
            let beyond = MAX_INSTRUCTIONS + 1 + random.below(4);
            program.resize(beyond * INSTRUCTION_BYTES, 0);
        }
        // Random bytes throughout.
        _ => {
            program.clear();
            let length = match random.below(2) {
                0 => random.below(300),
                _ => INSTRUCTION_BYTES * random.below(MAX_INSTRUCTIONS + 3),
            };
            program.extend((0..length).map(|_| random.bits() as u8));
        }
    }
}

/// Alters a byte of a text, adds one or takes one away, `times` times. Most often the new byte is one of
/// `likely`.
pub fn damage_text(random: &mut Random, text: &mut Vec<u8>, times: usize, likely: &[u8]) {
    for _ in 0..times {
        let place = random.below(text.len());
        let byte = match random.below(4) {
            0 => random.bits() as u8,
            _ => random.pick(likely),
        };
        match random.below(3) {
            0 => text[place] = byte,
            1 => text.insert(place, byte),
            _ => drop(text.remove(place)),
        }
    }
}

fn change_byte(random: &mut Random, program: &mut [u8], change: impl Fn(&mut Random, u8) -> u8) {
    if !program.is_empty() {
        let index = random.below(program.len());
        program[index] = change(random, program[index]);
    }
}

fn change_part(random: &mut Random, program: &mut [u8]) {
    let (instructions, _) = program.as_chunks_mut::<INSTRUCTION_BYTES>();
    if instructions.is_empty() {
        return;
    }
    let place = random.below(instructions.len());
    let following = instructions.len() - place - 1;
    let mut instruction = Instruction::from_bytes(instructions[place]);
    let byte = random.pick(&[0, 1, 7, 8, 17, 18, 255]);
    match random.below(6) {
        0 => instruction.op = byte,
        1 => instruction.a = byte,
        2 => instruction.b = byte,
        3 => instruction.c = byte,
        4 => instruction.n = random.pick(&[-1, 0, 1, 31, 32, 1023, 1024, i32::MIN, i32::MAX]),
        _ => instruction.n = (following + random.below(3)) as i32,
    }
    instructions[place] = instruction.to_bytes();
}
