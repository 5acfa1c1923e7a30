//! Random packages: of the layout, and with a single breach of it; room for those that are written.

use super::{damage, other_version, version, Random, Style};
use crate::packages_out::Size;
use outside::package::{lay_out, Entry, ENTRY_BYTES, MAX_BYTES, MAX_ENTRIES};
use outside::program::{Version, INSTRUCTION_BYTES, MAX_INSTRUCTIONS};
use outside::tables::{Tables, INFINITY};

/// Entries of a package that keeps the layout, for tables that hold these timestamps and have this
/// cutoff: many entries name the same timestamp, and most are not below the cutoff.
pub fn entries(random: &mut Random, held: &[u64], cutoff: u64) -> Vec<Entry> {
    let count = match random.below(16) {
        0 => MAX_ENTRIES,
        1 => random.below(MAX_ENTRIES + 1),
        _ => random.below(24),
    };
    let longest = match count {
        0..24 => random.pick(&[2, 8, MAX_INSTRUCTIONS]),
        _ => 4,
    };
    let lowest = cutoff.saturating_sub(1 + count as u64 / 4).max(1);
    let mut entries: Vec<Entry> = Vec::with_capacity(count);
    for _ in 0..count {
        let timestamp = match random.below(24) {
            0 => random.pick(&[0, INFINITY]),
            1 => random.bits(),
            2..8 if !held.is_empty() => random.pick(held),
            _ => lowest.saturating_add(random.below(2 * count) as u64),
        };
        entries.push(match random.below(12) {
            0..3 => Entry::Withdrawal { timestamp },
            3 if !entries.is_empty() => {
                let mut again = entries[random.below(entries.len())].clone();
                // Some come again with the other version.
                if let (Entry::Change { version, .. }, 0) = (&mut again, random.below(3)) {
                    *version = other_version(*version);
                }
                again
            }
            _ => {
                let length = random.below(longest + 1);
                let version = version(random);
                let mut program = super::program(random, &Style::FEW_SETTINGS, length);
                if random.below(6) == 0 {
                    damage(random, &mut program);
                    program.resize(INSTRUCTION_BYTES * length, 0);
                }
                Entry::Change {
                    timestamp,
                    version,
                    program,
                }
            }
        });
    }
    entries
}

/// Contents for a lent slice of answers.
pub fn answers(random: &mut Random, length: usize) -> Vec<u8> {
    (0..length).map(|_| random.bits() as u8).collect()
}

/// The length of a slice for the package that these tables write, which may be out of form: most
/// often about what that needs.
pub fn room(random: &mut Random, tables: &Tables) -> usize {
    let needed = Size::of(tables).bytes.min(2 * MAX_BYTES);
    match random.below(8) {
        0 => random.below(needed),
        1 => needed - 1,
        2 | 3 => needed,
        4 => needed + 1 + random.below(ENTRY_BYTES),
        5 => random.pick(&[0, MAX_BYTES, 2 * MAX_BYTES]),
        _ => needed + random.below(2 * needed),
    }
}

/// A single thing for which a package breaks its layout or length.
#[derive(Clone, Copy, Debug, PartialEq, Eq, PartialOrd, Ord)]
pub enum Breach {
    /// It ends before the last byte.
    Short,
    /// Bytes follow.
    Long,
    /// The count counts another entry.
    CountTooHigh,
    /// The count leaves an entry out.
    CountTooLow,
    /// A kind is above 1.
    Kind,
    /// An instruction count is above 32, with as many instructions.
    Above32,
    /// An instruction count is another, 0 to 32.
    OtherCount,
    /// A withdrawal has instructions.
    Withdrawal,
    /// A version is above 1.
    VersionAbove1,
    /// A withdrawal has version 1.
    WithdrawalOfVersion1,
    /// The last byte of an entry is not 0.
    LastByte,
    /// All is right but the length, which is above 65,535.
    Above65535,
    /// All is right but the count, which is above 512.
    Above512,
}

impl Breach {
    /// All breaches.
    pub const ALL: [Self; 13] = [
        Self::Short,
        Self::Long,
        Self::CountTooHigh,
        Self::CountTooLow,
        Self::Kind,
        Self::Above32,
        Self::OtherCount,
        Self::Withdrawal,
        Self::VersionAbove1,
        Self::WithdrawalOfVersion1,
        Self::LastByte,
        Self::Above65535,
        Self::Above512,
    ];

    /// Makes this breach in a package that keeps the layout, or returns none where it has no entry
    /// for it.
    pub fn make(self, random: &mut Random, package: &mut Vec<u8>) -> Option<()> {
        let count = usize::from(u16::from_le_bytes([package[0], package[1]]));
        let entry = (count > 0).then(|| 2 + ENTRY_BYTES * random.below(count));
        let low_byte_first = |count: usize| (count as u16).to_le_bytes();
        match self {
            Self::Short => {
                let missing = random.pick(&[1, 1, 2, INSTRUCTION_BYTES, ENTRY_BYTES]);
                package.truncate(package.len().saturating_sub(missing));
            }
            Self::Long => {
                let more = random.pick(&[1, 1, 2, INSTRUCTION_BYTES, ENTRY_BYTES]);
                package.resize(package.len() + more, 0);
            }
            Self::CountTooHigh => package[..2].copy_from_slice(&low_byte_first(count + 1)),
            Self::CountTooLow => {
                entry?;
                package[..2].copy_from_slice(&low_byte_first(count - 1));
            }
            Self::Kind => package[entry? + 8] = 2 + random.below(254) as u8,
            Self::Above32 => {
                let above = MAX_INSTRUCTIONS + 1 + random.below(4);
                replace_body(package, entry?, 0, above);
            }
            Self::OtherCount => {
                let instructions = &mut package[entry? + 9];
                *instructions = (*instructions + 1 + random.below(32) as u8) % 33;
            }
            Self::Withdrawal => {
                replace_body(package, entry?, 1, 1 + random.below(MAX_INSTRUCTIONS));
            }
            Self::VersionAbove1 => {
                package[entry? + 10] = match random.below(2) {
                    0 => random.pick(&[2, 3, 128, 255]),
                    _ => 2 + random.below(254) as u8,
                };
            }
            Self::WithdrawalOfVersion1 => {
                let entries = (0..count).map(|index| 2 + ENTRY_BYTES * index);
                let withdrawals = entries.filter(|entry| package[entry + 8] == 1);
                let withdrawals: Vec<usize> = withdrawals.collect();
                if withdrawals.is_empty() {
                    return None;
                }
                package[random.pick(&withdrawals) + 10] = 1;
            }
            Self::LastByte => package[entry? + 11] = 1 << random.below(8),
            Self::Above65535 => {
                let program = vec![0; INSTRUCTION_BYTES * MAX_INSTRUCTIONS];
                let change = |timestamp| Entry::Change {
                    timestamp,
                    version: Version::Zero,
                    program: program.clone(),
                };
                let in_entry = ENTRY_BYTES + program.len();
                let entries: Vec<Entry> = (1..=(MAX_BYTES / in_entry + 1) as u64)
                    .map(change)
                    .collect();
                *package = lay_out(&entries);
            }
            Self::Above512 => {
                let withdrawal = |timestamp| Entry::Withdrawal { timestamp };
                let count = (MAX_ENTRIES + 1 + random.below(4)) as u64;
                let entries: Vec<Entry> = (1..=count).map(withdrawal).collect();
                *package = lay_out(&entries);
            }
        }
        Some(())
    }
}

/// Gives an entry this kind, so many instructions and version 0, and the package the length that
/// fits.
fn replace_body(package: &mut Vec<u8>, entry: usize, kind: u8, instructions: usize) {
    let old = usize::from(package[entry + 9]);
    let others = package.len() - INSTRUCTION_BYTES * old;
    package.resize(others + INSTRUCTION_BYTES * instructions, 0);
    package[entry + 8] = kind;
    package[entry + 9] = instructions as u8;
    package[entry + 10] = 0;
}
