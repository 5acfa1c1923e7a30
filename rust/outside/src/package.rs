//! The layout of a package, and the calls that take one in and write one.
//!
//! Document 01, "Calls", and refusal 3 of "Turned down, in checking order"; document 02, R-3, R-6 and
//!

use crate::calls::{check, refuse_unless, Refusal};
use crate::intake::{take_in_checked, withdraw_checked, Taken};
use crate::program::{Version, INSTRUCTION_BYTES, MAX_INSTRUCTIONS};
use crate::tables::Tables;
use std::collections::BTreeMap;

/// "Its length is at most 65,535".
pub const MAX_BYTES: usize = 65_535;

/// "a 16-bit count k, 0 to 512".
pub const MAX_ENTRIES: usize = 512;

/// "then k entries of 12 bytes".
pub const ENTRY_BYTES: usize = 12;

/// "a lent slice of 512 answer bytes".
pub const ANSWERS: usize = 512;

/// An answer byte: "0 done, 255 already held, else the refusal".
pub const DONE: u8 = 0;

/// An answer byte.
pub const ALREADY_HELD: u8 = 255;

/// An entry of a package, with its body.
#[derive(Clone, Debug, PartialEq, Eq)]
#[allow(missing_docs)]
pub enum Entry {
    Change {
        timestamp: u64,
        version: Version,
        program: Vec<u8>,
    },
    Withdrawal {
        timestamp: u64,
    },
}

/// The entries of a package, or none if it "breaks its layout or length".
///
/// "A package begins with its contents: a 16-bit count k, 0 to 512, then k entries of 12 bytes:
/// timestamp (8), kind (0 change, 1 withdrawal), instruction count (0 to 32, and 0 for a
/// withdrawal), two zero bytes. Bodies follow in that order without gaps. All numbers are low byte
/// first. Its length is at most 65,535 and fits exactly."
///
/// "The first zero byte of a package entry becomes the version, 0 or 1, kept with the change. [..] A
/// withdrawal has version 0. [..] A direct call with a version above 1 gets refusal 13, just after 6;
/// in a package that is refusal 3." (document 02, R-6)
pub fn entries(package: &[u8]) -> Option<Vec<Entry>> {
    let (&count, rest) = package.split_first_chunk()?;
    let count = usize::from(u16::from_le_bytes(count));
    if package.len() > MAX_BYTES || count > MAX_ENTRIES {
        return None;
    }
    let (contents, mut bodies) = rest.split_at_checked(ENTRY_BYTES * count)?;
    let (contents, _) = contents.as_chunks::<ENTRY_BYTES>();
    let mut entries = Vec::with_capacity(count);
    for &[t0, t1, t2, t3, t4, t5, t6, t7, kind, instructions, version, zero] in contents {
        let timestamp = u64::from_le_bytes([t0, t1, t2, t3, t4, t5, t6, t7]);
        let instructions = usize::from(instructions);
        let version = Version::from_number(version.into())?;
        if instructions > MAX_INSTRUCTIONS || zero != 0 {
            return None;
        }
        entries.push(match kind {
            0 => {
                let (body, after) = bodies.split_at_checked(INSTRUCTION_BYTES * instructions)?;
                bodies = after;
                Entry::Change {
                    timestamp,
                    version,
                    program: body.to_vec(),
                }
            }
            1 if instructions == 0 && version == Version::Zero => Entry::Withdrawal { timestamp },
            _ => return None,
        });
    }
    bodies.is_empty().then_some(entries)
}

/// The bytes of a package with these entries, laid out as [`entries`] reads them. Neither their
/// number nor the length is tested.
pub fn lay_out(entries: &[Entry]) -> Vec<u8> {
    let mut package = (entries.len() as u16).to_le_bytes().to_vec();
    for entry in entries {
        let (timestamp, kind, bytes, version) = match entry {
            Entry::Change {
                timestamp,
                version,
                program,
            } => (timestamp, 0, program.len(), *version),
            Entry::Withdrawal { timestamp } => (timestamp, 1, 0, Version::Zero),
        };
        let instructions = (bytes / INSTRUCTION_BYTES) as u8;
        package.extend(timestamp.to_le_bytes());
        package.extend([kind, instructions, version.number() as u8, 0]);
    }
    for entry in entries {
        if let Entry::Change { program, .. } = entry {
            package.extend(program);
        }
    }
    package
}

/// "Entries are carried out in order into a lent slice of 512 answer bytes: 0 done, 255 already
/// held, else the refusal; later bytes keep their contents, and a refused entry stops nothing." An
/// entry stamped below the cutoff is refused (document 02, R-7).
pub fn take_in_package(
    n: usize,
    tables: &mut Tables,
    package: &[u8],
    answers: &mut [u8],
) -> Result<(), Refusal> {
    refuse_unless(answers.len() == ANSWERS, Refusal::Length)?;
    check(n, tables)?;
    let entries = entries(package).ok_or(Refusal::Package)?;
    for (answer, entry) in answers.iter_mut().zip(entries) {
        let taken = match entry {
            Entry::Change {
                timestamp,
                version,
                program,
            } => take_in_checked(tables, timestamp, version.number(), &program),
            Entry::Withdrawal { timestamp } => {
                withdraw_checked(tables, timestamp).map(|()| Taken::Done)
            }
        };
        *answer = match taken {
            Ok(Taken::Done) => DONE,
            Ok(Taken::AlreadyHeld) => ALREADY_HELD,
            Err(refusal) => refusal.number(),
        };
    }
    Ok(())
}

/// "Write all held changes by rising timestamp, then the withdrawals by rising timestamp, as one
/// package. [..] The written length is returned and later bytes of the lent slice keep their
/// contents. Refusal 12, last in the order: the package would pass its own limits or the lent
/// slice." (document 02, R-3)
pub fn package_out(n: usize, tables: &Tables, lent: &mut [u8]) -> Result<usize, Refusal> {
    check(n, tables)?;
    let held = 0..tables.held_count();
    let places: BTreeMap<u64, usize> = held
        .map(|place| (tables.timestamps[place], place))
        .collect();
    let changes = places.iter().map(|(&timestamp, &place)| Entry::Change {
        timestamp,
        version: tables.version(place),
        program: tables.program(place).to_vec(),
    });
    let withdrawn = places
        .iter()
        .filter(|(_, &place)| tables.withdrawn[place] != 0);
    let withdrawals = withdrawn.map(|(&timestamp, _)| Entry::Withdrawal { timestamp });
    let entries: Vec<Entry> = changes.chain(withdrawals).collect();
    let package = lay_out(&entries);
    let in_limits = entries.len() <= MAX_ENTRIES && package.len() <= MAX_BYTES;
    refuse_unless(in_limits && package.len() <= lent.len(), Refusal::Room)?;
    lent[..package.len()].copy_from_slice(&package);
    Ok(package.len())
}

#[cfg(test)]
mod tests;
