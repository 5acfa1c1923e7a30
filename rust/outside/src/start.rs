//! The start values.
//!
//! Document 02, R-1, whose sentences are quoted here. "numbered port × 16 + field" is document 01's.

use crate::calls::{refuse_unless, Refusal};
use crate::program::SETTINGS;
use std::array;

/// "Every setting of field 2 now starts at 1 and all others at 0."
pub fn start_value(setting: usize) -> i32 {
    match setting % 16 {
        2 => 1,
        _ => 0,
    }
}

/// The start value of every setting.
pub fn settings_at_start() -> [i32; SETTINGS] {
    array::from_fn(start_value)
}

/// "The start values are shipped as one constant table of 1,024 numbers, because the spare-switch
/// tool prints it." The lent slice gets them; document 01 refuses one that "has another length than
/// stated".
pub fn start_values(lent: &mut [i32]) -> Result<(), Refusal> {
    refuse_unless(lent.len() == SETTINGS, Refusal::Length)?;
    lent.copy_from_slice(&settings_at_start());
    Ok(())
}

#[cfg(test)]
mod tests;
