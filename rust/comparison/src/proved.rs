//! The proved code: the calls, by the crate `tolbezun`, and the interpreter and the search for the
//! previous writer, by the declarations of their static libraries here.
//!
//! Nothing checks these declarations against the libraries' sources.

pub mod calls;
pub mod searches;

use outside::program::{Access, Fault, MAX_INSTRUCTIONS, SETTINGS};
use std::fmt;

unsafe extern "C" {
    /// 0 if the program is accepted, else the refusal: 6, then 13, then 7. Requires nothing.
    fn tolbezun_program_refusal(version: u16, program: *const u8, program_len: usize) -> u8;

    /// Requires nothing. Returns reads + 64 × writes + 4,096 × ending + 65,536 × place, see
    /// [`Outcome`], or 16,777,216 + the refusal: 1 where a list has not 32 slots, else 6, 13 or 7.
    fn tolbezun_program_run(
        version: u16,
        program: *const u8,
        program_len: usize,
        values: *const i32,
        values_len: usize,
        read_settings: *mut u16,
        read_settings_len: usize,
        seen_values: *mut i32,
        seen_values_len: usize,
        write_settings: *mut u16,
        write_settings_len: usize,
        written_values: *mut i32,
        written_values_len: usize,
    ) -> u32;
}

/// What the number of a refused run has above the refusal.
const REFUSED: u32 = 16_777_216;

/// 0 if the program is accepted, else the refusal. The version may be any number.
pub fn refusal(version: u16, program: &[u8]) -> u8 {
    // SAFETY: pointer and length are those of a slice, and nothing more is required.
    unsafe { tolbezun_program_refusal(version, program.as_ptr(), program.len()) }
}

/// Runs the program by this version on the given values of the settings, into lists of any length;
/// settings past the values are 0. Returns the number of the run; see [`Outcome`]. The error is the
/// refusal.
///
/// # Panics
///
/// Panics if the library gave a number that is neither a run's nor a refusal's.
pub fn run_lent(
    version: u16,
    program: &[u8],
    values: &[i32],
    read_settings: &mut [u16],
    seen_values: &mut [i32],
    write_settings: &mut [u16],
    written_values: &mut [i32],
) -> Result<u32, u8> {
    // SAFETY: pointers and lengths are those of slices, the lists are distinct, and nothing more is
    // required.
    let number = unsafe {
        tolbezun_program_run(
            version,
            program.as_ptr(),
            program.len(),
            values.as_ptr(),
            values.len(),
            read_settings.as_mut_ptr(),
            read_settings.len(),
            seen_values.as_mut_ptr(),
            seen_values.len(),
            write_settings.as_mut_ptr(),
            write_settings.len(),
            written_values.as_mut_ptr(),
            written_values.len(),
        )
    };
    match number.checked_sub(REFUSED) {
        None => Ok(number),
        Some(refusal @ (1 | 6 | 13 | 7)) => Err(refusal as u8),
        Some(_) => panic!("the number {number} of a run"),
    }
}

/// Runs the program by this version on the given values of the settings. What the outcome held is
/// overwritten. The error is the refusal; the outcome is then as it was.
pub fn run_into(
    version: u16,
    program: &[u8],
    values: &[i32; SETTINGS],
    outcome: &mut Outcome,
) -> Result<(), u8> {
    outcome.result = run_lent(
        version,
        program,
        values,
        &mut outcome.read_settings,
        &mut outcome.seen_values,
        &mut outcome.write_settings,
        &mut outcome.written_values,
    )?;
    Ok(())
}

/// As [`run_into`], into a new outcome.
pub fn run(version: u16, program: &[u8], values: &[i32; SETTINGS]) -> Result<Outcome, u8> {
    let mut outcome = Outcome::EMPTY;
    run_into(version, program, values, &mut outcome)?;
    Ok(outcome)
}

/// What a run gives: the lists, and the number that holds their lengths and the ending.
#[derive(Clone)]
pub struct Outcome {
    read_settings: [u16; MAX_INSTRUCTIONS],
    seen_values: [i32; MAX_INSTRUCTIONS],
    write_settings: [u16; MAX_INSTRUCTIONS],
    written_values: [i32; MAX_INSTRUCTIONS],
    result: u32,
}

impl Outcome {
    /// Empty lists: storage for [`run_into`].
    pub const EMPTY: Self = Self {
        read_settings: [0; MAX_INSTRUCTIONS],
        seen_values: [0; MAX_INSTRUCTIONS],
        write_settings: [0; MAX_INSTRUCTIONS],
        written_values: [0; MAX_INSTRUCTIONS],
        result: 0,
    };

    /// The read list with the values seen.
    pub fn reads(&self) -> impl Iterator<Item = Access> + '_ {
        let count = (self.result % 64) as usize;
        accesses(&self.read_settings[..count], &self.seen_values[..count])
    }

    /// The write list with the values written.
    pub fn writes(&self) -> impl Iterator<Item = Access> + '_ {
        let count = (self.result / 64 % 64) as usize;
        accesses(&self.write_settings[..count], &self.written_values[..count])
    }

    /// The fault and the place of the instruction that faulted, or none for a completed run.
    ///
    /// # Panics
    ///
    /// Panics if the library gave an ending that there is not, or a place to a completed run.
    pub fn fault(&self) -> Option<(Fault, usize)> {
        let place = (self.result / 65_536) as usize;
        match self.result / 4_096 % 16 {
            0 if place == 0 => None,
            1 => Some((Fault::NoSuchSetting, place)),
            2 => Some((Fault::ReadOfWritten, place)),
            3 => Some((Fault::WrittenTwice, place)),
            ending => panic!("ending {ending} at place {place}"),
        }
    }
}

fn accesses<'a>(settings: &'a [u16], values: &'a [i32]) -> impl Iterator<Item = Access> + 'a {
    let pairs = settings.iter().zip(values);
    pairs.map(|(&setting, &value)| Access { setting, value })
}

impl fmt::Debug for Outcome {
    fn fmt(&self, f: &mut fmt::Formatter<'_>) -> fmt::Result {
        f.debug_struct("Outcome")
            .field("reads", &self.reads().collect::<Vec<_>>())
            .field("writes", &self.writes().collect::<Vec<_>>())
            .field("fault", &self.fault())
            .finish()
    }
}
