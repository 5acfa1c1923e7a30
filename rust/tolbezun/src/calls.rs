//! The calls of documents 01 and 02, on lent tables of any lengths and contents.
//!
//! [`Cabinet`](crate::Cabinet) makes them on tables of its own. Each function here says what its
//! call alters; a refused call alters nothing.

use crate::answers::{Refusal, Standing, Status, Taken, Turned};
use crate::library;
use crate::tables::Tables;
use crate::with_tables;

/// Calls a function of the library. The pointers are those that the method `$pointer` of a slice
/// gives.
macro_rules! call {
    ($function:ident $arguments:tt) => {
        with_tables!(call($function $arguments))
    };
    (
        ($function:ident($n:expr, $tables:ident.$pointer:ident() $(, $argument:expr)*))
        $(#$doc:tt $field:ident $names:tt $entries:tt)*
    ) => {
        library::$function(
            $n,
            $($tables.$field.$pointer(), $tables.$field.len(),)*
            $($argument),*
        )
    };
}

/// The number of answers that a package needs room for.
pub const ANSWERS: usize = 512;

/// The number of totals that a drain needs room for: four for each of 256 consoles.
pub const TOTALS: usize = 1_024;

/// The most bytes that a package has.
pub const PACKAGE_BYTES: usize = 65_535;

/// Sets up the tables: every slot 0, the view and the kept values at the start values.
pub fn set_up(n: usize, tables: &mut Tables) -> Result<(), Refusal> {
    // SAFETY: pointers and lengths are those of distinct vectors, which may be written, and nothing
    // more is required.
    done(unsafe { call!(tolbezun_set_up(n, tables.as_mut_ptr())) })
}

/// Takes in a change: held count, timestamps, order, length, programs and version. A version above 1
/// is refused; [`Version`](crate::Version) says what the others mean.
pub fn take_in(
    n: usize,
    tables: &mut Tables,
    timestamp: u64,
    version: u16,
    program: &[u8],
) -> Result<Taken, Refusal> {
    let (bytes, length) = (program.as_ptr(), program.len());
    // SAFETY: pointers and lengths are those of distinct vectors, which may be written, and of a
    // slice, and nothing more is required.
    taken(unsafe {
        call!(tolbezun_take_in(
            n,
            tables.as_mut_ptr(),
            timestamp,
            version,
            bytes,
            length
        ))
    })
}

/// Withdraws a change: status and withdrawn.
pub fn withdraw(n: usize, tables: &mut Tables, timestamp: u64) -> Result<(), Refusal> {
    // SAFETY: pointers and lengths are those of distinct vectors, which may be written, and nothing
    // more is required.
    done(unsafe { call!(tolbezun_withdraw(n, tables.as_mut_ptr(), timestamp)) })
}

/// Takes in a package: what taking in and withdrawing alter, and for each of its entries a byte of
/// the answers, which must be [`ANSWERS`]; [`entry_answer`] says what it means.
pub fn take_in_package(
    n: usize,
    tables: &mut Tables,
    package: &[u8],
    answers: &mut [u8],
) -> Result<(), Refusal> {
    let (bytes, length) = (package.as_ptr(), package.len());
    let (answers, count) = (answers.as_mut_ptr(), answers.len());
    // SAFETY: pointers and lengths are those of distinct vectors, which may be written, of a slice,
    // and of one that may be written, and nothing more is required.
    done(unsafe {
        call!(tolbezun_take_in_package(
            n,
            tables.as_mut_ptr(),
            bytes,
            length,
            answers,
            count
        ))
    })
}

/// The number of entries that a package says it has, in its first two bytes.
pub fn entry_count(package: &[u8]) -> usize {
    let count = package.first_chunk().copied().unwrap_or_default();
    u16::from_le_bytes(count).into()
}

/// The answer that a byte of a package's answers stands for.
///
/// # Panics
///
/// Panics if no answer has this number.
pub fn entry_answer(byte: u8) -> Result<Taken, Refusal> {
    taken(byte)
}

/// Makes a turn: status, both lists of the change whose turn it is, view.
pub fn turn(n: usize, tables: &mut Tables) -> Result<Turned, Refusal> {
    let mut slots = [0; 2];
    let (values, length) = (slots.as_mut_ptr(), slots.len());
    // SAFETY: pointers and lengths are those of distinct vectors and of an array, which may be
    // written, and nothing more is required.
    let answer = unsafe { call!(tolbezun_turn(n, tables.as_mut_ptr(), values, length)) };
    let [timestamp, place] = slots;
    match answer {
        0 => Ok(Turned::Idle),
        1 => Ok(Turned::Ran(timestamp)),
        2 => Ok(Turned::Stood(timestamp)),
        3 => Ok(Turned::Cleared(timestamp)),
        // A place is below 32.
        4 => Ok(Turned::Faulted(timestamp, place as usize)),
        _ => Err(refusal(i64::from(answer) - 16)),
    }
}

/// Makes turns until one is idle: what turns alter, and all of the totals, which must be [`TOTALS`].
/// [`TotalsByConsole`](crate::TotalsByConsole) says what they mean.
pub fn drain(n: usize, tables: &mut Tables, totals: &mut [u16]) -> Result<(), Refusal> {
    let (totals, length) = (totals.as_mut_ptr(), totals.len());
    // SAFETY: pointers and lengths are those of distinct vectors and of a distinct slice, which may
    // be written, and nothing more is required.
    done(unsafe { call!(tolbezun_drain(n, tables.as_mut_ptr(), totals, length)) })
}

/// Drops every change stamped below a timestamp, the new cutoff, and keeps each setting's value as of
/// it: every table but the view. The others close up in order of arrival.
pub fn cutoff(n: usize, tables: &mut Tables, timestamp: u64) -> Result<(), Refusal> {
    // SAFETY: pointers and lengths are those of distinct vectors, which may be written, and nothing
    // more is required.
    done(unsafe { call!(tolbezun_cutoff(n, tables.as_mut_ptr(), timestamp)) })
}

/// The current value of a setting, from the view.
pub fn current_value(n: usize, tables: &Tables, setting: usize) -> Result<i32, Refusal> {
    // SAFETY: pointers and lengths are those of vectors, and nothing more is required.
    value(unsafe { call!(tolbezun_current_value(n, tables.as_ptr(), setting)) })
}

/// The value of a setting as of a timestamp: that of the highest write stamped below it, else the
/// kept value.
pub fn value_as_of(
    n: usize,
    tables: &Tables,
    timestamp: u64,
    setting: usize,
) -> Result<i32, Refusal> {
    // SAFETY: pointers and lengths are those of vectors, and nothing more is required.
    value(unsafe { call!(tolbezun_value_as_of(n, tables.as_ptr(), timestamp, setting)) })
}

/// The standing of a timestamp.
pub fn standing(n: usize, tables: &Tables, timestamp: u64) -> Result<Standing, Refusal> {
    // SAFETY: pointers and lengths are those of vectors, and nothing more is required.
    let standing = number(unsafe { call!(tolbezun_standing(n, tables.as_ptr(), timestamp)) })?;
    let [status, flag] = standing.to_le_bytes();
    Ok(Standing {
        status: match status {
            0 => Status::New,
            1 => Status::Valid,
            2 => Status::Invalid,
            _ => not_an_answer(status.into()),
        },
        withdrawn: match flag {
            0 => false,
            1 => true,
            _ => not_an_answer(flag.into()),
        },
    })
}

/// Runs all held changes in timestamp order, withdrawn ones passed over, on settings of its own,
/// which begin at the kept values, and writes what they leave to the lent settings, which must be
/// 1,024.
pub fn plain_run(n: usize, tables: &Tables, settings: &mut [i32]) -> Result<(), Refusal> {
    let (settings, length) = (settings.as_mut_ptr(), settings.len());
    // SAFETY: pointers and lengths are those of vectors and of a distinct slice, which may be
    // written, and nothing more is required.
    done(unsafe { call!(tolbezun_plain_run(n, tables.as_ptr(), settings, length)) })
}

/// Writes all held changes by rising timestamp, then the withdrawals by rising timestamp, as one
/// package to the first of the lent bytes, and returns its length. Later bytes keep their contents.
/// No package needs more than [`PACKAGE_BYTES`].
pub fn package_out(n: usize, tables: &Tables, package: &mut [u8]) -> Result<usize, Refusal> {
    let (package, length) = (package.as_mut_ptr(), package.len());
    // SAFETY: pointers and lengths are those of vectors and of a distinct slice, which may be
    // written, and nothing more is required.
    let written = unsafe { call!(tolbezun_package_out(n, tables.as_ptr(), package, length)) };
    number(written).map(usize::from)
}

/// Writes the value that each setting starts at to the lent settings, which must be 1,024.
pub fn start_values(settings: &mut [i32]) -> Result<(), Refusal> {
    let (settings, length) = (settings.as_mut_ptr(), settings.len());
    // SAFETY: pointer and length are those of a slice, which may be written, and nothing more is
    // required.
    done(unsafe { library::tolbezun_start_values(settings, length) })
}

fn done(answer: u8) -> Result<(), Refusal> {
    match answer {
        0 => Ok(()),
        _ => Err(refusal(answer.into())),
    }
}

fn taken(answer: u8) -> Result<Taken, Refusal> {
    match answer {
        255 => Ok(Taken::AlreadyHeld),
        _ => done(answer).map(|()| Taken::Done),
    }
}

fn value(answer: i64) -> Result<i32, Refusal> {
    i32::try_from(answer).map_err(|_| refusal(answer - 4_294_967_296))
}

fn number(answer: u32) -> Result<u16, Refusal> {
    u16::try_from(answer).map_err(|_| refusal(i64::from(answer) - 65_536))
}

fn refusal(number: i64) -> Refusal {
    let refusal = u8::try_from(number).ok().and_then(Refusal::from_number);
    refusal.unwrap_or_else(|| not_an_answer(number))
}

/// The library is proved to give answers only.
fn not_an_answer(number: i64) -> ! {
    panic!("{number} is not an answer of the library")
}
