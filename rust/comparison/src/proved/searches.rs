//! The proved search for the previous writer, by the declaration of its static library here.
//!
//! Nothing checks this declaration against the library's source.

unsafe extern "C" {
    /// Requires nothing. Returns 0 and stores an answer for each setting: the value of its highest
    /// write by a change below the position, or [`WRITTEN_BY_NONE`]. Or it returns the refusal and
    /// stores nothing: 1 where the lengths do not fit or the position is above the order's length,
    /// else 2 where an entry of the order below the position is no place or a write count is above 32.
    fn tolbezun_previous_writes(
        settings: *const u16,
        settings_len: usize,
        position: usize,
        order: *const u16,
        order_len: usize,
        writes: *const u16,
        writes_len: usize,
        targets: *const u16,
        targets_len: usize,
        written: *const i32,
        written_len: usize,
        answers: *mut i64,
        answers_len: usize,
    ) -> u8;
}

/// The answer for a setting that no change below the position writes.
const WRITTEN_BY_NONE: i64 = 4_294_967_296;

/// What is searched in, of any lengths and with any contents.
#[derive(Clone, Copy, Debug)]
pub struct Searched<'a> {
    /// The changes below this position of the order list are searched.
    pub position: usize,
    /// The order list: the place of each change.
    pub order: &'a [u16],
    /// The write count of each place.
    pub writes: &'a [u16],
    /// The settings of the write lists, 32 slots a place.
    pub targets: &'a [u16],
    /// The values written, 32 slots a place.
    pub written: &'a [i32],
}

/// Searches for each of these settings, into as many answers. The error is the refusal.
///
/// # Panics
///
/// Panics if the library gave a number that is neither 0 nor a refusal's.
pub fn search_lent(searched: &Searched, settings: &[u16], answers: &mut [i64]) -> Result<(), u8> {
    // SAFETY: pointers and lengths are those of slices, the answers are distinct from all else, and
    // nothing more is required.
    let number = unsafe {
        tolbezun_previous_writes(
            settings.as_ptr(),
            settings.len(),
            searched.position,
            searched.order.as_ptr(),
            searched.order.len(),
            searched.writes.as_ptr(),
            searched.writes.len(),
            searched.targets.as_ptr(),
            searched.targets.len(),
            searched.written.as_ptr(),
            searched.written.len(),
            answers.as_mut_ptr(),
            answers.len(),
        )
    };
    match number {
        0 => Ok(()),
        1 | 2 => Err(number),
        _ => panic!("the number {number} of a search"),
    }
}

/// The value of the previous write of each of these settings, or none where there is none. The error
/// is the refusal.
///
/// # Panics
///
/// Panics if the library gave an answer that is no value.
pub fn search(searched: &Searched, settings: &[u16]) -> Result<Vec<Option<i32>>, u8> {
    let mut answers = vec![-1; settings.len()];
    search_lent(searched, settings, &mut answers)?;
    let value = |answer| match answer {
        WRITTEN_BY_NONE => None,
        _ => Some(i32::try_from(answer).expect("a value has 32 bits")),
    };
    Ok(answers.into_iter().map(value).collect())
}
