//! The call cutoff.
//!
//! Document 02, R-7, whose sentences are quoted here, and source document 004, section 4.3, that it
//! names.

use crate::calls::{check, check_timestamp, refuse_unless, Refusal};
use crate::program::SETTINGS;
use crate::tables::{Status, Tables};

/// "a cutoff drops every change stamped below it and keeps each setting's value as of it". The view
/// stays as it is.
pub fn cutoff(n: usize, tables: &mut Tables, timestamp: u64) -> Result<(), Refusal> {
    check(n, tables)?;
    // "a new cutoff is a timestamp to refusal 4 too", and a lower one is refused, 14.
    check_timestamp(tables, timestamp)?;
    let (below, remaining): (Vec<usize>, Vec<usize>) =
        (0..tables.held_count()).partition(|&place| tables.timestamps[place] < timestamp);
    let settled = |&place: &usize| tables.status(place) == Status::Valid;
    refuse_unless(below.iter().all(settled), Refusal::Unsettled)?;

    let kept = values_after(tables, &below);
    *tables = closed_up(tables, &remaining);
    tables.kept = kept.to_vec();
    tables.cutoff[0] = timestamp;
    Ok(())
}

/// What the write lists of these places leave of the kept values: for each setting what the change of
/// the highest timestamp wrote to it.
///
/// "the site must retain Value-Upto(x,T_0) for each object x" (source document 004).
fn values_after(tables: &Tables, places: &[usize]) -> [i32; SETTINGS] {
    let mut highest = [0; SETTINGS];
    let mut values = tables.kept_settings();
    for &place in places {
        let timestamp = tables.timestamps[place];
        for write in tables.write_list(place) {
            let setting = usize::from(write.setting);
            if timestamp > highest[setting] {
                highest[setting] = timestamp;
                values[setting] = write.value;
            }
        }
    }
    values
}

/// "Remaining changes close up in order of arrival and freed places take new changes." So the tables
/// are as if these places alone had been taken in: all slots of freed places are 0.
fn closed_up(tables: &Tables, places: &[usize]) -> Tables {
    let mut closed = Tables::new(tables.timestamps.len());
    closed.held[0] = places.len() as u16;
    for (place, &from) in places.iter().enumerate() {
        closed.copy_place(place, tables, from);
    }
    // "order (N, the places by rising timestamp)" is document 01's.
    let order = &mut closed.order[..places.len()];
    for (slot, place) in order.iter_mut().zip(0..) {
        *slot = place;
    }
    order.sort_unstable_by_key(|&place| closed.timestamps[usize::from(place)]);
    closed.view.clone_from(&tables.view);
    closed
}

#[cfg(test)]
mod tests;
