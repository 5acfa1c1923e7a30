//! Counts of what random tests reach.

use std::collections::BTreeMap;
use std::fmt::Debug;

/// How often each event came about.
pub struct Reached<E>(BTreeMap<E, usize>);

impl<E> Default for Reached<E> {
    fn default() -> Self {
        Self(BTreeMap::new())
    }
}

impl<E: Copy + Debug + Ord> Reached<E> {
    /// Counts the event.
    pub fn count(&mut self, event: E) {
        *self.0.entry(event).or_default() += 1;
    }

    /// Counts the event if the condition holds.
    pub fn count_if(&mut self, condition: bool, event: E) {
        if condition {
            self.count(event);
        }
    }

    /// Prints all counts.
    pub fn print(&self) {
        for (event, count) in &self.0 {
            println!("{count:8} {event:?}");
        }
    }

    /// Panics unless the event came about so often.
    #[track_caller]
    pub fn assert_at_least(&self, least: usize, event: E) {
        let count = self.0.get(&event).copied().unwrap_or(0);
        assert!(count >= least, "{event:?} {count} times, not {least}");
    }
}
