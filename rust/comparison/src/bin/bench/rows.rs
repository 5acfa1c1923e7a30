//! Rows of calls on tables of a capacity and a held count, with the ratios of their times.

use crate::measure::{column, measure};
use outside::calls::Refusal;
use std::fmt::Debug;
use tolbezun::Tables;

/// What is printed about the columns.
pub const COLUMNS: &str = "\
Times are in µs; the others are ratios: to the outside implementation, and on the tables before the
call to one plain read of all their bytes, to the test of form (current value), and to a full plain
run.";

/// The rows for a capacity and a held count.
pub struct Rows {
    pub n: usize,
    pub held: usize,
}

impl Rows {
    /// Prints the heads of the columns.
    pub fn begin(n: usize, held: usize) -> Self {
        println!();
        println!("capacity {n}, {held} held");
        println!(
            "{:48}{:>11}{:>11}{:>10}{:>9}{:>9}{:>9}",
            "", "proved", "outside", "/outside", "/read", "/form", "/run"
        );
        Self { n, held }
    }

    /// The row of a call. Returns its answer and the tables after it.
    pub fn row<A: Debug + PartialEq>(
        &self,
        name: &str,
        tables: &Tables,
        proved: impl Fn(usize, &mut Tables) -> Result<A, u8>,
        outside: impl Fn(usize, &mut outside::tables::Tables) -> Result<A, Refusal>,
    ) -> (A, Tables) {
        let measured = measure(self.n, tables, proved, Some(outside));
        let proved = measured.proved;
        println!(
            "{name:48}{proved:11.1}{}{}{:9.2}{:9.2}{:9.2}",
            column(measured.outside, 11, 1),
            column(measured.by_outside(), 10, 2),
            proved / measured.read,
            proved / measured.form,
            proved / measured.run,
        );
        (measured.answer, measured.after)
    }
}
