//! The test of the tables' form, beside one plain read of the same bytes.

use crate::history::SIZES;
use crate::measure::{column, measure, Measured};
use crate::tables::bytes;
use comparison::generate::tables::in_form_with_full_lists;
use comparison::generate::Random;
use comparison::proved::calls as proved;
use outside::calls;
use tolbezun::MAX_CAPACITY;

/// The setting whose current value is asked for.
const SETTING: usize = 34;

const HEADING: &str = "\
Current value tests the form and reads one entry of the view. Each held change has 32 instructions,
32 reads and 32 writes. Times are in µs; the others are ratios.

                           plain      current value
capacity  held     bytes    read    proved   outside    /read  /outside";

pub fn print(random: &mut Random) {
    println!("{HEADING}");
    for (n, held) in [(MAX_CAPACITY, 0)].into_iter().chain(SIZES) {
        let tables = proved::lend(&in_form_with_full_lists(random, n, held));
        let measured = measure(
            n,
            &tables,
            |n, tables| proved::current_value(n, tables, SETTING),
            Some(|n, tables: &mut _| calls::current_value(n, tables, SETTING)),
        );
        let Measured { proved, read, .. } = measured;
        println!(
            "{n:8}{held:6}{:10}{read:8.1}{proved:10.1}{}{:9.2}{}",
            bytes(&tables),
            column(measured.outside, 10, 1),
            proved / read,
            column(measured.by_outside(), 10, 2),
        );
    }
}
