//! Each call but turn and drain as the history grows.

use crate::history::{self, changes, drained, stamp, sum_among, Change, FEW, SIZES};
use crate::rows::{Rows, COLUMNS};
use comparison::generate::Random;
use comparison::proved::calls as proved;
use outside::calls::{self, Refusal};
use outside::cutoff;
use outside::intake::{self, Taken};
use outside::package::{self, ANSWERS, DONE, MAX_BYTES, MAX_ENTRIES};
use outside::program::SETTINGS;
use outside::start::start_values;
use outside::tables::INFINITY;
use tolbezun::Tables;

/// The entries of the package.
const ENTRIES: usize = 64;

/// A setting that no sum names.
const UNWRITTEN: usize = 1_000;

const HEADING: &str = "\
All changes are sums: each reads two of 64 settings and writes one, in 6 instructions. So many are
held after each call, and before a cutoff, where they arrived in any order.
";

pub fn print(random: &mut Random) {
    println!("{HEADING}\n{COLUMNS}");
    for (n, held) in SIZES {
        let rows = Rows::begin(n, held);
        let sums = changes(0..held, |_| sum_among(random, FEW));
        changing(&rows, &sums);
        let drained = drained(n, &sums);
        queries(&rows, &drained, sums[0].timestamp);
        package_out(&rows, &drained, &sums);
        package(&rows, random);
        cutoffs(&rows, random);
    }
}

/// Set up, and a change taken in or withdrawn.
fn changing(rows: &Rows, sums: &[Change]) {
    let all = drained(rows.n, sums);
    rows.row("set up", &all, proved::set_up, calls::set_up);
    let (newest, others) = sums.split_last().expect("some are held");
    take_in(rows, "take in the newest", newest, others);
    let (oldest, others) = sums.split_first().expect("some are held");
    take_in(rows, "take in the oldest", oldest, others);
    rows.row(
        "withdraw the oldest",
        &all,
        |n, tables| proved::withdraw(n, tables, oldest.timestamp),
        |n, tables| intake::withdraw(n, tables, oldest.timestamp),
    );
}

/// A change taken in where these others are drained.
fn take_in(rows: &Rows, name: &str, change: &Change, others: &[Change]) {
    let Change { timestamp, program } = change;
    let (taken, _) = rows.row(
        name,
        &drained(rows.n, others),
        |n, tables| proved::take_in(n, tables, *timestamp, 0, program),
        |n, tables| intake::take_in(n, tables, *timestamp, 0, program),
    );
    assert_eq!(taken, Taken::Done);
}

/// The calls that only read.
fn queries(rows: &Rows, tables: &Tables, oldest: u64) {
    rows.row(
        "current value",
        tables,
        |n, tables| proved::current_value(n, tables, UNWRITTEN),
        |n, tables| calls::current_value(n, tables, UNWRITTEN),
    );
    rows.row(
        "value as of, written by none",
        tables,
        |n, tables| proved::value_as_of(n, tables, INFINITY, UNWRITTEN),
        |n, tables| calls::value_as_of(n, tables, INFINITY, UNWRITTEN),
    );
    rows.row(
        "standing of the oldest",
        tables,
        |n, tables| proved::standing(n, tables, oldest),
        |n, tables| calls::standing(n, tables, oldest),
    );
    rows.row(
        "plain run",
        tables,
        |n, tables| {
            let mut settings = [0; SETTINGS];
            proved::plain_run(n, tables, &mut settings).map(|()| settings)
        },
        |n, tables| {
            let mut settings = [0; SETTINGS];
            calls::plain_run(n, tables, &mut settings).map(|()| settings)
        },
    );
    rows.row(
        "start values",
        tables,
        |_, _| {
            let mut settings = [0; SETTINGS];
            proved::start_values(&mut settings).map(|()| settings)
        },
        |_, _| {
            let mut settings = [0; SETTINGS];
            start_values(&mut settings).map(|()| settings)
        },
    );
}

/// A package of all that is held, or refusal 12 where that is too much for one.
fn package_out(rows: &Rows, tables: &Tables, sums: &[Change]) {
    let expected = match sums.len() {
        ..=MAX_ENTRIES => Ok(history::package(sums)),
        _ => Err(Refusal::Room.number()),
    };
    let name = match &expected {
        Ok(package) => format!("package out, {} bytes", package.len()),
        Err(refusal) => format!("package out, refused {refusal}"),
    };
    let room = expected.as_ref().map_or(MAX_BYTES, Vec::len);
    let (written, _) = rows.row(
        &name,
        tables,
        |n, tables| {
            let mut package = vec![0; room];
            let written = proved::package_out(n, tables, &mut package);
            Ok(written.map(|_| package))
        },
        |n, tables| {
            let mut package = vec![0; room];
            let written = package::package_out(n, tables, &mut package);
            Ok(written.map(|_| package).map_err(Refusal::number))
        },
    );
    assert_eq!(written, expected);
}

/// A package whose entries come between the others, anywhere.
fn package(rows: &Rows, random: &mut Random) {
    let mut sums = changes(0..rows.held, |_| sum_among(random, FEW));
    let mut pick = || sums.remove(random.below(sums.len()));
    let picked: Vec<_> = (0..ENTRIES).map(|_| pick()).collect();
    let package = history::package(&picked);
    let (answers, _) = rows.row(
        &format!("take in a package of {ENTRIES}"),
        &drained(rows.n, &sums),
        |n, tables| {
            let mut answers = [DONE; ANSWERS];
            let taken = proved::take_in_package(n, tables, &package, &mut answers);
            taken.map(|()| answers)
        },
        |n, tables| {
            let mut answers = [DONE; ANSWERS];
            let taken = package::take_in_package(n, tables, &package, &mut answers);
            taken.map(|()| answers)
        },
    );
    assert_eq!(answers, [DONE; ANSWERS]);
}

/// Cutoffs that drop no change, and half of them.
fn cutoffs(rows: &Rows, random: &mut Random) {
    let mut sums = changes(0..rows.held, |_| sum_among(random, FEW));
    random.shuffle(&mut sums);
    let tables = drained(rows.n, &sums);
    for (name, dropped) in [
        ("cutoff, drops none", 0),
        ("cutoff, drops half", rows.held / 2),
    ] {
        let timestamp = stamp(dropped);
        let ((), after) = rows.row(
            name,
            &tables,
            |n, tables| proved::cutoff(n, tables, timestamp),
            |n, tables| cutoff::cutoff(n, tables, timestamp),
        );
        assert_eq!(usize::from(after.held[0]), rows.held - dropped);
    }
}
