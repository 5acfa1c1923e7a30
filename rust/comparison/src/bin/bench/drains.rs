//! Drains beside a plain run of the same history.

use crate::history::{
    assert_drained, changes, dense, drain, drain_outside, drained, long, pass_on, set, stamp,
    sum_among, take_in, Change, FEW, FULL,
};
use crate::measure::{column, measure};
use comparison::generate::Random;
use comparison::proved::calls as proved;
use comparison::turns::sums;
use tolbezun::{MAX_CAPACITY, SETTINGS};

/// The setting that half of the changes set and half read.
const HALVED: usize = 34;

/// Of histories with long or dense lists the outside implementation drains only those with at most
/// so many changes: each of its turns looks at every change for each setting of the lists.
const OUTSIDE_LONG: usize = 512;

const HEADING: &str = "\
As many changes are held as the capacity. Changes with short lists are sums: they read two settings
and write one, all among 64 or 1,024. Those with long lists read 16 settings that none writes, and
write 16. A late change is stamped below all others, which are drained, and sets a setting. Each
other reads one setting and writes one, which nobody reads but in the chain the next change; with
dense lists each reads 12 of 64 settings and writes 12, and the late change sets 16 of them. Where
half set setting 34, they are New, and between them are drained ones that read it. Mixed are sums, a
tenth of them New, and a tenth withdrawn after all but the New were drained.

Times are in µs. The drain is divided by a full plain run on the same tables, the test of form in
both, and by the drain of the outside implementation, where that does not take too long.";

pub fn print(random: &mut Random) {
    println!("{HEADING}");
    for held in FULL {
        println!();
        println!("capacity {held}, {held} held");
        println!(
            "{:42}{:>6}{:>7}{:>9}{:>11}{:>12}{:>9}{:>12}{:>10}",
            "", "ran", "stood", "cleared", "plain run", "drain", "/run", "outside", "/outside"
        );
        for case in cases(held, random) {
            case.print(held);
        }
    }
}

/// What is held before a drain.
struct Case {
    name: &'static str,
    /// Changes that are drained before, those that are then taken in, and those withdrawn.
    drained: Vec<Change>,
    taken_in: Vec<Change>,
    withdrawn: Vec<u64>,
    /// How many changes run, where that is known.
    ran: Option<usize>,
    /// The most held changes for which the outside implementation is asked.
    outside: usize,
}

fn cases(held: usize, random: &mut Random) -> Vec<Case> {
    let others = 1..held;
    // These read setting 0, the rest setting 1. Nobody reads what they write.
    let readers = |reads: fn(usize) -> bool| {
        let from = |rank| usize::from(!reads(rank));
        let to = |rank| 2 + rank % (SETTINGS - 2);
        changes(others.clone(), |rank| pass_on(from(rank), to(rank)))
    };
    let chain = changes(others.clone(), |rank| {
        pass_on((rank - 1) % SETTINGS, rank % SETTINGS)
    });
    vec![
        Case::all_new(
            "all New, short lists, 64 settings",
            changes(0..held, |_| sum_among(random, FEW)),
        ),
        Case::all_new(
            "all New, short lists, 1,024 settings",
            changes(0..held, |_| sum_among(random, SETTINGS)),
        ),
        Case {
            outside: OUTSIDE_LONG,
            ..Case::all_new("all New, long lists", changes(0..held, |_| long(random)))
        },
        Case {
            ran: Some(1),
            ..Case::late("a late change, nobody reads it", [0], readers(|_| false))
        },
        Case {
            ran: Some(held),
            ..Case::late("a late change, all others read it", [0], readers(|_| true))
        },
        Case {
            ran: Some(1 + (held - 1) / 20),
            ..Case::late(
                "a late change, 5 % read it",
                [0],
                readers(|rank| rank % 20 == 0),
            )
        },
        Case::half(held),
        Case {
            outside: OUTSIDE_LONG,
            ..Case::late(
                "a late change, dense lists, 64 settings",
                0..16,
                changes(others.clone(), |_| dense(random)),
            )
        },
        Case::mixed("mixed, 64 settings", held, || sum_among(random, FEW)),
        Case::mixed("mixed, 1,024 settings", held, || {
            sum_among(random, SETTINGS)
        }),
        Case {
            ran: Some(held),
            ..Case::late("a late change, a chain through all", [0], chain)
        },
    ]
}

impl Case {
    /// Changes that are all New.
    fn all_new(name: &'static str, changes: Vec<Change>) -> Self {
        Self {
            name,
            ran: Some(changes.len()),
            drained: Vec::new(),
            taken_in: changes,
            withdrawn: Vec::new(),
            outside: MAX_CAPACITY,
        }
    }

    /// Others that are drained, and then a change below them that sets these settings.
    fn late(
        name: &'static str,
        settings: impl IntoIterator<Item = usize> + Clone,
        others: Vec<Change>,
    ) -> Self {
        Self {
            drained: others,
            ran: None,
            ..Self::all_new(name, changes([0], |_| set(settings.clone(), 7)))
        }
    }

    /// New changes that set a setting, none to the 1 that it starts at, and between them drained
    /// ones that read it.
    fn half(held: usize) -> Self {
        let half = |first: usize| (first..held).step_by(2);
        let setters = changes(half(0), |rank| set([HALVED], 2 + rank as i32));
        Self {
            drained: changes(half(1), |rank| pass_on(HALVED, HALVED + 1 + rank % 900)),
            ran: Some(held),
            ..Self::all_new("half New set 34, half read it", setters)
        }
    }

    /// One tenth New, and of the drained ones as many withdrawn.
    fn mixed(name: &'static str, held: usize, mut program: impl FnMut() -> Vec<u8>) -> Self {
        let (new, old) = (0..held).partition::<Vec<_>, _>(|rank| rank % 10 == 3);
        let withdrawn = (0..held).filter(|rank| rank % 10 == 7);
        Self {
            drained: changes(old, |_| program()),
            withdrawn: withdrawn.map(stamp).collect(),
            ran: None,
            ..Self::all_new(name, changes(new, |_| program()))
        }
    }

    /// The row of the drain.
    fn print(&self, n: usize) {
        let mut tables = drained(n, &self.drained);
        take_in(n, &mut tables, &self.taken_in);
        for &timestamp in &self.withdrawn {
            assert_eq!(proved::withdraw(n, &mut tables, timestamp), Ok(()));
        }
        let outside = (n <= self.outside).then_some(drain_outside);
        let measured = measure(n, &tables, drain, outside);
        assert_drained(n, &measured.after);
        let [ran, stood, cleared, faulted] = sums(&measured.answer);
        assert_eq!(faulted, 0);
        assert!(self.ran.is_none_or(|known| known == ran));
        println!(
            "{:42}{ran:6}{stood:7}{cleared:9}{:11.1}{:12.1}{:9.2}{}{}",
            self.name,
            measured.run,
            measured.proved,
            measured.proved / measured.run,
            column(measured.outside, 12, 1),
            column(measured.by_outside(), 10, 2),
        );
    }
}
