//! The search for the previous writer alone, beside one that visits all changes.

use crate::history::{FEW, FULL};
use crate::measure::column;
use crate::timing::{best_in_turn, time};
use comparison::generate::write_lists::WriteLists;
use comparison::generate::Random;
use comparison::proved::searches::{search, search_lent, Searched};
use outside::program::Access;
use outside::tables::LIST_ENTRIES;
use std::hint::black_box;
use std::ops::RangeInclusive;

/// A setting that no change writes.
const UNWRITTEN: u16 = 1_000;

/// The most searches that are timed together, and about how many changes and entries these pass.
const SEARCHES: usize = 65_536;
const STEPS: usize = 1 << 19;

/// The changes that write the setting which is searched for.
enum Writers {
    All,
    Lowest,
    None,
}

/// Tables, and what is searched for in them.
struct Row {
    name: &'static str,
    setting: u16,
    writers: Writers,
    /// The lengths of the write lists of changes that do not write it.
    lengths: RangeInclusive<usize>,
}

const ROWS: [Row; 14] = [
    Row {
        name: "34, all set it",
        setting: 34,
        writers: Writers::All,
        lengths: 1..=1,
    },
    Row {
        name: "34, only the lowest sets it",
        setting: 34,
        writers: Writers::Lowest,
        lengths: 1..=1,
    },
    Row::by_none("set by none, empty lists", UNWRITTEN, 0..=0),
    Row::by_none("set by none, lists of 1", UNWRITTEN, 1..=1),
    Row::by_none("set by none, lists of 2", UNWRITTEN, 2..=2),
    Row::by_none("set by none, lists of 4", UNWRITTEN, 4..=4),
    Row::by_none("set by none, lists of 8", UNWRITTEN, 8..=8),
    Row::by_none("set by none, lists of 16", UNWRITTEN, 16..=16),
    Row::by_none("set by none, lists of 32", UNWRITTEN, 32..=32),
    Row::by_none("set by none, lists of 0 to 4", UNWRITTEN, 0..=4),
    Row::by_none("set by none, lists of 0 to 32", UNWRITTEN, 0..=32),
    Row::by_none("0, set by none, lists of 1", 0, 1..=1),
    Row::by_none("0, set by none, lists of 16", 0, 16..=16),
    Row::by_none("0, set by none, lists of 0 to 32", 0, 0..=32),
];

const HEADING: &str = "\
The proved search goes down the order list from the highest change and ends at the first writer
below it. Beside it is a search of the same tables in plain Rust that visits all changes below the
highest: it goes up the order list, looks through every write list, and keeps the last value found.
The changes are at places in random order. They write settings from 1 to 64, no change the same
twice, and the slots past a list hold 0.

Times are in ns a search. Many searches for the same setting are timed together. The proved ones are
one call, which first tests lengths and contents, so the time of a call without searches is
subtracted. /proved is how many times as long the search takes that visits all; /change is the
proved time by changes passed, where they are several.";

pub fn print(random: &mut Random) {
    println!("{HEADING}");
    for held in FULL {
        println!();
        println!("capacity {held}, {held} held");
        println!(
            "{:42}{:>8}{:>11}{:>13}{:>10}{:>10}",
            "", "passed", "proved", "visits all", "/proved", "/change"
        );
        for row in &ROWS {
            row.print(random, held);
        }
    }
}

impl Row {
    /// A setting that no change writes.
    const fn by_none(name: &'static str, setting: u16, lengths: RangeInclusive<usize>) -> Self {
        Self {
            name,
            setting,
            writers: Writers::None,
            lengths,
        }
    }

    /// The row of searches below the highest of `n` changes.
    fn print(&self, random: &mut Random, n: usize) {
        let lists = self.lists(random, n);
        let searched = lists.below(n - 1);
        let found = visit_all(&searched, self.setting);
        assert_eq!(found, self.writer_below(n - 1));
        let proved = search(&searched, &[self.setting]);
        assert_eq!(proved, Ok(vec![found]), "answers differ");

        let lowest = found.map_or(0, |rank| rank as usize);
        let passed = n - 1 - lowest;
        let settings = vec![self.setting; batch(&searched, lowest)];
        let mut answers = vec![0; settings.len()];
        let visiting = batch(&searched, 0);
        let times = best_in_turn(&mut [
            &mut || time(|| search_lent(&searched, &settings, &mut answers)),
            &mut || time(|| search_lent(&searched, &[], &mut [])),
            &mut || {
                time(|| {
                    for _ in 0..visiting {
                        black_box(visit_all(black_box(&searched), black_box(self.setting)));
                    }
                })
            },
        ]);
        let proved = 1_000.0 * (times[0] - times[1]) / settings.len() as f64;
        let visiting_all = 1_000.0 * times[2] / visiting as f64;
        let by_change = (passed > 1).then(|| proved / passed as f64);
        println!(
            "{:42}{passed:8}{proved:11.1}{visiting_all:13.1}{:10.2}{}",
            self.name,
            visiting_all / proved,
            column(by_change, 10, 2),
        );
    }

    /// `n` changes at places in random order. Each writes its rank.
    fn lists(&self, random: &mut Random, n: usize) -> WriteLists {
        let mut lists = WriteLists::new(n);
        random.shuffle(&mut lists.order);
        for rank in 0..n {
            let settings = match self.writers {
                Writers::All => vec![self.setting],
                Writers::Lowest if rank == 0 => vec![self.setting],
                _ => self.others(random),
            };
            let value = rank as i32;
            let entries = settings
                .into_iter()
                .map(|setting| Access { setting, value });
            lists.put(lists.order[rank].into(), &entries.collect::<Vec<_>>());
        }
        lists
    }

    /// Settings for the list of a change that does not write the one which is searched for.
    fn others(&self, random: &mut Random) -> Vec<u16> {
        let mut settings: Vec<u16> = (1..=FEW as u16).collect();
        settings.retain(|&setting| setting != self.setting);
        random.shuffle(&mut settings);
        let (least, most) = (*self.lengths.start(), *self.lengths.end());
        settings.truncate(least + random.below(most - least + 1));
        settings
    }

    /// The rank of the highest writer below this position.
    fn writer_below(&self, position: usize) -> Option<i32> {
        match self.writers {
            Writers::All => Some(position as i32 - 1),
            Writers::Lowest => Some(0),
            Writers::None => None,
        }
    }
}

/// How many searches that end at the change of this rank are timed together.
fn batch(searched: &Searched, lowest: usize) -> usize {
    let passed = &searched.order[lowest..searched.position];
    let steps = |&place: &u16| 1 + usize::from(searched.writes[usize::from(place)]);
    let all: usize = passed.iter().map(steps).sum();
    (STEPS / all).clamp(1, SEARCHES)
}

/// The value of the last write of the setting below the position.
fn visit_all(searched: &Searched, setting: u16) -> Option<i32> {
    let mut last = None;
    for &place in &searched.order[..searched.position] {
        let first = LIST_ENTRIES * usize::from(place);
        let count = usize::from(searched.writes[usize::from(place)]);
        let targets = &searched.targets[first..][..count];
        let written = &searched.written[first..][..count];
        for (&target, &value) in targets.iter().zip(written) {
            if target == setting {
                last = Some(value);
            }
        }
    }
    last
}
