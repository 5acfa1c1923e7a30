//! Random order lists and write lists, all that the search for the previous writer looks at.

use super::{Random, EXTREMES};
use crate::proved::searches::Searched;
use outside::program::Access;
use outside::tables::LIST_ENTRIES;

/// An order list, and the write lists of all places.
#[derive(Clone)]
pub struct WriteLists {
    /// The place of each change.
    pub order: Vec<u16>,
    /// The write count of each place.
    pub writes: Vec<u16>,
    /// The settings of the lists, 32 slots a place.
    pub targets: Vec<u16>,
    /// The values written, 32 slots a place.
    pub written: Vec<i32>,
}

impl WriteLists {
    /// `n` places by rising number, with empty lists and 0 in all slots.
    pub fn new(n: usize) -> Self {
        Self {
            order: (0..n as u16).collect(),
            writes: vec![0; n],
            targets: vec![0; LIST_ENTRIES * n],
            written: vec![0; LIST_ENTRIES * n],
        }
    }

    /// `n` places, any of them in the order, with lists that name these settings. The slots past the
    /// lists hold 0, or entries as the lists do.
    pub fn any(random: &mut Random, n: usize, settings: &[u16]) -> Self {
        let mut lists = Self::new(n);
        let longest = random.pick(&[1, 2, 4, LIST_ENTRIES]);
        let filled = random.below(2) == 0;
        for place in 0..n {
            let count = match random.below(4) {
                0 => longest,
                _ => random.below(longest + 1),
            };
            let slots = match filled {
                true => LIST_ENTRIES,
                false => count,
            };
            let list: Vec<Access> = (0..slots).map(|_| entry(random, settings)).collect();
            lists.put(place, &list);
            lists.writes[place] = count as u16;
        }
        lists.order = order(random, n);
        lists
    }

    /// Replaces the list of a place by one of at most 32 entries. The slots past it stay.
    pub fn put(&mut self, place: usize, list: &[Access]) {
        self.writes[place] = list.len() as u16;
        for (index, entry) in list.iter().enumerate() {
            self.targets[LIST_ENTRIES * place + index] = entry.setting;
            self.written[LIST_ENTRIES * place + index] = entry.value;
        }
    }

    /// For a search below this position.
    pub fn below(&self, position: usize) -> Searched<'_> {
        Searched {
            position,
            order: &self.order,
            writes: &self.writes,
            targets: &self.targets,
            written: &self.written,
        }
    }
}

/// Places of `n`: all of them, rising or in any order; some; or any, also several times.
fn order(random: &mut Random, n: usize) -> Vec<u16> {
    let kind = random.below(4);
    if kind == 0 {
        let length = random.below(2 * n + 1);
        return (0..length).map(|_| random.below(n) as u16).collect();
    }
    let mut order: Vec<u16> = (0..n as u16).collect();
    if kind > 1 {
        random.shuffle(&mut order);
    }
    if kind > 2 {
        order.truncate(random.below(n + 1));
    }
    order
}

/// An entry that names one of these settings.
fn entry(random: &mut Random, settings: &[u16]) -> Access {
    Access {
        setting: random.pick(settings),
        value: match random.below(4) {
            0 => random.pick(&EXTREMES),
            _ => random.bits() as i32,
        },
    }
}
