//! Single turns, and a drain without any.

use crate::history::{
    changes, drain, drain_outside, drained, long, set, stamp, sum, take_in, FEW, READ_BY_LONG,
    SIZES,
};
use crate::rows::{Rows, COLUMNS};
use comparison::generate::Random;
use comparison::proved::calls as proved;
use outside::checker::{self, Turn, Turned, TOTALS};
use outside::tables::Status;
use std::ops::Range;
use std::slice;
use tolbezun::Tables;

/// A kind of changes.
struct Kind {
    name: &'static str,
    program: fn(&mut Random) -> Vec<u8>,
    /// Settings that no such change names.
    unnamed: Range<usize>,
    /// As many that no such change writes, and of which each reads the first.
    read: Range<usize>,
}

const KINDS: [Kind; 2] = [
    Kind {
        name: "short lists",
        program: |random| sum([FEW, random.below(FEW)], random.below(FEW)),
        unnamed: 1_000..1_001,
        read: FEW..FEW + 1,
    },
    Kind {
        name: "long lists",
        program: long,
        unnamed: 1_000..1_016,
        read: READ_BY_LONG..READ_BY_LONG + 16,
    },
];

const HEADING: &str = "\
Calls of turn, and of drain where no change waits. Changes with short lists read two settings and
write one of 64; those with long lists read 16 settings that none writes, and write 16. There is a
setting that all of them read and none writes. An oldest change that runs sets 1 setting, with long
lists 16: some that no other names, or among them the one that all others read; it is this one that
is then cleared. Changes that stand were set Invalid in drained tables. So many are held after each
call.
";

pub fn print(random: &mut Random) {
    println!("{HEADING}\n{COLUMNS}");
    for (n, held) in SIZES {
        let rows = Rows::begin(n, held);
        for kind in &KINDS {
            kind.print(&rows, random);
        }
    }
}

impl Kind {
    /// The rows of histories of this kind.
    fn print(&self, rows: &Rows, random: &mut Random) {
        let &Rows { n, held } = rows;
        let (oldest, newest) = (0, held - 1);
        let history = changes(0..held, |_| (self.program)(random));

        let mut tables = drained(n, &history[..newest]);
        take_in(n, &mut tables, slice::from_ref(&history[newest]));
        let tables = self.turn(rows, "the newest runs", &tables, newest, Turned::Ran);

        let name = self.row_name("idle");
        let (turn, _) = rows.row(&name, &tables, proved::turn, checker::turn);
        assert_eq!(turn, None);
        let name = self.row_name("idle, by a drain");
        let (totals, _) = rows.row(&name, &tables, drain, drain_outside);
        assert_eq!(totals, [0; TOTALS]);

        for (name, rank) in [("the oldest stands", oldest), ("the newest stands", newest)] {
            let mut tables = tables.clone();
            let place = usize::from(tables.order[rank]);
            tables.status[place] = Status::Invalid.number();
            self.turn(rows, name, &tables, rank, Turned::Stood);
        }

        let others = drained(n, &history[1..]);
        let late = |settings: &Range<usize>| {
            let mut tables = others.clone();
            let late = changes([oldest], |_| set(settings.clone(), 7));
            take_in(n, &mut tables, &late);
            tables
        };
        let name = "the oldest runs, nobody reads it";
        self.turn(rows, name, &late(&self.unnamed), oldest, Turned::Ran);
        let name = "the oldest runs, all read it";
        let mut tables = self.turn(rows, name, &late(&self.read), oldest, Turned::Ran);
        assert!(drain(n, &mut tables).is_ok());
        assert_eq!(proved::withdraw(n, &mut tables, stamp(oldest)), Ok(()));
        let name = "the oldest is cleared, all read it";
        self.turn(rows, name, &tables, oldest, Turned::Cleared);
    }

    /// The row of a turn with this answer. Returns the tables after it.
    fn turn(
        &self,
        rows: &Rows,
        name: &str,
        tables: &Tables,
        rank: usize,
        turned: Turned,
    ) -> Tables {
        let name = self.row_name(name);
        let (turn, after) = rows.row(&name, tables, proved::turn, checker::turn);
        let timestamp = stamp(rank);
        assert_eq!(turn, Some(Turn { timestamp, turned }));
        after
    }

    fn row_name(&self, name: &str) -> String {
        format!("{}: {name}", self.name)
    }
}
