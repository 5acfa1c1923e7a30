//! The Checker: the calls turn and drain.
//!
//! Figure 1 of source document 004, whose names and comments stand in the code, with what document
//! 01, "A turn", and document 02, R-2, R-5, R-6 and R-7, add.

use crate::calls::{check, refuse_unless, Refusal};
use crate::program::{self, Access, Outcome, Version, SETTINGS};
use crate::tables::{Status, Tables, INFINITY};
use std::collections::{BTreeMap, BTreeSet};

/// How many consoles there are. Of a timestamp: "Its lowest 8 bits name the console."
pub const CONSOLES: usize = 256;

/// How many kinds of turns there are: "ran, stood, cleared, faulted" (document 02, R-5).
pub const KINDS: usize = 4;

/// "A drain fills a lent slice of 1,024 16-bit totals, four per console" (document 02, R-5).
pub const TOTALS: usize = 1_024;

/// What a turn did with its change.
#[derive(Clone, Copy, Debug, PartialEq, Eq, PartialOrd, Ord)]
pub enum Turned {
    /// It ran the change, and the run did not fault.
    Ran,
    /// "each seen value equals the value as of its timestamp: it becomes Valid".
    Stood,
    /// The change is withdrawn: "both new lists are empty".
    Cleared,
    /// It ran the change, and the run faulted at this place, counted from 0: "A turn answers faulted
    /// with the place instead of ran in that case" (document 02, R-2).
    Faulted(usize),
}

impl Turned {
    /// The answer of a turn with this run: "A run now also says whether it faulted and at which
    /// place." (document 02, R-2)
    pub(crate) fn by_run(outcome: &Outcome) -> Self {
        match outcome.fault() {
            None => Self::Ran,
            Some((_, place)) => Self::Faulted(place),
        }
    }

    /// Whether the turn ran its change, to a fault or not.
    pub fn is_run(self) -> bool {
        matches!(self, Self::Ran | Self::Faulted(_))
    }

    /// The number of its kind, in the order of "ran, stood, cleared, faulted" (document 02, R-5).
    /// Faulted is "no longer within ran" (document 02, R-2).
    pub fn kind(self) -> usize {
        match self {
            Self::Ran => 0,
            Self::Stood => 1,
            Self::Cleared => 2,
            Self::Faulted(_) => 3,
        }
    }
}

/// A turn's answer, where it is neither idle nor refused: it "also names that change's timestamp".
#[derive(Clone, Copy, Debug, PartialEq, Eq)]
#[allow(missing_docs)]
pub struct Turn {
    pub timestamp: u64,
    pub turned: Turned,
}

impl Turn {
    /// The console of its change, "by the lowest 8 bits of the timestamp" (document 02, R-5).
    pub fn console(self) -> usize {
        (self.timestamp % CONSOLES as u64) as usize
    }

    /// The place of the total that counts it: there are "four per console (ran, stood, cleared,
    /// faulted, from place console × 4)" (document 02, R-5).
    pub fn total_place(self) -> usize {
        KINDS * self.console() + self.turned.kind()
    }
}

/// Makes a turn. The answer is none for idle.
pub fn turn(n: usize, tables: &mut Tables) -> Result<Option<Turn>, Refusal> {
    check(n, tables)?;
    let mut history = History::of(tables);
    let turn = history.turn();
    history.store(tables);
    Ok(turn)
}

/// "A drain makes turns until idle". It "fills a lent slice of 1,024 16-bit totals [..]. It replaces
/// the common totals." (document 02, R-5) What the slice held does not count. Document 01 refuses one
/// that "has another length than stated".
pub fn drain(n: usize, tables: &mut Tables, totals: &mut [u16]) -> Result<(), Refusal> {
    refuse_unless(totals.len() == TOTALS, Refusal::Length)?;
    check(n, tables)?;
    let mut history = History::of(tables);
    totals.fill(0);
    while let Some(turn) = history.turn() {
        totals[turn.total_place()] += 1;
    }
    history.store(tables);
    Ok(())
}

/// A change, as source document 004 speaks of it.
struct Update {
    version: Version,
    program: Vec<u8>,
    status: Status,
    withdrawn: bool,
    /// With the values seen.
    readset: Vec<Access>,
    writeset: Vec<Access>,
}

impl Update {
    fn reads(&self, x: u16) -> bool {
        self.readset.iter().any(|read| read.setting == x)
    }

    /// The value that it wrote to x.
    fn written(&self, x: u16) -> Option<i32> {
        let write = self.writeset.iter().find(|write| write.setting == x);
        write.map(|write| write.value)
    }
}

/// The updates, the kept values, and the current database copy. "Because update timestamps are unique,
/// we use the timestamp T of an update to also refer to the update itself" (source document 004).
struct History {
    updates: BTreeMap<u64, Update>,
    kept: [i32; SETTINGS],
    current: Vec<i32>,
}

impl History {
    /// What tables in form hold.
    fn of(tables: &Tables) -> Self {
        let update = |place| Update {
            version: tables.version(place),
            program: tables.program(place).to_vec(),
            status: tables.status(place),
            withdrawn: tables.withdrawn[place] != 0,
            readset: tables.read_list(place).collect(),
            writeset: tables.write_list(place).collect(),
        };
        let places = 0..tables.held_count();
        Self {
            updates: places
                .map(|place| (tables.timestamps[place], update(place)))
                .collect(),
            kept: tables.kept_settings(),
            current: tables.view.clone(),
        }
    }

    /// Stores to the tables that this was made of what turns may have altered.
    fn store(self, tables: &mut Tables) {
        for place in 0..tables.held_count() {
            let update = &self.updates[&tables.timestamps[place]];
            tables.status[place] = update.status.number();
            tables.replace_lists(place, &update.readset, &update.writeset);
        }
        tables.view = self.current;
    }

    /// The updates "that have x in their writesets".
    fn writers(&self, x: u16) -> impl Iterator<Item = u64> + '_ {
        let writers = self.updates.iter();
        let writers = writers.filter(move |(_, update)| update.written(x).is_some());
        writers.map(|(&timestamp, _)| timestamp)
    }

    /// Previous-Writer(x,T): "the highest timestamp smaller than T among all updates that have x in
    /// their writesets", or "the special timestamp zero (smaller than any other update's
    /// timestamp)".
    fn previous_writer(&self, x: u16, t: u64) -> u64 {
        self.writers(x).filter(|&u| u < t).max().unwrap_or(0)
    }

    /// Next-Writer(x,T): "the lowest timestamp greater than T among all updates that have x in
    /// their writesets. If there is no such update [..] infinity."
    fn next_writer(&self, x: u16, t: u64) -> u64 {
        self.writers(x).filter(|&u| u > t).min().unwrap_or(INFINITY)
    }

    /// Last-Writer(x) "is the same as Previous-Writer(x, infinity)".
    fn last_writer(&self, x: u16) -> u64 {
        self.previous_writer(x, INFINITY)
    }

    /// Value-Upto(x,T): "value v in the writeset entry <Write, x, Previous-Writer(x,T), v>".
    /// Without a previous writer it is the kept value (document 02, R-7).
    fn value_upto(&self, x: u16, t: u64) -> i32 {
        let writer = self.updates.get(&self.previous_writer(x, t));
        let written = writer.and_then(|update| update.written(x));
        written.unwrap_or(self.kept[usize::from(x)])
    }

    /// Value-Upto(x,T) of every x.
    fn values_upto(&self, t: u64) -> [i32; SETTINGS] {
        let mut previous_writers = [0; SETTINGS];
        let mut values = self.kept;
        for (&u, update) in self.updates.iter().filter(|(&u, _)| u < t) {
            for write in &update.writeset {
                let x = usize::from(write.setting);
                if u > previous_writers[x] {
                    previous_writers[x] = u;
                    values[x] = write.value;
                }
            }
        }
        values
    }

    /// One round of the loop in Figure 1, or none where it would wait.
    fn turn(&mut self) -> Option<Turn> {
        // T := lowest-timestamped New or Invalid update
        let waiting = self.updates.iter();
        let waiting = waiting.filter(|(_, update)| update.status != Status::Valid);
        let t = waiting.map(|(&timestamp, _)| timestamp).min()?;
        let update = &self.updates[&t];

        let turned = if update.withdrawn {
            self.install(t, Vec::new(), Vec::new());
            Turned::Cleared
        } else if update.status == Status::Invalid && self.seen_values_hold(t) {
            self.mark_valid(t);
            Turned::Stood
        } else {
            // execute update T, "running each change by its own version" (document 02, R-6)
            let outcome = program::run(update.version, &update.program, &self.values_upto(t));
            self.install(t, outcome.reads().to_vec(), outcome.writes().to_vec());
            Turned::by_run(&outcome)
        };
        Some(Turn {
            timestamp: t,
            turned,
        })
    }

    /// "each seen value equals the value as of its timestamp".
    fn seen_values_hold(&self, t: u64) -> bool {
        let mut reads = self.updates[&t].readset.iter();
        reads.all(|read| read.value == self.value_upto(read.setting, t))
    }

    /// What Figure 1 does once newrset and newwset are known.
    fn install(&mut self, t: u64, newrset: Vec<Access>, newwset: Vec<Access>) {
        // determine objects whose values changed
        let new = by_setting(&newwset);
        let old = by_setting(&self.updates[&t].writeset);
        let added = new
            .iter()
            .filter(|(x, &v2)| !old.contains_key(x) && v2 != self.value_upto(**x, t));
        let removed = old
            .iter()
            .filter(|(x, &v1)| !new.contains_key(x) && v1 != self.value_upto(**x, t));
        let changed = new
            .iter()
            .filter(|(x, v2)| old.get(x).is_some_and(|v1| *v2 != v1));
        let changeset: BTreeSet<u16> = added
            .chain(removed)
            .chain(changed)
            .map(|(&x, _)| x)
            .collect();

        for x in changeset {
            // mark future readers Invalid, through next writer
            let next_writer = self.next_writer(x, t);
            for (&u, update) in &mut self.updates {
                if update.status == Status::Valid && u > t && u <= next_writer && update.reads(x) {
                    update.status = Status::Invalid;
                }
            }
            // update x in current database copy
            if t >= self.last_writer(x) {
                let value = new.get(&x).copied();
                self.current[usize::from(x)] = value.unwrap_or_else(|| self.value_upto(x, t));
            }
        }

        // update history, atomically; done with T
        let update = self.updates.get_mut(&t).expect("T is an update");
        update.readset = newrset;
        update.writeset = newwset;
        self.mark_valid(t);
    }

    fn mark_valid(&mut self, t: u64) {
        let update = self.updates.get_mut(&t).expect("T is an update");
        update.status = Status::Valid;
    }
}

/// A writeset as the set of pairs that Figure 1 takes it for.
fn by_setting(writeset: &[Access]) -> BTreeMap<u16, i32> {
    let writes = writeset.iter();
    writes.map(|write| (write.setting, write.value)).collect()
}

#[cfg(test)]
mod tests;
