//! Demand 3: the book, the fresh run, and what is claimed of the tables and of the turns after a
//! drain.
//!
//! Document 01, "Demand 3 spelled out", and document 02, R-2, R-5, R-6 and R-7. Nothing here uses the
//! Checker: it looks at calls as they were made and answered, by whatever implementation, and at the
//! tables that they left.

use crate::checker::{Turn, Turned, CONSOLES, KINDS, TOTALS};
use crate::package::{entries, Entry, DONE};
use crate::program::{self, Access, Version, SETTINGS};
use crate::start::settings_at_start;
use crate::tables::Tables;
use std::collections::{BTreeMap, BTreeSet};
use std::{iter, mem};

/// A call that may alter the tables, with its arguments besides N and the tables, and its answer.
/// Where the answer is a number it is 0 for done, 255 for already held, else the refusal.
#[derive(Clone, Debug)]
#[allow(missing_docs)]
pub enum Call {
    TakeIn {
        timestamp: u64,
        version: u16,
        program: Vec<u8>,
        answer: u8,
    },
    Withdraw {
        timestamp: u64,
        answer: u8,
    },
    /// `answers` is the lent slice after the call.
    TakeInPackage {
        package: Vec<u8>,
        answers: Vec<u8>,
        answer: u8,
    },
    /// "Cutoffs too may stand in demand 3's mix" (document 02, R-7).
    Cutoff {
        timestamp: u64,
        answer: u8,
    },
    /// None where it is idle or refused.
    Turn(Option<LoggedTurn>),
    /// The lent totals after the call, and the turns; none where it is refused. A drain does not tell
    /// its turns: [`turns_of_drain`] finds them.
    Drain(Option<(Vec<u16>, Vec<LoggedTurn>)>),
}

/// A turn, and the read list with the seen values that the tables have for its change after it.
#[derive(Clone, Debug, PartialEq, Eq)]
#[allow(missing_docs)]
pub struct LoggedTurn {
    pub turn: Turn,
    pub reads: Vec<Access>,
}

impl LoggedTurn {
    /// The turn with the read list that these tables, in form, hold after it.
    pub fn new(turn: Turn, tables: &Tables) -> Self {
        let place = tables.place_of(turn.timestamp);
        Self {
            turn,
            reads: place.map_or(Vec::new(), |place| tables.read_list(place).collect()),
        }
    }
}

/// The turns of a drain of tables that hold so many changes: "those that single calls of turn from
/// the same tables would answer, each with timestamp and answer." `turn` makes such a call. There
/// are calls until one is idle or there is one more than changes, which is one too many.
pub fn turns_of_drain(held: usize, turn: impl FnMut() -> Option<LoggedTurn>) -> Vec<LoggedTurn> {
    iter::from_fn(turn).take(held + 1).collect()
}

/// What a list of calls, or the tables after it, break.
#[derive(Clone, Copy, Debug, PartialEq, Eq)]
pub enum Breach {
    /// "The last call is a drain that is answered".
    NotDrained,
    /// "the tables hold the book's timestamps and no others".
    Timestamps,
    /// "each with the fresh run's lists, entry for entry in order": the read list of a timestamp.
    Reads(u64),
    /// The write list of a timestamp.
    Writes(u64),
    /// "each of the 1,024 entries of the view is that setting at the fresh run's end": a setting.
    View(usize),
    /// The cutoff of the tables is not that of the last call cutoff answered done, or 0 where there
    /// is none (document 02, R-7).
    Cutoff,
    /// "Demand 3's kept values are those that all changes dropped so far leave in one fresh run from
    /// the start values, withdrawn ones passed over, and the tables hold exactly these." (document 02,
    /// a setting.
    Kept(usize),
    /// The lists of a held timestamp are not those of a fresh run, from the start values, of all
    /// changes that were ever held.
    Lost(u64),
    /// This setting of the view is not what that run leaves.
    LostView(usize),
    /// "A drain fills a lent slice of 1,024 16-bit totals" (document 02, R-5): the lent slice has
    /// another length, and the drain is answered.
    Length,
    /// "For each kind the 256 numbers sum to the number of turns of that kind in the drain."
    /// (document 02, R-5): the number of a kind.
    Sum(usize),
    /// There are "four per console (ran, stood, cleared, faulted, from place console × 4), by the
    /// lowest 8 bits of the timestamp" (document 02, R-5): the place of a total.
    Total(usize),
    /// A turn of the last drain names a timestamp that is not in the book.
    NotBooked(u64),
    /// A change has two turns in the last drain.
    TwoTurns(u64),
    /// A change is run again in the last drain although every setting that it had read holds, in
    /// the fresh run just before it, the value it saw.
    RunInVain(u64),
    /// The last turn that ran a change, which is not withdrawn, does not answer what the fresh run
    /// says of it: ran, or faulted with the place.
    FaultsShown(u64),
}

/// Checks demand 3, that faults are shown, and that dropping loses nothing, for a list of calls that
/// begins on tables just set up, and the tables that it left, which must be in form.
pub fn check(calls: &[Call], tables: &Tables) -> Result<(), Breach> {
    let Some((Call::Drain(Some((totals, turns))), earlier)) = calls.split_last() else {
        return Err(Breach::NotDrained);
    };
    let book = Book::of(calls);
    let kept = book.check_kept(tables)?;
    // "Any other fresh run" begins "from the kept values" (document 02, R-7).
    let fresh = fresh_run(kept, &book.held);
    fresh.check_tables(tables)?;
    book.check_nothing_lost(tables)?;
    let totals = totals.as_slice().try_into().or(Err(Breach::Length))?;
    check_sums(totals, turns)?;
    check_totals(totals, turns)?;
    check_one_turn_each(turns, &fresh)?;
    check_none_in_vain(earlier, turns, &fresh)?;
    check_faults_shown(calls, &fresh)
}

/// Checks the cutoff and the kept values alone, after any list of calls that begins on tables just set
/// up: they do not wait for a drain.
pub fn check_kept(calls: &[Call], tables: &Tables) -> Result<(), Breach> {
    Book::of(calls).check_kept(tables).map(|_| ())
}

/// "The book is kept from the calls' arguments and answers alone and starts empty."
#[derive(Default)]
pub(crate) struct Book {
    /// "Held changes are those in the book."
    held: BTreeMap<u64, Booked>,
    /// What cutoffs took out of it.
    dropped: BTreeMap<u64, Booked>,
    /// The last cutoff that was answered done, or 0.
    cutoff: u64,
}

struct Booked {
    version: Version,
    program: Vec<u8>,
    withdrawn: bool,
}

impl Book {
    /// "Already held, a refusal, a turn and a drain leave the book as it is."
    pub(crate) fn of(calls: &[Call]) -> Self {
        let mut book = Self::default();
        for call in calls {
            match call {
                Call::TakeIn {
                    timestamp,
                    version,
                    program,
                    answer: DONE,
                } => {
                    // Above 1 there is none to run it by: answered done, it is missing in the book.
                    if let Some(version) = Version::from_number(*version) {
                        book.enter(*timestamp, version, program.clone());
                    }
                }
                Call::Withdraw {
                    timestamp,
                    answer: DONE,
                } => book.mark_withdrawn(*timestamp),
                Call::TakeInPackage {
                    package,
                    answers,
                    answer: DONE,
                } => book.take_package(package, answers),
                Call::Cutoff {
                    timestamp,
                    answer: DONE,
                } => book.drop_below(*timestamp),
                _ => {}
            }
        }
        book
    }

    /// "A taking in answered done enters its timestamp and program, not withdrawn." The version is
    /// "kept with the change" (document 02, R-6).
    fn enter(&mut self, timestamp: u64, version: Version, program: Vec<u8>) {
        let booked = Booked {
            version,
            program,
            withdrawn: false,
        };
        self.held.insert(timestamp, booked);
    }

    /// "A withdrawal answered done marks that timestamp withdrawn."
    fn mark_withdrawn(&mut self, timestamp: u64) {
        if let Some(booked) = self.held.get_mut(&timestamp) {
            booked.withdrawn = true;
        }
    }

    /// "In a package answered done, each entry answered 0 counts as such a call, in order."
    fn take_package(&mut self, package: &[u8], answers: &[u8]) {
        let entries = entries(package).unwrap_or_default();
        for (entry, &answer) in entries.into_iter().zip(answers) {
            match entry {
                _ if answer != DONE => {}
                Entry::Change {
                    timestamp,
                    version,
                    program,
                } => self.enter(timestamp, version, program),
                Entry::Withdrawal { timestamp } => self.mark_withdrawn(timestamp),
            }
        }
    }

    /// "A cutoff answered done takes every change stamped below it out of the book too." (document 02,
    ///
    fn drop_below(&mut self, timestamp: u64) {
        let remaining = self.held.split_off(&timestamp);
        let below = mem::replace(&mut self.held, remaining);
        self.dropped.extend(below);
        self.cutoff = timestamp;
    }

    /// "all held changes by rising timestamp, then the withdrawals by rising timestamp" (document
    /// 02, R-3).
    pub(crate) fn entries(&self) -> Vec<Entry> {
        let changes = self.held.iter().map(|(&timestamp, booked)| Entry::Change {
            timestamp,
            version: booked.version,
            program: booked.program.clone(),
        });
        let withdrawn = self.held.iter().filter(|(_, booked)| booked.withdrawn);
        let withdrawals = withdrawn.map(|(&timestamp, _)| Entry::Withdrawal { timestamp });
        changes.chain(withdrawals).collect()
    }

    /// Checks the cutoff and the kept values of the tables, and returns these.
    fn check_kept(&self, tables: &Tables) -> Result<[i32; SETTINGS], Breach> {
        if tables.cutoff() != self.cutoff {
            return Err(Breach::Cutoff);
        }
        let kept = fresh_run(settings_at_start(), &self.dropped).settings;
        match unlike(&tables.kept, &kept) {
            Some(setting) => Err(Breach::Kept(setting)),
            None => Ok(kept),
        }
    }

    /// Checks the tables, drained, beside a cabinet that has room for all and never drops a change:
    /// they show what that has, the lists of what they still hold and the view.
    fn check_nothing_lost(&self, tables: &Tables) -> Result<(), Breach> {
        let all: BTreeMap<&u64, &Booked> = self.dropped.iter().chain(&self.held).collect();
        let fresh = fresh_run(settings_at_start(), all);
        for place in 0..tables.held_count() {
            let timestamp = tables.timestamps[place];
            let fresh = &fresh.changes[&timestamp];
            if !fresh.has_reads(tables, place) || !fresh.has_writes(tables, place) {
                return Err(Breach::Lost(timestamp));
            }
        }
        match unlike(&tables.view, &fresh.settings) {
            Some(setting) => Err(Breach::LostView(setting)),
            None => Ok(()),
        }
    }
}

/// "The fresh run starts 1,024 settings of its own", each at the value given here, "and goes through
/// the book by rising timestamp", as it is given here.
fn fresh_run<'a>(
    mut settings: [i32; SETTINGS],
    book: impl IntoIterator<Item = (&'a u64, &'a Booked)>,
) -> FreshRun {
    let mut changes = BTreeMap::new();
    for (&timestamp, booked) in book {
        let mut fresh = Fresh {
            before: settings,
            reads: Vec::new(),
            writes: Vec::new(),
            answer: None,
        };
        // "A withdrawn change is passed over; its lists are empty. Any other is run by its
        // instructions on those settings as they then stand." "The drained state is that of
        // running each change by its own version." (document 02, R-6)
        if !booked.withdrawn {
            let outcome = program::run(booked.version, &booked.program, &settings);
            fresh.reads = outcome.reads().to_vec();
            fresh.writes = outcome.writes().to_vec();
            fresh.answer = Some(Turned::by_run(&outcome));
        }
        // "Its writes are then carried into the settings."
        for write in &fresh.writes {
            settings[usize::from(write.setting)] = write.value;
        }
        changes.insert(timestamp, fresh);
    }
    FreshRun { changes, settings }
}

/// The first setting that has two values.
fn unlike(values: &[i32], others: &[i32; SETTINGS]) -> Option<usize> {
    (0..SETTINGS).find(|&setting| values[setting] != others[setting])
}

/// What the fresh run gives.
struct FreshRun {
    changes: BTreeMap<u64, Fresh>,
    /// The settings at its end.
    settings: [i32; SETTINGS],
}

/// What it gives for a change.
struct Fresh {
    /// The settings just before it.
    before: [i32; SETTINGS],
    reads: Vec<Access>,
    writes: Vec<Access>,
    /// What a turn with its run answers, or none where it is withdrawn.
    answer: Option<Turned>,
}

impl FreshRun {
    fn check_tables(&self, tables: &Tables) -> Result<(), Breach> {
        let held = &tables.timestamps[..tables.held_count()];
        let timestamps: BTreeSet<u64> = held.iter().copied().collect();
        if held.len() != timestamps.len() || !timestamps.iter().eq(self.changes.keys()) {
            return Err(Breach::Timestamps);
        }
        for (place, timestamp) in held.iter().enumerate() {
            let fresh = &self.changes[timestamp];
            if !fresh.has_reads(tables, place) {
                return Err(Breach::Reads(*timestamp));
            }
            if !fresh.has_writes(tables, place) {
                return Err(Breach::Writes(*timestamp));
            }
        }
        match unlike(&tables.view, &self.settings) {
            Some(setting) => Err(Breach::View(setting)),
            None => Ok(()),
        }
    }
}

impl Fresh {
    /// Whether its read list, with the values seen, is that at a place of the tables.
    fn has_reads(&self, tables: &Tables, place: usize) -> bool {
        tables.read_list(place).eq(self.reads.iter().copied())
    }

    /// Whether its write list is.
    fn has_writes(&self, tables: &Tables, place: usize) -> bool {
        tables.write_list(place).eq(self.writes.iter().copied())
    }
}

fn check_sums(totals: &[u16; TOTALS], turns: &[LoggedTurn]) -> Result<(), Breach> {
    for kind in 0..KINDS {
        let numbers = (0..CONSOLES).map(|console| totals[KINDS * console + kind]);
        let sum: usize = numbers.map(usize::from).sum();
        let of_kind = turns
            .iter()
            .filter(|logged| logged.turn.turned.kind() == kind);
        if sum != of_kind.count() {
            return Err(Breach::Sum(kind));
        }
    }
    Ok(())
}

fn check_totals(totals: &[u16; TOTALS], turns: &[LoggedTurn]) -> Result<(), Breach> {
    for (place, &total) in totals.iter().enumerate() {
        let (console, kind) = (place / KINDS, place % KINDS);
        let counted = turns
            .iter()
            .map(|logged| logged.turn)
            .filter(|turn| turn.console() == console && turn.turned.kind() == kind);
        if usize::from(total) != counted.count() {
            return Err(Breach::Total(place));
        }
    }
    Ok(())
}

fn check_one_turn_each(turns: &[LoggedTurn], fresh: &FreshRun) -> Result<(), Breach> {
    let mut timestamps = BTreeSet::new();
    for logged in turns {
        let timestamp = logged.turn.timestamp;
        if !fresh.changes.contains_key(&timestamp) {
            return Err(Breach::NotBooked(timestamp));
        }
        if !timestamps.insert(timestamp) {
            return Err(Breach::TwoTurns(timestamp));
        }
    }
    Ok(())
}

/// "A turn of that drain runs its change again if it answers ran and an earlier turn in the list,
/// single or a drain's, ran that change and replaced its lists. What the change had read and saw is
/// the read list and seen values that the last such earlier turn put there."
///
/// "A needless rerun that faults stays ruled out like any other." (document 02, R-2): here a turn
/// that answers faulted is as one that answers ran.
fn check_none_in_vain(
    earlier: &[Call],
    turns: &[LoggedTurn],
    fresh: &FreshRun,
) -> Result<(), Breach> {
    let last_runs = last_runs(earlier);
    for logged in turns.iter().filter(|logged| logged.turn.turned.is_run()) {
        let timestamp = logged.turn.timestamp;
        let before = &fresh.changes[&timestamp].before;
        let holds = |read: &Access| before[usize::from(read.setting)] == read.value;
        if last_runs
            .get(&timestamp)
            .is_some_and(|earlier| earlier.reads.iter().all(holds))
        {
            return Err(Breach::RunInVain(timestamp));
        }
    }
    Ok(())
}

/// "A run now also says whether it faulted and at which place. A turn answers faulted with the place
/// instead of ran in that case" (document 02, R-2). So the last turn that ran a held change answers
/// what the fresh run says of it. A change that is not withdrawn has had such a turn, since it came
/// in New.
fn check_faults_shown(calls: &[Call], fresh: &FreshRun) -> Result<(), Breach> {
    let last_runs = last_runs(calls);
    for (timestamp, change) in &fresh.changes {
        let answered = last_runs.get(timestamp).map(|logged| logged.turn.turned);
        if change.answer.is_some() && answered != change.answer {
            return Err(Breach::FaultsShown(*timestamp));
        }
    }
    Ok(())
}

/// The last turn of these calls, "single or a drain's", that ran each change, by timestamp.
fn last_runs(calls: &[Call]) -> BTreeMap<u64, &LoggedTurn> {
    let turns = calls.iter().flat_map(|call| match call {
        Call::Turn(turn) => turn.as_slice(),
        Call::Drain(Some((_, turns))) => turns,
        _ => &[],
    });
    let mut last_runs = BTreeMap::new();
    for logged in turns.filter(|logged| logged.turn.turned.is_run()) {
        last_runs.insert(logged.turn.timestamp, logged);
    }
    last_runs
}

#[cfg(test)]
mod tests;
