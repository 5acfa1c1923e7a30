//! What a call did, and why: lines that begin with `#`, after its answer.
//!
//! | after | the lines say |
//! |---|---|
//! | a turn, and each turn of a drain | what was done with which change, and why; if what the change had read decided that, the values that it saw and those of now; where its run broke off; which settings have another value just after it; which later changes are Invalid for that |
//! | a withdrawal | when it takes effect, and what the change had written |
//! | a package | what became of each entry |
//! | a refusal | its reason |
//!
//! Other calls have no such lines.

mod history;

use crate::answer::Answer;
use crate::script::Call;
use history::{change, changes, Access, Change};
use std::collections::BTreeSet;
use std::{fmt, iter};
use text_form::package::Entry;
use text_form::{InWords, Package, Setting};
use tolbezun::{calls, Instruction, Refusal, Status, Tables, Taken, Turned};

/// The lines for a call that was answered so, from the tables before and after it. Each ends with a
/// newline.
pub fn lines(n: usize, before: Tables, call: &Call, answer: &Answer, after: &Tables) -> String {
    let explanation = match (call, answer) {
        (_, Answer::Refused(refusal)) => Some(Explanation::Refused(*refusal)),
        (_, Answer::Turned(turned)) => {
            let turn = Turn::new(&before, *turned, after);
            Some(Explanation::Turns(turn.into_iter().collect()))
        }
        (_, Answer::Totals(_)) => Some(Explanation::Turns(turns(n, before))),
        (Call::Withdraw { timestamp }, Answer::Done) => {
            let change = change(&before, *timestamp);
            change.map(|change| Explanation::Withdrawal(Withdrawal::new(change)))
        }
        (Call::TakeInPackage { package, .. }, Answer::Entries(answers)) => {
            let package = Package::from_bytes(package).ok();
            package.map(|package| Explanation::Package(entries(&package, answers)))
        }
        _ => None,
    };
    explanation.map_or(String::new(), |explanation| explanation.to_string())
}

/// What a call did, and why. It and its parts show themselves as whole lines.
enum Explanation {
    Refused(Refusal),
    /// Of a turn or a drain: all but the idle one.
    Turns(Vec<Turn>),
    Withdrawal(Withdrawal),
    Package(Vec<Answered>),
}

impl fmt::Display for Explanation {
    fn fmt(&self, f: &mut fmt::Formatter<'_>) -> fmt::Result {
        match self {
            Self::Refused(refusal) => writeln!(f, "# {refusal}"),
            Self::Turns(turns) if turns.is_empty() => writeln!(f, "# no change is New or Invalid"),
            Self::Turns(turns) => write_all(f, turns),
            Self::Withdrawal(withdrawal) => write!(f, "{withdrawal}"),
            Self::Package(entries) => write_all(f, entries),
        }
    }
}

fn write_all<T: fmt::Display>(f: &mut fmt::Formatter<'_>, parts: &[T]) -> fmt::Result {
    parts.iter().try_for_each(|part| write!(f, "{part}"))
}

/// The turns of a drain from these tables: it is proved that they are those of single calls.
fn turns(n: usize, mut tables: Tables) -> Vec<Turn> {
    let turn = || {
        let before = tables.clone();
        let turned = calls::turn(n, &mut tables).ok()?;
        Turn::new(&before, turned, &tables)
    };
    iter::from_fn(turn).collect()
}

/// What a turn did with the change of this timestamp.
enum Turn {
    Ran {
        timestamp: u64,
        cause: Cause,
        effect: Effect,
    },
    Faulted {
        timestamp: u64,
        cause: Cause,
        fault: Fault,
        effect: Effect,
    },
    /// With all that the change had read.
    Stood {
        timestamp: u64,
        reads: Vec<Read>,
    },
    Cleared {
        timestamp: u64,
        effect: Effect,
    },
}

impl Turn {
    /// A turn that was answered so, from the tables before and after it, or none where it was idle.
    fn new(before: &Tables, turned: Turned, after: &Tables) -> Option<Self> {
        let change = |timestamp| change(before, timestamp);
        let effect = |timestamp| Effect::new(before, timestamp, after);
        Some(match turned {
            Turned::Idle => return None,
            Turned::Ran(timestamp) => Self::Ran {
                timestamp,
                cause: Cause::new(change(timestamp)?),
                effect: effect(timestamp)?,
            },
            Turned::Faulted(timestamp, place) => Self::Faulted {
                timestamp,
                cause: Cause::new(change(timestamp)?),
                fault: Fault::new(change(timestamp)?, place)?,
                effect: effect(timestamp)?,
            },
            Turned::Stood(timestamp) => Self::Stood {
                timestamp,
                reads: reads(change(timestamp)?).collect(),
            },
            Turned::Cleared(timestamp) => Self::Cleared {
                timestamp,
                effect: effect(timestamp)?,
            },
        })
    }
}

impl fmt::Display for Turn {
    fn fmt(&self, f: &mut fmt::Formatter<'_>) -> fmt::Result {
        match self {
            Self::Ran {
                timestamp,
                cause,
                effect,
            } => {
                let again = match cause {
                    Cause::New => "",
                    Cause::Changed(_) => " again",
                };
                write!(f, "# {timestamp} ran{again}: {cause}{effect}")
            }
            Self::Faulted {
                timestamp,
                cause,
                fault,
                effect,
            } => write!(f, "# {timestamp} faulted: {cause}{fault}{effect}"),
            Self::Stood { timestamp, reads } => {
                let why = "every value that it had read is again what it saw";
                writeln!(f, "# {timestamp} stood: {why}")?;
                write_all(f, reads)
            }
            Self::Cleared { timestamp, effect } => {
                write!(f, "# {timestamp} was cleared: it is withdrawn\n{effect}")
            }
        }
    }
}

/// Why a change was run.
enum Cause {
    New,
    /// It was Invalid, and these reads saw other values than those of now.
    Changed(Vec<Read>),
}

impl Cause {
    /// Why a change was run, by what it was before its turn.
    fn new(change: Change<'_>) -> Self {
        match change.is(Status::New) {
            true => Self::New,
            false => Self::Changed(reads(change).filter(|read| read.seen != read.now).collect()),
        }
    }
}

impl fmt::Display for Cause {
    fn fmt(&self, f: &mut fmt::Formatter<'_>) -> fmt::Result {
        match self {
            Self::New => writeln!(f, "it is New"),
            Self::Changed(reads) => {
                writeln!(f, "a value that it had read has changed")?;
                write_all(f, reads)
            }
        }
    }
}

/// An entry of a change's read list, beside the value as of the change's timestamp.
struct Read {
    setting: Setting,
    seen: i32,
    now: i32,
    /// Who wrote the value of now, unless it is the one before all held changes.
    writer: Option<u64>,
}

/// What a change had read, in the order of its list.
fn reads(change: Change<'_>) -> impl Iterator<Item = Read> + '_ {
    change.reads().map(move |Access { setting, value }| Read {
        setting,
        seen: value,
        now: change.value_before(setting),
        writer: change.previous_writer(setting).map(Change::timestamp),
    })
}

impl fmt::Display for Read {
    fn fmt(&self, f: &mut fmt::Formatter<'_>) -> fmt::Result {
        let Self {
            setting, seen, now, ..
        } = self;
        write!(f, "#   {setting}: seen {seen}, now {now}, ")?;
        match self.writer {
            Some(writer) => writeln!(f, "written by {writer}"),
            None => writeln!(f, "the value before all held changes"),
        }
    }
}

/// Where a run broke off, counted from 0, and the instruction there with its program's version.
struct Fault {
    place: usize,
    instruction: Instruction,
    version: u16,
}

impl Fault {
    fn new(change: Change<'_>, place: usize) -> Option<Self> {
        Some(Self {
            place,
            instruction: change.instruction(place)?,
            version: change.version(),
        })
    }

    /// Why the run broke off. Only accesses to settings do.
    fn reason(&self) -> &'static str {
        match (self.version, self.instruction) {
            (0, Instruction::Read { .. }) => "it reads a setting that it has written",
            (0, Instruction::Write { .. }) => "it writes a setting twice",
            (0, _) => "its register names no setting, or one that it has written",
            _ => "its register names no setting",
        }
    }
}

impl fmt::Display for Fault {
    fn fmt(&self, f: &mut fmt::Formatter<'_>) -> fmt::Result {
        let (place, instruction) = (self.place, InWords(self.instruction));
        let reason = self.reason();
        writeln!(
            f,
            "#   it broke off at instruction {place}, {instruction}, and writes nothing: {reason}"
        )
    }
}

/// What a turn altered besides its change.
struct Effect {
    changed: Vec<Changed>,
    marked: Vec<Marked>,
}

impl Effect {
    /// The effect of a turn of the change of this timestamp.
    fn new(before: &Tables, timestamp: u64, after: &Tables) -> Option<Self> {
        let changed = changed(change(before, timestamp)?, change(after, timestamp)?);
        let marked = changes(before)
            .zip(changes(after))
            .filter(|(before, after)| before.is(Status::Valid) && after.is(Status::Invalid))
            .map(|(_, change)| Marked::new(change, &changed))
            .collect();
        Some(Self { changed, marked })
    }
}

impl fmt::Display for Effect {
    fn fmt(&self, f: &mut fmt::Formatter<'_>) -> fmt::Result {
        if self.changed.is_empty() {
            writeln!(f, "#   no setting changed")?;
        }
        write_all(f, &self.changed)?;
        write_all(f, &self.marked)
    }
}

/// A setting that has another value just after a change than before the change's turn.
struct Changed {
    setting: Setting,
    from: i32,
    to: i32,
    next_writer: Option<u64>,
}

/// The settings that have another value just after a change, by the change before and after its
/// turn. They rise by number.
fn changed(before: Change<'_>, after: Change<'_>) -> Vec<Changed> {
    let written = before.writes().chain(after.writes());
    let written: BTreeSet<Setting> = written.map(|write| write.setting).collect();
    let values = written.into_iter().map(|setting| Changed {
        setting,
        from: before.value_after(setting),
        to: after.value_after(setting),
        next_writer: after.next_writer(setting).map(Change::timestamp),
    });
    values.filter(|values| values.from != values.to).collect()
}

impl Changed {
    /// Whether this later change had read it: up to and including the next writer.
    fn is_read_by(&self, change: Change<'_>) -> bool {
        let next_writer = self.next_writer;
        let reaches = next_writer.is_none_or(|next| change.timestamp() <= next);
        reaches && change.reads().any(|read| read.setting == self.setting)
    }
}

impl fmt::Display for Changed {
    fn fmt(&self, f: &mut fmt::Formatter<'_>) -> fmt::Result {
        let Self {
            setting, from, to, ..
        } = self;
        write!(f, "#   changed {setting} from {from} to {to}")?;
        match self.next_writer {
            Some(writer) => writeln!(f, ", up to {writer}, which wrote it"),
            None => writeln!(f),
        }
    }
}

/// A later change that a turn made Invalid, with the changed settings that it had read.
struct Marked {
    timestamp: u64,
    read: Vec<Setting>,
}

impl Marked {
    fn new(change: Change<'_>, changed: &[Changed]) -> Self {
        let read = changed.iter().filter(|changed| changed.is_read_by(change));
        Self {
            timestamp: change.timestamp(),
            read: read.map(|changed| changed.setting).collect(),
        }
    }
}

impl fmt::Display for Marked {
    fn fmt(&self, f: &mut fmt::Formatter<'_>) -> fmt::Result {
        let read: Vec<String> = self.read.iter().map(Setting::to_string).collect();
        let (timestamp, read) = (self.timestamp, read.join(", "));
        writeln!(f, "#   {timestamp} is Invalid now: it had read {read}")
    }
}

/// A change that was withdrawn, as it was before that.
struct Withdrawal {
    timestamp: u64,
    new: bool,
    writes: Vec<Access>,
}

impl Withdrawal {
    fn new(change: Change<'_>) -> Self {
        Self {
            timestamp: change.timestamp(),
            new: change.is(Status::New),
            writes: change.writes().collect(),
        }
    }
}

impl fmt::Display for Withdrawal {
    fn fmt(&self, f: &mut fmt::Formatter<'_>) -> fmt::Result {
        let when = match self.new {
            true => " before its first turn: it will not run",
            false => ": it waits for its turn, in which what it wrote is taken back",
        };
        writeln!(f, "# {} is withdrawn{when}", self.timestamp)?;
        for Access { setting, value } in &self.writes {
            writeln!(f, "#   it wrote {setting} {value}")?;
        }
        Ok(())
    }
}

/// An entry of a package, with its index and its answer.
struct Answered {
    index: usize,
    entry: Entry,
    answer: Result<Taken, Refusal>,
}

/// The entries of a package that was answered so.
fn entries(package: &Package, answers: &[u8]) -> Vec<Answered> {
    let entries = package.entries().iter().zip(answers).enumerate();
    let entries = entries.map(|(index, (entry, &answer))| Answered {
        index,
        entry: entry.clone(),
        answer: calls::entry_answer(answer),
    });
    entries.collect()
}

impl fmt::Display for Answered {
    fn fmt(&self, f: &mut fmt::Formatter<'_>) -> fmt::Result {
        let timestamp = self.entry.timestamp();
        write!(f, "# entry {}: ", self.index)?;
        match (&self.entry, self.answer) {
            (Entry::Change { .. }, Ok(Taken::Done)) => writeln!(f, "change {timestamp} taken"),
            (Entry::Withdrawal { .. }, Ok(Taken::Done)) => {
                writeln!(f, "change {timestamp} withdrawn")
            }
            (_, Ok(Taken::AlreadyHeld)) => writeln!(f, "change {timestamp} held already"),
            (entry, Err(refusal)) => writeln!(f, "{} {refusal}", entry.summary()),
        }
    }
}
