//! What the calls answer.

use crate::calls::TOTALS;
use std::cmp::Reverse;
use std::error::Error;
use std::fmt;

/// Why a call is turned down: document 01, "Turned down, in checking order", and document 02. It
/// has altered nothing.
#[derive(Clone, Copy, Debug, PartialEq, Eq, PartialOrd, Ord, Hash)]
#[repr(u8)]
pub enum Refusal {
    /// A lent slice has another length than stated, or the capacity is outside 1 to 4,096.
    Length = 1,
    /// The tables are not in form.
    Form = 2,
    /// The package breaks its layout or length.
    Package = 3,
    /// The timestamp is 0 or 2^64 − 1; value as of allows 2^64 − 1.
    Timestamp = 4,
    /// The timestamp is below the cutoff.
    Cutoff = 14,
    /// The setting number is above 1,023.
    Setting = 5,
    /// The program is over 256 bytes or no multiple of 8.
    ProgramLength = 6,
    /// The version is above 1. [`Version`](crate::Version) names no such one.
    Version = 13,
    /// An instruction is not in the table, or a register, n or unused part is wrong.
    Instruction = 7,
    /// The timestamp is held with another program, of which the version is part.
    OtherProgram = 8,
    /// The held count equals the capacity and the timestamp is not held.
    Full = 9,
    /// The timestamp is not held.
    NotHeld = 10,
    /// The change is withdrawn already.
    Withdrawn = 11,
    /// A New or Invalid change is stamped below the new cutoff.
    Unsettled = 15,
    /// The package would have more than 512 entries, more than 65,535 bytes or more than the lent
    /// slice.
    Room = 12,
}

impl Refusal {
    /// All refusals, in checking order.
    pub const ALL: [Self; 15] = [
        Self::Length,
        Self::Form,
        Self::Package,
        Self::Timestamp,
        Self::Cutoff,
        Self::Setting,
        Self::ProgramLength,
        Self::Version,
        Self::Instruction,
        Self::OtherProgram,
        Self::Full,
        Self::NotHeld,
        Self::Withdrawn,
        Self::Unsettled,
        Self::Room,
    ];

    /// The number of the refusal, 1 to 15.
    pub fn number(self) -> u8 {
        self as u8
    }

    /// The refusal with this number, if there is one.
    pub fn from_number(number: u8) -> Option<Self> {
        Self::ALL
            .into_iter()
            .find(|refusal| refusal.number() == number)
    }
}

impl fmt::Display for Refusal {
    fn fmt(&self, f: &mut fmt::Formatter<'_>) -> fmt::Result {
        let reason = match self {
            Self::Length => "a lent slice has another length than stated, or the capacity is outside 1 to 4,096",
            Self::Form => "the tables are not in form",
            Self::Package => "the package breaks its layout or length",
            Self::Timestamp => "the timestamp is out of range",
            Self::Cutoff => "the timestamp is below the cutoff",
            Self::Setting => "there is no such setting",
            Self::ProgramLength => "the program is over 256 bytes or no multiple of 8",
            Self::Version => "the version is above 1",
            Self::Instruction => "an instruction of the program is wrong",
            Self::OtherProgram => "the timestamp is held with another program",
            Self::Full => "the tables are full",
            Self::NotHeld => "the timestamp is not held",
            Self::Withdrawn => "the change is withdrawn already",
            Self::Unsettled => "a New or Invalid change is stamped below the new cutoff",
            Self::Room => "the package would have over 512 entries or 65,535 bytes, or does not fit into the lent slice",
        };
        write!(f, "refused {}: {reason}", self.number())
    }
}

impl Error for Refusal {}

/// The answer of a taking in.
#[derive(Clone, Copy, Debug, PartialEq, Eq, PartialOrd, Ord, Hash)]
pub enum Taken {
    /// The change is held from now on; of an entry of a package, also: it is withdrawn.
    Done,
    /// The same change was held before; nothing is altered.
    AlreadyHeld,
}

impl fmt::Display for Taken {
    fn fmt(&self, f: &mut fmt::Formatter<'_>) -> fmt::Result {
        f.write_str(match self {
            Self::Done => "done",
            Self::AlreadyHeld => "already held",
        })
    }
}

/// The answer of a turn, with the timestamp of the change whose turn it was.
#[derive(Clone, Copy, Debug, PartialEq, Eq, PartialOrd, Ord, Hash)]
pub enum Turned {
    /// No change is New or Invalid.
    Idle,
    /// The change was run on the values as of its timestamp, and the run went through.
    Ran(u64),
    /// What the change had seen still holds.
    Stood(u64),
    /// The change is withdrawn; its lists are empty now.
    Cleared(u64),
    /// The change was run, and the run broke off at the instruction of this place, counted from 0: it
    /// writes nothing.
    Faulted(u64, usize),
}

impl fmt::Display for Turned {
    fn fmt(&self, f: &mut fmt::Formatter<'_>) -> fmt::Result {
        match self {
            Self::Idle => f.write_str("idle"),
            Self::Ran(timestamp) => write!(f, "{timestamp} ran"),
            Self::Stood(timestamp) => write!(f, "{timestamp} stood"),
            Self::Cleared(timestamp) => write!(f, "{timestamp} was cleared"),
            Self::Faulted(timestamp, place) => write!(f, "{timestamp} faulted at place {place}"),
        }
    }
}

/// How many turns of a drain ran, stood, were cleared and faulted: all, or those of one console.
#[derive(Clone, Copy, Debug, Default, PartialEq, Eq, PartialOrd, Ord, Hash)]
#[allow(missing_docs)]
pub struct Totals {
    pub ran: u64,
    pub stood: u64,
    pub cleared: u64,
    pub faulted: u64,
}

impl fmt::Display for Totals {
    fn fmt(&self, f: &mut fmt::Formatter<'_>) -> fmt::Result {
        let Self {
            ran,
            stood,
            cleared,
            faulted,
        } = self;
        write!(
            f,
            "{ran} ran, {stood} stood, {cleared} cleared, {faulted} faulted"
        )
    }
}

/// The console that a timestamp names: its lowest 8 bits.
///
/// ```
/// use tolbezun::console;
///
/// assert_eq!(console(10), 10);
/// assert_eq!(console(0x0501), 1);
/// ```
pub const fn console(timestamp: u64) -> u8 {
    let [console, ..] = timestamp.to_le_bytes();
    console
}

/// How many turns of a drain ran, stood, were cleared and faulted, for each console: the 1,024
/// totals of document 02, R-5. A turn counts for the console that its change's timestamp names
/// ([`console`]). For each kind the 256 numbers sum to the number of turns of that kind.
///
/// They show which console's changes keep rerunning. A total does not tell a first run from a later
/// one, so where they are printed the console with the most runs comes first, those that faulted
/// with those that ran; where these are equal the lower console. Consoles without turns are left
/// out.
///
/// ```
/// use tolbezun::{calls::TOTALS, TotalsByConsole};
///
/// // Ran, stood, cleared and faulted, from place console × 4.
/// let mut totals = [0; TOTALS];
/// totals[4 * 80..][..4].copy_from_slice(&[2, 1, 0, 0]);
/// totals[4 * 83..][..4].copy_from_slice(&[12, 0, 0, 1]);
/// let expected = "\
/// console    ran  stood  cleared  faulted
///      83     12      0        0        1
///      80      2      1        0        0
///     all     14      1        0        1";
/// assert_eq!(TotalsByConsole::from(totals).to_string(), expected);
/// assert_eq!(TotalsByConsole::from([0; TOTALS]).to_string(), "no turns");
/// ```
#[derive(Clone, PartialEq, Eq, Hash)]
pub struct TotalsByConsole([u16; TOTALS]);

impl From<[u16; TOTALS]> for TotalsByConsole {
    /// The totals that [`calls::drain`](crate::calls::drain) has filled: four for each console, from
    /// place console × 4.
    fn from(totals: [u16; TOTALS]) -> Self {
        Self(totals)
    }
}

impl TotalsByConsole {
    /// The turns of one console's changes.
    pub fn of(&self, console: u8) -> Totals {
        let (consoles, _) = self.0.as_chunks();
        let [ran, stood, cleared, faulted] = consoles[usize::from(console)].map(u64::from);
        Totals {
            ran,
            stood,
            cleared,
            faulted,
        }
    }

    /// All turns of the drain: for each kind the sum of its 256 numbers.
    pub fn sum(&self) -> Totals {
        let mut sum = Totals::default();
        for (_, totals) in self.consoles() {
            sum.ran += totals.ran;
            sum.stood += totals.stood;
            sum.cleared += totals.cleared;
            sum.faulted += totals.faulted;
        }
        sum
    }

    /// The consoles whose changes had turns, rising, each with its own.
    pub fn consoles(&self) -> impl Iterator<Item = (u8, Totals)> + '_ {
        let all = (0..=u8::MAX).map(|console| (console, self.of(console)));
        all.filter(|(_, totals)| *totals != Totals::default())
    }
}

impl fmt::Display for TotalsByConsole {
    fn fmt(&self, f: &mut fmt::Formatter<'_>) -> fmt::Result {
        let mut consoles: Vec<_> = self.consoles().collect();
        if consoles.is_empty() {
            return f.write_str("no turns");
        }
        // Where the runs are equal the lower console stays first.
        consoles.sort_by_key(|(_, totals)| Reverse(totals.ran + totals.faulted));
        f.write_str("console    ran  stood  cleared  faulted")?;
        let lines = consoles
            .iter()
            .map(|(console, totals)| (console.to_string(), *totals));
        for (console, totals) in lines.chain([("all".to_string(), self.sum())]) {
            let Totals {
                ran,
                stood,
                cleared,
                faulted,
            } = totals;
            write!(
                f,
                "\n{console:>7} {ran:>6} {stood:>6} {cleared:>8} {faulted:>8}"
            )?;
        }
        Ok(())
    }
}

impl fmt::Debug for TotalsByConsole {
    /// The consoles whose changes had turns alone.
    fn fmt(&self, f: &mut fmt::Formatter<'_>) -> fmt::Result {
        f.write_str("TotalsByConsole ")?;
        f.debug_map().entries(self.consoles()).finish()
    }
}

/// The status of a held change.
#[derive(Clone, Copy, Debug, PartialEq, Eq, PartialOrd, Ord, Hash)]
#[repr(u8)]
pub enum Status {
    /// It has had no turn.
    New = 0,
    /// Its lists are those of its last turn, and nothing that it read has changed since.
    Valid = 1,
    /// Something that it read may have changed, or it was withdrawn.
    Invalid = 2,
}

impl Status {
    /// The number of the status, as the tables hold it.
    pub fn number(self) -> u8 {
        self as u8
    }
}

impl fmt::Display for Status {
    fn fmt(&self, f: &mut fmt::Formatter<'_>) -> fmt::Result {
        f.write_str(match self {
            Self::New => "New",
            Self::Valid => "Valid",
            Self::Invalid => "Invalid",
        })
    }
}

/// The standing of a timestamp.
#[derive(Clone, Copy, Debug, PartialEq, Eq, PartialOrd, Ord, Hash)]
#[allow(missing_docs)]
pub struct Standing {
    pub status: Status,
    pub withdrawn: bool,
}

impl fmt::Display for Standing {
    fn fmt(&self, f: &mut fmt::Formatter<'_>) -> fmt::Result {
        let withdrawn = match self.withdrawn {
            true => ", withdrawn",
            false => "",
        };
        write!(f, "{}{withdrawn}", self.status)
    }
}
