//! Packages, of bytes and in words: document 01, "Calls", and the version of document 02, R-6.
//!
//! In words a package is its entries, in order. A change is `change TS`, or `change TS version 1`, and
//! the lines of its program, which [`program`](crate::program) has; a withdrawal is `withdraw TS`. Empty
//! lines do not count, nor does what stands behind `#`.

use crate::line::{Error, Line, Place};
use crate::program::{instructions, Listing, Program, Reader};
use std::error;
use std::fmt::{self, Display};
use tolbezun::calls::{ANSWERS, PACKAGE_BYTES};
use tolbezun::{console, Mistake, Version, MAX_INSTRUCTIONS};

/// The bytes before the entries: their number.
const COUNT_BYTES: usize = 2;

/// The bytes that an entry has in the contents.
const ENTRY_BYTES: usize = 12;

/// An entry of a package.
#[derive(Clone, Debug, PartialEq, Eq)]
#[allow(missing_docs)]
pub enum Entry {
    Change {
        timestamp: u64,
        version: Version,
        program: Program,
    },
    Withdrawal {
        timestamp: u64,
    },
}

impl Entry {
    /// The timestamp of the change that is taken in or withdrawn.
    pub fn timestamp(&self) -> u64 {
        match *self {
            Self::Change { timestamp, .. } | Self::Withdrawal { timestamp } => timestamp,
        }
    }

    /// Its kind and timestamp.
    pub fn summary(&self) -> String {
        match self {
            Self::Change { timestamp, .. } => format!("change {timestamp}"),
            Self::Withdrawal { timestamp } => format!("withdrawal of {timestamp}"),
        }
    }

    /// Whether every cabinet refuses the timestamp: refusal 4.
    pub fn is_out_of_range(&self) -> bool {
        matches!(self.timestamp(), 0 | u64::MAX)
    }

    /// The bytes of its program. A withdrawal has none.
    pub fn program(&self) -> &[[u8; 8]] {
        match self {
            Self::Change { program, .. } => program,
            Self::Withdrawal { .. } => &[],
        }
    }

    /// The number of the kind, and that of the version, which is 0 for a withdrawal.
    fn numbers(&self) -> (u8, u16) {
        match self {
            Self::Change { version, .. } => (0, version.number()),
            Self::Withdrawal { .. } => (1, 0),
        }
    }

    /// The bytes of the entry and of its program.
    fn length(&self) -> usize {
        ENTRY_BYTES + self.program().as_flattened().len()
    }
}

/// The entry in words.
impl Display for Entry {
    fn fmt(&self, f: &mut fmt::Formatter<'_>) -> fmt::Result {
        match self {
            Self::Change {
                timestamp,
                version,
                program,
            } => {
                write!(f, "change {timestamp}")?;
                if *version != Version::default() {
                    write!(f, " version {}", version.number())?;
                }
                writeln!(f)?;
                Listing(program).fmt(f)
            }
            Self::Withdrawal { timestamp } => writeln!(f, "withdraw {timestamp}"),
        }
    }
}

/// Where a package breaks its layout: refusal 3.
#[derive(Clone, Debug, PartialEq, Eq)]
pub struct Broken {
    /// The byte, counted from 0.
    pub byte: usize,
    /// What should stand there.
    pub expected: String,
    /// What stands there.
    pub found: String,
}

impl Display for Broken {
    fn fmt(&self, f: &mut fmt::Formatter<'_>) -> fmt::Result {
        let Self {
            byte,
            expected,
            found,
        } = self;
        write!(f, "byte {byte}: expected {expected}, found {found}")
    }
}

impl error::Error for Broken {}

/// A package whose layout is right: at most 512 entries and 65,535 bytes. An instruction of a program
/// may be wrong.
#[derive(Clone, Debug, PartialEq, Eq)]
pub struct Package {
    entries: Vec<Entry>,
}

impl Package {
    /// Reads a package in words.
    pub fn from_text(text: &[u8]) -> Result<Self, Error> {
        let mut builder = Builder::default();
        for (number, line) in (1..).zip(text.split(|&byte| byte == b'\n')) {
            builder.read(Line::new(number, line)?)?;
        }
        builder.finish()
    }

    /// Reads a package of bytes.
    pub fn from_bytes(package: &[u8]) -> Result<Self, Broken> {
        if package.len() > PACKAGE_BYTES {
            let found = format!("{} bytes", package.len());
            let expected = format_args!("at most {PACKAGE_BYTES} bytes");
            return Err(broken(PACKAGE_BYTES, expected, found));
        }
        let mut bytes = Bytes { package, next: 0 };
        let count = u16::from_le_bytes(bytes.read("the number of entries, 2 bytes")?);
        if usize::from(count) > ANSWERS {
            return Err(broken(0, format_args!("at most {ANSWERS} entries"), count));
        }
        let heads: Vec<Head> = (0..count)
            .map(|index| Head::read(&mut bytes, index))
            .collect::<Result<_, _>>()?;
        let entries = heads.iter().zip(0..);
        let entries = entries
            .map(|(head, index)| head.with_body(&mut bytes, index))
            .collect::<Result<_, _>>()?;
        bytes.end()?;
        Ok(Self { entries })
    }

    /// Its bytes.
    pub fn to_bytes(&self) -> Vec<u8> {
        let count = u16::try_from(self.entries.len()).expect("at most 512 entries");
        let mut package = count.to_le_bytes().to_vec();
        for entry in &self.entries {
            let instructions = entry.program().len();
            let instructions = u8::try_from(instructions).expect("at most 32 instructions");
            let (kind, version) = entry.numbers();
            package.extend(entry.timestamp().to_le_bytes());
            // A version is one byte, and a zero byte follows.
            package.extend([kind, instructions]);
            package.extend(version.to_le_bytes());
        }
        for entry in &self.entries {
            package.extend(entry.program().as_flattened());
        }
        package
    }

    /// Its entries.
    pub fn entries(&self) -> &[Entry] {
        &self.entries
    }

    /// The instructions that are refused (7): the index of the entry, the place of the instruction, both
    /// counted from 0, and what is wrong with it.
    pub fn mistakes(&self) -> impl Iterator<Item = (usize, usize, Mistake)> + '_ {
        let entries = self.entries.iter().enumerate();
        entries.flat_map(|(index, entry)| {
            let instructions = instructions(entry.program()).enumerate();
            instructions
                .filter_map(move |(place, instruction)| Some((index, place, instruction.err()?)))
        })
    }
}

/// The package in words. A comment before each entry has its index, counted from 0, kind, timestamp and
/// console.
impl Display for Package {
    fn fmt(&self, f: &mut fmt::Formatter<'_>) -> fmt::Result {
        if self.entries.is_empty() {
            writeln!(f, "# no entries")?;
        }
        for (index, entry) in self.entries.iter().enumerate() {
            if index > 0 {
                writeln!(f)?;
            }
            let (summary, console) = (entry.summary(), console(entry.timestamp()));
            writeln!(f, "# entry {index}: {summary}, console {console}")?;
            entry.fmt(f)?;
        }
        Ok(())
    }
}

/// The entries of a text, so far.
#[derive(Default)]
struct Builder {
    entries: Vec<Entry>,
    length: usize,
    open: Option<Open>,
}

/// A change whose program is being read.
struct Open {
    place: Place,
    timestamp: u64,
    version: Version,
    program: Reader,
}

impl Builder {
    fn read(&mut self, mut line: Line<'_>) -> Result<(), Error> {
        let place = line.place();
        match line.peek() {
            None => Ok(()),
            Some("change") if !line.begins_label() => {
                self.close()?;
                line.expect("change")?;
                self.open = Some(Open {
                    place,
                    timestamp: timestamp(&mut line)?,
                    version: version(&mut line)?,
                    program: Reader::default(),
                });
                line.end()
            }
            Some("withdraw") if !line.begins_label() => {
                self.close()?;
                line.expect("withdraw")?;
                let timestamp = timestamp(&mut line)?;
                self.push(place, Entry::Withdrawal { timestamp })?;
                line.end()
            }
            Some(_) => match &mut self.open {
                Some(open) => open.program.read(line),
                None => Err(line.error(r#""change" or "withdraw""#)),
            },
        }
    }

    fn finish(mut self) -> Result<Package, Error> {
        self.close()?;
        Ok(Package {
            entries: self.entries,
        })
    }

    /// Ends the program that is being read.
    fn close(&mut self) -> Result<(), Error> {
        let Some(open) = self.open.take() else {
            return Ok(());
        };
        let entry = Entry::Change {
            timestamp: open.timestamp,
            version: open.version,
            program: open.program.finish()?,
        };
        self.push(open.place, entry)
    }

    fn push(&mut self, place: Place, entry: Entry) -> Result<(), Error> {
        self.length += entry.length();
        self.entries.push(entry);
        if self.entries.len() > ANSWERS {
            return Err(place.error(format_args!("at most {ANSWERS} entries"), "one more"));
        }
        let length = COUNT_BYTES + self.length;
        if length > PACKAGE_BYTES {
            let expected = format_args!("a package of at most {PACKAGE_BYTES} bytes");
            return Err(place.error(expected, format_args!("{length} with this entry")));
        }
        Ok(())
    }
}

/// What a version is called in errors.
const VERSION: &str = "version 0 or 1";

fn timestamp(line: &mut Line<'_>) -> Result<u64, Error> {
    line.number("a timestamp", u64::MAX)
}

/// The version, which is 0 where the line gives none.
fn version(line: &mut Line<'_>) -> Result<Version, Error> {
    if line.peek().is_none() {
        return Ok(Version::default());
    }
    if !line.take("version") {
        return Err(line.error(r#""version" or the end of the line"#));
    }
    line.read(VERSION, |text| {
        let number: u16 = text.parse().ok()?;
        Version::try_from(number).ok()
    })
}

fn broken(byte: usize, expected: impl Display, found: impl Display) -> Broken {
    Broken {
        byte,
        expected: expected.to_string(),
        found: found.to_string(),
    }
}

/// The bytes of a package, read up to a place.
struct Bytes<'a> {
    package: &'a [u8],
    next: usize,
}

impl Bytes<'_> {
    /// The next N bytes, which are this.
    fn read<const N: usize>(&mut self, what: impl Display) -> Result<[u8; N], Broken> {
        let Some(bytes) = self.package[self.next..].first_chunk() else {
            return Err(broken(self.package.len(), what, "the end of the package"));
        };
        self.next += N;
        Ok(*bytes)
    }

    /// There are no more.
    fn end(&self) -> Result<(), Broken> {
        match self.package.len() - self.next {
            0 => Ok(()),
            more => Err(broken(
                self.next,
                "the end of the package",
                format_args!("more, up to byte {}", self.next + more - 1),
            )),
        }
    }
}

/// What the contents say of an entry.
struct Head {
    timestamp: u64,
    instructions: u8,
    /// None for a withdrawal.
    version: Option<Version>,
}

impl Head {
    fn read(bytes: &mut Bytes<'_>, index: u16) -> Result<Self, Broken> {
        let start = bytes.next;
        let what = format!("entry {index} of the contents, 12 bytes");
        let head: [u8; ENTRY_BYTES] = bytes.read(what)?;
        let [t0, t1, t2, t3, t4, t5, t6, t7, kind, instructions, version, zero] = head;
        let wrong = |offset, expected: &str, found: u8| {
            let expected = format!("{expected} of entry {index}");
            Err(broken(start + offset, expected, found))
        };
        let version = match (kind, instructions, version) {
            (0, count, _) if usize::from(count) > MAX_INSTRUCTIONS => {
                let expected = format!("at most {MAX_INSTRUCTIONS} instructions");
                return wrong(9, &expected, instructions);
            }
            (0, ..) => match Version::try_from(u16::from(version)) {
                Ok(version) => Some(version),
                Err(_) => return wrong(10, VERSION, version),
            },
            (1, 0, 0) => None,
            (1, 0, _) => return wrong(10, "version 0, as it is a withdrawal,", version),
            (1, ..) => return wrong(9, "0 instructions, as it is a withdrawal,", instructions),
            _ => return wrong(8, "kind 0, a change, or 1, a withdrawal,", kind),
        };
        match zero {
            0 => Ok(Self {
                timestamp: u64::from_le_bytes([t0, t1, t2, t3, t4, t5, t6, t7]),
                instructions,
                version,
            }),
            _ => wrong(11, "0, the last byte", zero),
        }
    }

    /// The entry, with its body, which comes next.
    fn with_body(&self, bytes: &mut Bytes<'_>, index: u16) -> Result<Entry, Broken> {
        let timestamp = self.timestamp;
        let program = (0..self.instructions)
            .map(|place| bytes.read(format_args!("instruction {place} of entry {index}")))
            .collect::<Result<_, _>>()?;
        Ok(match self.version {
            Some(version) => Entry::Change {
                timestamp,
                version,
                program,
            },
            None => Entry::Withdrawal { timestamp },
        })
    }
}
