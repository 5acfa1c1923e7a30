//! The lines of a script.
//!
//! A line is a call: its name and its arguments, separated by blanks (spaces or tabs). Empty lines,
//! and lines that start with `#`, are passed over. Blanks may stand before and after a call, and a
//! carriage return at the end of a line does not count. A program may be given in words, on lines of
//! their own from `{` to `}`.
//!
//! | line | call |
//! |---|---|
//! | `set_up` | set up |
//! | `take_in TS HEX [VERSION]` | take in the change with this timestamp, program and version |
//! | `take_in TS [version VERSION] {` | likewise; the lines up to `}` are the program in words |
//! | `withdraw TS` | withdraw |
//! | `turn` | turn |
//! | `drain [lenL]` | drain |
//! | `cutoff TS` | cutoff: the changes stamped below this timestamp are dropped |
//! | `current S` | current value of a setting |
//! | `value_as_of TS S` | value of a setting as of a timestamp |
//! | `standing TS` | standing of a timestamp |
//! | `take_in_package HEX [lenL]` | take in a package |
//! | `package_out L` | package out; a slice of L zero bytes is lent |
//! | `plain_run` | plain run |
//! | `start_values` | start values |
//! | `tables` | no call: the tables as they stand |
//! | `load FILE` | no call: the calls after it are lent the tables of this file |
//!
//! `TS` is a number of 64 bits, `VERSION` one of 16, `S` and `L` are numbers of the machine's size,
//! all in decimal digits alone; `S` may be a port and a field as well, for example `port 2 power`.
//! `HEX` is the bytes as pairs of hexadecimal digits, or `-` for none. A change has version 0 unless its
//! line gives another. A drain is lent 1,024 totals and take in a package 512 answers; with `lenL`, for
//! example `len511`, a slice of that length is lent instead. [`text_form::program`] has the lines of a
//! program in words; there, and behind `{` and `}`, a comment may follow on the same line.

use std::fmt;
use std::mem;
use std::str::{self, FromStr};
use text_form::{program, Quoted, Setting};

/// What a line asks for.
#[derive(Clone, Debug, PartialEq, Eq)]
#[allow(missing_docs)]
pub enum Call {
    SetUp,
    /// `version` is 0 where the line gives none.
    TakeIn {
        timestamp: u64,
        program: Vec<u8>,
        version: u16,
    },
    Withdraw {
        timestamp: u64,
    },
    Turn,
    /// `totals` is the length of the slice of totals to lend, where the line gives one.
    Drain {
        totals: Option<usize>,
    },
    Cutoff {
        timestamp: u64,
    },
    CurrentValue {
        setting: usize,
    },
    ValueAsOf {
        timestamp: u64,
        setting: usize,
    },
    Standing {
        timestamp: u64,
    },
    /// `answers` is the length of the answer slice to lend, where the line gives one.
    TakeInPackage {
        package: Vec<u8>,
        answers: Option<usize>,
    },
    /// `length` is that of the slice to lend.
    PackageOut {
        length: usize,
    },
    PlainRun,
    StartValues,
    Tables,
    Load {
        file: String,
    },
}

/// Why a line is not a call.
#[derive(Clone, Debug, PartialEq, Eq)]
pub enum Error {
    /// The line is not UTF-8.
    NotText,
    /// The first word names no call.
    NoSuchCall(String),
    /// The line ends before this argument.
    Missing(&'static str),
    /// This word follows the last argument.
    TooMany(String),
    /// This argument is not made of decimal digits.
    NotANumber(&'static str, String),
    /// This argument has more bits than the call takes.
    TooLarge(&'static str, String),
    /// There is half a byte.
    OddDigits,
    /// This is no hexadecimal digit.
    NotADigit(char),
    /// Not `len` and a length.
    NotALength(String),
    /// Not a setting by port and field.
    NotASetting(text_form::Error),
    /// A program in words cannot be read.
    Words(text_form::Error),
    /// The script ends before the `}` of a program in words.
    Open,
}

impl fmt::Display for Error {
    fn fmt(&self, f: &mut fmt::Formatter<'_>) -> fmt::Result {
        match self {
            Self::NotText => f.write_str("this is not UTF-8"),
            Self::NoSuchCall(word) => write!(f, "there is no call {}", Quoted(word)),
            Self::Missing(argument) => write!(f, "{argument} is missing"),
            Self::TooMany(word) => write!(f, "{} is a word too many", Quoted(word)),
            Self::NotANumber(argument, word) => {
                let word = Quoted(word);
                write!(f, "{argument} is not a number in decimal digits: {word}")
            }
            Self::TooLarge(argument, word) => {
                write!(f, "{argument} is too large: {}", Quoted(word))
            }
            Self::OddDigits => f.write_str("HEX has an odd number of digits"),
            Self::NotADigit(character) => {
                write!(f, "HEX has {character:?}, which is no hexadecimal digit")
            }
            Self::NotALength(word) => {
                write!(f, "lenL is not len and a length: {}", Quoted(word))
            }
            Self::NotASetting(error) => write!(f, "S is not a setting: {}", error.mismatch()),
            Self::Words(error) => write!(f, "column {}: {}", error.column, error.mismatch()),
            Self::Open => f.write_str("no } ends the program that begins here"),
        }
    }
}

impl std::error::Error for Error {}

/// Why a script cannot be read, and the line, counted from 1.
#[derive(Clone, Debug, PartialEq, Eq)]
#[allow(missing_docs)]
pub struct Unreadable {
    pub line: usize,
    pub error: Error,
}

/// Reads a script line by line.
#[derive(Debug, Default)]
pub struct Reader {
    open: Option<Block>,
}

/// A taking in whose program is being read in words.
#[derive(Debug)]
struct Block {
    /// The line that has `{`.
    line: usize,
    timestamp: u64,
    version: u16,
    program: program::Reader,
}

impl Reader {
    /// Reads the line of this number, without its newline. There is no call on an empty line, on a
    /// comment, and on a line of a program in words before its `}`.
    pub fn read(&mut self, number: usize, line: &[u8]) -> Result<Option<Call>, Unreadable> {
        if let Some(block) = &mut self.open {
            let call = block.read(number, line).map_err(|error| Unreadable {
                line: error.line,
                error: Error::Words(error),
            })?;
            if call.is_some() {
                self.open = None;
            }
            return Ok(call);
        }
        let line = read(line).map_err(|error| Unreadable {
            line: number,
            error,
        })?;
        match line {
            Line::Empty => Ok(None),
            Line::Call(call) => Ok(Some(call)),
            Line::Opening { timestamp, version } => {
                self.open = Some(Block {
                    line: number,
                    timestamp,
                    version,
                    program: program::Reader::default(),
                });
                Ok(None)
            }
        }
    }

    /// The script ends here.
    pub fn finish(self) -> Result<(), Unreadable> {
        match self.open {
            None => Ok(()),
            Some(block) => Err(Unreadable {
                line: block.line,
                error: Error::Open,
            }),
        }
    }
}

impl Block {
    /// Reads a line of the program. With `}` the call is whole.
    fn read(&mut self, number: usize, line: &[u8]) -> Result<Option<Call>, text_form::Error> {
        if !closes(line) {
            self.program.read_line(number, line)?;
            return Ok(None);
        }
        let program = mem::take(&mut self.program).finish()?;
        Ok(Some(Call::TakeIn {
            timestamp: self.timestamp,
            program: program.into_flattened(),
            version: self.version,
        }))
    }
}

/// Whether a line is the `}` that ends a program in words.
fn closes(line: &[u8]) -> bool {
    let before_comment = line.split(|&byte| byte == b'#').next();
    before_comment.is_some_and(|text| text.trim_ascii() == b"}")
}

/// What a line is by itself.
#[derive(Clone, Debug, PartialEq, Eq)]
enum Line {
    /// An empty line or a comment.
    Empty,
    Call(Call),
    /// A taking in whose program follows in words.
    Opening {
        timestamp: u64,
        version: u16,
    },
}

/// Reads a line without its newline.
fn read(line: &[u8]) -> Result<Line, Error> {
    let line = str::from_utf8(line).map_err(|_| Error::NotText)?;
    let line = line.strip_suffix('\r').unwrap_or(line);
    let mut words = line.split([' ', '\t']).filter(|word| !word.is_empty());
    let name = match words.next() {
        Some(word) if !word.starts_with('#') => word,
        _ => return Ok(Line::Empty),
    };
    let mut arguments = Arguments(words);
    let call = match name {
        "set_up" => Call::SetUp,
        "take_in" => {
            let timestamp = arguments.timestamp()?;
            let word = arguments.word("HEX")?;
            if let Some(version) = arguments.opening(word)? {
                return Ok(Line::Opening { timestamp, version });
            }
            Call::TakeIn {
                timestamp,
                program: bytes(word)?,
                version: arguments.version()?,
            }
        }
        "withdraw" => Call::Withdraw {
            timestamp: arguments.timestamp()?,
        },
        "turn" => Call::Turn,
        "drain" => Call::Drain {
            totals: arguments.lent()?,
        },
        "cutoff" => Call::Cutoff {
            timestamp: arguments.timestamp()?,
        },
        "current" => Call::CurrentValue {
            setting: arguments.setting()?,
        },
        "value_as_of" => Call::ValueAsOf {
            timestamp: arguments.timestamp()?,
            setting: arguments.setting()?,
        },
        "standing" => Call::Standing {
            timestamp: arguments.timestamp()?,
        },
        "take_in_package" => Call::TakeInPackage {
            package: bytes(arguments.word("HEX")?)?,
            answers: arguments.lent()?,
        },
        "package_out" => Call::PackageOut {
            length: arguments.length()?,
        },
        "plain_run" => Call::PlainRun,
        "start_values" => Call::StartValues,
        "tables" => Call::Tables,
        "load" => Call::Load {
            file: arguments.word("FILE")?.to_string(),
        },
        _ => return Err(Error::NoSuchCall(name.to_string())),
    };
    arguments.end()?;
    Ok(Line::Call(call))
}

/// The words after the name.
struct Arguments<W>(W);

impl<'a, W: Iterator<Item = &'a str>> Arguments<W> {
    fn word(&mut self, argument: &'static str) -> Result<&'a str, Error> {
        self.0.next().ok_or(Error::Missing(argument))
    }

    fn timestamp(&mut self) -> Result<u64, Error> {
        number("TS", self.word("TS")?)
    }

    /// A setting, which is the last argument: its number, or its port and field.
    fn setting(&mut self) -> Result<usize, Error> {
        let word = self.word("S")?;
        if word != "port" {
            return number("S", word);
        }
        let mut words = word.to_string();
        for word in self.0.by_ref() {
            words = words + " " + word;
        }
        let setting: Setting = words.parse().map_err(Error::NotASetting)?;
        Ok(setting.number())
    }

    /// The version of a taking in whose program follows in words, if this word and the next ones open
    /// such a one.
    fn opening(&mut self, word: &str) -> Result<Option<u16>, Error> {
        let version = match word {
            "{" => 0,
            "version" => {
                let version = number("VERSION", self.word("VERSION")?)?;
                match self.0.next() {
                    Some("{") => version,
                    _ => return Err(Error::Missing("{")),
                }
            }
            _ => return Ok(None),
        };
        match self.0.next() {
            Some(word) if !word.starts_with('#') => Err(Error::TooMany(word.to_string())),
            _ => Ok(Some(version)),
        }
    }

    fn version(&mut self) -> Result<u16, Error> {
        let word = self.0.next();
        word.map_or(Ok(0), |word| number("VERSION", word))
    }

    fn length(&mut self) -> Result<usize, Error> {
        number("L", self.word("L")?)
    }

    /// The length of a slice to lend, where the line gives one.
    fn lent(&mut self) -> Result<Option<usize>, Error> {
        let Some(word) = self.0.next() else {
            return Ok(None);
        };
        match word.strip_prefix("len") {
            Some(length) => number("the L of lenL", length).map(Some),
            None => Err(Error::NotALength(word.to_string())),
        }
    }

    /// There are no more.
    fn end(&mut self) -> Result<(), Error> {
        match self.0.next() {
            None => Ok(()),
            Some(word) => Err(Error::TooMany(word.to_string())),
        }
    }
}

/// The bytes that a word gives.
fn bytes(word: &str) -> Result<Vec<u8>, Error> {
    if word == "-" {
        return Ok(Vec::new());
    }
    let digit = |character: char| match character.to_digit(16) {
        Some(digit) => Ok(digit as u8),
        None => Err(Error::NotADigit(character)),
    };
    let digits: Vec<u8> = word.chars().map(digit).collect::<Result<_, _>>()?;
    match digits.as_chunks() {
        (pairs, []) => Ok(pairs.iter().map(|[high, low]| 16 * high + low).collect()),
        _ => Err(Error::OddDigits),
    }
}

/// A number in decimal digits alone.
fn number<T: FromStr>(argument: &'static str, word: &str) -> Result<T, Error> {
    if word.is_empty() || !word.bytes().all(|byte| byte.is_ascii_digit()) {
        return Err(Error::NotANumber(argument, word.to_string()));
    }
    let number = word.parse();
    number.map_err(|_| Error::TooLarge(argument, word.to_string()))
}

#[cfg(test)]
mod tests;
