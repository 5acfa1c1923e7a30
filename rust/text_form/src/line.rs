//! A line of text as words and signs, read from left to right, and what is wrong with it.

use std::error;
use std::fmt::{self, Display};
use std::str;
use tolbezun::REGISTERS;

/// What a text should have at a place, and what it has there.
#[derive(Clone, Debug, PartialEq, Eq)]
pub struct Error {
    /// The line, counted from 1.
    pub line: usize,
    /// The character of that line, counted from 1.
    pub column: usize,
    /// What should stand there.
    pub expected: String,
    /// What stands there: a piece of the text in quotes, or a description.
    pub found: String,
}

impl Error {
    /// What is expected and what is found, without the place.
    pub fn mismatch(&self) -> String {
        format!("expected {}, found {}", self.expected, self.found)
    }
}

impl Display for Error {
    fn fmt(&self, f: &mut fmt::Formatter<'_>) -> fmt::Result {
        let (line, column, mismatch) = (self.line, self.column, self.mismatch());
        write!(f, "line {line}, column {column}: {mismatch}")
    }
}

impl error::Error for Error {}

/// Shows a piece of a text in quotes, and of a long one the beginning.
#[derive(Clone, Copy, Debug)]
pub struct Quoted<'a>(pub &'a str);

impl Display for Quoted<'_> {
    fn fmt(&self, f: &mut fmt::Formatter<'_>) -> fmt::Result {
        match self.0.char_indices().nth(40) {
            None => write!(f, "{:?}", self.0),
            Some((end, _)) => write!(f, "{:?}..", &self.0[..end]),
        }
    }
}

/// Where a piece stands.
#[derive(Clone, Copy, Debug)]
pub(crate) struct Place {
    line: usize,
    column: usize,
}

impl Place {
    pub fn line(self) -> usize {
        self.line
    }

    /// The error that something else is expected here.
    pub fn error(self, expected: impl Display, found: impl Display) -> Error {
        Error {
            line: self.line,
            column: self.column,
            expected: expected.to_string(),
            found: found.to_string(),
        }
    }
}

/// A word, of letters, digits and `_`, or a sign, which is any other character but a blank. A carriage
/// return is a blank.
#[derive(Clone, Copy)]
struct Piece<'a> {
    column: usize,
    text: &'a str,
}

/// The pieces of a line that are still to be read. `#` and what stands behind it are none.
pub(crate) struct Line<'a> {
    number: usize,
    pieces: Vec<Piece<'a>>,
    next: usize,
    /// The column behind the last piece.
    end: usize,
}

impl<'a> Line<'a> {
    /// The line of this number.
    pub fn new(number: usize, bytes: &'a [u8]) -> Result<Self, Error> {
        let text = str::from_utf8(bytes).map_err(|error| {
            let (right, _) = bytes.split_at(error.valid_up_to());
            let place = Place {
                line: number,
                column: 1 + String::from_utf8_lossy(right).chars().count(),
            };
            place.error("UTF-8", "other bytes")
        })?;
        let (text, _comment) = text.split_once('#').unwrap_or((text, ""));
        let pieces = pieces(text);
        let end = pieces
            .last()
            .map_or(1, |piece| piece.column + piece.text.chars().count());
        Ok(Self {
            number,
            pieces,
            next: 0,
            end,
        })
    }

    /// The next piece.
    pub fn peek(&self) -> Option<&'a str> {
        self.pieces.get(self.next).map(|piece| piece.text)
    }

    /// Whether the line is a word and a colon, with whatever behind them.
    pub fn begins_label(&self) -> bool {
        let second = self.pieces.get(self.next + 1);
        second.is_some_and(|piece| piece.text == ":")
    }

    /// Where the next piece stands, or the line ends.
    pub fn place(&self) -> Place {
        let piece = self.pieces.get(self.next);
        Place {
            line: self.number,
            column: piece.map_or(self.end, |piece| piece.column),
        }
    }

    /// The error that something else should come next.
    pub fn error(&self, expected: impl Display) -> Error {
        let found = match self.peek() {
            Some(text) => Quoted(text).to_string(),
            None => "the end of the line".to_string(),
        };
        self.place().error(expected, found)
    }

    /// Passes over the next piece if it is this one.
    pub fn take(&mut self, text: &str) -> bool {
        let found = self.peek() == Some(text);
        self.next += usize::from(found);
        found
    }

    /// Passes over this piece.
    pub fn expect(&mut self, text: &str) -> Result<(), Error> {
        match self.take(text) {
            true => Ok(()),
            false => Err(self.error(format_args!("{text:?}"))),
        }
    }

    /// There is nothing more.
    pub fn end(&self) -> Result<(), Error> {
        match self.peek() {
            None => Ok(()),
            Some(_) => Err(self.error("the end of the line")),
        }
    }

    /// What `read` makes of the next piece.
    pub fn read<T>(
        &mut self,
        expected: impl Display,
        read: impl FnOnce(&'a str) -> Option<T>,
    ) -> Result<T, Error> {
        let value = self.peek().and_then(read);
        let value = value.ok_or_else(|| self.error(expected))?;
        self.next += 1;
        Ok(value)
    }

    /// A register.
    pub fn register(&mut self) -> Result<u8, Error> {
        self.read(REGISTER, register)
    }

    /// Whether a register comes next.
    pub fn has_register(&self) -> bool {
        self.peek().and_then(register).is_some()
    }

    /// The decimal digits of a number of any size.
    pub fn digits(&mut self, expected: impl Display) -> Result<&'a str, Error> {
        self.read(expected, |text| is_number(text).then_some(text))
    }

    /// A number from 0 to `most`, in decimal digits.
    pub fn number(&mut self, what: impl Display, most: u64) -> Result<u64, Error> {
        self.read(format_args!("{what} from 0 to {most}"), |text| {
            number(text).filter(|&number| number <= most)
        })
    }

    /// Whether a number comes next, of any size.
    pub fn has_number(&self) -> bool {
        self.peek().is_some_and(is_number)
    }
}

/// What a register is called in errors.
pub(crate) const REGISTER: &str = "a register r0 to r7";

fn register(text: &str) -> Option<u8> {
    let register = text.strip_prefix('r').and_then(number)?;
    let register = u8::try_from(register).ok()?;
    (register < REGISTERS && text.len() == 2).then_some(register)
}

fn number(text: &str) -> Option<u64> {
    is_number(text).then(|| text.parse().ok())?
}

fn is_number(text: &str) -> bool {
    text.bytes().all(|byte| byte.is_ascii_digit())
}

fn pieces(text: &str) -> Vec<Piece<'_>> {
    let of_word = |character: char| character.is_alphanumeric() || character == '_';
    let mut pieces = Vec::new();
    let (mut rest, mut column) = (text, 1);
    while let Some(first) = rest.chars().next() {
        let length = match of_word(first) {
            true => rest.find(|character| !of_word(character)),
            false => Some(first.len_utf8()),
        };
        let (piece, behind) = rest.split_at(length.unwrap_or(rest.len()));
        if !first.is_whitespace() {
            pieces.push(Piece {
                column,
                text: piece,
            });
        }
        column += piece.chars().count();
        rest = behind;
    }
    pieces
}
