//! The tables as one line of JSON, and back: an object with a list of whole numbers for each table.

use std::fmt;
use std::str::{self, FromStr};
use text_form::Quoted;
use tolbezun::{with_tables, Tables};

/// Has the functions of this module written out for all tables. The keys are the names of their
/// fields.
macro_rules! functions {
    ($(#$doc:tt $table:ident $names:tt $entries:tt)*) => {
        /// The keys, in the order in which they are written. Any order is read.
        pub const KEYS: &[&str] = &[$(stringify!($table)),*];

        /// The tables as one line.
        pub fn write(tables: &Tables) -> String {
            let lists = [$(format!(r#""{}": {:?}"#, stringify!($table), tables.$table)),*];
            format!("{{{}}}", lists.join(", "))
        }

        /// Reads tables of any lengths and contents.
        pub fn read(text: &[u8]) -> Result<Tables, Error> {
            $(let mut $table = None;)*
            let mut reader = Reader { text, place: 0 };
            reader.object(|reader, key| match key {
                $(stringify!($table) => reader.list(stringify!($table), &mut $table),)*
                _ => Err(Error::Unknown(key.to_string())),
            })?;
            Ok(Tables {
                $($table: $table.ok_or(Error::Missing(stringify!($table)))?),*
            })
        }
    };
}

with_tables!(functions);

/// Why a text is not tables.
#[derive(Clone, Debug, PartialEq, Eq)]
pub enum Error {
    /// It is not JSON, or not an object of lists of whole numbers.
    Broken {
        /// The line at which this shows, counted from 1.
        line: usize,
        /// The byte of that line, counted from 1.
        column: usize,
        /// What should stand there.
        expected: &'static str,
    },
    /// A key is no table's.
    Unknown(String),
    /// A key comes again.
    Twice(&'static str),
    /// A key does not come.
    Missing(&'static str),
    /// A number is not one that the table can hold.
    DoesNotFit {
        /// The table.
        table: &'static str,
        /// The place in its list, counted from 0.
        index: usize,
        /// The number.
        number: String,
        /// What the table holds.
        width: &'static str,
    },
}

impl fmt::Display for Error {
    fn fmt(&self, f: &mut fmt::Formatter<'_>) -> fmt::Result {
        match self {
            Self::Broken {
                line,
                column,
                expected,
            } => write!(f, "line {line}, column {column}: expected {expected}"),
            Self::Unknown(key) => write!(f, "the key {} is unknown", Quoted(key)),
            Self::Twice(key) => write!(f, "the key {key:?} comes twice"),
            Self::Missing(key) => write!(f, "the key {key:?} is missing"),
            Self::DoesNotFit {
                table,
                index,
                number,
                width,
            } => {
                let number = Quoted(number);
                write!(
                    f,
                    "entry {index} of {table:?} does not fit {width}: {number}"
                )
            }
        }
    }
}

impl std::error::Error for Error {}

/// A number that a table holds.
trait Number: FromStr {
    /// What fits.
    const WIDTH: &'static str;
}

impl Number for u8 {
    const WIDTH: &'static str = "8 bits";
}

impl Number for u16 {
    const WIDTH: &'static str = "16 bits";
}

impl Number for u64 {
    const WIDTH: &'static str = "64 bits";
}

impl Number for i32 {
    const WIDTH: &'static str = "signed 32 bits";
}

/// A text, read up to a place.
struct Reader<'a> {
    text: &'a [u8],
    place: usize,
}

impl<'a> Reader<'a> {
    /// The whole text: an object whose values `value` reads.
    fn object(
        &mut self,
        mut value: impl FnMut(&mut Self, &str) -> Result<(), Error>,
    ) -> Result<(), Error> {
        self.expect(b'{', "{")?;
        if !self.skip(b'}') {
            loop {
                let key = self.key()?;
                self.expect(b':', ":")?;
                value(self, &key)?;
                if !self.skip(b',') {
                    break;
                }
            }
            self.expect(b'}', ", or }")?;
        }
        self.skip_blanks();
        match self.next() {
            None => Ok(()),
            Some(_) => Err(self.broken("nothing after the object")),
        }
    }

    /// Reads a list into a table that has none so far.
    fn list<T: Number>(
        &mut self,
        table: &'static str,
        list: &mut Option<Vec<T>>,
    ) -> Result<(), Error> {
        if list.is_some() {
            return Err(Error::Twice(table));
        }
        let numbers = list.insert(Vec::new());
        self.expect(b'[', "[")?;
        if self.skip(b']') {
            return Ok(());
        }
        loop {
            let number = match self.number()? {
                "-0" => "0",
                number => number,
            };
            numbers.push(number.parse().map_err(|_| Error::DoesNotFit {
                table,
                index: numbers.len(),
                number: number.to_string(),
                width: T::WIDTH,
            })?);
            if !self.skip(b',') {
                return self.expect(b']', ", or ]");
            }
        }
    }

    /// A key. No table's name needs an escape, so none is read.
    fn key(&mut self) -> Result<String, Error> {
        self.expect(b'"', "a key in quotes")?;
        let start = self.place;
        while self
            .next()
            .is_some_and(|byte| byte != b'"' && !byte.is_ascii_control())
        {
            self.place += 1;
        }
        if self.next() != Some(b'"') {
            return Err(self.broken("the quote that ends the key"));
        }
        let key = String::from_utf8_lossy(&self.text[start..self.place]);
        self.place += 1;
        Ok(key.into_owned())
    }

    /// The digits of a whole number, and its sign where it is negative.
    fn number(&mut self) -> Result<&'a str, Error> {
        self.skip_blanks();
        let start = self.place;
        if self.next() == Some(b'-') {
            self.place += 1;
        }
        match self.next() {
            Some(b'0') => self.place += 1,
            Some(b'1'..=b'9') => {
                while self.next().is_some_and(|byte| byte.is_ascii_digit()) {
                    self.place += 1;
                }
            }
            _ => return Err(self.broken("a whole number")),
        }
        if let Some(b'0'..=b'9' | b'.' | b'e' | b'E') = self.next() {
            return Err(self.broken("no leading 0, fraction or exponent"));
        }
        let number = str::from_utf8(&self.text[start..self.place]);
        Ok(number.expect("these are ASCII characters"))
    }

    /// Passes over blanks, and over this byte if it comes next.
    fn skip(&mut self, byte: u8) -> bool {
        self.skip_blanks();
        let found = self.next() == Some(byte);
        self.place += usize::from(found);
        found
    }

    fn skip_blanks(&mut self) {
        while let Some(b' ' | b'\t' | b'\n' | b'\r') = self.next() {
            self.place += 1;
        }
    }

    fn expect(&mut self, byte: u8, expected: &'static str) -> Result<(), Error> {
        match self.skip(byte) {
            true => Ok(()),
            false => Err(self.broken(expected)),
        }
    }

    fn next(&self) -> Option<u8> {
        self.text.get(self.place).copied()
    }

    fn broken(&self, expected: &'static str) -> Error {
        let read = &self.text[..self.place];
        let start_of_line = read.iter().rposition(|&byte| byte == b'\n');
        Error::Broken {
            line: 1 + read.iter().filter(|&&byte| byte == b'\n').count(),
            column: 1 + self.place - start_of_line.map_or(0, |newline| newline + 1),
            expected,
        }
    }
}

#[cfg(test)]
mod tests;
