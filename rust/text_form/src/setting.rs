//! Settings by port and field: document 01, "Settings and stamps".

use crate::line::{Error, Line};
use std::fmt;
use std::str::FromStr;
use tolbezun::{setting, FIELDS, PORTS, SETTINGS};

/// The fields that have a name of their own.
const NAMED: [(&str, usize); 4] = [("state", 1), ("vlan", 2), ("power", 4), ("alarm", 5)];

/// The fields of the membership masks, `mask 0` and up.
const FIRST_MASK: usize = 8;

/// How many masks a port has.
const MASKS: usize = FIELDS - FIRST_MASK;

/// A setting, which shows itself by port and field, and is read so.
///
/// ```
/// use text_form::Setting;
///
/// assert_eq!("port 2 field 4".parse(), Ok(Setting::new(36).unwrap()));
/// assert_eq!("port 2 power".parse(), Ok(Setting::new(36).unwrap()));
///
/// let name = |number| Setting::new(number).map(|setting| setting.to_string());
/// assert_eq!(name(36).as_deref(), Some("port 2 power"));
/// assert_eq!(name(1023).as_deref(), Some("port 63 mask 7"));
/// assert_eq!(name(3).as_deref(), Some("port 0 field 3"));
/// assert_eq!(name(1024), None);
/// ```
#[derive(Clone, Copy, Debug, PartialEq, Eq, PartialOrd, Ord, Hash)]
pub struct Setting(usize);

impl Setting {
    /// The setting with this number, 0 to 1,023.
    pub fn new(number: usize) -> Option<Self> {
        (number < SETTINGS).then_some(Self(number))
    }

    /// Its number.
    pub fn number(self) -> usize {
        self.0
    }

    /// A port and a field, behind the word `port`.
    pub(crate) fn read(line: &mut Line<'_>) -> Result<Self, Error> {
        let port = line.number("a port", PORTS as u64 - 1)? as usize;
        let field = field(line)?;
        Ok(Self(setting(port, field)))
    }
}

/// The field of a port, by its name or its number.
fn field(line: &mut Line<'_>) -> Result<usize, Error> {
    if line.take("field") {
        let field = line.number("a field", FIELDS as u64 - 1)?;
        return Ok(field as usize);
    }
    if line.take("mask") {
        let mask = line.number("a mask", MASKS as u64 - 1)?;
        return Ok(FIRST_MASK + mask as usize);
    }
    let expected = r#""state", "vlan", "power", "alarm", "mask" or "field""#;
    line.read(expected, |name| {
        let found = NAMED.iter().find(|(named, _)| *named == name);
        found.map(|(_, field)| *field)
    })
}

/// By port and field. The error has the column of the text.
impl FromStr for Setting {
    type Err = Error;

    fn from_str(text: &str) -> Result<Self, Error> {
        let mut line = Line::new(1, text.as_bytes())?;
        line.expect("port")?;
        let setting = Self::read(&mut line)?;
        line.end()?;
        Ok(setting)
    }
}

impl fmt::Display for Setting {
    fn fmt(&self, f: &mut fmt::Formatter<'_>) -> fmt::Result {
        let (port, field) = (self.0 / FIELDS, self.0 % FIELDS);
        write!(f, "port {port} ")?;
        let named = NAMED.iter().find(|(_, named)| *named == field);
        match (named, field.checked_sub(FIRST_MASK)) {
            (Some((name, _)), _) => f.write_str(name),
            (None, Some(mask)) => write!(f, "mask {mask}"),
            (None, None) => write!(f, "field {field}"),
        }
    }
}
