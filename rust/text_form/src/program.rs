//! Programs in words, an instruction to a line: document 01, "Instructions of a change".
//!
//! | line | instruction |
//! |---|---|
//! | `stop` | the run ends |
//! | `r0 = 400` | a constant of 32 bits |
//! | `r0 = r1` | copied |
//! | `r0 = r1 + r2`, `r0 = r1 - r2`, `r0 = -r1` | wrapped to 32 bits |
//! | `r0 = r1 / 2^5` | divided by a power of 2, 0 to 31, and rounded down |
//! | `r0 = ones r1` | the number of ones in the 32-bit pattern |
//! | `r0 = r1 and r2`, `r0 = r1 or r2`, `r0 = r1 xor r2` | of the 32-bit patterns |
//! | `r0 = SETTING`, `r0 = setting r1` | a setting is read; r1 has its number |
//! | `SETTING = r0`, `setting r1 = r0` | a setting is written |
//! | `if r0 < 0 skip TO`, `if r0 = 0 skip TO`, `skip TO` | the instructions up to TO are passed over |
//! | `NAME:` | no instruction: a label, which names the place of the next one |
//!
//! There are registers `r0` to `r7`. A SETTING is `setting 36`, `port 2 field 4`, or a name of document
//! 01 behind the port: `port 2 state`, `vlan`, `power`, `alarm`, `mask 0` to `mask 7`. TO is the number
//! of instructions to pass over, or `to` and a label further down; a label behind the last instruction
//! is the end.

use crate::line::{Error, Line, Place, Quoted, REGISTER};
use crate::setting::Setting;
use std::collections::{BTreeMap, BTreeSet};
use std::fmt::{self, Display};
use tolbezun::{Instruction, Mistake, MAX_INSTRUCTIONS, MAX_SHIFT, SETTINGS};

/// The bytes of a program's instructions.
pub type Program = Vec<[u8; 8]>;

/// Reads a program, line by line.
#[derive(Debug, Default)]
pub struct Reader {
    lines: Vec<Read>,
    labels: Labels,
}

/// An instruction as far as its own line tells it.
#[derive(Debug)]
enum Read {
    Whole(Instruction),
    Skip(Skip),
}

/// A skip, which goes where the lines below tell.
#[derive(Debug)]
struct Skip {
    condition: Condition,
    to: Destination,
    /// Where it is said how far it goes.
    said: Place,
}

/// When a skip is made.
#[derive(Clone, Copy, Debug)]
enum Condition {
    Negative(u8),
    Zero(u8),
    Always,
}

impl Condition {
    fn skip(self, n: i32) -> Instruction {
        match self {
            Self::Negative(b) => Instruction::SkipIfNegative { b, n },
            Self::Zero(b) => Instruction::SkipIfZero { b, n },
            Self::Always => Instruction::Skip { n },
        }
    }
}

/// How far a skip goes.
#[derive(Debug)]
enum Destination {
    Count(usize),
    Label(String),
}

/// By name, the line that has the label and the place of the instruction behind it.
type Labels = BTreeMap<String, (usize, usize)>;

impl Skip {
    /// The instruction at this place of a program of `count` that has these labels.
    fn finish(&self, place: usize, count: usize, labels: &Labels) -> Result<Instruction, Error> {
        let following = count - place - 1;
        let distance = match &self.to {
            Destination::Count(distance) if *distance <= following => *distance,
            Destination::Count(distance) => {
                let expected = format!("at most {following}, as many instructions as follow");
                return Err(self.said.error(expected, Quoted(&distance.to_string())));
            }
            Destination::Label(name) => match labels.get(name) {
                Some((_, target)) => target - place - 1,
                None => return Err(self.said.error(LABEL, Quoted(name))),
            },
        };
        let n = i32::try_from(distance).expect("at most 32 instructions follow");
        Ok(self.condition.skip(n))
    }
}

impl Reader {
    /// Reads the line of this number, without its newline.
    pub fn read_line(&mut self, number: usize, line: &[u8]) -> Result<(), Error> {
        self.read(Line::new(number, line)?)
    }

    pub(crate) fn read(&mut self, mut line: Line<'_>) -> Result<(), Error> {
        if line.peek().is_none() {
            return Ok(());
        }
        if line.begins_label() {
            self.label(&mut line)?;
        } else {
            if self.lines.len() == MAX_INSTRUCTIONS {
                let expected = format!("at most {MAX_INSTRUCTIONS} instructions");
                return Err(line.place().error(expected, "one more"));
            }
            let read = self.instruction(&mut line)?;
            self.lines.push(read);
        }
        line.end()
    }

    /// The program that the lines give.
    pub fn finish(self) -> Result<Program, Error> {
        let count = self.lines.len();
        let lines = self.lines.iter().enumerate();
        let instructions = lines.map(|(place, read)| match read {
            Read::Whole(instruction) => Ok(instruction.to_bytes()),
            Read::Skip(skip) => {
                let instruction = skip.finish(place, count, &self.labels)?;
                Ok(instruction.to_bytes())
            }
        });
        instructions.collect()
    }

    /// A name and a colon.
    fn label(&mut self, line: &mut Line<'_>) -> Result<(), Error> {
        let place = line.place();
        let name = line.read("a name that begins with a letter", label)?;
        let here = (place.line(), self.lines.len());
        if let Some((first, _)) = self.labels.insert(name.to_string(), here) {
            let found = format!("{}, which line {first} has", Quoted(name));
            return Err(place.error("another name", found));
        }
        line.expect(":")
    }

    fn instruction(&self, line: &mut Line<'_>) -> Result<Read, Error> {
        if line.has_register() {
            return assignment(line).map(Read::Whole);
        }
        if line.take("stop") {
            return Ok(Read::Whole(Instruction::Stop));
        }
        if line.take("skip") {
            return self.skip(line, Condition::Always);
        }
        if line.take("if") {
            let b = line.register()?;
            let condition = if line.take("<") {
                Condition::Negative(b)
            } else if line.take("=") {
                Condition::Zero(b)
            } else {
                return Err(line.error(r#""< 0" or "= 0""#));
            };
            line.expect("0")?;
            line.expect("skip")?;
            return self.skip(line, condition);
        }
        let Some(target) = access(line)? else {
            return Err(line.error(format_args!(
                r#"an instruction ("stop", "skip", "if", "setting", "port" or {REGISTER}) or a label and ":""#
            )));
        };
        line.expect("=")?;
        let a = line.register()?;
        Ok(Read::Whole(match target {
            Access::Direct(setting) => Instruction::Write { a, setting },
            Access::Indexed(b) => Instruction::WriteIndexed { a, b },
        }))
    }

    /// What stands behind `skip`.
    fn skip(&self, line: &mut Line<'_>, condition: Condition) -> Result<Read, Error> {
        let by_label = line.take("to");
        let said = line.place();
        let to = match by_label {
            false if line.has_number() => {
                let most = MAX_INSTRUCTIONS as u64;
                Destination::Count(line.number("a number of instructions", most)? as usize)
            }
            false => return Err(line.error(r#"a number of instructions, or "to" and a label"#)),
            true => {
                let name = line.read(LABEL, label)?;
                if let Some((above, _)) = self.labels.get(name) {
                    let found = format!("{}, which line {above} has", Quoted(name));
                    return Err(said.error(LABEL, found));
                }
                Destination::Label(name.to_string())
            }
        };
        Ok(Read::Skip(Skip {
            condition,
            to,
            said,
        }))
    }
}

/// What the label of a skip is called in errors.
const LABEL: &str = "a label further down";

/// The name of a label.
fn label(text: &str) -> Option<&str> {
    text.starts_with(char::is_alphabetic).then_some(text)
}

/// A register, `=`, and what it is set to.
fn assignment(line: &mut Line<'_>) -> Result<Instruction, Error> {
    let a = line.register()?;
    line.expect("=")?;
    let place = line.place();
    if line.take("-") {
        if line.has_register() {
            let b = line.register()?;
            return Ok(Instruction::Negate { a, b });
        }
        return constant(line, a, place, "-");
    }
    if line.has_number() {
        return constant(line, a, place, "");
    }
    if line.take("ones") {
        let b = line.register()?;
        return Ok(Instruction::CountOnes { a, b });
    }
    if line.has_register() {
        return combination(line, a);
    }
    match access(line)? {
        Some(Access::Direct(setting)) => Ok(Instruction::Read { a, setting }),
        Some(Access::Indexed(b)) => Ok(Instruction::ReadIndexed { a, b }),
        None => Err(line.error(format_args!(
            r#"a number, {REGISTER}, "-", "ones", "setting" or "port""#
        ))),
    }
}

/// The digits of a constant, whose sign stands at `place`.
fn constant(line: &mut Line<'_>, a: u8, place: Place, sign: &str) -> Result<Instruction, Error> {
    let digits = line.digits(format_args!("a number or {REGISTER}"))?;
    let number = format!("{sign}{digits}");
    match number.parse() {
        Ok(n) => Ok(Instruction::Constant { a, n }),
        Err(_) => {
            let expected = format!("a number from {} to {}", i32::MIN, i32::MAX);
            Err(place.error(expected, Quoted(&number)))
        }
    }
}

/// A register, alone or with what is done with it.
fn combination(line: &mut Line<'_>, a: u8) -> Result<Instruction, Error> {
    let b = line.register()?;
    let Some(sign) = line.peek() else {
        return Ok(Instruction::Copy { a, b });
    };
    if line.take("/") {
        line.expect("2")?;
        line.expect("^")?;
        let n = line.number("a power", MAX_SHIFT as u64)? as i32;
        return Ok(Instruction::ShiftRight { a, b, n });
    }
    let with: fn(u8, u8, u8) -> Instruction = match sign {
        "+" => |a, b, c| Instruction::Add { a, b, c },
        "-" => |a, b, c| Instruction::Subtract { a, b, c },
        "and" => |a, b, c| Instruction::And { a, b, c },
        "or" => |a, b, c| Instruction::Or { a, b, c },
        "xor" => |a, b, c| Instruction::Xor { a, b, c },
        _ => {
            let expected = r#""+", "-", "/", "and", "or", "xor" or the end of the line"#;
            return Err(line.error(expected));
        }
    };
    line.expect(sign)?;
    let c = line.register()?;
    Ok(with(a, b, c))
}

/// How an instruction names a setting: by its number, or by the register that has it.
enum Access {
    Direct(i32),
    Indexed(u8),
}

/// A setting, if one comes next.
fn access(line: &mut Line<'_>) -> Result<Option<Access>, Error> {
    let number = if line.take("setting") {
        if line.has_register() {
            return line.register().map(Access::Indexed).map(Some);
        }
        match line.has_number() {
            true => line.number("a setting", SETTINGS as u64 - 1)? as usize,
            false => return Err(line.error(format_args!("the number of a setting or {REGISTER}"))),
        }
    } else if line.take("port") {
        Setting::read(line)?.number()
    } else {
        return Ok(None);
    };
    let number = i32::try_from(number).expect("settings are below 1,024");
    Ok(Some(Access::Direct(number)))
}

/// An instruction in words. A skip has the number of instructions that it passes over.
///
/// ```
/// use text_form::InWords;
/// use tolbezun::Instruction;
///
/// let write = Instruction::Write { a: 0, setting: 36 };
/// assert_eq!(InWords(write).to_string(), "port 2 power = r0");
/// ```
#[derive(Clone, Copy, Debug)]
pub struct InWords(pub Instruction);

impl Display for InWords {
    fn fmt(&self, f: &mut fmt::Formatter<'_>) -> fmt::Result {
        write_instruction(f, self.0, |n| n.to_string())
    }
}

/// Writes an instruction, where `to` says how far a skip of so many goes.
fn write_instruction(
    f: &mut fmt::Formatter<'_>,
    instruction: Instruction,
    to: impl Fn(i32) -> String,
) -> fmt::Result {
    match instruction {
        Instruction::Stop => f.write_str("stop"),
        Instruction::Constant { a, n } => write!(f, "r{a} = {n}"),
        Instruction::Copy { a, b } => write!(f, "r{a} = r{b}"),
        Instruction::Add { a, b, c } => write!(f, "r{a} = r{b} + r{c}"),
        Instruction::Subtract { a, b, c } => write!(f, "r{a} = r{b} - r{c}"),
        Instruction::Negate { a, b } => write!(f, "r{a} = -r{b}"),
        Instruction::ShiftRight { a, b, n } => write!(f, "r{a} = r{b} / 2^{n}"),
        Instruction::CountOnes { a, b } => write!(f, "r{a} = ones r{b}"),
        Instruction::And { a, b, c } => write!(f, "r{a} = r{b} and r{c}"),
        Instruction::Or { a, b, c } => write!(f, "r{a} = r{b} or r{c}"),
        Instruction::Xor { a, b, c } => write!(f, "r{a} = r{b} xor r{c}"),
        Instruction::Read { a, setting } => write!(f, "r{a} = {}", Named(setting)),
        Instruction::ReadIndexed { a, b } => write!(f, "r{a} = setting r{b}"),
        Instruction::Write { a, setting } => write!(f, "{} = r{a}", Named(setting)),
        Instruction::WriteIndexed { a, b } => write!(f, "setting r{b} = r{a}"),
        Instruction::SkipIfNegative { b, n } => write!(f, "if r{b} < 0 skip {}", to(n)),
        Instruction::SkipIfZero { b, n } => write!(f, "if r{b} = 0 skip {}", to(n)),
        Instruction::Skip { n } => write!(f, "skip {}", to(n)),
    }
}

/// The setting of an instruction: by port and field, where there is such a one.
struct Named(i32);

impl Display for Named {
    fn fmt(&self, f: &mut fmt::Formatter<'_>) -> fmt::Result {
        let number = usize::try_from(self.0).ok();
        match number.and_then(Setting::new) {
            Some(setting) => setting.fmt(f),
            None => write!(f, "setting {}", self.0),
        }
    }
}

/// The instructions of a program, each as it is or with what is wrong with it.
pub fn instructions(
    program: &[[u8; 8]],
) -> impl Iterator<Item = Result<Instruction, Mistake>> + '_ {
    let following = (0..program.len()).rev();
    let instructions = program.iter().zip(following);
    instructions.map(|(&bytes, following)| Instruction::from_bytes(bytes, following))
}

/// A program in words, an instruction to a line, as a [`Reader`] reads it. Skips go to labels. An
/// instruction that is refused stands there in hexadecimal digits, with its place, counted from 0, and
/// what is wrong with it; no reader reads that.
#[derive(Clone, Copy, Debug)]
pub struct Listing<'a>(pub &'a [[u8; 8]]);

impl Display for Listing<'_> {
    fn fmt(&self, f: &mut fmt::Formatter<'_>) -> fmt::Result {
        let count = self.0.len();
        let label = |place: usize| match place == count {
            true => "end".to_string(),
            false => format!("place_{place}"),
        };
        let targets = targets(self.0);
        for (place, instruction) in instructions(self.0).enumerate() {
            if targets.contains(&place) {
                writeln!(f, "  {}:", label(place))?;
            }
            match instruction {
                Ok(instruction) => {
                    f.write_str("    ")?;
                    let to = |n| format!("to {}", label(target(place, n)));
                    write_instruction(f, instruction, to)?;
                    writeln!(f)?;
                }
                Err(mistake) => {
                    let digits = u64::from_be_bytes(self.0[place]);
                    writeln!(
                        f,
                        "    refused {digits:016x}  # instruction {place}: {mistake}"
                    )?;
                }
            }
        }
        match targets.contains(&count) {
            true => writeln!(f, "  {}:", label(count)),
            false => Ok(()),
        }
    }
}

/// Where a skip at this place goes.
fn target(place: usize, n: i32) -> usize {
    place + 1 + usize::try_from(n).expect("no skip of a program goes back")
}

/// Where the skips of a program go.
fn targets(program: &[[u8; 8]]) -> BTreeSet<usize> {
    let skips = instructions(program)
        .enumerate()
        .filter_map(|(place, instruction)| match instruction {
            Ok(
                Instruction::SkipIfNegative { n, .. }
                | Instruction::SkipIfZero { n, .. }
                | Instruction::Skip { n },
            ) => Some(target(place, n)),
            _ => None,
        });
    skips.collect()
}
