//! The program `package`: makes packages from words, and shows them in words.

#![forbid(unsafe_code)]

use std::env;
use std::ffi::OsString;
use std::fmt::Display;
use std::fs;
use std::io::{self, Read, Write};
use std::process::ExitCode;
use text_form::Package;

const USAGE: &str = "usage: package make [FILE]\n       package show [FILE]";

const HELP: &str = r#"
make   reads changes and withdrawals in words, and writes their package to standard
       output
show   reads a package, and prints its entries in words, which make reads again; of
       each a comment has the index, kind, timestamp and console

FILE is standard input unless it is given. A text in words:

  change 30                       # a timestamp; or: change 30 version 1
      r0 = port 2 power           # a setting by its name
      r1 = 300
      r0 = r0 - r1
      port 2 power = r0
      if r0 < 0 skip to alarm
      stop
    alarm:
      r1 = 1
      port 2 alarm = r1
  withdraw 15

line                         meaning
stop                         the run ends
r0 = 400                     a number of 32 bits
r0 = r1                      copied
r0 = r1 + r2                 also r1 - r2 and -r1, wrapped to 32 bits
r0 = r1 / 2^5                divided by a power of 2, 0 to 31, rounded down
r0 = ones r1                 the number of ones in the 32-bit pattern
r0 = r1 and r2               also or, xor: of the 32-bit patterns
r0 = SETTING                 a setting is read
SETTING = r0                 a setting is written
r0 = setting r1              the setting whose number is in r1 is read
setting r1 = r0              and is written
if r0 < 0 skip TO            the instructions up to TO are passed over
if r0 = 0 skip TO
skip TO
NAME:                        a label, which names the place of the next instruction

There are registers r0 to r7, which start at 0, and at most 32 instructions in a
change. SETTING is a number, as in setting 36, or a port, 0 to 63, and a field:
port 2 field 4, or by its name, port 2 state, vlan, power, alarm, mask 0 to mask 7.
TO is the number of instructions to pass over, or to and a label further down. What
stands behind # does not count.

A text that cannot be read ends with exit status 1 and a message that has the line
and the column; so do a package that breaks its layout, with the byte, and one with an
instruction that every cabinet refuses, after it is shown. Wrong arguments end with
status 2.
"#;

/// What the arguments ask for.
enum Command {
    Help,
    Make(Option<OsString>),
    Show(Option<OsString>),
}

fn main() -> ExitCode {
    match command(env::args_os().skip(1)) {
        Ok(Command::Help) => print(format!("{USAGE}\n{HELP}").as_bytes()),
        Ok(Command::Make(file)) => on_file(file, make),
        Ok(Command::Show(file)) => on_file(file, show),
        Err(mistake) => {
            say(format_args!("{mistake}\n{USAGE}"));
            ExitCode::from(2)
        }
    }
}

/// What the arguments ask for, or what is wrong with them.
fn command(mut arguments: impl Iterator<Item = OsString>) -> Result<Command, String> {
    let name = arguments.next().ok_or("make or show is missing")?;
    let file = arguments.next();
    if name == "--help" || file.as_ref().is_some_and(|file| file == "--help") {
        return Ok(Command::Help);
    }
    if let Some(more) = arguments.next() {
        return Err(format!("{} is a word too many", more.display()));
    }
    if name == "make" {
        Ok(Command::Make(file))
    } else if name == "show" {
        Ok(Command::Show(file))
    } else {
        Err(format!("there is no command {}", name.display()))
    }
}

/// Carries out a command on what a file has, with the file's name for messages.
fn on_file(file: Option<OsString>, command: fn(&[u8], &str) -> ExitCode) -> ExitCode {
    let (name, contents) = match file {
        Some(file) => (file.display().to_string(), fs::read(&file)),
        None => ("standard input".to_string(), standard_input()),
    };
    match contents {
        Ok(contents) => command(&contents, &name),
        Err(error) => {
            say(format_args!("{name}: {error}"));
            ExitCode::from(2)
        }
    }
}

fn standard_input() -> io::Result<Vec<u8>> {
    let mut contents = Vec::new();
    io::stdin().read_to_end(&mut contents)?;
    Ok(contents)
}

fn make(text: &[u8], name: &str) -> ExitCode {
    let package = match Package::from_text(text) {
        Ok(package) => package,
        Err(error) => return fail(name, error),
    };
    warn_of_timestamps(&package, name);
    print(&package.to_bytes())
}

fn show(bytes: &[u8], name: &str) -> ExitCode {
    let package = match Package::from_bytes(bytes) {
        Ok(package) => package,
        Err(broken) => return fail(name, broken),
    };
    let mut ended = print(package.to_string().as_bytes());
    warn_of_timestamps(&package, name);
    for (index, place, mistake) in package.mistakes() {
        let entry = package.entries()[index].summary();
        let refused = format!("instruction {place} is refused (7)");
        ended = fail(
            name,
            format_args!("entry {index}, {entry}: {refused}: {mistake}"),
        );
    }
    ended
}

/// Tells of timestamps that every cabinet refuses.
fn warn_of_timestamps(package: &Package, name: &str) {
    let entries = package.entries().iter().enumerate();
    for (index, entry) in entries.filter(|(_, entry)| entry.is_out_of_range()) {
        let entry = entry.summary();
        say(format_args!(
            "{name}: entry {index}, {entry}: every cabinet refuses this timestamp (4)"
        ));
    }
}

fn fail(name: &str, message: impl Display) -> ExitCode {
    say(format_args!("{name}: {message}"));
    ExitCode::FAILURE
}

/// Writes to standard output. Who closes it has seen enough and gets no message.
fn print(bytes: &[u8]) -> ExitCode {
    let mut output = io::stdout();
    match output.write_all(bytes).and_then(|()| output.flush()) {
        Ok(()) => ExitCode::SUCCESS,
        Err(error) if error.kind() == io::ErrorKind::BrokenPipe => ExitCode::FAILURE,
        Err(error) => fail("standard output", error),
    }
}

/// Writes to standard error. Where that fails there is nobody to tell.
fn say(message: impl Display) {
    let _ = writeln!(io::stderr(), "{message}");
}
