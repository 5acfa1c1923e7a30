//! The program `calls`: carries out a script from a file or from standard input.

#![forbid(unsafe_code)]

use calls::{Options, Stop};
use std::env;
use std::ffi::OsString;
use std::fs::File;
use std::io::{self, BufReader, Write};
use std::mem;
use std::process::ExitCode;

/// The capacity, unless `--n` gives another.
const CAPACITY: usize = 128;

const USAGE: &str = "usage: calls [--n N] [--explain] [FILE]";

const HELP: &str = r#"
Carries out calls, one to a line, on the proved change history of a cabinet, and
prints one answer line each. The lines come from FILE or from standard input.

  --n N      the capacity of the tables (128)
  --explain  prints more lines, which begin with #: after the answer of a turn, a
             drain, a withdrawal or a package what it did and why, after a refusal
             its reason
  --help     prints this text

line                        answer, where it is not `refused R`
set_up                      done
take_in TS HEX [VERSION]    done, held
take_in TS [version V] {    the same; the lines up to } are the program in words
withdraw TS                 done
turn                        idle, ran TS, stood TS, cleared TS, faulted TS PLACE
drain [lenL]                done by console {"P": T, ..}, the totals that are not 0
cutoff TS                   done; the changes stamped below TS are dropped
current S                   value V
value_as_of TS S            value V
standing TS                 standing STATUS FLAG
take_in_package HEX [lenL]  done answers [a, b, ..], for the entries
package_out L               length N HEX, the N bytes of the package
plain_run                   done [v, v, ..], for the 1,024 settings
start_values                done [v, v, ..], the value that each setting starts at
tables                      the tables, one line of JSON
load FILE                   done; FILE has tables as `tables` prints them

TS is a timestamp, S a setting, by its number or by its name, as in port 2 power, HEX
bytes as pairs of hexadecimal digits, or - for none; `package --help` has programs in
words. VERSION is 0 unless it is given; a program of version 1 may read and write
again what it has written. PLACE is that of the instruction that broke off, counted
from 0. P is 4 x the console of a change, the lowest 8 bits of its TS, + 0 ran, 1
stood, 2 cleared, 3 faulted; T is the number of such turns. With lenL a slice of L
zeros is lent, to drain instead of 1,024, to take_in_package instead of 512;
package_out is lent L zeros. Empty lines and lines that start with # are passed
over.

A line that cannot be read ends the run with a message and exit status 1, wrong
arguments with status 2.
"#;

/// What the arguments ask for.
enum Command {
    Help,
    Run {
        options: Options,
        file: Option<OsString>,
    },
}

fn main() -> ExitCode {
    match command(env::args_os().skip(1)) {
        Ok(Command::Help) => {
            let mut output = io::stdout();
            let printed = write!(output, "{USAGE}\n{HELP}").and_then(|()| output.flush());
            end(printed.map_err(Stop::Output), "")
        }
        Ok(Command::Run {
            options,
            file: None,
        }) => {
            let ended = calls::run(options, io::stdin().lock(), io::stdout().lock());
            end(ended, "")
        }
        Ok(Command::Run {
            options,
            file: Some(file),
        }) => {
            let name = file.display();
            match File::open(&file) {
                Ok(input) => {
                    let ended = calls::run(options, BufReader::new(input), io::stdout().lock());
                    end(ended, &format!("{name}: "))
                }
                Err(error) => {
                    say(&format!("{name}: {error}"));
                    ExitCode::from(2)
                }
            }
        }
        Err(mistake) => {
            say(&format!("{mistake}\n{USAGE}"));
            ExitCode::from(2)
        }
    }
}

/// What the arguments ask for, or what is wrong with them.
fn command(mut arguments: impl Iterator<Item = OsString>) -> Result<Command, String> {
    let (mut n, mut explain, mut file) = (None, false, None);
    while let Some(argument) = arguments.next() {
        if argument == "--help" {
            return Ok(Command::Help);
        } else if argument == "--n" {
            let number = arguments.next().ok_or("--n needs a number")?;
            let capacity = capacity(&number);
            let capacity = capacity.ok_or(format!("--n {}: not a capacity", number.display()))?;
            if n.replace(capacity).is_some() {
                return Err("--n is given twice".to_string());
            }
        } else if argument == "--explain" {
            if mem::replace(&mut explain, true) {
                return Err("--explain is given twice".to_string());
            }
        } else if argument.as_encoded_bytes().starts_with(b"-") {
            return Err(format!("there is no option {}", argument.display()));
        } else if let Some(first) = file.replace(argument) {
            return Err(format!("{} is not the only file", first.display()));
        }
    }
    let n = n.unwrap_or(CAPACITY);
    let options = Options { n, explain };
    Ok(Command::Run { options, file })
}

/// A number in decimal digits alone.
fn capacity(number: &OsString) -> Option<usize> {
    let number = number.to_str()?;
    let digits = number.bytes().all(|byte| byte.is_ascii_digit());
    digits.then(|| number.parse().ok())?
}

/// The exit status for the end of a run, with a message where it did not go through. `script` comes
/// before the number of a line. Who closes the output has seen enough and gets no message.
fn end(ended: Result<(), Stop>, script: &str) -> ExitCode {
    match ended {
        Ok(()) => return ExitCode::SUCCESS,
        Err(stop @ Stop::Line { .. }) => say(&format!("{script}{stop}")),
        Err(Stop::Output(error)) if error.kind() == io::ErrorKind::BrokenPipe => {}
        Err(stop @ Stop::Output(_)) => say(&stop.to_string()),
    }
    ExitCode::FAILURE
}

/// Writes to standard error. Where that fails there is nobody to tell.
fn say(message: &str) {
    let _ = writeln!(io::stderr(), "{message}");
}
