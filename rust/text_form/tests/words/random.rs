//! Random programs and packages through words to the same bytes, and any bytes as input.

use crate::{listing, read_program};
use comparison::generate::packages::{self, Breach};
use comparison::generate::{self, Random, Style};
use comparison::seeds::count_reached;
use outside::package::{entries, lay_out, Entry};
use outside::program::{check, Malformed};
use text_form::program::instructions;
use text_form::{Error, InWords, Package};

/// How many programs, and how many packages, go through words.
const INPUTS: usize = 10_000;

/// How many inputs are damaged texts, and how many random bytes.
const ANY_BYTES: usize = 20_000;

/// How many lines are damaged.
const DAMAGED_LINES: usize = 200_000;

/// What the random tests are to reach.
#[derive(Clone, Copy, Debug, PartialEq, Eq, PartialOrd, Ord)]
enum Event {
    /// A program of no instructions, and of 32.
    Empty,
    Full,
    /// A program, and an instruction of one, that is refused.
    Refused,
    RefusedInstruction,
    /// A package whose programs are well formed, and one with programs that are not.
    WellFormed,
    Malformed,
    /// A package that breaks its layout so.
    Broken(Breach),
    /// A text, or bytes, that can be read, and that cannot.
    Read,
    NotRead,
}

const STYLES: [Style; 5] = [
    Style::MANY_SETTINGS,
    Style::FEW_SETTINGS,
    Style::INDEXED,
    Style::ACCESSES,
    Style::ARITHMETIC,
];

fn some_program(random: &mut Random) -> Vec<u8> {
    let style = &STYLES[random.below(STYLES.len())];
    let count = match random.below(8) {
        0 => 0,
        1 => 32,
        _ => random.below(33),
    };
    generate::program(random, style, count)
}

/// The instructions of a program of whole instructions.
fn whole(program: &[u8]) -> &[[u8; 8]] {
    let (instructions, []) = program.as_chunks() else {
        panic!("{program:?} has part of an instruction");
    };
    instructions
}

#[test]
fn programs_through_words_are_the_same() {
    let reached = count_reached(INPUTS, |random, _, reached| {
        let program = some_program(random);
        let program = whole(&program);
        let text = listing(program);
        assert_eq!(read_program(&text).as_deref(), Ok(program), "{text}");
        reached.count_if(program.is_empty(), Event::Empty);
        reached.count_if(program.len() == 32, Event::Full);
    });
    for event in [Event::Empty, Event::Full] {
        reached.assert_at_least(INPUTS / 20, event);
    }
}

/// The instructions that are told to be wrong are those for which the program is refused.
#[test]
fn the_outside_refuses_the_same_programs() {
    let reached = count_reached(INPUTS, |random, _, reached| {
        let mut program = some_program(random);
        generate::damage(random, &mut program);
        program.truncate(256);
        program.truncate(program.len() / 8 * 8);
        let wrong = instructions(whole(&program)).filter(Result::is_err).count();
        let refused = match check(0, &program) {
            Ok(_) => false,
            Err(Malformed::Instruction) => true,
            Err(other) => panic!("{other:?} of {program:?}"),
        };
        assert_eq!(wrong > 0, refused, "{program:?}");
        reached.count_if(refused, Event::Refused);
        // Each by itself: the others stop the run, so that only this one may be wrong.
        let (stops, count) = (vec![0; program.len()], program.len() / 8);
        for place in 0..count {
            let mut alone = stops.clone();
            let bytes = 8 * place..8 * place + 8;
            alone[bytes.clone()].copy_from_slice(&program[bytes]);
            let told = instructions(whole(&program)).nth(place);
            let told = told.is_some_and(|instruction| instruction.is_err());
            assert_eq!(check(0, &alone).is_err(), told, "{place} of {program:?}");
            reached.count_if(told, Event::RefusedInstruction);
        }
    });
    for event in [Event::Refused, Event::RefusedInstruction] {
        reached.assert_at_least(INPUTS / 20, event);
    }
}

/// Takes a package through words.
fn through_words(bytes: &[u8]) -> Result<Vec<u8>, Error> {
    let package = Package::from_bytes(bytes).expect("the layout is right");
    assert_eq!(package.to_bytes(), bytes);
    let again = Package::from_text(package.to_string().as_bytes());
    again.map(|package| package.to_bytes())
}

/// Leaves the programs out that are refused.
fn leave_out_refused(entries: &mut [Entry]) -> bool {
    let mut refused = false;
    for entry in entries {
        if let Entry::Change { program, .. } = entry {
            if check(0, program).is_err() {
                program.clear();
                refused = true;
            }
        }
    }
    refused
}

#[test]
fn packages_through_words_are_the_same() {
    let reached = count_reached(INPUTS, |random, _, reached| {
        let mut entries = packages::entries(random, &[], 0);
        let bytes = lay_out(&entries);
        if leave_out_refused(&mut entries) {
            let error = through_words(&bytes).expect_err("a program is refused");
            assert_eq!(error.found, "\"refused\"", "{bytes:?}");
            reached.count(Event::Malformed);
        }
        let bytes = lay_out(&entries);
        assert_eq!(through_words(&bytes).as_ref(), Ok(&bytes));
        reached.count(Event::WellFormed);
    });
    reached.assert_at_least(INPUTS, Event::WellFormed);
    reached.assert_at_least(INPUTS / 20, Event::Malformed);
}

/// Packages are broken where the outside implementation finds them so.
#[test]
fn the_outside_refuses_the_same_packages() {
    let inputs = 100 * Breach::ALL.len();
    let reached = count_reached(inputs, |random, index, reached| {
        let breach = Breach::ALL[index % Breach::ALL.len()];
        let mut bytes = lay_out(&packages::entries(random, &[], 0));
        if breach.make(random, &mut bytes).is_none() {
            return;
        }
        assert_eq!(entries(&bytes), None);
        let broken = Package::from_bytes(&bytes).expect_err("it breaks the layout");
        assert!(broken.byte <= bytes.len(), "{broken} of {bytes:?}");
        reached.count(Event::Broken(breach));
    });
    for breach in Breach::ALL {
        reached.assert_at_least(40, Event::Broken(breach));
    }
}

/// The error stands at a line of the text, at a column of it or just behind it.
fn assert_place(error: &Error, text: &[u8]) {
    let lines: Vec<&[u8]> = text.split(|&byte| byte == b'\n').collect();
    let line = lines[error.line - 1];
    assert!((1..=line.len() + 1).contains(&error.column), "{error}");
}

/// Reads any bytes as words. What can be read goes through words to the same package.
fn read_words(text: &[u8]) -> Event {
    match Package::from_text(text) {
        Ok(package) => {
            let shown = package.to_string();
            assert_eq!(Package::from_text(shown.as_bytes()), Ok(package));
            Event::Read
        }
        Err(error) => {
            assert_place(&error, text);
            Event::NotRead
        }
    }
}

const PIECES: [&str; 42] = [
    "change",
    "withdraw",
    "version",
    "stop",
    "skip",
    "to",
    "if",
    "setting",
    "port",
    "field",
    "mask",
    "vlan",
    "power",
    "ones",
    "and",
    "or",
    "xor",
    "r0",
    "r7",
    "r8",
    "0",
    "1",
    "2",
    "7",
    "8",
    "15",
    "16",
    "31",
    "32",
    "63",
    "64",
    "1023",
    "1024",
    "4294967296",
    "=",
    "<",
    "+",
    "-",
    "/",
    "^",
    ":",
    "\u{1F50C}",
];

/// A text of words that may come in a package, in any order.
fn shuffled_words(random: &mut Random) -> String {
    let mut text = String::new();
    if random.below(4) > 0 {
        text += "change 1\n";
    }
    for _ in 0..random.below(40) {
        text += random.pick(&PIECES);
        text += random.pick(&[" ", " ", " ", "", "\n", "\n", "#", "\t", "\r\n"]);
    }
    text
}

/// A right text in which some bytes are altered.
fn damaged_words(random: &mut Random) -> Vec<u8> {
    let program = some_program(random);
    let mut text = format!("change 30\n{}withdraw 15\n", listing(whole(&program))).into_bytes();
    let times = 1 + random.below(3);
    generate::damage_text(random, &mut text, times, b"019r=+-/^<:# \ntx\xC3");
    text
}

/// A line without its comment, its blanks and the leading zeros of its numbers.
fn without_blanks(line: &str) -> String {
    let (line, _comment) = line.split_once('#').unwrap_or((line, ""));
    let mut left = String::new();
    for character in line.chars().filter(|character| !character.is_whitespace()) {
        let digits = left.bytes().rev().take_while(u8::is_ascii_digit).count();
        if character.is_ascii_digit() && &left[left.len() - digits..] == "0" {
            left.pop();
        }
        left.push(character);
    }
    left
}

/// What a damaged line is read as says what the line says, sign for sign. A setting has more names than
/// one, and 0 may have a sign: these are passed over.
#[test]
fn no_part_of_a_line_is_passed_over() {
    let reached = count_reached(DAMAGED_LINES, |random, _, reached| {
        let style = &STYLES[random.below(STYLES.len())];
        let program = generate::program(random, style, 32);
        let instruction = instructions(whole(&program)).nth(random.below(32));
        let words = InWords(instruction.expect("there is one").expect("it is right"));
        let mut line = words.to_string().into_bytes();
        generate::damage_text(random, &mut line, 1, b"07r=+-/^<");
        let Ok(line) = String::from_utf8(line) else {
            return;
        };
        let line = line.replace('\n', " ");
        let read = read_program(&(line.clone() + "\nstop".repeat(31).as_str())).ok();
        // A line that is a comment now has no instruction.
        let read = read.filter(|program| program.len() == 32);
        let read = read.and_then(|program| instructions(&program).next());
        reached.count(match read {
            None => Event::NotRead,
            Some(read) => {
                let read = InWords(read.expect("what is read is right")).to_string();
                if !read.contains("port") && !read.ends_with("= 0") {
                    assert_eq!(without_blanks(&line), without_blanks(&read), "{line:?}");
                }
                Event::Read
            }
        });
    });
    for event in [Event::Read, Event::NotRead] {
        reached.assert_at_least(DAMAGED_LINES / 20, event);
    }
}

fn any_bytes(random: &mut Random, most: usize) -> Vec<u8> {
    let count = random.below(most);
    (0..count).map(|_| random.bits() as u8).collect()
}

#[test]
fn any_bytes_as_words_are_read_or_an_error() {
    let reached = count_reached(ANY_BYTES, |random, _, reached| {
        let text = match random.below(8) {
            0 => any_bytes(random, 300),
            1..4 => shuffled_words(random).into_bytes(),
            _ => damaged_words(random),
        };
        reached.count(read_words(&text));
    });
    for event in [Event::Read, Event::NotRead] {
        reached.assert_at_least(ANY_BYTES / 40, event);
    }
}

#[test]
fn any_bytes_as_a_package_are_read_or_broken() {
    let reached = count_reached(ANY_BYTES, |random, _, reached| {
        let mut bytes = match random.below(4) {
            0 => any_bytes(random, 300),
            _ => lay_out(&packages::entries(random, &[], 0)),
        };
        for _ in 0..random.below(3) {
            if !bytes.is_empty() {
                let place = random.below(bytes.len().min(40));
                bytes[place] = random.pick(&[0, 1, 2, 32, 33, 255]);
            }
        }
        let package = Package::from_bytes(&bytes);
        assert_eq!(package.is_ok(), entries(&bytes).is_some(), "{bytes:?}");
        reached.count(match package {
            Ok(package) => {
                assert_eq!(package.to_bytes(), bytes);
                let shown = package.to_string();
                let refused = Package::from_text(shown.as_bytes()).is_err();
                let mistake = package.mistakes().next();
                assert_eq!(refused, mistake.is_some(), "{shown}");
                Event::Read
            }
            Err(broken) => {
                assert!(broken.byte <= bytes.len(), "{broken} of {bytes:?}");
                Event::NotRead
            }
        });
    });
    for event in [Event::Read, Event::NotRead] {
        reached.assert_at_least(ANY_BYTES / 20, event);
    }
}
