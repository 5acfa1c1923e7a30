//! The program `cabinet` against the outside implementation's listing.

use comparison::generate::packages::{self, Breach};
use comparison::generate::scripts::Source;
use comparison::seeds::with_seeds;
use outside::cabinet::{listing, CAPACITY};
use outside::package::{lay_out, Entry, MAX_BYTES};
use outside::program::{op, Instruction, Version};
use std::io::Write;
use std::process::{Command, Stdio};
use std::thread;
use std::time::Duration;

/// How many random packages the program is run on.
const PACKAGES: usize = 200;

/// What the program writes to standard output where its input comes in pieces of so many bytes, with
/// a pause before each.
fn run(input: &[u8], piece: usize, pause: Duration) -> String {
    let mut child = Command::new(env!("CABINET"))
        .stdin(Stdio::piped())
        .stdout(Stdio::piped())
        .spawn()
        .expect("the program starts");
    let mut stdin = child.stdin.take().expect("its input is piped");
    for piece in input.chunks(piece) {
        thread::sleep(pause);
        // The program may end before it has read all of an input that is too long.
        if stdin.write_all(piece).is_err() {
            break;
        }
    }
    drop(stdin);
    let output = child.wait_with_output().expect("the program ends");
    assert!(output.status.success(), "{}", output.status);
    String::from_utf8(output.stdout).expect("it writes ASCII")
}

#[track_caller]
fn assert_listed(input: &[u8]) -> String {
    let expected = listing(input);
    let written = run(input, input.len().max(1), Duration::ZERO);
    assert!(written == expected, "{written}instead of\n{expected}");
    written
}

/// An operation with its number, and a write of register 0.
fn program(first: u8, n: i32, setting: i32) -> Vec<u8> {
    let parts = [(first, n), (op::WRITE, setting)];
    let instruction = |(op, n)| Instruction {
        op,
        n,
        ..Instruction::default()
    };
    parts
        .map(instruction)
        .iter()
        .flat_map(|i| i.to_bytes())
        .collect()
}

/// Document 01's package of 70 bytes.
fn package_of_70_bytes() -> Vec<u8> {
    lay_out(&[
        Entry::Change {
            timestamp: 20,
            version: Version::Zero,
            program: program(op::READ, 34, 50),
        },
        Entry::Change {
            timestamp: 10,
            version: Version::Zero,
            program: program(op::CONSTANT, 7, 34),
        },
        Entry::Withdrawal { timestamp: 15 },
    ])
}

#[test]
fn the_70_bytes_are_listed_as_in_document_01() {
    let package = package_of_70_bytes();
    assert_eq!(package.len(), 70);
    let expected = "\
entry 0 taken
entry 1 taken
entry 2 refused 10
turn 10 ran
turn 20 ran
setting 34 7
setting 50 7
";
    assert_eq!(assert_listed(&package), expected);
}

/// The pause lets the program read a piece before the next one comes; the answer is the same
/// without.
#[test]
fn input_may_come_in_pieces() {
    let package = package_of_70_bytes();
    for piece in [1, 2, 13, 69] {
        let pause = Duration::from_millis(5);
        assert_eq!(run(&package, piece, pause), listing(&package), "{piece}");
    }
}

#[test]
fn random_packages_are_listed() {
    let [turns, faulted, cleared, settings, untagged, full] = with_seeds(|random, share| {
        let [mut turns, mut faulted, mut cleared] = [0; 3];
        let [mut settings, mut untagged, mut full] = [0; 3];
        for index in 0..share.of(PACKAGES) {
            let mut entries = packages::entries(random, &[], 0);
            if index % 2 == 0 {
                // Programs that read and write the same settings.
                let source = Source::new(random, CAPACITY);
                for entry in &mut entries {
                    if let Entry::Change {
                        version, program, ..
                    } = entry
                    {
                        *program = source.program(random, *version);
                    }
                }
            }
            let written = assert_listed(&lay_out(&entries));
            let lines = |text: &str| written.lines().filter(|line| line.contains(text)).count();
            turns += lines(" ran");
            faulted += lines(" faulted ");
            cleared += lines(" cleared");
            settings += lines("setting ");
            untagged += written.lines().filter(|line| is_untagged_0(line)).count();
            full += lines(" refused 9");
        }
        [turns, faulted, cleared, settings, untagged, full]
    });
    println!("{turns} ran, {faulted} faulted, {cleared} cleared");
    println!("{settings} settings, {untagged} untagged VLANs at 0, {full} refused 9");
    for count in [turns, faulted, cleared, settings, full] {
        assert!(count >= PACKAGES / 4, "{count}");
    }
    assert!(untagged >= PACKAGES / 20, "{untagged}");
}

/// Whether a line lists a setting of field 2 at 0, where it does not start.
fn is_untagged_0(line: &str) -> bool {
    let words: Vec<&str> = line.split(' ').collect();
    let ["setting", setting, "0"] = words[..] else {
        return false;
    };
    let setting: usize = setting.parse().expect("it is a number");
    setting % 16 == 2
}

/// "`turn 10 faulted 2` where the third instruction broke off" (document 02, R-2), and other places.
#[test]
fn turns_that_fault_are_listed_with_the_place() {
    let set = |count: i32| (0..count).flat_map(|index| program(op::CONSTANT, index, 100 + index));
    let entries = [
        (u64::MAX - 1, set(1).chain(program(op::CONSTANT, 7, 100))),
        (13, set(15).chain(program(op::CONSTANT, 7, 114))),
        (12, set(5).chain(program(op::READ, 104, 200))),
        (11, set(3).chain(program(op::READ, 300, 301))),
        (10, set(1).chain(program(op::READ, 100, 200))),
    ];
    let mut entries = entries.map(|(timestamp, program)| Entry::Change {
        timestamp,
        version: Version::Zero,
        program: program.collect(),
    });
    let expected = "\
entry 0 taken
entry 1 taken
entry 2 taken
entry 3 taken
entry 4 taken
turn 10 faulted 2
turn 11 ran
turn 12 faulted 10
turn 13 faulted 31
turn 18446744073709551614 faulted 3
setting 101 1
setting 102 2
";
    assert_eq!(assert_listed(&lay_out(&entries)), expected);

    // The same by version 1, but for 12.
    for (index, entry) in entries.iter_mut().enumerate() {
        if let (Entry::Change { version, .. }, 0 | 1 | 3 | 4) = (entry, index) {
            *version = Version::One;
        }
    }
    let expected = "\
entry 0 taken
entry 1 taken
entry 2 taken
entry 3 taken
entry 4 taken
turn 10 ran
turn 11 ran
turn 12 faulted 10
turn 13 ran
turn 18446744073709551614 ran
setting 100 7
setting 101 1
setting 102 2
setting 103 3
setting 104 4
setting 105 5
setting 106 6
setting 107 7
setting 108 8
setting 109 9
setting 110 10
setting 111 11
setting 112 12
setting 113 13
setting 114 7
";
    assert_eq!(assert_listed(&lay_out(&entries)), expected);
}

/// Settings at 0 and at 1, which some start at.
#[test]
fn settings_that_differ_from_their_start_are_listed() {
    let set = |value, setting| program(op::CONSTANT, value, setting);
    let program = [set(0, 2), set(0, 3), set(1, 18), set(1, 19), set(-1, 1010)].concat();
    let package = lay_out(&[Entry::Change {
        timestamp: 10,
        version: Version::Zero,
        program,
    }]);
    let written = assert_listed(&package);
    let settings: Vec<&str> = written.lines().skip(2).collect();
    assert_eq!(settings, ["setting 2 0", "setting 19 1", "setting 1010 -1"]);
}

/// Packages with a breach of the layout, and with bytes changed, which may keep it.
#[test]
fn damaged_packages_are_listed() {
    let [refused, kept] = with_seeds(|random, share| {
        let [mut refused, mut kept] = [0; 2];
        for index in 0..share.of(PACKAGES) {
            let mut package = lay_out(&packages::entries(random, &[], 0));
            if index % 2 == 0 {
                random.pick(&Breach::ALL).make(random, &mut package);
            } else {
                for _ in 0..=random.below(3) {
                    let place = random.below(package.len());
                    package[place] ^= 1 << random.below(8);
                }
            }
            match assert_listed(&package).as_str() {
                "package refused 3\n" => refused += 1,
                _ => kept += 1,
            }
        }
        [refused, kept]
    });
    println!("{refused} refused, {kept} of another layout");
    for count in [refused, kept] {
        assert!(count >= PACKAGES / 8, "{count}");
    }
}

#[test]
fn bad_packages_give_one_line() {
    with_seeds(|random, _| {
        for breach in Breach::ALL {
            let mut package = package_of_70_bytes();
            let made = breach.make(random, &mut package);
            assert_eq!(made, Some(()));
            assert_eq!(assert_listed(&package), "package refused 3\n", "{breach:?}");
        }
    });
    for length in [
        0,
        1,
        2,
        69,
        71,
        MAX_BYTES - 1,
        MAX_BYTES,
        MAX_BYTES + 1,
        200_000,
    ] {
        let mut package = package_of_70_bytes();
        package.resize(length, 0);
        assert_eq!(assert_listed(&package), "package refused 3\n", "{length}");
    }
}

/// Inputs of 65,534 bytes, which is the longest package, and of one byte more.
#[test]
fn the_longest_package_is_listed() {
    let change = |timestamp| Entry::Change {
        timestamp,
        version: Version::ALL[timestamp as usize % 2],
        program: vec![0; if timestamp == 245 { 128 } else { 256 }],
    };
    let mut package = lay_out(&(1..=245).map(change).collect::<Vec<_>>());
    assert_eq!(package.len(), MAX_BYTES - 1);
    let written = assert_listed(&package);
    assert!(written.contains("entry 244 refused 9\n"), "{written}");
    package.push(0);
    assert_eq!(assert_listed(&package), "package refused 3\n");
}

#[test]
fn a_package_of_no_entries_gives_nothing() {
    assert_eq!(assert_listed(&[0, 0]), "");
}
