//! The proved taking in of packages against the outside implementation.

use comparison::both::Both;
use comparison::generate::packages::{self, Breach};
use comparison::generate::{other_version, Random};
use comparison::seeds::{count_reached, with_seeds};
use outside::checker::TOTALS;
use outside::package::{
    entries, lay_out, Entry, ALREADY_HELD, ANSWERS, DONE, ENTRY_BYTES, MAX_BYTES, MAX_ENTRIES,
};
use outside::program::{Version, INSTRUCTION_BYTES, MAX_INSTRUCTIONS};
use outside::tables::{Tables, INFINITY};

/// How many random packages are taken in.
const PACKAGES: usize = 4_000;

/// How many packages are broken for each breach.
const BROKEN: usize = 200;

/// How many inputs are random bytes.
const RANDOM_BYTES: usize = 4_000;

/// What the tests with random packages are to reach.
#[derive(Clone, Copy, Debug, PartialEq, Eq, PartialOrd, Ord)]
enum Event {
    /// A package of no entries, of 1 to 511, and of 512.
    Empty,
    Some,
    All512,
    /// The answer of a change of this version.
    ChangeAnswered(Version, u8),
    WithdrawalAnswered(u8),
    /// A change that an earlier entry of the same package withdraws, or takes in, with the same
    /// version or with the other.
    WithdrawnInPackage,
    HeldInPackage,
    HeldWithOtherVersion,
    Broken(Breach),
    RandomGood,
    RandomBad,
}

/// Takes in a package and returns the answers, or the refusal.
fn take_in(random: &mut Random, both: &mut Both, package: &[u8]) -> Result<Vec<u8>, u8> {
    let mut answers = packages::answers(random, ANSWERS);
    both.take_in_package(package, &mut answers)
        .map(|()| answers)
}

/// A capacity: small ones, so that tables are often full, and one that takes in every package.
fn capacity(random: &mut Random) -> usize {
    match random.below(8) {
        0 => MAX_ENTRIES,
        1 => 128,
        _ => 1 + random.below(24),
    }
}

#[test]
fn random_packages_have_the_same_answers() {
    let reached = count_reached(PACKAGES, |random, _, reached| {
        let n = capacity(random);
        let mut both = Both::just_set_up(n);
        for _ in 0..3 {
            let held = both.tables().timestamps[..both.tables().held_count()].to_vec();
            let cutoff = both.tables().cutoff();
            let entries = packages::entries(random, &held, cutoff);
            let package = lay_out(&entries);
            let answers = take_in(random, &mut both, &package).expect("the layout is right");
            reached.count(match entries.len() {
                0 => Event::Empty,
                MAX_ENTRIES => Event::All512,
                _ => Event::Some,
            });
            for (index, (entry, &answer)) in entries.iter().zip(&answers).enumerate() {
                assert!(![6, 13].contains(&answer), "the layout rules out {answer}");
                let done_before = |done: &Entry| {
                    let earlier = entries[..index].iter().zip(&answers);
                    let mut earlier = earlier.filter(|(_, &answer)| answer == DONE);
                    earlier.any(|(earlier, _)| earlier == done)
                };
                match entry {
                    Entry::Change {
                        timestamp,
                        version,
                        program,
                    } => {
                        reached.count(Event::ChangeAnswered(*version, answer));
                        let held = answer == ALREADY_HELD && done_before(entry);
                        reached.count_if(held, Event::HeldInPackage);
                        let other = Entry::Change {
                            timestamp: *timestamp,
                            version: other_version(*version),
                            program: program.clone(),
                        };
                        let held = answer == 8 && done_before(&other);
                        reached.count_if(held, Event::HeldWithOtherVersion);
                    }
                    Entry::Withdrawal { .. } => {
                        reached.count(Event::WithdrawalAnswered(answer));
                        let withdrawn = answer == 11 && done_before(entry);
                        reached.count_if(withdrawn, Event::WithdrawnInPackage);
                    }
                }
            }
            if random.below(2) == 0 {
                assert!(both.drain(&mut [0; TOTALS]).is_ok());
                let stamps = &both.tables().timestamps[..both.tables().held_count()];
                if !stamps.is_empty() {
                    // One that is no infinity.
                    let timestamp = random.pick(stamps).saturating_add(1).min(INFINITY - 1);
                    assert_eq!(both.cutoff(timestamp), Ok(()));
                }
            }
        }
    });

    for event in [
        Event::Empty,
        Event::Some,
        Event::All512,
        Event::HeldInPackage,
        Event::HeldWithOtherVersion,
        Event::WithdrawnInPackage,
    ] {
        reached.assert_at_least(PACKAGES / 20, event);
    }
    for version in Version::ALL {
        for answer in [DONE, ALREADY_HELD, 4, 14, 7, 8, 9] {
            reached.assert_at_least(PACKAGES / 20, Event::ChangeAnswered(version, answer));
        }
    }
    for answer in [DONE, 4, 14, 10, 11] {
        reached.assert_at_least(PACKAGES / 20, Event::WithdrawalAnswered(answer));
    }
}

/// A random package with this breach.
fn broken(random: &mut Random, breach: Breach) -> Vec<u8> {
    loop {
        let mut package = lay_out(&packages::entries(random, &[], 0));
        if breach.make(random, &mut package).is_some() {
            return package;
        }
    }
}

#[test]
fn every_breach_of_layout_is_refused() {
    let reached = count_reached(BROKEN * Breach::ALL.len(), |random, index, reached| {
        let breach = Breach::ALL[index % Breach::ALL.len()];
        let mut both = Both::just_set_up(1 + random.below(16));
        let package = broken(random, breach);
        let answer = take_in(random, &mut both, &package);
        assert_eq!(answer, Err(3), "{breach:?} in {package:?}");
        reached.count(Event::Broken(breach));
    });
    for breach in Breach::ALL {
        reached.assert_at_least(BROKEN, Event::Broken(breach));
    }
}

/// Bytes that are most often 0, 1 or 2, so that some of them are packages.
#[test]
fn random_bytes_have_the_same_answers() {
    let reached = count_reached(RANDOM_BYTES, |random, _, reached| {
        let length = random.pick(&[0, 1, 2, 3, 13, 14, 15, 22, 26, 34]);
        let most = random.pick(&[1, 2, 3, 256]);
        let mut bytes: Vec<u8> = (0..length).map(|_| random.below(most) as u8).collect();
        if length > 2 && random.below(2) == 0 {
            bytes[..2].copy_from_slice(&[((length - 2) / ENTRY_BYTES) as u8, 0]);
        }
        let answer = take_in(random, &mut Both::just_set_up(4), &bytes);
        reached.count(match answer {
            Ok(_) => Event::RandomGood,
            Err(_) => Event::RandomBad,
        });
    });
    reached.assert_at_least(RANDOM_BYTES / 20, Event::RandomGood);
    reached.assert_at_least(RANDOM_BYTES / 4, Event::RandomBad);
}

/// A package of so many changes with the instructions shared out from the first on.
fn sized(count: usize, instructions: usize) -> Vec<u8> {
    let change = |index: usize| {
        let rest = instructions.saturating_sub(MAX_INSTRUCTIONS * index);
        Entry::Change {
            timestamp: 1 + index as u64,
            version: Version::ALL[index % 2],
            program: vec![0; INSTRUCTION_BYTES * rest.min(MAX_INSTRUCTIONS)],
        }
    };
    lay_out(&(0..count).map(change).collect::<Vec<_>>())
}

#[test]
fn packages_at_the_bounds_have_the_same_answers() {
    // 2 + 12 × 245 + 8 × 7,824 = 65,534.
    let longest = sized(245, 7_824);
    assert_eq!(longest.len(), MAX_BYTES - 1);
    let mut packages = vec![
        longest.clone(),
        sized(245, 7_825),
        sized(MAX_ENTRIES + 1, 0),
    ];
    for length in [MAX_BYTES - 2, MAX_BYTES, MAX_BYTES + 1, 2 * MAX_BYTES] {
        let mut other = longest.clone();
        other.resize(length, 0);
        packages.push(other);
    }
    for count in [0, 1, 255, 256, 257, MAX_ENTRIES - 1, MAX_ENTRIES] {
        let good = sized(count, 3.min(MAX_INSTRUCTIONS * count));
        packages.push(good[..good.len() - 1].to_vec());
        packages.push([&good[..], &[0]].concat());
        packages.push(good);
    }
    packages.extend([vec![], vec![0], vec![1], vec![0, 0], vec![0, 0, 0]]);
    let good = with_seeds(|random, _| {
        let mut good = 0;
        for package in &packages {
            let expected = entries(package).map(|entries| entries.len());
            good += usize::from(expected.is_some());
            let mut both = Both::just_set_up(MAX_ENTRIES);
            match take_in(random, &mut both, package) {
                Ok(_) => assert_eq!(expected, Some(both.tables().held_count())),
                Err(refusal) => assert_eq!((expected, refusal), (None, 3)),
            }
        }
        good
    });
    assert_eq!(good, 1 + 7 + 1);
}

/// A package of three changes, of which the first and the last have version 0, and a withdrawal.
fn of_four_entries() -> Vec<u8> {
    let change = |timestamp, version, instructions| Entry::Change {
        timestamp,
        version,
        program: vec![0; INSTRUCTION_BYTES * instructions],
    };
    lay_out(&[
        change(20, Version::Zero, 2),
        Entry::Withdrawal { timestamp: 20 },
        change(INFINITY - 1, Version::One, 1),
        change(1, Version::Zero, 0),
    ])
}

/// Every byte as the version of each entry: 0 and 1 for a change, which is held with it, 0 for a
/// withdrawal, and no other.
#[test]
fn every_version_of_an_entry_has_the_same_answers() {
    with_seeds(|random, _| {
        for entry in 0..4 {
            for byte in 0..=255 {
                let mut package = of_four_entries();
                package[2 + ENTRY_BYTES * entry + 10] = byte;
                let mut both = Both::just_set_up(4);
                let answer = take_in(random, &mut both, &package);
                let right = byte == 0 || (byte == 1 && entry != 1);
                if !right {
                    assert_eq!(answer, Err(3), "{byte} for entry {entry}");
                    continue;
                }
                let answers = answer.expect("the layout is right");
                assert_eq!(answers[..4], [DONE; 4]);
                let mut versions = [0, 0, 1, 0];
                versions[entry] = u16::from(byte);
                let [first, _, second, third] = versions;
                assert_eq!(both.tables().versions, [first, second, third, 0]);
                assert_eq!(both.tables().withdrawn, [1, 0, 0, 0]);
                let written = both.package_out(MAX_BYTES);
                let again = entries(&written.expect("it is short")).expect("it is a package");
                let versions = again.iter().filter_map(|entry| match entry {
                    Entry::Change { version, .. } => Some(version.number()),
                    Entry::Withdrawal { .. } => None,
                });
                // By timestamp.
                assert!(versions.eq([third, first, second]));
            }
        }
    });
}

/// Every byte as the last one of each entry: 0 and no other.
#[test]
fn the_last_byte_of_an_entry_is_0() {
    with_seeds(|random, _| {
        for entry in 0..4 {
            for byte in 0..=255 {
                let mut package = of_four_entries();
                package[2 + ENTRY_BYTES * entry + 11] = byte;
                let answer = take_in(random, &mut Both::just_set_up(4), &package);
                assert_eq!(answer.err(), (byte > 0).then_some(3), "{byte}");
            }
        }
    });
}

/// The byte at each place of a package set to each of these.
#[test]
fn every_byte_changed_has_the_same_answers() {
    let package = of_four_entries();
    with_seeds(|random, _| {
        for index in 0..package.len() {
            for byte in [0, 1, 2, 3, 4, 31, 32, 33, 64, 128, 254, 255] {
                let mut changed = package.clone();
                changed[index] = byte;
                let mut both = Both::new(4, Tables::new(4));
                let answer = take_in(random, &mut both, &changed);
                assert!(matches!(answer, Ok(_) | Err(3)), "{answer:?}");
            }
        }
    });
}
