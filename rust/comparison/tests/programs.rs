//! The proved interpreter against the outside implementation, on programs.

use comparison::own_writes::{self, OwnWrite};
use comparison::reached::Reached;
use comparison::seeds::count_reached;
use comparison::{agree, generate, proved};
use generate::{Random, Style, EXTREMES, NO_VERSIONS};
use outside::program::{
    self, op, Access, Fault, Instruction, Malformed, Outcome, Version, INSTRUCTION_BYTES,
    MAX_INSTRUCTIONS, SETTINGS,
};

/// How many programs are run on the same values.
const PROGRAMS_TO_VALUES: usize = 64;

/// How many random programs are compared.
const PROGRAMS: usize = 4_700 * PROGRAMS_TO_VALUES;

/// The refusal of a program of this version by both, or 0.
#[track_caller]
fn compare_form_of(version: u16, program: &[u8]) -> u8 {
    let outside = program::check(version, program).map_or_else(Malformed::refusal, |_| 0);
    let proved = proved::refusal(version, program);
    assert!(
        proved == outside,
        "proved {proved}, outside {outside} of version {version} and {} bytes: {:#?}",
        program.len(),
        listing(program),
    );
    outside
}

/// The refusal of a program by both, or 0, which is the same with both versions.
#[track_caller]
fn compare_form(program: &[u8]) -> u8 {
    let [refusal, of_1] = [0, 1].map(|version| compare_form_of(version, program));
    assert_eq!(refusal, of_1, "{:#?}", listing(program));
    refusal
}

/// Storage for the runs of both, which keeps what earlier runs left there.
struct Runs {
    proved: proved::Outcome,
    outside: Outcome,
    /// The places that the last run visited.
    places: Vec<usize>,
}

impl Runs {
    fn new() -> Self {
        Self {
            proved: proved::Outcome::EMPTY,
            outside: Outcome::EMPTY,
            places: Vec::with_capacity(MAX_INSTRUCTIONS),
        }
    }

    /// The outcome of an accepted program by this version, by both.
    #[track_caller]
    fn compare_by(
        &mut self,
        version: Version,
        program: &[u8],
        values: &[i32; SETTINGS],
    ) -> &Outcome {
        let run = proved::run_into(version.number(), program, values, &mut self.proved);
        run.expect("the program is accepted");
        let places = &mut self.places;
        places.clear();
        program::run_visiting(version, program, values, &mut self.outside, |place, _| {
            places.push(place)
        });
        assert!(
            agree(&self.proved, &self.outside),
            "proved {:?}\noutside {:?}\nby version {version:?} of {:#?}",
            self.proved,
            self.outside,
            listing(program),
        );
        &self.outside
    }

    /// The outcomes of an accepted program by version 0 and by version 1, by both. They must be the
    /// same, unless the run comes to a setting that it has written. Here stays what version 0 gives.
    #[track_caller]
    fn compare_versions(&mut self, program: &[u8], values: &[i32; SETTINGS]) -> [Outcome; 2] {
        let by_1 = self.compare_by(Version::One, program, values).clone();
        let by_0 = self.compare_by(Version::Zero, program, values).clone();
        if !is_of_own_write(&by_0) {
            assert_eq!(by_1, by_0, "{:#?}", listing(program));
        }
        [by_0, by_1]
    }

    /// The same, of which version 0 gives this one.
    #[track_caller]
    fn compare(&mut self, program: &[u8], values: &[i32; SETTINGS]) -> &Outcome {
        self.compare_versions(program, values);
        &self.outside
    }
}

/// Whether a run faults at a setting that it has written.
fn is_of_own_write(outcome: &Outcome) -> bool {
    let fault = outcome.fault().map(|(fault, _)| fault);
    matches!(fault, Some(Fault::ReadOfWritten | Fault::WrittenTwice))
}

fn listing(program: &[u8]) -> Vec<Instruction> {
    let (instructions, _) = program.as_chunks();
    instructions
        .iter()
        .map(|&bytes| Instruction::from_bytes(bytes))
        .collect()
}

fn assemble(instructions: &[Instruction]) -> Vec<u8> {
    instructions.iter().flat_map(|i| i.to_bytes()).collect()
}

/// What random programs are to reach.
#[derive(Clone, Copy, Debug, PartialEq, Eq, PartialOrd, Ord)]
enum Event {
    Accepted,
    AcceptedThoughDamaged,
    Refused(u8),
    /// An operation carried out or faulting.
    Executed(u8),
    /// A skip by more than 0, by operation: not taken, taken, and taken to the end.
    GoesOn(u8),
    Skips(u8),
    SkipsToEnd(u8),
    Completed,
    ReadAgain,
    ReadThenWritten,
    Reads32,
    Writes32,
    NoSuchSettingBy(u8),
    ReadOfWrittenBy(u8),
    WrittenTwiceBy(u8),
    ReadOfWrittenReadBefore,
    FaultedAfterReads,
    FaultedAtPlace31,
    /// By version 1, where version 0 faults at a setting that the run has written: it goes through,
    /// and does so, or it faults later, by this operation.
    CompletedBy1,
    OwnWrite(OwnWrite),
    FaultedLaterBy1(u8),
}

/// Counts what a run by version 1 shows, where version 0 faults at a setting that the run has
/// written.
fn count_run_by_1(
    reached: &mut Reached<Event>,
    program: &[u8],
    values: &[i32; SETTINGS],
    by_0: &Outcome,
    by_1: &Outcome,
) {
    if !is_of_own_write(by_0) {
        return;
    }
    let own_writes = own_writes::of_run(Version::One, program, values);
    let Some((fault, place)) = by_1.fault() else {
        reached.count(Event::CompletedBy1);
        for own_write in own_writes {
            reached.count(Event::OwnWrite(own_write));
        }
        return;
    };
    assert_eq!(fault, Fault::NoSuchSetting, "{:#?}", listing(program));
    let (_, place_by_0) = by_0.fault().expect("it faults");
    assert!(place > place_by_0, "{:#?}", listing(program));
    let (instructions, _) = program.as_chunks();
    let Instruction { op, .. } = Instruction::from_bytes(instructions[place]);
    reached.count(Event::FaultedLaterBy1(op));
}

/// Counts what the last run shows, which was by version 0.
fn count_run(reached: &mut Reached<Event>, program: &[u8], runs: &Runs) {
    let (instructions, _) = program.as_chunks();
    let at = |place: usize| Instruction::from_bytes(instructions[place]);
    let mut reads_executed = 0;
    for (index, &place) in runs.places.iter().enumerate() {
        let Instruction { op, n, .. } = at(place);
        reached.count(Event::Executed(op));
        if matches!(op, op::READ | op::READ_INDEXED) {
            reads_executed += 1;
        }
        if matches!(op, op::SKIP_IF_NEGATIVE..=op::SKIP) && n > 0 {
            reached.count(match runs.places.get(index + 1) {
                Some(&next) if next == place + 1 => Event::GoesOn(op),
                Some(_) => Event::Skips(op),
                None => Event::SkipsToEnd(op),
            });
        }
    }

    let (reads, writes) = (runs.outside.reads(), runs.outside.writes());
    let read = |setting| reads.iter().any(|read| read.setting == setting);
    reached.count_if(reads.len() == MAX_INSTRUCTIONS, Event::Reads32);
    reached.count_if(writes.len() == MAX_INSTRUCTIONS, Event::Writes32);
    let Some((fault, place)) = runs.outside.fault() else {
        reached.count(Event::Completed);
        reached.count_if(reads_executed > reads.len(), Event::ReadAgain);
        let then_written = writes.iter().any(|write| read(write.setting));
        reached.count_if(then_written, Event::ReadThenWritten);
        return;
    };
    let Instruction { op, n, .. } = at(place);
    reached.count(match fault {
        Fault::NoSuchSetting => Event::NoSuchSettingBy(op),
        Fault::ReadOfWritten => Event::ReadOfWrittenBy(op),
        Fault::WrittenTwice => Event::WrittenTwiceBy(op),
    });
    let read_before = fault == Fault::ReadOfWritten && op == op::READ && read(n as u16);
    reached.count_if(read_before, Event::ReadOfWrittenReadBefore);
    reached.count_if(!reads.is_empty(), Event::FaultedAfterReads);
    reached.count_if(place == MAX_INSTRUCTIONS - 1, Event::FaultedAtPlace31);
}

#[test]
fn random_programs_have_the_same_form_and_the_same_outcome() {
    let styles = [
        Style::MANY_SETTINGS,
        Style::MANY_SETTINGS,
        Style::FEW_SETTINGS,
        Style::INDEXED,
        Style::ACCESSES,
        Style {
            settings: 8,
            ..Style::ACCESSES
        },
        Style::OWN_WRITES,
        Style::READS,
        Style::WRITES,
        Style::ARITHMETIC,
    ];
    let reached = count_reached(PROGRAMS / PROGRAMS_TO_VALUES, |random, _, reached| {
        let values = generate::values(random);
        let mut runs = Runs::new();
        for _ in 0..PROGRAMS_TO_VALUES {
            let style = &styles[random.below(styles.len())];
            let count = match random.below(4) {
                0 => MAX_INSTRUCTIONS,
                1 => random.below(5),
                _ => random.below(MAX_INSTRUCTIONS + 1),
            };
            let mut program = generate::program(random, style, count);
            if random.below(2) == 0 {
                generate::reveal_registers(random, &mut program);
            }
            let damaged = random.below(4) == 0;
            if damaged {
                generate::damage(random, &mut program);
            }

            let refusal = compare_form(&program);
            assert!(damaged || refusal == 0, "{:#?}", listing(&program));
            reached.count(match refusal {
                0 if damaged => Event::AcceptedThoughDamaged,
                0 => Event::Accepted,
                refusal => Event::Refused(refusal),
            });
            if refusal == 0 {
                let [by_0, by_1] = runs.compare_versions(&program, &values);
                count_run_by_1(reached, &program, &values, &by_0, &by_1);
                count_run(reached, &program, &runs);
            }
            let no_version = generate::no_version(random);
            let refusal = match refusal {
                6 => 6,
                _ => 13,
            };
            assert_eq!(compare_form_of(no_version, &program), refusal);
        }
    });

    reached.assert_at_least(PROGRAMS / 2, Event::Accepted);
    reached.assert_at_least(PROGRAMS / 10, Event::Completed);
    reached.assert_at_least(PROGRAMS / 100, Event::AcceptedThoughDamaged);
    reached.assert_at_least(PROGRAMS / 100, Event::Refused(6));
    reached.assert_at_least(PROGRAMS / 100, Event::Refused(7));
    for op in 0..op::COUNT {
        reached.assert_at_least(PROGRAMS / 100, Event::Executed(op));
    }
    for event in [
        Event::GoesOn(op::SKIP_IF_NEGATIVE),
        Event::GoesOn(op::SKIP_IF_ZERO),
        Event::Skips(op::SKIP_IF_NEGATIVE),
        Event::Skips(op::SKIP_IF_ZERO),
        Event::Skips(op::SKIP),
        Event::SkipsToEnd(op::SKIP_IF_NEGATIVE),
        Event::SkipsToEnd(op::SKIP_IF_ZERO),
        Event::SkipsToEnd(op::SKIP),
        Event::ReadAgain,
        Event::ReadThenWritten,
        Event::NoSuchSettingBy(op::READ_INDEXED),
        Event::NoSuchSettingBy(op::WRITE_INDEXED),
        Event::ReadOfWrittenBy(op::READ),
        Event::ReadOfWrittenBy(op::READ_INDEXED),
        Event::WrittenTwiceBy(op::WRITE),
        Event::WrittenTwiceBy(op::WRITE_INDEXED),
        Event::ReadOfWrittenReadBefore,
        Event::FaultedAfterReads,
    ] {
        reached.assert_at_least(PROGRAMS / 1_000, event);
    }
    for event in [Event::Reads32, Event::Writes32, Event::FaultedAtPlace31] {
        reached.assert_at_least(PROGRAMS / 10_000, event);
    }
    reached.assert_at_least(PROGRAMS / 50, Event::CompletedBy1);
    for own_write in OwnWrite::ALL {
        reached.assert_at_least(PROGRAMS / 1_000, Event::OwnWrite(own_write));
    }
    for op in [op::READ_INDEXED, op::WRITE_INDEXED] {
        reached.assert_at_least(PROGRAMS / 1_000, Event::FaultedLaterBy1(op));
    }
}

/// Every operation and every number that is none, with each part right and just wrong, at the
/// start, in the middle and at the end of programs.
#[test]
fn every_instruction_at_the_bounds_has_the_same_form() {
    const BYTES: [u8; 6] = [0, 1, 7, 8, 128, 255];
    let mut accepted = [0; op::COUNT as usize];
    let mut refused = 0;
    for (count, place) in [(1, 0), (3, 1), (32, 0), (32, 31)] {
        let following = count - place - 1;
        let mut program = vec![0; INSTRUCTION_BYTES * count as usize];
        let mut numbers = vec![-1, 0, 1, 31, 32, 255, 256, 1023, 1024, i32::MIN, i32::MAX];
        numbers.extend([following - 1, following, following + 1]);
        numbers.sort_unstable();
        numbers.dedup();
        for op in (0..=op::COUNT + 1).chain([32, 64, 128, 255]) {
            for a in BYTES {
                for b in BYTES {
                    for c in BYTES {
                        for &n in &numbers {
                            let instruction = Instruction { op, a, b, c, n };
                            let (instructions, _) = program.as_chunks_mut();
                            instructions[place as usize] = instruction.to_bytes();
                            match compare_form(&program) {
                                0 => accepted[usize::from(op)] += 1,
                                7 => refused += 1,
                                refusal => panic!("refusal {refusal} of {instruction:?}"),
                            }
                        }
                    }
                }
            }
        }
    }
    println!("accepted by operation {accepted:?}, refused {refused}");
    assert!(accepted.iter().all(|&count| count > 0), "{accepted:?}");
    assert!(refused > 100_000, "{refused}");
}

/// Every length to 600 bytes, of stops, and of bytes that are refused 7 where the length is right;
/// both with versions that there are not, too.
#[test]
fn every_length_has_the_same_form() {
    for length in 0..=600 {
        let right = length <= 256 && length % 8 == 0;
        let (stops, malformed) = (vec![0; length], vec![255; length]);
        assert_eq!(compare_form(&stops), if right { 0 } else { 6 });
        if length > 0 {
            assert_eq!(compare_form(&malformed), if right { 7 } else { 6 });
        }
        for version in NO_VERSIONS {
            for program in [&stops, &malformed] {
                let refusal = compare_form_of(version, program);
                assert_eq!(refusal, if right { 13 } else { 6 }, "version {version}");
            }
        }
    }
}

/// All numbers of 16 bits as the version of a program that is right, and of one that is refused 7.
#[test]
fn every_version_has_the_same_form() {
    for version in 0..=u16::MAX {
        let none = version > 1;
        for length in [0, 8, 256] {
            let refusal = compare_form_of(version, &vec![0; length]);
            assert_eq!(refusal, if none { 13 } else { 0 }, "version {version}");
        }
        let refusal = compare_form_of(version, &[255; 8]);
        assert_eq!(refusal, if none { 13 } else { 7 }, "version {version}");
        assert_eq!(compare_form_of(version, &[0; 7]), 6, "version {version}");
    }
}

/// Operations 1 to 10 on all pairs of extreme numbers, and all skips on them.
#[test]
fn extreme_numbers_have_the_same_outcome() {
    let values = [0; SETTINGS];
    let mut runs = Runs::new();
    let mut compared = 0;
    for x in EXTREMES {
        for y in EXTREMES {
            let mut compare = |instruction: Instruction| {
                let constant = |a, n| Instruction {
                    op: op::CONSTANT,
                    a,
                    n,
                    ..Default::default()
                };
                let write = |a| Instruction {
                    op: op::WRITE,
                    a,
                    n: 34 + i32::from(a),
                    ..Default::default()
                };
                let program = [
                    constant(1, x),
                    constant(2, y),
                    instruction,
                    write(0),
                    write(1),
                    write(2),
                ];
                let outcome = runs.compare(&assemble(&program), &values);
                assert_eq!(outcome.fault(), None);
                assert!(!outcome.writes().is_empty());
                compared += 1;
            };
            for op in [op::ADD, op::SUBTRACT, op::AND, op::OR, op::XOR] {
                compare(Instruction {
                    op,
                    b: 1,
                    c: 2,
                    ..Default::default()
                });
            }
            for op in [op::MOVE, op::NEGATE, op::COUNT_ONES] {
                compare(Instruction {
                    op,
                    b: 1,
                    ..Default::default()
                });
            }
            for n in 0..32 {
                compare(Instruction {
                    op: op::SHIFT_RIGHT,
                    b: 1,
                    n,
                    ..Default::default()
                });
            }
            for op in [op::SKIP_IF_NEGATIVE, op::SKIP_IF_ZERO] {
                compare(Instruction {
                    op,
                    b: 1,
                    n: 1,
                    ..Default::default()
                });
            }
            compare(Instruction {
                op: op::CONSTANT,
                n: x,
                ..Default::default()
            });
            compare(Instruction {
                op: op::SKIP,
                n: 2,
                ..Default::default()
            });
        }
    }
    println!("compared {compared}");
}

/// Reads and writes by register of all settings and of numbers that name none.
#[test]
fn every_setting_has_the_same_outcome() {
    let values = generate::values(&mut Random::new(0));
    let mut runs = Runs::new();
    for number in (-2..=1025).chain(EXTREMES) {
        let named = (0..1024).contains(&number);
        let constant = Instruction {
            op: op::CONSTANT,
            a: 1,
            n: number,
            ..Default::default()
        };
        for op in [op::READ_INDEXED, op::WRITE_INDEXED] {
            let indexed = Instruction {
                op,
                a: 0,
                b: 1,
                ..Default::default()
            };
            let outcome = runs.compare(&assemble(&[constant, indexed]), &values);
            let fault = (!named).then_some((Fault::NoSuchSetting, 1));
            assert_eq!(outcome.fault(), fault);
        }
        for op in [op::READ, op::WRITE] {
            let direct = assemble(&[Instruction {
                op,
                a: 1,
                n: number,
                ..Default::default()
            }]);
            assert_eq!(compare_form(&direct), if named { 0 } else { 7 });
            if named {
                runs.compare(&direct, &values);
            }
        }
    }
}

/// Each fault after every number of reads, and of writes, that a program has room for.
#[test]
fn faults_after_full_lists_have_the_same_outcome() {
    // What is read names no setting.
    let values = [-1; SETTINGS];
    let access = |op, n| Instruction {
        op,
        n,
        ..Default::default()
    };
    let indexed = |op| Instruction {
        op,
        a: 1,
        ..Default::default()
    };
    let mut runs = Runs::new();
    let mut compare = |before: &[Instruction], faulting: &[Instruction], reads: i32, fault| {
        let program = [before, faulting].concat();
        let last = program.len() - 1;
        if last < MAX_INSTRUCTIONS {
            let outcome = runs.compare(&assemble(&program), &values);
            assert_eq!(outcome.reads().len(), reads as usize);
            assert_eq!(outcome.fault(), Some((fault, last)));
        }
    };
    for count in 1..MAX_INSTRUCTIONS as i32 {
        let reads: Vec<_> = (0..count).map(|i| access(op::READ, 33 * i)).collect();
        let writes: Vec<_> = (0..count).map(|i| access(op::WRITE, 33 * i)).collect();
        compare(
            &reads,
            &[indexed(op::READ_INDEXED)],
            count,
            Fault::NoSuchSetting,
        );
        compare(
            &reads,
            &[indexed(op::WRITE_INDEXED)],
            count,
            Fault::NoSuchSetting,
        );
        for n in [0, 33, 33 * (count - 1)] {
            let (read, write) = (access(op::READ, n), access(op::WRITE, n));
            compare(&reads, &[write, read], count, Fault::ReadOfWritten);
            compare(&reads, &[write, write], count, Fault::WrittenTwice);
            if n < 33 * count {
                compare(&writes, &[read], 0, Fault::ReadOfWritten);
                compare(&writes, &[write], 0, Fault::WrittenTwice);
            }
        }
    }
}

/// A setting written again and read back, at the first place of the write list, at the second and at
/// the last, after every number of writes that a program has room for; it was read before, or not.
#[test]
fn own_writes_in_full_lists_have_the_same_outcome() {
    let values = [5; SETTINGS];
    let access = |op, a, n| Instruction {
        op,
        a,
        n,
        ..Default::default()
    };
    let by_register = |op, a, b| Instruction {
        op,
        a,
        b,
        ..Default::default()
    };
    let mut runs = Runs::new();
    let mut compared = 0;
    for count in 1..MAX_INSTRUCTIONS as i32 {
        for place in [0, 1.min(count - 1), count - 1] {
            let setting = 33 * place;
            let named = access(op::CONSTANT, 3, setting);
            for (again, back) in [
                (access(op::WRITE, 1, setting), access(op::READ, 2, setting)),
                (
                    by_register(op::WRITE_INDEXED, 1, 3),
                    by_register(op::READ_INDEXED, 2, 3),
                ),
            ] {
                for read_before in [false, true] {
                    let mut program = vec![access(op::CONSTANT, 1, 9), named];
                    if read_before {
                        program.push(access(op::READ, 2, setting));
                    }
                    program.extend((0..count).map(|i| access(op::WRITE, 0, 33 * i)));
                    program.extend([again, back, access(op::WRITE, 2, 1023)]);
                    if program.len() > MAX_INSTRUCTIONS {
                        continue;
                    }
                    let program = assemble(&program);
                    let [by_0, by_1] = runs.compare_versions(&program, &values);
                    let fault = 2 + usize::from(read_before) + count as usize;
                    assert_eq!(by_0.fault(), Some((Fault::WrittenTwice, fault)));
                    assert_eq!(by_1.fault(), None);
                    let seen = (setting as u16, 5);
                    let reads: &[_] = if read_before { &[seen] } else { &[] };
                    assert_eq!(pairs(by_1.reads()), reads);
                    let written = |i| (33 * i as u16, if i == place { 9 } else { 0 });
                    let mut writes: Vec<(u16, i32)> = (0..count).map(written).collect();
                    writes.push((1023, 9));
                    assert_eq!(pairs(by_1.writes()), writes);
                    compared += 1;
                }
            }
        }
    }
    println!("compared {compared}");
    assert_eq!(compared, 3 * 2 * (27 + 26));
}

fn pairs(list: &[Access]) -> Vec<(u16, i32)> {
    list.iter().map(|x| (x.setting, x.value)).collect()
}

/// Every setting is written, read back and written again, by number and by register.
#[test]
fn own_writes_of_every_setting_have_the_same_outcome() {
    let values = generate::values(&mut Random::new(0));
    let mut runs = Runs::new();
    for setting in 0..SETTINGS as i32 {
        let access = |op, a| Instruction {
            op,
            a,
            n: setting,
            ..Default::default()
        };
        let by_register = |op, a| Instruction {
            op,
            a,
            b: 3,
            ..Default::default()
        };
        let [constant, named] = [access(op::CONSTANT, 1), access(op::CONSTANT, 3)];
        let ones = Instruction {
            op: op::COUNT_ONES,
            a: 1,
            b: 1,
            ..Default::default()
        };
        for (write, read) in [
            (access(op::WRITE, 1), access(op::READ, 2)),
            (
                by_register(op::WRITE_INDEXED, 1),
                by_register(op::READ_INDEXED, 2),
            ),
            (access(op::WRITE, 1), by_register(op::READ_INDEXED, 2)),
            (by_register(op::WRITE_INDEXED, 1), access(op::READ, 2)),
        ] {
            let program = [constant, named, write, read, ones, write, read];
            let [by_0, by_1] = runs.compare_versions(&assemble(&program), &values);
            assert_eq!(by_0.fault(), Some((Fault::ReadOfWritten, 3)));
            let written = (setting as u16, setting.count_ones() as i32);
            assert_eq!(pairs(by_1.writes()), [written]);
            assert_eq!((by_1.reads().len(), by_1.fault()), (0, None));
        }
    }
}

/// The four lists that a run is lent, of any lengths.
#[derive(Clone, Debug, PartialEq, Eq)]
struct Lent {
    read_settings: Vec<u16>,
    seen_values: Vec<i32>,
    write_settings: Vec<u16>,
    written_values: Vec<i32>,
}

impl Lent {
    /// Lists of these lengths, which hold any numbers.
    fn filled(random: &mut Random, lengths: [usize; 4]) -> Self {
        let [reads, seen, writes, written] = lengths;
        Self {
            read_settings: (0..reads).map(|_| random.bits() as u16).collect(),
            seen_values: (0..seen).map(|_| random.bits() as i32).collect(),
            write_settings: (0..writes).map(|_| random.bits() as u16).collect(),
            written_values: (0..written).map(|_| random.bits() as i32).collect(),
        }
    }

    /// The proved run by this version into these lists.
    fn run(&mut self, version: u16, program: &[u8], values: &[i32]) -> Result<u32, u8> {
        proved::run_lent(
            version,
            program,
            values,
            &mut self.read_settings,
            &mut self.seen_values,
            &mut self.write_settings,
            &mut self.written_values,
        )
    }

    /// Puts the lists of an outcome over the first entries.
    fn put(&mut self, outcome: &Outcome) {
        for (place, read) in outcome.reads().iter().enumerate() {
            self.read_settings[place] = read.setting;
            self.seen_values[place] = read.value;
        }
        for (place, write) in outcome.writes().iter().enumerate() {
            self.write_settings[place] = write.setting;
            self.written_values[place] = write.value;
        }
    }
}

/// The number of an outcome by the coding of the exported run.
fn number_of(outcome: &Outcome) -> u32 {
    let lengths = outcome.reads().len() + 64 * outcome.writes().len();
    let ending = outcome.fault().map_or(0, |(fault, place)| {
        let fault = match fault {
            Fault::NoSuchSetting => 1,
            Fault::ReadOfWritten => 2,
            Fault::WrittenTwice => 3,
        };
        4_096 * fault + 65_536 * place
    });
    (lengths + ending) as u32
}

/// Runs into lists of 32 slots that hold any numbers: of accepted programs the number and the first
/// entries are those of the outside, and what stands past them stays; of refused ones the refusal is
/// that of the outside, and all stays.
#[test]
fn lent_lists_hold_the_same_outcome_and_stay_past_it() {
    const RUNS: usize = 40_000;
    let reached = count_reached(RUNS, |random, _, reached| {
        let values = generate::values(random);
        let style = random.pick(&[&Style::FEW_SETTINGS, &Style::ACCESSES, &Style::WRITES]);
        let count = random.below(MAX_INSTRUCTIONS + 1);
        let mut program = generate::program(random, style, count);
        if random.below(3) == 0 {
            generate::damage(random, &mut program);
        }
        let version = match random.below(8) {
            0 => generate::no_version(random),
            _ => generate::version(random).number(),
        };
        let mut lent = Lent::filled(random, [MAX_INSTRUCTIONS; 4]);
        let mut expected = lent.clone();
        let answer = program::check(version, &program).map_or_else(
            |malformed| Err(malformed.refusal()),
            |version| {
                let outcome = program::run(version, &program, &values);
                expected.put(&outcome);
                let own_writes = own_writes::of_run(version, &program, &values);
                let completed = outcome.fault().is_none() && !own_writes.is_empty();
                reached.count_if(completed, Event::CompletedBy1);
                Ok(number_of(&outcome))
            },
        );
        assert_eq!(
            lent.run(version, &program, &*values),
            answer,
            "version {version} of {:#?}",
            listing(&program)
        );
        assert!(lent == expected, "{lent:?}\n{expected:?}");
        reached.count(match answer {
            Ok(number) if number < 4_096 => Event::Completed,
            Ok(_) => Event::Accepted,
            Err(refusal) => Event::Refused(refusal),
        });
    });
    for event in [
        Event::Completed,
        Event::Accepted,
        Event::CompletedBy1,
        Event::Refused(6),
        Event::Refused(13),
        Event::Refused(7),
    ] {
        reached.assert_at_least(RUNS / 100, event);
    }
}

/// A list of another length than 32 is refused 1, whatever the version and the program, and all lists
/// stay. The outside has no lists of other lengths.
#[test]
fn lists_of_other_lengths_are_refused_and_stay() {
    let mut random = Random::new(0);
    let values = generate::values(&mut random);
    let write = Instruction {
        op: op::WRITE,
        n: 5,
        ..Default::default()
    };
    let programs = [
        (0, vec![]),
        (1, assemble(&[write; 1])),
        (0, vec![0; 7]),
        (0, vec![255; 8]),
        (2, vec![]),
        (u16::MAX, vec![255; 9]),
    ];
    for (version, program) in &programs {
        let version = *version;
        for list in 0..4 {
            for length in (0..=70).chain([1_024]).filter(|&n| n != MAX_INSTRUCTIONS) {
                let mut lengths = [MAX_INSTRUCTIONS; 4];
                lengths[list] = length;
                let mut lent = Lent::filled(&mut random, lengths);
                let before = lent.clone();
                let answer = lent.run(version, program, &*values);
                assert_eq!(answer, Err(1), "{lengths:?}");
                assert!(lent == before, "{lengths:?}");
            }
        }
        let mut lent = Lent::filled(&mut random, [MAX_INSTRUCTIONS - 1; 4]);
        let before = lent.clone();
        assert_eq!(lent.run(version, program, &*values), Err(1));
        assert!(lent == before);
    }
}

/// Each breach alone and each pair of 1, 6, 13 and 7: the first in this order is the answer.
#[test]
fn the_first_of_two_refusals_is_the_answer() {
    const ORDER: [u8; 4] = [1, 6, 13, 7];
    let mut random = Random::new(0);
    let values = generate::values(&mut random);
    for first in ORDER {
        for second in ORDER {
            let met = |refusal| first == refusal || second == refusal;
            let instructions = if met(7) { 255 } else { 0 };
            let versions: &[u16] = if met(13) { &NO_VERSIONS } else { &[0, 1] };
            let lengths: &[usize] = if met(6) {
                &[1, 7, 9, 255, 257, 264]
            } else {
                &[8, 256]
            };
            let slots: &[usize] = if met(1) { &[0, 31, 33] } else { &[32] };
            let expected = ORDER.into_iter().find(|&refusal| met(refusal));
            for &version in versions {
                for &length in lengths {
                    let program = vec![instructions; length];
                    if !met(1) {
                        assert_eq!(Some(compare_form_of(version, &program)), expected);
                    }
                    for &slots in slots {
                        for list in 0..4 {
                            let mut lengths = [MAX_INSTRUCTIONS; 4];
                            lengths[list] = slots;
                            let mut lent = Lent::filled(&mut random, lengths);
                            let before = lent.clone();
                            let answer = lent.run(version, &program, &*values);
                            assert_eq!(answer.err(), expected, "{first} and {second}");
                            assert!(lent == before, "{first} and {second}");
                        }
                    }
                }
            }
        }
    }
}

/// Settings past the values are 0.
#[test]
fn a_run_on_fewer_values_is_that_on_zeros_past_them() {
    let mut random = Random::new(0);
    for length in 0..=SETTINGS {
        let mut values = generate::values(&mut random);
        values[length..].fill(0);
        let program = generate::program(&mut random, &Style::READS, MAX_INSTRUCTIONS);
        let mut lent = Lent::filled(&mut random, [MAX_INSTRUCTIONS; 4]);
        let mut expected = lent.clone();
        let version = generate::version(&mut random);
        let outcome = program::run(version, &program, &values);
        expected.put(&outcome);
        assert_eq!(
            lent.run(version.number(), &program, &values[..length]),
            Ok(number_of(&outcome))
        );
        assert!(lent == expected, "{length} values");
    }
}

#[test]
fn the_safe_forms_run_no_malformed_program() {
    let values = [0; SETTINGS];
    let refusal = |version, program: &[u8]| proved::run(version, program, &values).err();
    for version in [0, 1] {
        assert_eq!(refusal(version, &[]), None);
        assert_eq!(refusal(version, &[0; 264]), Some(6));
        assert_eq!(refusal(version, &[0; 7]), Some(6));
        assert_eq!(refusal(version, &[18, 0, 0, 0, 0, 0, 0, 0]), Some(7));
    }
    for version in NO_VERSIONS {
        assert_eq!(refusal(version, &[]), Some(13));
    }
}
