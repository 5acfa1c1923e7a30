//! The checking order: where an input meets two refusals of a call, the first of them is the answer.

use comparison::both::{Both, Query};
use comparison::generate::packages;
use comparison::generate::tables::{self as random_tables, Breach, List, Table};
use comparison::generate::{self, Random, Style, NO_VERSIONS, REFUSED_TOTALS};
use comparison::packages_out::Size;
use comparison::seeds::with_seeds;
use outside::checker::TOTALS;
use outside::intake::Taken;
use outside::package::{entries, lay_out, Entry, ALREADY_HELD, ANSWERS, MAX_BYTES, MAX_ENTRIES};
use outside::program::{self, op, Version, INSTRUCTION_BYTES, MAX_INSTRUCTIONS, SETTINGS};
use outside::tables::{check_lengths, in_form, Status, Tables, INFINITY, PROGRAM_BYTES};

/// How many inputs are made for each pair of refusals.
const INPUTS: usize = 40;

/// The pairs of refusals of one call that cannot meet, or not without an earlier refusal.
///
/// 8 and 11 need a timestamp that is held, 9 and 10 one that is not. 4 and 14 need one that no tables
/// in form hold: where they meet 8 or 11, so does 2, which comes first. 15 needs a held one below the
/// new cutoff, which is below the cutoff where that meets 14.
///
/// All others meet: also 6 and 7, since one is about the length of a program and the other about its
/// instructions, and 13 and 8, since a version above 1 is another than that of any held program, and 4
/// and 14, since 0 is below every other cutoff. For the same reason as above 4 and 14 always meet 10.
const NEVER_MET: [(u8, u8); 7] = [
    (4, 8),
    (4, 11),
    (14, 8),
    (14, 11),
    (14, 15),
    (8, 9),
    (10, 11),
];

/// Breaches of form that change no held count, timestamp, flag, version and program, so that what is
/// held, and how, is as plain as in tables in form. The first change no status either.
const BREACHES: [Breach; 5] = [
    Breach::CountAbove32(List::Reads),
    Breach::CountAbove32(List::Writes),
    Breach::StatusAbove2,
    Breach::NewWith(List::Reads),
    Breach::NewWith(List::Writes),
];
const OF_COUNTS: usize = 2;

/// The calls but set up, which tests lengths alone.
#[derive(Clone, Copy, Debug, PartialEq, Eq)]
enum Call {
    TakeIn,
    Withdraw,
    Cutoff,
    TakeInPackage,
    Turn,
    Drain,
    CurrentValue,
    ValueAsOf,
    Standing,
    PackageOut,
    PlainRun,
}

impl Call {
    const ALL: [Self; 11] = [
        Self::TakeIn,
        Self::Withdraw,
        Self::Cutoff,
        Self::TakeInPackage,
        Self::Turn,
        Self::Drain,
        Self::CurrentValue,
        Self::ValueAsOf,
        Self::Standing,
        Self::PackageOut,
        Self::PlainRun,
    ];

    /// What the call is turned down for, in checking order.
    fn refusals(self) -> &'static [u8] {
        match self {
            Self::TakeIn => &[1, 2, 4, 14, 6, 13, 7, 8, 9],
            Self::Withdraw => &[1, 2, 4, 14, 10, 11],
            Self::Cutoff => &[1, 2, 4, 14, 15],
            Self::TakeInPackage => &[1, 2, 3],
            Self::Turn | Self::Drain | Self::PlainRun => &[1, 2],
            Self::CurrentValue => &[1, 2, 5],
            Self::ValueAsOf => &[1, 2, 4, 14, 5],
            Self::Standing => &[1, 2, 4, 14, 10],
            Self::PackageOut => &[1, 2, 12],
        }
    }

    /// No refusal, each alone, and each pair that an input can meet.
    fn to_be_met(self) -> Vec<Vec<u8>> {
        let mut to_be_met = vec![vec![]];
        for (index, &first) in self.refusals().iter().enumerate() {
            to_be_met.push(vec![first]);
            for &second in &self.refusals()[index + 1..] {
                if !NEVER_MET.contains(&(first, second)) {
                    to_be_met.push(vec![first, second]);
                }
            }
        }
        to_be_met
    }
}

/// A call with arguments, of which each call takes some.
#[derive(Debug)]
struct Input {
    call: Call,
    n: usize,
    tables: Tables,
    timestamp: u64,
    version: u16,
    program: Vec<u8>,
    package: Vec<u8>,
    setting: usize,
    /// The lengths of the slices that a drain's totals, a package's answers, a package out and a
    /// plain run's settings are written to.
    totals: usize,
    answers: usize,
    room: usize,
    settings: usize,
}

impl Input {
    /// A random input that meets these refusals of the call, and no others but 10 with 4 and with 14.
    fn meeting(random: &mut Random, call: Call, refusals: &[u8]) -> Self {
        let met = |refusal| refusals.contains(&refusal);
        let n = 3 + random.below(6);
        let held = match met(9) {
            true => n,
            false => 2 + random.below(n - 2),
        };
        let mut tables = holding(random, n, held);
        let (withdrawn, standing) = (0, 1);
        tables.withdrawn[withdrawn] = 1;
        tables.withdrawn[standing] = 0;
        // A timestamp that is not 0 is below it where it is at least 2.
        let lowest = tables.timestamps[usize::from(tables.order[0])];
        tables.cutoff[0] = match met(14) {
            true => 1 + up_to(random, lowest - 1),
            false if random.below(3) == 0 => 0,
            false => up_to(random, lowest),
        };
        let timestamp = match call {
            _ if met(4) && met(14) => 0,
            Call::ValueAsOf if met(4) => 0,
            Call::Cutoff if met(15) => {
                let highest = usize::from(tables.order[held - 1]);
                tables.status[usize::from(tables.order[0])] = Status::Invalid.number();
                match met(4) {
                    true => INFINITY,
                    false => random.pick(&[lowest + 1, tables.timestamps[highest], INFINITY - 1]),
                }
            }
            _ if met(4) => random.pick(&[0, INFINITY]),
            _ if met(14) => up_to(random, tables.cutoff() - 1),
            Call::Cutoff => {
                let end = usize::from(tables.order[random.below(held)]);
                let end = tables.timestamps[end];
                settle_below(&mut tables, end);
                random.pick(&[tables.cutoff().max(1), end])
            }
            _ if met(11) => tables.timestamps[withdrawn],
            Call::TakeIn if !met(8) => not_held(random, &tables),
            _ if met(10) => not_held(random, &tables),
            _ => tables.timestamps[standing],
        };
        if timestamp == 0 && !met(14) {
            tables.cutoff[0] = 0;
        }
        if timestamp == INFINITY && !met(15) {
            settle_below(&mut tables, timestamp);
        }
        let mut version = generate::version(random);
        let mut program = not_held_program(random, &tables);
        // Some have the held program with the other version. An instruction is needed to meet 7.
        if met(8) && tables.lengths[standing] > 0 && random.below(2) == 0 {
            version = generate::other_version(tables.version(standing));
            program = tables.program(standing).to_vec();
        }
        let mut input = Self {
            call,
            n,
            version: version.number(),
            program,
            package: {
                let held = &tables.timestamps[..held];
                lay_out(&packages::entries(random, held, tables.cutoff()))
            },
            room: Size::of(&tables).bytes + random.pick(&[0, 0, 1, MAX_BYTES]),
            tables,
            timestamp,
            setting: random.below(SETTINGS),
            totals: TOTALS,
            answers: ANSWERS,
            settings: SETTINGS,
        };
        for &refusal in refusals {
            input.change(random, refusal);
        }
        input
    }

    /// Has the input meet a refusal that is not about what the tables hold.
    fn change(&mut self, random: &mut Random, refusal: u8) {
        match (refusal, self.call) {
            (1, Call::Drain) if random.below(2) == 0 => {
                self.totals = random.pick(&REFUSED_TOTALS);
            }
            (1, Call::TakeInPackage) if random.below(2) == 0 => self.answers -= 1,
            (1, Call::PlainRun) if random.below(2) == 0 => self.settings += 1,
            (1, _) => {
                let length = random.pick(&[0, SETTINGS - 1, SETTINGS + 1]);
                Table::View.resize(&mut self.tables, length);
            }
            (2, _) => {
                let breaches = match self.call {
                    Call::Cutoff => &BREACHES[..OF_COUNTS],
                    _ => &BREACHES,
                };
                let made = random.pick(breaches).make(random, &mut self.tables);
                made.expect("changes are held");
            }
            (3, _) => loop {
                let breach = random.pick(&packages::Breach::ALL);
                if breach.make(random, &mut self.package).is_some() {
                    break;
                }
            },
            (5, _) => self.setting = random.pick(&[SETTINGS, 65_536, usize::MAX]),
            (6, _) => {
                let length = match random.below(2) {
                    0 => self.program.len() + 1 + random.below(INSTRUCTION_BYTES - 1),
                    _ => PROGRAM_BYTES + INSTRUCTION_BYTES,
                };
                // More instructions are stops.
                self.program.resize(length, 0);
            }
            (13, _) => self.version = generate::no_version(random),
            (7, _) => self.program[0] = op::COUNT + random.below(200) as u8,
            (12, _) => {
                let needed = Size::of(&self.tables).bytes;
                self.room = random.pick(&[0, needed / 2, needed - 1]);
            }
            _ => {}
        }
    }

    /// The refusals that the input meets, each by document 01's words for it, or by document 02's,
    /// in checking order.
    fn met(&self) -> Vec<u8> {
        let place = self.tables.place_of(self.timestamp);
        let met = |refusal: u8| match refusal {
            1 => {
                !check_lengths(self.n, &self.tables)
                    || self.totals != TOTALS
                    || self.answers != ANSWERS
                    || self.settings != SETTINGS
            }
            2 => !in_form(self.n, &self.tables),
            3 => entries(&self.package).is_none(),
            4 => match self.call {
                Call::ValueAsOf => self.timestamp == 0,
                _ => self.timestamp == 0 || self.timestamp == INFINITY,
            },
            14 => self.timestamp < self.tables.cutoff(),
            5 => self.setting >= SETTINGS,
            6 => {
                let length = self.program.len();
                length > PROGRAM_BYTES || !length.is_multiple_of(INSTRUCTION_BYTES)
            }
            13 => self.version > 1,
            7 => {
                let (instructions, _) = self.program.as_chunks::<INSTRUCTION_BYTES>();
                let most = instructions.len().min(MAX_INSTRUCTIONS);
                program::check(0, instructions[..most].as_flattened()).is_err()
            }
            8 => place.is_some_and(|place| {
                self.tables.versions[place] != self.version
                    || self.tables.program(place) != self.program
            }),
            9 => place.is_none() && self.tables.held_count() == self.n,
            10 => place.is_none(),
            11 => place.is_some_and(|place| self.tables.withdrawn[place] == 1),
            15 => (0..self.tables.held_count()).any(|place| {
                let waiting = [Status::New, Status::Invalid].map(Status::number);
                waiting.contains(&self.tables.status[place])
                    && self.tables.timestamps[place] < self.timestamp
            }),
            12 => {
                let Size { entries, bytes } = Size::of(&self.tables);
                entries > MAX_ENTRIES || bytes > MAX_BYTES || bytes > self.room
            }
            _ => unreachable!("there is no refusal {refusal}"),
        };
        let refusals = self.call.refusals().iter().copied();
        refusals.filter(|&refusal| met(refusal)).collect()
    }

    /// The refusal that both answer, if they do.
    fn refusal(&self, random: &mut Random) -> Option<u8> {
        let mut both = Both::new(self.n, self.tables.clone());
        let (timestamp, setting) = (self.timestamp, self.setting);
        match self.call {
            Call::TakeIn => both.take_in(timestamp, self.version, &self.program).err(),
            Call::Withdraw => both.withdraw(timestamp).err(),
            Call::Cutoff => both.cutoff(timestamp).err(),
            Call::TakeInPackage => {
                let mut answers = packages::answers(random, self.answers);
                both.take_in_package(&self.package, &mut answers).err()
            }
            Call::Turn => both.turn().err(),
            Call::Drain => {
                let mut totals = generate::totals(random, self.totals);
                both.drain(&mut totals).err()
            }
            Call::CurrentValue => both.ask(Query::CurrentValue(setting)).err(),
            Call::ValueAsOf => both.ask(Query::ValueAsOf(timestamp, setting)).err(),
            Call::Standing => both.ask(Query::Standing(timestamp)).err(),
            Call::PackageOut => both.ask(Query::PackageOut(self.room)).err(),
            Call::PlainRun => both.ask(Query::PlainRun(self.settings)).err(),
        }
    }

    /// The same as the only entry of a package, where it is a change or a withdrawal and tables,
    /// version and program have the lengths and the form for it.
    fn entry(&self, refusals: &[u8]) -> Option<Entry> {
        let timestamp = self.timestamp;
        match self.call {
            _ if refusals.iter().any(|refusal| [1, 2, 6].contains(refusal)) => None,
            Call::TakeIn => Some(Entry::Change {
                timestamp,
                version: Version::from_number(self.version)?,
                program: self.program.clone(),
            }),
            Call::Withdraw => Some(Entry::Withdrawal { timestamp }),
            _ => None,
        }
    }
}

/// A timestamp from 1 to `most`: these two more often.
fn up_to(random: &mut Random, most: u64) -> u64 {
    match random.below(4) {
        0 => 1,
        1 => most,
        _ => 1 + random.below(most as usize) as u64,
    }
}

/// Tables in form that hold so many changes, two or more, none stamped 1 or 2^64 − 2.
fn holding(random: &mut Random, n: usize, held: usize) -> Tables {
    loop {
        let tables = random_tables::in_form(random, n, held);
        let [lowest, highest] = [0, held - 1].map(|rank| usize::from(tables.order[rank]));
        if tables.timestamps[lowest] > 1 && tables.timestamps[highest] < INFINITY - 1 {
            return tables;
        }
    }
}

/// Lets all changes stamped below a timestamp be Valid.
fn settle_below(tables: &mut Tables, timestamp: u64) {
    for place in 0..tables.held_count() {
        if tables.timestamps[place] < timestamp {
            tables.status[place] = Status::Valid.number();
        }
    }
}

/// A timestamp that these tables do not hold, and that is not below their cutoff.
fn not_held(random: &mut Random, tables: &Tables) -> u64 {
    loop {
        let cutoff = tables.cutoff().max(1);
        let timestamp = match random.below(2) {
            0 => random.bits().clamp(cutoff, INFINITY - 1),
            _ => cutoff + random.below(16) as u64,
        };
        if timestamp < INFINITY && tables.place_of(timestamp).is_none() {
            return timestamp;
        }
    }
}

/// A program of an instruction or more that is none of those that these tables hold.
fn not_held_program(random: &mut Random, tables: &Tables) -> Vec<u8> {
    loop {
        let length = 1 + random.below(MAX_INSTRUCTIONS);
        let program = generate::program(random, &Style::FEW_SETTINGS, length);
        let mut places = 0..tables.held_count();
        if places.all(|place| tables.program(place) != program) {
            return program;
        }
    }
}

#[test]
fn the_first_of_two_refusals_is_the_answer() {
    let pairs = with_seeds(|random, share| {
        let mut pairs = 0;
        for call in Call::ALL {
            for refusals in call.to_be_met() {
                for _ in 0..share.of(INPUTS) {
                    let input = Input::meeting(random, call, &refusals);
                    let met = input.met();
                    let not_held = refusals.contains(&4) || refusals.contains(&14);
                    let with_10 = not_held && met == [&refusals[..], &[10]].concat();
                    assert!(met == refusals || with_10, "{met:?}, not {refusals:?}");
                    let first = met.first().copied();
                    assert_eq!(input.refusal(random), first, "{input:?} meets {met:?}");
                    if let Some(entry) = input.entry(&refusals) {
                        let mut both = Both::new(input.n, input.tables.clone());
                        let mut answers = packages::answers(random, ANSWERS);
                        let taken = both.take_in_package(&lay_out(&[entry]), &mut answers);
                        assert_eq!((taken, answers[0]), (Ok(()), first.unwrap_or(0)));
                    }
                }
                pairs += usize::from(refusals.len() == 2);
            }
        }
        pairs
    });
    println!("{pairs} pairs of refusals");
}

/// The pairs of which one is 4, on tables that hold a timestamp that is 0 or 2^64 − 1.
#[test]
fn a_timestamp_that_is_none_is_held_by_no_tables_in_form() {
    with_seeds(|random, share| {
        for (call, refusal) in [(Call::TakeIn, 8), (Call::Withdraw, 11)] {
            for breach in [Breach::TimestampZero, Breach::TimestampInfinity] {
                for _ in 0..share.of(INPUTS) {
                    let mut input = Input::meeting(random, call, &[]);
                    let held = input.tables.held_count();
                    input.tables.withdrawn[..held].fill(1);
                    let made = breach.make(random, &mut input.tables);
                    made.expect("changes are held");
                    input.timestamp = match breach {
                        Breach::TimestampZero => 0,
                        _ => INFINITY,
                    };
                    assert_eq!(input.met(), [2, 4, refusal]);
                    assert_eq!(input.refusal(random), Some(2));
                }
            }
        }
    });
}

/// The pairs of which one is 14, on tables that hold a timestamp below the cutoff: a change taken in, one
/// withdrawn, and a lower cutoff with a change below it whose turn is to come.
#[test]
fn a_timestamp_below_the_cutoff_is_held_by_no_tables_in_form() {
    with_seeds(|random, share| {
        for (call, refusal) in [(Call::TakeIn, 8), (Call::Withdraw, 11), (Call::Cutoff, 15)] {
            for _ in 0..share.of(INPUTS) {
                let mut input = Input::meeting(random, call, &[]);
                let held = input.tables.held_count();
                input.tables.withdrawn[..held].fill(1);
                let [lowest, next] = [0, 1].map(|rank| usize::from(input.tables.order[rank]));
                input.tables.status[lowest] = Status::Invalid.number();
                let [lowest, next] = [lowest, next].map(|place| input.tables.timestamps[place]);
                input.tables.cutoff[0] = next + 1;
                input.timestamp = match call {
                    Call::Cutoff => random.pick(&[lowest + 1, next]),
                    _ => lowest,
                };
                assert_eq!(input.met(), [2, 14, refusal]);
                assert_eq!(input.refusal(random), Some(2));
            }
        }
    });
}

/// Every timestamp about the cutoff in every call that has one, by itself and as the entry of a package:
/// those below it are refused, 14, 0 is 4, and the cutoff itself is not refused for it.
#[test]
fn timestamps_about_the_cutoff_are_refused_below_it_alone() {
    let [below, not_below] = with_seeds(|random, share| {
        let [mut below, mut not_below] = [0; 2];
        for _ in 0..share.of(INPUTS) {
            let n = 3 + random.below(6);
            let mut tables = holding(random, n, n - 1);
            let lowest = tables.timestamps[usize::from(tables.order[0])];
            tables.cutoff[0] = random.pick(&[2, lowest]);
            settle_below(&mut tables, INFINITY);
            let cutoff = tables.cutoff();
            for timestamp in [0, 1, cutoff - 1, cutoff, cutoff + 1] {
                let expected = match timestamp {
                    0 => Some(4),
                    _ => (timestamp < cutoff).then_some(14),
                };
                let [mut taking, mut withdrawing, mut cutting] =
                    [(); 3].map(|()| Both::new(n, tables.clone()));
                let change = Entry::Change {
                    timestamp,
                    version: Version::One,
                    program: Vec::new(),
                };
                let mut answer_of = |entry| {
                    let mut answers = packages::answers(random, ANSWERS);
                    let mut both = Both::new(n, tables.clone());
                    let taken = both.take_in_package(&lay_out(&[entry]), &mut answers);
                    assert_eq!(taken, Ok(()));
                    answers[0]
                };
                let answers = [
                    taking.take_in(timestamp, 1, &[]).err(),
                    withdrawing.withdraw(timestamp).err(),
                    cutting.cutoff(timestamp).err(),
                    taking.ask(Query::Standing(timestamp)).err(),
                    taking.ask(Query::ValueAsOf(timestamp, 0)).err(),
                    Some(answer_of(change)),
                    Some(answer_of(Entry::Withdrawal { timestamp })),
                ];
                match expected {
                    Some(_) => assert_eq!(answers, [expected; 7]),
                    None => assert!(!answers.contains(&Some(14)), "{answers:?}"),
                }
                below += usize::from(expected == Some(14));
                not_below += usize::from(expected.is_none());
            }
        }
        [below, not_below]
    });
    assert_eq!([below, not_below], [2 * INPUTS; 2]);
}

/// Every held change once more: with its version it is already held, with the other one 8, and with
/// one above 1 it is 13, withdrawn or not, full or not, by itself and as the entry of a package.
#[test]
fn a_held_program_with_another_version_is_refused() {
    let [withdrawn, full] = with_seeds(|random, share| {
        let [mut withdrawn, mut full] = [0; 2];
        for index in 0..share.of(INPUTS) {
            let n = 2 + random.below(12);
            let held = n - index % 2;
            let tables = random_tables::in_form(random, n, held);
            for place in 0..held {
                let (timestamp, version) = (tables.timestamps[place], tables.version(place));
                let program = tables.program(place).to_vec();
                let other = generate::other_version(version);
                let mut both = Both::new(n, tables.clone());
                for (version, answer, byte) in [
                    (version, Ok(Taken::AlreadyHeld), ALREADY_HELD),
                    (other, Err(8), 8),
                ] {
                    let taken = both.take_in(timestamp, version.number(), &program);
                    assert_eq!(taken, answer);
                    let program = program.clone();
                    let package = lay_out(&[Entry::Change {
                        timestamp,
                        version,
                        program,
                    }]);
                    let mut answers = packages::answers(random, ANSWERS);
                    let taken = both.take_in_package(&package, &mut answers);
                    assert_eq!((taken, answers[0]), (Ok(()), byte));
                }
                for version in NO_VERSIONS {
                    assert_eq!(both.take_in(timestamp, version, &program), Err(13));
                }
                assert!(*both.tables() == tables, "all is as it was");
                withdrawn += usize::from(tables.withdrawn[place]);
                full += usize::from(held == n);
            }
        }
        [withdrawn, full]
    });
    println!("{withdrawn} withdrawn, {full} where the tables are full");
    assert!(withdrawn >= INPUTS / 4, "{withdrawn}");
    assert!(full >= INPUTS, "{full}");
}
