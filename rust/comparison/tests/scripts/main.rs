//! Random lists of calls on tables just set up: the proved calls against the outside
//! implementation, demand 3, cabinets that are filled from others, and cabinets that drop changes.

mod dropping;
mod filling;

use comparison::both::Both;
use comparison::cutoffs::{self, CutoffEvent};
use comparison::generate::scripts::{Call, Change, Source};
use comparison::generate::{self, packages, Random, REFUSED_TOTALS};
use comparison::own_writes::OwnWrite;
use comparison::packages_out::{self, PackageEvent};
use comparison::proved::calls as proved;
use comparison::reached::Reached;
use comparison::seeds::{count_reached, with_seeds};
use comparison::turns::{self, DrainEvent, TurnEvent};
use outside::book::{self, LoggedTurn};
use outside::calls::plain_run;
use outside::checker::{Turn, Turned, TOTALS};
use outside::filled;
use outside::intake::Taken;
use outside::package::{entries, lay_out, Entry, ALREADY_HELD, ANSWERS, DONE};
use outside::program::{op, Access, Fault, Instruction, Version, MAX_INSTRUCTIONS, SETTINGS};
use outside::tables::{Status, Tables, INFINITY, MAX_CAPACITY};
use std::collections::BTreeSet;

/// The highest capacity of the tables of most lists. Each capacity from 1 on has as many lists.
const CAPACITIES: usize = 64;

/// How many lists of calls are made on both.
const SCRIPTS: usize = 40 * CAPACITIES;

/// How many lists of calls are made on the proved library alone.
const SCRIPTS_ALONE: usize = 16 * CAPACITIES;

/// The lowest place of an instruction that can fault. Before the first one every register names
/// setting 0 and nothing is written.
const LOWEST_FAULT: usize = 1;

/// What the lists of calls are to reach.
#[derive(Clone, Copy, Debug, PartialEq, Eq, PartialOrd, Ord)]
enum Event {
    Taken(Version),
    Held,
    HeldWithdrawn,
    HeldWhenFull,
    TakeInRefused(u8),
    /// Refused 8 for the version alone, and where the change is withdrawn, and where the tables are
    /// full.
    OtherVersion,
    OtherVersionWithdrawn,
    OtherVersionWhenFull,
    Withdrawn(Status),
    WithdrawRefused(u8),
    Cutoff(CutoffEvent),
    /// A change is taken in at the cutoff, which is not 0, and where the tables were full before a
    /// cutoff and are full again.
    TakenAtCutoff,
    Refilled,
    Package,
    PackageRefused(u8),
    /// The answers of a package's changes and withdrawals, and changes of both versions that are
    /// taken in by one package.
    ChangeAnswered(u8),
    WithdrawalAnswered(u8),
    PackageOfBothVersions,
    Idle,
    Turn(TurnEvent),
    /// A drain's turns: none, and several.
    DrainOfNone,
    DrainOfSeveral,
    /// A change that was Valid before a drain has a turn in it.
    DrainMarks,
    Drained,
    /// Drained where changes were dropped before, and where later cutoffs dropped some.
    DrainedCut,
    DrainedCutAgain,
    Drain(DrainEvent),
    /// A drain is refused that is lent so many totals, and one where changes wait for their turns.
    DrainRefused(usize),
    DrainRefusedWaiting,
    /// Tables that hold changes are set up again.
    SetUp,
    PackageOut(PackageEvent),
}

/// A list of calls, made on both.
struct Script {
    both: Both,
    calls: Vec<book::Call>,
    /// How many cutoffs dropped changes, and whether the tables were full before one of them.
    cut: usize,
    cut_full: bool,
}

impl Script {
    fn new(n: usize) -> Self {
        Self {
            both: Both::just_set_up(n),
            calls: Vec::new(),
            cut: 0,
            cut_full: false,
        }
    }

    /// Sets up the tables: another list of calls begins.
    fn set_up(&mut self, reached: &mut Reached<Event>) {
        reached.count_if(self.both.tables().held_count() > 0, Event::SetUp);
        assert_eq!(self.both.set_up(), Ok(()));
        self.calls.clear();
        (self.cut, self.cut_full) = (0, false);
    }

    /// Makes random calls, a drain last, and queries between them.
    fn make_all(
        &mut self,
        random: &mut Random,
        source: &mut Source,
        calls: usize,
        reached: &mut Reached<Event>,
    ) {
        for _ in 0..calls {
            let call = source.call(random, self.both.tables());
            self.make(call, reached);
            if random.below(2) == 0 {
                let (timestamp, setting) = (source.timestamp(random), source.setting(random));
                self.both.ask_all(timestamp, setting);
            }
            if random.below(8) == 0 {
                let room = packages::room(random, self.both.tables());
                let _ = self.package_out(room, reached);
            }
        }
        self.drain(generate::totals(random, TOTALS), reached);
    }

    /// Writes a package, lent so many bytes, and checks it by the book.
    fn package_out(&self, room: usize, reached: &mut Reached<Event>) -> Result<Vec<u8>, u8> {
        let package = self.both.package_out(room);
        for event in packages_out::events(self.both.tables(), room, &package) {
            reached.count(Event::PackageOut(event));
        }
        let answer = package.as_deref().map_err(|refusal| *refusal);
        let checked = filled::check_package(&self.calls, room, answer);
        assert!(checked.is_ok(), "{checked:?} of {:?}", self.calls);
        package
    }

    /// Makes a call and counts what comes of it.
    fn make(&mut self, call: Call, reached: &mut Reached<Event>) {
        let before = self.both.tables().clone();
        match call {
            Call::TakeIn {
                timestamp,
                version,
                program,
            } => {
                let taken = self.both.take_in(timestamp, version, &program);
                count_taken(reached, &before, timestamp, version, &program, taken);
                let full = self.both.tables().held_count() == self.both.capacity();
                let refilled = taken == Ok(Taken::Done) && full && self.cut_full;
                reached.count_if(refilled, Event::Refilled);
                self.calls.push(book::Call::TakeIn {
                    timestamp,
                    version,
                    program,
                    answer: number(taken),
                });
            }
            Call::Withdraw { timestamp } => {
                let withdrawn = self.both.withdraw(timestamp);
                reached.count(match withdrawn {
                    Ok(()) => {
                        let place = before.place_of(timestamp).expect("it is held");
                        Event::Withdrawn(before.status(place))
                    }
                    Err(refusal) => Event::WithdrawRefused(refusal),
                });
                self.calls.push(book::Call::Withdraw {
                    timestamp,
                    answer: number(withdrawn.map(|()| Taken::Done)),
                });
            }
            Call::Cutoff { timestamp } => self.cutoff(timestamp, reached),
            Call::TakeInPackage {
                package,
                mut answers,
            } => {
                let taken = self.both.take_in_package(&package, &mut answers);
                count_package(reached, &package, &answers, taken);
                self.calls.push(book::Call::TakeInPackage {
                    package,
                    answers,
                    answer: number(taken.map(|()| Taken::Done)),
                });
            }
            Call::Turn => {
                let turn = logged_turn(&mut self.both, reached);
                reached.count_if(turn.is_none(), Event::Idle);
                self.calls.push(book::Call::Turn(turn));
            }
            Call::Drain { totals } if totals.len() == TOTALS => self.drain(totals, reached),
            Call::Drain { mut totals } => {
                assert_eq!(self.both.drain(&mut totals), Err(1));
                reached.count(Event::DrainRefused(totals.len()));
                let mut held = 0..before.held_count();
                let waiting = held.any(|place| before.status(place) != Status::Valid);
                reached.count_if(waiting, Event::DrainRefusedWaiting);
                self.calls.push(book::Call::Drain(None));
            }
        }
    }

    /// Makes a cutoff, and checks the cutoff and the kept values of the tables by the book.
    fn cutoff(&mut self, timestamp: u64, reached: &mut Reached<Event>) {
        let before = self.both.tables().clone();
        let made = self.both.cutoff(timestamp);
        for event in cutoffs::events(&before, timestamp, made) {
            reached.count(Event::Cutoff(event));
        }
        let held = self.both.tables().held_count();
        if held < before.held_count() {
            self.cut += 1;
            self.cut_full |= before.held_count() == self.both.capacity();
        }
        self.calls.push(book::Call::Cutoff {
            timestamp,
            answer: number(made.map(|()| Taken::Done)),
        });
        let checked = book::check_kept(&self.calls, self.both.tables());
        assert!(checked.is_ok(), "{checked:?} of {:?}", self.calls);
    }

    /// Drains, lent these 1,024 totals, compares the drain with single turns on both, and checks
    /// demand 3.
    fn drain(&mut self, totals: Vec<u16>, reached: &mut Reached<Event>) {
        let mut single = self.both.clone();
        let held = single.tables().held_count();
        let turns = book::turns_of_drain(held, || logged_turn(&mut single, reached));
        self.drain_like(turns, single.tables(), totals, reached);
    }

    /// As [`Self::drain`], but with the single turns on the proved library alone, which takes less
    /// time.
    fn drain_as_alone(&mut self, totals: Vec<u16>, reached: &mut Reached<Event>) {
        let n = self.both.capacity();
        let mut single = self.both.proved_tables().clone();
        let held = self.both.tables().held_count();
        let turns = book::turns_of_drain(held, || turn_alone(n, &mut single));
        self.drain_like(turns, &proved::take_back(&single), totals, reached);
    }

    /// Drains, lent these totals, compares the drain with these turns, which were made singly and
    /// left these tables, and checks demand 3: so the totals are those of the single turns.
    fn drain_like(
        &mut self,
        turns: Vec<LoggedTurn>,
        left: &Tables,
        mut totals: Vec<u16>,
        reached: &mut Reached<Event>,
    ) {
        reached.count_if(turns.is_empty(), Event::DrainOfNone);
        reached.count_if(turns.len() > 1, Event::DrainOfSeveral);
        for logged in &turns {
            let tables = self.both.tables();
            let place = tables.place_of(logged.turn.timestamp).expect("it is held");
            let valid = tables.status(place) == Status::Valid;
            reached.count_if(valid, Event::DrainMarks);
        }

        assert_eq!(self.both.drain(&mut totals), Ok(()));
        for event in turns::counted(&totals) {
            reached.count(Event::Drain(event));
        }
        let tables = self.both.tables();
        assert!(tables == left, "a drain's turns are single turns");
        self.calls.push(book::Call::Drain(Some((totals, turns))));
        let checked = book::check(&self.calls, tables);
        assert!(checked.is_ok(), "{checked:?} of {:?}", self.calls);
        let mut plain = [0; SETTINGS];
        assert_eq!(plain_run(self.both.capacity(), tables, &mut plain), Ok(()));
        assert!(tables.view == plain, "the view is what a plain run leaves");
        reached.count(Event::Drained);
        reached.count_if(self.cut > 0, Event::DrainedCut);
        reached.count_if(self.cut > 1, Event::DrainedCutAgain);
    }
}

/// Chosen lists of calls.
impl Script {
    /// Takes in a change of version 0, which must be answered done.
    fn take_in(&mut self, timestamp: u64, program: &[Instruction], reached: &mut Reached<Event>) {
        self.take_in_by(Version::Zero, timestamp, program, reached);
    }

    /// Takes in a change of this version, which must be answered done.
    fn take_in_by(
        &mut self,
        version: Version,
        timestamp: u64,
        program: &[Instruction],
        reached: &mut Reached<Event>,
    ) {
        let answer = self.try_take_in(version, timestamp, program, reached);
        assert_eq!(answer, DONE, "{timestamp} is taken in");
    }

    /// Takes in a change of this version, and returns the answer.
    fn try_take_in(
        &mut self,
        version: Version,
        timestamp: u64,
        program: &[Instruction],
        reached: &mut Reached<Event>,
    ) -> u8 {
        let change = Change {
            timestamp,
            version,
            program: program.iter().flat_map(|i| i.to_bytes()).collect(),
        };
        self.make(change.call(), reached);
        match self.calls.last() {
            Some(book::Call::TakeIn { answer, .. }) => *answer,
            call => panic!("{call:?} is the last call"),
        }
    }

    /// Panics unless a change has these lists.
    #[track_caller]
    fn assert_lists(&self, timestamp: u64, reads: &[(u16, i32)], writes: &[(u16, i32)]) {
        fn pairs(list: impl Iterator<Item = Access>) -> Vec<(u16, i32)> {
            list.map(|entry| (entry.setting, entry.value)).collect()
        }
        let tables = self.both.tables();
        let place = tables.place_of(timestamp).expect("it is held");
        assert_eq!(pairs(tables.read_list(place)), reads);
        assert_eq!(pairs(tables.write_list(place)), writes);
    }

    /// Drains as [`Self::drain`] does, and panics unless these are the turns.
    #[track_caller]
    fn assert_drains(&mut self, expected: &[(u64, Turned)], reached: &mut Reached<Event>) {
        self.drain(vec![u16::MAX; TOTALS], reached);
        let Some(book::Call::Drain(Some((_, turns)))) = self.calls.last() else {
            panic!("the last call is an answered drain");
        };
        let turns = turns.iter().map(|logged| logged.turn);
        let expected = expected.iter();
        let expected = expected.map(|&(timestamp, turned)| Turn { timestamp, turned });
        assert_eq!(turns.collect::<Vec<_>>(), expected.collect::<Vec<_>>());
    }

    /// Drains as [`Self::drain`] does, and panics unless these are the totals that are not 0, by
    /// place.
    #[track_caller]
    fn assert_counts(&mut self, expected: &[(usize, u16)], reached: &mut Reached<Event>) {
        self.drain(vec![u16::MAX; TOTALS], reached);
        let Some(book::Call::Drain(Some((totals, _)))) = self.calls.last() else {
            panic!("the last call is an answered drain");
        };
        let totals = totals.iter().copied().enumerate();
        let not_zero = totals.filter(|&(_, total)| total != 0);
        assert_eq!(not_zero.collect::<Vec<_>>(), expected);
    }
}

/// A turn on both, with what the book needs of it.
fn logged_turn(both: &mut Both, reached: &mut Reached<Event>) -> Option<LoggedTurn> {
    let before = both.tables().clone();
    let turn = both.turn().expect("the tables are in form")?;
    for event in turns::events(&before, both.tables(), turn) {
        reached.count(Event::Turn(event));
    }
    Some(LoggedTurn::new(turn, both.tables()))
}

/// The number of an answer.
fn number(answer: Result<Taken, u8>) -> u8 {
    match answer {
        Ok(Taken::Done) => DONE,
        Ok(Taken::AlreadyHeld) => ALREADY_HELD,
        Err(refusal) => refusal,
    }
}

fn count_taken(
    reached: &mut Reached<Event>,
    before: &Tables,
    timestamp: u64,
    version: u16,
    program: &[u8],
    taken: Result<Taken, u8>,
) {
    let full = before.held_count() == before.timestamps.len();
    let place = before.place_of(timestamp);
    let withdrawn = place.is_some_and(|place| before.withdrawn[place] == 1);
    match taken {
        Ok(Taken::Done) => {
            let version = Version::from_number(version).expect("it is not refused");
            reached.count(Event::Taken(version));
            reached.count_if(timestamp == before.cutoff(), Event::TakenAtCutoff);
        }
        Ok(Taken::AlreadyHeld) => {
            reached.count(Event::Held);
            reached.count_if(withdrawn, Event::HeldWithdrawn);
            reached.count_if(full, Event::HeldWhenFull);
        }
        Err(refusal) => {
            reached.count(Event::TakeInRefused(refusal));
            if refusal == 8 && place.is_some_and(|place| before.program(place) == program) {
                reached.count(Event::OtherVersion);
                reached.count_if(withdrawn, Event::OtherVersionWithdrawn);
                reached.count_if(full, Event::OtherVersionWhenFull);
            }
        }
    }
}

fn count_package(
    reached: &mut Reached<Event>,
    package: &[u8],
    answers: &[u8],
    taken: Result<(), u8>,
) {
    match taken {
        Ok(()) => {
            reached.count(Event::Package);
            let entries = entries(package).expect("it is not refused");
            let mut done = BTreeSet::new();
            for (entry, &answer) in entries.iter().zip(answers) {
                reached.count(match entry {
                    Entry::Change { .. } => Event::ChangeAnswered(answer),
                    Entry::Withdrawal { .. } => Event::WithdrawalAnswered(answer),
                });
                if let (Entry::Change { version, .. }, DONE) = (entry, answer) {
                    done.insert(*version);
                }
            }
            let both = done.len() == Version::ALL.len();
            reached.count_if(both, Event::PackageOfBothVersions);
        }
        Err(refusal) => reached.count(Event::PackageRefused(refusal)),
    }
}

/// How many calls a list has: some lists fill the tables.
fn calls_in_list(random: &mut Random, n: usize) -> usize {
    30 + random.below(3 * n)
}

#[test]
fn lists_of_calls_have_the_same_answers_and_tables_and_meet_demand_3() {
    let reached = count_reached(SCRIPTS, |random, index, reached| {
        let n = 1 + index % CAPACITIES;
        let mut script = Script::new(n);
        if random.below(8) == 0 {
            let count = calls_in_list(random, n);
            let source = &mut Source::new(random, n);
            script.make_all(random, source, count, reached);
            script.set_up(reached);
        }
        let count = calls_in_list(random, n);
        let source = &mut Source::new(random, n);
        script.make_all(random, source, count, reached);
    });

    for event in [
        Event::Taken(Version::Zero),
        Event::Taken(Version::One),
        Event::Package,
        Event::Idle,
        Event::DrainOfSeveral,
        Event::Drained,
        Event::Withdrawn(Status::New),
        Event::Withdrawn(Status::Valid),
        Event::Turn(TurnEvent::Answered(Turned::Ran)),
        Event::Turn(TurnEvent::Answered(Turned::Cleared)),
        Event::Turn(TurnEvent::RanFirst),
        Event::Turn(TurnEvent::RanAgain),
        Event::Turn(TurnEvent::Added),
        Event::Turn(TurnEvent::AddedEqual),
        Event::Turn(TurnEvent::Marked),
        Event::Turn(TurnEvent::ViewWritten),
        Event::Turn(TurnEvent::ViewOfLaterWriter),
        Event::Turn(TurnEvent::KeptSeen),
        Event::DrainedCut,
        Event::DrainedCutAgain,
    ] {
        reached.assert_at_least(SCRIPTS, event);
    }
    assert_cutoffs(&reached, SCRIPTS);
    for event in [
        Event::Held,
        Event::HeldWithdrawn,
        Event::HeldWhenFull,
        Event::OtherVersion,
        Event::OtherVersionWithdrawn,
        Event::PackageOfBothVersions,
        Event::DrainOfNone,
        Event::DrainMarks,
        Event::SetUp,
        Event::Withdrawn(Status::Invalid),
        Event::Turn(TurnEvent::Answered(Turned::Stood)),
        Event::Turn(TurnEvent::FaultedFirst),
        Event::Turn(TurnEvent::FaultedAgain),
        Event::Turn(TurnEvent::Faulted(Version::Zero, Fault::NoSuchSetting)),
        Event::Turn(TurnEvent::Faulted(Version::Zero, Fault::ReadOfWritten)),
        Event::Turn(TurnEvent::Faulted(Version::Zero, Fault::WrittenTwice)),
        Event::Turn(TurnEvent::Faulted(Version::One, Fault::NoSuchSetting)),
        Event::Turn(TurnEvent::FaultedAfterOwnWrite),
        Event::Turn(TurnEvent::FaultedAfterReads),
        Event::Turn(TurnEvent::RanAfterFault),
        Event::Turn(TurnEvent::FaultedAfterFault),
        Event::Turn(TurnEvent::StoodAfterFault),
        Event::Turn(TurnEvent::FaultedAfterRan),
        Event::Turn(TurnEvent::Answered(Turned::Faulted(LOWEST_FAULT))),
        Event::Turn(TurnEvent::Answered(Turned::Faulted(MAX_INSTRUCTIONS - 1))),
        Event::Turn(TurnEvent::WritesSecondTime),
        Event::Turn(TurnEvent::FaultsSecondTime),
        Event::Turn(TurnEvent::ClearedNew),
        Event::Turn(TurnEvent::ClearedWriter),
        Event::Turn(TurnEvent::Removed),
        Event::Turn(TurnEvent::RemovedEqual),
        Event::Turn(TurnEvent::Rewritten),
        Event::Turn(TurnEvent::RewrittenEqual),
        Event::Turn(TurnEvent::MarkedWriter),
        Event::Turn(TurnEvent::NextWriterStops),
        Event::Turn(TurnEvent::ViewOnRemoval),
        Event::Turn(TurnEvent::KeptEqual),
        Event::Turn(TurnEvent::KeptUnlikeStart),
        Event::Turn(TurnEvent::KeptOnRemoval),
        Event::Drain(DrainEvent::Consoles(1)),
        Event::Drain(DrainEvent::Consoles(2)),
        Event::Drain(DrainEvent::Consoles(4)),
        Event::Drain(DrainEvent::Consoles(8)),
        Event::Drain(DrainEvent::MostOfConsole(1)),
        Event::Drain(DrainEvent::MostOfConsole(2)),
        Event::Drain(DrainEvent::MostOfConsole(4)),
        Event::Drain(DrainEvent::FirstConsole),
        Event::Drain(DrainEvent::LastConsole),
        Event::Drain(DrainEvent::KindsOfConsole),
        Event::DrainRefusedWaiting,
        Event::PackageOut(PackageEvent::OfNone),
        Event::PackageOut(PackageEvent::Exact),
        Event::PackageOut(PackageEvent::Longer),
        Event::PackageOut(PackageEvent::OtherArrival),
        Event::PackageOut(PackageEvent::TooShort),
        Event::PackageOut(PackageEvent::OneByteShort),
    ] {
        reached.assert_at_least(SCRIPTS / 20, event);
    }
    for status in [Status::New, Status::Valid, Status::Invalid] {
        for event in [
            PackageEvent::Change(status),
            PackageEvent::Withdrawn(status),
        ] {
            reached.assert_at_least(SCRIPTS / 20, Event::PackageOut(event));
        }
    }
    for own_write in OwnWrite::ALL {
        for event in [TurnEvent::OwnWriteFirst, TurnEvent::OwnWriteAgain] {
            reached.assert_at_least(SCRIPTS / 20, Event::Turn(event(own_write)));
        }
        let stood = TurnEvent::OwnWriteStood(own_write);
        reached.assert_at_least(SCRIPTS / 200, Event::Turn(stood));
    }
    for version in Version::ALL {
        for event in [
            PackageEvent::Version(version),
            PackageEvent::WithdrawnVersion(version),
            PackageEvent::BothVersions,
        ] {
            reached.assert_at_least(SCRIPTS / 20, Event::PackageOut(event));
        }
    }
    for (answered, answers) in [
        (
            Event::TakeInRefused as fn(u8) -> Event,
            &[4, 14, 6, 13, 7, 8, 9][..],
        ),
        (Event::WithdrawRefused, &[4, 14, 10, 11]),
        (Event::PackageRefused, &[1, 3]),
        (Event::ChangeAnswered, &[DONE, ALREADY_HELD, 4, 14, 7, 8, 9]),
        (Event::WithdrawalAnswered, &[DONE, 4, 14, 10, 11]),
    ] {
        for &answer in answers {
            reached.assert_at_least(SCRIPTS / 50, answered(answer));
        }
    }
    for length in REFUSED_TOTALS {
        reached.assert_at_least(SCRIPTS / 50, Event::DrainRefused(length));
    }
    for event in [
        Event::OtherVersionWhenFull,
        Event::TakenAtCutoff,
        Event::Refilled,
        Event::Turn(TurnEvent::KeptHolds),
    ] {
        reached.assert_at_least(SCRIPTS / 50, event);
    }
}

/// Panics unless so many lists of calls had cutoffs of every kind that calls can reach.
#[track_caller]
fn assert_cutoffs(reached: &Reached<Event>, lists: usize) {
    for event in [
        CutoffEvent::Done,
        CutoffEvent::DropsSome,
        CutoffEvent::ClosesUp,
        CutoffEvent::StaysAt,
        CutoffEvent::Kept,
    ] {
        reached.assert_at_least(lists, Event::Cutoff(event));
    }
    for event in [
        CutoffEvent::Refused(4),
        CutoffEvent::Refused(14),
        CutoffEvent::Refused(15),
        CutoffEvent::Unsettled(Status::New),
        CutoffEvent::Unsettled(Status::Invalid),
        CutoffEvent::UnsettledWithdrawn(Status::New),
        CutoffEvent::UnsettledWithdrawn(Status::Invalid),
        CutoffEvent::UnsettledHighest,
        CutoffEvent::Again,
        CutoffEvent::OfNone,
        CutoffEvent::DropsNone,
        CutoffEvent::DropsAll,
        CutoffEvent::GoesBelow,
        CutoffEvent::StaysBefore,
        CutoffEvent::OtherArrival,
        CutoffEvent::DroppedArrival,
        CutoffEvent::Waiting(Status::New),
        CutoffEvent::Waiting(Status::Invalid),
        CutoffEvent::Withdrawn,
        CutoffEvent::NoWrites,
        CutoffEvent::KeptAfterKept,
        CutoffEvent::KeptOfSeveral,
        CutoffEvent::KeptEarlierArrival,
        CutoffEvent::KeptUnlikeView,
        CutoffEvent::KeptBelowWrite,
        CutoffEvent::KeepsKept,
    ] {
        reached.assert_at_least(lists / 20, Event::Cutoff(event));
    }
}

/// Makes a call on the proved library alone.
fn make_alone(n: usize, tables: &mut tolbezun::Tables, call: Call) -> book::Call {
    match call {
        Call::TakeIn {
            timestamp,
            version,
            program,
        } => {
            let taken = proved::take_in(n, tables, timestamp, version, &program);
            book::Call::TakeIn {
                timestamp,
                version,
                program,
                answer: number(taken),
            }
        }
        Call::Withdraw { timestamp } => {
            let withdrawn = proved::withdraw(n, tables, timestamp);
            book::Call::Withdraw {
                timestamp,
                answer: number(withdrawn.map(|()| Taken::Done)),
            }
        }
        Call::Cutoff { timestamp } => {
            let made = proved::cutoff(n, tables, timestamp);
            book::Call::Cutoff {
                timestamp,
                answer: number(made.map(|()| Taken::Done)),
            }
        }
        Call::TakeInPackage {
            package,
            mut answers,
        } => {
            let taken = proved::take_in_package(n, tables, &package, &mut answers);
            book::Call::TakeInPackage {
                package,
                answers,
                answer: number(taken.map(|()| Taken::Done)),
            }
        }
        Call::Turn => book::Call::Turn(turn_alone(n, tables)),
        Call::Drain { mut totals } if totals.len() == TOTALS => {
            let mut single = tables.clone();
            let held = usize::from(single.held[0]);
            let turns = book::turns_of_drain(held, || turn_alone(n, &mut single));
            assert_eq!(proved::drain(n, tables, &mut totals), Ok(()));
            assert!(*tables == single, "a drain's turns are single turns");
            book::Call::Drain(Some((totals, turns)))
        }
        Call::Drain { mut totals } => {
            let given = (tables.clone(), totals.clone());
            assert_eq!(proved::drain(n, tables, &mut totals), Err(1));
            assert!(*tables == given.0 && totals == given.1);
            book::Call::Drain(None)
        }
    }
}

fn turn_alone(n: usize, tables: &mut tolbezun::Tables) -> Option<LoggedTurn> {
    proved::logged_turn(n, tables).expect("the tables are in form")
}

/// Demand 3 without the outside implementation's Checker.
#[test]
fn lists_of_calls_on_the_proved_library_alone_meet_demand_3() {
    let [drained, cut] = with_seeds(|random, share| {
        let [mut drained, mut cut] = [0; 2];
        for index in 0..share.of(SCRIPTS_ALONE) {
            let n = 1 + index % CAPACITIES;
            let mut source = Source::new(random, n);
            let mut tables = tolbezun::Tables::new(n);
            assert_eq!(proved::set_up(n, &mut tables), Ok(()));
            let mut calls = Vec::new();
            let last = calls_in_list(random, n);
            for index in 0..=last {
                let call = match index {
                    _ if index == last => Call::Drain {
                        totals: generate::totals(random, TOTALS),
                    },
                    _ => source.call(random, &proved::take_back(&tables)),
                };
                calls.push(make_alone(n, &mut tables, call));
                let left = || proved::take_back(&tables);
                let checked = match calls.last() {
                    Some(book::Call::Drain(Some(_))) => {
                        drained += 1;
                        book::check(&calls, &left())
                    }
                    Some(book::Call::Cutoff { .. }) => {
                        cut += 1;
                        book::check_kept(&calls, &left())
                    }
                    _ => Ok(()),
                };
                assert!(checked.is_ok(), "{checked:?} of {calls:?}");
            }
        }
        [drained, cut]
    });
    println!("demand 3 checked {drained} times, cutoffs {cut} times");
    assert!(drained > 4 * SCRIPTS_ALONE, "{drained}");
    assert!(cut > 2 * SCRIPTS_ALONE, "{cut}");
}

/// Tables of the highest capacity filled by packages of changes, by falling timestamp, with withdrawals
/// among them. Every third change is late: it comes after a drain. Then half of them are dropped, and as
/// many others come.
#[test]
fn full_tables_of_capacity_4096_have_the_same_answers_and_tables_and_meet_demand_3() {
    let reached = with_seeds(|random, share| {
        let n = share.of(MAX_CAPACITY);
        let mut reached = Reached::default();
        let mut script = Script::new(n);
        let source = Source::new(random, n);
        let mut timestamps: Vec<u64> = (1..=n as u64).rev().collect();
        timestamps.sort_by_key(|timestamp| timestamp % 3 == 0);
        let (first, late) = timestamps.split_at(n - n / 3);
        for (timestamps, full) in [(first, false), (late, true)] {
            for timestamps in timestamps.chunks(256) {
                let mut entries = Vec::new();
                for &timestamp in timestamps {
                    let change = source.stamped(random, timestamp);
                    entries.push(change.entry());
                    if random.below(16) == 0 {
                        let timestamp = 1 + random.below(n) as u64;
                        entries.push(Entry::Withdrawal { timestamp });
                    }
                }
                let package = lay_out(&entries);
                let answers = packages::answers(random, ANSWERS);
                script.make(Call::TakeInPackage { package, answers }, &mut reached);
            }
            if full {
                let change = source.stamped(random, n as u64 + 1);
                script.make(change.call(), &mut reached);
            }
            for _ in 0..8 {
                let timestamp = random.pick(first);
                script.make(Call::Withdraw { timestamp }, &mut reached);
                script.make(Call::Turn, &mut reached);
                script.both.ask_all(timestamp, source.setting(random));
            }
            let totals = generate::totals(random, TOTALS);
            script.drain_as_alone(totals, &mut reached);
        }
        assert_eq!(script.both.tables().held_count(), n);
        script.cutoff(n as u64 / 2 + 1, &mut reached);
        assert_eq!(script.both.tables().held_count(), n - n / 2);
        script.drain_as_alone(generate::totals(random, TOTALS), &mut reached);
        dropping::fill_up(random, &mut script, &mut reached);
        reached
    });

    reached.print();
    reached.assert_at_least(1, Event::Cutoff(CutoffEvent::DropsSome));
    reached.assert_at_least(MAX_CAPACITY, Event::ChangeAnswered(DONE));
    reached.assert_at_least(100, Event::WithdrawalAnswered(DONE));
    reached.assert_at_least(1, Event::TakeInRefused(9));
    reached.assert_at_least(4, Event::Withdrawn(Status::New));
    reached.assert_at_least(4, Event::Withdrawn(Status::Valid));
    reached.assert_at_least(8, Event::Turn(TurnEvent::RanFirst));
    reached.assert_at_least(500, Event::DrainMarks);
    reached.assert_at_least(3, Event::Drained);
}

/// Lists of calls at the highest capacity, with so many changes taken in first.
#[test]
fn lists_of_calls_at_capacity_4096_have_the_same_answers_and_tables_and_meet_demand_3() {
    const HELD: [usize; 5] = [100, 0, 1, 250, 500];
    let reached = count_reached(HELD.len(), |random, index, reached| {
        let source = &mut Source::new(random, MAX_CAPACITY);
        let mut script = Script::new(MAX_CAPACITY);
        for _ in 0..HELD[index] {
            let change = source.new_change(random).expect("there are enough");
            script.make(change.call(), reached);
        }
        script.make_all(random, source, 60, reached);
    });
    reached.assert_at_least(HELD.len(), Event::Drained);
    reached.assert_at_least(400, Event::Turn(TurnEvent::RanFirst));
    reached.assert_at_least(5, Event::Turn(TurnEvent::RanAgain));
}

/// The setting that names another one in chosen programs, and the setting that they write.
const NAMES: i32 = 36;
const WRITTEN: i32 = 40;

/// A program that writes [`WRITTEN`], at place 1, unless the place is that one, and reads or writes at
/// this place what [`NAMES`] names.
fn named_at(place: usize, op: u8) -> [Instruction; MAX_INSTRUCTIONS] {
    let instruction = |op, a, n| Instruction {
        op,
        a,
        n,
        ..Instruction::default()
    };
    let mut program = [instruction(op::CONSTANT, 7, 0); MAX_INSTRUCTIONS];
    program[0] = instruction(op::READ, 0, NAMES);
    program[1] = instruction(op::WRITE, 7, WRITTEN);
    program[place] = instruction(op, 7, 0);
    program
}

/// A program that sets [`NAMES`].
fn name(n: i32) -> [Instruction; 2] {
    [instruction(op::CONSTANT, n), instruction(op::WRITE, NAMES)]
}

/// Change 100 runs for the first time and six times more, as late changes say. By version 1 it does
/// not fault at what it has written.
#[test]
fn faults_at_every_place_are_shown() {
    let mut reached = Reached::default();
    for version in Version::ALL {
        for place in LOWEST_FAULT..MAX_INSTRUCTIONS {
            for op in [op::READ_INDEXED, op::WRITE_INDEXED] {
                let mut script = Script::new(8);
                script.take_in_by(version, 100, &named_at(place, op), &mut reached);
                let named = [-1, 41, 1024, WRITTEN, 41, WRITTEN, i32::MIN];
                for (timestamp, named) in (1..).zip(named) {
                    let turned = match named {
                        41 => Turned::Ran,
                        WRITTEN if place == 1 || version == Version::One => Turned::Ran,
                        _ => Turned::Faulted(place),
                    };
                    script.take_in(timestamp, &name(named), &mut reached);
                    let turns = [(timestamp, Turned::Ran), (100, turned)];
                    script.assert_drains(&turns, &mut reached);
                }
            }
        }
    }
    let places = MAX_INSTRUCTIONS - LOWEST_FAULT;
    for event in [
        TurnEvent::FaultedFirst,
        TurnEvent::FaultedAgain,
        TurnEvent::RanAfterFault,
        TurnEvent::FaultedAfterRan,
        TurnEvent::Faulted(Version::Zero, Fault::NoSuchSetting),
        TurnEvent::Faulted(Version::One, Fault::NoSuchSetting),
    ] {
        reached.assert_at_least(2 * places, Event::Turn(event));
    }
    // At place 1 nothing is written before.
    for event in [
        TurnEvent::FaultedAfterFault,
        TurnEvent::Faulted(Version::Zero, Fault::ReadOfWritten),
        TurnEvent::Faulted(Version::Zero, Fault::WrittenTwice),
        TurnEvent::OwnWriteAgain(OwnWrite::ReadBack(op::READ_INDEXED)),
    ] {
        reached.assert_at_least(2 * (places - 1), Event::Turn(event));
    }
}

#[test]
fn no_operation_faults_at_place_0() {
    let mut reached = Reached::default();
    let mut script = Script::new(usize::from(op::COUNT));
    for op in 0..op::COUNT {
        let timestamp = 1 + u64::from(op);
        let program = Instruction {
            op,
            ..Instruction::default()
        };
        script.take_in(timestamp, &[program], &mut reached);
        script.assert_drains(&[(timestamp, Turned::Ran)], &mut reached);
    }
}

#[test]
fn a_change_that_faulted_stands_and_is_cleared() {
    let mut reached = Reached::default();
    let mut script = Script::new(4);
    let faulted = Turned::Faulted(MAX_INSTRUCTIONS - 1);
    let program = named_at(MAX_INSTRUCTIONS - 1, op::WRITE_INDEXED);
    script.take_in(100, &program, &mut reached);
    script.take_in(1, &name(-1), &mut reached);
    script.assert_drains(&[(1, Turned::Ran), (100, faulted)], &mut reached);
    // 2 marks it, and 3 lets it stand.
    script.take_in(2, &name(41), &mut reached);
    script.make(Call::Turn, &mut reached);
    script.take_in(3, &name(-1), &mut reached);
    script.assert_drains(&[(3, Turned::Ran), (100, Turned::Stood)], &mut reached);
    reached.assert_at_least(1, Event::Turn(TurnEvent::StoodAfterFault));
    script.make(Call::Withdraw { timestamp: 100 }, &mut reached);
    script.assert_drains(&[(100, Turned::Cleared)], &mut reached);
}

/// Consoles 255, 0, 1, 10, 254, 0, 255 and 10: the first and the last among them, and some twice.
#[test]
fn totals_are_by_the_lowest_8_bits_of_the_timestamp() {
    let mut reached = Reached::default();
    let mut script = Script::new(8);
    for timestamp in [
        255,
        256,
        257,
        266,
        INFINITY - 1,
        INFINITY - 255,
        INFINITY - 256,
        10,
    ] {
        script.take_in(timestamp, &name(41), &mut reached);
    }
    let ran = [(0, 2), (4, 1), (40, 2), (1_016, 1), (1_020, 2)];
    script.assert_counts(&ran, &mut reached);
    script.assert_counts(&[], &mut reached);
    for timestamp in [256, 266, INFINITY - 256] {
        script.make(Call::Withdraw { timestamp }, &mut reached);
    }
    let cleared = [(2, 1), (42, 1), (1_022, 1)];
    script.assert_counts(&cleared, &mut reached);
}

/// Change 276, of console 20, runs again as others say.
#[test]
fn totals_show_the_console_whose_changes_run_again() {
    let mut reached = Reached::default();
    let mut script = Script::new(8);
    script.take_in(276, &named_at(1, op::WRITE_INDEXED), &mut reached);
    script.take_in(20, &[], &mut reached);
    script.assert_counts(&[(80, 2)], &mut reached);
    script.take_in(10, &name(-1), &mut reached);
    script.assert_counts(&[(40, 1), (83, 1)], &mut reached);
    script.take_in(266, &name(41), &mut reached);
    script.assert_counts(&[(40, 1), (80, 1)], &mut reached);
    // 268 marks it, and 270 lets it stand.
    script.take_in(268, &name(42), &mut reached);
    script.make(Call::Turn, &mut reached);
    script.take_in(270, &name(41), &mut reached);
    script.assert_counts(&[(56, 1), (81, 1)], &mut reached);
}

/// An instruction on register 0.
fn instruction(op: u8, n: i32) -> Instruction {
    Instruction {
        op,
        n,
        ..Instruction::default()
    }
}

/// A program that adds 1 to [`NAMES`], and puts what it reads back to [`WRITTEN`].
fn add_and_copy() -> [Instruction; 6] {
    let one = Instruction {
        a: 1,
        ..instruction(op::CONSTANT, 1)
    };
    let sum = Instruction {
        c: 1,
        ..instruction(op::ADD, 0)
    };
    [
        instruction(op::READ, NAMES),
        one,
        sum,
        instruction(op::WRITE, NAMES),
        instruction(op::READ, NAMES),
        instruction(op::WRITE, WRITTEN),
    ]
}

/// A program that sets [`NAMES`], and then again to this.
fn name_twice(n: i32) -> [Instruction; 4] {
    let [first, second] = [name(-1), name(n)];
    [first[0], first[1], second[0], second[1]]
}

/// The same programs by both versions. 36 starts at 0.
#[test]
fn each_change_runs_by_its_own_version() {
    let mut reached = Reached::default();
    let mut script = Script::new(4);
    for (version, timestamps) in [(Version::Zero, [10, 30]), (Version::One, [20, 40])] {
        let [first, second] = timestamps;
        script.take_in_by(version, first, &add_and_copy(), &mut reached);
        script.take_in_by(version, second, &name_twice(7), &mut reached);
    }
    let turns = [
        (10, Turned::Faulted(4)),
        (20, Turned::Ran),
        (30, Turned::Faulted(3)),
        (40, Turned::Ran),
    ];
    script.assert_drains(&turns, &mut reached);
    script.assert_lists(10, &[(36, 0)], &[]);
    script.assert_lists(20, &[(36, 0)], &[(36, 1), (40, 1)]);
    script.assert_lists(30, &[], &[]);
    script.assert_lists(40, &[], &[(36, 7)]);
}

/// Change 100, of version 1, runs again as late changes and withdrawals say, and not where they give
/// 36 the value that it saw.
#[test]
fn a_change_that_reads_back_runs_again_by_what_it_read_before() {
    let mut reached = Reached::default();
    let mut script = Script::new(8);
    script.take_in_by(Version::One, 100, &add_and_copy(), &mut reached);
    script.assert_drains(&[(100, Turned::Ran)], &mut reached);
    script.assert_lists(100, &[(36, 0)], &[(36, 1), (40, 1)]);

    script.take_in(10, &name(41), &mut reached);
    script.assert_drains(&[(10, Turned::Ran), (100, Turned::Ran)], &mut reached);
    script.assert_lists(100, &[(36, 41)], &[(36, 42), (40, 42)]);

    // The value that 20 replaces is another, its last one is the same.
    script.take_in_by(Version::One, 20, &name_twice(41), &mut reached);
    script.assert_drains(&[(20, Turned::Ran)], &mut reached);
    script.assert_lists(20, &[], &[(36, 41)]);
    script.make(Call::Withdraw { timestamp: 10 }, &mut reached);
    script.assert_drains(&[(10, Turned::Cleared)], &mut reached);

    // 30 marks it, and 50 lets it stand.
    script.take_in(30, &name(42), &mut reached);
    script.make(Call::Turn, &mut reached);
    script.take_in_by(Version::One, 50, &name_twice(41), &mut reached);
    script.assert_drains(&[(50, Turned::Ran), (100, Turned::Stood)], &mut reached);
    script.assert_lists(100, &[(36, 41)], &[(36, 42), (40, 42)]);

    script.make(Call::Withdraw { timestamp: 50 }, &mut reached);
    let turns = [(50, Turned::Cleared), (100, Turned::Ran)];
    script.assert_drains(&turns, &mut reached);
    script.assert_lists(100, &[(36, 42)], &[(36, 43), (40, 43)]);
    script.make(Call::Withdraw { timestamp: 100 }, &mut reached);
    script.assert_drains(&[(100, Turned::Cleared)], &mut reached);
    script.assert_lists(100, &[], &[]);

    let again = TurnEvent::OwnWriteAgain(OwnWrite::ReadBackAfterRead(op::READ));
    let stood = TurnEvent::OwnWriteStood(OwnWrite::ReadBackAfterRead(op::READ));
    reached.assert_at_least(2, Event::Turn(again));
    reached.assert_at_least(1, Event::Turn(stood));
}

/// Change 100, of version 1, sets 36 before it reads it: nothing late has it run again.
#[test]
fn a_change_that_only_reads_back_does_not_run_again() {
    let mut reached = Reached::default();
    let mut script = Script::new(4);
    let program = [&name(5)[..], &add_and_copy()].concat();
    script.take_in_by(Version::One, 100, &program, &mut reached);
    script.assert_drains(&[(100, Turned::Ran)], &mut reached);
    script.assert_lists(100, &[], &[(36, 6), (40, 6)]);
    script.take_in(10, &name(41), &mut reached);
    script.assert_drains(&[(10, Turned::Ran)], &mut reached);
    script.make(Call::Withdraw { timestamp: 10 }, &mut reached);
    script.assert_drains(&[(10, Turned::Cleared)], &mut reached);
    script.assert_lists(100, &[], &[(36, 6), (40, 6)]);
}

/// By version 0 a change that was sent by version 1 is another, and the other way round; the call
/// does not alter by which it runs.
#[test]
fn the_version_is_part_of_the_program() {
    let mut reached = Reached::default();
    for version in Version::ALL {
        let mut script = Script::new(1);
        let other = generate::other_version(version);
        let program = name_twice(7);
        script.take_in_by(version, 100, &program, &mut reached);
        let answer = script.try_take_in(version, 100, &program, &mut reached);
        assert_eq!(answer, ALREADY_HELD);
        let answer = script.try_take_in(other, 100, &program, &mut reached);
        assert_eq!(answer, 8);
        let turned = match version {
            Version::Zero => Turned::Faulted(3),
            Version::One => Turned::Ran,
        };
        script.assert_drains(&[(100, turned)], &mut reached);
        script.make(Call::Withdraw { timestamp: 100 }, &mut reached);
        let answer = script.try_take_in(other, 100, &program, &mut reached);
        assert_eq!(answer, 8);
        script.assert_drains(&[(100, Turned::Cleared)], &mut reached);
    }
    reached.assert_at_least(4, Event::OtherVersionWhenFull);
    reached.assert_at_least(2, Event::OtherVersionWithdrawn);
}
