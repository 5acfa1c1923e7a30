//! The calls, made on the proved library and on the outside implementation, and compared.

use crate::generate::{self, packages, Random};
use crate::packages_out::Size;
use crate::proved::calls as proved;
use outside::calls::{self, Refusal, Standing};
use outside::checker::{self, Turn, TOTALS};
use outside::cutoff;
use outside::intake::{self, Taken};
use outside::package::{self, ANSWERS};
use outside::program::SETTINGS;
use outside::tables::{Tables, INFINITY};
use std::fmt::{self, Debug};

/// A call that only reads the tables, with its arguments besides N and the tables.
#[derive(Clone, Copy, Debug)]
#[allow(missing_docs)]
pub enum Query {
    CurrentValue(usize),
    ValueAsOf(u64, usize),
    Standing(u64),
    /// With a lent slice of this length.
    PackageOut(usize),
    /// With a lent slice of this length.
    PlainRun(usize),
}

/// What a query answers.
#[derive(Clone, Debug, PartialEq, Eq)]
#[allow(missing_docs)]
pub enum Answer {
    Value(i32),
    Standing(Standing),
    /// What package out writes to the lent slice.
    Package(Vec<u8>),
    /// What the plain run leaves in the lent slice.
    Settings(Vec<i32>),
}

/// Tables for each of the two, which every call must leave alike. The error of a call is the
/// refusal, which must alter no lent slice.
#[derive(Clone)]
pub struct Both {
    n: usize,
    proved: tolbezun::Tables,
    outside: Tables,
}

impl Both {
    /// Lends each of the two a copy of these tables.
    pub fn new(n: usize, tables: Tables) -> Self {
        Self {
            n,
            proved: proved::lend(&tables),
            outside: tables,
        }
    }

    /// Tables of capacity `n`, which must be one, just set up.
    pub fn just_set_up(n: usize) -> Self {
        let mut tables = Tables::new(n);
        tables.view.fill(-1);
        tables.cutoff.fill(INFINITY);
        tables.kept.fill(-1);
        let mut both = Self::new(n, tables);
        assert_eq!(both.set_up(), Ok(()), "set up of capacity {n}");
        both
    }

    /// The capacity that calls are made with.
    pub fn capacity(&self) -> usize {
        self.n
    }

    /// The tables, which both have alike.
    pub fn tables(&self) -> &Tables {
        &self.outside
    }

    /// The tables as the proved library is lent them.
    pub fn proved_tables(&self) -> &tolbezun::Tables {
        &self.proved
    }

    /// Sets up the tables.
    #[track_caller]
    pub fn set_up(&mut self) -> Result<(), u8> {
        self.call(&"set up", proved::set_up, calls::set_up)
    }

    /// Takes in a change. The version may be any number.
    #[track_caller]
    pub fn take_in(&mut self, timestamp: u64, version: u16, program: &[u8]) -> Result<Taken, u8> {
        self.call(
            &format_args!("taking in {timestamp} of version {version}, {program:?}"),
            |n, tables| proved::take_in(n, tables, timestamp, version, program),
            |n, tables| intake::take_in(n, tables, timestamp, version, program),
        )
    }

    /// Withdraws a change.
    #[track_caller]
    pub fn withdraw(&mut self, timestamp: u64) -> Result<(), u8> {
        self.call(
            &format_args!("withdrawing {timestamp}"),
            |n, tables| proved::withdraw(n, tables, timestamp),
            |n, tables| intake::withdraw(n, tables, timestamp),
        )
    }

    /// Drops every change stamped below a timestamp.
    #[track_caller]
    pub fn cutoff(&mut self, timestamp: u64) -> Result<(), u8> {
        self.call(
            &format_args!("a cutoff at {timestamp}"),
            |n, tables| proved::cutoff(n, tables, timestamp),
            |n, tables| cutoff::cutoff(n, tables, timestamp),
        )
    }

    /// Takes in a package. The answers are left as both leave them.
    #[track_caller]
    pub fn take_in_package(&mut self, package: &[u8], answers: &mut [u8]) -> Result<(), u8> {
        self.call_lending(
            &format_args!("taking in the package {package:?}"),
            answers,
            |n, tables, answers| proved::take_in_package(n, tables, package, answers),
            |n, tables, answers| package::take_in_package(n, tables, package, answers),
        )
    }

    /// Makes a turn. The answer is none for idle.
    #[track_caller]
    pub fn turn(&mut self) -> Result<Option<Turn>, u8> {
        self.call(&"a turn", proved::turn, checker::turn)
    }

    /// Drains. The totals are left as both leave them.
    #[track_caller]
    pub fn drain(&mut self, totals: &mut [u16]) -> Result<(), u8> {
        self.call_lending(&"a drain", totals, proved::drain, checker::drain)
    }

    /// Makes a call that only reads.
    #[track_caller]
    pub fn ask(&self, query: Query) -> Result<Answer, u8> {
        let (n, proved, outside) = (self.n, &self.proved, &self.outside);
        let (by_proved, by_outside) = match query {
            Query::CurrentValue(setting) => (
                proved::current_value(n, proved, setting).map(Answer::Value),
                calls::current_value(n, outside, setting).map(Answer::Value),
            ),
            Query::ValueAsOf(timestamp, setting) => (
                proved::value_as_of(n, proved, timestamp, setting).map(Answer::Value),
                calls::value_as_of(n, outside, timestamp, setting).map(Answer::Value),
            ),
            Query::Standing(timestamp) => (
                proved::standing(n, proved, timestamp).map(Answer::Standing),
                calls::standing(n, outside, timestamp).map(Answer::Standing),
            ),
            Query::PackageOut(length) => (
                written(length, |lent| proved::package_out(n, proved, lent)),
                written(length, |lent| package::package_out(n, outside, lent)),
            ),
            Query::PlainRun(length) => {
                let given = vec![0x5A5A_5A5A; length];
                let (mut left, mut left_outside) = (given.clone(), given.clone());
                let by_proved = proved::plain_run(n, proved, &mut left);
                let by_outside = calls::plain_run(n, outside, &mut left_outside);
                assert!(
                    by_proved.is_ok() || left == given,
                    "{by_proved:?} of {query:?} alters the slice: {self:?}"
                );
                (
                    by_proved.map(|()| Answer::Settings(left)),
                    by_outside.map(|()| Answer::Settings(left_outside)),
                )
            }
        };
        assert_same(&query, &by_proved, by_outside);
        self.assert_alike(&query);
        by_proved
    }

    /// What package out writes, lent a slice of this length.
    #[track_caller]
    pub fn package_out(&self, room: usize) -> Result<Vec<u8>, u8> {
        match self.ask(Query::PackageOut(room))? {
            Answer::Package(package) => Ok(package),
            answer => panic!("{answer:?} of package out"),
        }
    }

    /// Makes every call that only reads, with this timestamp and this setting.
    #[track_caller]
    pub fn ask_all(&self, timestamp: u64, setting: usize) {
        for query in [
            Query::CurrentValue(setting),
            Query::ValueAsOf(timestamp, setting),
            Query::Standing(timestamp),
            Query::PackageOut(Size::of(&self.outside).bytes),
            Query::PlainRun(SETTINGS),
        ] {
            let _ = self.ask(query);
        }
    }

    /// Makes every call but set up, with arguments that are right and with arguments that a later
    /// refusal turns down. All must be refused so.
    #[track_caller]
    pub fn assert_all_refused(&mut self, random: &mut Random, refusal: u8) {
        let setting = random.below(SETTINGS);
        let held = self.outside.timestamps.first().copied().unwrap_or(1);
        for query in [
            Query::CurrentValue(setting),
            Query::CurrentValue(SETTINGS),
            Query::ValueAsOf(held, setting),
            Query::ValueAsOf(random.pick(&[0, held]), SETTINGS),
            Query::Standing(held),
            Query::Standing(random.pick(&[0, INFINITY])),
            Query::PackageOut(packages::room(random, &self.outside)),
            Query::PackageOut(0),
            Query::PlainRun(SETTINGS),
        ] {
            assert_eq!(self.ask(query), Err(refusal), "{query:?} on {self:?}");
        }
        for timestamp in [held, 77, 0] {
            for (version, program) in [(0, &[][..]), (1, &[]), (2, &[]), (u16::MAX, &[255; 9])] {
                let taken = self.take_in(timestamp, version, program);
                assert_eq!(taken, Err(refusal), "{self:?}");
            }
            assert_eq!(self.withdraw(timestamp), Err(refusal), "{self:?}");
            assert_eq!(self.cutoff(timestamp), Err(refusal), "{self:?}");
        }
        for package in [&[0, 0][..], &[0, 0, 0]] {
            let mut answers = packages::answers(random, ANSWERS);
            let taken = self.take_in_package(package, &mut answers);
            assert_eq!(taken, Err(refusal), "{self:?}");
        }
        assert_eq!(self.turn(), Err(refusal), "{self:?}");
        let mut totals = generate::totals(random, TOTALS);
        assert_eq!(self.drain(&mut totals), Err(refusal), "{self:?}");
    }

    #[track_caller]
    fn call<A: Copy + Debug + PartialEq>(
        &mut self,
        call: &dyn Debug,
        proved: impl FnOnce(usize, &mut tolbezun::Tables) -> Result<A, u8>,
        outside: impl FnOnce(usize, &mut Tables) -> Result<A, Refusal>,
    ) -> Result<A, u8> {
        let before = self.outside.clone();
        let answer = proved(self.n, &mut self.proved);
        assert_same(call, &answer, outside(self.n, &mut self.outside));
        self.assert_alike(call);
        assert!(
            answer.is_ok() || self.outside == before,
            "{answer:?} of {call:?} alters the tables"
        );
        answer
    }

    /// Makes a call that is lent a slice besides the tables. Both must leave it alike, and a refusal as
    /// it was.
    #[track_caller]
    fn call_lending<T: Copy + Debug + PartialEq>(
        &mut self,
        call: &dyn Debug,
        lent: &mut [T],
        proved: impl FnOnce(usize, &mut tolbezun::Tables, &mut [T]) -> Result<(), u8>,
        outside: impl FnOnce(usize, &mut Tables, &mut [T]) -> Result<(), Refusal>,
    ) -> Result<(), u8> {
        let given = lent.to_vec();
        let mut by_proved = given.clone();
        let answer = self.call(
            call,
            |n, tables| proved(n, tables, &mut by_proved),
            |n, tables| outside(n, tables, lent),
        );
        assert!(
            by_proved == lent,
            "{call:?} leaves {by_proved:?}, by the outside {lent:?}, of {self:?}"
        );
        assert!(
            answer.is_ok() || by_proved == given,
            "{answer:?} of {call:?} alters the lent slice"
        );
        answer
    }

    #[track_caller]
    fn assert_alike(&self, call: &dyn Debug) {
        let unlike = proved::unlike(&self.proved, &self.outside);
        assert!(
            unlike.is_empty(),
            "{call:?} leaves unlike {unlike:?} of {self:?}"
        );
    }
}

/// The tables without programs, lists, view and kept values.
impl Debug for Both {
    fn fmt(&self, f: &mut fmt::Formatter<'_>) -> fmt::Result {
        f.debug_struct("Both")
            .field("n", &self.n)
            .field("held", &self.outside.held)
            .field("timestamps", &self.outside.timestamps)
            .field("order", &self.outside.order)
            .field("status", &self.outside.status)
            .field("withdrawn", &self.outside.withdrawn)
            .field("lengths", &self.outside.lengths)
            .field("versions", &self.outside.versions)
            .field("reads", &self.outside.reads)
            .field("writes", &self.outside.writes)
            .field("cutoff", &self.outside.cutoff)
            .finish_non_exhaustive()
    }
}

/// What a call writes to the first of so many bytes. It must leave the later ones as they were, and
/// all where it is refused.
#[track_caller]
fn written<E: Debug>(
    length: usize,
    call: impl FnOnce(&mut [u8]) -> Result<usize, E>,
) -> Result<Answer, E> {
    let given: Vec<u8> = (0..length).map(|index| 1 + (index % 255) as u8).collect();
    let mut left = given.clone();
    let written = call(&mut left);
    let first = *written.as_ref().unwrap_or(&0);
    assert!(
        left[first..] == given[first..],
        "{written:?} bytes are written, and later ones altered"
    );
    left.truncate(first);
    written.map(|_| Answer::Package(left))
}

#[track_caller]
fn assert_same<A: Debug + PartialEq>(
    call: &dyn Debug,
    proved: &Result<A, u8>,
    outside: Result<A, Refusal>,
) {
    let outside = outside.map_err(Refusal::number);
    assert!(
        *proved == outside,
        "proved {proved:?}, outside {outside:?} of {call:?}"
    );
}
