//! The proved calls that only read against the outside implementation, on tables with any contents, and
//! every call on tables that are refused.

use comparison::both::{Answer, Both, Query};
use comparison::generate::tables::{self as random_tables, Breach, Table};
use comparison::generate::{self, packages, Random};
use comparison::own_writes::{self, OwnWrite};
use comparison::packages_out::{self, PackageEvent};
use comparison::proved::calls as proved;
use comparison::reached::Reached;
use comparison::seeds::{count_reached, with_seeds};
use outside::calls::Refusal;
use outside::checker::TOTALS;
use outside::package::{ANSWERS, MAX_BYTES};
use outside::program::{self, Version, SETTINGS};
use outside::start::start_value;
use outside::tables::{in_form, Status, Tables, INFINITY, LIST_ENTRIES, MAX_CAPACITY};
use std::collections::BTreeSet;

/// How many random tables calls are made on.
const TABLES: usize = 8_000;

/// How many queries are made on each.
const QUERIES: usize = 8;

/// How many tables are broken for each breach.
const BROKEN: usize = 100;

/// Both are asked to set up copies. The error is the refusal.
#[track_caller]
fn set_up(both: &Both) -> Result<(), u8> {
    both.clone().set_up()
}

/// The held count, or the capacity where it is above that.
fn held_count(tables: &Tables) -> usize {
    let held = tables.held.first().copied().unwrap_or(0);
    usize::from(held).min(tables.timestamps.len())
}

/// A timestamp to ask for: most often a held one or one next to it, or the cutoff or one next to that.
fn timestamp(random: &mut Random, both: &Both) -> u64 {
    let held = held_count(both.tables());
    match random.below(9) {
        0 => random.pick(&[0, 1, INFINITY - 1, INFINITY]),
        1 => random.bits(),
        8 => {
            let cutoff = both.tables().cutoff.first().copied().unwrap_or(0);
            cutoff.wrapping_add(random.below(3) as u64).wrapping_sub(1)
        }
        _ if held == 0 => random.bits(),
        choice => {
            let timestamp = both.tables().timestamps[random.below(held)];
            match choice {
                2 => timestamp.wrapping_add(1),
                3 => timestamp.wrapping_sub(1),
                4 => timestamp ^ 1 << random.below(64),
                _ => timestamp,
            }
        }
    }
}

/// A setting to ask for: most often one that a held change has written.
fn setting(random: &mut Random, both: &Both) -> usize {
    let held = held_count(both.tables());
    match random.below(8) {
        0 => random.pick(&[0, SETTINGS - 1, SETTINGS, 65_536, 1 << 32, usize::MAX]),
        1 => random.below(SETTINGS),
        _ if held == 0 => random.below(SETTINGS),
        _ => {
            let place = random.below(held);
            let count = usize::from(both.tables().writes[place]).clamp(1, LIST_ENTRIES);
            both.tables().targets[LIST_ENTRIES * place + random.below(count)].into()
        }
    }
}

fn query(random: &mut Random, both: &Both) -> Query {
    match random.below(9) {
        0 => Query::CurrentValue(setting(random, both)),
        1..5 => Query::ValueAsOf(timestamp(random, both), setting(random, both)),
        5 | 6 => Query::Standing(timestamp(random, both)),
        7 => Query::PackageOut(packages::room(random, both.tables())),
        _ => Query::PlainRun(match random.below(8) {
            0 => random.pick(&[0, 1, SETTINGS - 1, SETTINGS + 1, 2 * SETTINGS]),
            _ => SETTINGS,
        }),
    }
}

/// What the tests with random tables are to reach.
#[derive(Clone, Copy, Debug, PartialEq, Eq, PartialOrd, Ord)]
enum Event {
    InForm,
    /// In form, and out of form, after a slot is changed.
    ChangedInForm,
    ChangedNotInForm,
    Broken(Breach),
    CurrentValue,
    CurrentValueRefused(u8),
    /// Nothing writes the setting below the timestamp, and its kept value is its start value, which is
    /// this one, or another; or the highest write counts.
    AsOfStart(i32),
    AsOfKept,
    AsOfWritten,
    /// The timestamp is the cutoff, which is not 0.
    AsOfCutoff,
    AsOfInfinity,
    /// Several changes stamped below the timestamp write the setting.
    AsOfSeveral,
    /// The highest of them did not arrive last.
    AsOfEarlierArrival,
    AsOfWithdrawn,
    AsOfInvalid,
    /// The change with this timestamp writes the setting.
    AsOfOwnWrite,
    AsOfLaterWrite,
    ValueAsOfRefused(u8),
    Standing(Status, bool),
    StandingRefused(u8),
    PackageOut(PackageEvent),
    PlainRun,
    PlainRunOfNone,
    /// A run passes over a withdrawn change, meets a fault, reads what an earlier change wrote, and
    /// writes what an earlier change wrote.
    PlainRunPassesOver,
    PlainRunFaults,
    PlainRunReadsBack,
    PlainRunOverwrites,
    /// A change reads a kept value that is not the start value.
    PlainRunReadsKept,
    /// A change of version 1 does so and does not fault.
    PlainRunOwnWrite(OwnWrite),
    PlainRunRefused(u8),
    SetUp,
    SetUpRefused(u8),
}

fn count_answer(
    reached: &mut Reached<Event>,
    both: &Both,
    query: Query,
    answer: &Result<Answer, u8>,
) {
    match (query, answer) {
        (Query::CurrentValue(_), Ok(_)) => reached.count(Event::CurrentValue),
        (Query::CurrentValue(_), Err(n)) => reached.count(Event::CurrentValueRefused(*n)),
        (Query::ValueAsOf(timestamp, setting), Ok(_)) => {
            count_value_as_of(reached, both.tables(), timestamp, setting);
        }
        (Query::ValueAsOf(..), Err(n)) => reached.count(Event::ValueAsOfRefused(*n)),
        (Query::Standing(_), Ok(Answer::Standing(standing))) => {
            reached.count(Event::Standing(standing.status, standing.withdrawn));
        }
        (Query::Standing(_), Ok(answer)) => panic!("{answer:?} to {query:?}"),
        (Query::Standing(_), Err(n)) => reached.count(Event::StandingRefused(*n)),
        (Query::PackageOut(room), _) => {
            for event in packages_out::events(both.tables(), room, answer) {
                reached.count(Event::PackageOut(event));
            }
        }
        (Query::PlainRun(_), Ok(_)) => count_plain_run(reached, both.tables()),
        (Query::PlainRun(_), Err(n)) => reached.count(Event::PlainRunRefused(*n)),
    }
}

/// Counts what a value as of a timestamp, which is not refused, comes from.
fn count_value_as_of(
    reached: &mut Reached<Event>,
    tables: &Tables,
    timestamp: u64,
    setting: usize,
) {
    let writers: Vec<usize> = (0..tables.held_count())
        .filter(|&place| {
            let mut writes = tables.write_list(place);
            writes.any(|write| usize::from(write.setting) == setting)
        })
        .collect();
    let stamp = |place: usize| tables.timestamps[place];
    let below = || writers.iter().copied().filter(|&p| stamp(p) < timestamp);
    reached.count_if(timestamp == INFINITY, Event::AsOfInfinity);
    reached.count_if(timestamp == tables.cutoff(), Event::AsOfCutoff);
    let own = writers.iter().any(|&place| stamp(place) == timestamp);
    reached.count_if(own, Event::AsOfOwnWrite);
    let later = writers.iter().any(|&place| stamp(place) > timestamp);
    reached.count_if(later, Event::AsOfLaterWrite);
    let Some(highest) = below().max_by_key(|&place| stamp(place)) else {
        let start = start_value(setting);
        reached.count(match tables.kept[setting] == start {
            true => Event::AsOfStart(start),
            false => Event::AsOfKept,
        });
        return;
    };
    reached.count(Event::AsOfWritten);
    reached.count_if(below().count() > 1, Event::AsOfSeveral);
    reached.count_if(below().max() != Some(highest), Event::AsOfEarlierArrival);
    reached.count_if(tables.withdrawn[highest] == 1, Event::AsOfWithdrawn);
    reached.count_if(tables.status[highest] == 2, Event::AsOfInvalid);
}

/// Counts what a plain run, which is not refused, meets.
fn count_plain_run(reached: &mut Reached<Event>, tables: &Tables) {
    let held = tables.held_count();
    reached.count(Event::PlainRun);
    reached.count_if(held == 0, Event::PlainRunOfNone);
    let mut settings = tables.kept_settings();
    let mut written = [false; SETTINGS];
    let [mut passes_over, mut faults, mut reads_back, mut overwrites] = [false; 4];
    let mut reads_kept = false;
    let mut own_writes = BTreeSet::new();
    for place in tables.order[..held].iter().copied().map(usize::from) {
        if tables.withdrawn[place] == 1 {
            passes_over = true;
            continue;
        }
        let (version, program) = (tables.version(place), tables.program(place));
        let outcome = program::run(version, program, &settings);
        faults |= outcome.fault().is_some();
        if outcome.fault().is_none() {
            own_writes.extend(own_writes::of_run(version, program, &settings));
        }
        reads_kept |= outcome.reads().iter().any(|read| {
            let setting = usize::from(read.setting);
            !written[setting] && read.value != start_value(setting)
        });
        reads_back |= outcome
            .reads()
            .iter()
            .any(|read| read.value != 0 && written[usize::from(read.setting)]);
        for write in outcome.writes() {
            let setting = usize::from(write.setting);
            overwrites |= written[setting] && settings[setting] != write.value;
            written[setting] = true;
            settings[setting] = write.value;
        }
    }
    reached.count_if(passes_over, Event::PlainRunPassesOver);
    reached.count_if(faults, Event::PlainRunFaults);
    reached.count_if(reads_back, Event::PlainRunReadsBack);
    reached.count_if(overwrites, Event::PlainRunOverwrites);
    reached.count_if(reads_kept, Event::PlainRunReadsKept);
    for own_write in own_writes {
        reached.count(Event::PlainRunOwnWrite(own_write));
    }
}

#[test]
fn random_tables_have_the_same_answers() {
    let reached = count_reached(TABLES, |random, _, reached| {
        let n = random_tables::capacity(random);
        let held = random_tables::held_count(random, n);
        let mut tables = random_tables::in_form(random, n, held);
        assert!(in_form(n, &tables), "{:?}", Both::new(n, tables));
        if random.below(3) == 0 {
            random_tables::change_slot(random, &mut tables);
            reached.count(match in_form(n, &tables) {
                true => Event::ChangedInForm,
                false => Event::ChangedNotInForm,
            });
        } else {
            reached.count(Event::InForm);
        }
        // Most often the N that the tables have the lengths for.
        let n = match random.below(64) {
            0 => random.pick(&[0, n - 1, n + 1, 65_536 + n, (1 << 32) + n, usize::MAX]),
            _ => n,
        };
        let both = Both::new(n, tables);
        for _ in 0..QUERIES {
            let query = query(random, &both);
            let answer = both.ask(query);
            count_answer(reached, &both, query, &answer);
        }
        reached.count(match set_up(&both) {
            Ok(()) => Event::SetUp,
            Err(refusal) => Event::SetUpRefused(refusal),
        });
    });

    reached.assert_at_least(TABLES / 2, Event::InForm);
    reached.assert_at_least(TABLES / 2, Event::CurrentValue);
    reached.assert_at_least(TABLES / 2, Event::PlainRun);
    reached.assert_at_least(TABLES / 2, Event::SetUp);
    for event in [
        Event::ChangedInForm,
        Event::ChangedNotInForm,
        Event::AsOfStart(0),
        Event::AsOfStart(1),
        Event::AsOfKept,
        Event::AsOfCutoff,
        Event::AsOfWritten,
        Event::AsOfInfinity,
        Event::AsOfSeveral,
        Event::AsOfEarlierArrival,
        Event::AsOfWithdrawn,
        Event::AsOfInvalid,
        Event::AsOfOwnWrite,
        Event::AsOfLaterWrite,
        Event::PlainRunOfNone,
        Event::PlainRunPassesOver,
        Event::PlainRunFaults,
        Event::PlainRunReadsBack,
        Event::PlainRunOverwrites,
        Event::PlainRunReadsKept,
    ] {
        reached.assert_at_least(TABLES / 50, event);
    }
    for status in [Status::New, Status::Valid, Status::Invalid] {
        for withdrawn in [false, true] {
            reached.assert_at_least(TABLES / 50, Event::Standing(status, withdrawn));
        }
    }
    for (refused, refusals) in [
        (
            Event::CurrentValueRefused as fn(u8) -> Event,
            &[1, 2, 5][..],
        ),
        (Event::ValueAsOfRefused, &[1, 2, 4, 14, 5]),
        (Event::StandingRefused, &[1, 2, 4, 14, 10]),
        (
            |refusal| Event::PackageOut(PackageEvent::Refused(refusal)),
            &[1, 2, 12],
        ),
        (Event::PlainRunRefused, &[1, 2]),
        (Event::SetUpRefused, &[1]),
    ] {
        for &refusal in refusals {
            reached.assert_at_least(TABLES / 500, refused(refusal));
        }
    }
    for event in [
        PackageEvent::Written,
        PackageEvent::OfNone,
        PackageEvent::Exact,
        PackageEvent::Longer,
        PackageEvent::OtherArrival,
        PackageEvent::TooShort,
        PackageEvent::OneByteShort,
    ] {
        reached.assert_at_least(TABLES / 50, Event::PackageOut(event));
    }
    for status in [Status::New, Status::Valid, Status::Invalid] {
        for event in [
            PackageEvent::Change(status),
            PackageEvent::Withdrawn(status),
        ] {
            reached.assert_at_least(TABLES / 50, Event::PackageOut(event));
        }
    }
    for version in Version::ALL {
        for event in [
            PackageEvent::Version(version),
            PackageEvent::WithdrawnVersion(version),
            PackageEvent::BothVersions,
        ] {
            reached.assert_at_least(TABLES / 50, Event::PackageOut(event));
        }
    }
    for own_write in OwnWrite::ALL {
        reached.assert_at_least(TABLES / 500, Event::PlainRunOwnWrite(own_write));
    }
}

/// Random tables with this breach.
fn broken(random: &mut Random, breach: Breach) -> Both {
    loop {
        let n = random_tables::capacity(random);
        let held = random_tables::held_count(random, n);
        let mut tables = random_tables::in_form(random, n, held);
        if breach.make(random, &mut tables).is_some() {
            return Both::new(n, tables);
        }
    }
}

/// Every call refuses these tables, 2, but for set up, which tests lengths alone.
#[track_caller]
fn assert_not_in_form(random: &mut Random, mut both: Both) {
    both.assert_all_refused(random, 2);
    assert_eq!(both.set_up(), Ok(()));
}

#[test]
fn every_breach_of_form_is_refused() {
    let reached = count_reached(BROKEN * Breach::ALL.len(), |random, index, reached| {
        let breach = Breach::ALL[index % Breach::ALL.len()];
        let both = broken(random, breach);
        assert_not_in_form(random, both);
        reached.count(Event::Broken(breach));
    });
    for breach in Breach::ALL {
        reached.assert_at_least(BROKEN, Event::Broken(breach));
    }
}

#[test]
fn every_breach_of_form_is_refused_at_capacity_4096() {
    let reached = count_reached(3, |random, index, reached| {
        let held = [300, MAX_CAPACITY, 0][index];
        let in_form = random_tables::in_form(random, MAX_CAPACITY, held);
        let breaches: &[Breach] = match held {
            0 => &[Breach::CutoffInfinity],
            _ => &Breach::ALL,
        };
        for &breach in breaches {
            let mut tables = in_form.clone();
            if breach.make(random, &mut tables).is_some() {
                assert_not_in_form(random, Both::new(MAX_CAPACITY, tables));
                reached.count(Event::Broken(breach));
            }
        }
    });
    for breach in Breach::ALL {
        // Full tables have no unused slots and no room for a held count too high, and only tables that
        // hold nothing have a cutoff too high alone.
        let least = match breach {
            Breach::HeldTooMany | Breach::Unused(_) | Breach::CutoffInfinity => 1,
            _ => 2,
        };
        reached.assert_at_least(least, Event::Broken(breach));
    }
}

/// Each place of tables in form alone with a version that it cannot have: one above 1 where it is
/// held, and any but 0 where it is not.
#[test]
fn every_place_with_a_wrong_version_is_refused() {
    let refused = with_seeds(|random, share| {
        let mut refused = 0;
        for index in 0..share.of(8) {
            let (n, held) = (6, index % 7);
            let in_form = random_tables::in_form(random, n, held);
            for place in 0..n {
                let wrong: &[u16] = match place < held {
                    true => &[2, 3, 255, 256, 257, u16::MAX],
                    false => &[1, 2, 255, 256, 257, u16::MAX],
                };
                for &version in wrong {
                    let mut tables = in_form.clone();
                    tables.versions[place] = version;
                    assert_not_in_form(random, Both::new(n, tables));
                    refused += 1;
                }
                let mut tables = in_form.clone();
                tables.versions[place] = u16::from(place < held);
                let both = Both::new(n, tables);
                assert!(both.ask(Query::CurrentValue(0)).is_ok());
            }
        }
        refused
    });
    assert_eq!(refused, 8 * 6 * 6);
}

/// Every cutoff next to a held timestamp and at the ends: those at most the lowest timestamp are in form,
/// whatever is kept, and no others.
#[test]
fn every_cutoff_above_a_held_timestamp_is_refused() {
    let [refused, in_form] = with_seeds(|random, share| {
        let [mut refused, mut in_form] = [0; 2];
        for index in 0..share.of(20) {
            let (n, held) = (4, index % 5);
            let tables = random_tables::in_form(random, n, held);
            let stamps = tables.timestamps[..held].to_vec();
            let next = stamps
                .iter()
                .flat_map(|&stamp| [stamp - 1, stamp, stamp + 1]);
            let ends = [0, 1, 1 << 32, 1 << 63, INFINITY - 1, INFINITY];
            for cutoff in next.chain(ends) {
                let mut tables = tables.clone();
                tables.cutoff[0] = cutoff;
                tables.kept.fill_with(|| random.bits() as i32);
                let both = Both::new(n, tables);
                if cutoff == INFINITY || stamps.iter().any(|&stamp| stamp < cutoff) {
                    assert_not_in_form(random, both);
                    refused += 1;
                } else {
                    assert!(both.ask(Query::CurrentValue(0)).is_ok());
                    in_form += 1;
                }
            }
        }
        [refused, in_form]
    });
    println!("{refused} cutoffs refused, {in_form} in form");
    assert!(refused > 80 && in_form > 40, "{refused}, {in_form}");
}

#[test]
fn tables_of_capacity_4096_have_the_same_answers() {
    with_seeds(|random, _| {
        for (held, full_lists) in [
            (0, false),
            (1, false),
            (700, true),
            (MAX_CAPACITY - 1, false),
            (MAX_CAPACITY, false),
            (MAX_CAPACITY, true),
        ] {
            let tables = match full_lists {
                true => random_tables::in_form_with_full_lists(random, MAX_CAPACITY, held),
                false => random_tables::in_form(random, MAX_CAPACITY, held),
            };
            let both = Both::new(MAX_CAPACITY, tables);
            let last = match held {
                0 => INFINITY - 1,
                _ => both.tables().timestamps[held - 1],
            };
            let target = usize::from(both.tables().targets[LIST_ENTRIES * (held / 2)]);
            for query in [
                Query::CurrentValue(SETTINGS - 1),
                Query::ValueAsOf(INFINITY, target),
                Query::ValueAsOf(last, target),
                Query::PlainRun(SETTINGS),
            ] {
                let answer = both.ask(query);
                assert!(answer.is_ok(), "{answer:?} to {query:?}");
            }
            let answer = both.ask(Query::Standing(last));
            assert_eq!(answer.is_ok(), held > 0, "{answer:?}");
            let answer = both.ask(Query::PackageOut(MAX_BYTES));
            assert_eq!(answer.err(), (held > 1).then_some(12));
            assert_eq!(set_up(&both), Ok(()));
        }
    });
}

/// The timestamps and the settings at the ends, all held timestamps, the cutoff, and those next to
/// them.
#[test]
fn arguments_at_the_bounds_have_the_same_answers() {
    let asked = with_seeds(|random, share| {
        let mut asked = 0;
        for index in 0..share.of(60) {
            let n = 1 + random.below(6);
            let tables = random_tables::in_form(random, n, index % (n + 1));
            let both = Both::new(n, tables);
            let cutoff = both.tables().cutoff();
            let mut timestamps = vec![0, 1, 2, 1 << 32, 1 << 63, INFINITY - 1, INFINITY];
            timestamps.extend([cutoff.saturating_sub(1), cutoff, cutoff + 1]);
            for &timestamp in &both.tables().timestamps[..held_count(both.tables())] {
                timestamps.extend([timestamp - 1, timestamp, timestamp + 1]);
            }
            let mut settings = vec![0, 1, SETTINGS - 1, SETTINGS, 65_535, 65_536, usize::MAX];
            for place in 0..held_count(both.tables()) {
                let writes = both.tables().write_list(place).take(2);
                settings.extend(writes.map(|write| usize::from(write.setting)));
            }
            for &setting in &settings {
                let refusal = (setting >= SETTINGS).then_some(5);
                let answer = both.ask(Query::CurrentValue(setting));
                assert_eq!(answer.err(), refusal);
                for &timestamp in &timestamps {
                    let refusal = match timestamp {
                        0 => Some(4),
                        _ if timestamp < cutoff => Some(14),
                        _ => refusal,
                    };
                    let answer = both.ask(Query::ValueAsOf(timestamp, setting));
                    assert_eq!(answer.err(), refusal);
                    asked += 1;
                }
            }
            for &timestamp in &timestamps {
                let refusal = match timestamp {
                    0 | INFINITY => Some(4),
                    _ if timestamp < cutoff => Some(14),
                    _ if both.tables().timestamps.contains(&timestamp) => None,
                    _ => Some(10),
                };
                assert_eq!(both.ask(Query::Standing(timestamp)).err(), refusal);
            }
        }
        asked
    });
    println!("asked {asked} times for a value as of a timestamp");
    assert!(asked > 3_000, "{asked}");
}

#[test]
fn every_setting_has_the_same_value() {
    with_seeds(|random, _| {
        for tables in [
            random_tables::in_form(random, 5, 5),
            random_tables::in_form_with_full_lists(random, 5, 4),
        ] {
            let both = Both::new(5, tables);
            let last = both.tables().timestamps[usize::from(both.tables().order[3])];
            for setting in 0..SETTINGS {
                let value = Answer::Value(both.tables().view[setting]);
                assert_eq!(both.ask(Query::CurrentValue(setting)), Ok(value));
                for timestamp in [last, INFINITY] {
                    assert!(both.ask(Query::ValueAsOf(timestamp, setting)).is_ok());
                }
            }
        }
    });
}

/// Each table alone shorter, longer and empty, with contents that are in form and with random ones.
#[test]
fn every_wrong_length_is_refused() {
    const CAPACITIES: [usize; 5] = [1, 2, 5, 64, MAX_CAPACITY];
    let refused = with_seeds(|random, share| {
        let mut refused = 0;
        for &n in &CAPACITIES[..share.of(CAPACITIES.len())] {
            let in_form = random_tables::in_form(random, n, n.min(64) / 2);
            let mut filled = in_form.clone();
            random_tables::fill(random, &mut filled);
            for tables in [in_form, filled] {
                for &table in Table::ALL {
                    let right = table.length(&tables);
                    for length in [0, right - 1, right + 1, 2 * right] {
                        let mut tables = tables.clone();
                        table.resize(&mut tables, length);
                        let mut both = Both::new(n, tables);
                        both.assert_all_refused(random, 1);
                        assert_eq!(set_up(&both), Err(1), "{table:?} of {length}");
                        refused += 1;
                    }
                }
                let mut both = Both::new(n, tables);
                for length in [0, 1, SETTINGS - 1, SETTINGS + 1, 2 * SETTINGS] {
                    assert_eq!(both.ask(Query::PlainRun(length)), Err(1));
                }
                for length in [0, 1, ANSWERS - 1, ANSWERS + 1, SETTINGS] {
                    let mut answers = packages::answers(random, length);
                    let taken = both.take_in_package(&[0, 0], &mut answers);
                    assert_eq!(taken, Err(1));
                }
                for length in [0, 4, TOTALS - 1, TOTALS + 1, 65_536 + TOTALS] {
                    let mut totals = generate::totals(random, length);
                    assert_eq!(both.drain(&mut totals), Err(1));
                }
            }
        }
        refused
    });
    println!("refused {refused} lengths");
    assert_eq!(refused, CAPACITIES.len() * 2 * Table::ALL.len() * 4);
}

#[test]
fn capacities_other_than_1_to_4096_are_refused() {
    with_seeds(|random, share| {
        for &n in &[0, MAX_CAPACITY + 1, 65_536][..share.of(3)] {
            for held in [0, 1] {
                let mut tables = Tables::new(n);
                tables.held[0] = held;
                let mut both = Both::new(n, tables);
                both.assert_all_refused(random, 1);
                assert_eq!(set_up(&both), Err(1));
            }
        }
        for &n in &[1, MAX_CAPACITY][..share.of(2)] {
            let both = Both::new(n, Tables::new(n));
            assert_eq!(both.ask(Query::CurrentValue(0)), Ok(Answer::Value(0)));
            assert_eq!(set_up(&both), Ok(()));
            // 256 × N and 32 × N may wrap to the right length.
            for other in [
                0,
                n - 1,
                n + 1,
                65_536 + n,
                1 << 32 | n,
                1 << 56 | n,
                1 << 59 | n,
            ] {
                let mut both = Both::new(other, Tables::new(n));
                both.assert_all_refused(random, 1);
                assert_eq!(set_up(&both), Err(1));
            }
        }
    });
}

#[test]
fn start_values_are_the_outside_ones_in_a_slice_of_1024_alone() {
    let mut lengths: Vec<usize> = (0..2 * SETTINGS + 2).collect();
    lengths.push(65_536 + SETTINGS);
    for length in lengths {
        let mut by_proved = vec![-7; length];
        let mut by_outside = by_proved.clone();
        let answer = proved::start_values(&mut by_proved);
        let expected = outside::start::start_values(&mut by_outside);
        assert_eq!(answer, expected.map_err(Refusal::number), "{length}");
        assert_eq!(answer.is_ok(), length == SETTINGS, "{length}");
        assert!(by_proved == by_outside, "{length}");
    }
}

#[test]
fn set_up_leaves_the_same_tables_whatever_they_held() {
    with_seeds(|random, share| {
        for index in 0..share.of(200) {
            let n = match index {
                0 => MAX_CAPACITY,
                _ => random_tables::capacity(random),
            };
            let mut tables = Tables::new(n);
            random_tables::fill(random, &mut tables);
            let mut both = Both::new(n, tables);
            assert_eq!(both.set_up(), Ok(()));
            assert!(*both.tables() == Tables::new(n));
        }
    });
}
