//! The proved search for the previous writer against one that looks at all changes, on order lists
//! and write lists of any contents, and against value as of on tables that calls reach.

use comparison::both::{Answer, Both, Query};
use comparison::generate::scripts::{Change, Source};
use comparison::generate::write_lists::WriteLists;
use comparison::generate::Random;
use comparison::proved::searches::{search, search_lent, Searched};
use comparison::reached::Reached;
use comparison::seeds::{count_reached, with_seeds};
use outside::checker::TOTALS;
use outside::intake::Taken;
use outside::program::{Access, SETTINGS};
use outside::start::start_value;
use outside::tables::{INFINITY, LIST_ENTRIES, MAX_CAPACITY};

/// How many lists are searched in, and how many of 4,096 places.
const LISTS: usize = 20_000;
const LARGEST: usize = 60;

/// How many settings are searched for in each.
const SEARCHES: usize = 8;

/// How many cabinets are drained and searched in.
const CABINETS: usize = 300;

/// The slots for the list of the change at this position.
fn slots<'a>(searched: &Searched<'a>, position: usize) -> impl Iterator<Item = Access> + 'a {
    let first = LIST_ENTRIES * usize::from(searched.order[position]);
    let settings = &searched.targets[first..][..LIST_ENTRIES];
    let pairs = settings.iter().zip(&searched.written[first..]);
    pairs.map(|(&setting, &value)| Access { setting, value })
}

/// The write list of the change at this position.
fn list<'a>(searched: &Searched<'a>, position: usize) -> impl Iterator<Item = Access> + 'a {
    let place = usize::from(searched.order[position]);
    slots(searched, position).take(searched.writes[place].into())
}

fn names(mut entries: impl Iterator<Item = Access>, setting: u16) -> bool {
    entries.any(|entry| entry.setting == setting)
}

/// The positions of all changes below the searched one that write the setting.
fn writers<'a>(searched: &'a Searched, setting: u16) -> impl Iterator<Item = usize> + 'a {
    let below = 0..searched.position;
    below.filter(move |&position| names(list(searched, position), setting))
}

/// What the change at this position writes to the setting, in the order of its list.
fn written(searched: &Searched, position: usize, setting: u16) -> Vec<i32> {
    let entries = list(searched, position).filter(|entry| entry.setting == setting);
    entries.map(|entry| entry.value).collect()
}

/// The last value that the highest writer of the setting below the position writes to it.
fn previous_write(searched: &Searched, setting: u16) -> Option<i32> {
    let highest = writers(searched, setting).max()?;
    written(searched, highest, setting).pop()
}

/// The proved search, which must give the same.
#[track_caller]
fn compare(searched: &Searched, settings: &[u16]) {
    let proved = search(searched, settings);
    let write = |&setting: &u16| previous_write(searched, setting);
    let expected: Vec<Option<i32>> = settings.iter().map(write).collect();
    assert!(
        proved.as_ref() == Ok(&expected),
        "proved {proved:?}, expected {expected:?} for {settings:?} in {searched:?}"
    );
}

/// What random searches are to reach.
#[derive(Clone, Copy, Debug, PartialEq, Eq, PartialOrd, Ord)]
enum Event {
    /// The highest writer is the highest of several changes, the lowest of them, or between.
    AtHighest,
    AtLowest,
    Between,
    Nowhere,
    /// Only changes at the position and above write the setting.
    OnlyAbove,
    /// Lower writers write other values.
    Several,
    /// The list of the highest writer names the setting again, with another value.
    NamedAgain,
    /// A slot past a list holds the setting, above its highest writer, and where it has none.
    PastListAbove,
    PastListNowhere,
    /// Setting 0 is written, and it is not though slots past the lists hold 0.
    ZeroWritten,
    ZeroNowhere,
    /// The setting is above 1,023.
    HighWritten,
    HighNowhere,
    /// The value is 0, and it is negative.
    ValueZero,
    ValueNegative,
    /// Places do not rise with the position, and one comes twice.
    Unsorted,
    PlaceTwice,
    /// Past the position stands something that is no place.
    NoPlacePast,
    NoPlaces,
    PositionZero,
    PositionLast,
    NoSettings,
}

/// Counts what the order shows.
fn count_order(reached: &mut Reached<Event>, searched: &Searched) {
    let (below, past) = searched.order.split_at(searched.position);
    let no_place = |&place: &u16| usize::from(place) >= searched.writes.len();
    let mut sorted = below.to_vec();
    sorted.sort_unstable();
    reached.count_if(sorted != below, Event::Unsorted);
    reached.count_if(!sorted.is_sorted_by(|a, b| a < b), Event::PlaceTwice);
    reached.count_if(past.iter().any(no_place), Event::NoPlacePast);
    reached.count_if(searched.writes.is_empty(), Event::NoPlaces);
    reached.count_if(below.is_empty(), Event::PositionZero);
    let all = past.is_empty() && !below.is_empty();
    reached.count_if(all, Event::PositionLast);
}

/// Counts what the search for a setting shows.
fn count_search(reached: &mut Reached<Event>, searched: &Searched, setting: u16) {
    let (zero, high) = (setting == 0, usize::from(setting) >= SETTINGS);
    let highest = writers(searched, setting).max();
    let mut passed = highest.map_or(0, |highest| highest + 1)..searched.position;
    let past_list = passed.any(|position| names(slots(searched, position), setting));
    let Some(highest) = highest else {
        reached.count(Event::Nowhere);
        reached.count_if(past_list, Event::PastListNowhere);
        reached.count_if(zero && past_list, Event::ZeroNowhere);
        reached.count_if(high, Event::HighNowhere);
        let places = searched.order.iter().map(|&place| usize::from(place));
        let all_places = places.max() < Some(searched.writes.len());
        let all = Searched {
            position: searched.order.len(),
            ..*searched
        };
        let above = all_places && writers(&all, setting).next().is_some();
        reached.count_if(above, Event::OnlyAbove);
        return;
    };
    let values = written(searched, highest, setting);
    let value = values[values.len() - 1];
    match highest {
        _ if searched.position == 1 => {}
        0 => reached.count(Event::AtLowest),
        _ if highest == searched.position - 1 => reached.count(Event::AtHighest),
        _ => reached.count(Event::Between),
    }
    let mut lower = writers(searched, setting).filter(|&position| position < highest);
    let several = lower.any(|position| written(searched, position, setting) != values);
    reached.count_if(several, Event::Several);
    reached.count_if(values[0] != value, Event::NamedAgain);
    reached.count_if(past_list, Event::PastListAbove);
    reached.count_if(zero, Event::ZeroWritten);
    reached.count_if(high, Event::HighWritten);
    reached.count_if(value == 0, Event::ValueZero);
    reached.count_if(value < 0, Event::ValueNegative);
}

/// Any setting: 0, the bounds of the settings and of 16 bits more often.
fn any_setting(random: &mut Random) -> u16 {
    const LAST: u16 = SETTINGS as u16 - 1;
    match random.below(3) {
        0 => random.pick(&[0, 1, 256, LAST, LAST + 1, u16::MAX]),
        1 => random.below(SETTINGS) as u16,
        _ => random.bits() as u16,
    }
}

/// Searches for several settings below a position of random lists of `n` places.
fn search_any(random: &mut Random, n: usize, named: usize, reached: &mut Reached<Event>) {
    let named: Vec<u16> = (0..named).map(|_| any_setting(random)).collect();
    let mut lists = WriteLists::any(random, n, &named);
    let length = lists.order.len();
    let position = match random.below(4) {
        0 => length,
        _ => random.below(length + 1),
    };
    if random.below(4) == 0 {
        lists.order.truncate(position);
        let past = random.below(4);
        lists.order.extend((0..past).map(|_| random.bits() as u16));
    }
    let mut settings = vec![0];
    for _ in 1..SEARCHES {
        settings.push(match random.below(4) {
            0 => any_setting(random),
            _ => random.pick(&named),
        });
    }
    settings.truncate(random.pick(&[SEARCHES, SEARCHES, SEARCHES, 1, 0]));

    let searched = lists.below(position);
    compare(&searched, &settings);
    count_order(reached, &searched);
    reached.count_if(settings.is_empty(), Event::NoSettings);
    for setting in settings {
        count_search(reached, &searched, setting);
    }
}

#[test]
fn random_searches_have_the_same_answers() {
    let reached = count_reached(LISTS, |random, _, reached| {
        let n = match random.below(8) {
            0 => 0,
            1..5 => 1 + random.below(6),
            _ => 1 + random.below(48),
        };
        let named = random.pick(&[1, 4, 16, 64]);
        search_any(random, n, named, reached);
    });
    for event in [
        Event::AtHighest,
        Event::AtLowest,
        Event::Between,
        Event::Nowhere,
        Event::OnlyAbove,
        Event::Several,
        Event::NamedAgain,
        Event::PastListAbove,
        Event::PastListNowhere,
        Event::ZeroWritten,
        Event::ZeroNowhere,
        Event::HighWritten,
        Event::HighNowhere,
        Event::ValueZero,
        Event::ValueNegative,
        Event::Unsorted,
        Event::PlaceTwice,
        Event::NoPlacePast,
        Event::NoPlaces,
        Event::PositionZero,
        Event::PositionLast,
        Event::NoSettings,
    ] {
        reached.assert_at_least(LISTS / 50, event);
    }
}

#[test]
fn random_searches_among_4096_places_have_the_same_answers() {
    let reached = count_reached(LARGEST, |random, _, reached| {
        let named = random.pick(&[4, 64, 4_096]);
        search_any(random, MAX_CAPACITY, named, reached);
    });
    for event in [
        Event::AtHighest,
        Event::Between,
        Event::Nowhere,
        Event::PastListAbove,
        Event::Unsorted,
        Event::PlaceTwice,
    ] {
        reached.assert_at_least(LARGEST / 10, event);
    }
}

/// Each setting is written once: it is found wherever its writer is below the position.
#[test]
fn every_entry_below_the_position_is_found_and_no_other() {
    with_seeds(|random, _| {
        for (n, count) in [(MAX_CAPACITY, 1), (300, LIST_ENTRIES)] {
            let settings_at = |place| count * place..count * (place + 1);
            let entry = |setting: usize| Access {
                setting: setting as u16,
                value: -(setting as i32),
            };
            let mut lists = WriteLists::new(n);
            random.shuffle(&mut lists.order);
            for place in 0..n {
                let list: Vec<Access> = settings_at(place).map(entry).collect();
                lists.put(place, &list);
            }
            let settings: Vec<u16> = (0..=n * count).map(|setting| setting as u16).collect();
            for position in [0, 1, n / 2, n - 1, n] {
                let mut expected = vec![None; settings.len()];
                for &place in &lists.order[..position] {
                    for setting in settings_at(place.into()) {
                        expected[setting] = Some(entry(setting).value);
                    }
                }
                let found = search(&lists.below(position), &settings);
                assert!(found == Ok(expected), "{count} entries below {position}");
            }
        }
    });
}

/// A search as it is lent, refused or not.
#[derive(Clone)]
struct Lent {
    lists: WriteLists,
    position: usize,
    settings: Vec<u16>,
    answers: Vec<i64>,
}

impl Lent {
    /// A search among `n` places, at least 3, that is not refused. A place is not in the order, and
    /// another is there only at the position.
    fn accepted(random: &mut Random, n: usize) -> Self {
        let mut lists = WriteLists::any(random, n, &[0, 34]);
        lists.order = (0..n as u16).collect();
        random.shuffle(&mut lists.order);
        lists.order.pop();
        Self {
            lists,
            position: n - 2,
            settings: vec![34, 0, 35],
            answers: (0..3).map(|_| random.bits() as i64).collect(),
        }
    }

    /// A place that is not in the order.
    fn unordered(&self) -> usize {
        let ordered = |place: &usize| self.lists.order.contains(&(*place as u16));
        let mut places = 0..self.lists.writes.len();
        places.find(|place| !ordered(place)).expect("there is one")
    }

    /// The search with this breach.
    fn with(&self, (_, make): &Breach) -> Self {
        let mut broken = self.clone();
        make(&mut broken);
        broken
    }

    /// Panics unless the search is refused so and leaves the answers as they were.
    #[track_caller]
    fn assert_refused(&self, refusal: u8, breach: &str) {
        let mut left = self.answers.clone();
        let answer = search_lent(&self.lists.below(self.position), &self.settings, &mut left);
        assert_eq!(answer, Err(refusal), "{breach}");
        assert!(left == self.answers, "{breach} alters the answers");
    }
}

/// The name of something for which a search is refused, and what makes it.
type Breach = (&'static str, fn(&mut Lent));

/// Lengths that do not fit: refused 1.
const LENGTHS: [Breach; 19] = [
    ("one answer more", |lent| lent.answers.push(-1)),
    ("one answer fewer", |lent| shorten(&mut lent.answers)),
    ("no answers", |lent| lent.answers.clear()),
    ("no settings", |lent| lent.settings.clear()),
    ("one count more", |lent| lent.lists.writes.push(0)),
    ("one count fewer", |lent| shorten(&mut lent.lists.writes)),
    ("4,097 places", |lent| {
        let n = MAX_CAPACITY + 1;
        lent.lists.writes.resize(n, 0);
        lent.lists.targets.resize(LIST_ENTRIES * n, 0);
        lent.lists.written.resize(LIST_ENTRIES * n, 0);
    }),
    ("one target more", |lent| lent.lists.targets.push(0)),
    ("one target fewer", |lent| shorten(&mut lent.lists.targets)),
    ("32 targets more", |lent| {
        lent.lists.targets.extend([0; LIST_ENTRIES]);
    }),
    ("no targets", |lent| lent.lists.targets.clear()),
    ("one value more", |lent| lent.lists.written.push(0)),
    ("one value fewer", |lent| shorten(&mut lent.lists.written)),
    ("32 values more", |lent| {
        lent.lists.written.extend([0; LIST_ENTRIES]);
    }),
    ("no values", |lent| lent.lists.written.clear()),
    ("32 targets and values more", |lent| {
        lent.lists.targets.extend([0; LIST_ENTRIES]);
        lent.lists.written.extend([0; LIST_ENTRIES]);
    }),
    ("the position one above the order's length", |lent| {
        lent.position = lent.lists.order.len() + 1;
    }),
    ("the highest position", |lent| lent.position = usize::MAX),
    ("an order shorter than the position", |lent| {
        lent.lists.order.truncate(lent.position - 1);
    }),
];

/// Contents that do not fit: refused 2.
const CONTENTS: [Breach; 9] = [
    ("the lowest change at no place", |lent| {
        lent.lists.order[0] = lent.lists.writes.len() as u16;
    }),
    ("the highest change at no place", |lent| {
        lent.lists.order[lent.position - 1] = lent.lists.writes.len() as u16;
    }),
    ("a change at no place, its lowest byte 0", |lent| {
        lent.lists.order[0] = lent.lists.writes.len().next_multiple_of(256) as u16;
    }),
    ("a change at 65,535", |lent| {
        lent.lists.order[lent.position - 1] = u16::MAX;
    }),
    ("33 writes below the position", |lent| {
        lent.lists.writes[usize::from(lent.lists.order[0])] = 33;
    }),
    ("33 writes at the position", |lent| {
        lent.lists.writes[usize::from(lent.lists.order[lent.position])] = 33;
    }),
    ("33 writes of a place that is not in the order", |lent| {
        let place = lent.unordered();
        lent.lists.writes[place] = 33;
    }),
    ("256 writes", |lent| lent.lists.writes[0] = 256),
    ("65,535 writes", |lent| lent.lists.writes[2] = u16::MAX),
];

fn shorten<T>(table: &mut Vec<T>) {
    table.truncate(table.len() - 1);
}

/// Numbers of places of searches that are refused.
const PLACES: [usize; 4] = [3, 8, 33, MAX_CAPACITY];

#[test]
fn searches_that_do_not_fit_are_refused_and_leave_the_answers() {
    with_seeds(|random, share| {
        for &n in &PLACES[..share.of(PLACES.len())] {
            let accepted = Lent::accepted(random, n);
            compare(&accepted.lists.below(accepted.position), &accepted.settings);
            for breach in &LENGTHS {
                accepted.with(breach).assert_refused(1, breach.0);
            }
            for breach in &CONTENTS {
                let mut broken = accepted.with(breach);
                broken.assert_refused(2, breach.0);
                // Searches for no settings are refused too.
                broken.settings.clear();
                broken.answers.clear();
                broken.assert_refused(2, breach.0);
            }
        }
    });
}

#[test]
fn lengths_are_refused_before_contents() {
    with_seeds(|random, share| {
        for &n in &PLACES[..share.of(PLACES.len())] {
            let accepted = Lent::accepted(random, n);
            for contents in &CONTENTS {
                let broken = accepted.with(contents);
                for lengths in &LENGTHS {
                    let both = format!("{}, {}", lengths.0, contents.0);
                    broken.with(lengths).assert_refused(1, &both);
                }
            }
        }
    });
}

/// Places and counts next to those that are refused.
#[test]
fn contents_at_the_bounds_are_searched() {
    let mut lists = WriteLists::new(0);
    assert_eq!(search(&lists.below(0), &[0, 34]), Ok(vec![None, None]));
    lists.order = vec![0, u16::MAX];
    assert_eq!(search(&lists.below(0), &[0, 34]), Ok(vec![None, None]));
    assert_eq!(search(&lists.below(1), &[0, 34]), Err(2));
    for n in [1, 2, 33, MAX_CAPACITY] {
        let last = n - 1;
        let mut lists = WriteLists::new(n);
        let entry = |value| Access { setting: 34, value };
        let list: Vec<Access> = (0..LIST_ENTRIES as i32).map(entry).collect();
        lists.put(last, &list);
        lists.order = vec![last as u16, n as u16, u16::MAX];
        assert_eq!(search(&lists.below(0), &[34]), Ok(vec![None]));
        assert_eq!(search(&lists.below(1), &[34, 0]), Ok(vec![Some(31), None]));
        assert_eq!(search(&lists.below(2), &[34]), Err(2));
        lists.writes[last] = 33;
        assert_eq!(search(&lists.below(0), &[34]), Err(2));
    }
}

/// What searches in cabinets are to reach.
#[derive(Clone, Copy, Debug, PartialEq, Eq, PartialOrd, Ord)]
enum AsOf {
    /// A change wrote the setting, and to another value than it starts at.
    Written,
    WrittenUnlikeStart,
    /// None wrote it, and it starts at this value.
    Start(i32),
    /// The highest of the changes below the position did not arrive last.
    EarlierArrival,
}

/// A cabinet that has taken in random changes, has withdrawn some, and is drained.
fn drained(random: &mut Random, source: &mut Source, n: usize) -> Both {
    let mut both = Both::just_set_up(n);
    for _ in 0..n - random.below(2) {
        let change = source.new_change(random);
        let Change {
            timestamp,
            version,
            program,
        } = change.expect("there are timestamps left");
        let taken = both.take_in(timestamp, version.number(), &program);
        assert_eq!(taken, Ok(Taken::Done));
        if random.below(8) == 0 {
            assert!(both.drain(&mut [0; TOTALS]).is_ok());
            assert_eq!(both.withdraw(timestamp), Ok(()));
        }
    }
    assert!(both.drain(&mut [0; TOTALS]).is_ok());
    both
}

/// Searches for the setting below every position. What is found must be its value as of the timestamp
/// there; where nothing is found, that must be its start value.
fn search_all(both: &Both, setting: usize, reached: &mut Reached<AsOf>) {
    let tables = both.proved_tables();
    let order = &tables.order[..both.tables().held_count()];
    for position in 0..=order.len() {
        let searched = Searched {
            position,
            order: &tables.order,
            writes: &tables.write_count,
            targets: &tables.write_settings,
            written: &tables.written_values,
        };
        let found = search(&searched, &[setting as u16]).expect("the tables are in form")[0];
        let stamp = |&place: &u16| tables.timestamps[usize::from(place)];
        let timestamp = order.get(position).map_or(INFINITY, stamp);
        let start = start_value(setting);
        assert_eq!(
            both.ask(Query::ValueAsOf(timestamp, setting)),
            Ok(Answer::Value(found.unwrap_or(start))),
            "{found:?} for {setting} below {position} in {both:?}"
        );
        match found {
            None => reached.count(AsOf::Start(start)),
            Some(value) => {
                reached.count(AsOf::Written);
                reached.count_if(value != start, AsOf::WrittenUnlikeStart);
            }
        }
        let below = &order[..position];
        reached.count_if(below.last() < below.iter().max(), AsOf::EarlierArrival);
    }
}

#[test]
fn searches_in_drained_cabinets_give_the_values_as_of() {
    let reached = count_reached(CABINETS, |random, _, reached| {
        let n = 1 + random.below(24);
        let mut source = Source::new(random, n);
        let both = drained(random, &mut source, n);
        for _ in 0..SEARCHES {
            let setting = source.setting(random);
            if setting < SETTINGS {
                search_all(&both, setting, reached);
            }
        }
    });
    for event in [
        AsOf::Written,
        AsOf::WrittenUnlikeStart,
        AsOf::Start(0),
        AsOf::Start(1),
        AsOf::EarlierArrival,
    ] {
        reached.assert_at_least(CABINETS, event);
    }
}
