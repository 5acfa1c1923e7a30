//! The totals of a drain, for each console: document 02, R-5.

mod programs;

use programs::{copy, set};
use tolbezun::calls::{self, TOTALS};
use tolbezun::Version::Zero;
use tolbezun::{console, Cabinet, Refusal, Taken, Totals, TotalsByConsole, Turned, MAX_CAPACITY};

const HEADING: &str = "console    ran  stood  cleared  faulted";

/// Totals with these numbers for these consoles, in the order ran, stood, cleared, faulted, and else
/// 0.
fn totals(counted: &[(usize, [u16; 4])]) -> TotalsByConsole {
    let mut totals = [0; TOTALS];
    for (console, numbers) in counted {
        totals[4 * console..][..4].copy_from_slice(numbers);
    }
    totals.into()
}

#[test]
fn a_timestamp_names_a_console_by_its_lowest_8_bits() {
    for (timestamp, expected) in [
        (1, 1),
        (255, 255),
        (256, 0),
        (257, 1),
        (0x1234_5678_9ABC_DEF0, 0xF0),
        (u64::MAX - 1, 254),
    ] {
        assert_eq!(console(timestamp), expected, "{timestamp}");
    }
}

/// "four per console (ran, stood, cleared, faulted, from place console × 4)", and "for each kind the
/// 256 numbers sum to the number of turns of that kind".
#[test]
fn every_place_is_of_a_console_and_a_kind() {
    for place in 0..TOTALS {
        let mut numbers = [0; TOTALS];
        numbers[place] = 7;
        let totals = TotalsByConsole::from(numbers);
        let mut expected = Totals::default();
        *match place % 4 {
            0 => &mut expected.ran,
            1 => &mut expected.stood,
            2 => &mut expected.cleared,
            _ => &mut expected.faulted,
        } = 7;
        let console = u8::try_from(place / 4).unwrap();
        assert_eq!(totals.of(console), expected, "{place}");
        assert_eq!(totals.sum(), expected, "{place}");
        assert!(totals.consoles().eq([(console, expected)]), "{place}");
    }
    // 0 + 4 + 8 + .. + 1,020 is 4 × 255 × 128; each later kind has 1 more for each console.
    let places = TotalsByConsole::from(std::array::from_fn(|place| place as u16));
    let expected = Totals {
        ran: 130_560,
        stood: 130_816,
        cleared: 131_072,
        faulted: 131_328,
    };
    assert_eq!(places.sum(), expected);
    assert!(places
        .consoles()
        .map(|(console, _)| console)
        .eq(0..=u8::MAX));
    assert_eq!(totals(&[]).sum(), Totals::default());
    assert_eq!(totals(&[]).consoles().count(), 0);
}

#[test]
fn the_console_with_the_most_runs_comes_first() {
    let totals = totals(&[
        (0, [0, 0, 3, 0]),
        (7, [0, 5, 0, 0]),
        (80, [2, 1, 0, 0]),
        (83, [12, 0, 0, 1]),
        (200, [0, 0, 0, 13]),
        (255, [1, 0, 0, 1]),
    ]);
    // 83 and 200 have 13 runs each, 80 and 255 two, 0 and 7 none.
    let lines = [
        HEADING,
        "     83     12      0        0        1",
        "    200      0      0        0       13",
        "     80      2      1        0        0",
        "    255      1      0        0        1",
        "      0      0      0        3        0",
        "      7      0      5        0        0",
        "    all     15      6        3       15",
    ];
    assert_eq!(totals.to_string(), lines.join("\n"));
}

/// No drain has more turns than the highest capacity.
#[test]
fn the_largest_totals_stay_in_their_columns() {
    for (numbers, columns) in [
        ([4_096, 0, 0, 0], "   4096      0        0        0"),
        ([0, 4_096, 0, 0], "      0   4096        0        0"),
        ([0, 0, 4_096, 0], "      0      0     4096        0"),
        ([0, 0, 0, 4_096], "      0      0        0     4096"),
    ] {
        let lines = [
            HEADING,
            &format!("    255{columns}"),
            &format!("    all{columns}"),
        ];
        assert_eq!(totals(&[(255, numbers)]).to_string(), lines.join("\n"));
    }
}

#[test]
fn a_drain_without_turns_says_so() {
    let mut cabinet = Cabinet::new(1).unwrap();
    let drained = cabinet.drain().unwrap();
    assert_eq!(drained, totals(&[]));
    assert_eq!(drained.to_string(), "no turns");
}

#[test]
fn debug_shows_consoles_with_turns_alone() {
    let shown = format!("{:?}", totals(&[(255, [1, 2, 3, 4])]));
    let expected = "TotalsByConsole \
                    {255: Totals { ran: 1, stood: 2, cleared: 3, faulted: 4 }}";
    assert_eq!(shown, expected);
}

/// Each kind, of consoles 0, 1 and 255.
#[test]
fn a_drain_counts_each_turn_for_its_console() {
    let twice = [set(53, 1), set(53, 1)].concat();
    let mut cabinet = Cabinet::new(8).unwrap();
    let take_in = |cabinet: &mut Cabinet, timestamp, program: &[u8]| {
        assert_eq!(cabinet.take_in(timestamp, Zero, program), Ok(Taken::Done));
    };
    take_in(&mut cabinet, 0x300, &copy(34, 50));
    take_in(&mut cabinet, 0x401, &copy(34, 51));
    take_in(&mut cabinet, 0x4FF, &set(52, 1));
    let drained = cabinet.drain();
    let ran = [1, 0, 0, 0];
    assert_eq!(drained, Ok(totals(&[(0, ran), (1, ran), (255, ran)])));

    // 0x101 marks 0x300 and 0x401, and 0x201 lets them stand.
    take_in(&mut cabinet, 0x101, &set(34, 7));
    assert_eq!(cabinet.turn(), Ok(Turned::Ran(0x101)));
    take_in(&mut cabinet, 0x201, &set(34, 1));
    assert_eq!(cabinet.withdraw(0x4FF), Ok(()));
    take_in(&mut cabinet, 0xFF, &twice);
    take_in(&mut cabinet, 0x5FF, &twice);
    take_in(&mut cabinet, 0x600, &twice);
    let drained = cabinet.drain().unwrap();
    let expected = [(0, [0, 1, 0, 1]), (1, [1, 1, 0, 0]), (255, [0, 0, 1, 2])];
    assert_eq!(drained, totals(&expected));
    let sum = Totals {
        ran: 1,
        stood: 2,
        cleared: 1,
        faulted: 3,
    };
    assert_eq!(drained.sum(), sum);
    assert_eq!(cabinet.drain(), Ok(totals(&[])));
}

/// As many changes as can be held, all of one console: taken in, and then withdrawn.
#[test]
fn the_most_turns_of_one_console() {
    let timestamps: Vec<u64> = (0..MAX_CAPACITY as u64)
        .map(|time| 256 * time + 9)
        .collect();
    let mut cabinet = Cabinet::new(MAX_CAPACITY).unwrap();
    let mut take_in_all = |kind: u8| {
        for timestamps in timestamps.chunks(512) {
            let mut package = 512u16.to_le_bytes().to_vec();
            for timestamp in timestamps {
                package.extend(timestamp.to_le_bytes());
                package.extend([kind, 0, 0, 0]);
            }
            let answers = cabinet.take_in_package(&package);
            assert_eq!(answers, Ok(vec![Ok(Taken::Done); 512]));
        }
        cabinet.drain()
    };
    assert_eq!(take_in_all(0), Ok(totals(&[(9, [4_096, 0, 0, 0])])));
    assert_eq!(take_in_all(1), Ok(totals(&[(9, [0, 0, 4_096, 0])])));
}

/// All 1,024 are stored; another length is refused before the form is looked at; and a refusal alters
/// nothing.
#[test]
fn a_lent_slice_has_1024_totals() {
    let mut cabinet = Cabinet::new(1).unwrap();
    assert_eq!(cabinet.take_in(10, Zero, &set(34, 7)), Ok(Taken::Done));
    let in_form = cabinet.into_tables();
    let mut out_of_form = in_form.clone();
    out_of_form.held[0] = 2;
    for before in [&in_form, &out_of_form] {
        for length in [0, 4, 1_023, 1_025, 2_048] {
            let (mut tables, mut lent) = (before.clone(), vec![77; length]);
            let answer = calls::drain(1, &mut tables, &mut lent);
            assert_eq!(answer, Err(Refusal::Length), "{length}");
            assert_eq!(tables, *before);
            assert_eq!(lent, vec![77; length]);
        }
    }
    let (mut tables, mut lent) = (out_of_form.clone(), [77; TOTALS]);
    let answer = calls::drain(1, &mut tables, &mut lent);
    assert_eq!(answer, Err(Refusal::Form));
    assert_eq!(tables, out_of_form);
    assert_eq!(lent, [77; TOTALS]);

    let mut tables = in_form;
    assert_eq!(calls::drain(1, &mut tables, &mut lent), Ok(()));
    assert_eq!(TotalsByConsole::from(lent), totals(&[(10, [1, 0, 0, 0])]));
    assert_eq!(calls::drain(1, &mut tables, &mut lent), Ok(()));
    assert_eq!(lent, [0; TOTALS]);
}
