use super::*;
use crate::examples::{copy, four_changes, set, tables, Change, INVALID, NEW, VALID};
use crate::program::{op, Instruction};

/// Whether four changes, altered so, are in form. Their lengths stay right.
fn in_form_with(alter: impl FnOnce(&mut Tables)) -> bool {
    let mut tables = four_changes();
    alter(&mut tables);
    assert!(check_lengths(6, &tables));
    in_form(6, &tables)
}

/// Whether a single change in tables of capacity 2 is in form.
fn change_alone_in_form(change: Change) -> bool {
    let tables = tables(2, &[0], &[change]);
    assert!(check_lengths(2, &tables));
    in_form(2, &tables)
}

/// A change whose form is right.
fn change() -> Change {
    Change {
        timestamp: 10,
        status: VALID,
        program: set(34, 7),
        ..Change::default()
    }
}

// Lengths.

#[test]
fn capacity_is_1_to_4096() {
    for n in [1, 2, 64, 4095, 4096] {
        assert!(check_lengths(n, &Tables::new(n)), "{n}");
    }
    for n in [0, 4097, 65_536] {
        assert!(!check_lengths(n, &Tables::new(n)), "{n}");
    }
    for n in [1 << 32, 1 << 56, 1 << 59, usize::MAX] {
        assert!(!check_lengths(n, &Tables::new(1)), "{n}");
    }
}

#[test]
fn tables_have_the_lengths_that_document_01_gives() {
    let tables = Tables::new(3);
    assert_eq!(tables.held.len(), 1);
    assert_eq!(tables.programs.len(), 768);
    assert_eq!(tables.seen.len(), 96);
    assert_eq!(tables.view.len(), 1024);
    assert_eq!(tables.versions.len(), 3);
    assert_eq!(tables.cutoff.len(), 1);
    assert_eq!(tables.kept.len(), 1024);
    assert!(check_lengths(3, &tables));
    assert!(!check_lengths(2, &tables));
    assert!(!check_lengths(4, &tables));
}

#[test]
fn every_table_has_exactly_its_length() {
    type Resize = fn(&mut Tables, &dyn Fn(usize) -> usize);
    macro_rules! resize {
        ($($table:ident)*) => {
            [$((stringify!($table), (|tables, length| {
                tables.$table.resize(length(tables.$table.len()), 0);
            }) as Resize)),*]
        };
    }
    let resizes = resize! {
        held timestamps order status withdrawn lengths programs reads writes sources seen targets
        written view versions cutoff kept
    };
    assert_eq!(resizes.len(), 17);
    for (name, resize) in resizes {
        for (length, right) in [
            ((|length| length) as fn(usize) -> usize, true),
            (|length| length - 1, false),
            (|length| length + 1, false),
            (|length| 2 * length, false),
            (|_| 0, false),
        ] {
            let mut tables = Tables::new(3);
            resize(&mut tables, &length);
            assert_eq!(check_lengths(3, &tables), right, "{name}");
        }
    }
}

// What is in form.

#[test]
fn tables_just_set_up_are_in_form() {
    for n in [1, 2, 4096] {
        assert!(in_form(n, &Tables::new(n)));
    }
}

#[test]
fn four_changes_are_in_form() {
    assert!(in_form(6, &four_changes()));
}

#[test]
fn full_tables_are_in_form() {
    let tables = tables(1, &[0], &[change()]);
    assert!(in_form(1, &tables));
    let changes: Vec<_> = (0..4096)
        .map(|place| Change {
            timestamp: 5000 - place,
            ..change()
        })
        .collect();
    let order: Vec<_> = (0..4096).rev().collect();
    assert!(in_form(
        4096,
        &crate::examples::tables(4096, &order, &changes)
    ));
}

#[test]
fn the_view_is_not_tested() {
    assert!(in_form_with(|t| t.view.fill(i32::MIN)));
}

#[test]
fn the_kept_values_are_not_tested() {
    for cutoff in [0, 10] {
        assert!(in_form_with(|t| {
            t.cutoff[0] = cutoff;
            t.kept.fill(i32::MIN);
        }));
    }
}

/// "In form, the cutoff is at most 2^64 − 2 and no held timestamp lies below it." (document 02, R-7)
#[test]
fn no_held_timestamp_is_below_the_cutoff() {
    // The lowest of the four has place 1.
    for (cutoff, right) in [
        (0, true),
        (1, true),
        (9, true),
        (10, true),
        (11, false),
        (20, false),
        (41, false),
        ((1 << 32) + 10, false),
        (u64::MAX - 1, false),
        (u64::MAX, false),
    ] {
        assert_eq!(in_form_with(|t| t.cutoff[0] = cutoff), right, "{cutoff}");
    }
    // A status or a flag does not matter.
    assert!(!in_form_with(|t| {
        t.cutoff[0] = 11;
        t.withdrawn[1] = 1;
    }));
}

#[test]
fn the_cutoff_is_at_most_2_64_minus_2() {
    for (cutoff, right) in [
        (0, true),
        (1 << 63, true),
        (u64::MAX - 1, true),
        (u64::MAX, false),
    ] {
        let mut tables = Tables::new(2);
        tables.cutoff[0] = cutoff;
        assert_eq!(in_form(2, &tables), right, "{cutoff}");
    }
    let mut tables = tables(
        2,
        &[0],
        &[Change {
            timestamp: u64::MAX - 1,
            ..change()
        }],
    );
    tables.cutoff[0] = u64::MAX - 1;
    assert!(in_form(2, &tables));
}

#[test]
fn only_new_ties_status_and_lists() {
    for status in [VALID, INVALID] {
        for withdrawn in [0, 1] {
            for reads in [vec![], vec![(34, 1), (35, 2)]] {
                for writes in [vec![], vec![(50, 3)]] {
                    assert!(change_alone_in_form(Change {
                        status,
                        withdrawn,
                        reads: reads.clone(),
                        writes,
                        ..change()
                    }));
                }
            }
        }
    }
    for withdrawn in [0, 1] {
        assert!(change_alone_in_form(Change {
            status: NEW,
            withdrawn,
            ..change()
        }));
    }
}

#[test]
fn a_setting_may_stand_in_both_lists() {
    assert!(change_alone_in_form(Change {
        reads: vec![(34, 1)],
        writes: vec![(34, 2)],
        ..change()
    }));
}

#[test]
fn lists_hold_0_to_32_entries_of_settings_0_to_1023() {
    for count in 0..=32 {
        let list: Vec<_> = (0..count).map(|i| (33 * i, i32::MIN)).collect();
        assert!(change_alone_in_form(Change {
            reads: list.clone(),
            writes: list,
            ..change()
        }));
    }
}

#[test]
fn programs_hold_0_to_32_instructions() {
    for count in 0..=32 {
        let last = Instruction {
            op: op::READ,
            a: 7,
            n: 1023,
            ..Instruction::default()
        };
        assert!(change_alone_in_form(Change {
            program: vec![last; count],
            ..change()
        }));
    }
}

#[test]
fn timestamps_are_1_to_2_64_minus_2() {
    for (timestamp, right) in [
        (0, false),
        (1, true),
        (1 << 63, true),
        (u64::MAX - 1, true),
        (u64::MAX, false),
    ] {
        let change = Change {
            timestamp,
            ..change()
        };
        assert_eq!(change_alone_in_form(change), right, "{timestamp}");
    }
}

// What is not.

#[test]
fn the_held_count_is_that_of_the_used_places() {
    for held in 0..=7 {
        assert_eq!(in_form_with(|t| t.held[0] = held), held == 4, "{held}");
    }
    assert!(!in_form_with(|t| t.held[0] = u16::MAX));
}

#[test]
fn timestamps_are_distinct() {
    // Places 0 and 3 are neighbours in the order.
    assert!(!in_form_with(|t| t.timestamps[0] = 20));
    assert!(!in_form_with(|t| t.timestamps[3] = 30));
    assert!(!in_form_with(|t| t.timestamps.fill(20)));
}

#[test]
fn the_order_is_that_of_the_timestamps() {
    assert!(in_form_with(|t| t.order[..4].copy_from_slice(&[1, 3, 0, 2])));
    for wrong in [
        [0, 1, 2, 3],
        [3, 1, 0, 2],
        [1, 0, 3, 2],
        [1, 3, 2, 0],
        [2, 0, 3, 1],
        [1, 1, 0, 2],
        [1, 3, 3, 2],
        [1, 3, 0, 0],
        [1, 3, 0, 4],
        [1, 3, 0, 6],
        [u16::MAX, 3, 0, 2],
    ] {
        let alter = |t: &mut Tables| t.order[..4].copy_from_slice(&wrong);
        assert!(!in_form_with(alter), "{wrong:?}");
    }
    // The order follows the timestamps.
    assert!(in_form_with(|t| t.timestamps[1] = 19));
    assert!(!in_form_with(|t| t.timestamps[1] = 21));
}

#[test]
fn status_is_0_to_2_and_the_flag_0_or_1() {
    for number in [3, 4, 256, 257, u16::MAX] {
        assert!(!in_form_with(|t| t.status[1] = number), "{number}");
    }
    for number in [2, 3, 256, 257, u16::MAX] {
        assert!(!in_form_with(|t| t.withdrawn[1] = number), "{number}");
    }
}

/// "in form only with the values named" (document 02, R-6): 0 and 1.
#[test]
fn the_version_of_a_held_place_is_0_or_1() {
    for place in 0..4 {
        for number in [0, 1] {
            assert!(in_form_with(|t| t.versions[place] = number), "{number}");
        }
        for number in [2, 3, 255, 256, 257, u16::MAX] {
            assert!(!in_form_with(|t| t.versions[place] = number), "{number}");
        }
    }
    for status in [NEW, VALID, INVALID] {
        for withdrawn in [0, 1] {
            let with = |version| Change {
                status,
                withdrawn,
                version,
                ..change()
            };
            assert!(change_alone_in_form(with(1)));
            assert!(!change_alone_in_form(with(2)));
        }
    }
}

#[test]
fn counts_above_32_are_not_in_form() {
    for count in [33, 64, 256, 288, u16::MAX] {
        assert!(!in_form_with(|t| t.lengths[1] = count), "{count}");
        assert!(!in_form_with(|t| t.reads[1] = count), "{count}");
        assert!(!in_form_with(|t| t.writes[1] = count), "{count}");
    }
}

/// One more entry is setting 0 with value 0, which is right unless setting 0 is listed.
#[test]
fn a_count_may_take_in_zeros() {
    assert!(in_form_with(|t| t.writes[1] = 3));
    assert!(!in_form_with(|t| t.writes[1] = 4));
    assert!(!in_form_with(|t| t.writes[1] = 1));
    // Eight zero bytes are a stop.
    assert!(in_form_with(|t| t.lengths[1] = 32));
    assert!(!in_form_with(|t| t.lengths[1] = 3));
}

#[test]
fn settings_above_1023_are_not_in_form() {
    for setting in [1024, 1025, 32_768, u16::MAX] {
        assert!(!in_form_with(|t| t.sources[0] = setting), "{setting}");
        assert!(!in_form_with(|t| t.targets[33] = setting), "{setting}");
    }
}

#[test]
fn no_list_names_a_setting_twice() {
    let list = vec![(1, 5), (2, 6), (3, 7), (1, 5)];
    assert!(!change_alone_in_form(Change {
        reads: list.clone(),
        ..change()
    }));
    assert!(!change_alone_in_form(Change {
        writes: list,
        ..change()
    }));
    assert!(!in_form_with(|t| t.targets[33] = 34));
}

#[test]
fn programs_obey_refusal_7() {
    // The last byte of n, register a and the operation of the second instruction of place 0.
    assert!(!in_form_with(|t| t.programs[15] = 1));
    assert!(!in_form_with(|t| t.programs[9] = 8));
    assert!(!in_form_with(|t| t.programs[8] = 18));
    let skip = |n| Change {
        program: vec![Instruction {
            op: op::SKIP,
            n,
            ..Instruction::default()
        }],
        ..change()
    };
    assert!(change_alone_in_form(skip(0)));
    assert!(!change_alone_in_form(skip(1)));
}

#[test]
fn slots_behind_programs_and_lists_are_0() {
    for index in [16, 17, 255] {
        assert!(!in_form_with(|t| t.programs[index] = 1), "{index}");
    }
    for index in [1, 31] {
        assert!(!in_form_with(|t| t.sources[index] = 1), "{index}");
        assert!(!in_form_with(|t| t.seen[index] = -1), "{index}");
        assert!(!in_form_with(|t| t.targets[index] = 1), "{index}");
        assert!(!in_form_with(|t| t.written[index] = -1), "{index}");
    }
}

#[test]
fn slots_of_unused_places_are_0() {
    for place in [4, 5] {
        assert!(!in_form_with(|t| t.timestamps[place] = 50));
        assert!(!in_form_with(|t| t.order[place] = 1));
        assert!(!in_form_with(|t| t.status[place] = VALID));
        assert!(!in_form_with(|t| t.withdrawn[place] = 1));
        assert!(!in_form_with(|t| t.lengths[place] = 1));
        for number in [1, 2, 256, u16::MAX] {
            assert!(!in_form_with(|t| t.versions[place] = number), "{number}");
        }
        assert!(!in_form_with(|t| t.reads[place] = 1));
        assert!(!in_form_with(|t| t.writes[place] = 1));
        for index in [0, 255] {
            assert!(!in_form_with(|t| t.programs[256 * place + index] = 1));
        }
        for index in [0, 31] {
            assert!(!in_form_with(|t| t.sources[32 * place + index] = 1));
            assert!(!in_form_with(|t| t.seen[32 * place + index] = 1));
            assert!(!in_form_with(|t| t.targets[32 * place + index] = 1));
            assert!(!in_form_with(|t| t.written[32 * place + index] = 1));
        }
    }
}

#[test]
fn the_lists_of_a_new_change_are_empty() {
    for (reads, writes) in [
        (vec![(34, 0)], vec![]),
        (vec![], vec![(50, 0)]),
        (vec![(34, 0)], vec![(50, 0)]),
    ] {
        assert!(!change_alone_in_form(Change {
            status: NEW,
            program: copy(34, 50),
            reads,
            writes,
            ..change()
        }));
    }
}
