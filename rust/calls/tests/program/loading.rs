//! Tables printed and loaded.

use crate::outside_tables;
use crate::programs::{copy, package_of_versions, set, take_in, take_in_version};
use crate::{assert_answers, printed, write_file, FOLDER};
use calls::answer::{Answer, Runner};
use calls::script::Call;
use comparison::generate::tables::Table;
use outside::tables::Tables;
use tolbezun::Taken;

/// A call of each of those that are lent tables.
const CALLS: [&str; 12] = [
    "set_up",
    "take_in 10 -",
    "withdraw 10",
    "turn",
    "drain",
    "cutoff 10",
    "current 34",
    "value_as_of 10 34",
    "standing 10",
    "take_in_package 0000",
    "package_out 0",
    "plain_run",
];

/// Loads these tables, of capacity 3, and makes calls that must all be refused with this number and
/// leave them as they are.
#[track_caller]
fn assert_refused(file: &str, tables: &Tables, calls: &[&str], refusal: u8) {
    write_file(file, outside_tables::file(tables));
    let refused = format!("refused {refusal}");
    let printed = outside_tables::line(tables);
    let load = format!("load {file}");
    let mut expected = vec![(load.as_str(), "done"), ("tables", &printed)];
    expected.extend(calls.iter().map(|&call| (call, refused.as_str())));
    expected.push(("tables", &printed));
    assert_answers(&["--n", "3"], &expected);
}

#[test]
fn a_table_of_another_length_is_refused_by_every_call() {
    for &table in Table::ALL {
        let length = table.length(&Tables::new(3));
        for other in [length + 1, length - 1, 0] {
            let mut tables = Tables::new(3);
            table.resize(&mut tables, other);
            assert_refused("lengths.json", &tables, &CALLS, 1);
        }
    }
    assert_refused("lengths.json", &Tables::new(2), &CALLS, 1);
    assert_refused("lengths.json", &Tables::new(4), &CALLS, 1);
}

#[test]
fn tables_not_in_form_are_refused_by_every_call_but_set_up() {
    let breaches: [fn(&mut Tables); 18] = [
        |tables| tables.held[0] = 1,
        |tables| tables.held[0] = u16::MAX,
        |tables| tables.timestamps[2] = u64::MAX,
        |tables| tables.order[2] = 1,
        |tables| tables.status[0] = 3,
        |tables| tables.withdrawn[1] = u16::MAX,
        |tables| tables.lengths[0] = 1,
        |tables| tables.programs[767] = 255,
        |tables| tables.reads[0] = 1,
        |tables| tables.writes[2] = 32,
        |tables| tables.sources[0] = 1024,
        |tables| tables.seen[95] = -1,
        |tables| tables.targets[95] = 1,
        |tables| tables.written[0] = i32::MIN,
        |tables| tables.versions[2] = 1,
        // Of a change with timestamp 10 and no instructions.
        |tables| (tables.held[0], tables.timestamps[0], tables.versions[0]) = (1, 10, 2),
        |tables| (tables.held[0], tables.timestamps[0], tables.cutoff[0]) = (1, 10, 11),
        |tables| tables.cutoff[0] = u64::MAX,
    ];
    let [set_up, others @ ..] = CALLS;
    for breach in breaches {
        let mut tables = Tables::new(3);
        breach(&mut tables);
        assert_refused("form.json", &tables, &others, 2);
        let fresh = outside_tables::line(&Tables::new(3));
        assert_answers(
            &["--n", "3"],
            &[
                ("load form.json", "done"),
                (set_up, "done"),
                ("tables", &fresh),
            ],
        );
    }
}

/// "The view is not tested."
#[test]
fn any_view_is_lent() {
    let mut tables = Tables::new(3);
    tables.view.fill(i32::MIN);
    tables.view[34] = i32::MAX;
    write_file("view.json", outside_tables::file(&tables));
    assert_answers(
        &["--n", "3"],
        &[
            ("load view.json", "done"),
            ("turn", "idle"),
            ("current 34", "value 2147483647"),
            ("current 35", "value -2147483648"),
            ("value_as_of 10 34", "value 1"),
        ],
    );
}

/// Kept values are not tested either, and what comes after begins from them.
#[test]
fn any_kept_values_are_lent() {
    let mut tables = Tables::new(3);
    tables.cutoff[0] = u64::MAX - 1;
    tables.kept.fill(i32::MIN);
    tables.kept[34] = i32::MAX;
    write_file("kept.json", outside_tables::file(&tables));
    let highest = u64::MAX - 1;
    assert_answers(
        &["--n", "3"],
        &[
            ("load kept.json", "done"),
            ("current 34", "value 1"),
            (&format!("value_as_of {highest} 34"), "value 2147483647"),
            (&format!("value_as_of {highest} 35"), "value -2147483648"),
            (&take_in(highest, copy(34, 50)), "done"),
            ("turn", &format!("ran {highest}")),
            ("current 50", "value 2147483647"),
            (&format!("value_as_of {} 34", highest - 1), "refused 14"),
        ],
    );
}

/// The capacity stays what it was.
#[test]
fn tables_for_another_capacity_may_be_loaded() {
    write_file("of_5.json", printed(&["--n", "5"], "tables\n"));
    assert_answers(&[], &[("load of_5.json", "done"), ("turn", "refused 1")]);
    assert_answers(
        &["--n", "5"],
        &[("load of_5.json", "done"), ("turn", "idle")],
    );
    // A load after it makes good what one before has done.
    write_file("of_3.json", printed(&["--n", "3"], "tables\n"));
    assert_answers(
        &["--n", "3"],
        &[
            ("load of_5.json", "done"),
            ("turn", "refused 1"),
            ("load of_3.json", "done"),
            ("turn", "idle"),
        ],
    );
}

/// What the tables hold is what a run goes on from.
#[test]
fn printed_tables_are_loaded_as_they_were() {
    let (reader, twice) = (copy(34, 50), set(34, 5) + &set(34, i32::MIN));
    let package = package_of_versions(&[(30, 0, 0, &reader), (40, 0, 1, &twice)]);
    let script = [
        "set_up",
        &take_in(5, set(36, -7)),
        "drain",
        "cutoff 9",
        &format!("take_in_package {package}"),
        "drain",
        &take_in_version(u64::MAX - 1, copy(34, 51) + &copy(51, 52), 1),
        &take_in(50, copy(34, 51) + &copy(51, 52)),
        &take_in(10, set(34, 7)),
        "turn",
        "withdraw 40",
        &take_in(20, set(34, 1)),
    ];
    let rest = [
        "turn",
        "turn",
        "turn",
        "turn",
        "turn",
        "turn",
        "plain_run",
        "standing 40",
        "value_as_of 9 36",
        "withdraw 8",
        "cutoff 31",
        "package_out 300",
        "tables",
    ];
    let at_once = printed(
        &["--n", "6"],
        &[&script[..], &["tables"], &rest].concat().join("\n"),
    );
    let mut lines = at_once.lines().skip(script.len());
    let tables = lines.next().expect("the tables are printed");
    write_file("left.json", tables);
    let then = [&["load left.json", "tables"], &rest[..]]
        .concat()
        .join("\n");
    let then = printed(&["--n", "6"], &then);
    let expected: Vec<&str> = ["done", tables].into_iter().chain(lines).collect();
    assert_eq!(then.lines().collect::<Vec<_>>(), expected);
    for answer in [
        "ran 20",
        "stood 30",
        "cleared 40",
        "faulted 50 2",
        "ran 18446744073709551614",
        "idle",
        "standing 1 1",
        "value -7",
        "refused 14",
    ] {
        assert!(expected.contains(&answer), "{answer}");
    }
}

/// The highest capacity, with a number in every slot.
#[test]
fn the_largest_tables_are_loaded_and_printed() {
    let mut tables = Tables::new(4096);
    tables.timestamps.fill(u64::MAX);
    tables.programs.fill(255);
    tables.seen.fill(i32::MIN);
    write_file("largest.json", outside_tables::file(&tables));
    let expected = format!("done\nrefused 2\n{}\n", outside_tables::line(&tables));
    let printed = printed(&["--n", "4096"], "load largest.json\nturn\ntables\n");
    assert!(printed == expected);
}

/// A file is found from the working directory, or by its full path.
#[test]
fn where_the_file_is() {
    write_file("place.json", printed(&[], "tables\n"));
    for file in [
        "place.json".to_string(),
        "./place.json".to_string(),
        format!("{FOLDER}/place.json"),
    ] {
        assert_answers(&[], &[(format!("load {file}"), "done")]);
    }
}

/// After a load that fails nothing can be printed, so this is asked from inside.
#[test]
fn nothing_is_loaded_in_part() {
    let mut runner = Runner::new(2);
    let mut answer = |call: &Call| runner.answer(call).map_err(|error| error.to_string());
    let call = Call::TakeIn {
        timestamp: 10,
        program: vec![],
        version: 1,
    };
    assert_eq!(answer(&call), Ok(Answer::Taken(Taken::Done)));
    let before = answer(&Call::Tables);
    let whole = outside_tables::line(&Tables::new(2));
    for contents in [
        whole.replace("\"view\"", "\"views\""),
        whole.replace("0]}", "0]"),
        whole.replace("0]}", "2147483648]}"),
    ] {
        write_file("part.json", contents);
        let file = format!("{FOLDER}/part.json");
        assert!(answer(&Call::Load { file }).is_err());
        assert_eq!(answer(&Call::Tables), before);
    }
}
