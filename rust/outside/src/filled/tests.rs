use super::*;
use crate::examples::{copy, package, set, set_version, Script};

/// 30 copies 34 to 50, drained; 10 sets 34 to 7, and 20 sets 34 to 9 and is withdrawn. Two of them
/// have their turns to come. 10 has version 1.
fn neighbour() -> Script {
    let mut script = Script::new(4);
    script.take_in(30, &copy(34, 50));
    script.drain();
    script.take_in_1(10, &set(34, 7));
    script.take_in(20, &set(34, 9));
    script.withdraw(20);
    script
}

/// What the package of the neighbour has: 2 + 12 × 4 + 8 × 6 bytes.
const LENGTH: usize = 98;

/// A cabinet of this capacity that takes in this package and is drained, with the answers.
fn filled(n: usize, package: &[u8]) -> (Script, Vec<u8>) {
    let mut script = Script::new(n);
    assert_eq!(script.take_in_package(package.to_vec()), DONE);
    let Some(Call::TakeInPackage { answers, .. }) = script.calls.last() else {
        panic!("the last call is a package");
    };
    let count = entries(package).expect("it is not refused").len();
    let answers = answers[..count].to_vec();
    script.drain();
    (script, answers)
}

#[test]
fn what_is_written_is_the_books() {
    let mut script = neighbour();
    let package = script.package_out();
    assert_eq!(package.len(), LENGTH);
    for room in [LENGTH, LENGTH + 1, usize::MAX] {
        assert_eq!(check_package(&script.calls, room, Ok(&package)), Ok(()));
    }
    script.drain();
    assert_eq!(script.package_out(), package);
    let empty = Script::new(1);
    assert_eq!(
        check_package(&empty.calls, 2, Ok(&empty.package_out())),
        Ok(())
    );
}

/// Another capacity, another order of arrival, other statuses; what is refused, already held or
/// dropped since leaves the book.
#[test]
fn cabinets_with_equal_books_write_the_same() {
    let mut other = Script::new(9);
    other.take_in(5, &set(34, 5));
    other.drain();
    other.cutoff(6);
    let mut entries = package(&[
        (20, 0, &set(34, 9)),
        (20, 1, &[]),
        (20, 1, &[]),
        (10, 0, &set(34, 7)),
        (20, 0, &set(34, 9)),
        (10, 0, &set(34, 8)),
        (10, 0, &set(34, 7)),
    ]);
    // 10 by version 1, and then by version 0.
    set_version(&mut entries, 3, 1);
    assert_eq!(other.take_in_package(entries), DONE);
    other.turn();
    other.take_in(30, &copy(34, 50));
    let package = other.package_out();
    assert_eq!(package, neighbour().package_out());
    assert_eq!(
        check_package(&neighbour().calls, LENGTH, Ok(&package)),
        Ok(())
    );
}

#[test]
fn other_entries_are_told() {
    let calls = neighbour().calls;
    let [ten, twenty, thirty, withdrawal] = [
        (10, 0, &set(34, 7)[..]),
        (20, 0, &set(34, 9)),
        (30, 0, &copy(34, 50)),
        (20, 1, &[]),
    ];
    // All have version 0 but the first, which has this one.
    let check_with = |version, entries: &[_]| {
        let mut package = package(entries);
        set_version(&mut package, 0, version);
        check_package(&calls, LENGTH, Ok(&package))
    };
    let check = |entries: &[_]| check_with(1, entries);
    let all = [ten, twenty, thirty, withdrawal];
    assert_eq!(check(&all), Ok(()));
    assert_eq!(check_with(0, &all), Err(Breach::Entries));
    assert_eq!(check_with(2, &all), Err(Breach::Layout));
    for entries in [
        // By arrival, a withdrawal at its change, a withdrawal too few and too many.
        &[thirty, ten, twenty, withdrawal][..],
        &[ten, twenty, withdrawal, thirty],
        &[ten, twenty, thirty],
        &[ten, twenty, thirty, (10, 1, &[]), withdrawal],
        &[ten, thirty],
        &[ten, twenty, thirty, withdrawal, withdrawal],
        &[ten, twenty, thirty, (21, 1, &[])],
        &[(10, 0, &set(34, 8)), twenty, thirty, withdrawal],
    ] {
        assert_eq!(check(entries), Err(Breach::Entries));
    }
    let package = neighbour().package_out();
    for wrong in [&package[..LENGTH - 1], &[], &[&package[..], &[0]].concat()] {
        let checked = check_package(&calls, LENGTH, Ok(wrong));
        assert_eq!(checked, Err(Breach::Layout));
    }
}

#[test]
fn refusal_12_is_there_where_the_lent_slice_is_short_and_not_else() {
    let calls = neighbour().calls;
    let package = neighbour().package_out();
    for room in [0, LENGTH - 1] {
        assert_eq!(check_package(&calls, room, Err(12)), Ok(()));
        for answer in [Ok(&package[..]), Err(3), Err(1)] {
            let checked = check_package(&calls, room, answer);
            assert_eq!(checked, Err(Breach::NotRefused));
        }
    }
    for refusal in [1, 12] {
        let checked = check_package(&calls, LENGTH, Err(refusal));
        assert_eq!(checked, Err(Breach::Refused(refusal)));
    }
}

#[test]
fn refusal_12_is_there_where_the_package_passes_its_limits() {
    // 2 + 12 × 245 + 8 × (32 × 244 + 16) = 65,534, and 512 entries.
    let long = |last: usize| {
        let mut stops = vec![32; 244];
        stops.push(last);
        stops
    };
    for (stops, in_limits) in [
        (long(16), true),
        (long(17), false),
        (vec![0; 512], true),
        (vec![0; 513], false),
    ] {
        let mut script = Script::new(600);
        for (timestamp, count) in (1..).zip(stops) {
            script.take_in(timestamp, &vec![Default::default(); count]);
        }
        let refused = check_package(&script.calls, usize::MAX, Err(12));
        match in_limits {
            true => {
                assert_eq!(refused, Err(Breach::Refused(12)));
                let package = script.package_out();
                let checked = check_package(&script.calls, MAX_BYTES, Ok(&package));
                assert_eq!(checked, Ok(()));
            }
            false => assert_eq!(refused, Ok(())),
        }
    }
}

#[test]
fn a_cabinet_is_filled_from_its_neighbour() {
    let mut neighbour = neighbour();
    let package = neighbour.package_out();
    neighbour.drain();
    for n in [3, 4, 4096] {
        let (filled, answers) = filled(n, &package);
        let checked = check_filled(&answers, &filled.tables, &neighbour.tables);
        assert_eq!(checked, Ok(()));
        assert_eq!(filled.package_out(), package);
    }
    // Without room for 30: it is refused (9), and so would be what withdraws it.
    let (filled, answers) = filled(2, &package);
    assert_eq!(answers, [DONE, DONE, 9, DONE]);
    let checked = check_filled(&answers, &filled.tables, &neighbour.tables);
    assert_eq!(checked, Err(Breach::Answer(2)));
    let checked = check_filled(&[DONE; 4], &filled.tables, &neighbour.tables);
    assert_eq!(checked, Err(Breach::Timestamps));
}

/// "filling an empty cabinet holds only where both cabinets have cutoff 0" (document 02, R-7).
#[test]
fn nothing_is_claimed_where_a_cabinet_has_a_cutoff() {
    let mut neighbour = neighbour();
    neighbour.drain();
    // 10 goes, and 34 stays at 7 before 30 copies it.
    neighbour.cutoff(20);
    let package = neighbour.package_out();
    let checked = check_package(&neighbour.calls, MAX_BYTES, Ok(&package));
    assert_eq!(checked, Ok(()));
    let (filled, answers) = filled(4, &package);
    assert_eq!(answers, [DONE; 3]);
    assert_eq!(
        (filled.reads(30), neighbour.reads(30)),
        (vec![(34, 1)], vec![(34, 7)])
    );
    let check = |filled: &Tables, neighbour: &Tables| check_filled(&answers, filled, neighbour);
    let checked = check(&filled.tables, &neighbour.tables);
    assert_eq!(checked, Err(Breach::Cutoff));
    let checked = check(&neighbour.tables, &filled.tables);
    assert_eq!(checked, Err(Breach::Cutoff));
    let checked = check(&neighbour.tables, &neighbour.tables);
    assert_eq!(checked, Err(Breach::Cutoff));
    assert_eq!(check(&filled.tables, &filled.tables), Ok(()));
}

#[test]
fn another_state_is_told() {
    type Alter = fn(&mut Tables);
    let mut neighbour = neighbour();
    let package = neighbour.package_out();
    neighbour.drain();
    // The places are by timestamp here: 10, 20 and 30.
    let alterations: [(Alter, Breach); 14] = [
        (|tables| tables.timestamps[2] = 31, Breach::Timestamps),
        (|tables| tables.versions[0] = 0, Breach::Change(10)),
        (|tables| tables.versions[1] = 1, Breach::Change(20)),
        (|tables| tables.programs[4] = 8, Breach::Change(10)),
        (|tables| tables.lengths[0] = 1, Breach::Change(10)),
        (|tables| tables.withdrawn[1] = 0, Breach::Change(20)),
        (|tables| tables.status[1] = 2, Breach::Change(20)),
        (|tables| tables.reads[2] = 0, Breach::Change(30)),
        (|tables| tables.sources[64] = 35, Breach::Change(30)),
        (|tables| tables.seen[64] = 9, Breach::Change(30)),
        (|tables| tables.writes[2] = 0, Breach::Change(30)),
        (|tables| tables.targets[64] = 51, Breach::Change(30)),
        (|tables| tables.written[64] = 9, Breach::Change(30)),
        (|tables| tables.view[1023] = 1, Breach::View(1023)),
    ];
    for (alter, breach) in alterations {
        let (mut filled, answers) = filled(4, &package);
        alter(&mut filled.tables);
        let checked = check_filled(&answers, &filled.tables, &neighbour.tables);
        assert_eq!(checked, Err(breach));
    }
}
