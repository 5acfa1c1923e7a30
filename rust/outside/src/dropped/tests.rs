use super::*;
use crate::examples::{add, copy, set, Script};
use crate::tables::Status;

/// The same changes and withdrawals, with cutoffs where there is room for 3, and without where there is
/// room for all.
fn both() -> [Script; 2] {
    let mut scripts = [Script::new(3), Script::new(9)];
    for (index, script) in scripts.iter_mut().enumerate() {
        let cutoff = |script: &mut Script, timestamp| {
            if index == 0 {
                script.cutoff(timestamp);
            }
        };
        script.take_in(20, &copy(34, 50));
        script.take_in_1(10, &[set(34, 7), add(34, 1)].concat());
        script.take_in(15, &set(40, 3));
        script.withdraw(15);
        script.drain();
        cutoff(script, 20);
        script.take_in(40, &copy(40, 60));
        script.take_in(30, &add(34, 1));
        script.drain();
        cutoff(script, 30);
        script.take_in(31, &copy(34, 40));
        script.withdraw(40);
        script.drain();
    }
    scripts
}

#[test]
fn dropping_loses_nothing() {
    let [dropping, holding] = both();
    assert_eq!(dropping.tables.held_count(), 3);
    assert_eq!(holding.tables.held_count(), 6);
    assert_eq!(dropping.kept(), [(34, 8), (50, 8)]);
    let checked = check_nothing_lost(&dropping.tables, &holding.tables);
    assert_eq!(checked, Ok(()));
    // A cabinet without cutoffs is one that drops none.
    let checked = check_nothing_lost(&holding.tables, &holding.tables);
    assert_eq!(checked, Ok(()));
    let checked = check_nothing_lost(&holding.tables, &dropping.tables);
    assert_eq!(checked, Err(Breach::Timestamps));
}

#[test]
fn another_state_is_told() {
    type Alter = fn(&mut Tables);
    // Places 0 to 2 have 40, 30 and 31.
    let alterations: [(Alter, Breach); 13] = [
        (|tables| tables.timestamps[0] = 41, Breach::Timestamps),
        (|tables| tables.held[0] = 2, Breach::Timestamps),
        (|tables| tables.cutoff[0] = 31, Breach::Timestamps),
        (|tables| tables.cutoff[0] = 20, Breach::Timestamps),
        (|tables| tables.versions[1] = 1, Breach::Change(30)),
        (|tables| tables.withdrawn[0] = 0, Breach::Change(40)),
        (
            |tables| tables.status[1] = Status::Invalid.number(),
            Breach::Change(30),
        ),
        (|tables| tables.seen[32] = 1, Breach::Change(30)),
        (|tables| tables.written[64] = 1, Breach::Change(31)),
        (|tables| tables.kept[34] = 1, Breach::Kept(34)),
        (|tables| tables.kept[1023] = 1, Breach::Kept(1023)),
        (|tables| tables.view[34] = 8, Breach::View(34)),
        (|tables| tables.view[1023] = 1, Breach::View(1023)),
    ];
    for (alter, breach) in alterations {
        let [mut dropping, holding] = both();
        assert_eq!(dropping.tables.timestamps, [40, 30, 31]);
        alter(&mut dropping.tables);
        let checked = check_nothing_lost(&dropping.tables, &holding.tables);
        assert_eq!(checked, Err(breach));
    }
}
