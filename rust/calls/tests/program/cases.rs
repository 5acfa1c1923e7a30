//! The cases of document 01, "Cases to know", with the start values (R-1), the faults shown (R-2) and
//! the totals for each console (R-5) of document 02, and the example scripts, of which one fills a
//! cabinet from its neighbour (R-3), one has programs of both versions (R-6) and one sets a cutoff
//! (R-7).

use crate::programs::{
    add, constant, copy, instruction, package, package_of_versions, read, set, take, take_in, write,
};
use crate::{assert_answers, printed};
use std::fs;

/// Carries out a case on tables just set up.
#[track_caller]
fn assert_case(calls: &[(&str, &str)]) {
    let set_up = [("set_up", "done")];
    assert_answers(&[], &[&set_up, calls].concat());
}

#[test]
fn p1() {
    assert_case(&[("turn", "idle"), ("drain", "done by console {}")]);
}

#[test]
fn p2() {
    assert_case(&[
        (&take_in(20, set(34, 5)), "done"),
        ("drain", r#"done by console {"80": 1}"#),
        (&take_in(10, set(34, 7)), "done"),
        ("turn", "ran 10"),
        ("turn", "idle"),
        ("current 34", "value 5"),
        ("value_as_of 15 34", "value 7"),
    ]);
}

#[test]
fn p3() {
    assert_case(&[
        (&take_in(20, copy(34, 50)), "done"),
        ("drain", r#"done by console {"80": 1}"#),
        (&take_in(10, set(34, 7)), "done"),
        ("turn", "ran 10"),
        ("turn", "ran 20"),
        ("turn", "idle"),
        ("current 50", "value 7"),
    ]);
}

#[test]
fn p4() {
    assert_case(&[
        (&take_in(20, copy(34, 50)), "done"),
        ("drain", r#"done by console {"80": 1}"#),
        (&take_in(10, set(34, 1)), "done"),
        ("turn", "ran 10"),
        ("turn", "idle"),
        ("current 50", "value 1"),
    ]);
}

#[test]
fn p5() {
    assert_case(&[
        (&take_in(20, set(34, 5)), "done"),
        (&take_in(30, copy(34, 50)), "done"),
        ("drain", r#"done by console {"80": 1, "120": 1}"#),
        (&take_in(10, set(34, 7)), "done"),
        ("turn", "ran 10"),
        ("turn", "idle"),
        ("current 34", "value 5"),
        ("current 50", "value 5"),
    ]);
}

#[test]
fn p6() {
    assert_case(&[
        (&take_in(20, add(34, 1)), "done"),
        ("drain", r#"done by console {"80": 1}"#),
        ("current 34", "value 2"),
        (&take_in(10, set(34, 7)), "done"),
        ("turn", "ran 10"),
        ("turn", "ran 20"),
        ("turn", "idle"),
        ("current 34", "value 8"),
    ]);
}

#[test]
fn p7() {
    assert_case(&[
        (&take_in(30, copy(34, 50)), "done"),
        ("drain", r#"done by console {"120": 1}"#),
        (&take_in(10, set(34, 7)), "done"),
        ("turn", "ran 10"),
        (&take_in(20, set(34, 1)), "done"),
        ("turn", "ran 20"),
        ("turn", "stood 30"),
        ("turn", "idle"),
        ("current 50", "value 1"),
    ]);
}

#[test]
fn p8() {
    let program = set(34, 7) + &set(40, 3);
    assert_case(&[
        (&take_in(10, program), "done"),
        ("drain", r#"done by console {"40": 1}"#),
        ("current 34", "value 7"),
        ("current 40", "value 3"),
        ("withdraw 10", "done"),
        ("turn", "cleared 10"),
        ("turn", "idle"),
        ("current 34", "value 1"),
        ("current 40", "value 0"),
    ]);
}

#[test]
fn p9() {
    let program = set(34, 7) + &set(34, 8);
    assert_case(&[
        (&take_in(10, &program), "done"),
        ("turn", "faulted 10 3"),
        ("turn", "idle"),
        ("current 34", "value 1"),
        ("value_as_of 11 34", "value 1"),
        ("set_up", "done"),
        (&take_in(10, &program), "done"),
        ("drain", r#"done by console {"43": 1}"#),
    ]);
}

#[test]
fn p10() {
    let program = [
        constant(0, i32::MIN),
        instruction(5, 1, 0, 0, 0),
        write(1, 40),
        constant(0, i32::MAX),
        constant(1, 1),
        instruction(3, 2, 0, 1, 0),
        write(2, 41),
        constant(0, -5),
        instruction(6, 1, 0, 0, 1),
        write(1, 42),
        constant(0, -1),
        instruction(7, 1, 0, 0, 0),
        write(1, 43),
    ];
    assert_case(&[
        (&take_in(10, program.concat()), "done"),
        ("drain", r#"done by console {"40": 1}"#),
        ("current 40", "value -2147483648"),
        ("current 41", "value -2147483648"),
        ("current 42", "value -3"),
        ("current 43", "value 32"),
    ]);
}

#[test]
fn p11() {
    assert_case(&[
        (&take_in(10, set(36, 400)), "done"),
        (&take_in(30, take(36, 300, 37)), "done"),
        ("drain", r#"done by console {"40": 1, "120": 1}"#),
        ("current 36", "value 100"),
        ("current 37", "value 0"),
        (&take_in(20, take(36, 200, 37)), "done"),
        ("turn", "ran 20"),
        ("turn", "ran 30"),
        ("turn", "idle"),
        ("current 36", "value -100"),
        ("current 37", "value 1"),
    ]);
}

/// "Accepted: timestamps 1 and 2^64 − 2, 256 bytes, setting 1,023, N = 4,096. Refused: 0, 264 bytes,
/// 7 bytes, 1,024, 4,097."
#[test]
fn accepted_and_refused() {
    let stops = |bytes| "00".repeat(bytes);
    assert_case(&[
        (&take_in(1, "-"), "done"),
        (&take_in(u64::MAX - 1, "-"), "done"),
        (&take_in(2, stops(256)), "done"),
        (&take_in(3, set(1023, 9)), "done"),
        (
            "drain",
            r#"done by console {"4": 1, "8": 1, "12": 1, "1016": 1}"#,
        ),
        ("current 1023", "value 9"),
        ("value_as_of 18446744073709551615 1023", "value 9"),
        (&take_in(0, "-"), "refused 4"),
        (&take_in(u64::MAX, "-"), "refused 4"),
        (&take_in(4, stops(264)), "refused 6"),
        (&take_in(4, stops(7)), "refused 6"),
        (&take_in(4, set(1024, 9)), "refused 7"),
        ("current 1024", "refused 5"),
    ]);
    assert_answers(&["--n", "4096"], &[("set_up", "done"), ("turn", "idle")]);
    let above = [("set_up", "refused 1"), ("turn", "refused 1")];
    assert_answers(&["--n", "4097"], &above);
}

/// The package of 70 bytes.
#[test]
fn package_of_the_cabinet_program() {
    let package = package(&[(20, 0, &copy(34, 50)), (10, 0, &set(34, 7)), (15, 1, "")]);
    assert_eq!(package.len(), 2 * 70);
    assert_case(&[
        (
            &format!("take_in_package {package}"),
            "done answers [0, 0, 10]",
        ),
        ("turn", "ran 10"),
        ("turn", "ran 20"),
        ("turn", "idle"),
        ("current 34", "value 7"),
        ("current 50", "value 7"),
    ]);
}

/// The path of a file of `examples/`.
fn example(name: &str) -> String {
    let examples = concat!(env!("CARGO_MANIFEST_DIR"), "/../../examples");
    format!("{examples}/{name}")
}

/// What `calls` prints for a file of `examples/`.
#[track_caller]
fn assert_example(name: &str, expected: &str) {
    assert_eq!(printed(&[&example(name)], ""), expected);
}

/// A file of `examples/` takes in this package and no other.
#[track_caller]
fn assert_taken(name: &str, package: &str) {
    let script = fs::read_to_string(example(name)).expect("the example is there");
    let taken: Vec<&str> = script
        .lines()
        .filter_map(|line| line.strip_prefix("take_in_package "))
        .collect();
    assert_eq!(taken, [package]);
}

#[test]
fn example_of_power() {
    let expected = r#"done
done
done
done by console {"40": 1, "120": 1}
value 100
value 0
done
ran 20
standing 2 0
ran 30
idle
value -100
value 1
value 200
done
done by console {"82": 1, "120": 1}
value 100
value 0
standing 1 1
"#;
    assert_example("power.calls", expected);
}

#[test]
fn example_of_a_fault() {
    let expected = r#"done
done
done
done
ran 10
faulted 20 2
ran 30
done
done by console {"60": 1, "80": 1, "120": 1}
value 1
done
done by console {"62": 1, "83": 1, "120": 1}
value 0
"#;
    assert_example("fault.calls", expected);
}

#[test]
fn example_of_consoles() {
    let expected = r#"done
done
done
done
done
done by console {"4": 1, "8": 2, "12": 1}
done
done by console {"4": 1, "8": 2}
value 250
value 250
done
done by console {"6": 1, "8": 2}
value 400
value 400
"#;
    assert_example("consoles.calls", expected);
}

/// What is taken in is what was written.
#[test]
fn example_of_a_neighbour() {
    let package = package(&[
        (10, 0, &set(36, 400)),
        (20, 0, &set(36, 250)),
        (30, 0, &copy(36, 52)),
        (20, 1, ""),
    ]);
    let expected = format!(
        r#"done
done
done
done by console {{"40": 1, "120": 1}}
done
done by console {{"80": 1, "120": 1}}
value 250
done
done by console {{"82": 1, "120": 1}}
value 400
value 400
standing 1 1
refused 12
length 98 {package}
done
value 0
done answers [0, 0, 0, 0]
done by console {{"40": 1, "82": 1, "120": 1}}
value 400
value 400
standing 1 1
length 98 {package}
"#
    );
    assert_example("neighbour.calls", &expected);
    assert_taken("neighbour.calls", &package);
}

/// 30 takes what 20 took, by the rules of version 1.
#[test]
fn example_of_versions() {
    let program = [
        read(0, 36),
        constant(1, 300),
        instruction(4, 0, 0, 1, 0),
        write(0, 36),
        read(2, 36),
        instruction(15, 0, 2, 0, 1),
        instruction(0, 0, 0, 0, 0),
        constant(3, 1),
        write(3, 37),
        write(4, 36),
    ];
    let program = program.concat();
    let package = package_of_versions(&[
        (10, 0, 0, &set(36, 200)),
        (15, 0, 0, &set(36, 400)),
        (20, 0, 0, &program),
        (30, 0, 1, &program),
        (20, 1, 0, ""),
    ]);
    let expected = format!(
        r#"done
done
done
ran 10
faulted 20 4
value 200
refused 8
refused 13
done
done answers [0]
cleared 20
ran 30
value 0
value 1
done
done by console {{"60": 1, "120": 1}}
value 100
value 0
length 254 {package}
"#
    );
    assert_example("versions.calls", &expected);
    let of_30 = package_of_versions(&[(30, 0, 1, &program)]);
    assert_taken("versions.calls", &of_30);
}

/// There is room for four changes.
#[test]
fn example_of_a_cutoff() {
    let expected = r#"done
done
done
done
done
done by console {"40": 1, "80": 1, "120": 1, "160": 1}
done
refused 9
refused 15
done by console {"122": 1, "160": 1}
done
done
refused 14
refused 14
value 400
done by console {"200": 1}
value 100
value 400
value 400
done
done by console {"202": 1}
value 400
refused 14
"#;
    let script = example("cutoff.calls");
    assert_eq!(printed(&["--n", "4", &script], ""), expected);
    let script = fs::read_to_string(script).expect("the example is there");
    let taken: Vec<&str> = script
        .lines()
        .filter(|line| line.starts_with("take_in "))
        .collect();
    let expected = [
        take_in(10, set(36, 400)),
        take_in(20, copy(36, 52)),
        take_in(30, set(36, 250)),
        take_in(40, copy(36, 68)),
        take_in(50, set(36, 100)),
        take_in(50, set(36, 100)),
        take_in(15, set(36, 250)),
    ];
    assert_eq!(taken, expected);
}
