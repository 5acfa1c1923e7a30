//! Packages that break their layout, and programs in them that are refused.

use crate::{bytes, change, package};
use text_form::Package;
use tolbezun::Mistake;

/// A package of two changes, of 1 and 2 instructions, and a withdrawal: 2 + 36 + 24 bytes.
fn whole() -> Vec<u8> {
    package("change 1\nstop\nchange 2 version 1\nr0 = 1\nstop\nwithdraw 3\n").to_bytes()
}

/// Asserts where the package breaks that is left when `alter` has altered it.
#[track_caller]
fn assert_breaks(alter: impl FnOnce(&mut Vec<u8>), byte: usize, expected: &str, found: &str) {
    let mut altered = whole();
    alter(&mut altered);
    let broken = Package::from_bytes(&altered).expect_err("it breaks the layout");
    let message = format!("byte {byte}: expected {expected}, found {found}");
    assert_eq!(broken.to_string(), message);
    assert_eq!(broken.byte, byte);
}

#[test]
fn where_and_why_a_package_breaks() {
    assert_eq!(whole().len(), 62);
    Package::from_bytes(&whole()).expect("this one is right");

    let end = "the end of the package";
    let count = "the number of entries, 2 bytes";
    assert_breaks(|package| package.truncate(0), 0, count, end);
    assert_breaks(|package| package.truncate(1), 1, count, end);
    assert_breaks(
        |package| package[..2].fill(2),
        0,
        "at most 512 entries",
        "514",
    );
    let entry = "entry 1 of the contents, 12 bytes";
    assert_breaks(|package| package.truncate(14), 14, entry, end);
    assert_breaks(|package| package.truncate(25), 25, entry, end);
    assert_breaks(
        |package| package[22] = 2,
        22,
        "kind 0, a change, or 1, a withdrawal, of entry 1",
        "2",
    );
    assert_breaks(
        |package| package[23] = 33,
        23,
        "at most 32 instructions of entry 1",
        "33",
    );
    assert_breaks(
        |package| package[24] = 2,
        24,
        "version 0 or 1 of entry 1",
        "2",
    );
    assert_breaks(
        |package| package[25] = 9,
        25,
        "0, the last byte of entry 1",
        "9",
    );
    assert_breaks(
        |package| package[35] = 1,
        35,
        "0 instructions, as it is a withdrawal, of entry 2",
        "1",
    );
    assert_breaks(
        |package| package[36] = 1,
        36,
        "version 0, as it is a withdrawal, of entry 2",
        "1",
    );
    let body = "instruction 1 of entry 1";
    assert_breaks(|package| package.truncate(61), 61, body, end);
    assert_breaks(|package| package.truncate(54), 54, body, end);
    assert_breaks(|package| package.push(0), 62, end, "more, up to byte 62");
    assert_breaks(|package| package[23] = 1, 54, end, "more, up to byte 61");
    assert_breaks(
        |package| package.resize(65_536, 0),
        65_535,
        "at most 65535 bytes",
        "65536 bytes",
    );
}

#[test]
fn which_instruction_is_refused_and_why() {
    let refused = [
        ([18, 0, 0, 0, 0, 0, 0, 0], "there is no operation 18"),
        ([255, 0, 0, 0, 0, 0, 0, 0], "there is no operation 255"),
        (bytes(1, 8, 0, 0, 5), "a is 8, and registers are 0 to 7"),
        (bytes(2, 0, 9, 0, 0), "b is 9, and registers are 0 to 7"),
        (bytes(3, 0, 0, 255, 0), "c is 255, and registers are 0 to 7"),
        (bytes(6, 0, 0, 0, 32), "n is 32, and 0 to 31 is right"),
        (bytes(6, 0, 0, 0, -1), "n is -1, and 0 to 31 is right"),
        (bytes(11, 0, 0, 0, 1024), "there is no setting 1024"),
        (bytes(13, 0, 0, 0, -1), "there is no setting -1"),
        (
            bytes(15, 0, 0, 0, -1),
            "n is -1, and 0 to 1 is right, as many instructions as follow",
        ),
        (
            bytes(16, 0, 0, 0, 2),
            "n is 2, and 0 to 1 is right, as many instructions as follow",
        ),
        (
            bytes(17, 0, 0, 0, i32::MAX),
            "n is 2147483647, and 0 to 1 is right, as many instructions as follow",
        ),
        (bytes(17, 1, 0, 0, 0), "a is not used, and it is not 0"),
        (bytes(0, 0, 1, 0, 0), "b is not used, and it is not 0"),
        (bytes(5, 0, 0, 1, 0), "c is not used, and it is not 0"),
        (bytes(2, 0, 0, 0, 256), "n is not used, and it is not 0"),
    ];
    for (instruction, why) in refused {
        let program = vec![bytes(17, 0, 0, 0, 2), instruction, bytes(0, 0, 0, 0, 0)];
        let mut contents = vec![2, 0];
        contents.extend([7, 0, 0, 0, 0, 0, 0, 0, 1, 0, 0, 0]);
        contents.extend([9, 1, 0, 0, 0, 0, 0, 0, 0, 3, 0, 0]);
        contents.extend(program.as_flattened());
        let package = Package::from_bytes(&contents).expect("the layout is right");
        assert_eq!(package.entries()[1], change(265, program));
        assert_eq!(package.to_bytes(), contents);

        let mistakes: Vec<(usize, usize, Mistake)> = package.mistakes().collect();
        let [(1, 1, mistake)] = mistakes[..] else {
            panic!("{mistakes:?} of {instruction:?}");
        };
        assert_eq!(mistake.to_string(), why);
        let digits: String = instruction
            .iter()
            .map(|byte| format!("{byte:02x}"))
            .collect();
        let expected = format!(
            "# entry 0: withdrawal of 7, console 7\nwithdraw 7\n\n\
             # entry 1: change 265, console 9\nchange 265\n    skip to end\n    \
             refused {digits}  # instruction 1: {why}\n    stop\n  end:\n"
        );
        assert_eq!(package.to_string(), expected);
        // What is refused is not read again.
        let error = Package::from_text(expected.as_bytes()).expect_err("it is refused");
        assert_eq!((error.line, error.column), (7, 5));
        assert_eq!(error.found, r#""refused""#);
    }
}
