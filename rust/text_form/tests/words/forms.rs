//! Each form with the ends of its ranges, and the forms that a person may choose between.

use crate::{bytes, change, listing, package, program};
use text_form::package::Entry;
use tolbezun::Version;

/// Instructions in words, with the bytes that document 01's table gives them.
const FORMS: [(&str, [u8; 8]); 42] = [
    ("stop", [0, 0, 0, 0, 0, 0, 0, 0]),
    ("r0 = 0", [1, 0, 0, 0, 0, 0, 0, 0]),
    ("r7 = 2147483647", [1, 7, 0, 0, 255, 255, 255, 127]),
    ("r7 = -2147483648", [1, 7, 0, 0, 0, 0, 0, 128]),
    ("r3 = -1", [1, 3, 0, 0, 255, 255, 255, 255]),
    ("r0 = r7", [2, 0, 7, 0, 0, 0, 0, 0]),
    ("r7 = r0", [2, 7, 0, 0, 0, 0, 0, 0]),
    ("r0 = r1 + r7", [3, 0, 1, 7, 0, 0, 0, 0]),
    ("r7 = r6 + r0", [3, 7, 6, 0, 0, 0, 0, 0]),
    ("r0 = r1 - r7", [4, 0, 1, 7, 0, 0, 0, 0]),
    ("r7 = r6 - r0", [4, 7, 6, 0, 0, 0, 0, 0]),
    ("r0 = -r7", [5, 0, 7, 0, 0, 0, 0, 0]),
    ("r7 = -r0", [5, 7, 0, 0, 0, 0, 0, 0]),
    ("r0 = r7 / 2^0", [6, 0, 7, 0, 0, 0, 0, 0]),
    ("r7 = r0 / 2^31", [6, 7, 0, 0, 31, 0, 0, 0]),
    ("r0 = ones r7", [7, 0, 7, 0, 0, 0, 0, 0]),
    ("r7 = ones r0", [7, 7, 0, 0, 0, 0, 0, 0]),
    ("r0 = r1 and r7", [8, 0, 1, 7, 0, 0, 0, 0]),
    ("r7 = r6 and r0", [8, 7, 6, 0, 0, 0, 0, 0]),
    ("r0 = r1 or r7", [9, 0, 1, 7, 0, 0, 0, 0]),
    ("r7 = r6 or r0", [9, 7, 6, 0, 0, 0, 0, 0]),
    ("r0 = r1 xor r7", [10, 0, 1, 7, 0, 0, 0, 0]),
    ("r7 = r6 xor r0", [10, 7, 6, 0, 0, 0, 0, 0]),
    ("r0 = port 0 field 0", [11, 0, 0, 0, 0, 0, 0, 0]),
    ("r7 = port 63 mask 7", [11, 7, 0, 0, 255, 3, 0, 0]),
    ("r1 = port 2 power", [11, 1, 0, 0, 36, 0, 0, 0]),
    ("r0 = setting r7", [12, 0, 7, 0, 0, 0, 0, 0]),
    ("r7 = setting r0", [12, 7, 0, 0, 0, 0, 0, 0]),
    ("port 0 field 0 = r0", [13, 0, 0, 0, 0, 0, 0, 0]),
    ("port 63 mask 7 = r7", [13, 7, 0, 0, 255, 3, 0, 0]),
    ("port 2 alarm = r1", [13, 1, 0, 0, 37, 0, 0, 0]),
    ("setting r7 = r0", [14, 0, 7, 0, 0, 0, 0, 0]),
    ("setting r0 = r7", [14, 7, 0, 0, 0, 0, 0, 0]),
    // Each of these skips ends at the end of a program of 32 instructions or just behind itself.
    ("if r0 < 0 skip to place_1", [15, 0, 0, 0, 0, 0, 0, 0]),
    ("if r7 < 0 skip to end", [15, 0, 7, 0, 31, 0, 0, 0]),
    ("if r0 = 0 skip to place_1", [16, 0, 0, 0, 0, 0, 0, 0]),
    ("if r7 = 0 skip to end", [16, 0, 7, 0, 31, 0, 0, 0]),
    ("skip to place_1", [17, 0, 0, 0, 0, 0, 0, 0]),
    ("skip to end", [17, 0, 0, 0, 31, 0, 0, 0]),
    ("skip to place_31", [17, 0, 0, 0, 30, 0, 0, 0]),
    ("skip to place_2", [17, 0, 0, 0, 1, 0, 0, 0]),
    ("if r1 < 0 skip to place_16", [15, 0, 1, 0, 15, 0, 0, 0]),
];

/// This instruction, then others up to 32, with the label that it goes to.
fn text_of_32(words: &str) -> String {
    let label = words.split_once("to ").map(|(_, label)| label);
    let mut lines = vec![format!("    {words}")];
    for place in 1..=32 {
        let name = match place {
            32 => "end".to_string(),
            _ => format!("place_{place}"),
        };
        if label == Some(&name) {
            lines.push(format!("  {name}:"));
        }
        if place < 32 {
            lines.push("    r0 = 1".to_string());
        }
    }
    lines.join("\n") + "\n"
}

#[test]
fn each_operation_with_the_ends_of_its_ranges() {
    for operation in 0..18 {
        assert!(FORMS.iter().any(|(_, bytes)| bytes[0] == operation));
    }
    for (words, expected) in FORMS {
        let mut expected_program = vec![expected];
        expected_program.resize(32, bytes(1, 0, 0, 0, 1));
        let text = text_of_32(words);
        assert_eq!(program(&text), expected_program, "{words}");
        assert_eq!(listing(&expected_program), text, "{words}");
    }
}

/// Both accesses of the setting that has this number, by these words.
#[track_caller]
fn assert_named(words: &str, number: i32) {
    let read = program(&format!("r1 = {words}"));
    assert_eq!(read, [bytes(11, 1, 0, 0, number)], "{words}");
    let write = program(&format!("{words} = r1"));
    assert_eq!(write, [bytes(13, 1, 0, 0, number)], "{words}");
}

#[test]
fn every_setting_by_number_by_port_and_field_and_by_name() {
    let names = [
        (1, "state"),
        (2, "vlan"),
        (4, "power"),
        (5, "alarm"),
        (8, "mask 0"),
        (9, "mask 1"),
        (10, "mask 2"),
        (11, "mask 3"),
        (12, "mask 4"),
        (13, "mask 5"),
        (14, "mask 6"),
        (15, "mask 7"),
    ];
    for port in 0..64 {
        for field in 0..16 {
            let number = 16 * port + field;
            let by_field = format!("port {port} field {field}");
            assert_named(&format!("setting {number}"), number);
            assert_named(&by_field, number);
            let named = names.iter().find(|(named, _)| *named == field);
            let name = named.map_or(by_field, |(_, name)| format!("port {port} {name}"));
            assert_named(&name, number);
            let read = listing(&[bytes(11, 1, 0, 0, number)]);
            assert_eq!(read, format!("    r1 = {name}\n"));
        }
    }
}

#[test]
fn skips_by_count_and_by_label() {
    let by_label = "
        if r0 < 0 skip to far     # 0
        if r1 = 0 skip to near    # 1
        skip to the_end           # 2
      near:
        stop                      # 3
      far:
      also_far:
        skip to also_near         # 4
      also_near:
        if r2 < 0 skip to the_end # 5
      the_end:";
    let by_count = "
        if r0 < 0 skip 3
        if r1 = 0 skip 1
        skip 3
        stop
        skip 0
        if r2 < 0 skip 0";
    let expected = [
        bytes(15, 0, 0, 0, 3),
        bytes(16, 0, 1, 0, 1),
        bytes(17, 0, 0, 0, 3),
        bytes(0, 0, 0, 0, 0),
        bytes(17, 0, 0, 0, 0),
        bytes(15, 0, 2, 0, 0),
    ];
    assert_eq!(program(by_label), expected);
    assert_eq!(program(by_count), expected);
}

/// A label may have any name that begins with a letter, those of fields and of instructions too.
#[test]
fn names_of_labels() {
    for name in [
        "alarm", "stop", "r0", "to", "change", "withdraw", "x1_2", "Ärger",
    ] {
        let text = format!("change 1\n skip to {name}\n stop\n{name}:\n");
        let program = vec![bytes(17, 0, 0, 0, 1), bytes(0, 0, 0, 0, 0)];
        assert_eq!(package(&text).entries(), [change(1, program)], "{name}");
    }
}

/// Labels belong to their change.
#[test]
fn labels_of_two_changes() {
    let package = package("change 1\nskip to on\non:\nchange 2\nskip to on\nstop\non:\n");
    let [stop, on] = [bytes(0, 0, 0, 0, 0), bytes(17, 0, 0, 0, 0)];
    let expected = [
        change(1, vec![on]),
        change(2, vec![bytes(17, 0, 0, 0, 1), stop]),
    ];
    assert_eq!(package.entries(), expected);
}

#[test]
fn blanks_comments_and_ends_of_lines_do_not_count() {
    let expected = [bytes(4, 0, 0, 1, 0), bytes(13, 0, 0, 0, 36)];
    for text in [
        "r0 = r0 - r1\nsetting 36 = r0",
        "r0=r0-r1\nport 2 power=r0\n",
        "\t r0  =\tr0 -  r1 # a comment # with ümlauts\r\n\r\n#\n # one more\nsetting 0036 = r0 #",
    ] {
        assert_eq!(program(text), expected, "{text:?}");
    }
    assert_eq!(program("r0 = - 5"), [bytes(1, 0, 0, 0, -5)]);
    assert_eq!(program("r0 = -0"), [bytes(1, 0, 0, 0, 0)]);
    assert_eq!(program("r0 = - r1"), [bytes(5, 0, 1, 0, 0)]);
}

#[test]
fn entries_of_a_package() {
    let text = "
        change 18446744073709551614 version 1
        withdraw 1
        change 30 version 0
            stop
        change 0
        withdraw 18446744073709551615";
    let stop = bytes(0, 0, 0, 0, 0);
    let expected = [
        Entry::Change {
            timestamp: u64::MAX - 1,
            version: Version::One,
            program: vec![],
        },
        Entry::Withdrawal { timestamp: 1 },
        change(30, vec![stop]),
        change(0, vec![]),
        Entry::Withdrawal {
            timestamp: u64::MAX,
        },
    ];
    assert_eq!(package(text).entries(), expected);
    let shown = "\
# entry 0: change 18446744073709551614, console 254
change 18446744073709551614 version 1

# entry 1: withdrawal of 1, console 1
withdraw 1

# entry 2: change 30, console 30
change 30
    stop

# entry 3: change 0, console 0
change 0

# entry 4: withdrawal of 18446744073709551615, console 255
withdraw 18446744073709551615
";
    assert_eq!(package(text).to_string(), shown);
}

/// The 70 bytes of document 01's example.
#[test]
fn the_example_of_document_01() {
    let text = "change 20\n r0 = port 2 vlan\n port 3 vlan = r0\n\
                change 10\n r0 = 7\n port 2 vlan = r0\n withdraw 15\n";
    let mut expected = vec![3, 0];
    for (timestamp, kind, count) in [(20, 0, 2), (10, 0, 2), (15, 1, 0)] {
        expected.extend([timestamp, 0, 0, 0, 0, 0, 0, 0, kind, count, 0, 0]);
    }
    expected.extend(bytes(11, 0, 0, 0, 34));
    expected.extend(bytes(13, 0, 0, 0, 50));
    expected.extend(bytes(1, 0, 0, 0, 7));
    expected.extend(bytes(13, 0, 0, 0, 34));
    assert_eq!(expected.len(), 70);
    assert_eq!(package(text).to_bytes(), expected);
}

#[test]
fn nothing_is_an_empty_package() {
    for text in ["", "\n", "# nothing\n\n"] {
        assert_eq!(package(text).to_bytes(), [0, 0], "{text:?}");
        assert_eq!(package(text).to_string(), "# no entries\n");
    }
}
