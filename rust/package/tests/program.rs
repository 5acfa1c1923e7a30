//! The program `package`, run on texts and packages.

use comparison::generate::packages;
use comparison::seeds::with_seeds;
use outside::package::lay_out;
use std::io::Write;
use std::process::{Command, Output, Stdio};
use std::{fs, thread};

/// How many random packages the program shows, and makes again.
const PACKAGES: usize = 200;

/// Runs the program on this input.
fn run(arguments: &[&str], input: &[u8]) -> Output {
    let mut child = Command::new(env!("CARGO_BIN_EXE_package"))
        .args(arguments)
        .current_dir(env!("CARGO_MANIFEST_DIR"))
        .stdin(Stdio::piped())
        .stdout(Stdio::piped())
        .stderr(Stdio::piped())
        .spawn()
        .expect("the program starts");
    let mut stdin = child.stdin.take().expect("its input is piped");
    thread::scope(|scope| {
        // The program may end before it has read all.
        scope.spawn(move || stdin.write_all(input));
        child.wait_with_output().expect("the program ends")
    })
}

/// Asserts what the program prints, says and ends with.
#[track_caller]
fn assert_output(output: &Output, printed: &str, said: &str, status: i32) {
    assert_eq!(String::from_utf8_lossy(&output.stderr), said);
    assert_eq!(String::from_utf8_lossy(&output.stdout), printed);
    assert_eq!(output.status.code(), Some(status));
}

/// The text of document 01's example makes the package that `./run` is shown with, and the other way
/// round.
#[test]
fn the_example() {
    let text = "../../examples/arrival.words";
    let package = fs::read("../../examples/arrival.package").expect("there is an example");
    let made = run(&["make", text], b"");
    assert_eq!(made.stdout, package);
    assert_eq!(made.status.code(), Some(0));
    let shown = run(&["show", "../../examples/arrival.package"], b"");
    let expected = "\
# entry 0: change 20, console 20
change 20
    r0 = port 2 vlan
    port 3 vlan = r0

# entry 1: change 10, console 10
change 10
    r0 = 7
    port 2 vlan = r0

# entry 2: withdrawal of 15, console 15
withdraw 15
";
    assert_output(&shown, expected, "", 0);
}

/// What README shows of `examples/power.words`, and of a slip.
#[test]
fn the_readme() {
    let read = |file| fs::read_to_string(file).expect("there is such a file");
    let (readme, words) = (read("../../README.md"), read("../../examples/power.words"));
    assert!(readme.contains(&format!("```\n{words}```\n")));
    let made = run(&["make", "../../examples/power.words"], b"");
    let shown = run(&["show"], &made.stdout);
    let shown = String::from_utf8_lossy(&shown.stdout);
    assert!(readme.contains(&format!("$ package show my.package\n{shown}```\n")));

    let (_, slip) = readme.split_once("$ echo '").expect("README shows a slip");
    let (text, said) = slip.split_once("' | package make\n").expect("it is made");
    let (said, _) = said.split_once("```").expect("the block ends");
    assert_output(&run(&["make"], text.as_bytes()), "", said, 1);
}

#[test]
fn standard_input_is_read_where_no_file_is_given() {
    let made = run(&["make"], b"withdraw 258\n");
    assert_eq!(made.stdout, [1, 0, 2, 1, 0, 0, 0, 0, 0, 0, 1, 0, 0, 0]);
    let shown = run(&["show"], &made.stdout);
    let expected = "# entry 0: withdrawal of 258, console 2\nwithdraw 258\n";
    assert_output(&shown, expected, "", 0);
}

#[test]
fn a_text_that_cannot_be_read() {
    let output = run(&["make"], b"change 1\n  r0 = port 64 vlan\n");
    let said = "standard input: line 2, column 13: expected a port from 0 to 63, found \"64\"\n";
    assert_output(&output, "", said, 1);
}

#[test]
fn a_package_that_breaks_its_layout() {
    let output = run(&["show"], b"\x01\x00");
    let said = "standard input: byte 2: expected entry 0 of the contents, 12 bytes, \
                found the end of the package\n";
    assert_output(&output, "", said, 1);
}

#[test]
fn a_program_that_is_refused() {
    let mut package = run(&["make"], b"change 7\nstop\nr0 = 1\nwithdraw 7\n").stdout;
    let last = package.len() - 8;
    package[last] = 18;
    let output = run(&["show"], &package);
    let printed = "\
# entry 0: change 7, console 7
change 7
    stop
    refused 1200000001000000  # instruction 1: there is no operation 18

# entry 1: withdrawal of 7, console 7
withdraw 7
";
    let said = "standard input: entry 0, change 7: \
                instruction 1 is refused (7): there is no operation 18\n";
    assert_output(&output, printed, said, 1);
}

/// A timestamp that is out of range is refused by the cabinet, entry by entry, and is no error of the
/// package.
#[test]
fn timestamps_that_every_cabinet_refuses() {
    let text = b"change 0\nwithdraw 18446744073709551615\nwithdraw 1\n";
    let said = "\
standard input: entry 0, change 0: every cabinet refuses this timestamp (4)
standard input: entry 1, withdrawal of 18446744073709551615: every cabinet refuses this timestamp (4)
";
    let made = run(&["make"], text);
    assert_eq!(String::from_utf8_lossy(&made.stderr), said);
    assert_eq!(made.status.code(), Some(0));
    let shown = run(&["show"], &made.stdout);
    assert_eq!(String::from_utf8_lossy(&shown.stderr), said);
    assert_eq!(run(&["make"], &shown.stdout).stdout, made.stdout);
}

#[test]
fn random_packages_are_shown_and_made_again() {
    with_seeds(|random, share| {
        for _ in 0..share.of(PACKAGES) {
            let package = lay_out(&packages::entries(random, &[], 0));
            let shown = run(&["show"], &package);
            let made = run(&["make"], &shown.stdout);
            match shown.status.code() {
                Some(0) => assert_eq!(made.stdout, package),
                _ => {
                    assert_eq!(shown.status.code(), Some(1));
                    assert_eq!((made.stdout.len(), made.status.code()), (0, Some(1)));
                }
            }
        }
    });
}

#[test]
fn any_bytes_end_with_a_status() {
    with_seeds(|random, share| {
        for _ in 0..share.of(PACKAGES) {
            let bytes: Vec<u8> = (0..random.below(200))
                .map(|_| random.bits() as u8)
                .collect();
            for command in ["make", "show"] {
                let output = run(&[command], &bytes);
                let status = output.status.code();
                assert!(matches!(status, Some(0 | 1)), "{status:?} of {bytes:?}");
                assert_eq!(status == Some(1), !output.stderr.is_empty(), "{bytes:?}");
            }
        }
    });
}

#[test]
fn arguments() {
    const USAGE: &str = "usage: package make [FILE]\n       package show [FILE]\n";
    for (arguments, mistake) in [
        (&[][..], "make or show is missing"),
        (&["print"], "there is no command print"),
        (&["--make"], "there is no command --make"),
        (&["make", "a", "b"], "b is a word too many"),
    ] {
        let output = run(arguments, b"");
        assert_output(&output, "", &format!("{mistake}\n{USAGE}"), 2);
    }
    for arguments in [&["--help"][..], &["make", "--help"], &["show", "--help"]] {
        let output = run(arguments, b"");
        let printed = String::from_utf8_lossy(&output.stdout);
        assert!(printed.starts_with(USAGE), "{printed}");
        assert_eq!(output.status.code(), Some(0));
    }
    let output = run(&["show", "no.package"], b"");
    let said = String::from_utf8_lossy(&output.stderr);
    assert!(said.starts_with("no.package: "), "{said}");
    assert_eq!(output.status.code(), Some(2));
}
