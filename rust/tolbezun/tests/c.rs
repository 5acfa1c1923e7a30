//! Programs in C that include the header and link the static library.

use std::path::{Path, PathBuf};
use std::process::Command;

/// The repository.
fn root() -> PathBuf {
    Path::new(env!("CARGO_MANIFEST_DIR")).join("../..")
}

/// Runs the C compiler with all warnings as errors.
#[track_caller]
fn compile(arguments: &[&Path]) {
    let output = Command::new("cc")
        .args(["-Wall", "-Wextra", "-Werror", "-pedantic", "-I"])
        .arg(root().join("include"))
        .args(arguments)
        .output()
        .expect("the C compiler runs");
    assert!(
        output.status.success(),
        "{}",
        String::from_utf8_lossy(&output.stderr)
    );
}

/// Compiles and runs a program, and returns what it prints.
#[track_caller]
fn run(source: &Path) -> String {
    let stem = source.file_stem().expect("this is the path of a file");
    let program = Path::new(env!("CARGO_TARGET_TMPDIR")).join(stem);
    compile(&[
        Path::new("-std=c99"),
        source,
        Path::new(env!("ARCHIVE")),
        Path::new("-o"),
        &program,
    ]);
    let output = Command::new(&program).output().expect("the program runs");
    assert!(output.status.success(), "{}", output.status);
    String::from_utf8(output.stdout).expect("it prints ASCII")
}

#[test]
fn the_header_is_c_plus_plus_too() {
    let header = root().join("include/tolbezun.h");
    compile(&[
        Path::new("-x"),
        Path::new("c++"),
        Path::new("-fsyntax-only"),
        &header,
    ]);
}

#[test]
fn the_example_shows_the_power_left() {
    let expected = "\
10 gives 400, 30 takes 300: 2 ran, 0 stood, 0 cleared, 0 faulted; power left 100, alarm 0
20 takes 200, late: 2 ran, 0 stood, 0 cleared, 0 faulted; power left -100, alarm 1
20 is withdrawn: 1 ran, 0 stood, 1 cleared, 0 faulted; power left 100, alarm 0
";
    assert_eq!(run(&root().join("examples/power.c")), expected);
}

/// Answers as the header says, slices that keep their contents, and nothing lent.
#[test]
fn edges_are_as_the_header_says() {
    // 1, which is withdrawn, has no instructions, 2^64 - 2 has two and version 1.
    let package = [
        "0300",
        "010000000000000000000000",
        "feffffffffffffff00020100",
        "010000000000000001000000",
        "01000000fbffffff0d000000ff030000",
    ];
    let (package, untouched) = (package.concat(), "63".repeat(57));
    let expected = format!(
        "\
set_up 1 1 0
nothing lent 1 1
take_in 0 255 8 0 9 4 6 7
turn 17 77 77 77
turn 17 77 77 77
turn 17 77 77 77
turn 1 1 77 77
turn 1 18446744073709551614 77 77
turn 0 78 77 77
drain 0 0 77
current_value -5 4294967301 4294967297
value_as_of -5 0 4294967300
withdraw 0 11 10
standing 258 1 65546
package_out 65548 {untouched}
package_out 65548 {untouched}
package_out 54 {package}636363
package_out 54 {package}636363
package_out 65548 65537
take_in_package 1 1 3 0: 10 99
plain_run 1 99 0: 0 -5 99
start_values 1 1 99 0: 1 0 99
faulting 0 0 0
drain 1 1024 77
drain 1 1024 77
drain 1 1024 77
drain 0 0 0:1 1023:1 77
drain 0 0 77
faulting 0 0 0
turn 4 255 3 77
turn 1 256 3 77
turn 0 256 3 77
withdraw 0
turn 3 255 3 77
versions 0 13 13 6 13 0 8 255 0: 1 0
turn 4 2 2 77
turn 1 3 2 77
current_value -10
turn 18 3 2 77
cutoff 1 4 4 0 15 0: 2 2 0
turn 3 2 2 77
cutoff 0: 1 3 0
cutoff 0: 0 4 -10
below 14 14 14 4294967310 65550
value_as_of -10 1
plain_run 0: -10 1
take_in_package 0 0 10 0 14
turn 18 2 2 77
cutoff 0 0 0: 1 18446744073709551614
set_up 0: 0 0 1
not in form 2 18 65538 65538
drain 1 1024 77
drain 2 1024 77
"
    );
    let edges = Path::new(env!("CARGO_MANIFEST_DIR")).join("tests/edges.c");
    assert_eq!(run(&edges), expected);
}
