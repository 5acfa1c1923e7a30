//! The program's arguments.

use crate::outside_tables;
use crate::programs::{set, take_in};
use crate::{assert_answers, printed, run, text, write_file};
use outside::tables::Tables;

/// Wrong arguments, with the first line of the message: the second shows the usage.
#[track_caller]
fn assert_wrong(arguments: &[&str], message: &str) {
    let output = run(arguments, b"turn\n");
    let usage = "usage: calls [--n N] [--explain] [FILE]";
    assert_eq!(text(&output.stderr), format!("{message}\n{usage}\n"));
    assert_eq!(text(&output.stdout), "");
    assert_eq!(output.status.code(), Some(2));
}

/// How many changes are taken in before the tables are full.
fn room(arguments: &[&str]) -> usize {
    let lines: Vec<String> = (1..=200).map(|timestamp| take_in(timestamp, "-")).collect();
    let printed = printed(arguments, &lines.join("\n"));
    let taken = printed
        .lines()
        .take_while(|&answer| answer == "done")
        .count();
    let others = printed.lines().skip(taken);
    assert!(others.clone().all(|answer| answer == "refused 9"));
    assert_eq!(taken + others.count(), 200);
    taken
}

#[test]
fn the_capacity() {
    assert_eq!(room(&[]), 128);
    for n in [1, 2, 127, 129, 200] {
        assert_eq!(room(&["--n", &n.to_string()]), n);
    }
    assert_eq!(room(&["--n", "007"]), 7);
}

#[test]
fn another_capacity_is_refused_by_every_call() {
    let calls = [
        ("set_up", "refused 1"),
        ("take_in 10 -", "refused 1"),
        ("take_in 10 - 2", "refused 1"),
        ("withdraw 10", "refused 1"),
        ("turn", "refused 1"),
        ("drain", "refused 1"),
        ("drain len5", "refused 1"),
        ("cutoff 10", "refused 1"),
        ("current 34", "refused 1"),
        ("value_as_of 10 34", "refused 1"),
        ("standing 10", "refused 1"),
        ("take_in_package 0000", "refused 1"),
        ("package_out 0", "refused 1"),
        ("package_out 65535", "refused 1"),
        ("plain_run", "refused 1"),
    ];
    for n in [0, 4_097, 65_537, 1 << 32 | 1, usize::MAX] {
        assert_answers(&["--n", &n.to_string()], &calls);
    }
}

/// For 4,097 the lengths are right and the capacity alone is refused. No more is lent for a higher
/// one. Nothing can set up such tables, so every slot is 0.
#[test]
fn tables_above_the_highest_capacity() {
    let zeros = |n| Tables {
        view: vec![0; 1024],
        kept: vec![0; 1024],
        ..Tables::new(n)
    };
    let above = outside_tables::line(&zeros(4_097)) + "\n";
    for n in [4_097, 4_098, usize::MAX] {
        assert!(
            printed(&["--n", &n.to_string()], "tables\n") == above,
            "{n}"
        );
    }
    let none = outside_tables::line(&zeros(0)) + "\n";
    assert_eq!(printed(&["--n", "0"], "tables\n"), none);
}

#[test]
fn the_script_may_be_a_file() {
    write_file(
        "script.calls",
        take_in(10, set(34, 7)) + "\ndrain\ncurrent 34",
    );
    let answers = "done\ndone by console {\"40\": 1}\nvalue 7\n";
    // Standard input is not read.
    assert_eq!(printed(&["script.calls"], "turn"), answers);
    assert_eq!(printed(&["--n", "1", "script.calls"], ""), answers);
    assert_eq!(printed(&["script.calls", "--n", "1"], ""), answers);
}

#[test]
fn explanations_are_asked_for() {
    write_file("explain.calls", take_in(10, set(34, 7)) + "\nturn\nturn");
    let answers = "done\nran 10\nidle\n";
    let explained = "\
done
ran 10
# 10 ran: it is New
#   changed port 2 vlan from 1 to 7
idle
# no change is New or Invalid
";
    assert_eq!(printed(&["explain.calls"], ""), answers);
    for arguments in [
        &["--explain", "explain.calls"][..],
        &["explain.calls", "--explain"],
        &["--explain", "--n", "1", "explain.calls"],
        &["--n", "1", "explain.calls", "--explain"],
    ] {
        assert_eq!(printed(arguments, "turn"), explained);
    }
    let full = "# refused 9: the tables are full";
    let printed = printed(&["--n", "1", "--explain"], "take_in 10 -\ntake_in 20 -");
    assert_eq!(printed, format!("done\nrefused 9\n{full}\n"));
}

#[test]
fn help() {
    for arguments in [
        &["--help"][..],
        &["--n", "5", "--help"],
        &["file", "--help"],
        &["--explain", "--help"],
    ] {
        let help = printed(arguments, "turn\n");
        assert!(help.starts_with("usage: calls [--n N] [--explain] [FILE]\n\n"));
        for name in [
            "  --n N",
            "  --explain",
            "  --help",
            "set_up",
            "take_in TS HEX [VERSION]",
            "withdraw TS",
            "turn",
            "drain [lenL]",
            "cutoff TS",
            "current S",
            "value_as_of TS S",
            "standing TS",
            "take_in_package HEX [lenL]",
            "package_out L",
            "plain_run",
            "start_values",
            "tables",
            "load FILE",
        ] {
            let lines = help
                .lines()
                .filter(|line| line.starts_with(&format!("{name}  ")));
            assert_eq!(lines.count(), 1, "{name}");
        }
    }
}

#[test]
fn wrong_arguments() {
    assert_wrong(&["--n"], "--n needs a number");
    for number in ["", "-1", "+1", "x", "1.0", "18446744073709551616"] {
        let message = format!("--n {number}: not a capacity");
        assert_wrong(&["--n", number], &message);
    }
    assert_wrong(&["--n", "5", "--n", "5"], "--n is given twice");
    let twice = ["--explain", "file", "--explain"];
    assert_wrong(&twice, "--explain is given twice");
    assert_wrong(&["--explain=yes"], "there is no option --explain=yes");
    assert_wrong(&["-n", "5"], "there is no option -n");
    assert_wrong(&["--n=5"], "there is no option --n=5");
    assert_wrong(&["-"], "there is no option -");
    assert_wrong(&["a", "b"], "a is not the only file");
}

#[test]
fn a_script_that_is_not_there() {
    let output = run(&["no_script.calls"], b"turn\n");
    let message = text(&output.stderr);
    assert!(message.starts_with("no_script.calls: "), "{message}");
    assert_eq!(message.lines().count(), 1);
    assert_eq!(text(&output.stdout), "");
    assert_eq!(output.status.code(), Some(2));
}
