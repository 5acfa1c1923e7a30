//! Programs in words, within a script.

use crate::programs::hex;
use crate::{assert_answers, printed, run, text, write_file};
use calls::{Options, Stop};
use comparison::generate::scripts::{Call, Source};
use comparison::generate::{self, version, Random};
use comparison::seeds::{count_reached, with_seeds};
use outside::program::check;
use outside::tables::Tables;
use text_form::program::Listing;

/// How many lists of takings in are carried out in both forms.
const LISTS: usize = 100;

/// How many takings in are in a list.
const TAKINGS: usize = 20;

/// How many scripts are damaged, or of any bytes.
const ANY_SCRIPTS: usize = 10_000;

#[test]
fn a_change_in_words_is_the_change_in_digits() {
    let script = "\
take_in 20 {                # takes 300 of the power of port 2
    r0 = port 2 power
    r1 = 300
    r0 = r0 - r1
    port 2 power = r0
    if r0 < 0 skip to alarm
    stop
  alarm:
    r1 = 1
    port 2 alarm = r1
}
take_in 20 0b00000024000000010100002c01000004000001000000000d000000240000000f00000001000000000000000000000001010000010000000d01000025000000
take_in 20 version 1 {
} # another program
take_in 30 version 2 {
}
take_in 0 {
}
turn
current port 2 power
value_as_of 20 port 2 field 4
current port 2 alarm
standing 20
";
    let answers =
        "done\nheld\nrefused 8\nrefused 13\nrefused 4\nran 20\nvalue -300\nvalue 0\nvalue 1\n\
                   standing 1 0\n";
    assert_eq!(printed(&[], script), answers);
    assert_answers(
        &[],
        &[
            ("take_in 20 {\n}", "done"),
            ("take_in 20 -", "held"),
            ("turn", "ran 20"),
        ],
    );
}

#[test]
fn programs_in_words_that_cannot_be_read() {
    for (lines, message) in [
        (
            "take_in 20 {\n  r0 = r8\n}\nturn\n",
            "line 3: column 8: expected a number, a register r0 to r7, \"-\", \"ones\", \"setting\" or \
             \"port\", found \"r8\"",
        ),
        (
            "take_in 20 {\n  if r1 = 0 skip to there\n  stop\n} # the end\nturn\n",
            "line 3: column 21: expected a label further down, found \"there\"",
        ),
        (
            "take_in 20 {\n  stop\n",
            "line 2: no } ends the program that begins here",
        ),
        (
            "current port 2 watts\n",
            "line 2: S is not a setting: expected \"state\", \"vlan\", \"power\", \"alarm\", \"mask\" or \
             \"field\", found \"watts\"",
        ),
        ("take_in 20 { stop }\n", "line 2: \"stop\" is a word too many"),
    ] {
        let output = run(&[], format!("turn\n{lines}").as_bytes());
        assert_eq!(text(&output.stderr), format!("{message}\n"));
        assert_eq!(text(&output.stdout), "idle\n", "{message}");
        assert_eq!(output.status.code(), Some(1));
    }
    write_file("wrong_words.calls", "take_in 20 {\n what\n}\n");
    let output = run(&["wrong_words.calls"], b"");
    let message = text(&output.stderr);
    let beginning = "wrong_words.calls: line 2: column 2: expected an instruction (";
    assert!(message.starts_with(beginning), "{message}");
}

/// Lists of takings in and turns have the same answers and leave the same tables in both forms.
#[test]
fn both_forms_have_the_same_answers() {
    let taken = with_seeds(|random, share| {
        let mut taken = 0;
        for _ in 0..share.of(LISTS) {
            let n = 1 + random.below(24);
            let mut source = Source::new(random, n);
            let (mut digits, mut words) = (String::new(), String::new());
            for _ in 0..TAKINGS {
                let Call::TakeIn {
                    timestamp, program, ..
                } = source.call(random, &Tables::new(n))
                else {
                    digits += "turn\n";
                    words += "turn\n";
                    continue;
                };
                if check(0, &program).is_err() {
                    continue;
                }
                let version = version(random).number();
                let (instructions, _) = program.as_chunks();
                let listing = Listing(instructions);
                digits += &format!("take_in {timestamp} {} {version}\n", hex(&program));
                words += &match version {
                    0 => format!("take_in {timestamp} {{\n{listing}}}\n"),
                    _ => format!("take_in {timestamp} version {version} {{\n{listing}}}\n"),
                };
                taken += 1;
            }
            let arguments = ["--n", &n.to_string()];
            let in_digits = printed(&arguments, &(digits + "tables\n"));
            let in_words = printed(&arguments, &(words.clone() + "tables\n"));
            assert_eq!(in_words, in_digits, "{words}");
        }
        taken
    });
    assert!(taken > 2 * LISTS, "{taken}");
}

/// A script in which some bytes are altered, or any bytes.
fn any_script(random: &mut Random) -> Vec<u8> {
    if random.below(8) == 0 {
        let count = random.below(200);
        return (0..count).map(|_| random.bits() as u8).collect();
    }
    let mut script = b"take_in 20 version 1 { # one\n r0 = port 2 power\n if r0 < 0 skip to end\n\
                       port 2 power = r0\nend:\n} # two\nturn\nvalue_as_of 9 port 2 mask 7\ndrain\n"
        .to_vec();
    let times = random.below(4);
    generate::damage_text(random, &mut script, times, b"0129r={}<:# \n\r\tx\xC3");
    script
}

/// Any bytes are carried out, or end with a line of the script and what is wrong with it.
#[test]
fn any_bytes_are_carried_out_or_an_error() {
    let reached = count_reached(ANY_SCRIPTS, |random, _, reached| {
        let script = any_script(random);
        let options = Options {
            n: 1,
            explain: true,
        };
        let mut answers = Vec::new();
        let ended = calls::run(options, &script[..], &mut answers);
        let lines = script.split(|&byte| byte == b'\n').count();
        match &ended {
            Ok(()) => {}
            Err(Stop::Line { number, .. }) => assert!((1..=lines).contains(number), "{ended:?}"),
            Err(Stop::Output(error)) => panic!("{error} of {script:?}"),
        }
        reached.count(ended.is_ok());
    });
    for carried_out in [true, false] {
        reached.assert_at_least(ANY_SCRIPTS / 20, carried_out);
    }
}
