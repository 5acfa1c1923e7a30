//! Random lists of calls, explained from the outside implementation's tables.

use super::explained;
use crate::outside_explanations::{self, Kind, Line};
use crate::random::{alter_some_table, Script};
use comparison::generate::scripts::{Call, Source};
use comparison::generate::Random;
use comparison::reached::Reached;
use comparison::seeds::count_reached;
use outside::program::{op, Fault, Version};
use outside::tables::Status;

/// How many lists of calls the program is run on.
const LISTS: usize = 600;

/// How many calls that may alter the tables are in a list.
const CALLS: usize = 40;

/// A script, and for each of its answers the lines that explain it.
struct Explained {
    script: Script,
    explanations: Vec<Vec<Line>>,
}

impl Explained {
    fn new(n: usize) -> Self {
        Self {
            script: Script::new(n),
            explanations: Vec::new(),
        }
    }

    /// Adds a line to the script, which has these lines to explain it unless it is refused.
    fn push(&mut self, add: impl FnOnce(&mut Script), explain: impl FnOnce() -> Vec<Line>) {
        add(&mut self.script);
        let answer = self.script.answers.last().expect("a line is added");
        let explanation = match answer.strip_prefix("refused ") {
            Some(number) => {
                let number = number.parse().expect("it is a number");
                vec![outside_explanations::refused(number)]
            }
            None => explain(),
        };
        self.explanations.push(explanation);
    }

    /// Adds a line that has nothing to explain unless it is refused.
    fn push_plain(&mut self, add: impl FnOnce(&mut Script)) {
        self.push(add, Vec::new);
    }

    /// A call that may alter the tables.
    fn make(&mut self, call: Call) {
        let (n, before) = (self.script.n, self.script.tables.clone());
        self.push(
            |script| script.make(call.clone()),
            || outside_explanations::lines(n, &before, &call),
        );
    }

    /// Runs the program on the script, and counts the lines that explain by their kind.
    fn check(mut self, reached: &mut Reached<Kind>) {
        self.push_plain(Script::print_tables);
        let Script {
            n, lines, answers, ..
        } = self.script;
        let script = lines.join("\n");
        let explained = explained(&["--n", &n.to_string()], &script);
        let mut explained = explained.lines();
        for ((line, answer), explanation) in lines.iter().zip(&answers).zip(self.explanations) {
            let printed = explained.next();
            assert_eq!(printed, Some(answer.as_str()), "{line} of\n{script}");
            for (kind, expected) in explanation {
                let printed = explained.next();
                assert_eq!(printed, Some(expected.as_str()), "{line} of\n{script}");
                reached.count(kind);
            }
        }
        assert_eq!(explained.next(), None);
    }
}

/// A list of calls on small tables, whose changes read and write few settings.
fn list_of_calls(random: &mut Random, index: usize) -> Explained {
    let n = 1 + random.below(24);
    let settings = 2 + random.below(5);
    let mut source = Source::naming(random, n, settings);
    if random.below(2) == 0 {
        source = source.without_cutoffs();
    }
    let mut list = Explained::new(n);
    let held = random.below(n + 1);
    let in_form = source.tables(random, n, held);
    match index % 4 {
        0 => {
            let mut any = in_form.clone();
            alter_some_table(random, &mut any);
            list.push_plain(|script| script.load("explained_any.json", any));
            for _ in 0..4 {
                list.make(source.call(random, &in_form));
                list.push_plain(|script| script.query(random, &source));
            }
            list.push_plain(|script| script.load("explained.json", in_form));
        }
        1 => list.push_plain(|script| script.load("explained.json", in_form)),
        _ => list.push_plain(Script::set_up),
    }
    for _ in 0..CALLS {
        let call = source.call(random, &list.script.tables);
        list.make(call);
        if random.below(4) == 0 {
            list.push_plain(|script| script.query(random, &source));
        }
    }
    list
}

#[test]
fn lists_of_calls_have_the_outside_explanations() {
    let reached = count_reached(LISTS, |random, index, reached| {
        list_of_calls(random, index).check(reached);
    });

    let often = [
        Kind::Idle,
        Kind::Ran(Status::New),
        Kind::Ran(Status::Invalid),
        Kind::Faulted(Status::New),
        Kind::Faulted(Status::Invalid),
        Kind::Stood,
        Kind::Cleared(Status::New),
        Kind::Cleared(Status::Invalid),
        Kind::BreaksOff(Fault::ReadOfWritten, op::READ, Version::Zero),
        Kind::BreaksOff(Fault::WrittenTwice, op::WRITE, Version::Zero),
        Kind::NothingChanged,
        Kind::Withdrawn(Status::New),
        Kind::Withdrawn(Status::Valid),
        Kind::Withdrawn(Status::Invalid),
        Kind::Wrote,
        Kind::EntryTaken,
        Kind::EntryHeld,
        Kind::EntryWithdrawn,
        Kind::ChangeRefused,
        Kind::WithdrawalRefused,
    ];
    for kind in often.into_iter().chain((1..=15).map(Kind::Refused)) {
        reached.assert_at_least(LISTS / 12, kind);
    }
    for written in [false, true] {
        for stood in [false, true] {
            reached.assert_at_least(LISTS / 12, Kind::Read { stood, written });
        }
    }
    for written_later in [false, true] {
        reached.assert_at_least(LISTS / 12, Kind::Changed { written_later });
    }
    for several in [false, true] {
        reached.assert_at_least(LISTS / 12, Kind::Marked { several });
    }
    for (fault, op, version) in [
        (Fault::NoSuchSetting, op::READ_INDEXED, Version::Zero),
        (Fault::NoSuchSetting, op::WRITE_INDEXED, Version::Zero),
        (Fault::ReadOfWritten, op::READ_INDEXED, Version::Zero),
        (Fault::WrittenTwice, op::WRITE_INDEXED, Version::Zero),
        (Fault::NoSuchSetting, op::READ_INDEXED, Version::One),
        (Fault::NoSuchSetting, op::WRITE_INDEXED, Version::One),
    ] {
        reached.assert_at_least(LISTS / 120, Kind::BreaksOff(fault, op, version));
    }
}
