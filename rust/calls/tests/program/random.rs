//! Random lists of calls against the outside implementation, from which the answers are written here
//! on their own.

use crate::outside_tables;
use crate::programs::hex;
use crate::{printed, write_file};
use comparison::generate::scripts::{Call, Source};
use comparison::generate::tables::Table;
use comparison::generate::{packages, Random};
use comparison::seeds::with_seeds;
use outside::calls::{current_value, plain_run, set_up, standing, value_as_of, Refusal};
use outside::checker::{drain, turn, Turned};
use outside::cutoff::cutoff;
use outside::intake::{take_in, withdraw, Taken};
use outside::package::{entries, package_out, take_in_package};
use outside::start::start_values;
use outside::tables::{Status, Tables};
use std::collections::BTreeMap;

/// How many lists of calls the program is run on.
const LISTS: usize = 400;

/// How many lists begin with tables of any lengths and contents.
const LISTS_ON_ANY_TABLES: usize = 300;

/// How many calls that may alter the tables are in a list.
const CALLS: usize = 40;

/// A script, and the answers that the outside implementation gives.
pub struct Script {
    pub n: usize,
    pub tables: Tables,
    pub lines: Vec<String>,
    pub answers: Vec<String>,
}

impl Script {
    pub fn new(n: usize) -> Self {
        Self {
            n,
            tables: Tables::new(n),
            lines: Vec::new(),
            answers: Vec::new(),
        }
    }

    fn push(&mut self, line: String, answer: Result<String, Refusal>) {
        self.lines.push(line);
        self.answers.push(match answer {
            Ok(answer) => answer,
            Err(refusal) => "refused ".to_string() + &refusal.number().to_string(),
        });
    }

    pub fn set_up(&mut self) {
        let answer = set_up(self.n, &mut self.tables);
        self.push("set_up".to_string(), answer.map(|()| "done".to_string()));
    }

    pub fn load(&mut self, file: &str, tables: Tables) {
        write_file(file, outside_tables::file(&tables));
        self.tables = tables;
        self.push(format!("load {file}"), Ok("done".to_string()));
    }

    pub fn print_tables(&mut self) {
        let answer = outside_tables::line(&self.tables);
        self.push("tables".to_string(), Ok(answer));
    }

    /// A call that may alter the tables.
    pub fn make(&mut self, call: Call) {
        let (n, tables) = (self.n, &mut self.tables);
        match call {
            Call::TakeIn {
                timestamp,
                version,
                program,
            } => {
                let answer = take_in(n, tables, timestamp, version, &program);
                let answer = answer.map(|taken| match taken {
                    Taken::Done => "done".to_string(),
                    Taken::AlreadyHeld => "held".to_string(),
                });
                let mut line = format!("take_in {timestamp} {}", hex(&program));
                if version != 0 {
                    line += &format!(" {version}");
                }
                self.push(line, answer);
            }
            Call::Withdraw { timestamp } => {
                let answer = withdraw(n, tables, timestamp).map(|()| "done".to_string());
                self.push(format!("withdraw {timestamp}"), answer);
            }
            Call::TakeInPackage { package, answers } => {
                let mut lent = vec![0; answers.len()];
                let answer = take_in_package(n, tables, &package, &mut lent).map(|()| {
                    let entries = entries(&package).expect("it is not refused");
                    "done answers ".to_string() + &list(&lent[..entries.len()])
                });
                let mut line = format!("take_in_package {}", hex(&package));
                if lent.len() != 512 {
                    line += &format!(" len{}", lent.len());
                }
                self.push(line, answer);
            }
            Call::Turn => {
                let answer = turn(n, tables).map(|turn| match turn {
                    None => "idle".to_string(),
                    Some(turn) => {
                        let timestamp = turn.timestamp.to_string();
                        match turn.turned {
                            Turned::Ran => "ran ".to_string() + &timestamp,
                            Turned::Stood => "stood ".to_string() + &timestamp,
                            Turned::Cleared => "cleared ".to_string() + &timestamp,
                            Turned::Faulted(place) => {
                                "faulted ".to_string() + &timestamp + " " + &place.to_string()
                            }
                        }
                    }
                });
                self.push("turn".to_string(), answer);
            }
            Call::Drain { totals } => {
                let mut lent = vec![0; totals.len()];
                let answer = drain(n, tables, &mut lent)
                    .map(|()| "done by console ".to_string() + &by_place(&lent));
                let mut line = "drain".to_string();
                if lent.len() != 1024 {
                    line += &format!(" len{}", lent.len());
                }
                self.push(line, answer);
            }
            Call::Cutoff { timestamp } => {
                let answer = cutoff(n, tables, timestamp).map(|()| "done".to_string());
                self.push(format!("cutoff {timestamp}"), answer);
            }
        }
    }

    /// A call that only reads.
    pub fn query(&mut self, random: &mut Random, source: &Source) {
        let (n, tables) = (self.n, &self.tables);
        let (timestamp, setting) = (source.timestamp(random), source.setting(random));
        match random.below(13) {
            0..3 => {
                let answer = current_value(n, tables, setting).map(value);
                self.push(format!("current {setting}"), answer);
            }
            3..6 => {
                let answer = value_as_of(n, tables, timestamp, setting).map(value);
                self.push(format!("value_as_of {timestamp} {setting}"), answer);
            }
            6..9 => {
                let answer = standing(n, tables, timestamp).map(|standing| {
                    let status = match standing.status {
                        Status::New => "standing 0 ",
                        Status::Valid => "standing 1 ",
                        Status::Invalid => "standing 2 ",
                    };
                    status.to_string() + if standing.withdrawn { "1" } else { "0" }
                });
                self.push(format!("standing {timestamp}"), answer);
            }
            9 => {
                let mut settings = [0; 1024];
                let answer = plain_run(n, tables, &mut settings);
                let answer = answer.map(|()| "done ".to_string() + &list(&settings));
                self.push("plain_run".to_string(), answer);
            }
            10 | 11 => {
                let mut lent = vec![0; packages::room(random, tables)];
                let answer = package_out(n, tables, &mut lent).map(|length| {
                    "length ".to_string() + &length.to_string() + " " + &hex(&lent[..length])
                });
                self.push(format!("package_out {}", lent.len()), answer);
            }
            _ => {
                let mut settings = [0; 1024];
                let answer = start_values(&mut settings);
                let answer = answer.map(|()| "done ".to_string() + &list(&settings));
                self.push("start_values".to_string(), answer);
            }
        }
    }

    /// Runs the program on the script, and counts the answers by their form.
    fn check(mut self, counts: &mut BTreeMap<String, usize>) {
        self.print_tables();
        let script = self.lines.join("\n") + "\n";
        let printed = printed(&["--n", &self.n.to_string()], &script);
        let mut printed = printed.lines();
        for (line, expected) in self.lines.iter().zip(&self.answers) {
            let answer = printed.next();
            assert_eq!(answer, Some(expected.as_str()), "{line} of\n{script}");
            *counts.entry(form(line, expected)).or_default() += 1;
        }
        assert_eq!(printed.next(), None);
    }
}

/// The name of a call with the kind of its answer.
fn form(line: &str, answer: &str) -> String {
    let name = line.split(' ').next().unwrap_or_default();
    let mut words = answer.split(' ');
    let kind = match (words.next(), words.next()) {
        (Some("refused"), Some(number)) => format!("refused {number}"),
        (Some(kind), _) if name != "tables" => kind.to_string(),
        _ => String::new(),
    };
    format!("{name} {kind}")
}

fn value(value: i32) -> String {
    "value ".to_string() + &value.to_string()
}

fn list<T: ToString>(list: &[T]) -> String {
    let list: Vec<String> = list.iter().map(T::to_string).collect();
    "[".to_string() + &list.join(", ") + "]"
}

/// The numbers other than 0, each behind its place.
fn by_place(numbers: &[u16]) -> String {
    let mut members = Vec::new();
    for (place, number) in numbers.iter().enumerate() {
        if *number > 0 {
            members.push("\"".to_string() + &place.to_string() + "\": " + &number.to_string());
        }
    }
    "{".to_string() + &members.join(", ") + "}"
}

/// A capacity from 1 to 64: small, so that tables are soon full, one that a list of calls may just
/// fill, or any.
fn capacity(random: &mut Random) -> usize {
    match random.below(6) {
        0 | 1 => 1 + random.below(6),
        2 | 3 => 12 + random.below(16),
        _ => 1 + random.below(64),
    }
}

#[track_caller]
fn assert_counts(counts: &BTreeMap<String, usize>, forms: &[&str], least: usize) {
    for form in forms {
        let count = counts.get(*form).copied().unwrap_or_default();
        assert!(count >= least, "{form}: {count}");
    }
}

#[test]
fn lists_of_calls_have_the_outside_answers_and_tables() {
    let counts = with_seeds(|random, share| {
        let mut counts = BTreeMap::new();
        for index in 0..share.of(LISTS) {
            let n = capacity(random);
            let mut source = Source::new(random, n);
            let mut script = Script::new(n);
            match index % 4 {
                0 => {
                    let held = random.below(n + 1);
                    let tables = source.tables(random, n, held);
                    script.load("random.json", tables);
                }
                1 => {}
                _ => script.set_up(),
            }
            for _ in 0..CALLS {
                let call = source.call(random, &script.tables);
                script.make(call);
                if random.below(2) == 0 {
                    script.query(random, &source);
                }
                if random.below(64) == 0 {
                    script.print_tables();
                }
                if random.below(256) == 0 {
                    script.set_up();
                }
            }
            script.check(&mut counts);
        }
        counts
    });

    println!("{counts:#?}");
    assert_counts(
        &counts,
        &[
            "set_up done",
            "load done",
            "take_in done",
            "take_in held",
            "take_in refused 4",
            "take_in refused 14",
            "take_in refused 6",
            "take_in refused 13",
            "take_in refused 7",
            "take_in refused 8",
            "take_in refused 9",
            "withdraw done",
            "withdraw refused 4",
            "withdraw refused 14",
            "withdraw refused 10",
            "withdraw refused 11",
            "take_in_package done",
            "take_in_package refused 1",
            "take_in_package refused 3",
            "turn idle",
            "turn ran",
            "turn stood",
            "turn cleared",
            "turn faulted",
            "drain done",
            "drain refused 1",
            "cutoff done",
            "cutoff refused 4",
            "cutoff refused 14",
            "cutoff refused 15",
            "current value",
            "current refused 5",
            "value_as_of value",
            "value_as_of refused 4",
            "value_as_of refused 14",
            "value_as_of refused 5",
            "standing standing",
            "standing refused 4",
            "standing refused 14",
            "standing refused 10",
            "package_out length",
            "package_out refused 12",
            "plain_run done",
            "start_values done",
            "tables ",
        ],
        LISTS / 40,
    );
}

/// Gives one table another length, or one of its slots another number.
pub fn alter_some_table(random: &mut Random, tables: &mut Tables) {
    let table = random.pick(Table::ALL);
    let bits = match random.below(2) {
        0 => random.below(3) as u64,
        _ => random.bits(),
    };
    let length = table.length(tables);
    match random.below(8) {
        0 => {
            table.resize(tables, length + 1);
            table.set(tables, length, bits);
        }
        1 => table.resize(tables, random.below(length + 1)),
        _ if length == 0 => {}
        2..5 => table.set(tables, 0, bits),
        _ => table.set(tables, random.below(length), bits),
    }
}

#[test]
fn calls_on_any_tables_have_the_outside_answers_and_tables() {
    let counts = with_seeds(|random, share| {
        let mut counts = BTreeMap::new();
        for _ in 0..share.of(LISTS_ON_ANY_TABLES) {
            let n = capacity(random);
            let mut source = Source::new(random, n);
            let held = random.below(n + 1);
            let in_form = source.tables(random, n, held);
            let mut tables = in_form.clone();
            for _ in 0..random.below(3) {
                alter_some_table(random, &mut tables);
            }
            let mut script = Script::new(n);
            script.load("random_any.json", tables);
            for _ in 0..CALLS / 8 {
                let call = source.call(random, &in_form);
                script.make(call);
                script.query(random, &source);
            }
            if random.below(2) == 0 {
                script.set_up();
            }
            script.check(&mut counts);
        }
        counts
    });

    println!("{counts:#?}");
    let calls = [
        "take_in",
        "withdraw",
        "turn",
        "drain",
        "cutoff",
        "current",
        "value_as_of",
        "standing",
        "package_out",
        "plain_run",
    ];
    for refusal in [1, 2] {
        for call in calls {
            let form = format!("{call} refused {refusal}");
            assert_counts(&counts, &[&form], LISTS_ON_ANY_TABLES / 40);
        }
    }
    let others = [
        "set_up done",
        "set_up refused 1",
        "take_in_package refused 1",
        "take_in_package refused 2",
        "turn ran",
        "turn faulted",
        "drain done",
        "tables ",
    ];
    assert_counts(&counts, &others, LISTS_ON_ANY_TABLES / 40);
}
