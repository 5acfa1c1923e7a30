//! The interpreters on the same programs and values.

use crate::measure::column;
use crate::timing::{best_in_turn, time};
use comparison::agree;
use comparison::generate::{self, Random, Style};
use comparison::proved;
use outside::program::{self, Version, SETTINGS};
use std::hint::black_box;

/// How many programs are timed together.
const PROGRAMS: usize = 1_000;

/// A kind of programs to time.
struct Mix {
    name: &'static str,
    version: Version,
    style: Style,
    /// Whether programs that fault, stop or skip are left out.
    straight: bool,
}

const MIXES: [Mix; 4] = [
    Mix {
        name: "general",
        version: Version::Zero,
        style: Style::MANY_SETTINGS,
        straight: false,
    },
    Mix {
        name: "arithmetic",
        version: Version::Zero,
        style: Style::ARITHMETIC,
        straight: true,
    },
    Mix {
        name: "settings",
        version: Version::Zero,
        style: Style::ACCESSES,
        straight: true,
    },
    Mix {
        name: "own writes",
        version: Version::One,
        style: Style::OWN_WRITES,
        straight: true,
    },
];

const HEADING: &str = "\
In ns per program. The lists are not cleared between runs. Both test the form before they run. The
programs have version 0, but for the last, which read back and write again few settings. Where
programs of version 0 go through, the proved runs are timed by version 1 too, which gives the same:
/0 is the ratio to those by version 0, in turn with which they are made.

                              run                        form                       by version 1
mix         length  executed  proved  outside  ratio     proved  outside  ratio     proved     /0";

pub fn print(random: &mut Random) {
    let values = generate::values(random);
    println!("{HEADING}");
    for mix in &MIXES {
        for length in [2, 8, 32] {
            let (programs, executed) = programs(random, mix, length, &values);
            let (run_proved, run_outside) = time_run(mix.version, &programs, &values);
            let (form_proved, form_outside) = time_form(&programs);
            let alike = mix.gives_the_same();
            let by_version = alike.then(|| time_versions(&programs, &values));
            println!(
                "{:10}  {length:6}  {executed:8.1}  \
                 {run_proved:6.1}  {run_outside:7.1}  {:5.2}     \
                 {form_proved:6.1}  {form_outside:7.1}  {:5.2}     {}  {}",
                mix.name,
                run_proved / run_outside,
                form_proved / form_outside,
                column(by_version.map(|(_, by_1)| by_1), 6, 1),
                column(by_version.map(|(by_0, by_1)| by_1 / by_0), 5, 2),
            );
        }
    }
}

impl Mix {
    /// Whether both versions give the same: no program comes to a setting that it has written.
    fn gives_the_same(&self) -> bool {
        self.straight && self.version == Version::Zero
    }
}

/// Programs of this mix and length, and how many instructions of one are carried out on average.
fn programs(
    random: &mut Random,
    mix: &Mix,
    length: usize,
    values: &[i32; SETTINGS],
) -> (Vec<Vec<u8>>, f64) {
    let mut programs = Vec::with_capacity(PROGRAMS);
    let mut executed = 0;
    let mut outside = program::Outcome::EMPTY;
    while programs.len() < PROGRAMS {
        let program = generate::program(random, &mix.style, length);
        let mut visited = 0;
        program::run_visiting(mix.version, &program, values, &mut outside, |_, _| {
            visited += 1;
        });
        if mix.straight && (visited < length || outside.fault().is_some()) {
            continue;
        }
        for version in Version::ALL {
            if version == mix.version || mix.gives_the_same() {
                let proved = proved::run(version.number(), &program, values);
                let proved = proved.expect("the program is accepted");
                assert!(
                    agree(&proved, &outside),
                    "proved {proved:?}\noutside {outside:?}"
                );
            }
        }
        executed += visited;
        programs.push(program);
    }
    (programs, executed as f64 / PROGRAMS as f64)
}

fn time_run(version: Version, programs: &[Vec<u8>], values: &[i32; SETTINGS]) -> (f64, f64) {
    let version = version.number();
    let mut outside = program::Outcome::EMPTY;
    for_each_in_turn(programs, run_proved(version, values), |program| {
        if let Ok(version) = black_box(program::check(version, black_box(program))) {
            program::run_into(version, black_box(program), black_box(values), &mut outside);
        }
        black_box(&mut outside);
    })
}

/// The proved runs by version 0 and by version 1.
fn time_versions(programs: &[Vec<u8>], values: &[i32; SETTINGS]) -> (f64, f64) {
    for_each_in_turn(programs, run_proved(0, values), run_proved(1, values))
}

/// The proved run by this version.
fn run_proved(version: u16, values: &[i32; SETTINGS]) -> impl FnMut(&Vec<u8>) + '_ {
    let mut outcome = proved::Outcome::EMPTY;
    move |program| {
        let _ = black_box(proved::run_into(
            black_box(version),
            black_box(program),
            black_box(values),
            &mut outcome,
        ));
        black_box(&mut outcome);
    }
}

fn time_form(programs: &[Vec<u8>]) -> (f64, f64) {
    for_each_in_turn(
        programs,
        |program| {
            black_box(proved::refusal(black_box(0), black_box(program)));
        },
        |program| {
            let _ = black_box(program::check(black_box(0), black_box(program)));
        },
    )
}

/// The best time of each of the two over the programs, in ns per program.
fn for_each_in_turn<P>(
    programs: &[P],
    mut one: impl FnMut(&P),
    mut other: impl FnMut(&P),
) -> (f64, f64) {
    let times = best_in_turn(&mut [
        &mut || time(|| programs.iter().for_each(&mut one)),
        &mut || time(|| programs.iter().for_each(&mut other)),
    ]);
    let each = |time: f64| 1_000.0 * time / programs.len() as f64;
    (each(times[0]), each(times[1]))
}
