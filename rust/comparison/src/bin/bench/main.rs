//! Times the proved code beside the outside implementation, in one process: ratios within one run
//! count. Where both are timed, they must first give the same. No time is tested.
//!
//! ```text
//! cargo run --release --offline --bin bench
//! cargo run --release --offline --bin bench -- calls
//! ```
//!
//! The sections are `calls`, `searches`, `turns`, `drains`, `form` and `programs`;
//! `docs/PERFORMANCE.md` says what they show. In `searches` the proved search for the previous writer
//! is beside one in plain Rust that visits all changes.

mod calls;
mod drains;
mod form;
mod history;
mod measure;
mod programs;
mod rows;
mod searches;
mod tables;
mod timing;
mod turns;

use comparison::generate::Random;
use comparison::seeds;
use std::env;
use std::process::ExitCode;

/// A section's name, and what prints it.
type Section = (&'static str, fn(&mut Random));

const SECTIONS: [Section; 6] = [
    ("calls", calls::print),
    ("searches", searches::print),
    ("turns", turns::print),
    ("drains", drains::print),
    ("form", form::print),
    ("programs", programs::print),
];

fn main() -> ExitCode {
    let names: Vec<String> = env::args().skip(1).collect();
    let known = |name: &String| SECTIONS.iter().any(|(section, _)| section == name);
    if !names.iter().all(known) {
        eprintln!("usage: bench [calls] [searches] [turns] [drains] [form] [programs]");
        return ExitCode::FAILURE;
    }
    if cfg!(debug_assertions) {
        eprintln!("warning: not built for release");
    }
    let seed = seeds::given().unwrap_or(seeds::FIXED);
    println!("COMPARISON_SEED={seed}");
    println!("{}", timing::NOTE);
    for (section, print) in SECTIONS {
        if names.is_empty() || names.iter().any(|name| name == section) {
            println!();
            println!("== {section}");
            println!();
            // Each section is the same alone as among the others.
            print(&mut Random::new(seed));
        }
    }
    ExitCode::SUCCESS
}
