//! The proved library and the outside implementation, compared from outside.
//!
//! The tests run random and chosen programs through both interpreters, make the calls of both on
//! random and chosen tables and in random lists, check demand 3 after each drain of such a list,
//! fill cabinets from the packages of others, hold those that drop changes beside those that drop
//! none, search for previous writers, and run the program `cabinet`. Random tests are made with a fixed seed and with a new one ([`seeds`]). The program
//! `bench` times the calls as the history grows, the search for the previous writer, single turns,
//! drains beside plain runs, the test of the tables' form and the interpreters:
//!
//! ```text
//! cargo test --profile checked --offline
//! cargo run --release --offline --bin bench
//! ```

#![warn(missing_docs)]

pub mod both;
pub mod cutoffs;
pub mod generate;
pub mod own_writes;
pub mod packages_out;
pub mod proved;
pub mod reached;
pub mod seeds;
pub mod turns;

/// Whether both implementations give the same lists and the same ending.
pub fn agree(proved: &proved::Outcome, outside: &outside::program::Outcome) -> bool {
    proved.reads().eq(outside.reads().iter().copied())
        && proved.writes().eq(outside.writes().iter().copied())
        && proved.fault() == outside.fault()
}
