//! The change history of a cabinet of managed switches, proved.
//!
//! Changes to the 1,024 settings of a cabinet come from several consoles, each with the timestamp at
//! which it was made, and may arrive late. A [`Cabinet`] takes them in as they come. After a drain it
//! shows what the changes, run in the order in which they were *made*, give; withdrawing a change
//! gives the settings as they would be had it never been made.
//!
//! The calls are functions of a static library that is written in Rattle and proved: every answer,
//! and what stands in every table after it, is what the definitions of `docs/ARCHITECTURE.md` say.
//! This crate lends that library its tables and gives its answers names. Building it proves and
//! builds the library, by the Rattle kit's `rt`.
//!
//! # Example
//!
//! A port has power left (field 4) and a power alarm (field 5). One console gives port 2 a budget,
//! others take some of it and are to raise the alarm if that is too much.
//!
//! ```
#![doc = include_str!("../examples/power.rs")]
//! ```
//!
//! It prints
//!
//! ```text
//! 10 gives 400, 30 takes 300: 2 ran, 0 stood, 0 cleared, 0 faulted; power left 100, alarm 0
//! 20 takes 200, late: 2 ran, 0 stood, 0 cleared, 0 faulted; power left -100, alarm 1
//! 20 is withdrawn: 1 ran, 0 stood, 1 cleared, 0 faulted; power left 100, alarm 0
//! refused 8: the timestamp is held with another program
//! ```
//!
//! # Which console keeps rerunning
//!
//! The lowest 8 bits of a timestamp name the console that made the change. A drain counts its turns
//! for each console ([`TotalsByConsole`]).
//!
//! ```
#![doc = include_str!("../examples/consoles.rs")]
//! ```
//!
//! It prints
//!
//! ```text
//! four changes
//! console    ran  stood  cleared  faulted
//!       2      2      0        0        0
//!       1      1      0        0        0
//!       3      1      0        0        0
//!     all      4      0        0        0
//! another power for port 2, late
//! console    ran  stood  cleared  faulted
//!       2      2      0        0        0
//!       1      1      0        0        0
//!     all      3      0        0        0
//! it is withdrawn
//! console    ran  stood  cleared  faulted
//!       2      2      0        0        0
//!       1      0      0        1        0
//!     all      2      0        1        0
//! ```

#![warn(missing_docs)]

pub mod calls;

mod answers;
mod cabinet;
mod instruction;
mod library;
mod tables;

pub use answers::{console, Refusal, Standing, Status, Taken, Totals, TotalsByConsole, Turned};
pub use cabinet::{start_values, Cabinet};
pub use instruction::{
    program, Instruction, Mistake, Version, MAX_INSTRUCTIONS, MAX_SHIFT, REGISTERS,
};
pub use tables::{setting, Tables, FIELDS, LIST_ENTRIES, MAX_CAPACITY, PORTS, SETTINGS};
