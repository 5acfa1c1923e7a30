//! The outside implementation of document 01, with the requests of document 02 that have landed.
//!
//! It is written from documents 01 and 02, and source document 004 that they build on, alone and
//! shares no code and no tables with the proved library, which is compared with it. Quoted sentences
//! in its comments are document 01's, unless they are said to be another's. What these documents
//! leave open is read as `docs/DECISIONS.md` says.

#![forbid(unsafe_code)]
#![warn(missing_docs)]

pub mod book;
pub mod cabinet;
pub mod calls;
pub mod checker;
pub mod cutoff;
pub mod dropped;
pub mod filled;
pub mod intake;
pub mod package;
pub mod program;
pub mod start;
pub mod tables;

#[cfg(test)]
mod examples;
