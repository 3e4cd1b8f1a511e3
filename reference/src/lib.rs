//! The reference: the named Rust, cut and substituted as CUTS.md lists, behind the sheet's bytes; a generator of sheets; and the
//! comparison with the core, bit for bit.

pub mod command;
pub mod counts;
pub mod edits;
pub mod evaluations;
pub mod generate;
pub mod helpers;
pub mod limits;
pub mod named;
pub mod placed;
pub mod rattle;
pub mod sheet;
pub mod stage;
pub mod steps;
pub mod strike;
pub mod types;
pub mod with;
