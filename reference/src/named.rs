//! The named Rust as build.rs assembles it: cut as CUTS.md lists, its own control flow and arithmetic otherwise.
//!
//! Each module includes one file's text; what stands beside it makes the records from a book.

#[allow(dead_code)]
pub mod composition;
#[allow(dead_code)]
pub mod liquid;
#[allow(dead_code)]
pub mod model;
#[allow(dead_code)]
pub mod nrtl;
#[allow(dead_code)]
pub mod rachford_rice;
#[allow(dead_code, unused_variables)]
pub mod solvers;
