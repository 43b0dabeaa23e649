//! What the programs around the judge share. The judge itself is the library that C links too (`library.rs`); nothing here is proved, and nothing
//! here decides a verdict.
#![deny(unsafe_op_in_unsafe_fn)]

pub mod answers;
pub mod batch;
pub mod contents;
pub mod explain;
pub mod figures;
pub mod input;
pub mod jobs;
pub mod library;
pub mod machine;
pub mod names;
pub mod options;
pub mod output;
pub mod outside;
pub mod picture;
pub mod registers;
pub mod reports;
pub mod text;
pub mod timeout;
pub mod trace;
pub mod words;

/// The version, from the one place that has it: HRAFNOLT_VERSION in the header.
pub fn version() -> &'static str {
    let header = include_str!("../../include/hrafnolt.h");
    header.lines().find_map(|line| line.strip_prefix("#define HRAFNOLT_VERSION \"")?.strip_suffix('"')).unwrap_or("unknown")
}
