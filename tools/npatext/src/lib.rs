//! OUTSIDE THE PROOFS: streams for npalist as readable text, both ways, ledgers and results shown, and the faults of
//! streams and listings in words. README.md beside this folder describes the text.
#![forbid(unsafe_code)]

mod buffers;
mod calendar;
mod compare;
mod examine;
mod line;
mod make;
mod names;
mod show;
mod source;
mod tables;
mod walk;
mod why;
mod words;

pub use buffers::{show_ledger, show_result, Shown};
pub use compare::{check, Checked};
pub use line::{text_of, Fault};
pub use make::make;
pub use show::show;
pub use source::Source;
pub use tables::tables;
pub use why::{Said, Why};
pub use words::many;

/// The version of the tree.
pub fn version() -> &'static str {
    include_str!("../../../VERSION").trim_end()
}
