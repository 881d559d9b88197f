//! A plain reference for opening, settling, events, listing and a plant's page, with random cases.
#![forbid(unsafe_code)]

pub mod held;
pub mod layout;
pub mod listing;
pub mod outcome;
pub mod pages;
pub mod program;
pub mod random;
pub mod reference;
pub mod small;
pub mod streams;
pub mod sums;
pub mod vectors;
