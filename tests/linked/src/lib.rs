//! The module as it is linked, held to the reference call by call.
//!
//! Calls are made on buffers between guard pages. What a function needs is a
//! wrapper in `npa`, its calls (`openings`, `settlings`, `events`) and a program of a few lines.
#![deny(unsafe_code)]

pub mod compare;
pub mod events;
#[allow(unsafe_code)]
pub mod guard;
#[allow(unsafe_code)]
pub mod npa;
pub mod openings;
pub mod settlings;
pub mod vectors;
pub mod years;
