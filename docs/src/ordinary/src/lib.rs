//! Opening and settling as an ordinary Rust program: what `tests/bench` measures the module by.
//!
//! It makes document 01's checks and settles by its formulas and those of the change requests, in
//! safe Rust as one would write it for use: neither tuned nor slowed. Nothing about it is proved;
//! the tests hold its answers and bytes to the reference's.
#![forbid(unsafe_code)]

mod assessment;
mod file;
mod ledger;
mod opening;
mod settling;
mod terms;
mod words;

pub use ledger::{ledger_bytes, ACCOUNTS_MOST};
pub use opening::{open, BLOCK_MOST};
pub use settling::{result_bytes, settle};

pub use file::ROWS_MOST;

/// Goes on, or refuses on this ground.
fn ensure(holds: bool, ground: u32) -> Result<(), u32> {
    if holds {
        Ok(())
    } else {
        Err(ground)
    }
}
