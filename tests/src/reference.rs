//! Opening, settling, events, listing and a plant's page in plain Rust, written for comparison only.
//!
//! Every figure is a whole number of 128 bits, so nothing wraps. A call first
//! works out everything it will write, and writes only when it accepts.

mod assessment;
mod block;
mod curve;
mod event;
mod file;
mod ledger;
mod listing;
mod money;
mod opening;
mod page;
mod settling;
mod terms;
mod words;

pub use self::event::event;
pub use self::listing::{npalist, Listing, HEADING};
pub use self::opening::open;
pub use self::page::npapage;
pub use self::settling::{pool, settle};

/// A whole number; no figure of the module comes near its ends.
pub type Whole = i128;

/// What was asked for, or a refusal number.
pub type Checked<T> = Result<T, u32>;

/// Answers the ground if the fault is there.
fn refuse_if(fault: bool, ground: u32) -> Checked<()> {
    if fault {
        Err(ground)
    } else {
        Ok(())
    }
}
