//! `opening [SEED [N]]` holds the module's opening to the reference's: the vectors, fixed calls
//! at every boundary, then N random ones.

use npa_linked::compare::{program, Comparison};
use npa_linked::openings::{answered, CALLS, PAIR};
use npa_linked::vectors;
use std::process::ExitCode;

fn run(seed: u64, count: u64) -> Result<String, String> {
    let mut comparison = Comparison::new(PAIR);
    let vectors = vectors::compare(&mut comparison, seed, answered)?;
    comparison.compare_all(&CALLS, seed, count)?;
    let counts = comparison.counts(seed)?;
    Ok(format!("{counts}; {vectors} vectors"))
}

fn main() -> ExitCode {
    program(100_000, run)
}
