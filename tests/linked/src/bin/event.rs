//! `event [SEED [N]]` holds the module's events to the reference's: the vectors, fixed calls at every
//! boundary, then N random ones, a quarter of them in years whose sums are checked. The fixed calls and as
//! many random ones are also held to the module's own settling, file by file.

use npa_linked::compare::{program, Comparison};
use npa_linked::events::{answered, years, CALLS, ONE_BY_ONE, PAIR};
use npa_linked::vectors;
use std::process::ExitCode;

fn run(seed: u64, count: u64) -> Result<String, String> {
    let mut comparison = Comparison::new(PAIR);
    let vectors = vectors::compare(&mut comparison, seed, answered)?;
    let in_years = count / 4;
    comparison.compare_all(&CALLS, seed, count - in_years)?;
    Comparison::new(ONE_BY_ONE).compare_all(&CALLS, seed, count - in_years)?;
    let seen = years::compare(&mut comparison, seed, in_years)?;
    let counts = comparison.counts(seed)?;
    Ok(format!(
        "{counts}; {vectors} vectors; {} years, {} files accepted in them, {} charges cut",
        seen.years, seen.accepted, seen.cut_charges
    ))
}

fn main() -> ExitCode {
    program(80_000, run)
}
