//! `settling [SEED [N]]` holds the module's settling to the reference's: the vectors, fixed calls
//! at every boundary, then N random ones, a quarter of them in years whose sums are checked.

use npa_linked::compare::{program, Comparison};
use npa_linked::settlings::{answered, CALLS, PAIR};
use npa_linked::{vectors, years};
use std::process::ExitCode;

fn run(seed: u64, count: u64) -> Result<String, String> {
    let mut comparison = Comparison::new(PAIR);
    let vectors = vectors::compare(&mut comparison, seed, answered)?;
    let in_years = count / 4;
    comparison.compare_all(&CALLS, seed, count - in_years)?;
    let years::Years {
        years,
        accepted,
        cut_charges,
    } = years::compare(&mut comparison, seed, in_years)?;
    let counts = comparison.counts(seed)?;
    Ok(format!(
        "{counts}; {vectors} vectors; {years} years, {accepted} accepted, {cut_charges} charges cut"
    ))
}

fn main() -> ExitCode {
    program(200_000, run)
}
