//! `npalist_bench BINARY` times the program npalist and the reference's listing on the same stream.

use npa_tests::layout::ROWS_MOST;
use npa_tests::outcome::shown;
use npa_tests::program::Program;
use npa_tests::reference::npalist;
use npa_tests::streams::full_intervals;
use std::env;
use std::path::Path;
use std::process::ExitCode;
use std::time::{Duration, Instant};

const FILES: u32 = 1_000;
const ROWS: usize = ROWS_MOST;
const ROUNDS: usize = 3;

/// One of the two lines.
fn timed(name: &str, time: Duration) -> String {
    let all = time.as_secs_f64();
    let rows = f64::from(FILES) * ROWS as f64 / all;
    format!("{name}: {all:.3} s, {rows:.0} rows a second")
}

fn run(binary: &str) -> Result<String, String> {
    let program = Program::new(Path::new(binary)).map_err(|error| error.to_string())?;
    let stream = full_intervals(FILES);
    let file = program.file(&stream)?;
    let (mut ours, mut theirs) = (Duration::MAX, Duration::MAX);
    for _ in 0..ROUNDS {
        let (time, listing) = program.timed(&file)?;
        ours = ours.min(time);
        let start = Instant::now();
        let must_be = npalist(&stream);
        theirs = theirs.min(start.elapsed());
        if listing != must_be {
            return Err("the listings differ".to_string());
        }
    }
    let bytes = stream.len() / 1_000_000;
    let ratio = ours.as_secs_f64() / theirs.as_secs_f64();
    let lines = [
        format!(
            "npalist: {FILES} intervals of {ROWS} rows, {bytes} MB, the best of {ROUNDS} rounds"
        ),
        timed("npalist, from file to file", ours),
        timed("separate Rust code, in memory", theirs),
        format!("npalist / separate Rust code: {ratio:.2}"),
    ];
    Ok(lines.join("\n"))
}

fn main() -> ExitCode {
    let binary = env::args().nth(1);
    let outcome = binary.ok_or_else(|| "usage: npalist_bench BINARY".to_string());
    shown(outcome.and_then(|binary| run(&binary)))
}
