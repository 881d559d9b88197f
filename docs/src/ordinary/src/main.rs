//! `npa-ordinary` reads a stream as npalist does, opens and settles it, and prints how long that took.

use npa_ordinary::{ledger_bytes, open, result_bytes, settle, ACCOUNTS_MOST, ROWS_MOST};
use std::io::{self, Read};
use std::process::ExitCode;
use std::time::Instant;

/// The next block and what is behind it, if it is whole.
fn next_block(stream: &[u8]) -> Option<(&[u8], &[u8])> {
    let (length, rest) = stream.split_first_chunk()?;
    let length = u32::from_le_bytes(*length) as usize;
    Some((rest.get(..length)?, &rest[length..]))
}

/// Settles a whole stream and says what came of it; or what is wrong with it.
fn run(stream: &[u8]) -> Result<String, String> {
    let mut ledger = vec![0; ledger_bytes(ACCOUNTS_MOST)];
    let mut result = vec![0; result_bytes(ROWS_MOST)];
    let (block, mut rest) = next_block(stream).ok_or("there is no opening block")?;
    let ground = open(block, &mut ledger);
    if ground != 0 {
        return Err(format!("the opening is refused on ground {ground}"));
    }
    let (mut files, mut accepted) = (0, 0);
    let start = Instant::now();
    while let Some((file, behind)) = next_block(rest) {
        files += 1;
        accepted += u32::from(settle(&mut ledger, file, &mut result) == 0);
        rest = behind;
    }
    let time = start.elapsed().as_secs_f64();
    match rest {
        [] => Ok(format!(
            "{accepted} of {files} files accepted in {time:.6} s"
        )),
        _ => Err(format!("the stream is cut after {files} files")),
    }
}

fn main() -> ExitCode {
    let mut stream = Vec::new();
    let read = io::stdin().read_to_end(&mut stream);
    let outcome = read.map_err(|error| error.to_string());
    match outcome.and_then(|_| run(&stream)) {
        Ok(text) => {
            println!("{text}");
            ExitCode::SUCCESS
        }
        Err(text) => {
            eprintln!("{text}");
            ExitCode::FAILURE
        }
    }
}
