//! A year with one plant and one interval, from Rust:
//! rustc --edition 2021 -L native=target/staticlib -l static=npa examples/settle.rs

use std::process::ExitCode;

extern "C" {
    fn npa_open(block: *const u8, block_len: usize, ledger: *mut u8, ledger_len: usize) -> u32;
    fn npa_settle(
        ledger: *mut u8,
        ledger_len: usize,
        file: *const u8,
        file_len: usize,
        result: *mut u8,
        result_len: usize,
    ) -> u32;
}

/// Opens a ledger, or gives the ground of refusal.
fn open(block: &[u8], ledger: &mut [u8]) -> Result<(), u32> {
    // SAFETY: slices have true lengths, are never null, and one that can be written overlaps no other.
    let answer = unsafe {
        npa_open(
            block.as_ptr(),
            block.len(),
            ledger.as_mut_ptr(),
            ledger.len(),
        )
    };
    if answer == 0 {
        Ok(())
    } else {
        Err(answer)
    }
}

/// Settles an interval file, or gives the ground of refusal.
fn settle(ledger: &mut [u8], file: &[u8], result: &mut [u8]) -> Result<(), u32> {
    // SAFETY: as above.
    let answer = unsafe {
        npa_settle(
            ledger.as_mut_ptr(),
            ledger.len(),
            file.as_ptr(),
            file.len(),
            result.as_mut_ptr(),
            result.len(),
        )
    };
    if answer == 0 {
        Ok(())
    } else {
        Err(answer)
    }
}

/// Words of 32 bits as bytes, lowest first.
fn words(values: &[u32]) -> Vec<u8> {
    values
        .iter()
        .flat_map(|value| value.to_le_bytes())
        .collect()
}

/// The charge of the first row, in cents.
fn charge() -> Result<u64, u32> {
    // Net CONE 30000, 365 days, plant 11.
    let block = words(&[1, 30000, 365, 1, 20, 11]);
    // Interval 1000: plant 11, a demand resource (kind 1), committed to 5000 kW, metered 4000 kW.
    let header = [1, 1000, 30000, 365, 0, 0, 1, 40, 0, 40];
    let row = [11, 1, 5000, 0, 4000, 0, 0, 0, 0, 0, 0, 0, 0, 0];
    let file = words(&[&header[..], &row[..]].concat());
    let mut ledger = [0; 64 + 32];
    let mut result = [0; 64 + 64];
    open(&block, &mut ledger)?;
    settle(&mut ledger, &file, &mut result)?;
    let word = result[64 + 8 * 6..]
        .first_chunk()
        .expect("a row has eight words");
    Ok(u64::from_le_bytes(*word))
}

fn main() -> ExitCode {
    match charge() {
        Ok(cents) => println!("charge of {cents} cents"),
        Err(ground) => {
            eprintln!("refused on ground {ground}");
            return ExitCode::FAILURE;
        }
    }
    ExitCode::SUCCESS
}
