//! What a test program is asked for, and how it ends: what it found, or what is wrong.

use std::fmt::Display;
use std::process::ExitCode;

/// The seed and the number of random cases from `[SEED [N]]`; where they are not given, 1 and `usual`.
pub fn seed_and_count(words: &[String], usual: u64) -> Result<(u64, u64), String> {
    let numbers: Result<Vec<u64>, _> = words.iter().map(|word| word.parse()).collect();
    match numbers.as_deref() {
        Ok([]) => Ok((1, usual)),
        Ok([seed]) => Ok((*seed, usual)),
        Ok([seed, count]) => Ok((*seed, *count)),
        _ => Err(format!(
            "`{}` is not [SEED [N]], both numbers",
            words.join(" ")
        )),
    }
}

/// Prints what a program found, or says what is wrong and fails.
pub fn shown<E: Display>(outcome: Result<String, E>) -> ExitCode {
    match outcome {
        Ok(text) => {
            println!("{text}");
            ExitCode::SUCCESS
        }
        Err(text) => {
            eprintln!("{text}");
            ExitCode::FAILURE
        }
    }
}
