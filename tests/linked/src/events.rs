//! Calls on events: fixed ones on both sides of every boundary, random ones, and the vectors.

pub mod bounds;
pub mod refusals;
#[cfg(test)]
mod wrong;
pub mod years;

use crate::compare::{Call, Calls, Pair};
use crate::npa;
use crate::settlings::{self, some_size};
use crate::vectors::Answered;
use npa_tests::layout::{put_longs, result_bytes, stream_of, word_at, IntervalFile, Ledger};
use npa_tests::listing::{self, DAYS, IDS, NET_CONE};
use npa_tests::random::{event_call, EventCall, Rng};
use npa_tests::reference;
use npa_tests::vectors::{self, Operation};

pub const PAIR: Pair<3> = Pair {
    name: "event",
    read: "files",
    written: ["ledger", "result", "count"],
    module: |files, [ledger, result, count]| npa::event(ledger, files, result, count),
    reference: |files, [ledger, result, count]| reference::event(ledger, files, result, count),
    answers: &[0, 6, 7, 8, 9, 10, 11, 12, 13, 18, 14, 15, 16, 20, 22],
};

/// The module's event beside the module's own settling, file by file.
pub const ONE_BY_ONE: Pair<3> = Pair {
    name: "event and its files one by one",
    reference: one_by_one,
    ..PAIR
};

pub const CALLS: Calls<3> = Calls { fixed, random };

impl From<EventCall> for Call<3> {
    fn from(call: EventCall) -> Self {
        Call {
            read: call.files,
            written: [call.ledger, call.result, call.count],
        }
    }
}

/// What a caller does without events: a settling for each file, with file and result in buffers of their own.
fn one_by_one(files: &[u8], [ledger, result, count]: [&mut [u8]; 3]) -> u32 {
    if count.len() < 8 {
        return 20;
    }
    let (mut left, mut at, mut settled) = (files, 0, 0);
    let answer = loop {
        if left.is_empty() {
            break 0;
        }
        let length = word_at(left, 0).map_or(usize::MAX - 4, |length| length as usize);
        let Some(file) = left.get(4..4 + length) else {
            break 22;
        };
        let mut own = result[at..].to_vec();
        let answer = npa::settle(ledger, &file.to_vec(), &mut own);
        result[at..].copy_from_slice(&own);
        if answer != 0 {
            break answer;
        }
        at += result_bytes(word_at(file, 24).expect("a settled file has a header") as usize);
        left = &left[4 + length..];
        settled += 1;
    };
    put_longs(count, 0, &[settled]);
    answer
}

/// The event of a vector.
pub fn answered(operation: Operation) -> Option<Answered<3>> {
    let Operation::Event(vectors::Call {
        given: [ledger, files, result, count],
        ground,
        left,
    }) = operation
    else {
        return None;
    };
    Some(Answered {
        call: Call {
            read: files,
            written: [ledger, result, count],
        },
        ground,
        left,
    })
}

// ---------------------------------------------------------------- fixed calls

/// An event as fields, before it becomes bytes.
#[derive(Clone)]
pub struct EventCase {
    ledger: Ledger,
    /// Each after its length, which is true unless a case sets it.
    files: Vec<(u32, Vec<u8>)>,
    /// Bytes behind the last file.
    tail: Vec<u8>,
    result_length: usize,
    count_length: usize,
}

impl EventCase {
    /// An event of these files, with room for so many rows in each of their results; all just long enough.
    fn new(ledger: Ledger, files: Vec<Vec<u8>>, rows: usize) -> Self {
        EventCase {
            ledger,
            result_length: files.len() * result_bytes(rows),
            files: files
                .into_iter()
                .map(|file| (file.len() as u32, file))
                .collect(),
            tail: Vec::new(),
            count_length: 8,
        }
    }

    /// The case with a change.
    fn with(&self, change: impl FnOnce(&mut EventCase)) -> Self {
        let mut changed = self.clone();
        change(&mut changed);
        changed
    }

    /// The buffer of files.
    fn file_bytes(&self) -> Vec<u8> {
        let mut bytes = Vec::new();
        for (length, file) in &self.files {
            bytes.extend(length.to_le_bytes());
            bytes.extend(file);
        }
        bytes.extend(&self.tail);
        bytes
    }

    /// The buffers; result, count and what is behind the accounts hold any bytes.
    fn call(&self, rng: &mut Rng) -> Call<3> {
        let filler = rng.bytes(self.ledger.length);
        Call {
            read: self.file_bytes(),
            written: [
                self.ledger.over(filler),
                rng.bytes(self.result_length),
                rng.bytes(self.count_length),
            ],
        }
    }
}

/// So many files of document 01's listing, an interval and a few kW of bonus apart.
fn listings(count: u32) -> EventCase {
    let ledger = Ledger::new(NET_CONE, DAYS, &IDS);
    let file = |number| listing_file(number).bytes();
    EventCase::new(ledger, (0..count).map(file).collect(), IDS.len())
}

/// The same, every second file in format 2.
fn mixed(count: u32) -> EventCase {
    let ledger = Ledger::new(NET_CONE, DAYS, &IDS);
    let file = |number| match number % 2 {
        0 => listing_file(number).bytes(),
        _ => listing_file(number).in_format_2().bytes(),
    };
    EventCase::new(ledger, (0..count).map(file).collect(), IDS.len())
}

/// The listing's file with this number.
fn listing_file(number: u32) -> IntervalFile {
    let mut file = listing::file(1_000 + number);
    file.rows[3][4] += 10 * number;
    file
}

fn fixed(rng: &mut Rng) -> Vec<Call<3>> {
    let mut cases = bounds::cases();
    cases.extend(refusals::cases());
    let mut calls: Vec<Call<3>> = cases.iter().map(|case| case.call(rng)).collect();
    calls.extend(single_files(rng));
    calls.extend(single_bits(rng));
    calls
}

/// Every fixed call of settling, as an event of one file.
fn single_files(rng: &mut Rng) -> Vec<Call<3>> {
    let settlings = (settlings::CALLS.fixed)(rng).into_iter();
    settlings
        .map(|call| {
            let [ledger, result] = call.written;
            Call {
                read: stream_of(&[&call.read]),
                written: [ledger, result, rng.bytes(8)],
            }
        })
        .collect()
}

/// Two files of the listing, one of each format, with each bit of their buffer turned.
fn single_bits(rng: &mut Rng) -> Vec<Call<3>> {
    let call = mixed(2).call(rng);
    let turned = |bit: usize| {
        let mut read = call.read.clone();
        read[bit / 8] ^= 1 << (bit % 8);
        Call {
            read,
            written: call.written.clone(),
        }
    };
    (0..8 * call.read.len()).map(turned).collect()
}

// ---------------------------------------------------------------- random calls

fn random(rng: &mut Rng, _: u64) -> Call<3> {
    let size = some_size(rng);
    event_call(rng, &size).into()
}

/// The reference's answer, and the number of files that it settles.
#[cfg(test)]
fn answer(case: &EventCase) -> (u32, Option<u64>) {
    let Call { read, written } = case.call(&mut Rng::new(1));
    let [mut ledger, mut result, mut count] = written;
    let answer = reference::event(&mut ledger, &read, &mut result, &mut count);
    (answer, npa_tests::layout::long_at(&count, 0))
}

#[cfg(test)]
mod tests {
    use super::*;

    #[test]
    fn the_base_case_is_accepted() {
        for files in [0, 1, 2, 50] {
            assert_eq!(answer(&listings(files)), (0, Some(files.into())));
            assert_eq!(answer(&mixed(files)), (0, Some(files.into())));
        }
    }
}
