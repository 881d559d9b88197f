//! Calls to settling: fixed ones on both sides of every boundary, and random ones.

pub mod charges;
pub mod curves;
pub mod extremes;
pub mod faults;
pub mod file_bounds;
pub mod ledger_bounds;
pub mod row_bounds;
pub mod schedules;

use crate::compare::{Call, Calls, Pair};
use crate::npa;
use crate::vectors::Answered;
use npa_tests::layout::{
    put_words, result_bytes, IntervalFile, Ledger, Row, RowWords, IMPORTS_MOST, KW_MOST,
};
use npa_tests::listing::{self, DAYS, IDS, NET_CONE};
use npa_tests::random::{
    cut, flip, long_settle, rising, scramble, settle_call_for, valid_settle, Rng, SettleCall,
    SettleCase, Size, FULL, MIDDLE, SETTLING_GROUNDS, SMALL,
};
use npa_tests::reference;
use npa_tests::vectors::{self, Operation};

pub const PAIR: Pair<2> = Pair {
    name: "settling",
    read: "file",
    written: ["ledger", "result"],
    module: |file, [ledger, result]| npa::settle(ledger, file, result),
    reference: |file, [ledger, result]| reference::settle(ledger, file, result),
    answers: &[0, 6, 7, 8, 9, 10, 11, 12, 13, 18, 14, 15, 16],
};

pub const CALLS: Calls<2> = Calls { fixed, random };

impl From<SettleCall> for Call<2> {
    fn from(call: SettleCall) -> Self {
        Call {
            read: call.file,
            written: [call.ledger, call.result],
        }
    }
}

/// The settling of a vector.
pub fn answered(operation: Operation) -> Option<Answered<2>> {
    let Operation::Settle(vectors::Call {
        given: [ledger, file, result],
        ground,
        left,
    }) = operation
    else {
        return None;
    };
    Some(Answered {
        call: Call {
            read: file,
            written: [ledger, result],
        },
        ground,
        left,
    })
}

// ---------------------------------------------------------------- fixed calls

fn fixed(rng: &mut Rng) -> Vec<Call<2>> {
    let mut cases = ledger_bounds::cases();
    cases.extend(file_bounds::cases());
    cases.extend(in_both(row_bounds::cases()));
    cases.extend(schedules::cases());
    cases.extend(charges::cases());
    cases.extend(in_both(curves::cases()));
    cases.extend(in_both(extremes::cases()));
    cases.extend(faults::cases());
    let mut calls: Vec<Call<2>> = cases.iter().map(|case| case.call(rng).into()).collect();
    calls.extend(single_bits(rng));
    calls
}

/// A settling of this file by ids; all just long enough.
fn settling_of(ids: &[u32], file: IntervalFile) -> SettleCase {
    SettleCase {
        ledger: Ledger::new(file.head[2], file.head[3], ids),
        result_length: result_bytes(file.rows.len()),
        file,
    }
}

/// The settling of document 01's listing.
fn listing() -> SettleCase {
    settling_of(&IDS, listing::file(1_000))
}

/// The same in each format.
fn listings() -> [SettleCase; 2] {
    [listing(), in_format_2(&listing())]
}

/// A case of format 1 in format 2, its tables behind the header.
fn in_format_2(case: &SettleCase) -> SettleCase {
    with(case, |case| {
        case.file = case.file.clone().in_format_2();
    })
}

/// Cases of format 1, which lie plainly, and then the same in format 2.
fn in_both(cases: Vec<SettleCase>) -> Vec<SettleCase> {
    let again: Vec<SettleCase> = cases.iter().map(in_format_2).collect();
    [cases, again].concat()
}

/// The listing in a ledger of 2016.
fn listing_of_2016() -> SettleCase {
    with(&listing(), |case| case.ledger.words[7] = 2016)
}

/// A demand resource that is 40 kW short.
fn short_row(id: u32) -> RowWords {
    let row = Row {
        id,
        kind: 1,
        committed: 100,
        metered: 60,
        ..Row::default()
    };
    row.words()
}

/// So many accounts; the first so many of them have a row.
fn plain(accounts: usize, rows: usize) -> SettleCase {
    let ids = rising(accounts);
    let rows = rising(rows).into_iter().map(short_row).collect();
    let file = IntervalFile::new(NET_CONE, DAYS, 1_000, rows, Vec::new());
    settling_of(&ids, file)
}

/// A case with a change.
fn with(case: &SettleCase, change: impl FnOnce(&mut SettleCase)) -> SettleCase {
    let mut changed = case.clone();
    change(&mut changed);
    changed
}

/// The listing in each format, and in 2016, with each bit of its ledger and of its file turned.
fn single_bits(rng: &mut Rng) -> Vec<Call<2>> {
    let [one, two] = listings();
    [one, two, listing_of_2016()]
        .iter()
        .flat_map(|case| bits_of(&case.call(rng)))
        .collect()
}

/// A call with each bit of its ledger and of its file turned.
fn bits_of(call: &SettleCall) -> Vec<Call<2>> {
    let (in_ledger, in_file) = (8 * call.ledger.len(), 8 * call.file.len());
    let turned = |bit: usize| {
        let mut turned = call.clone();
        match bit.checked_sub(in_ledger) {
            None => turned.ledger[bit / 8] ^= 1 << (bit % 8),
            Some(bit) => turned.file[bit / 8] ^= 1 << (bit % 8),
        }
        turned.into()
    };
    (0..in_ledger + in_file).map(turned).collect()
}

// ---------------------------------------------------------------- random calls

fn random(rng: &mut Rng, number: u64) -> Call<2> {
    let size = some_size(rng);
    let kind = number as usize % (SETTLING_GROUNDS.len() + 5);
    let call = match kind.checked_sub(SETTLING_GROUNDS.len()) {
        None => settle_call_for(rng, &size, SETTLING_GROUNDS[kind]),
        Some(0) if rng.one_in(4) => long_settle(rng, &size),
        Some(0) => broken(rng, &size, |call| &mut call.ledger),
        Some(1) => broken(rng, &size, |call| &mut call.file),
        Some(2) => any_file(rng),
        Some(3) => any_ledger(rng),
        _ => any_words(rng),
    };
    call.into()
}

/// Mostly a small one.
pub(crate) fn some_size(rng: &mut Rng) -> Size {
    match rng.below(32) {
        0 => FULL,
        1..=4 => MIDDLE,
        _ => SMALL,
    }
}

/// A call with some bits of a buffer turned, or its end cut off or set to any bytes.
fn broken(rng: &mut Rng, size: &Size, buffer: fn(&mut SettleCall) -> &mut Vec<u8>) -> SettleCall {
    let mut call = valid_settle(rng, size).call(rng);
    let bytes = buffer(&mut call);
    match rng.below(4) {
        0 => cut(rng, bytes),
        1 => scramble(rng, bytes),
        _ => flip(rng, bytes),
    }
    call
}

/// A file of any bytes, its first words often those of a file to accept.
fn any_file(rng: &mut Rng) -> SettleCall {
    let mut call = valid_settle(rng, &SMALL).call(rng);
    let length = rng.pick(&[0, 40, 96, 49_110, 61_400]) + rng.index(60);
    let right = rng.pick(&[0, 4, 16, 24, 28, 32, 40, 48]);
    let head: Vec<u8> = call.file.iter().copied().take(right).collect();
    call.file = rng.bytes(length);
    for (byte, value) in call.file.iter_mut().zip(head) {
        *byte = value;
    }
    call
}

/// A ledger of any bytes, its first words often those of a ledger to accept.
fn any_ledger(rng: &mut Rng) -> SettleCall {
    let mut call = valid_settle(rng, &SMALL).call(rng);
    let right = rng.pick(&[0, 8, 24, 40, 64, 96]).min(call.ledger.len());
    let length = rng.index(call.ledger.len() + 60).max(right);
    let rest = rng.bytes(length - right);
    call.ledger.truncate(right);
    call.ledger.extend(rest);
    call
}

/// The listing with words near their bounds, any of them at once.
fn any_words(rng: &mut Rng) -> SettleCall {
    let [one, two] = listings();
    let mut case = if rng.one_in(2) { one } else { two };
    damage_header(rng, &mut case.file);
    case.ledger.words[3] = rng.pick(&[0, 999, 1_000, 1_000, 1_001]);
    let year = u64::from(rng.near(&[2016, 2018, 2023]));
    case.ledger.words[7] = rng.pick(&[0, 0, 2016, 2018, year]);
    case.result_length = result_bytes(4) - 2 + rng.pick(&[0, 1, 2, 2, 2, 3, 40]);
    let mut call = case.call(rng);
    let least_kw = 0u32.wrapping_sub(KW_MOST);
    let bounds = [0, 1, 2, 4, 10, KW_MOST, least_kw, 1_000_000, 3_000];
    let header = case.file.format.header_bytes();
    for _ in 0..rng.below(4) {
        let at = header + 4 * rng.index((call.file.len() - header) / 4);
        let word = rng.near(&bounds);
        put_words(&mut call.file, at, &[word]);
    }
    call
}

/// Sets some words of a header near their bounds.
fn damage_header(rng: &mut Rng, file: &mut IntervalFile) {
    let [header, end] = [file.format.header_bytes(), file.length].map(|bytes| bytes as u32);
    let words = [
        (1, vec![0, 1_000, 105_119]),
        (4, vec![0, 1]),
        (5, vec![0, IMPORTS_MOST as u32, -IMPORTS_MOST as u32]),
        (6, vec![1, 4, 512]),
        (7, vec![header, end]),
        (8, vec![0, 6, 2_048]),
        (9, vec![header, file.points_at as u32, end]),
        (10, vec![0, 3, 1_024]),
        (11, vec![header, file.schedules_at as u32, end]),
    ];
    for (word, bounds) in words {
        if rng.one_in(12) {
            file.head[word] = rng.near(&bounds);
        }
    }
}

/// The reference's answer.
#[cfg(test)]
fn answer(case: &SettleCase) -> u32 {
    let mut call = case.call(&mut Rng::new(1));
    reference::settle(&mut call.ledger, &call.file, &mut call.result)
}

#[cfg(test)]
mod tests {
    use super::*;
    use crate::compare::Comparison;

    #[test]
    fn the_base_cases_are_accepted() {
        assert_eq!(listings().each_ref().map(answer), [0, 0]);
        assert_eq!(answer(&plain(1, 1)), 0);
        assert_eq!(answer(&plain(512, 512)), 0);
    }

    #[test]
    fn the_ordinary_program_gives_the_same() {
        let ordinary = Pair {
            module: |file, [ledger, result]| npa_ordinary::settle(ledger, file, result),
            ..PAIR
        };
        let mut comparison = Comparison::new(ordinary);
        assert_eq!(comparison.compare_all(&CALLS, 1, 2_000), Ok(()));
        assert!(comparison.counts(1).is_ok());
    }
}
