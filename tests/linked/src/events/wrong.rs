//! Wrong events, each of which the fixed calls must find.

use super::{CALLS, PAIR};
use crate::compare::{Comparison, Function, Pair};
use npa_tests::layout::{long_at, put_longs, result_bytes, word_at};
use npa_tests::reference::{event, settle};

/// What comparing the fixed calls says of an event.
fn compared(module: Function<3>) -> Result<(), String> {
    Comparison::new(Pair { module, ..PAIR }).compare_all(&CALLS, 1, 0)
}

/// Settles one file after another; a refused one is passed over if it is told to go on.
fn walk(files: &[u8], ledger: &mut [u8], result: &mut [u8], over: bool, on: bool) -> (u32, u64) {
    let (mut left, mut at, mut settled, mut first) = (files, 0, 0, 0);
    while !left.is_empty() {
        let length = word_at(left, 0).map_or(usize::MAX - 4, |length| length as usize);
        let Some(file) = left.get(4..4 + length) else {
            return (if first == 0 { 22 } else { first }, settled);
        };
        match settle(ledger, file, &mut result[at..]) {
            0 => {
                settled += 1;
                at += if over {
                    0
                } else {
                    result_bytes(word_at(file, 24).unwrap() as usize)
                };
            }
            ground if on => first = if first == 0 { ground } else { first },
            ground => return (ground, settled),
        }
        left = &left[4 + length..];
    }
    (first, settled)
}

/// An event by `walk`.
fn walked(files: &[u8], [ledger, result, count]: [&mut [u8]; 3], over: bool, on: bool) -> u32 {
    if count.len() < 8 {
        return 20;
    }
    let (answer, settled) = walk(files, ledger, result, over, on);
    put_longs(count, 0, &[settled]);
    answer
}

/// What is wrong with each, and what it does.
const WRONG: [(&str, Function<3>); 9] = [
    ("no count on a refusal", |files, [ledger, result, count]| {
        let before = count.to_vec();
        let answer = event(ledger, files, result, count);
        if answer != 0 {
            count.copy_from_slice(&before);
        }
        answer
    }),
    ("22 after 6", |files, [ledger, result, count]| {
        let bad = settle(&mut ledger.to_vec(), &[], &mut []) == 6;
        match event(ledger, files, result, count) {
            22 if bad => 6,
            answer => answer,
        }
    }),
    ("every result in the same place", |files, buffers| {
        walked(files, buffers, true, false)
    }),
    ("on after a refusal", |files, buffers| {
        walked(files, buffers, false, true)
    }),
    ("20 tested last", |files, [ledger, result, count]| {
        let (answer, settled) = walk(files, ledger, result, false, false);
        if count.len() < 8 {
            return 20;
        }
        put_longs(count, 0, &[settled]);
        answer
    }),
    (
        "20 only where there are files",
        |files, [ledger, result, count]| match event(ledger, files, result, count) {
            20 if files.is_empty() => 0,
            answer => answer,
        },
    ),
    (
        "a bad ledger refused without files",
        |files, [ledger, result, count]| match event(ledger, files, result, count) {
            0 if files.is_empty() => settle(ledger, &[], &mut []) % 7,
            answer => answer,
        },
    ),
    (
        "the refused file counted",
        |files, [ledger, result, count]| {
            let answer = event(ledger, files, result, count);
            if let (true, Some(settled)) = (answer != 0 && answer != 20, long_at(count, 0)) {
                put_longs(count, 0, &[settled + 1]);
            }
            answer
        },
    ),
    (
        "all taken back on a refusal",
        |files, [ledger, result, count]| {
            let before = ledger.to_vec();
            let answer = event(ledger, files, result, count);
            if answer != 0 {
                ledger.copy_from_slice(&before);
            }
            answer
        },
    ),
];

#[test]
fn the_right_ones_are_not_found() {
    assert_eq!(compared(PAIR.reference), Ok(()));
    assert_eq!(
        compared(|files, buffers| walked(files, buffers, false, false)),
        Ok(())
    );
}

#[test]
fn wrong_ones_are_found() {
    for (name, module) in WRONG {
        assert!(compared(module).is_err(), "{name}");
    }
}
