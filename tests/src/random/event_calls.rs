//! Random calls on events, whole and damaged.

use super::{cut, first_made, flip, scramble, settle_call_for, settle_counts_fit};
use super::{damage_settle, EventCall, Rng, RunningYear, SettleCall, SettleCase, Size, World};
use crate::layout::{long_at, push_block, put_words, result_bytes, stream_of, word_at};
use crate::reference;

/// The bytes of a count.
const COUNT_BYTES: usize = 8;

/// The earliest interval of a ledger for refused events, so that there are some before it.
const EARLIEST: u32 = 10;

/// A call on an event of any sort, in a year that has just begun.
pub fn event_call(rng: &mut Rng, size: &Size) -> EventCall {
    let mut call = whole_event(rng, size, &[1, 3, 3, 8, 20]);
    let sort = rng.below(28);
    damage_event(rng, sort, &mut call);
    call
}

/// A call on an event of up to three files with small counts; from sort 13 on it is not damaged.
pub fn small_event(rng: &mut Rng, size: &Size, sort: u64) -> EventCall {
    first_made("an event with small counts", || {
        let mut call = whole_event(rng, size, &[3]);
        damage_event(rng, sort, &mut call);
        event_counts_fit(&call, size).then_some(call)
    })
}

/// An accepted event of so many files, at most three.
pub fn accepted_event(rng: &mut Rng, size: &Size, files: u64) -> EventCall {
    first_made(&format!("an accepted event of {files} files"), || {
        let call = whole_event(rng, size, &[3]);
        (ends(&call, 0, files) && event_counts_fit(&call, size)).then_some(call)
    })
}

/// An event of up to so many files, one of the numbers, in a year that has just begun.
fn whole_event(rng: &mut Rng, size: &Size, most: &[usize]) -> EventCall {
    let mut year = RunningYear::open(rng, size);
    for _ in 0..rng.below(3) {
        year.next_call(rng, size);
    }
    let most = rng.pick(most);
    year.next_event(rng, size, most)
}

/// Damages one buffer of an event in the way with this number, or none.
fn damage_event(rng: &mut Rng, sort: u64, call: &mut EventCall) {
    match sort {
        0 | 1 => flip(rng, &mut call.files),
        2 | 3 => cut(rng, &mut call.files),
        4 => scramble(rng, &mut call.files),
        5 => flip(rng, &mut call.ledger),
        6 => cut(rng, &mut call.ledger),
        7 => scramble(rng, &mut call.ledger),
        8 => cut(rng, &mut call.result),
        9 => cut(rng, &mut call.count),
        10 | 11 => other_length(rng, &mut call.files),
        12 => {
            let tail = 1 + rng.index(7);
            call.files.extend(rng.bytes(tail));
        }
        _ => (),
    }
}

/// An event of the one file of a call to settling; a single damage is for this ground.
pub fn event_of_one(rng: &mut Rng, size: &Size, ground: u32) -> EventCall {
    let call = settle_call_for(rng, size, ground);
    EventCall {
        ledger: call.ledger,
        files: stream_of(&[&call.file]),
        result: call.result,
        count: rng.bytes(COUNT_BYTES),
    }
}

/// An event of one file that this ground of settling refuses.
pub fn refused_alone(rng: &mut Rng, size: &Size, ground: u32) -> EventCall {
    first_made(&format!("an event of one file refused by {ground}"), || {
        let call = event_of_one(rng, size, ground);
        ends(&call, ground, 0).then_some(call)
    })
}

/// An event of three files, settled up to this place, where this ground from 7 to 15 refuses, or 22.
pub fn refused_event(rng: &mut Rng, size: &Size, place: usize, ground: u32) -> EventCall {
    first_made(&format!("an event refused by {ground} at {place}"), || {
        let call = damaged_at(rng, size, place, ground);
        (ends(&call, ground, place as u64) && event_counts_fit(&call, size)).then_some(call)
    })
}

/// Whether the reference gives this answer and counts so many files.
fn ends(call: &EventCall, ground: u32, files: u64) -> bool {
    let mut left = call.clone();
    let (ledger, result) = (&mut left.ledger, &mut left.result);
    let answer = reference::event(ledger, &left.files, result, &mut left.count);
    answer == ground && long_at(&left.count, 0) == Some(files)
}

/// An event of three files, damaged for this ground at the one at this place.
fn damaged_at(rng: &mut Rng, size: &Size, place: usize, ground: u32) -> EventCall {
    let world = World::any(rng, size);
    let mut ledger = world.opened();
    ledger.words[3] = EARLIEST.into();
    let whole = |interval| {
        let file = world.file(rng, size, interval);
        SettleCase {
            ledger: ledger.clone(),
            result_length: result_bytes(file.rows.len()),
            file,
        }
    };
    let mut cases: Vec<SettleCase> = (EARLIEST..EARLIEST + 3).map(whole).collect();
    let damaged = &mut cases[place];
    match ground {
        10 => damaged.file.head[1] = rng.below(damaged.file.head[1].into()) as u32,
        22 => (),
        _ => damage_settle(rng, size, ground, damaged),
    }
    // A result buffer that is too short ends with the room of its file.
    let with_room = if ground == 15 { place + 1 } else { 3 };
    let room = cases[..with_room].iter().map(|case| case.result_length);
    let result = rng.bytes(room.sum());
    let mut files = Vec::new();
    for (number, case) in cases.iter().enumerate() {
        let from = files.len();
        push_block(&mut files, &case.call(rng).file);
        if ground == 22 && number == place {
            files.truncate(from + 1 + rng.index(files.len() - from - 1));
            break;
        }
    }
    EventCall {
        ledger: ledger.bytes(),
        files,
        result,
        count: rng.bytes(COUNT_BYTES),
    }
}

/// No count word of the ledger or of a file that is wholly there is larger than allowed.
fn event_counts_fit(call: &EventCall, size: &Size) -> bool {
    let file_at = |at: usize| {
        let length = word_at(&call.files, at)? as usize;
        call.files.get(at + 4..at + 4 + length)
    };
    let fits = |file: &[u8]| {
        let call = SettleCall {
            ledger: call.ledger.clone(),
            file: file.to_vec(),
            result: Vec::new(),
        };
        settle_counts_fit(&call, size)
    };
    let places = length_places(&call.files);
    places.into_iter().filter_map(file_at).all(fits)
}

/// The places of the lengths.
fn length_places(files: &[u8]) -> Vec<usize> {
    let (mut places, mut at) = (Vec::new(), 0);
    while let Some(length) = word_at(files, at) {
        places.push(at);
        at += 4 + length as usize;
    }
    places
}

/// Sets the length of a file to another: near its own, near all that is left, none, or far too much.
fn other_length(rng: &mut Rng, files: &mut [u8]) {
    let places = length_places(files);
    if places.is_empty() {
        return;
    }
    let at = rng.pick(&places);
    let own = word_at(files, at).unwrap_or(0);
    let left = (files.len() - at - 4) as u32;
    let bounds = [
        own,
        own,
        left,
        left,
        0,
        1 << 31,
        left.wrapping_sub(at as u32),
    ];
    let length = rng.near(&bounds);
    put_words(files, at, &[length]);
}
