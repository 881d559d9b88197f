//! Calls to opening: fixed ones on both sides of every boundary, and random ones.

use crate::compare::{Call, Calls, Pair};
use crate::npa;
use crate::vectors::Answered;
use npa_tests::layout::{ledger_bytes, Opening, BLOCK_MOST, IDS_MOST, OPENING_BYTES};
use npa_tests::listing::{DAYS, IDS, NET_CONE};
use npa_tests::random::{
    flip, long_open, open_call_for, rising, valid_open, OpenCall, OpenCase, Rng, FULL, MIDDLE,
    OPENING_GROUNDS, SMALL,
};
use npa_tests::reference;
use npa_tests::vectors::{self, Operation};

pub const PAIR: Pair<1> = Pair {
    name: "opening",
    read: "block",
    written: ["ledger"],
    module: |block, [ledger]| npa::open(block, ledger),
    reference: |block, [ledger]| reference::open(block, ledger),
    answers: &[0, 1, 2, 23, 3, 4, 5],
};

pub const CALLS: Calls<1> = Calls { fixed, random };

impl From<OpenCall> for Call<1> {
    fn from(call: OpenCall) -> Self {
        Call {
            read: call.block,
            written: [call.ledger],
        }
    }
}

/// The opening of a vector.
pub fn answered(operation: Operation) -> Option<Answered<1>> {
    let Operation::Open(vectors::Call {
        given: [block, ledger],
        ground,
        left,
    }) = operation
    else {
        return None;
    };
    Some(Answered {
        call: Call {
            read: block,
            written: [ledger],
        },
        ground,
        left,
    })
}

// ---------------------------------------------------------------- fixed calls

fn fixed(rng: &mut Rng) -> Vec<Call<1>> {
    let mut cases = lengths();
    cases.extend(terms());
    cases.extend(years());
    cases.extend(counts());
    cases.extend(offsets());
    cases.extend(ids());
    cases.extend(rooms());
    cases.extend(two_faults());
    let mut calls: Vec<Call<1>> = cases.iter().map(|case| case.call(rng).into()).collect();
    calls.extend(single_bits(rng));
    calls
}

/// An opening to accept, if the ids are; all just long enough.
fn opening_of(ids: &[u32]) -> OpenCase {
    OpenCase {
        opening: Opening::new(NET_CONE, DAYS, ids),
        ledger_length: ledger_bytes(ids.len()),
    }
}

/// The same without and with a year.
fn openings_of(ids: &[u32]) -> [OpenCase; 2] {
    let of_2016 = OpenCase {
        opening: Opening::of_year(2016, NET_CONE, DAYS, ids),
        ledger_length: ledger_bytes(ids.len()),
    };
    [opening_of(ids), of_2016]
}

/// The opening of document 01's listing without and with a year.
fn listings() -> [OpenCase; 2] {
    openings_of(&IDS)
}

/// Blocks of every length near both bounds, with one id or all that fit, up to the end or past it.
fn lengths() -> Vec<OpenCase> {
    let mut cases = Vec::new();
    for length in (0..=64).chain(4093..=4097usize) {
        let most = (length.saturating_sub(OPENING_BYTES) / 4).clamp(1, IDS_MOST);
        for count in [1, most] {
            let last = length.saturating_sub(4 * count);
            for ids_at in [20, 24, last, last + 1] {
                for mut case in openings_of(&rising(count)) {
                    case.opening.place(ids_at, 0);
                    case.opening.length = length;
                    cases.push(case);
                }
            }
        }
    }
    cases
}

/// Formats, Net CONE and days at their bounds, and right only in some of their bytes.
fn terms() -> Vec<OpenCase> {
    let high = 1 << 31;
    let formats = [
        0,
        1,
        2,
        3,
        255,
        256,
        257,
        258,
        512,
        65_537,
        65_538,
        high + 1,
        high + 2,
        u32::MAX,
    ];
    let net_cones = [
        0, 1, 2, 255, 256, 65_536, 199_999, 200_000, 200_001, 265_536,
    ];
    let days = [0, 109, 110, 364, 365, 366, 367, 65_901, 65_902, high + 365];
    let words = formats.map(|value| (0, value)).into_iter();
    words
        .chain(net_cones.map(|value| (1, value)))
        .chain([(1, high), (1, high + 1), (1, u32::MAX), (2, u32::MAX)])
        .chain(days.map(|value| (2, value)))
        .flat_map(|(word, value)| {
            listings().map(|mut case| {
                case.opening.words[word] = value;
                case
            })
        })
        .collect()
}

/// Years at the bounds of those that can be named, and right only in some of their bytes, with either number of days.
fn years() -> Vec<OpenCase> {
    let near = (2014..=2025).chain([0, 1, 2, 16, 23, 255, 256]);
    let parts = (2014..=2025).flat_map(|year| [year & 0xff, year & 0xff00, year << 8, year << 16]);
    let high = [1 << 12, 1 << 16, 1 << 24, 1 << 31]
        .into_iter()
        .flat_map(|high| (2014..=2025).map(move |year| high + year));
    near.chain(parts)
        .chain(high)
        .chain([u32::MAX])
        .flat_map(|year| {
            [365, 366].map(|days| {
                let mut case = opening_of(&IDS);
                case.opening = Opening::of_year(year, NET_CONE, days, &IDS);
                case
            })
        })
        .collect()
}

/// Numbers of ids at their bounds: with just these ids, and with room for more.
fn counts() -> Vec<OpenCase> {
    let near = [0, 1, 2, 255, 256, 257, 511, 512, 513, 520, 521];
    let far = [1 << 16, 1 << 30, 1 << 31].map(|high| [high, high + 1, high + 512]);
    let mut cases: Vec<OpenCase> = (511..=514)
        .flat_map(|count| openings_of(&rising(count)))
        .collect();
    for full in openings_of(&rising(520)) {
        for count in near.into_iter().chain(far.concat()).chain([u32::MAX]) {
            let mut case = full.clone();
            case.opening.words[3] = count;
            cases.push(case);
        }
    }
    cases
}

/// Offsets at both ends of the block, and those that fit only if a sum of 32 bits wraps.
fn offsets() -> Vec<OpenCase> {
    let mut cases = Vec::new();
    for count in [1, 4, 512] {
        for mut case in openings_of(&rising(count)) {
            for ids_at in 17..=28 {
                case.opening.place(ids_at, 3);
                cases.push(case.clone());
            }
            case.opening.place(31, 9);
            let (end, bytes) = (case.opening.length as u32, 4 * count as u32);
            let last = end - bytes;
            let wrapping = (0..=24).chain(end - 2..=end + 2);
            let offsets = (0..=40)
                .chain(last - 2..=last + 2)
                .chain(end - 5..=end + 5)
                .chain(u32::MAX - 63..=u32::MAX)
                .chain(wrapping.map(|sum| sum.wrapping_sub(bytes)));
            for offset in offsets {
                let mut moved = case.clone();
                moved.opening.words[4] = offset;
                cases.push(moved);
            }
        }
    }
    cases
}

/// Ids that are 0, equal, fall or rise by one, and rosters whose bytes mislead.
fn ids() -> Vec<OpenCase> {
    let mut cases = [0, 1, 2, 1 << 31, u32::MAX]
        .map(|id| openings_of(&[id]))
        .concat();
    for count in [2, 3, 4, 511, 512] {
        for index in [0, 1, count / 2, count - 1] {
            let mut ids = rising(count);
            let before = if index == 0 { 0 } else { ids[index - 1] };
            let values = [0, 1, before.saturating_sub(1), before, before + 1];
            for id in values.into_iter().chain([1 << 31, u32::MAX]) {
                ids[index] = id;
                cases.extend(openings_of(&ids));
            }
        }
    }
    let high = 1 << 31;
    let pairs = [255, 256, 65_535, 65_536, 1 << 24, high - 1, high, u32::MAX];
    for first in pairs {
        cases.extend(pairs.map(|second| openings_of(&[first, second])).concat());
    }
    cases
}

/// Ledger buffers of every length around the one needed, and far from it.
fn rooms() -> Vec<OpenCase> {
    let mut cases = Vec::new();
    for count in [1, 2, 4, 511, 512] {
        let needed = ledger_bytes(count);
        let lengths = (0..=65).chain(needed - 33..=needed + 33);
        for length in lengths.chain([needed + 4096]) {
            for mut case in openings_of(&rising(count)) {
                case.ledger_length = length;
                cases.push(case);
            }
        }
    }
    cases
}

/// A fault that makes an opening of the listing's ids one to refuse on this ground.
type Fault = (u32, fn(&mut OpenCase));

/// Faults with and without a year.
const FAULTS: [Fault; 20] = [
    (1, |case| case.opening.length = 0),
    (1, |case| case.opening.length = 19),
    (1, |case| case.opening.length = BLOCK_MOST + 1),
    (1, |case| case.opening.words[0] = 0),
    (1, |case| case.opening.words[0] = 3),
    (2, |case| case.opening.words[1] = 0),
    (2, |case| case.opening.words[1] = 200_001),
    (2, |case| case.opening.words[2] = 364),
    (2, |case| case.opening.words[2] = 367),
    (3, |case| case.opening.words[3] = 0),
    (3, |case| case.opening.words[3] = 5),
    (3, |case| case.opening.words[3] = 513),
    (3, |case| {
        case.opening.words[4] = case.opening.front() as u32 - 1
    }),
    (3, |case| {
        case.opening.words[4] = case.opening.front() as u32 + 1
    }),
    (3, |case| case.opening.words[4] = 0xffff_fff0),
    (4, |case| case.opening.ids[0] = 0),
    (4, |case| case.opening.ids[2] = 12),
    (4, |case| case.opening.ids[3] = 12),
    (5, |case| case.ledger_length = 0),
    (5, |case| case.ledger_length = ledger_bytes(4) - 1),
];

/// More of them with a year.
const YEAR_FAULTS: [Fault; 8] = [
    (1, |case| case.opening.length = 20),
    (1, |case| case.opening.length = 23),
    (23, |case| case.opening.year = Some(0)),
    (23, |case| case.opening.year = Some(2015)),
    (23, |case| case.opening.year = Some(2017)),
    (23, |case| case.opening.year = Some(2024)),
    (3, |case| case.opening.words[4] = 0),
    (3, |case| case.opening.words[4] = 20),
];

/// The listing's openings, each with its faults.
fn faulty() -> [(OpenCase, Vec<Fault>); 2] {
    let [plain, of_year] = listings();
    let with_year = [&FAULTS[..], &YEAR_FAULTS].concat();
    [(plain, FAULTS.to_vec()), (of_year, with_year)]
}

/// Every two faults together, for the order of the grounds.
fn two_faults() -> Vec<OpenCase> {
    let mut cases = Vec::new();
    for (opening, faults) in faulty() {
        for (_, first) in &faults {
            for (_, second) in &faults {
                let mut case = opening.clone();
                first(&mut case);
                second(&mut case);
                cases.push(case);
            }
        }
    }
    cases
}

/// The listing's blocks with each of their bits turned.
fn single_bits(rng: &mut Rng) -> Vec<Call<1>> {
    let mut calls = Vec::new();
    for case in listings() {
        let call = case.call(rng);
        for bit in 0..8 * call.block.len() {
            let mut turned = call.clone();
            turned.block[bit / 8] ^= 1 << (bit % 8);
            calls.push(turned.into());
        }
    }
    calls
}

// ---------------------------------------------------------------- random calls

fn random(rng: &mut Rng, number: u64) -> Call<1> {
    let size = rng.pick(&[SMALL, SMALL, MIDDLE, FULL]);
    let call = match number % 10 {
        kind @ 0..=5 => open_call_for(rng, &size, OPENING_GROUNDS[kind as usize]),
        6 => long_open(rng, &size),
        7 => {
            let mut call = valid_open(rng, &size).call(rng);
            flip(rng, &mut call.block);
            call
        }
        8 => any_bytes(rng),
        _ => any_words(rng),
    };
    call.into()
}

/// Any bytes, half of them with a right format.
fn any_bytes(rng: &mut Rng) -> OpenCall {
    let length = rng.pick(&[0, 20, 4_080]) + rng.index(45);
    let mut block = rng.bytes(length);
    if block.len() >= 4 && rng.one_in(2) {
        let format: u32 = rng.pick(&[1, 2]);
        block[..4].copy_from_slice(&format.to_le_bytes());
    }
    let ledger_length = rng.index(300);
    let ledger = rng.bytes(ledger_length);
    OpenCall { block, ledger }
}

/// Words near their bounds, any of them at once.
fn any_words(rng: &mut Rng) -> OpenCall {
    let count = rng.up_to(12);
    let mut case = openings_of(&rising(count))[rng.index(2)].clone();
    let (before, behind) = (rng.index(4), rng.index(4));
    case.opening.place(case.opening.front() + before, behind);
    let (end, bytes) = (case.opening.length as u32, 4 * count as u32);
    let bounds: [&[u32]; 5] = [
        &[1, 2],
        &[1, 200_000],
        &[365, 366],
        &[1, 512, count as u32, (1 << 30) + count as u32],
        &[20, 24, end - bytes, 0u32.wrapping_sub(bytes)],
    ];
    for (word, bounds) in case.opening.words.iter_mut().zip(bounds) {
        if rng.one_in(4) {
            *word = rng.near(bounds);
        }
    }
    if let Some(year) = &mut case.opening.year {
        *year = rng.near(&[2016, 2016, 2018, 2021, 2023]);
    }
    let index = rng.index(count);
    if rng.one_in(4) {
        case.opening.ids[index] = rng.near(&[0, 7 * index as u32, 7 * count as u32]);
    }
    case.ledger_length = ledger_bytes(count) - 2 + rng.pick(&[0, 1, 2, 2, 2, 3, 40]);
    case.call(rng)
}

#[cfg(test)]
mod tests {
    use super::*;
    use crate::compare::Comparison;

    /// The reference's answer.
    fn answer(case: &OpenCase) -> u32 {
        let mut call = case.call(&mut Rng::new(1));
        reference::open(&call.block, &mut call.ledger)
    }

    /// The place of a ground in checking order.
    fn place(ground: u32) -> Option<usize> {
        OPENING_GROUNDS.iter().position(|other| *other == ground)
    }

    #[test]
    fn each_fault_has_its_ground_and_the_first_of_two_counts() {
        let mut pairs = two_faults().into_iter();
        for (opening, faults) in faulty() {
            assert_eq!(answer(&opening), 0);
            for (ground, fault) in &faults {
                let mut case = opening.clone();
                fault(&mut case);
                assert_eq!(answer(&case), *ground);
            }
            for (first, _) in &faults {
                for (second, _) in &faults {
                    // The same word may be set twice, to a fault of one ground.
                    let wanted = place(*first).min(place(*second));
                    assert_eq!(place(answer(&pairs.next().unwrap())), wanted);
                }
            }
        }
    }

    #[test]
    fn years_are_on_both_sides() {
        let answers: Vec<u32> = years().iter().map(answer).collect();
        assert!(answers.iter().all(|answer| [0, 23].contains(answer)));
        // 2016 with 365 days, and six years with either number.
        let accepted = answers.iter().filter(|answer| **answer == 0).count();
        assert_eq!(accepted, 13);
    }

    #[test]
    fn every_length_near_a_bound_is_there() {
        let calls = fixed(&mut Rng::new(1));
        for length in (0..=64).chain(4093..=4097) {
            assert!(calls.iter().any(|call| call.read.len() == length));
        }
    }

    #[test]
    fn the_ordinary_program_gives_the_same() {
        let ordinary = Pair {
            module: |block, [ledger]| npa_ordinary::open(block, ledger),
            ..PAIR
        };
        let mut comparison = Comparison::new(ordinary);
        assert_eq!(comparison.compare_all(&CALLS, 1, 2_000), Ok(()));
        assert!(comparison.counts(1).is_ok());
    }
}
