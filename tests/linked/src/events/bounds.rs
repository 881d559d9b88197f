//! Numbers of files, lengths before them, and lengths of the four buffers, on both sides of every bound.

use super::{listings, mixed, EventCase};
use crate::settlings::ledger_bounds;
use npa_tests::layout::{result_bytes, Format, Ledger, FILE_MOST, IDS_MOST, ROWS_MOST};
use npa_tests::listing::{DAYS, NET_CONE};
use npa_tests::random::{event_file, four_schedules, rising, Rng};
use npa_tests::streams::ROW_POINTS;

/// The kW that plant 12 is short in the listing's first file.
const SHORT_KW: u64 = 18_333;

pub fn cases() -> Vec<EventCase> {
    let mut cases = numbers();
    cases.extend(limits());
    cases.extend(cuts());
    cases.extend(lengths());
    cases.extend(long_files());
    cases.extend(rooms());
    cases.extend(counts());
    cases.extend(any_ledgers());
    cases
}

/// A ledger of no bytes in place of the case's own.
fn without_ledger(case: &EventCase) -> EventCase {
    case.with(|case| case.ledger.length = 0)
}

/// 0 to 50 files, of format 1 and of both; and up to 50 of as many rows, points and schedules as a file may have.
fn numbers() -> Vec<EventCase> {
    let mut cases: Vec<EventCase> = (0..=50)
        .flat_map(|count| [listings(count), mixed(count)])
        .collect();
    cases.extend([1, 2, 50].map(full_files));
    cases.extend([1, 2, 50].map(|count| in_year(2016, &listings(count))));
    cases
}

/// An event in a ledger of this year.
fn in_year(year: u64, case: &EventCase) -> EventCase {
    case.with(|case| case.ledger.words[7] = year)
}

/// Plant 12 reaches its limit in the second file: its charges are full, cut, and nothing.
fn limits() -> Vec<EventCase> {
    let mut cases = Vec::new();
    for year in [0, 2016, 2018] {
        for rest in [0, 1] {
            cases.push(in_year(year, &listings(4)).with(|case| {
                let terms = case.ledger.terms();
                let charged = terms.limit(50_000) - terms.full_charge(SHORT_KW) - rest;
                case.ledger.accounts[1] = [12, 50_000, charged, 0];
                case.ledger.words[4] = charged;
            }));
        }
    }
    cases
}

/// So many of the largest files, by turns of format 2 and of format 1.
fn full_files(count: u32) -> EventCase {
    let ids = rising(IDS_MOST);
    let mut rng = Rng::new(1);
    let file = |interval| {
        let file = event_file(&mut rng, interval, &ids, ROW_POINTS);
        match interval % 2 {
            0 => four_schedules(&mut rng, file).bytes(),
            _ => file.bytes(),
        }
    };
    let ledger = Ledger::new(NET_CONE, DAYS, &ids);
    EventCase::new(ledger, (0..count).map(file).collect(), ROWS_MOST)
}

/// An event cut at every byte, with its ledger and without.
fn cuts() -> Vec<EventCase> {
    let whole = mixed(3);
    let bytes = whole.file_bytes();
    let cut = |at: usize| {
        whole.with(|case| {
            case.files.clear();
            case.tail = bytes[..at].to_vec();
        })
    };
    let cases: Vec<EventCase> = (0..=bytes.len()).map(cut).collect();
    let without: Vec<EventCase> = cases.iter().map(without_ledger).collect();
    [cases, without].concat()
}

/// The length of each of three files: none, its own, all that is left, past the end, and sums that wrap in 32 bits.
fn lengths() -> Vec<EventCase> {
    let case = listings(3);
    let step = case.files[0].0 + 4;
    let mut cases = Vec::new();
    for index in 0..case.files.len() {
        let at = step * index as u32;
        let left = step * case.files.len() as u32 - at - 4;
        let own = case.files[index].0;
        let near = [0, 1, 3, 4, 39, 40, own - 1, own, own + 1, own + 4];
        let end = [left - 1, left, left + 1, left + 4, left + at, left + at + 4];
        let far = [
            1 << 16,
            1 << 31,
            u32::MAX - 7,
            u32::MAX - 4,
            u32::MAX - 3,
            u32::MAX - 1,
            u32::MAX,
        ];
        let wrapping = [0u32, 4, own, left].map(|sum| sum.wrapping_sub(at + 4));
        let lengths = near.into_iter().chain(end).chain(far).chain(wrapping);
        cases.extend(lengths.map(|length| case.with(|case| case.files[index].0 = length)));
    }
    let without: Vec<EventCase> = cases.iter().map(without_ledger).collect();
    [cases, without].concat()
}

/// Files at the limits of their length and far above them, which lie wholly in the buffer: no ground but 7 is for them.
fn long_files() -> Vec<EventCase> {
    let mut cases = Vec::new();
    for length in [
        Format::One.most(),
        Format::One.most() + 1,
        FILE_MOST,
        FILE_MOST + 1,
        65_535,
        65_536,
        1 << 20,
    ] {
        for index in 0..3 {
            let case = mixed(3).with(|case| {
                let (told, file) = &mut case.files[index];
                file.resize(length, 0);
                *told = length as u32;
            });
            cases.push(without_ledger(&case));
            cases.push(case);
        }
    }
    cases
}

/// Result buffers of every length up to what is needed, and longer ones.
fn rooms() -> Vec<EventCase> {
    let mut cases = Vec::new();
    for count in [0, 1, 2, 3] {
        let needed = count as usize * result_bytes(4);
        let lengths = (0..=needed + 3).chain([needed + 64, needed + 4_096]);
        cases.extend(lengths.map(|length| mixed(count).with(|case| case.result_length = length)));
    }
    cases
}

/// Count buffers of 0 to 16 bytes and a longer one, for events with and without files, to accept and to refuse.
fn counts() -> Vec<EventCase> {
    let some = listings(3);
    let events = [
        listings(0),
        without_ledger(&listings(0)),
        listings(1),
        some.clone(),
        without_ledger(&some),
        some.with(|case| case.files[1].1[0] = 3),
        some.with(|case| case.tail = vec![1; 3]),
        some.with(|case| case.result_length = 0),
        some.with(|case| case.result_length -= 1),
        listings(0).with(|case| case.tail = vec![0; 2]),
        listings(0).with(|case| case.tail = vec![0; 4]),
    ];
    let mut cases = Vec::new();
    for event in events {
        cases.extend(
            (0..=16)
                .chain([4_096])
                .map(|length| event.with(|case| case.count_length = length)),
        );
    }
    cases
}

/// Ledgers of every sort without files, with less than a length, with an empty file, and with one past the end.
fn any_ledgers() -> Vec<EventCase> {
    let mut cases = Vec::new();
    for settling in ledger_bounds::cases() {
        let tails: [&[u8]; 4] = [&[], &[1; 3], &[0; 4], &[1, 0, 0, 0]];
        cases.extend(tails.map(|tail| EventCase {
            ledger: settling.ledger.clone(),
            files: Vec::new(),
            tail: tail.to_vec(),
            result_length: 128,
            count_length: 8,
        }));
    }
    cases
}

#[cfg(test)]
mod tests {
    use super::super::answer;
    use super::*;
    use crate::compare::Call;
    use npa_tests::layout::long_at;
    use npa_tests::reference;

    /// The grounds of these cases, each once.
    fn grounds(cases: &[EventCase]) -> Vec<u32> {
        let mut grounds: Vec<u32> = cases.iter().map(|case| answer(case).0).collect();
        grounds.sort();
        grounds.dedup();
        grounds
    }

    #[test]
    fn each_bound_has_its_grounds() {
        assert_eq!(grounds(&numbers()), [0]);
        assert_eq!(grounds(&cuts()), [0, 6, 22]);
        assert_eq!(grounds(&rooms()), [0, 15]);
        assert_eq!(grounds(&counts()), [0, 6, 7, 15, 20, 22]);
        assert_eq!(grounds(&any_ledgers()), [0, 6, 7, 22]);
    }

    #[test]
    fn a_limit_is_reached_within_an_event() {
        for case in limits() {
            let Call { read, written } = case.call(&mut Rng::new(1));
            let [mut ledger, mut result, mut count] = written;
            let answer = reference::event(&mut ledger, &read, &mut result, &mut count);
            assert_eq!(answer, 0);
            let charge = |file: usize| long_at(&result[file * result_bytes(4)..], 22).unwrap();
            let charges = [0, 1, 2, 3].map(charge);
            let (terms, before) = (case.ledger.terms(), case.ledger.accounts[1][2]);
            let full = terms.full_charge(SHORT_KW);
            let wanted = [full, terms.limit(50_000) - before - full, 0, 0];
            assert_eq!(charges, wanted);
        }
    }

    #[test]
    fn lengths_are_held_to_what_is_left() {
        assert_eq!(grounds(&long_files()), [0, 6, 7]);
        let grounds = grounds(&lengths());
        assert!([0, 6, 7, 22].iter().all(|ground| grounds.contains(ground)));
    }

    #[test]
    fn no_ledger_is_asked_without_files() {
        for case in any_ledgers().iter().filter(|case| case.tail.is_empty()) {
            assert_eq!(answer(case), (0, Some(0)));
        }
        for case in any_ledgers().iter().filter(|case| case.tail.len() == 3) {
            assert_eq!(answer(case), (22, Some(0)));
        }
    }
}
