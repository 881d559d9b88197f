//! The reference's events: beside settling one by one, and where the text of the request names a case.

use npa_tests::layout::{ledger_bytes, long_at, push_block, result_bytes, stream_of, Ledger};
use npa_tests::listing::{self, DAYS, IDS, NET_CONE};
use npa_tests::random::{year, Rng, FULL, MIDDLE, SMALL};
use npa_tests::reference::{event, settle};

const FILLER: u8 = 0xa5;

/// The ledger of the listing, just opened.
fn opened() -> Vec<u8> {
    Ledger::new(NET_CONE, DAYS, &IDS).bytes()
}

/// The answer to an event with room for so many results of the listing, and what it leaves.
fn settled(ledger: &mut [u8], files: &[u8], results: usize) -> (u32, Vec<u8>, u64) {
    let mut result = vec![FILLER; results * result_bytes(4)];
    let mut count = vec![FILLER; 11];
    let ground = event(ledger, files, &mut result, &mut count);
    assert_eq!(count[8..], [FILLER; 3], "count bytes beyond the word");
    (ground, result, long_at(&count, 0).unwrap())
}

#[test]
fn an_event_is_its_files_one_after_another() {
    let mut rng = Rng::new(1);
    for (size, years, calls) in [(SMALL, 300, 12), (MIDDLE, 40, 12), (FULL, 6, 8)] {
        for _ in 0..years {
            let year = year(&mut rng, &size, calls);
            let mut files = Vec::new();
            year.calls
                .iter()
                .for_each(|(file, _)| push_block(&mut files, file));
            let room = year.calls.len() * result_bytes(512);
            let (mut ledger, mut result, mut count) =
                (year.ledger.clone(), vec![FILLER; room], vec![0; 8]);
            let answer = event(&mut ledger, &files, &mut result, &mut count);

            let (mut one_by_one, mut results, mut at, mut number) =
                (year.ledger, vec![FILLER; room], 0, 0);
            let stopped = year.calls.iter().find_map(|(file, _)| {
                let ground = settle(&mut one_by_one, file, &mut results[at..]);
                if ground == 0 {
                    at += result_bytes(long_at(&results[at..], 7).unwrap() as usize);
                    number += 1;
                }
                (ground != 0).then_some(ground)
            });
            assert_eq!(
                (answer, long_at(&count, 0)),
                (stopped.unwrap_or(0), Some(number))
            );
            assert!(ledger == one_by_one && result == results);
        }
    }
}

#[test]
fn an_empty_buffer_settles_none_with_any_ledger() {
    for length in [0, 1, 63, 64, ledger_bytes(4)] {
        let mut ledger = vec![FILLER; length];
        assert_eq!(settled(&mut ledger, &[], 0), (0, Vec::new(), 0));
        assert_eq!(ledger, vec![FILLER; length]);
    }
}

#[test]
fn a_short_count_comes_first_and_nothing_is_written() {
    let files = stream_of(&[&listing::file(1_000).bytes()]);
    for (files, length) in [(&files[..], 7), (&files[..3], 0), (&[][..], 7)] {
        let (mut ledger, mut result, mut count) =
            (opened(), vec![FILLER; 320], vec![FILLER; length]);
        assert_eq!(event(&mut ledger, files, &mut result, &mut count), 20);
        assert_eq!((ledger, result), (opened(), vec![FILLER; 320]));
        assert_eq!(count, vec![FILLER; length]);
    }
}

#[test]
fn what_was_settled_before_a_refusal_remains() {
    let file = |interval| listing::file(interval).bytes();
    // The third is the second again.
    let files = stream_of(&[&file(1_000), &file(1_001), &file(1_001), &file(1_002)]);
    let (mut ledger, mut two) = (opened(), opened());
    let (ground, result, count) = settled(&mut ledger, &files, 4);
    assert_eq!((ground, count), (10, 2));
    let first_two = stream_of(&[&file(1_000), &file(1_001)]);
    assert_eq!(settled(&mut two, &first_two, 4), (0, result.clone(), 2));
    assert_eq!(ledger, two);
    assert_eq!(result[2 * 320..], [FILLER; 2 * 320]);
}

#[test]
fn a_length_is_looked_at_before_the_ledger_and_only_in_its_turn() {
    let whole = stream_of(&[&listing::file(1_000).bytes()]);
    for left in 1..=3 {
        assert_eq!(settled(&mut [], &whole[..left], 1).0, 22);
    }
    // Every length of a file that is not wholly there, and then an empty file.
    assert_eq!(settled(&mut [], &whole[..whole.len() - 1], 1).0, 22);
    assert_eq!(settled(&mut [], &u32::MAX.to_le_bytes(), 1).0, 22);
    assert_eq!(settled(&mut [], &whole, 1).0, 6);
    assert_eq!(settled(&mut [], &[0; 4], 1).0, 6);
    assert_eq!(settled(&mut opened(), &[0; 4], 1).0, 7);
    // Behind a file that is refused a length is not looked at; behind one that is settled it is.
    let mut twice = stream_of(&[&listing::file(1_000).bytes(), &[]]);
    twice.push(1);
    assert_eq!(settled(&mut opened(), &twice, 2), {
        let mut ledger = opened();
        let (_, result, _) = settled(&mut ledger, &whole, 2);
        (7, result, 1)
    });
    let mut cut = whole.clone();
    cut.push(1);
    let (ground, _, count) = settled(&mut opened(), &cut, 1);
    assert_eq!((ground, count), (22, 1));
}

#[test]
fn a_file_has_the_room_that_the_results_before_it_leave() {
    let files = stream_of(&[&listing::file(1_000).bytes(), &listing::file(1_001).bytes()]);
    for (room, must_be) in [
        (640, (0, 2)),
        (639, (15, 1)),
        (320, (15, 1)),
        (319, (15, 0)),
        (0, (15, 0)),
    ] {
        let (mut ledger, mut result, mut count) = (opened(), vec![FILLER; room], vec![0; 8]);
        let ground = event(&mut ledger, &files, &mut result, &mut count);
        assert_eq!((ground, long_at(&count, 0).unwrap()), must_be, "{room}");
        let written = 320 * must_be.1 as usize;
        assert!(result[written..].iter().all(|byte| *byte == FILLER));
    }
}
