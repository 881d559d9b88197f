//! The sums of random years, taken from the results of accepted calls.

use npa_tests::layout::{put_longs, Terms};
use npa_tests::listing;
use npa_tests::random::{year, Rng, Size, Year, FULL, MIDDLE, SMALL};
use npa_tests::reference::{open, settle};
use npa_tests::sums::{Accepted, Sums};

/// What some years showed.
#[derive(Default)]
struct Seen {
    charges: u128,
    credits: u128,
    cut_charges: u64,
    /// Those of years that start in 2016.
    halved_cut_charges: u64,
    accepted: usize,
    refused: usize,
}

/// Runs a year and checks the sums after every call.
fn run(year: Year, seen: &mut Seen) {
    let mut sums = Sums::of(&year.block);
    let halved = Terms::of_opening(&year.block).unwrap().year == 2016;
    let mut ledger = year.ledger;
    assert_eq!(sums.check(&ledger), Ok(()));
    for (file, mut result) in year.calls {
        let (before, unwritten) = (ledger.clone(), result.clone());
        if settle(&mut ledger, &file, &mut result) == 0 {
            seen.accepted += 1;
            let call = Accepted {
                before: &before,
                file: &file,
                ledger: &ledger,
                result: &result,
            };
            assert_eq!(sums.add(&call), Ok(()));
        } else {
            seen.refused += 1;
            assert_eq!((&ledger, &result), (&before, &unwritten));
        }
    }
    seen.charges += sums.charges;
    seen.credits += sums.credits;
    seen.cut_charges += sums.cut_charges;
    seen.halved_cut_charges += sums.cut_charges * u64::from(halved);
}

/// Runs years and checks that they were worth it.
fn run_years(seed: u64, size: &Size, years: usize, calls: usize) -> Seen {
    let mut rng = Rng::new(seed);
    let mut seen = Seen::default();
    for _ in 0..years {
        run(year(&mut rng, size, calls), &mut seen);
    }
    assert!(seen.charges > 0 && seen.credits > 0);
    assert!(seen.accepted > seen.refused && seen.refused > 0);
    seen
}

#[test]
fn short_years_balance() {
    run_years(1, &SMALL, 300, 12);
}

#[test]
fn long_years_balance_and_reach_limits() {
    let seen = run_years(2, &SMALL, 40, 2_500);
    assert!(seen.halved_cut_charges > 0);
    assert!(seen.cut_charges > seen.halved_cut_charges);
}

#[test]
fn years_with_many_plants_balance() {
    run_years(3, &MIDDLE, 20, 60);
    run_years(4, &FULL, 5, 12);
}

/// What the sums say of the listing with one word of its ledger or result set to another number.
fn listing_with(in_result: bool, word: usize, value: u64) -> Result<(), String> {
    let block = listing::opening().bytes();
    let mut before = vec![0; 192];
    assert_eq!(open(&block, &mut before), 0);
    let (file, mut result) = (listing::file(1_000).bytes(), vec![0; 320]);
    let mut ledger = before.clone();
    assert_eq!(settle(&mut ledger, &file, &mut result), 0);
    let changed = if in_result { &mut result } else { &mut ledger };
    put_longs(changed, 8 * word, &[value]);
    Sums::of(&block).add(&Accepted {
        before: &before,
        file: &file,
        ledger: &ledger,
        result: &result,
    })
}

#[test]
fn the_listing_closes_and_a_changed_word_does_not() {
    assert_eq!(listing_with(true, 0, 866_673), Ok(()));
    for word in [1, 2, 3, 4, 7, 8 + 6, 8 + 7, 16 + 4, 16 + 6, 24 + 5, 24 + 7] {
        assert!(listing_with(true, word, 77).is_err(), "result word {word}");
    }
    for word in [3, 4, 5, 8, 9, 10, 11, 14, 19, 23] {
        assert!(listing_with(false, word, 77).is_err(), "ledger word {word}");
    }
}
