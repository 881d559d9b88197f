//! Years of calls: opened and settled by the module, each call held to the
//! reference, and the sums of the year to the results that the module leaves.

use crate::compare::{Call, Comparison, Place};
use crate::openings;
use npa_tests::random::{Rng, RunningYear, Size, FULL, MIDDLE, SMALL};
use npa_tests::sums::{Accepted, Sums};

/// What the years of a run showed.
#[derive(Default)]
pub struct Years {
    pub years: u64,
    pub accepted: u64,
    /// Charges that a limit has cut.
    pub cut_charges: u64,
}

/// Compares years of `count` calls in all.
pub fn compare(settling: &mut Comparison<2>, seed: u64, count: u64) -> Result<Years, String> {
    let mut opening = Comparison::new(openings::PAIR);
    let mut seen = Years::default();
    let mut left = count;
    while left > 0 {
        let place = |number| Place {
            seed,
            year: Some(seen.years),
            number,
        };
        let mut rng = Rng::of(!seed, seen.years);
        let (size, calls) = some_length(&mut rng);
        let mut year = RunningYear::open(&mut rng, &size);
        let mut sums = open(&mut opening, &year, place(0))?;
        for number in 1..=calls.min(left) {
            // The ledger is the one that the module left, which `settle` has compared.
            let call = year.next_call(&mut rng, &size).into();
            seen.accepted += u64::from(settle(settling, &call, place(number), &mut sums)?);
            left -= 1;
            if year.is_over() && rng.one_in(8) {
                break;
            }
        }
        seen.cut_charges += sums.cut_charges;
        seen.years += 1;
    }
    Ok(seen)
}

/// How large a year may be, and its number of calls.
pub(crate) fn some_length(rng: &mut Rng) -> (Size, u64) {
    match rng.below(12) {
        0 => (FULL, 1 + rng.below(12)),
        1..=3 => (MIDDLE, 1 + rng.below(120)),
        4..=10 => (SMALL, 1 + rng.below(60)),
        _ => (SMALL, 2_500),
    }
}

/// Opens a year by the module; its sums so far.
pub(crate) fn open(
    opening: &mut Comparison<1>,
    year: &RunningYear,
    place: Place,
) -> Result<Sums, String> {
    let call = Call {
        read: year.block.clone(),
        written: [year.unopened.clone()],
    };
    opening.compare(&call, place)?;
    let sums = Sums::of(&year.block);
    let checked = sums.check(opening.left()[0]);
    checked.map_err(|what| format!("{place}: {what}"))?;
    Ok(sums)
}

/// Settles a file by the module and adds what it gives; whether it is accepted.
pub(crate) fn settle(
    settling: &mut Comparison<2>,
    call: &Call<2>,
    place: Place,
    sums: &mut Sums,
) -> Result<bool, String> {
    if settling.compare(call, place)? != 0 {
        return Ok(false);
    }
    let [ledger, result] = settling.left();
    let accepted = Accepted {
        before: &call.written[0],
        file: &call.read,
        ledger,
        result,
    };
    let added = sums.add(&accepted);
    added.map_err(|what| format!("{place}: {what}"))?;
    Ok(true)
}

#[cfg(test)]
mod tests {
    use super::*;
    use crate::compare::{Function, Pair};
    use npa_tests::layout::{long_at, put_longs};
    use npa_tests::reference;

    /// What comparing says of years that are settled by this function alone.
    fn compared(settle: Function<2>) -> Result<Years, String> {
        let pair = Pair {
            name: "settling",
            read: "file",
            written: ["ledger", "result"],
            module: settle,
            reference: settle,
            answers: &[],
        };
        compare(&mut Comparison::new(pair), 1, 3_000)
    }

    #[test]
    fn years_of_the_reference_hold() {
        let seen = compared(|file, [ledger, result]| reference::settle(ledger, file, result));
        let seen = seen.unwrap();
        assert!(seen.years > 1 && seen.accepted > 1_500);
    }

    #[test]
    fn a_cent_too_many_is_found_without_the_reference() {
        let report = compared(|file, [ledger, result]| {
            let answer = reference::settle(ledger, file, result);
            let carried = long_at(ledger, 4).unwrap();
            put_longs(ledger, 32, &[carried + u64::from(answer == 0)]);
            answer
        });
        let report = report.err().unwrap();
        assert!(report.contains("year 0, call ") && report.contains("sums of the year: "));
    }
}
