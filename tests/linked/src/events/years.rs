//! Years in which events and single calls mix: opened and settled by the module, each call held to the
//! reference, and the sums of the year to the results, each file whose turn came as a call of its own.

use crate::compare::{Call, Comparison, Place};
use crate::years::{open, settle, some_length, Years};
use crate::{openings, settlings};
use npa_tests::layout::long_at;
use npa_tests::random::{Rng, RunningYear};
use npa_tests::sums::{SettledEvent, Sums};

/// The most files of an event.
const FILES_MOST: usize = 12;

/// Compares years of `count` events and single calls in all.
pub fn compare(events: &mut Comparison<3>, seed: u64, count: u64) -> Result<Years, String> {
    let mut opening = Comparison::new(openings::PAIR);
    let mut settling = Comparison::new(settlings::PAIR);
    let mut seen = Years::default();
    let mut left = count;
    while left > 0 {
        let place = |number| Place {
            seed,
            year: Some(seen.years),
            number,
        };
        let mut rng = Rng::of(!seed, seen.years);
        let (size, calls) = some_length(&mut rng);
        let mut year = RunningYear::open(&mut rng, &size);
        let mut sums = open(&mut opening, &year, place(0))?;
        for number in 1..=calls.min(left) {
            // The ledger is the one that the module left, which comparing has shown.
            seen.accepted += if rng.one_in(2) {
                let call = year.next_event(&mut rng, &size, FILES_MOST).into();
                settle_event(events, &call, place(number), &mut sums)?
            } else {
                let call = year.next_call(&mut rng, &size).into();
                u64::from(settle(&mut settling, &call, place(number), &mut sums)?)
            };
            left -= 1;
            if year.is_over() && rng.one_in(8) {
                break;
            }
        }
        seen.cut_charges += sums.cut_charges;
        seen.years += 1;
    }
    Ok(seen)
}

/// Settles an event by the module and adds what it gives; the number of files settled.
fn settle_event(
    events: &mut Comparison<3>,
    call: &Call<3>,
    place: Place,
    sums: &mut Sums,
) -> Result<u64, String> {
    let answer = events.compare(call, place)?;
    let [ledger, result, count] = events.left();
    let count = match answer {
        20 => 0, // nothing is told
        _ => long_at(count, 0).expect("a count has 8 bytes"),
    };
    let settled = SettledEvent {
        before: &call.written[0],
        files: &call.read,
        ledger,
        result,
        count,
    };
    let added = sums.add_event(&settled);
    added.map_err(|what| format!("{place}: {what}"))?;
    Ok(count)
}

#[cfg(test)]
mod tests {
    use super::super::PAIR;
    use super::*;
    use crate::compare::{Function, Pair};
    use npa_tests::layout::put_longs;
    use npa_tests::reference;

    /// What comparing says of years whose events are settled by this function alone.
    fn compared(event: Function<3>) -> Result<Years, String> {
        let pair = Pair {
            module: event,
            reference: event,
            ..PAIR
        };
        compare(&mut Comparison::new(pair), 1, 3_000)
    }

    #[test]
    fn years_of_the_reference_hold() {
        let seen = compared(PAIR.reference).unwrap();
        assert!(seen.years > 1 && seen.accepted > 3_000);
    }

    #[test]
    fn a_cent_too_many_in_a_result_is_found_without_the_reference() {
        let report = compared(|files, [ledger, result, count]| {
            let answer = reference::event(ledger, files, result, count);
            if long_at(count, 0).is_some_and(|settled| settled > 1) && answer != 20 {
                let charge = long_at(result, 14).unwrap();
                put_longs(result, 8 * 14, &[charge + 1]);
            }
            answer
        });
        let report = report.err().unwrap();
        assert!(report.contains("year ") && report.contains("sums of the year: "));
    }
}
