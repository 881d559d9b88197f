//! Charges on both sides of half a cent, and limits that leave a cent less, just as much or a cent more.

use super::settling_of;
use npa_tests::layout::{IntervalFile, Row, Terms, KW_MOST};
use npa_tests::random::SettleCase;

pub fn cases() -> Vec<SettleCase> {
    let mut cases = Vec::new();
    for net_cone in [1, 2, 36, 100, 30_000, 36_000, 199_999, 200_000] {
        for (days, year) in [(365, 0), (366, 0), (365, 2016), (365, 2018), (366, 2023)] {
            let terms = Terms {
                net_cone,
                days,
                year,
            };
            for shortfall in shortfalls(&terms) {
                cases.extend(left(&terms, shortfall));
            }
        }
    }
    cases
}

/// Shortfalls next to the first whole and half cents, and next to the largest; some are exactly half a cent above
/// whole ones.
fn shortfalls(terms: &Terms) -> Vec<u32> {
    let cents = terms.net_cone * terms.days;
    let half = terms.charge_divisor() / 2;
    let edges = (1..=6).map(|halves| (halves * half).div_ceil(cents) as u32);
    let exact = [1_000, 3_000, 36_000, KW_MOST - 1].into_iter();
    edges
        .chain(exact)
        .flat_map(|kw| kw.saturating_sub(1)..=kw + 1)
        .collect()
}

/// A demand resource that gives nothing, with all of its limit left, or so much that the full charge is cut or not.
fn left(terms: &Terms, shortfall: u32) -> Vec<SettleCase> {
    let row = Row {
        id: 11,
        kind: 1,
        committed: shortfall,
        ..Row::default()
    };
    let [net_cone, days] = [terms.net_cone, terms.days].map(|term| term as u32);
    let file = IntervalFile::new(net_cone, days, 1_000, vec![row.words()], Vec::new());
    let mut case = settling_of(&[11], file);
    case.ledger.words[7] = terms.year;
    let most = terms.limit(KW_MOST.into());
    let full = terms.full_charge(shortfall.into());
    let near = [full.saturating_sub(1), full, full + 1];
    let cut = near.into_iter().filter(|left| *left <= most).map(|left| {
        let mut cut = case.clone();
        cut.ledger.accounts[0] = [11, KW_MOST.into(), most - left, 0];
        cut.ledger.words[4] = most - left;
        cut
    });
    cut.chain([case.clone()]).collect()
}

#[cfg(test)]
mod tests {
    use super::*;
    use npa_tests::layout::long_at;
    use npa_tests::random::Rng;
    use npa_tests::reference;

    #[test]
    fn halves_and_cuts_are_there() {
        // Those of 2016 apart.
        let (mut halves, mut cuts) = ([0; 2], [0; 2]);
        for case in cases() {
            let mut call = case.call(&mut Rng::new(1));
            let answer = reference::settle(&mut call.ledger, &call.file, &mut call.result);
            assert_eq!(answer, 0);
            let [short, charge] = [12, 14].map(|word| long_at(&call.result, word).unwrap());
            let terms = case.ledger.terms();
            let full = terms.full_charge(short);
            assert!(charge == full || charge + 1 == full);
            let (own, divisor) = (usize::from(terms.year == 2016), terms.charge_divisor());
            cuts[own] += u32::from(charge < full);
            let rest = short * terms.net_cone * terms.days % divisor;
            halves[own] += u32::from(rest == divisor / 2);
        }
        assert!(halves.iter().all(|halves| *halves > 10), "{halves:?}");
        assert!(cuts.iter().all(|cuts| *cuts > 100), "{cuts:?}");
    }
}
