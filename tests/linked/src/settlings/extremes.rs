//! Sums and products as large as they get.

use super::ledger_bounds::{at_terms, set_carried, LARGEST};
use super::with;
use npa_tests::layout::{point, result_bytes, Ledger, Row, IMPORTS_MOST, KW_MOST, POOL_MOST};
use npa_tests::random::{rising, SettleCase};

pub fn cases() -> Vec<SettleCase> {
    let mut cases = Vec::new();
    for rows in [1, 2, 3, 511, 512] {
        for kind in 0..=5 {
            for committed in [0, 1, KW_MOST] {
                if kind < 4 || committed == 0 {
                    cases.extend(given(rows, largest(kind, committed)));
                    cases.extend(given(rows, all_short(kind, committed)));
                }
            }
        }
    }
    cases
}

/// A row that gives all it can.
fn largest(kind: u32, committed: u32) -> Row {
    Row {
        kind,
        committed,
        owned: KW_MOST,
        metered: KW_MOST as i32,
        adjustment: KW_MOST as i32,
        maximum: KW_MOST,
        online: 1,
        count: 1,
        ..Row::default()
    }
}

/// A row that gives nothing.
fn all_short(kind: u32, committed: u32) -> Row {
    Row {
        metered: -(KW_MOST as i32),
        adjustment: -(KW_MOST as i32),
        owned: 0,
        ..largest(kind, committed)
    }
}

/// So many rows like this one, the first of them giving all it can, with imports of either
/// sign, and nothing or all that is possible carried.
fn given(rows: usize, row: Row) -> Vec<SettleCase> {
    let ids = rising(rows.max(4));
    let mut case = at_terms(LARGEST.0, LARGEST.1);
    case.ledger = Ledger::new(LARGEST.0, LARGEST.1, &ids);
    case.file.points = vec![point(0, KW_MOST)];
    case.file.rows = ids[..rows]
        .iter()
        .map(|id| Row { id: *id, ..row }.words())
        .collect();
    case.file.rows[0] = Row {
        id: ids[0],
        ..largest(row.kind, row.committed)
    }
    .words();
    case.file.head[4] = 1;
    case.result_length = result_bytes(rows);
    case.file.place_plainly();
    let mut cases = Vec::new();
    for imports in [IMPORTS_MOST, -IMPORTS_MOST] {
        for carried in [0, POOL_MOST] {
            cases.push(with(&case, |case| {
                case.file.head[5] = imports as u32;
                for account in &mut case.ledger.accounts[..3] {
                    (account[1], account[2]) = (KW_MOST.into(), 400_000_000_000);
                }
                set_carried(&mut case.ledger, carried);
            }));
        }
    }
    cases
}

#[cfg(test)]
mod tests {
    use super::super::answer;
    use super::*;
    use npa_tests::layout::long_at;
    use npa_tests::random::Rng;
    use npa_tests::reference;

    #[test]
    fn they_are_accepted_or_make_the_pool_too_large() {
        let answers: Vec<u32> = cases().iter().map(answer).collect();
        assert!(answers.iter().all(|answer| [0, 16].contains(answer)));
        assert!(answers.iter().filter(|answer| **answer == 0).count() > answers.len() / 2);
    }

    #[test]
    fn the_largest_sums_are_there() {
        let most = |word: usize| {
            let word_of = |case: &SettleCase| {
                let mut call = case.call(&mut Rng::new(1));
                reference::settle(&mut call.ledger, &call.file, &mut call.result);
                long_at(&call.result, word).unwrap()
            };
            let accepted = |case: &SettleCase| answer(case) == 0;
            cases()
                .iter()
                .filter(|case| accepted(case))
                .map(word_of)
                .max()
        };
        assert_eq!(most(5), Some(512 * 8_000_000 + 40_000_000));
        assert_eq!(most(6), Some(512 * 4_000_000));
        assert_eq!(most(4), Some(512 * 8_000_000));
        assert_eq!(most(2), Some(POOL_MOST));
    }
}
