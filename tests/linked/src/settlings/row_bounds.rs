//! Grounds 12, 13 and 14: rows and points on both sides of every bound, all in files of format 1.

use super::{listing, with};
use npa_tests::layout::{point, KW_MOST, PRICE_MOST};
use npa_tests::random::SettleCase;

const TOP: u32 = 1 << 31;

pub fn cases() -> Vec<SettleCase> {
    let mut cases = ids();
    cases.extend(rosters());
    cases.extend(kilowatts());
    cases.extend(signed_words());
    cases.extend(ranges());
    cases.extend(kinds());
    cases.extend(importers());
    cases.extend(switches());
    cases.extend(point_counts());
    cases.extend(first_points());
    cases.extend(curve_words());
    cases.extend(unused_points());
    cases
}

/// The listing with a word of a row set.
fn with_word(row: usize, word: usize, value: u32) -> SettleCase {
    with(&listing(), |case| case.file.rows[row][word] = value)
}

/// Row ids that are 0, equal, fall, rise by one or have no account.
fn ids() -> Vec<SettleCase> {
    let near = [0, 1, 10, 11, 12, 13, 14, 15, 255, 256, 267, 268];
    let far = [TOP, TOP + 11, u32::MAX];
    let mut cases = Vec::new();
    for row in 0..4 {
        for id in near.into_iter().chain(far) {
            cases.push(with_word(row, 0, id));
        }
    }
    cases
}

/// Accounts that no row has, before, between and behind those of the rows; rows in any order.
fn rosters() -> Vec<SettleCase> {
    let mut cases = Vec::new();
    for chosen in 1..1u32 << 4 {
        // Some of the rows, and the accounts of all.
        let mut case = listing();
        let rows = case.file.rows.clone();
        case.file.rows = (0..4)
            .filter(|row| chosen >> row & 1 == 1)
            .map(|row| rows[row])
            .collect();
        case.file.place_plainly();
        cases.push(case);
        // The accounts of some rows, and the rows of all.
        let mut case = listing();
        let accounts = case.ledger.accounts.clone();
        case.ledger.accounts = (0..4)
            .filter(|row| chosen >> row & 1 == 1)
            .map(|row| accounts[row])
            .collect();
        case.ledger.words[5] = case.ledger.accounts.len() as u64;
        cases.push(case);
    }
    for (first, second) in [(0, 1), (1, 2), (2, 3), (0, 3), (1, 3)] {
        cases.push(with(&listing(), |case| case.file.rows.swap(first, second)));
    }
    cases
}

/// Words 2, 3, 6, 7, 8 and 9 at their bound, with the other limit of the range out of the way.
fn kilowatts() -> Vec<SettleCase> {
    let values = [
        0,
        1,
        KW_MOST - 1,
        KW_MOST,
        KW_MOST + 1,
        TOP,
        TOP + 5,
        u32::MAX,
    ];
    let mut cases = Vec::new();
    for row in 0..4 {
        for word in [2, 3, 6, 7, 8, 9] {
            for value in values {
                let case = with_word(row, word, value);
                cases.push(with(&case, |case| match word {
                    8 => case.file.rows[row][9] = 0,
                    9 => case.file.rows[row][8] = KW_MOST,
                    _ => (),
                }));
                cases.push(case);
            }
        }
    }
    cases
}

/// Metered, adjustment and LMP at their bounds.
fn signed_words() -> Vec<SettleCase> {
    let kw = KW_MOST as i32;
    let mut cases = Vec::new();
    for row in 0..4 {
        for (word, most) in [(4, kw), (5, kw), (11, PRICE_MOST)] {
            let near = (-1..=1)
                .chain(most - 1..=most + 1)
                .chain(-most - 1..=1 - most);
            for value in near.chain([i32::MIN, i32::MIN + 1, i32::MAX]) {
                cases.push(with_word(row, word, value as u32));
            }
        }
        for (metered, adjustment) in [(1, 1), (1, -1), (-1, 1), (-1, -1)] {
            cases.push(with(&listing(), |case| {
                case.file.rows[row][4] = (kw * metered) as u32;
                case.file.rows[row][5] = (kw * adjustment) as u32;
            }));
        }
    }
    cases
}

/// A minimum just below, at and just above the maximum.
fn ranges() -> Vec<SettleCase> {
    let mut cases = Vec::new();
    for row in 0..4 {
        for maximum in [1, 255, 256, 25_000, KW_MOST - 1, KW_MOST] {
            for minimum in maximum - 1..=maximum + 1 {
                cases.push(with(&listing(), |case| {
                    case.file.rows[row][8] = maximum;
                    case.file.rows[row][9] = minimum;
                }));
            }
        }
    }
    cases
}

/// Every kind, with no commitment, one kW and more, in an event that is region-wide or not.
fn kinds() -> Vec<SettleCase> {
    let far = [255, 256, 257, 260, 261, TOP, TOP + 1, TOP + 5, u32::MAX];
    let mut cases = Vec::new();
    for row in 0..4 {
        for kind in (0..=7).chain(far) {
            for (committed, region_wide) in [0, 1, 50_000].map(|kw| [(kw, 0), (kw, 1)]).concat() {
                cases.push(with(&listing(), |case| {
                    case.file.head[4] = region_wide;
                    case.file.rows[row][1] = kind;
                    case.file.rows[row][2] = committed;
                }));
            }
        }
    }
    cases
}

/// The listing's last row as an importer's: each of its words at its bounds, and metered and adjustment of either sign,
/// in an event that is region-wide or not.
fn importers() -> Vec<SettleCase> {
    let kw = KW_MOST as i32;
    let importer = |region_wide| {
        with(&listing(), |case| {
            case.file.head[4] = region_wide;
            (case.file.rows[3][1], case.file.rows[3][2]) = (5, 0);
        })
    };
    let mut cases = Vec::new();
    for case in [importer(0), importer(1)] {
        for metered in [-kw, -1, 0, 1, kw] {
            for adjustment in [-kw, -1, 0, 1, kw] {
                cases.push(with(&case, |case| {
                    case.file.rows[3][4] = metered as u32;
                    case.file.rows[3][5] = adjustment as u32;
                }));
            }
        }
        for (word, values) in [
            (3, [KW_MOST, KW_MOST + 1]),
            (6, [KW_MOST, KW_MOST + 1]),
            (7, [KW_MOST, KW_MOST + 1]),
            (8, [KW_MOST, KW_MOST + 1]),
            (9, [0, 1]),
            (10, [1, 2]),
            (11, [PRICE_MOST as u32, PRICE_MOST as u32 + 1]),
        ] {
            cases.extend(values.map(|value| with(&case, |case| case.file.rows[3][word] = value)));
        }
    }
    cases
}

/// Online, off or anything else.
fn switches() -> Vec<SettleCase> {
    let mut cases = Vec::new();
    for row in 0..4 {
        for online in [0, 1, 2, 3, 255, 256, 257, TOP, TOP + 1, u32::MAX] {
            cases.push(with_word(row, 10, online));
        }
    }
    cases
}

/// The listing with so many points, priced 10 apart, for all its rows; the last row takes them all.
fn with_curve(count: usize) -> SettleCase {
    let mut case = listing();
    let rising = |index: usize| point(10 * index as i32 - 30, 20 * index as u32);
    case.file.points = (0..count).map(rising).collect();
    for row in &mut case.file.rows {
        (row[12], row[13]) = (0, count.min(2) as u32);
    }
    case.file.rows[3][13] = count as u32;
    case.file.place_plainly();
    case
}

/// Numbers of points at their bound, with points behind them and without.
fn point_counts() -> Vec<SettleCase> {
    let mut cases = Vec::new();
    for points in [0, 1, 9, 10, 11, 12] {
        for row in 0..4 {
            let far = [255, 256, 257, 1 << 29, TOP, u32::MAX];
            for count in (0..=13).chain(far) {
                cases.push(with(&with_curve(points), |case| {
                    case.file.rows[row][13] = count;
                }));
            }
        }
    }
    cases
}

/// First points around the table's end, and those that fit only if a sum wraps.
fn first_points() -> Vec<SettleCase> {
    let mut cases = Vec::new();
    for count in 0..=11u32 {
        let near = (0..=2).chain(11 - count..=14);
        let wrapping = (0..=12).map(|sum: u32| sum.wrapping_sub(count));
        let far = [1 << 29, TOP, TOP + 1, u32::MAX - 1, u32::MAX];
        for first in near.chain(wrapping).chain(far) {
            for row in [0, 3] {
                cases.push(with(&with_curve(12), |case| {
                    case.file.rows[3][13] = 2;
                    (case.file.rows[row][12], case.file.rows[row][13]) = (first, count);
                }));
            }
        }
    }
    cases
}

/// Prices and kW at their bounds, and level with, below and above their neighbours.
fn curve_words() -> Vec<SettleCase> {
    let mut cases = Vec::new();
    for count in [1, 2, 3, 10] {
        for index in 0..count {
            let case = with_curve(count);
            let [price, kw] = case.file.points[index];
            let most = PRICE_MOST;
            let bounds = (-most - 1..=1 - most).chain(most - 1..=most + 1);
            let prices = bounds.chain([i32::MIN, i32::MAX]).map(|price| price as u32);
            let steps =
                [9, 10, 11].map(|step| [price.wrapping_sub(step), price.wrapping_add(step)]);
            for price in prices.chain(steps.concat()) {
                cases.push(with(&case, |case| case.file.points[index][0] = price));
            }
            let steps = (19..=21).flat_map(|step: u32| [kw.saturating_sub(step), kw + step]);
            let bounds = [0, KW_MOST - 1, KW_MOST, KW_MOST + 1, TOP, u32::MAX];
            for kw in steps.chain(bounds) {
                cases.push(with(&case, |case| case.file.points[index][1] = kw));
            }
        }
    }
    cases
}

/// Points that no row takes may hold anything.
fn unused_points() -> Vec<SettleCase> {
    let mut cases = Vec::new();
    for (first, count) in [(0, 1), (1, 2), (2, 1), (1, 3), (0, 2)] {
        cases.push(with(&with_curve(4), |case| {
            for row in &mut case.file.rows {
                (row[12], row[13]) = (first, count);
            }
            case.file.points[0] = [u32::MAX, u32::MAX];
            case.file.points[3] = [TOP, TOP];
        }));
    }
    cases
}

#[cfg(test)]
mod tests {
    use super::super::{answer, in_format_2};
    use super::*;

    #[test]
    fn both_sides_are_there() {
        for (cases, ground) in [
            (ids(), 12),
            (rosters(), 12),
            (kilowatts(), 13),
            (signed_words(), 13),
            (ranges(), 13),
            (kinds(), 13),
            (importers(), 13),
            (switches(), 13),
            (point_counts(), 14),
            (first_points(), 14),
            (curve_words(), 14),
            (unused_points(), 14),
        ] {
            let answers: Vec<u32> = cases.iter().map(answer).collect();
            assert!(answers.contains(&ground), "{ground}");
            assert!(answers.contains(&0) || ground == 12, "{ground}");
            assert!(answers.iter().all(|a| *a == 0 || *a == ground), "{ground}");
            let again: Vec<u32> = cases
                .iter()
                .map(|case| answer(&in_format_2(case)))
                .collect();
            assert_eq!(answers, again, "in format 2");
        }
    }

    #[test]
    fn some_rows_are_enough_and_some_accounts_are_not() {
        let answers: Vec<u32> = rosters().iter().map(answer).collect();
        for chosen in 0..15 {
            assert_eq!(answers[2 * chosen], 0);
            assert_eq!(answers[2 * chosen + 1], if chosen == 14 { 0 } else { 12 });
        }
    }
}
