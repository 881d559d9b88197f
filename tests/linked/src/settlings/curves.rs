//! Schedules: curves of 0 to 10 points, and for each an LMP at, before and behind every point.

use super::settling_of;
use npa_tests::layout::{point, IntervalFile, Row, CURVE_POINTS_MOST, KW_MOST, PRICE_MOST};
use npa_tests::listing::{DAYS, NET_CONE};
use npa_tests::random::SettleCase;

/// Price and kW of the point with this number.
type Shape = fn(usize) -> (i32, u32);

const SHAPES: [Shape; 13] = [
    // Rising, by figures that leave a rest.
    |index| (7 * index as i32 - 20, 13 * index as u32 + 5),
    |index| (1_000 * index as i32, 33_333 * index as u32),
    |index| (index as i32 - 5, 3 * index as u32),
    // Prices equal, two by two, three by three, or all.
    |index| (100 * (index as i32 / 2), 90 * index as u32),
    |index| (-50 * (4 - index as i32 / 3), 1 + 90 * index as u32),
    |index| (-7, 11 * index as u32),
    // kW equal, two by two, three by three, or all; 0 at first.
    |index| (11 * index as i32, 70 * (index as u32 / 2)),
    |index| (3 * index as i32 - 9, 1_000 * (index as u32 / 3)),
    |index| (9 * index as i32, 0),
    // All points alike.
    |_| (-300, 500),
    // Prices and kW at their bounds.
    |index| {
        if index < 5 {
            (-PRICE_MOST, 0)
        } else {
            (PRICE_MOST, KW_MOST)
        }
    },
    |index| (200_000 * index as i32 - PRICE_MOST, 400_000 * index as u32),
    |index| (PRICE_MOST - 9 + index as i32, KW_MOST - 9 + index as u32),
];

pub fn cases() -> Vec<SettleCase> {
    let mut cases = Vec::new();
    for shape in SHAPES {
        for count in 0..=CURVE_POINTS_MOST {
            let points: Vec<(i32, u32)> = (0..count).map(shape).collect();
            for range in ranges(&points) {
                cases.push(all_rows(&points, range));
            }
        }
    }
    cases.push(without_points());
    cases
}

/// Generators without points: outages around the owned kW, and actuals around what these leave, with an emergency
/// maximum that is above all of it or below.
fn without_points() -> SettleCase {
    let owned = 100;
    let outages = [(0, 0), (100, 0), (0, 101), (60, 39), (60, 40), (60, 41)];
    let mut rows = Vec::new();
    for (planned, forced) in outages.into_iter().chain([(KW_MOST, KW_MOST)]) {
        let cut = owned as i32 - (planned + forced).min(owned) as i32;
        for metered in [cut - 1, cut, cut + 1, KW_MOST as i32] {
            for (kind, committed) in [(0, 0), (0, 5), (0, 300), (4, 0)] {
                for maximum in [0, KW_MOST] {
                    rows.push(Row {
                        id: 7 * (rows.len() as u32 + 1),
                        kind,
                        committed,
                        owned,
                        metered,
                        planned,
                        forced,
                        maximum,
                        minimum: maximum.min(200),
                        online: 1,
                        ..Row::default()
                    });
                }
            }
        }
    }
    settling_by(&rows, Vec::new())
}

/// A settling of these rows.
fn settling_by(rows: &[Row], points: Vec<[u32; 2]>) -> SettleCase {
    let ids: Vec<u32> = rows.iter().map(|row| row.id).collect();
    let words = rows.iter().map(Row::words).collect();
    settling_of(
        &ids,
        IntervalFile::new(NET_CONE, DAYS, 1_000, words, points),
    )
}

/// Ranges that cut nothing, everything, and the ends of the curve.
fn ranges(points: &[(i32, u32)]) -> Vec<(u32, u32)> {
    let kw = |index: usize| points.get(index).map_or(100, |point| point.1);
    let middle = kw(points.len() / 2);
    vec![
        (0, KW_MOST),
        (0, 0),
        (middle, middle),
        (middle.min(kw(1)), kw(points.len().max(1) - 1).max(middle)),
    ]
}

/// LMPs at every point, one off, and at the bounds.
fn lmps(points: &[(i32, u32)]) -> Vec<i32> {
    let near = points.iter().flat_map(|point| point.0 - 1..=point.0 + 1);
    let mut lmps: Vec<i32> = near.chain([-PRICE_MOST, 0, PRICE_MOST]).collect();
    lmps.retain(|lmp| (-PRICE_MOST..=PRICE_MOST).contains(lmp));
    lmps.sort_unstable();
    lmps.dedup();
    lmps
}

/// One file with a row for every kind and LMP, online and not; all rows share the points.
fn all_rows(points: &[(i32, u32)], range: (u32, u32)) -> SettleCase {
    let mut rows = Vec::new();
    for lmp in lmps(points) {
        for kind in 0..=5 {
            for online in 0..=1 {
                let number = rows.len() as u32;
                rows.push(Row {
                    id: 7 * (number + 1),
                    kind,
                    committed: if kind >= 4 { 0 } else { 40 * (number % 7) },
                    owned: [KW_MOST, 150, 0][number as usize % 3],
                    metered: [KW_MOST as i32, 60, 0, 130][number as usize % 4],
                    planned: 10 * (number % 5 / 4),
                    forced: 10 * (number % 3 / 2),
                    maximum: range.1,
                    minimum: range.0,
                    online,
                    lmp,
                    count: points.len() as u32,
                    ..Row::default()
                });
            }
        }
    }
    let points = points.iter().map(|(price, kw)| point(*price, *kw));
    settling_by(&rows, points.collect())
}

#[cfg(test)]
mod tests {
    use super::super::answer;
    use super::*;
    use npa_tests::layout::ROWS_MOST;

    #[test]
    fn all_curves_are_accepted() {
        for case in cases() {
            assert!(case.file.rows.len() <= ROWS_MOST);
            assert_eq!(answer(&case), 0);
        }
    }

    #[test]
    fn lmps_are_on_both_sides_of_every_point() {
        assert_eq!(
            lmps(&[(0, 5), (10, 5), (10, 6)]),
            [-PRICE_MOST, -1, 0, 1, 9, 10, 11, PRICE_MOST]
        );
    }
}
