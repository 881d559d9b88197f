//! Ground 18, ground 14 of schedules, and which schedules count: rows that name one to four schedules and share them.

use super::{settling_of, with};
use npa_tests::layout::{
    point, IntervalFile, Row, COST, IMPORTS_MOST, KW_MOST, MARKET, PLS, ROW_SCHEDULES_MOST,
};
use npa_tests::listing::{DAYS, NET_CONE};
use npa_tests::random::SettleCase;

const TOP: u32 = 1 << 31;

/// Curves of two points, the lowest first.
const CURVES: [[(i32, u32); 2]; 4] = [
    [(1_000, 20_000), (5_000, 100_000)],
    [(1_000, 30_000), (5_000, 110_000)],
    [(900, 40_000), (5_100, 110_000)],
    [(-500, 0), (2_999, 120_000)],
];

pub fn cases() -> Vec<SettleCase> {
    let mut cases = stretches();
    cases.extend(dispatched_words());
    cases.extend(schedule_kinds());
    cases.extend(point_stretches());
    cases.extend(causes());
    cases.extend(dispatches());
    cases
}

/// A plant of 110000 kW that gives 10000.
fn plant(id: u32, kind: u32) -> Row {
    Row {
        id,
        kind,
        committed: if kind < 4 { 100_000 } else { 0 },
        owned: 110_000,
        metered: 10_000,
        maximum: 110_000,
        minimum: 25_000,
        online: 1,
        lmp: 3_000,
        ..Row::default()
    }
}

/// A file of format 2 of these rows with the points of all curves and some that nobody can name. So much is imported
/// that all commitments are expected.
fn settling_by(rows: &[Row], schedules: Vec<[u32; 3]>) -> SettleCase {
    let ids: Vec<u32> = rows.iter().map(|row| row.id).collect();
    let words = rows.iter().map(Row::words).collect();
    let mut points: Vec<[u32; 2]> = CURVES
        .concat()
        .iter()
        .map(|(price, kw)| point(*price, *kw))
        .collect();
    points.push([u32::MAX, u32::MAX]);
    let mut file =
        IntervalFile::new(NET_CONE, DAYS, 1_000, words, points).with_schedules(schedules);
    (file.head[4], file.head[5]) = (1, IMPORTS_MOST as u32);
    settling_of(&ids, file)
}

/// Four rows, of which two share two schedules and the last names none; schedule 4 holds any words.
fn sharing() -> SettleCase {
    let named = [(0, 4, 0), (2, 2, 1), (5, 1, 0), (u32::MAX, 0, 0)];
    let row = |(id, (first, count, dispatched)): (u32, (u32, u32, u32))| Row {
        first,
        count,
        dispatched,
        ..plant(id, [0, 4, 3, 0][id as usize - 11])
    };
    let rows: Vec<Row> = (11..).zip(named).map(row).collect();
    let schedules = vec![
        [MARKET, 0, 2],
        [PLS, 2, 2],
        [COST, 4, 2],
        [COST, 7, 1],
        [u32::MAX, u32::MAX, u32::MAX],
        [MARKET, 4, 2],
    ];
    settling_by(&rows, schedules)
}

/// The case with words 12 to 14 of a row.
fn naming(row: usize, words: [u32; 3]) -> SettleCase {
    with(&sharing(), |case| {
        case.file.rows[row][12..].copy_from_slice(&words)
    })
}

/// First schedules and numbers of schedules around the table's end and the most of a row, and those that fit only if a
/// sum wraps.
fn stretches() -> Vec<SettleCase> {
    let mut cases = Vec::new();
    for row in 0..4 {
        for count in (0..=7).chain([255, 256, 260, TOP, TOP + 1, u32::MAX - 1, u32::MAX]) {
            let wrapping = [0, 2, 6].map(|sum: u32| sum.wrapping_sub(count));
            let far = [255, 256, TOP, u32::MAX - 1, u32::MAX];
            for first in (0..=8).chain(wrapping).chain(far) {
                cases.push(naming(row, [first, count, 0]));
            }
        }
    }
    cases
}

/// The schedule dispatched on, for every number of schedules.
fn dispatched_words() -> Vec<SettleCase> {
    let mut cases = Vec::new();
    for row in 0..4 {
        for count in 0..=4 {
            for dispatched in (0..=6).chain([255, 256, 257, 65_536, TOP, TOP + 1, u32::MAX]) {
                cases.push(naming(row, [0, count, dispatched]));
            }
        }
    }
    cases
}

/// Every kind of each schedule, the one that nobody names too.
fn schedule_kinds() -> Vec<SettleCase> {
    let mut cases = Vec::new();
    for schedule in 0..sharing().file.schedules.len() {
        for kind in (0..=5).chain([255, 256, 257, 258, 259, 65_537, TOP, TOP + 2, u32::MAX]) {
            cases.push(with(&sharing(), |case| {
                case.file.schedules[schedule][0] = kind
            }));
        }
    }
    cases
}

/// First points and numbers of points of each schedule around the table's end and the most of a curve.
fn point_stretches() -> Vec<SettleCase> {
    let base = with(&sharing(), |case| {
        case.file.points = (0..12)
            .map(|step| point(10 * step, 20 * step as u32))
            .collect();
        case.file.points.push([u32::MAX, u32::MAX]);
        case.file.place_plainly();
    });
    let mut cases = Vec::new();
    for schedule in [0, 3, 4, 5] {
        for count in (0..=13).chain([255, 256, 266, TOP, TOP + 1, u32::MAX]) {
            let wrapping = [0, 2, 12].map(|sum: u32| sum.wrapping_sub(count));
            for first in (0..=3)
                .chain(10..=14)
                .chain(wrapping)
                .chain([TOP, u32::MAX])
            {
                cases.push(with(&base, |case| {
                    case.file.schedules[schedule][1..].copy_from_slice(&[first, count])
                }));
            }
        }
    }
    cases
}

/// Each cause of 18 in a row of its own three schedules.
const CAUSES: [fn(&mut SettleCase, usize); 5] = [
    |case, row| case.file.rows[row][13] = ROW_SCHEDULES_MOST as u32 + 1,
    |case, row| case.file.rows[row][12] = case.file.schedules.len() as u32 - 2,
    |case, row| case.file.schedules[3 * row + 1][0] = 0,
    |case, row| case.file.rows[row][14] = 3,
    |case, row| case.file.rows[row][12..].copy_from_slice(&[0, 0, 1]),
];

/// A row of each kind with three schedules of its own.
fn own_schedules() -> SettleCase {
    let row = |kind| Row {
        first: 3 * kind,
        count: 3,
        dispatched: kind % 3,
        ..plant(11 + kind, kind)
    };
    let rows: Vec<Row> = (0..6).map(row).collect();
    let mut schedules = Vec::new();
    for number in 0..6 {
        schedules.extend([[MARKET, 0, 2], [PLS, 2, 2], [COST, 2 * (number % 4), 2]]);
    }
    // Behind them as many that nobody names as a row may have.
    schedules.extend([[COST, 0, 1]; ROW_SCHEDULES_MOST]);
    settling_by(&rows, schedules)
}

/// Each cause of 18 in each row, alone, after a fault of 14 in an earlier row, and before one of 13 in a later.
fn causes() -> Vec<SettleCase> {
    let mut cases = vec![own_schedules()];
    for row in 0..6 {
        for cause in CAUSES {
            let alone = with(&own_schedules(), |case| cause(case, row));
            for other in 0..6 {
                cases.push(with(&alone, |case| case.file.schedules[3 * other][2] = 0));
                cases.push(with(&alone, |case| case.file.rows[other][10] = 2));
            }
            cases.push(alone);
        }
    }
    cases
}

/// All lists of one to four kinds of schedules.
fn kinds_of_schedules() -> Vec<Vec<u32>> {
    let (mut lists, mut longest) = (Vec::new(), vec![Vec::new()]);
    for _ in 0..ROW_SCHEDULES_MOST {
        let longer =
            |list: &Vec<u32>| [MARKET, PLS, COST].map(|kind| [&list[..], &[kind]].concat());
        longest = longest.iter().flat_map(longer).collect();
        lists.extend(longest.clone());
    }
    lists
}

/// Rows with every list of kinds, dispatched on each of its schedules, at LMPs around the curves' points, online and
/// not, for each kind of row that has a curve; the curves rise along the list or fall.
fn dispatches() -> Vec<SettleCase> {
    let mut cases = Vec::new();
    for (kind, metered) in [(0, 10_000), (0, 200_000), (4, 200_000), (3, 200_000)] {
        for online in [0, 1] {
            for lmp in [
                -501, -500, 899, 900, 999, 1_000, 2_999, 3_000, 5_000, 5_001, 5_100, 5_101,
            ] {
                for rising in [false, true] {
                    let like = Row {
                        metered,
                        online,
                        lmp,
                        ..plant(0, kind)
                    };
                    cases.push(dispatched_on_each(like, rising));
                }
            }
        }
    }
    cases
}

/// A file with a row like this one for every list of kinds and each of its schedules.
fn dispatched_on_each(like: Row, rising: bool) -> SettleCase {
    let (mut rows, mut schedules) = (Vec::new(), Vec::new());
    for kinds in kinds_of_schedules() {
        let first = schedules.len() as u32;
        for (place, kind) in kinds.iter().enumerate() {
            let curve = if rising {
                place
            } else {
                CURVES.len() - 1 - place
            };
            schedules.push([*kind, 2 * curve as u32, 2]);
        }
        for dispatched in 0..kinds.len() as u32 {
            rows.push(Row {
                id: rows.len() as u32 + 1,
                committed: like.committed.min(KW_MOST),
                first,
                count: kinds.len() as u32,
                dispatched,
                ..like
            });
        }
    }
    settling_by(&rows, schedules)
}

#[cfg(test)]
mod tests {
    use super::super::answer;
    use super::*;
    use npa_tests::layout::{long_at, ROWS_MOST, SCHEDULES_MOST};
    use npa_tests::random::Rng;
    use npa_tests::reference;
    use std::collections::BTreeSet;

    #[test]
    fn both_sides_are_there() {
        assert_eq!(answer(&sharing()), 0);
        for (cases, ground) in [
            (stretches(), 18),
            (dispatched_words(), 18),
            (schedule_kinds(), 18),
            (point_stretches(), 14),
        ] {
            let answers: BTreeSet<u32> = cases.iter().map(answer).collect();
            assert!(
                answers.iter().eq(BTreeSet::from([0, ground]).iter()),
                "{ground}: {answers:?}"
            );
        }
    }

    #[test]
    fn each_cause_comes_after_13_and_before_14() {
        let cases = causes();
        let mut answers = cases.iter().map(answer);
        assert_eq!(answers.next(), Some(0));
        for _ in 0..6 * CAUSES.len() {
            for _ in 0..6 {
                assert_eq!([answers.next(), answers.next()], [Some(18), Some(13)]);
            }
            assert_eq!(answers.next(), Some(18));
        }
        assert_eq!(answers.next(), None);
    }

    #[test]
    fn every_dispatch_is_accepted_and_excuses_differ() {
        let mut economic = BTreeSet::new();
        for case in dispatches() {
            assert!(
                case.file.rows.len() <= ROWS_MOST && case.file.schedules.len() <= SCHEDULES_MOST
            );
            let mut call = case.call(&mut Rng::new(1));
            assert_eq!(
                reference::settle(&mut call.ledger, &call.file, &mut call.result),
                0
            );
            let rows = 0..case.file.rows.len();
            economic.extend(rows.map(|row| long_at(&call.result, 8 + 8 * row + 3).unwrap()));
        }
        assert!(economic.len() > 10, "{economic:?}");
    }
}
