//! Files of an event as a desk gets them: plants of every kind with rising offers around one
//! price, most of them near what they owe, some short, some out.

use super::Rng;
use crate::layout::{point, IntervalFile, Row, COST, MARKET, PLS, ROW_SCHEDULES_MOST};
use crate::listing::{DAYS, NET_CONE};

/// The kinds of the schedules that two rows share.
const SHARED_KINDS: [u32; ROW_SCHEDULES_MOST] = [MARKET, PLS, COST, COST];

/// A file to accept with a row for each id, each with a curve of its own of so many points.
pub fn event_file(rng: &mut Rng, interval: u32, ids: &[u32], row_points: usize) -> IntervalFile {
    let level = rng.between(1_000, 12_000);
    let (mut rows, mut points) = (Vec::new(), Vec::new());
    for id in ids {
        let mut row = plant(rng, *id);
        row.lmp = (level + rng.between(-250, 250)) as i32;
        (row.first, row.count) = (points.len() as u32, row_points as u32);
        points.extend(offer(rng, &row));
        rows.push(row.words());
    }
    let mut file = IntervalFile::new(NET_CONE, DAYS, interval, rows, points);
    file.head[4] = rng.below(2) as u32;
    let imports = 5_000 * ids.len() as i64;
    file.head[5] = rng.between(-imports, imports) as u32;
    file
}

/// The file of format 1, in which each row has a curve, in format 2 with four schedules a row. Two rows share their
/// schedules and two schedules their points, so that the most rows name the most schedules.
pub fn four_schedules(rng: &mut Rng, mut file: IntervalFile) -> IntervalFile {
    let curves: Vec<[u32; 2]> = file.rows.iter().map(|row| [row[12], row[13]]).collect();
    let mut schedules = Vec::new();
    for (pair, rows) in file.rows.chunks_mut(2).enumerate() {
        let first = schedules.len() as u32;
        for (number, kind) in SHARED_KINDS.into_iter().enumerate() {
            let [point, points] = curves[2 * pair + number / 2 % rows.len()];
            schedules.push([kind, point, points]);
        }
        for row in rows {
            let dispatched = rng.index(ROW_SCHEDULES_MOST) as u32;
            row[12..].copy_from_slice(&[first, ROW_SCHEDULES_MOST as u32, dispatched]);
        }
    }
    file.with_schedules(schedules)
}

/// A plant and what it did, without price and points.
fn plant(rng: &mut Rng, id: u32) -> Row {
    let kind = rng.pick(&[0, 0, 0, 0, 0, 0, 1, 2, 3, 4, 5]);
    let owned = match kind {
        0 => rng.between(5_000, 900_000),
        4 => rng.between(1_000, 100_000),
        _ => rng.between(500, 60_000),
    } as u32;
    let committed = match kind {
        4 | 5 => 0,
        _ => percent(rng, owned, 85, 100),
    };
    let given = match kind {
        0 => percent(rng, committed, 80, 110),
        4 | 5 => percent(rng, owned, 20, 100),
        _ => percent(rng, committed, 60, 140),
    };
    let mut row = Row {
        id,
        kind,
        committed,
        owned,
        maximum: owned,
        online: 1,
        ..Row::default()
    };
    if kind == 0 || kind == 4 {
        row.minimum = percent(rng, owned, 15, 45);
        match rng.below(20) {
            0 => (row.forced, row.online) = (owned, 0),
            1 | 2 => row.planned = percent(rng, owned, 5, 40),
            3 | 4 => row.forced = percent(rng, owned, 5, 40),
            _ => (),
        }
    }
    row.metered = given.saturating_sub(row.planned + row.forced) as i32;
    if rng.one_in(4) {
        row.adjustment = percent(rng, committed, 0, 5) as i32 * rng.pick(&[1, -1]);
    }
    row
}

/// The points of a row: from its minimum towards its maximum, each dearer than the one before.
fn offer(rng: &mut Rng, row: &Row) -> Vec<[u32; 2]> {
    let mut price = rng.between(1_200, 4_000) as i32;
    let mut kw = row.minimum;
    let mut points = Vec::new();
    for left in (0..row.count).rev() {
        points.push(point(price, kw));
        price += rng.between(100, 2_500) as i32;
        kw += (row.maximum - kw) / left.max(1);
    }
    points
}

/// So many percent of kW, by chance.
fn percent(rng: &mut Rng, kw: u32, low: i64, high: i64) -> u32 {
    (i64::from(kw) * rng.between(low, high) / 100) as u32
}
