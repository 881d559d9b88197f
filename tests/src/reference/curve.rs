//! What a curve says at an LMP.

use super::file::{Offer, Offered, Point, Row, MARKET, PLS, PRD};
use super::Whole;

/// The kW a row was scheduled for at its LMP by the points of one schedule.
pub fn scheduled(row: &Row, points: &[Point]) -> Whole {
    let final_point = points.last().expect("a schedule has points");
    let reached = points_reached(points, row.lmp);
    if reached == 0 {
        return minimum_online(row);
    }
    if row.lmp > final_point.price {
        return row.maximum;
    }
    let on_curve = if reached == points.len() {
        final_point.kw
    } else {
        between(&points[reached - 1], &points[reached], row.lmp)
    };
    on_curve.max(minimum_online(row)).min(row.maximum)
}

/// How many points are priced at or below the LMP; they are the first ones.
fn points_reached(points: &[Point], lmp: Whole) -> usize {
    points.iter().filter(|point| point.price <= lmp).count()
}

/// The economic minimum, which binds only a plant that is online.
fn minimum_online(row: &Row) -> Whole {
    if row.online == 1 {
        row.minimum
    } else {
        0
    }
}

/// The kW on the line from one point to the next, rounded down.
fn between(low: &Point, high: &Point, lmp: Whole) -> Whole {
    low.kw + (high.kw - low.kw) * (lmp - low.price) / (high.price - low.price)
}

/// The highest kW by any schedule that the one dispatched on is compared with; the committed kW without schedules.
pub fn highest_scheduled(row: &Row, offer: &Offer) -> Whole {
    let compared = offer
        .dispatched()
        .map_or(Vec::new(), |own| compared(offer, own));
    let kilowatts = compared
        .iter()
        .map(|schedule| scheduled(row, schedule.points));
    kilowatts.max().unwrap_or(row.committed)
}

/// The schedules that count for a row dispatched on this one of them: for a market one all, for a PLS one all but the
/// market ones, for a cost one none but itself.
fn compared<'a>(offer: &'a Offer, own: &'a Offered) -> Vec<&'a Offered<'a>> {
    let all = offer.schedules.iter();
    match own.kind {
        MARKET => all.collect(),
        PLS => all.filter(|schedule| schedule.kind != MARKET).collect(),
        _ => vec![own],
    }
}

/// A PRD row counts only if the LMP reaches a point with kW on the schedule that it was dispatched on.
pub fn considered(row: &Row, offer: &Offer) -> bool {
    let curve = offer
        .dispatched()
        .map_or(&[][..], |schedule| schedule.points);
    let reached = points_reached(curve, row.lmp);
    row.kind != PRD || (reached > 0 && curve[reached - 1].kw > 0)
}
