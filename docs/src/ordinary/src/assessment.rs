//! The rules of one interval, in kW.

use crate::file::{
    Header, Offer, Point, Row, DEMAND, EFFICIENCY, ENERGY_ONLY, GENERATION, IMPORTER, PRD,
};
use crate::file::{Schedule, MARKET, PLS};

/// The kW figures of a row; a row that does not count has zeros.
#[derive(Default)]
pub struct Figures {
    pub expected: u64,
    pub actual: u64,
    pub outage: u64,
    pub economic: u64,
    pub shortfall: u64,
    pub bonus: u64,
}

pub struct Ratio {
    pub numerator: u64,
    pub denominator: u64,
}

impl Ratio {
    /// Of all rows, with the imports of a region-wide event.
    pub fn of(header: &Header, rows: &[Row], offers: &[Offer]) -> Self {
        let mut ratio = Ratio {
            numerator: 0,
            denominator: 0,
        };
        if header.region_wide == 1 {
            ratio.numerator += header.imports.max(0) as u64;
        }
        for (row, offer) in rows.iter().zip(offers) {
            let above = actual(row).saturating_sub(row.committed);
            match row.kind {
                GENERATION => {
                    ratio.numerator += actual(row);
                    ratio.denominator += row.committed;
                }
                ENERGY_ONLY => ratio.numerator += actual(row),
                DEMAND => ratio.numerator += above,
                PRD if considered(row, offer.curve) => ratio.numerator += above,
                _ => (),
            }
        }
        ratio
    }

    /// So much by the ratio, rounded down, never more; 0 without a denominator.
    pub fn portion(&self, whole: u64) -> u64 {
        if self.denominator == 0 {
            return 0;
        }
        (whole * self.numerator / self.denominator).min(whole)
    }
}

/// All kW figures of a row.
pub fn figures(
    header: &Header,
    row: &Row,
    offer: &Offer,
    points: &[Point],
    ratio: &Ratio,
) -> Figures {
    match row.kind {
        GENERATION => generator(row, offer, points, ratio.portion(row.committed)),
        ENERGY_ONLY => generator(row, offer, points, 0),
        DEMAND | EFFICIENCY => reduction(row),
        PRD if considered(row, offer.curve) => reduction(row),
        IMPORTER if header.region_wide == 1 => reduction(row),
        _ => Figures::default(),
    }
}

/// Kinds 0 and 4.
fn generator(row: &Row, offer: &Offer, points: &[Point], expected: u64) -> Figures {
    let actual = actual(row);
    let outage = row.planned;
    let available = row.owned.saturating_sub(row.planned + row.forced);
    // a unit that sends no offer has no schedule to be held to
    let (highest, most) = if offer.curve.is_empty() {
        (row.committed, available)
    } else {
        let own = scheduled(row, offer.curve);
        (highest_scheduled(row, offer, points, own), own)
    };
    let able = row.maximum.min(expected).min(available);
    let economic = able.saturating_sub(highest.max(actual));
    Figures {
        expected,
        actual,
        outage,
        economic,
        shortfall: expected.saturating_sub(actual + outage + economic),
        bonus: actual.min(most).saturating_sub(expected),
    }
}

/// Kinds 1 to 3, and 5 with a commitment of 0.
fn reduction(row: &Row) -> Figures {
    let expected = row.committed;
    let actual = actual(row);
    Figures {
        expected,
        actual,
        shortfall: expected.saturating_sub(actual),
        bonus: actual.saturating_sub(expected),
        ..Figures::default()
    }
}

fn actual(row: &Row) -> u64 {
    (row.metered + row.adjustment).max(0) as u64
}

/// The points priced at or below the LMP.
fn reached<'a>(row: &Row, curve: &'a [Point]) -> &'a [Point] {
    &curve[..curve.partition_point(|point| point.price <= row.lmp)]
}

/// Whether the last point that the LMP reaches has kW, which a PRD row needs to count.
fn considered(row: &Row, curve: &[Point]) -> bool {
    reached(row, curve).last().is_some_and(|point| point.kw > 0)
}

/// The most kW by the schedule dispatched on, which has so many of its own, and those that count beside it: all beside
/// a market one, PLS and cost ones beside a PLS one, none beside a cost one.
fn highest_scheduled(row: &Row, offer: &Offer, points: &[Point], own: u64) -> u64 {
    let mut highest = own;
    let dispatched = row.dispatched as usize;
    for (number, schedule) in offer.schedules.iter().enumerate() {
        if number != dispatched && counts(schedule, &offer.schedules[dispatched]) {
            highest = highest.max(scheduled(row, schedule.curve(points)));
        }
    }
    highest
}

fn counts(schedule: &Schedule, dispatched: &Schedule) -> bool {
    match dispatched.kind {
        MARKET => true,
        PLS => schedule.kind != MARKET,
        _ => false,
    }
}

/// The kW that a curve schedules at the LMP.
fn scheduled(row: &Row, curve: &[Point]) -> u64 {
    let last = curve.last().expect("a schedule has points");
    if row.lmp > last.price {
        return row.maximum;
    }
    let least = if row.online == 1 { row.minimum } else { 0 };
    let reached = reached(row, curve);
    let Some(low) = reached.last() else {
        return least;
    };
    let kw = match curve.get(reached.len()) {
        Some(high) => low.kw + along(low, high, row.lmp),
        None => low.kw,
    };
    kw.max(least).min(row.maximum)
}

/// The kW from one point towards the next, in proportion to price.
fn along(low: &Point, high: &Point, lmp: i64) -> u64 {
    let step = (lmp - low.price) as u64;
    let span = (high.price - low.price) as u64;
    (high.kw - low.kw) * step / span
}
