//! The rules of one interval in kW, up to the shortfall and the bonus of each row.

use super::curve::{considered, highest_scheduled, scheduled};
use super::file::{offer, Head, Offer, Row, Tables};
use super::file::{DEMAND, EFFICIENCY, ENERGY_ONLY, GENERATION, IMPORTER, PRD};
use super::Whole;

/// The figures of one row before money; all 0 for a row that is left out.
#[derive(Clone, Default)]
pub struct Figures {
    pub expected: Whole,
    pub actual: Whole,
    pub outage: Whole,
    pub economic: Whole,
    pub shortfall: Whole,
    pub bonus: Whole,
}

/// The figures of an interval before money.
pub struct Assessment {
    /// In millionths.
    pub ratio: Whole,
    pub numerator: Whole,
    pub denominator: Whole,
    pub rows: Vec<Figures>,
}

/// Kinds 0 and 4 have outage, economic excusal and a cut of the bonus.
fn is_generator(row: &Row) -> bool {
    row.kind == GENERATION || row.kind == ENERGY_ONLY
}

/// Metered plus adjustment, never below 0.
fn actual(row: &Row) -> Whole {
    (row.metered + row.adjustment).max(0)
}

/// The kW expected of kinds 1 to 5, which no ratio touches.
fn expected_fixed(row: &Row) -> Whole {
    match row.kind {
        DEMAND | EFFICIENCY | PRD => row.committed,
        _ => 0,
    }
}

/// So much by the ratio: rounded down once, never above it, and 0 if the denominator is 0.
fn by_ratio(most: Whole, numerator: Whole, denominator: Whole) -> Whole {
    if denominator == 0 {
        return 0;
    }
    (most * numerator / denominator).min(most)
}

/// What a generator owns and has not out.
fn available(row: &Row) -> Whole {
    (row.owned - row.planned - row.forced).max(0)
}

/// The kW above which a generator earns no bonus: those of the schedule that it was dispatched on, or what is available
/// if it has sent no offer.
fn bonus_cut(row: &Row, offer: &Offer) -> Whole {
    match offer.dispatched() {
        Some(schedule) => scheduled(row, schedule.points),
        None => available(row),
    }
}

/// The kW above the expected, of a generator up to its cut.
fn bonus(row: &Row, offer: &Offer, expected: Whole) -> Whole {
    let counted = if is_generator(row) {
        actual(row).min(bonus_cut(row, offer))
    } else {
        actual(row)
    };
    (counted - expected).max(0)
}

/// What one row adds to the numerator.
fn numerator_share(row: &Row, offer: &Offer) -> Whole {
    match row.kind {
        GENERATION | ENERGY_ONLY => actual(row),
        DEMAND | PRD if considered(row, offer) => bonus(row, offer, expected_fixed(row)),
        _ => 0,
    }
}

/// What the imports add to the numerator.
fn imports_share(head: &Head) -> Whole {
    if head.region_wide == 1 {
        head.imports.max(0)
    } else {
        0
    }
}

/// What one row adds to the denominator.
fn denominator_share(row: &Row) -> Whole {
    if row.kind == GENERATION {
        row.committed
    } else {
        0
    }
}

/// The planned or maintenance outage that excuses a generator.
fn outage(row: &Row) -> Whole {
    if is_generator(row) {
        row.planned
    } else {
        0
    }
}

/// The kW a generator could have given but was not scheduled for.
fn economic(row: &Row, offer: &Offer, expected: Whole) -> Whole {
    if !is_generator(row) {
        return 0;
    }
    let able = row.maximum.min(expected).min(available(row));
    (able - highest_scheduled(row, offer).max(actual(row))).max(0)
}

/// The kW missing after all excusals.
fn shortfall(expected: Whole, actual: Whole, outage: Whole, economic: Whole) -> Whole {
    (expected - actual - outage - economic).max(0)
}

/// A PRD row that is not considered has no figures, and an importer none but in a region-wide event.
fn is_left_out(head: &Head, row: &Row, offer: &Offer) -> bool {
    match row.kind {
        IMPORTER => head.region_wide == 0,
        _ => !considered(row, offer),
    }
}

/// The kW expected of a row, by the ratio if it is a committed generator's.
fn expected(row: &Row, numerator: Whole, denominator: Whole) -> Whole {
    if row.kind == GENERATION {
        by_ratio(row.committed, numerator, denominator)
    } else {
        expected_fixed(row)
    }
}

/// All kW figures of one row of which this much is expected.
fn figures(row: &Row, offer: &Offer, expected: Whole) -> Figures {
    let actual = actual(row);
    let outage = outage(row);
    let economic = economic(row, offer, expected);
    Figures {
        expected,
        actual,
        outage,
        economic,
        shortfall: shortfall(expected, actual, outage, economic),
        bonus: bonus(row, offer, expected),
    }
}

/// All kW figures of the interval.
pub fn assess(head: &Head, tables: &Tables) -> Assessment {
    let rows: Vec<(&Row, Offer)> = tables
        .rows
        .iter()
        .map(|row| (row, offer(tables, row)))
        .collect();
    let shares = rows.iter().map(|(row, offer)| numerator_share(row, offer));
    let numerator = shares.sum::<Whole>() + imports_share(head);
    let denominator = tables.rows.iter().map(denominator_share).sum();
    let figures_of = |(row, offer): &(&Row, Offer)| match is_left_out(head, row, offer) {
        true => Figures::default(),
        false => figures(row, offer, expected(row, numerator, denominator)),
    };
    Assessment {
        ratio: by_ratio(1_000_000, numerator, denominator),
        numerator,
        denominator,
        rows: rows.iter().map(figures_of).collect(),
    }
}

/// The bonus kW of all rows.
pub fn total_bonus(assessment: &Assessment) -> Whole {
    assessment.rows.iter().map(|figures| figures.bonus).sum()
}
