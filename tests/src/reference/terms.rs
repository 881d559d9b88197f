//! What block, ledger and file have in common: the terms of a delivery year, and ids.

use super::words::rise_strictly;
use super::Whole;

pub const IDS_MOST: Whole = 512;
const NET_CONE_MOST: Whole = 200_000;

/// Net CONE and days, the terms of a delivery year that its files repeat.
#[derive(Clone, Copy, PartialEq)]
pub struct Terms {
    pub net_cone: Whole,
    pub days: Whole,
}

/// A delivery year: its terms, and the calendar year in which it starts, 0 if the opening does not say.
#[derive(Clone, Copy)]
pub struct Year {
    pub terms: Terms,
    pub start: Whole,
}

/// The delivery year that is charged half, up to half the limit.
pub const HALVED: Whole = 2016;

/// Net CONE lies in its range and the year has 365 or 366 days.
pub fn terms_hold(terms: Terms) -> bool {
    (1..=NET_CONE_MOST).contains(&terms.net_cone) && (terms.days == 365 || terms.days == 366)
}

/// The year is one that an opening can name, and 2016 has 365 days. No other year's days are held to the calendar.
pub fn start_holds(year: Year) -> bool {
    match year.start {
        HALVED => year.terms.days == 365,
        start => (2018..=2023).contains(&start),
    }
}

/// A ledger has at least one account and at most 512.
pub fn id_count_holds(count: Whole) -> bool {
    (1..=IDS_MOST).contains(&count)
}

/// Ids are above 0 and each is larger than the one before.
pub fn ids_hold(ids: &[Whole]) -> bool {
    ids.iter().all(|id| *id > 0) && rise_strictly(ids)
}

/// The number of five-minute intervals in the year.
pub fn intervals(terms: Terms) -> Whole {
    288 * terms.days
}
