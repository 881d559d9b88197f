//! From kW to cents: limit, charge and credit.

use super::terms::{Year, HALVED};
use super::Whole;

/// The most a plant with this largest commitment may be charged in the year.
pub fn limit(year: Year, commitment: Whole) -> Whole {
    let divisor = if year.start == HALVED { 4000 } else { 2000 };
    3 * cents(year, commitment) / divisor
}

/// The price of a shortfall to the nearest cent, then cut to what the limit leaves.
pub fn charge(year: Year, shortfall: Whole, left: Whole) -> Whole {
    let divisor = if year.start == HALVED {
        720_000
    } else {
        360_000
    };
    nearest(cents(year, shortfall), divisor).min(left)
}

/// So many kW times Net CONE times days.
fn cents(year: Year, kw: Whole) -> Whole {
    kw * year.terms.net_cone * year.terms.days
}

/// The whole number nearest to a quotient, and the upper one halfway between two.
fn nearest(dividend: Whole, divisor: Whole) -> Whole {
    let upward = 2 * (dividend % divisor) >= divisor;
    dividend / divisor + Whole::from(upward)
}

/// One row's share of the pool; nothing when nobody has a bonus.
pub fn credit(bonus: Whole, pool: Whole, total: Whole) -> Whole {
    if total == 0 {
        return 0;
    }
    bonus * pool / total
}
