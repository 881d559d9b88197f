//! Delivery years and their terms.

/// Net CONE in cents per MW-day, and the number of days.
#[derive(Clone, Copy, PartialEq, Eq)]
pub struct Terms {
    pub net_cone: u64,
    pub days: u64,
}

impl Terms {
    pub fn hold(&self) -> bool {
        (1..=200_000).contains(&self.net_cone) && (365..=366).contains(&self.days)
    }

    /// The number of five-minute intervals.
    pub fn intervals(&self) -> u64 {
        288 * self.days
    }

    /// So many kW times Net CONE times days.
    fn times(&self, kw: u64) -> u64 {
        kw * self.net_cone * self.days
    }
}

/// The terms, and the calendar year in which the delivery year starts, 0 where it is not named.
#[derive(Clone, Copy)]
pub struct Year {
    pub terms: Terms,
    pub start: u64,
}

/// The year with half the charges and half the limits.
const HALVED: u64 = 2016;

impl Year {
    /// Whether the year is one that can be named.
    pub fn can_be_named(&self) -> bool {
        match self.start {
            HALVED => self.terms.days == 365,
            start => (2018..=2023).contains(&start),
        }
    }

    /// The most cents that a plant may be charged for its largest commitment.
    pub fn limit(&self, commitment: u64) -> u64 {
        let most = 3 * self.terms.times(commitment);
        match self.start {
            HALVED => most / 4000,
            _ => most / 2000,
        }
    }

    /// The cents for so many kW short, to the nearest cent; adding half a divisor turns half a cent upward.
    pub fn charge(&self, shortfall: u64) -> u64 {
        let price = self.terms.times(shortfall);
        match self.start {
            HALVED => (price + 360_000) / 720_000,
            _ => (price + 180_000) / 360_000,
        }
    }
}
