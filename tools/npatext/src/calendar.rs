//! The month, day and time at which an interval begins: elapsed time from midnight of 1 June.

use npa_tests::layout::DAY_INTERVALS;

/// The months of a delivery year and their days; February's are those of a year of 365 days.
const MONTHS: [(u32, u32); 12] = [
    (6, 30),
    (7, 31),
    (8, 31),
    (9, 30),
    (10, 31),
    (11, 30),
    (12, 31),
    (1, 31),
    (2, 28),
    (3, 31),
    (4, 30),
    (5, 31),
];

/// The minutes of an interval.
const MINUTES: u32 = 5;

/// Where an interval begins.
#[derive(Clone, Copy, Debug, PartialEq)]
pub struct Begin {
    pub month: u32,
    pub day: u32,
    pub hour: u32,
    pub minute: u32,
}

/// The beginning of an interval in a year of so many days; none if it is not in the year.
pub fn begin(interval: u32, days: u32) -> Option<Begin> {
    let leap = days.checked_sub(365).filter(|leap| *leap <= 1)?;
    let minutes = interval % DAY_INTERVALS * MINUTES;
    let mut day = interval / DAY_INTERVALS;
    for (month, length) in MONTHS {
        let length = if month == 2 { length + leap } else { length };
        if day < length {
            return Some(Begin {
                month,
                day: day + 1,
                hour: minutes / 60,
                minute: minutes % 60,
            });
        }
        day -= length;
    }
    None
}

#[cfg(test)]
mod tests {
    use super::*;

    /// Month, day and time of an interval.
    fn shown(interval: u32, days: u32) -> Option<String> {
        let at = begin(interval, days)?;
        Some(format!(
            "{}/{} {}:{:02}",
            at.month, at.day, at.hour, at.minute
        ))
    }

    #[test]
    fn intervals_have_their_dates() {
        for (interval, days, is) in [
            (0, 365, "6/1 0:00"),
            (287, 365, "6/1 23:55"),
            (288, 365, "6/2 0:00"),
            (1000, 365, "6/4 11:20"),
            (35_592, 366, "10/2 14:00"),
            (288 * 244, 365, "1/31 0:00"),
            (288 * 272, 365, "2/28 0:00"),
            (288 * 273, 365, "3/1 0:00"),
            (288 * 273, 366, "2/29 0:00"),
            (288 * 274, 366, "3/1 0:00"),
            (105_119, 365, "5/31 23:55"),
            (105_407, 366, "5/31 23:55"),
        ] {
            assert_eq!(shown(interval, days).as_deref(), Some(is), "{interval}");
        }
        for (interval, days) in [
            (105_120, 365),
            (105_408, 366),
            (u32::MAX, 366),
            (0, 364),
            (0, 367),
            (0, 0),
        ] {
            assert_eq!(shown(interval, days), None, "{interval} of {days}");
        }
    }

    /// Every interval begins five minutes after the one before it, and every day once.
    #[test]
    fn days_follow_each_other() {
        for days in [365, 366] {
            let mut dates = std::collections::BTreeSet::new();
            for interval in 0..288 * days {
                let at = begin(interval, days).expect("it is in the year");
                assert_eq!(12 * at.hour + at.minute / 5, interval % 288);
                dates.insert((at.month, at.day));
            }
            assert_eq!(dates.len(), days as usize);
        }
    }
}
