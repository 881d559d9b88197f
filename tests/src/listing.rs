//! The opening block and the interval file of document 01's listing.

use crate::layout::{point, IntervalFile, Opening, Row};

pub const NET_CONE: u32 = 30_000;
pub const DAYS: u32 = 365;
pub const IDS: [u32; 4] = [11, 12, 13, 14];

/// Curve A.
pub fn curve_a() -> [[u32; 2]; 2] {
    [point(1_000, 20_000), point(5_000, 100_000)]
}

/// The opening block.
pub fn opening() -> Opening {
    Opening::new(NET_CONE, DAYS, &IDS)
}

/// The opening block with a year.
pub fn opening_of(year: u32) -> Opening {
    Opening::of_year(year, NET_CONE, DAYS, &IDS)
}

/// The four rows.
fn rows() -> [Row; 4] {
    [
        Row {
            id: 11,
            committed: 100_000,
            owned: 110_000,
            metered: 60_000,
            planned: 10_000,
            maximum: 110_000,
            minimum: 20_000,
            online: 1,
            lmp: 3_000,
            count: 2,
            ..Row::default()
        },
        Row {
            id: 12,
            committed: 50_000,
            owned: 60_000,
            metered: 20_000,
            adjustment: 5_000,
            forced: 35_000,
            maximum: 25_000,
            minimum: 10_000,
            online: 1,
            lmp: 6_001,
            first: 2,
            count: 2,
            ..Row::default()
        },
        Row {
            id: 13,
            kind: 4,
            owned: 40_000,
            metered: 35_000,
            maximum: 40_000,
            online: 1,
            lmp: 3_000,
            first: 4,
            count: 2,
            ..Row::default()
        },
        Row {
            id: 14,
            kind: 1,
            committed: 5_000,
            metered: 15_001,
            ..Row::default()
        },
    ]
}

/// The file, for any interval; the listing's own is 1000.
pub fn file(interval: u32) -> IntervalFile {
    let mut points = curve_a().to_vec();
    points.extend([point(1_000, 10_000), point(6_000, 50_000)]);
    points.extend([point(0, 0), point(4_000, 40_000)]);
    let rows = rows().iter().map(Row::words).collect();
    IntervalFile::new(NET_CONE, DAYS, interval, rows, points)
}
