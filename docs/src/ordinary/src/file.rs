//! The interval file of either format, and the grounds that it alone decides: 7, 9, 11, 13, 18 and 14.

use crate::terms::Terms;
use crate::words::words32;
use std::ops::Range;

pub const ROWS_MOST: usize = 512;
const POINTS_MOST: usize = 2048;
const SCHEDULES_MOST: usize = 1024;
const ROW_SCHEDULES_MOST: u32 = 4;
const CURVE_POINTS_MOST: u32 = 10;
pub const KW_MOST: u64 = 4_000_000;
const IMPORTS_MOST: i64 = 40_000_000;
const PRICE_MOST: i64 = 1_000_000;

const POINT_BYTES: usize = 8;
const SCHEDULE_BYTES: usize = 12;

/// What the two formats differ in.
struct Format {
    header_bytes: usize,
    row_bytes: usize,
    most: usize,
}

const FORMAT_1: Format = Format {
    header_bytes: 40,
    row_bytes: 56,
    most: 49_152,
};
const FORMAT_2: Format = Format {
    header_bytes: 48,
    row_bytes: 60,
    most: 61_440,
};

pub const GENERATION: u32 = 0;
pub const DEMAND: u32 = 1;
pub const EFFICIENCY: u32 = 2;
pub const PRD: u32 = 3;
pub const ENERGY_ONLY: u32 = 4;
pub const IMPORTER: u32 = 5;

pub const MARKET: u32 = 1;
pub const PLS: u32 = 2;
pub const COST: u32 = 3;

pub struct Header {
    format: &'static Format,
    pub interval: u64,
    pub terms: Terms,
    pub region_wide: u32,
    pub imports: i64,
    rows: Table,
    points: Table,
    /// Empty in format 1, which has no such table.
    schedules: Table,
}

/// The number of entries and the offset.
struct Table {
    count: usize,
    at: usize,
}

pub struct Row {
    pub id: u64,
    pub kind: u32,
    pub committed: u64,
    pub owned: u64,
    pub metered: i64,
    pub adjustment: i64,
    pub planned: u64,
    pub forced: u64,
    pub maximum: u64,
    pub minimum: u64,
    pub online: u32,
    pub lmp: i64,
    first: u32,
    count: u32,
    pub dispatched: u32,
}

pub struct Schedule {
    pub kind: u32,
    first: u32,
    count: u32,
}

pub struct Point {
    pub price: i64,
    pub kw: u64,
}

/// All entries of a file, named by rows or not.
pub struct Tables {
    pub rows: Vec<Row>,
    pub points: Vec<Point>,
    /// Of format 2 alone; rows of format 1 name points.
    schedules: Option<Vec<Schedule>>,
}

/// What a row names: the curve on which it was dispatched, and in format 2 all its schedules. Both may be empty.
pub struct Offer<'a> {
    pub curve: &'a [Point],
    pub schedules: &'a [Schedule],
}

impl Header {
    /// The header, if the file has a format and a length that is possible in it.
    pub fn read(file: &[u8]) -> Option<Self> {
        if file.len() < FORMAT_1.header_bytes {
            return None;
        }
        let words: [u32; 10] = words32(file);
        let format = match words[0] {
            1 => &FORMAT_1,
            2 => &FORMAT_2,
            _ => return None,
        };
        if !(format.header_bytes..=format.most).contains(&file.len()) {
            return None;
        }
        let header_end = format.header_bytes as u32;
        let [schedules, schedules_at] = match words[0] {
            1 => [0, header_end],
            _ => words32(&file[FORMAT_1.header_bytes..]),
        };
        Some(Header {
            format,
            interval: words[1].into(),
            terms: Terms {
                net_cone: words[2].into(),
                days: words[3].into(),
            },
            region_wide: words[4],
            imports: signed(words[5]),
            rows: Table::new(words[6], words[7]),
            points: Table::new(words[8], words[9]),
            schedules: Table::new(schedules, schedules_at),
        })
    }

    pub fn holds(&self) -> bool {
        self.interval < self.terms.intervals()
            && self.region_wide <= 1
            && self.imports.abs() <= IMPORTS_MOST
    }

    /// The tables, if all lie in the file and apart.
    pub fn tables(&self, file: &[u8]) -> Option<Tables> {
        if !(1..=ROWS_MOST).contains(&self.rows.count)
            || self.points.count > POINTS_MOST
            || self.schedules.count > SCHEDULES_MOST
        {
            return None;
        }
        let rows = self.rows.bytes(self.format.row_bytes);
        let points = self.points.bytes(POINT_BYTES);
        let schedules = self.schedules.bytes(SCHEDULE_BYTES);
        let inside = |table: &Range<usize>| {
            table.start >= self.format.header_bytes && table.end <= file.len()
        };
        let hold = [&rows, &points, &schedules].into_iter().all(inside)
            && apart(&rows, &points)
            && apart(&rows, &schedules)
            && apart(&points, &schedules);
        hold.then(|| self.read_tables(&file[rows], &file[points], &file[schedules]))
    }

    fn read_tables(&self, rows: &[u8], points: &[u8], schedules: &[u8]) -> Tables {
        let rows = rows.chunks_exact(self.format.row_bytes);
        let schedules = schedules.chunks_exact(SCHEDULE_BYTES);
        let two = self.format.row_bytes == FORMAT_2.row_bytes;
        Tables {
            rows: match two {
                true => rows.map(Row::read_2).collect(),
                false => rows.map(Row::read).collect(),
            },
            points: points.chunks_exact(POINT_BYTES).map(Point::read).collect(),
            schedules: two.then(|| schedules.map(Schedule::read).collect()),
        }
    }
}

impl Table {
    fn new(count: u32, at: u32) -> Self {
        Table {
            count: count as usize,
            at: at as usize,
        }
    }

    /// Where its entries of so many bytes lie.
    fn bytes(&self, entry: usize) -> Range<usize> {
        self.at..self.at + entry * self.count
    }
}

/// Whether two tables share no byte.
fn apart(one: &Range<usize>, other: &Range<usize>) -> bool {
    one.is_empty() || other.is_empty() || one.end <= other.start || other.end <= one.start
}

impl Tables {
    /// Ground 18 for every row.
    pub fn schedules_hold(&self) -> bool {
        let Some(schedules) = &self.schedules else {
            return true;
        };
        self.rows.iter().all(|row| row.schedules_hold(schedules))
    }

    /// What each row offers, if its points hold, or those of every schedule that it names.
    pub fn offers(&self) -> Option<Vec<Offer<'_>>> {
        let rows = self.rows.iter();
        match &self.schedules {
            Some(schedules) => rows.map(|row| row.offer(schedules, &self.points)).collect(),
            None => rows.map(|row| row.offer_of_points(&self.points)).collect(),
        }
    }
}

fn signed(word: u32) -> i64 {
    i64::from(word as i32)
}

impl Row {
    fn read(bytes: &[u8]) -> Self {
        let words: [u32; 14] = words32(bytes);
        Row {
            id: words[0].into(),
            kind: words[1],
            committed: words[2].into(),
            owned: words[3].into(),
            metered: signed(words[4]),
            adjustment: signed(words[5]),
            planned: words[6].into(),
            forced: words[7].into(),
            maximum: words[8].into(),
            minimum: words[9].into(),
            online: words[10],
            lmp: signed(words[11]),
            first: words[12],
            count: words[13],
            dispatched: 0,
        }
    }

    /// A row of format 2, which has one word more.
    fn read_2(bytes: &[u8]) -> Self {
        let [dispatched] = words32(&bytes[FORMAT_1.row_bytes..]);
        Row {
            dispatched,
            ..Row::read(bytes)
        }
    }

    /// Every word but the id and those of the schedules is in range.
    pub fn holds(&self) -> bool {
        let metered = [self.metered, self.adjustment];
        let others = [
            self.committed,
            self.owned,
            self.planned,
            self.forced,
            self.maximum,
            self.minimum,
        ];
        self.kind <= IMPORTER
            && others.iter().all(|kw| *kw <= KW_MOST)
            && metered.iter().all(|kw| kw.unsigned_abs() <= KW_MOST)
            && self.minimum <= self.maximum
            && self.online <= 1
            && self.lmp.abs() <= PRICE_MOST
            && (self.kind < ENERGY_ONLY || self.committed == 0)
    }

    /// What a row of format 1 offers, if its points hold.
    fn offer_of_points<'a>(&self, points: &'a [Point]) -> Option<Offer<'a>> {
        let curve = match self.count {
            0 => &[][..],
            _ => curve(points, self.first, self.count)?,
        };
        Some(Offer {
            curve,
            schedules: &[],
        })
    }

    /// What a row of format 2 offers, if the points of all its schedules hold.
    fn offer<'a>(&self, schedules: &'a [Schedule], points: &'a [Point]) -> Option<Offer<'a>> {
        let schedules = self.named(schedules)?;
        let mut dispatched = &[][..];
        for (number, schedule) in schedules.iter().enumerate() {
            let curve = curve(points, schedule.first, schedule.count)?;
            if number == self.dispatched as usize {
                dispatched = curve;
            }
        }
        Some(Offer {
            curve: dispatched,
            schedules,
        })
    }

    /// The schedules that it names, if they are in the table.
    fn named<'a>(&self, schedules: &'a [Schedule]) -> Option<&'a [Schedule]> {
        match self.count {
            0 => Some(&[]),
            _ => schedules.get(stretch(self.first, self.count)),
        }
    }

    /// Its schedules are few, in the table and of a kind, and it was dispatched on one of them.
    fn schedules_hold(&self, schedules: &[Schedule]) -> bool {
        let of_a_kind = |schedule: &Schedule| (MARKET..=COST).contains(&schedule.kind);
        let named = self.named(schedules);
        self.count <= ROW_SCHEDULES_MOST
            && named.is_some_and(|named| named.iter().all(of_a_kind))
            && self.dispatched < self.count.max(1)
    }
}

/// The places of so many entries from a first one.
fn stretch(first: u32, count: u32) -> Range<usize> {
    first as usize..first as usize + count as usize
}

/// So many points from a first one, if they are some and few, in the table and in range, and do not fall.
fn curve(points: &[Point], first: u32, count: u32) -> Option<&[Point]> {
    if !(1..=CURVE_POINTS_MOST).contains(&count) {
        return None;
    }
    let curve = points.get(stretch(first, count))?;
    let holds = curve.iter().all(Point::holds)
        && curve
            .windows(2)
            .all(|pair| pair[0].price <= pair[1].price && pair[0].kw <= pair[1].kw);
    holds.then_some(curve)
}

impl Schedule {
    fn read(bytes: &[u8]) -> Self {
        let [kind, first, count] = words32(bytes);
        Schedule { kind, first, count }
    }

    /// Its points in the table, once they are known to hold.
    pub fn curve<'a>(&self, points: &'a [Point]) -> &'a [Point] {
        &points[stretch(self.first, self.count)]
    }
}

impl Point {
    fn read(bytes: &[u8]) -> Self {
        let [price, kw] = words32(bytes);
        Point {
            price: signed(price),
            kw: kw.into(),
        }
    }

    fn holds(&self) -> bool {
        self.price.abs() <= PRICE_MOST && self.kw <= KW_MOST
    }
}
