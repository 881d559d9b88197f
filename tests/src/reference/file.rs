//! The interval file in both formats: its words, and the grounds that it alone decides (7, 9, 11, 13, 18 and 14).
//!
//! A file of format 1 is read as if each row with points named one market schedule, on which it was dispatched.

use super::terms::{intervals, Terms};
use super::words::{lies_within, signed, unsigned};
use super::Whole;

pub const ROWS_MOST: Whole = 512;
const POINTS_MOST: Whole = 2048;
const SCHEDULES_MOST: Whole = 1024;
const ROW_SCHEDULES_MOST: Whole = 4;
const SCHEDULE_POINTS_MOST: Whole = 10;
pub const KW_MOST: Whole = 4_000_000;
const IMPORTS_MOST: Whole = 40_000_000;
const PRICE_MOST: Whole = 1_000_000;

/// Sizes in bytes: of the header, of a row, and of the longest file.
struct Format {
    header: usize,
    row: Whole,
    most: usize,
}

const FORMAT_1: Format = Format {
    header: 40,
    row: 56,
    most: 49_152,
};
const FORMAT_2: Format = Format {
    header: 48,
    row: 60,
    most: FILE_MOST,
};

/// The longest file of either format.
pub const FILE_MOST: usize = 61_440;
const POINT_BYTES: Whole = 8;
const SCHEDULE_BYTES: Whole = 12;

pub const GENERATION: Whole = 0;
pub const DEMAND: Whole = 1;
pub const EFFICIENCY: Whole = 2;
pub const PRD: Whole = 3;
pub const ENERGY_ONLY: Whole = 4;
pub const IMPORTER: Whole = 5;

/// The kinds of a schedule: on a market-based offer, on a price-based one with parameter limits, on a cost-based one.
pub const MARKET: Whole = 1;
pub const PLS: Whole = 2;
pub const COST: Whole = 3;

pub struct Head {
    format: &'static Format,
    pub terms: Terms,
    pub interval: Whole,
    pub region_wide: Whole,
    pub imports: Whole,
    pub rows: Table,
    points: Table,
    /// Of format 2 alone.
    schedules: Option<Table>,
}

/// A table by the words that place it, with the bytes of an entry.
pub struct Table {
    pub count: Whole,
    at: Whole,
    entry: Whole,
}

/// Entries of a table that follow each other: the first and how many.
#[derive(Clone, Copy)]
struct Stretch {
    first: Whole,
    count: Whole,
}

pub struct Row {
    pub id: Whole,
    pub kind: Whole,
    pub committed: Whole,
    pub owned: Whole,
    pub metered: Whole,
    pub adjustment: Whole,
    pub planned: Whole,
    pub forced: Whole,
    pub maximum: Whole,
    pub minimum: Whole,
    pub online: Whole,
    pub lmp: Whole,
    schedules: Stretch,
    /// Counted from 0 within the row's own.
    dispatched: Whole,
}

struct Schedule {
    kind: Whole,
    points: Stretch,
}

pub struct Point {
    pub price: Whole,
    pub kw: Whole,
}

/// The tables of a file.
pub struct Tables {
    pub rows: Vec<Row>,
    schedules: Vec<Schedule>,
    points: Vec<Point>,
}

/// A schedule that a row names: its kind and its points.
pub struct Offered<'a> {
    pub kind: Whole,
    pub points: &'a [Point],
}

/// The schedules that a row names, and the one of them on which it was dispatched; a row that names none has none.
pub struct Offer<'a> {
    pub schedules: Vec<Offered<'a>>,
    dispatched: usize,
}

impl<'a> Offer<'a> {
    /// The schedule on which the row was dispatched.
    pub fn dispatched(&self) -> Option<&Offered<'a>> {
        self.schedules.get(self.dispatched)
    }
}

/// The format that word 0 names, if there is a header.
fn format_of(file: &[u8]) -> Option<&'static Format> {
    if file.len() < FORMAT_1.header {
        return None;
    }
    match unsigned(file, 0, 0) {
        1 => Some(&FORMAT_1),
        2 => Some(&FORMAT_2),
        _ => None,
    }
}

/// The file has a format and a length that is possible in it.
pub fn file_holds(file: &[u8]) -> bool {
    format_of(file).is_some_and(|format| (format.header..=format.most).contains(&file.len()))
}

/// The words of the header, of a file that passed ground 7.
pub fn read_head(file: &[u8]) -> Head {
    let format = format_of(file).expect("the file has a format");
    let table = |word, entry| Table {
        count: unsigned(file, 0, word),
        at: unsigned(file, 0, word + 1),
        entry,
    };
    Head {
        format,
        interval: unsigned(file, 0, 1),
        terms: Terms {
            net_cone: unsigned(file, 0, 2),
            days: unsigned(file, 0, 3),
        },
        region_wide: unsigned(file, 0, 4),
        imports: signed(file, 0, 5),
        rows: table(6, format.row),
        points: table(8, POINT_BYTES),
        schedules: (format.header > FORMAT_1.header).then(|| table(10, SCHEDULE_BYTES)),
    }
}

impl Table {
    /// The bytes that it takes.
    fn size(&self) -> Whole {
        self.entry * self.count
    }

    /// What `read` makes of each entry, given where it begins.
    fn entries<T>(&self, read: impl Fn(usize) -> T) -> Vec<T> {
        let at = |index| (self.at + self.entry * index) as usize;
        (0..self.count).map(|index| read(at(index))).collect()
    }
}

/// All tables of a file that passed ground 11, used or not.
pub fn read_tables(file: &[u8], head: &Head) -> Tables {
    let mut rows = head.rows.entries(|at| read_row(file, head, at));
    let schedules = match &head.schedules {
        Some(table) => table.entries(|at| read_schedule(file, at)),
        None => market_schedules(&mut rows),
    };
    Tables {
        rows,
        schedules,
        points: head.points.entries(|at| read_point(file, at)),
    }
}

/// The words of a row, whichever table words 12 and 13 speak of.
fn read_row(file: &[u8], head: &Head, at: usize) -> Row {
    Row {
        id: unsigned(file, at, 0),
        kind: unsigned(file, at, 1),
        committed: unsigned(file, at, 2),
        owned: unsigned(file, at, 3),
        metered: signed(file, at, 4),
        adjustment: signed(file, at, 5),
        planned: unsigned(file, at, 6),
        forced: unsigned(file, at, 7),
        maximum: unsigned(file, at, 8),
        minimum: unsigned(file, at, 9),
        online: unsigned(file, at, 10),
        lmp: signed(file, at, 11),
        schedules: Stretch {
            first: unsigned(file, at, 12),
            count: unsigned(file, at, 13),
        },
        dispatched: match head.schedules {
            Some(_) => unsigned(file, at, 14),
            None => 0,
        },
    }
}

/// A market schedule for each row of format 1 that has points, which the row then names.
fn market_schedules(rows: &mut [Row]) -> Vec<Schedule> {
    let mut schedules = Vec::new();
    for row in rows.iter_mut().filter(|row| row.schedules.count > 0) {
        let first = schedules.len() as Whole;
        schedules.push(Schedule {
            kind: MARKET,
            points: row.schedules,
        });
        row.schedules = Stretch { first, count: 1 };
    }
    schedules
}

/// The three words of a schedule.
fn read_schedule(file: &[u8], at: usize) -> Schedule {
    Schedule {
        kind: unsigned(file, at, 0),
        points: Stretch {
            first: unsigned(file, at, 1),
            count: unsigned(file, at, 2),
        },
    }
}

/// The two words of a point.
fn read_point(file: &[u8], at: usize) -> Point {
    Point {
        price: signed(file, at, 0),
        kw: unsigned(file, at, 1),
    }
}

/// The ids of the rows of a file that passed ground 11.
pub fn read_row_ids(file: &[u8], head: &Head) -> Vec<Whole> {
    head.rows.entries(|at| unsigned(file, at, 0))
}

/// The entries of a stretch, if they are all in the table; the first is free where there are none.
fn entries<T>(table: &[T], stretch: Stretch) -> Option<&[T]> {
    match stretch.count {
        0 => Some(&[]),
        _ if stretch.first + stretch.count > table.len() as Whole => None,
        _ => Some(&table[stretch.first as usize..(stretch.first + stretch.count) as usize]),
    }
}

/// What a row that passed grounds 18 and 14 offers.
pub fn offer<'a>(tables: &'a Tables, row: &Row) -> Offer<'a> {
    let schedules = entries(&tables.schedules, row.schedules).expect("ground 18");
    let offered = |schedule: &Schedule| Offered {
        kind: schedule.kind,
        points: entries(&tables.points, schedule.points).expect("ground 14"),
    };
    Offer {
        schedules: schedules.iter().map(offered).collect(),
        dispatched: row.dispatched as usize,
    }
}

/// The interval is one of the year, region-wide is a yes or no, imports are in range.
pub fn event_holds(head: &Head) -> bool {
    head.interval < intervals(head.terms)
        && head.region_wide <= 1
        && (-IMPORTS_MOST..=IMPORTS_MOST).contains(&head.imports)
}

/// All tables are of a possible size, behind the header, and apart.
pub fn tables_hold(head: &Head, length: usize) -> bool {
    let tables: Vec<&Table> = [&head.rows, &head.points]
        .into_iter()
        .chain(&head.schedules)
        .collect();
    let schedules = head.schedules.as_ref().map_or(0, |table| table.count);
    let apart = |first: usize| {
        tables[..first]
            .iter()
            .all(|other| !share_a_byte(tables[first], other))
    };
    (1..=ROWS_MOST).contains(&head.rows.count)
        && head.points.count <= POINTS_MOST
        && schedules <= SCHEDULES_MOST
        && tables
            .iter()
            .all(|table| lies_within(table.at, table.size(), head.format.header, length))
        && (0..tables.len()).all(apart)
}

/// Two tables have a byte in common; an empty one has none.
fn share_a_byte(a: &Table, b: &Table) -> bool {
    a.at.max(b.at) < (a.at + a.size()).min(b.at + b.size())
}

/// Every word of a row other than its id and those of its schedules is in range.
pub fn row_holds(row: &Row) -> bool {
    let kilowatts = [
        row.committed,
        row.owned,
        row.planned,
        row.forced,
        row.maximum,
        row.minimum,
    ];
    row.kind <= IMPORTER
        && kilowatts.iter().all(|kw| *kw <= KW_MOST)
        && (-KW_MOST..=KW_MOST).contains(&row.metered)
        && (-KW_MOST..=KW_MOST).contains(&row.adjustment)
        && row.minimum <= row.maximum
        && row.online <= 1
        && price_holds(row.lmp)
        && (row.committed == 0 || !is_uncommitted(row))
}

/// Energy-only plants and importers have no commitment.
fn is_uncommitted(row: &Row) -> bool {
    row.kind == ENERGY_ONLY || row.kind == IMPORTER
}

/// A price or an LMP is in range.
fn price_holds(price: Whole) -> bool {
    (-PRICE_MOST..=PRICE_MOST).contains(&price)
}

/// A row names at most four schedules, all in the table and of a kind that there is, and was dispatched on one of them;
/// one that names none says 0.
pub fn row_schedules_hold(row: &Row, tables: &Tables) -> bool {
    let is_kind = |schedule: &Schedule| (MARKET..=COST).contains(&schedule.kind);
    row.schedules.count <= ROW_SCHEDULES_MOST
        && entries(&tables.schedules, row.schedules).is_some_and(|named| named.iter().all(is_kind))
        && row.dispatched < row.schedules.count.max(1)
}

/// The points of every schedule that a row names are one to ten, all in the table, and form a curve.
pub fn row_points_hold(row: &Row, tables: &Tables) -> bool {
    let named = entries(&tables.schedules, row.schedules).expect("ground 18");
    named.iter().all(|schedule| {
        (1..=SCHEDULE_POINTS_MOST).contains(&schedule.points.count)
            && entries(&tables.points, schedule.points).is_some_and(curve_holds)
    })
}

/// Prices and kW are in range and neither falls from point to point.
fn curve_holds(points: &[Point]) -> bool {
    points
        .iter()
        .all(|point| price_holds(point.price) && point.kw <= KW_MOST)
        && points
            .windows(2)
            .all(|pair| pair[0].price <= pair[1].price && pair[0].kw <= pair[1].kw)
}
