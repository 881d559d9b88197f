//! Every fault of an opening block or an interval file, in checking order.

use crate::names::{Sign, KINDS, ROW_WORDS, SCHEDULE_KINDS, UNCOMMITTED};
use npa_tests::layout::{
    word_at, Format, RowWords, BLOCK_MOST, CURVE_POINTS_MOST, DAY_INTERVALS, HALVED_YEAR, IDS_MOST,
    IMPORTS_MOST, KW_MOST, NET_CONE_MOST, OPENING_BYTES, POINTS_MOST, POINT_BYTES, PRICE_MOST,
    ROWS_MOST, ROW_SCHEDULES_MOST, SCHEDULES_MOST, SCHEDULE_BYTES, YEARS, YEAR_FORMAT,
    YEAR_OPENING_BYTES,
};

/// A fault: its ground, where in the block it is, and what it is.
#[derive(Clone, Debug, PartialEq)]
pub struct Found {
    pub ground: u32,
    /// Empty if it is a fault of the block or its header.
    pub place: String,
    pub what: String,
}

/// What the stream so far says about the interval files that follow.
pub struct Known<'a> {
    pub net_cone: u32,
    pub days: u32,
    /// They rise.
    pub ids: &'a [u32],
    pub earliest: u64,
    /// The block that was settled last, and its interval.
    pub last: Option<(u64, u32)>,
}

/// The faults of a block that are found so far.
#[derive(Default)]
struct Faults(Vec<Found>);

impl Faults {
    fn add(&mut self, ground: u32, place: &str, what: impl Into<String>) {
        self.0.push(Found {
            ground,
            place: place.to_string(),
            what: what.into(),
        });
    }

    /// A number that is not from `low` to `high`.
    fn range(&mut self, ground: u32, place: &str, word: Word, low: i64, high: i64) {
        let Word(name, value) = word;
        if value < low {
            self.add(ground, place, format!("{name} {value} below {low}"));
        } else if value > high {
            self.add(ground, place, format!("{name} {value} above {high}"));
        }
    }

    /// The length and the format of a block, which has one of the bounds.
    fn whole(&mut self, ground: u32, block: &[u8], least: usize, most: usize) {
        let length = block.len();
        if length < least {
            self.add(ground, "", format!("{length} bytes, under {least}"));
        } else if length > most {
            self.add(ground, "", format!("{length} bytes, over {most}"));
        }
        let Some(format) = word_at(block, 0).filter(|format| ![1, 2].contains(format)) else {
            return;
        };
        let read = if length < least {
            ""
        } else {
            " (the rest is read as format 1)"
        };
        self.add(
            ground,
            "",
            format!("format {format}, neither 1 nor 2{read}"),
        );
    }

    /// In checking order; faults of one ground stay in the order of the rows.
    fn in_order(mut self) -> Vec<Found> {
        self.0.sort_by_key(|found| match found.ground {
            23 => (2, 1),  // between 2 and 3
            18 => (13, 1), // between 13 and 14
            ground => (ground, 0),
        });
        self.0
    }
}

/// A word's name and its value.
struct Word<'a>(&'a str, i64);

/// A table by the words that place it.
struct Table {
    name: &'static str,
    at_name: &'static str,
    count: u64,
    at: u64,
    entry: u64,
}

impl Table {
    fn size(&self) -> u64 {
        self.entry * self.count
    }

    fn end(&self) -> u64 {
        self.at + self.size()
    }

    /// Whether it lies between byte `from` and the end.
    fn lies(&self, from: usize, end: usize) -> bool {
        self.at >= from as u64 && self.end() <= end as u64
    }

    /// Why it does not.
    fn misplaced(&self, from: usize, end: usize, faults: &mut Faults, ground: u32) {
        let Table {
            name, at_name, at, ..
        } = self;
        let unread = match self.count {
            0 => String::new(),
            _ => format!("; its {name} are not examined"),
        };
        if *at < from as u64 {
            faults.add(ground, "", format!("{at_name} {at} below {from}{unread}"));
        }
        if *at > end as u64 {
            let what = format!("{at_name} {at} beyond its {end} bytes{unread}");
            faults.add(ground, "", what);
        } else if self.end() > end as u64 {
            let (count, last) = (self.count, self.end());
            let what = format!(
                "{count} {name} from {at_name} {at} end at byte {last}, beyond its {end} bytes{unread}"
            );
            faults.add(ground, "", what);
        }
    }

    /// Its words, if it lies in the block.
    fn entries<const N: usize>(&self, block: &[u8], from: usize) -> Option<Vec<[u32; N]>> {
        if !self.lies(from, block.len()) {
            return None;
        }
        let entry = |index: u64| {
            let at = (self.at + self.entry * index) as usize;
            std::array::from_fn(|word| word_at(block, at + 4 * word).unwrap_or(0))
        };
        Some((0..self.count).map(entry).collect())
    }

    /// The bytes that it shares with another.
    fn shared(&self, other: &Table) -> Option<(u64, u64)> {
        let first = self.at.max(other.at);
        let behind = self.end().min(other.end());
        (first < behind).then(|| (first, behind - 1))
    }
}

/// What is wrong with a year of so many days, if anything is.
pub fn year_fault(year: u64, days: u64) -> Option<String> {
    let halved = u64::from(HALVED_YEAR);
    if !YEARS.map(u64::from).contains(&year) {
        return Some(format!(
            "year {year}, neither {halved} nor from 2018 to 2023"
        ));
    }
    (year == halved && days == 366).then(|| format!("year {year} with 366 days, not 365"))
}

/// Every fault of an opening block: grounds 1 to 4, and 23.
pub fn opening_faults(block: &[u8]) -> Vec<Found> {
    let mut faults = Faults::default();
    let has_year = word_at(block, 0) == Some(YEAR_FORMAT);
    let front = if has_year {
        YEAR_OPENING_BYTES
    } else {
        OPENING_BYTES
    };
    faults.whole(1, block, front, BLOCK_MOST);
    if block.len() < front {
        return faults.in_order();
    }
    let word = |index: usize| word_at(block, 4 * index).unwrap_or(0);
    let (net_cone, days, count) = (word(1), word(2), word(3));
    let named = Word("net_cone", net_cone.into());
    faults.range(2, "", named, 1, NET_CONE_MOST.into());
    if days != 365 && days != 366 {
        faults.add(2, "", format!("days {days}, neither 365 nor 366"));
    }
    if let Some(what) = year_fault(word(5).into(), days.into()).filter(|_| has_year) {
        faults.add(23, "", what);
    }
    faults.range(3, "", Word("count", count.into()), 1, IDS_MOST as i64);
    let table = Table {
        name: "ids",
        at_name: "ids_at",
        count: count.into(),
        at: word(4).into(),
        entry: 4,
    };
    table.misplaced(front, block.len(), &mut faults, 3);
    roster_faults(
        &table.entries(block, front).unwrap_or_default(),
        &mut faults,
    );
    faults.in_order()
}

/// Ground 4.
fn roster_faults(ids: &[[u32; 1]], faults: &mut Faults) {
    for (index, [id]) in ids.iter().enumerate() {
        let place = format!("id {}", index + 1);
        if *id == 0 {
            faults.add(4, &place, "0, not above 0");
        } else if index > 0 && *id <= ids[index - 1][0] {
            let before = ids[index - 1][0];
            faults.add(
                4,
                &place,
                format!("{id} not above {before}, the id before it"),
            );
        }
    }
}

/// The tables of an interval file; format 1 has no schedules.
struct Tables {
    rows: Table,
    points: Table,
    schedules: Option<Table>,
}

impl Tables {
    fn read(file: &[u8]) -> Self {
        let format = Format::of(file);
        let table = |number: usize, name, at_name, entry: usize| {
            let [count, at] =
                [24, 28].map(|at| u64::from(word_at(file, at + 8 * number).unwrap_or(0)));
            Table {
                name,
                at_name,
                count,
                at,
                entry: entry as u64,
            }
        };
        let schedules = || table(2, "schedules", "schedules_at", SCHEDULE_BYTES);
        Tables {
            rows: table(0, "rows", "rows_at", format.row_bytes()),
            points: table(1, "points", "points_at", POINT_BYTES),
            schedules: (format == Format::Two).then(schedules),
        }
    }
}

/// Every fault of an interval file but 16. Without what the stream so far says, those that the file alone shows.
pub fn file_faults(file: &[u8], known: Option<&Known>) -> Vec<Found> {
    let mut faults = Faults::default();
    let format = Format::of(file);
    let header = format.header_bytes();
    faults.whole(7, file, header, format.most());
    if file.len() < header {
        return faults.in_order();
    }
    header_faults(file, known, &mut faults);
    let tables = Tables::read(file);
    table_faults(&tables, header, file.len(), &mut faults);
    let points = tables.points.entries(file, header);
    let points = Named::new(&tables.points, points.as_deref());
    let schedules = tables
        .schedules
        .as_ref()
        .map(|table| (table, table.entries(file, header)));
    let schedules = schedules
        .as_ref()
        .map(|(table, entries)| Named::new(table, entries.as_deref()));
    // Words behind a row of format 1 are not looked at.
    let rows: Vec<RowWords> = tables.rows.entries(file, header).unwrap_or_default();
    for (index, row) in rows.iter().enumerate() {
        let place = format!("row {} (id {})", index + 1, row[0]);
        let before = index.checked_sub(1).map(|before| rows[before][0]);
        id_faults(row[0], (index, before), known, &place, &mut faults);
        row_faults(row, &place, &mut faults);
        match &schedules {
            Some(schedules) => schedule_faults(row, schedules, &points, &place, &mut faults),
            None if row[13] > 0 => curve_faults([row[12], row[13]], &points, &place, &mut faults),
            None => (),
        }
    }
    faults.in_order()
}

/// Grounds 8, 9 and 10.
fn header_faults(file: &[u8], known: Option<&Known>, faults: &mut Faults) {
    let [interval, net_cone, days, region_wide, imports] =
        [1, 2, 3, 4, 5].map(|word| word_at(file, 4 * word).unwrap_or(0));
    if let Some(known) = known {
        for (name, value, opened) in [
            ("net_cone", net_cone, known.net_cone),
            ("days", days, known.days),
        ] {
            if value != opened {
                faults.add(8, "", format!("{name} {value}, not the opening's {opened}"));
            }
        }
        if u64::from(interval) < known.earliest {
            faults.add(10, "", too_early(interval, known));
        }
    }
    let intervals = u64::from(DAY_INTERVALS) * u64::from(days);
    if u64::from(interval) >= intervals {
        let what = format!(
            "interval {interval} not below {intervals}, {DAY_INTERVALS} times the days {days}"
        );
        faults.add(9, "", what);
    }
    faults.range(9, "", Word("region_wide", region_wide.into()), 0, 1);
    let most = i64::from(IMPORTS_MOST);
    let imports = i64::from(imports as i32);
    faults.range(9, "", Word("imports", imports), -most, most);
}

/// Ground 10 in words.
fn too_early(interval: u32, known: &Known) -> String {
    let earliest = known.earliest;
    let what = format!("interval {interval} below {earliest}, the earliest still accepted");
    match known.last {
        Some((block, settled)) => format!("{what} after block {block} (interval {settled})"),
        None => what,
    }
}

/// Ground 11.
fn table_faults(tables: &Tables, header: usize, length: usize, faults: &mut Faults) {
    let Tables {
        rows,
        points,
        schedules,
    } = tables;
    let all: Vec<&Table> = [rows, points].into_iter().chain(schedules).collect();
    let bounds = [(1, ROWS_MOST), (0, POINTS_MOST), (0, SCHEDULES_MOST)];
    for (table, (least, most)) in all.iter().zip(bounds) {
        let count = Word(table.name, table.count as i64);
        faults.range(11, "", count, least, most as i64);
    }
    all.iter()
        .for_each(|table| table.misplaced(header, length, faults, 11));
    for (index, table) in all.iter().enumerate() {
        for other in &all[index + 1..] {
            if let Some((first, last)) = table.shared(other) {
                let what = format!(
                    "{} and {} share bytes {first} to {last}",
                    table.name, other.name
                );
                faults.add(11, "", what);
            }
        }
    }
}

/// Ground 12; the id of the row before comes with that row's number.
fn id_faults(
    id: u32,
    (number, before): (usize, Option<u32>),
    known: Option<&Known>,
    place: &str,
    faults: &mut Faults,
) {
    if let Some(before) = before.filter(|before| id <= *before) {
        let what = format!("id {id} not above {before}, the id of row {number}");
        faults.add(12, place, what);
    }
    if known.is_some_and(|known| known.ids.binary_search(&id).is_err()) {
        faults.add(12, place, format!("id {id} not in the opening"));
    }
}

/// Ground 13.
fn row_faults(row: &RowWords, place: &str, faults: &mut Faults) {
    let kind = i64::from(row[1]);
    faults.range(13, place, Word("kind", kind), 0, KINDS.len() as i64 - 1);
    for (index, name, sign) in ROW_WORDS {
        let value = match sign {
            Sign::Signed => i64::from(row[index] as i32),
            Sign::Unsigned => i64::from(row[index]),
        };
        let most = match name {
            "online" => 1,
            "lmp" => i64::from(PRICE_MOST),
            _ => i64::from(KW_MOST),
        };
        let least = match sign {
            Sign::Signed => -most,
            Sign::Unsigned => 0,
        };
        faults.range(13, place, Word(name, value), least, most);
    }
    let (committed, maximum, minimum) = (row[2], row[8], row[9]);
    if minimum > maximum {
        let what = format!("minimum {minimum} above maximum {maximum}");
        faults.add(13, place, what);
    }
    if UNCOMMITTED.contains(&row[1]) && committed > 0 {
        let name = KINDS[row[1] as usize];
        let what = format!("committed {committed} above 0, with kind {kind} ({name})");
        faults.add(13, place, what);
    }
}

/// A table of which rows or schedules name entries: the number that it has, and its entries if it is in the file.
struct Named<'a, T> {
    name: &'static str,
    count: u64,
    entries: Option<&'a [T]>,
}

impl<'a, T> Named<'a, T> {
    fn new(table: &Table, entries: Option<&'a [T]>) -> Self {
        Named {
            name: table.name,
            count: table.count,
            entries,
        }
    }

    /// So many entries from a first one, as far as there are any to look at; beyond the table is a fault.
    fn stretch(
        &self,
        [first, own]: [u32; 2],
        ground: u32,
        place: &str,
        faults: &mut Faults,
    ) -> &'a [T] {
        let (name, count) = (self.name, self.count);
        let end = u64::from(first) + u64::from(own);
        if end > count {
            let what = format!(
                "{own} {name} from first {first} end at {end}, beyond the {count} of the table"
            );
            faults.add(ground, place, what);
            return &[];
        }
        self.entries
            .map_or(&[], |entries| &entries[first as usize..end as usize])
    }
}

/// Ground 18, and ground 14 for the schedules that a row names.
fn schedule_faults(
    row: &RowWords,
    schedules: &Named<[u32; 3]>,
    points: &Named<[u32; 2]>,
    place: &str,
    faults: &mut Faults,
) {
    let [first, own, dispatched] = [12, 13, 14].map(|word| row[word]);
    faults.range(
        18,
        place,
        Word("schedules", own.into()),
        0,
        ROW_SCHEDULES_MOST as i64,
    );
    if own == 0 && dispatched > 0 {
        let what = format!("dispatched {dispatched} above 0, without schedules");
        faults.add(18, place, what);
    } else if own > 0 && dispatched >= own {
        let what = format!("dispatched {dispatched} not below schedules {own}");
        faults.add(18, place, what);
    }
    if own == 0 {
        return;
    }
    let named = schedules.stretch([first, own], 18, place, faults);
    for (index, [kind, first, count]) in named.iter().enumerate() {
        let place = format!("{place}, schedule {}", index + 1);
        let most = SCHEDULE_KINDS.len() as i64;
        faults.range(18, &place, Word("kind", (*kind).into()), 1, most);
        curve_faults([*first, *count], points, &place, faults);
    }
}

/// Ground 14.
fn curve_faults(stretch: [u32; 2], points: &Named<[u32; 2]>, place: &str, faults: &mut Faults) {
    let count = Word("points", stretch[1].into());
    faults.range(14, place, count, 1, CURVE_POINTS_MOST as i64);
    if stretch[1] == 0 {
        return;
    }
    let curve = points.stretch(stretch, 14, place, faults);
    let mut before: Option<(i64, i64)> = None;
    for (index, [price, kw]) in curve.iter().enumerate() {
        let place = format!("{place}, point {}", index + 1);
        let (price, kw) = (i64::from(*price as i32), i64::from(*kw));
        let most = i64::from(PRICE_MOST);
        faults.range(14, &place, Word("price", price), -most, most);
        faults.range(14, &place, Word("kw", kw), 0, KW_MOST.into());
        if let Some((price_before, kw_before)) = before {
            for (name, value, least) in [("price", price, price_before), ("kw", kw, kw_before)] {
                if value < least {
                    let what = format!("{name} {value} below {least}, that of point {index}");
                    faults.add(14, &place, what);
                }
            }
        }
        before = Some((price, kw));
    }
}
