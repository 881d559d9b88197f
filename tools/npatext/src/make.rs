//! From text to a stream.

use crate::line::{Fault, Line};
use crate::names::{Sign, KINDS, ROW_WORDS, SCHEDULE_KINDS};
use npa_tests::layout::{
    push_block, Format, IntervalFile, Opening, RowWords, MARKET, POINT_BYTES, SCHEDULE_BYTES,
};

/// The longest block that a text may describe.
const LENGTH_MOST: usize = 1 << 20;

/// Net CONE and days.
pub type Terms = [u32; 2];

/// The stream that a text describes.
pub fn make(text: &str) -> Result<Vec<u8>, Fault> {
    make_under(None, text)
}

/// The stream of a text whose intervals may leave out the terms of an opening above it.
pub fn make_under(terms: Option<Terms>, text: &str) -> Result<Vec<u8>, Fault> {
    let mut maker = Maker {
        terms,
        ..Maker::default()
    };
    for (index, text) in text.lines().enumerate() {
        if let Some(line) = Line::split(index + 1, text)? {
            maker.line(line)?;
        }
    }
    maker.end_block()?;
    Ok(maker.stream)
}

/// Where a block ends if nothing lies behind its tables, each an offset and a size.
pub fn end_of(header: usize, tables: &[(usize, usize)]) -> usize {
    let ends = tables.iter().map(|(at, size)| at + size);
    ends.max().unwrap_or(0).max(header)
}

/// The stream so far, and the block to which the next lines may add.
#[derive(Default)]
struct Maker {
    stream: Vec<u8>,
    terms: Option<Terms>,
    block: Option<Block>,
}

/// A block whose lines are being read.
struct Block {
    line: usize,
    body: Body,
    length: Option<usize>,
    /// Bytes set after everything else.
    set: Vec<Set>,
}

/// Bytes at an offset, and the line that sets them.
struct Set {
    line: usize,
    at: usize,
    bytes: Vec<u8>,
}

enum Body {
    Opening(Opening),
    Interval(Interval),
    Bytes,
}

/// An interval, with the counts and offsets that its text gives.
struct Interval {
    format: Format,
    head: [u32; 12],
    said: [Option<u32>; 6],
    rows: Vec<RowWords>,
    points: Vec<[u32; 2]>,
    schedules: Vec<[u32; 3]>,
}

/// The counts and offsets that a text may give; the last two are those of format 2.
const TABLE_WORDS: [&str; 6] = [
    "rows",
    "rows_at",
    "points",
    "points_at",
    "schedules",
    "schedules_at",
];

impl Maker {
    /// Reads one line.
    fn line(&mut self, mut line: Line) -> Result<(), Fault> {
        match line.keyword {
            "opening" => self.opening(&mut line)?,
            "interval" => self.interval(&mut line)?,
            "block" => self.begin(&mut line, Body::Bytes)?,
            "row" => row(&mut line, self.block.as_mut())?,
            "points" => points(&mut line, self.block.as_mut())?,
            "schedules" => schedules(&mut line, self.block.as_mut())?,
            "bytes" => bytes(&mut line, self.block.as_mut())?,
            "length" | "raw" | "cut" => self.bare(&mut line)?,
            keyword => return Err(line.wrong(format!("`{keyword}` begins no line"))),
        }
        line.done()
    }

    /// A block begins; the one before is complete.
    fn begin(&mut self, line: &mut Line, body: Body) -> Result<(), Fault> {
        self.end_block()?;
        let length = line.take("length").map(|text| {
            let most = LENGTH_MOST as i64;
            line.number("length", text, 0, most).map(|n| n as usize)
        });
        self.block = Some(Block {
            line: line.number,
            body,
            length: length.transpose()?,
            set: Vec::new(),
        });
        Ok(())
    }

    /// `opening net_cone=N days=N ids=LIST`, and `year`, `format`, `count`, `ids_at`, `length`.
    fn opening(&mut self, line: &mut Line) -> Result<(), Fault> {
        let net_cone = line.need("net_cone")?;
        let net_cone = line.unsigned("net_cone", net_cone)?;
        let days = line.need("days")?;
        let days = line.unsigned("days", days)?;
        let ids = line.need("ids")?;
        let ids = id_list(line, "ids", ids)?;
        let mut opening = match line.take_unsigned("year")? {
            None => Opening::new(net_cone, days, &ids),
            Some(year) => Opening::of_year(year, net_cone, days, &ids),
        };
        if let Some(format) = line.take_unsigned("format")? {
            opening.words[0] = format;
        }
        if let Some(at) = line.take_unsigned("ids_at")? {
            opening.place(at as usize, 0);
        }
        if let Some(count) = line.take_unsigned("count")? {
            opening.words[3] = count;
        }
        self.begin(line, Body::Opening(opening))?;
        self.terms = Some([net_cone, days]);
        Ok(())
    }

    /// `interval N region_wide=N imports=N`, and all other words of the header.
    fn interval(&mut self, line: &mut Line) -> Result<(), Fault> {
        let number = line.word("interval")?;
        let number = line.unsigned("interval", number)?;
        let word = line.take_unsigned("format")?.unwrap_or(1);
        let format = Format::of(&word.to_le_bytes());
        let terms = self.terms;
        let term = |line: &mut Line, index: usize, name: &str| {
            let above = terms.map(|terms| terms[index]);
            let term = line.take_unsigned(name)?.or(above);
            term.ok_or_else(|| line.fault(name, "is missing, and no opening stands above"))
        };
        let net_cone = term(line, 0, "net_cone")?;
        let days = term(line, 1, "days")?;
        let region_wide = line.take_unsigned("region_wide")?.unwrap_or(0);
        let imports = line.take_signed("imports")?.unwrap_or(0);
        let mut said = [None; 6];
        for (said, name) in said.iter_mut().zip(&TABLE_WORDS[..2 * format.tables()]) {
            *said = line.take_unsigned(name)?;
        }
        let mut head = [0; 12];
        head[..6].copy_from_slice(&[word, number, net_cone, days, region_wide, imports]);
        let interval = Interval {
            format,
            head,
            said,
            rows: Vec::new(),
            points: Vec::new(),
            schedules: Vec::new(),
        };
        self.begin(line, Body::Interval(interval))
    }

    /// `length N`, `raw HEX`, `cut N`: the bytes of the stream itself.
    fn bare(&mut self, line: &mut Line) -> Result<(), Fault> {
        self.end_block()?;
        if line.keyword == "raw" {
            self.stream.extend(line.hex("raw")?);
            return Ok(());
        }
        let number = line.word(line.keyword)?;
        let number = line.unsigned(line.keyword, number)?;
        if line.keyword == "length" {
            self.stream.extend(number.to_le_bytes());
            return Ok(());
        }
        let left = self.stream.len().checked_sub(number as usize);
        let left = left.ok_or_else(|| line.fault("cut", "is more than the stream has"))?;
        self.stream.truncate(left);
        Ok(())
    }

    /// Puts the block that is now complete behind its length.
    fn end_block(&mut self) -> Result<(), Fault> {
        if let Some(block) = self.block.take() {
            push_block(&mut self.stream, &block.into_bytes()?);
        }
        Ok(())
    }
}

impl Block {
    /// The bytes of the block.
    fn into_bytes(self) -> Result<Vec<u8>, Fault> {
        let length = self.length()?;
        let mut bytes = match self.body {
            Body::Opening(mut opening) => {
                opening.length = length;
                opening.bytes()
            }
            Body::Interval(interval) => interval.file(length).bytes(),
            Body::Bytes => vec![0; length],
        };
        for Set {
            line,
            at,
            bytes: set,
        } in self.set
        {
            let place = bytes.get_mut(at..at + set.len());
            let place = place.ok_or_else(|| beyond(line))?;
            place.copy_from_slice(&set);
        }
        Ok(bytes)
    }

    /// The length given, or else where the block ends.
    fn length(&self) -> Result<usize, Fault> {
        let end = match &self.body {
            Body::Opening(opening) => {
                end_of(opening.front(), &[(opening.ids_at, 4 * opening.ids.len())])
            }
            Body::Interval(interval) => end_of(interval.format.header_bytes(), &interval.tables()),
            Body::Bytes => {
                let sets = self.set.iter().map(|set| (set.at, set.bytes.len()));
                end_of(0, &sets.collect::<Vec<_>>())
            }
        };
        match self.length {
            Some(length) => Ok(length),
            None if end <= LENGTH_MOST => Ok(end),
            None => Err(Fault {
                line: self.line,
                field: Some("length".to_string()),
                what: "is missing, and a table lies far out".to_string(),
            }),
        }
    }
}

/// The fault of bytes set outside their block.
fn beyond(line: usize) -> Fault {
    Fault {
        line,
        field: Some("bytes".to_string()),
        what: "lie beyond the block's end".to_string(),
    }
}

impl Interval {
    /// Offset and size of rows, points and schedules; format 1 has none of these.
    fn tables(&self) -> [(usize, usize); 3] {
        let rows = self.format.row_bytes() * self.rows.len();
        let points = POINT_BYTES * self.points.len();
        let schedules = SCHEDULE_BYTES * self.schedules.len();
        let at = |table: usize, else_at: usize| {
            self.said[2 * table + 1].map_or(else_at, |at| at as usize)
        };
        let rows_at = at(0, self.format.header_bytes());
        let points_at = at(1, rows_at + rows);
        let schedules_at = at(2, points_at + points);
        [
            (rows_at, rows),
            (points_at, points),
            (schedules_at, schedules),
        ]
    }

    /// The file; counts are those of the lines unless the text gives others.
    fn file(self, length: usize) -> IntervalFile {
        let at = self.tables().map(|(at, _)| at);
        let mut file = IntervalFile::new(0, 0, 0, self.rows, self.points);
        if self.format == Format::Two {
            file = file.with_schedules(self.schedules);
        }
        file.head = self.head;
        file.place_three(at, length);
        for (index, said) in self.said.iter().enumerate() {
            file.head[6 + index] = said.unwrap_or(file.head[6 + index]);
        }
        file
    }
}

/// The interval to which a row, points or schedules belong.
fn interval_of<'a>(line: &Line, block: Option<&'a mut Block>) -> Result<&'a mut Interval, Fault> {
    match block.map(|block| &mut block.body) {
        Some(Body::Interval(interval)) => Ok(interval),
        _ => Err(line.wrong(format!("`{}` needs an interval above it", line.keyword))),
    }
}

/// `row ID kind=KIND committed=N ..` with its curve or, in format 2, its schedules; for several ids, as many rows that
/// are alike and share their points and schedules.
fn row(line: &mut Line, block: Option<&mut Block>) -> Result<(), Fault> {
    let interval = interval_of(line, block)?;
    let mut words = [0; 15];
    let ids = line.word("id")?;
    let ids = id_list(line, "id", ids)?;
    let kind = line.need("kind")?;
    words[1] = kind_of(line, "kind", kind, &KINDS, 0)?;
    for (index, name, sign) in ROW_WORDS {
        let word = match sign {
            Sign::Signed => line.take_signed(name)?,
            Sign::Unsigned => line.take_unsigned(name)?,
        };
        words[index] = word.unwrap_or(0);
    }
    let named = match interval.format {
        Format::One => curve(line, interval)?,
        Format::Two => offer(line, interval)?,
    };
    words[12..].copy_from_slice(&named);
    for id in ids {
        words[0] = id;
        interval.rows.push(words);
    }
    Ok(())
}

/// `curve=LIST`, or `first` and `points` instead: words 12 and 13, and a 0.
fn curve(line: &mut Line, interval: &mut Interval) -> Result<[u32; 3], Fault> {
    let Some(list) = line.take("curve") else {
        return stretch(line, "points");
    };
    let list = point_list(line, "curve", list)?;
    said_once(line, "curve", ["first", "points"])?;
    let first = interval.points.len() as u32;
    interval.points.extend(&list);
    Ok([first, list.len() as u32, 0])
}

/// `offer=LIST`, or `first` and `schedules` instead, and `dispatched`: words 12 to 14.
fn offer(line: &mut Line, interval: &mut Interval) -> Result<[u32; 3], Fault> {
    let dispatched = line.take_unsigned("dispatched")?.unwrap_or(0);
    let [first, count, _] = match line.take("offer") {
        None => stretch(line, "schedules")?,
        Some(list) => {
            let first = interval.schedules.len() as u32;
            add_schedules(line, "offer", list, interval)?;
            said_once(line, "offer", ["first", "schedules"])?;
            [first, interval.schedules.len() as u32 - first, 0]
        }
    };
    Ok([first, count, dispatched])
}

/// `first` and a number of entries.
fn stretch(line: &mut Line, number: &str) -> Result<[u32; 3], Fault> {
    let first = line.take_unsigned("first")?.unwrap_or(0);
    let count = line.take_unsigned(number)?.unwrap_or(0);
    Ok([first, count, 0])
}

/// Fields that another says already are not there.
fn said_once(line: &mut Line, by: &str, fields: [&str; 2]) -> Result<(), Fault> {
    match fields.into_iter().find(|field| line.take(field).is_some()) {
        Some(field) => Err(line.fault(field, format!("is given beside `{by}`, which says it"))),
        None => Ok(()),
    }
}

/// A kind by its name, of which the first has this number, or by its number.
fn kind_of(line: &Line, field: &str, text: &str, names: &[&str], first: u32) -> Result<u32, Fault> {
    let named = names.iter().position(|name| *name == text);
    let kind = named
        .map(|kind| first + kind as u32)
        .or_else(|| text.parse().ok());
    kind.ok_or_else(|| {
        let names = names.join(", ");
        line.fault(
            field,
            format!("`{text}` is none of {names}, and no number of 32 bits"),
        )
    })
}

/// `points LIST`: points that no row has as its curve.
fn points(line: &mut Line, block: Option<&mut Block>) -> Result<(), Fault> {
    let interval = interval_of(line, block)?;
    let list = line.word("points")?;
    interval.points.extend(point_list(line, "points", list)?);
    Ok(())
}

/// `schedules LIST`: schedules that no row has as its offer.
fn schedules(line: &mut Line, block: Option<&mut Block>) -> Result<(), Fault> {
    let interval = interval_of(line, block)?;
    if interval.format == Format::One {
        return Err(line.wrong("`schedules` needs an interval of format=2 above it"));
    }
    let list = line.word("schedules")?;
    add_schedules(line, "schedules", list, interval)
}

/// Adds schedules with semicolons between them, each a kind, `@` and points: prices and kW, which are added too, or the
/// first and the number of points in the table, as `4+2`.
fn add_schedules(
    line: &Line,
    field: &str,
    text: &str,
    interval: &mut Interval,
) -> Result<(), Fault> {
    for part in text.split(';') {
        let Some((kind, points)) = part.split_once('@') else {
            return Err(line.fault(field, format!("`{part}` is not a kind, an @ and points")));
        };
        let kind = kind_of(line, field, kind, &SCHEDULE_KINDS, MARKET)?;
        let [first, count] = match points.split_once('+').filter(|_| !points.contains(':')) {
            Some((first, count)) => [line.unsigned(field, first)?, line.unsigned(field, count)?],
            None => {
                let list = point_list(line, field, points)?;
                let first = interval.points.len() as u32;
                interval.points.extend(&list);
                [first, list.len() as u32]
            }
        };
        interval.schedules.push([kind, first, count]);
    }
    Ok(())
}

/// `bytes AT HEX`: bytes of the block, whatever else stands there.
fn bytes(line: &mut Line, block: Option<&mut Block>) -> Result<(), Fault> {
    let Some(block) = block else {
        return Err(line.wrong("`bytes` needs a block above it"));
    };
    let at = line.word("offset")?;
    let at = line.number("offset", at, 0, LENGTH_MOST as i64)? as usize;
    let bytes = line.hex("bytes")?;
    let line = line.number;
    block.set.push(Set { line, at, bytes });
    Ok(())
}

/// Ids with commas between them; `11-14` is four of them.
fn id_list(line: &Line, field: &str, text: &str) -> Result<Vec<u32>, Fault> {
    let mut ids = Vec::new();
    for part in text.split(',').filter(|_| !text.is_empty()) {
        let (first, last) = part.split_once('-').unwrap_or((part, part));
        let first = line.unsigned(field, first)?;
        let last = line.unsigned(field, last)?;
        let more = last.checked_sub(first);
        if !more.is_some_and(|more| more < 100_000) {
            return Err(line.fault(field, format!("`{part}` is no range of ids")));
        }
        ids.extend(first..=last);
    }
    Ok(ids)
}

/// Points with commas between them, each a price, a colon and kW.
fn point_list(line: &Line, field: &str, text: &str) -> Result<Vec<[u32; 2]>, Fault> {
    let mut points = Vec::new();
    for part in text.split(',') {
        let Some((price, kw)) = part.split_once(':') else {
            return Err(line.fault(field, format!("`{part}` is not a price, a colon and kW")));
        };
        points.push([line.signed(field, price)?, line.unsigned(field, kw)?]);
    }
    Ok(points)
}
