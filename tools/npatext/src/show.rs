//! From a stream to text from which the same bytes are made.

use crate::make::{end_of, make_under, Terms};
use crate::names::{Sign, KINDS, ROW_WORDS, SCHEDULE_KINDS};
use npa_tests::layout::{
    hex, word_at, Format, RowWords, BLOCK_MOST, FILE_MOST, MARKET, OPENING_BYTES, PLAIN_FORMAT,
    POINT_BYTES, SCHEDULE_BYTES, YEAR_FORMAT, YEAR_OPENING_BYTES,
};

/// Bytes that one line shows.
const LINE_BYTES: usize = 32;

/// The text of a stream, which ends where npalist stops at a length or the stream is cut.
pub fn show(stream: &[u8]) -> String {
    let mut text = String::new();
    let mut terms = None;
    let mut rest = stream;
    for number in 0.. {
        let most = if number == 0 { BLOCK_MOST } else { FILE_MOST };
        let Some(length) = word_at(rest, 0).map(|length| length as usize) else {
            break;
        };
        if length > most || length > rest.len() - 4 {
            let why = if length > most { "too long" } else { "cut" };
            text += &format!("\n# block {number}, {why}\nlength {length}\n");
            rest = &rest[4..];
            break;
        }
        let (block, behind) = rest[4..].split_at(length);
        text += &format!("\n# block {number}\n{}", show_block(number, block, terms));
        if number == 0 {
            terms = word_at(block, 4)
                .zip(word_at(block, 8))
                .map(<[u32; 2]>::from);
            terms = terms.filter(|_| block.len() >= OPENING_BYTES);
        }
        rest = behind;
    }
    for bytes in rest.chunks(LINE_BYTES) {
        text += &format!("raw {}\n", hex(bytes));
    }
    text.trim_start().to_string()
}

/// The lines of one block; bytes that its fields do not say are set behind them.
fn show_block(number: u64, block: &[u8], terms: Option<Terms>) -> String {
    let mut text = match number {
        0 if block.len() >= OPENING_BYTES => show_opening(block),
        1.. if block.len() >= Format::of(block).header_bytes() => show_interval(block, terms),
        _ => format!("block length={}\n", block.len()),
    };
    let said = make_under(terms, &text).expect("what is shown can be made");
    for (at, bytes) in differences(&said[4..], block) {
        text += &format!("bytes {at} {}\n", hex(bytes));
    }
    text
}

/// The stretches of a block that are not as said.
fn differences<'a>(said: &[u8], block: &'a [u8]) -> Vec<(usize, &'a [u8])> {
    let mut stretches: Vec<(usize, usize)> = Vec::new();
    for at in (0..block.len()).filter(|at| said[*at] != block[*at]) {
        match stretches.last_mut() {
            Some((from, to)) if at < *to + 4 && at < *from + LINE_BYTES => *to = at + 1,
            _ => stretches.push((at, at + 1)),
        }
    }
    let part = |(from, to): (usize, usize)| (from, &block[from..to]);
    stretches.into_iter().map(part).collect()
}

/// Adds a field unless it has the value that it has when left out.
fn say<T: PartialEq + ToString>(text: &mut String, name: &str, value: T, left_out: T) {
    if value != left_out {
        *text += &format!(" {name}={}", value.to_string());
    }
}

/// So many words of the block from an offset.
fn words<const N: usize>(block: &[u8], at: usize) -> [u32; N] {
    std::array::from_fn(|index| word_at(block, at + 4 * index).expect("the block is long enough"))
}

/// The entries of a table, if it lies wholly in the block.
fn table<const N: usize>(block: &[u8], count: u32, at: u32) -> Option<Vec<[u32; N]>> {
    let (count, at) = (count as usize, at as usize);
    let fits = at + 4 * N * count <= block.len();
    fits.then(|| (0..count).map(|i| words(block, at + 4 * N * i)).collect())
}

/// The opening line.
fn show_opening(block: &[u8]) -> String {
    let [format, net_cone, days, count, at] = words(block, 0);
    let ids: Vec<[u32; 1]> = table(block, count, at).unwrap_or_default();
    let ids = ids.concat();
    let list = id_list(&ids);
    let year = word_at(block, OPENING_BYTES).filter(|_| format == YEAR_FORMAT);
    let mut text = format!("opening net_cone={net_cone} days={days}");
    let (own_format, front) = match year {
        Some(year) => {
            text += &format!(" year={year}");
            (YEAR_FORMAT, YEAR_OPENING_BYTES)
        }
        None => (PLAIN_FORMAT, OPENING_BYTES),
    };
    text += &format!(" ids={list}");
    say(&mut text, "format", format, own_format);
    say(&mut text, "count", count as usize, ids.len());
    say(&mut text, "ids_at", at as usize, front);
    let end = end_of(front, &[(at as usize, 4 * ids.len())]);
    say(&mut text, "length", block.len(), end);
    text + "\n"
}

/// Ids with commas between them, three and more in a row as a range.
fn id_list(ids: &[u32]) -> String {
    let mut parts = Vec::new();
    let mut rest = ids;
    while let Some(first) = rest.first() {
        let follows =
            |(index, id): &(usize, &u32)| u64::from(**id) == u64::from(*first) + *index as u64;
        let count = rest.iter().enumerate().take_while(follows).count();
        if count > 2 {
            parts.push(format!("{first}-{}", rest[count - 1]));
        } else {
            parts.extend(rest[..count].iter().map(u32::to_string));
        }
        rest = &rest[count..];
    }
    parts.join(",")
}

/// The tables of an interval.
struct Tables {
    format: Format,
    rows: Vec<RowWords>,
    points: Vec<[u32; 2]>,
    schedules: Vec<[u32; 3]>,
}

impl Tables {
    /// Those that lie wholly in the block, by counts and offsets.
    fn read(block: &[u8], format: Format, places: &[u32]) -> Self {
        let rows = match format {
            Format::One => {
                let rows: Vec<[u32; 14]> = table(block, places[0], places[1]).unwrap_or_default();
                rows.iter().map(whole_row).collect()
            }
            Format::Two => table(block, places[0], places[1]).unwrap_or_default(),
        };
        Tables {
            format,
            rows,
            points: table(block, places[2], places[3]).unwrap_or_default(),
            schedules: match places[4..] {
                [count, at] => table(block, count, at).unwrap_or_default(),
                _ => Vec::new(),
            },
        }
    }

    /// Name, number and bytes of each table.
    fn sizes(&self) -> [(&'static str, usize, usize); 3] {
        let [rows, points, schedules] = [self.rows.len(), self.points.len(), self.schedules.len()];
        [
            ("rows", rows, self.format.row_bytes() * rows),
            ("points", points, POINT_BYTES * points),
            ("schedules", schedules, SCHEDULE_BYTES * schedules),
        ]
    }
}

/// A row of format 1 with a last word that it does not have.
fn whole_row(row: &[u32; 14]) -> RowWords {
    std::array::from_fn(|index| row.get(index).copied().unwrap_or(0))
}

/// The interval line, its rows, and points and schedules that no row has as its own.
fn show_interval(block: &[u8], terms: Option<Terms>) -> String {
    let format = Format::of(block);
    let head: [u32; 6] = words(block, 0);
    let places: Vec<u32> = match format {
        Format::One => words::<4>(block, 24).to_vec(),
        Format::Two => words::<6>(block, 24).to_vec(),
    };
    let tables = Tables::read(block, format, &places);
    let mut text = format!("interval {}", head[1]);
    say(&mut text, "format", head[0], 1);
    let above = |index: usize| terms.map(|terms| terms[index]);
    for (index, name) in [(0, "net_cone"), (1, "days")] {
        if above(index) != Some(head[2 + index]) {
            text += &format!(" {name}={}", head[2 + index]);
        }
    }
    say(&mut text, "region_wide", head[4], 0);
    say(&mut text, "imports", head[5] as i32, 0);
    let (mut placed, mut usual) = (Vec::new(), format.header_bytes());
    for (place, (name, count, bytes)) in places.chunks(2).zip(tables.sizes()) {
        let at = place[1] as usize;
        say(&mut text, name, place[0] as usize, count);
        say(&mut text, &format!("{name}_at"), at, usual);
        placed.push((at, bytes));
        usual = at + bytes;
    }
    say(
        &mut text,
        "length",
        block.len(),
        end_of(format.header_bytes(), &placed),
    );
    text + "\n" + &show_rows(&tables)
}

/// How many points and schedules are said so far.
#[derive(Default)]
struct SaidSoFar {
    points: usize,
    schedules: usize,
}

/// The rows, each with its curve or its schedules if these are not said before.
fn show_rows(tables: &Tables) -> String {
    let mut text = String::new();
    let mut said = SaidSoFar::default();
    for row in &tables.rows {
        let (before, named) = match tables.format {
            Format::One => show_curve(row, tables, &mut said),
            Format::Two => show_offer(row, tables, &mut said),
        };
        text += &format!("{before}{}{named}\n", show_row(row));
    }
    text += &show_points(&tables.points[said.points..]);
    text + &show_schedules(&tables.schedules[said.schedules..])
}

/// The curve of a row of format 1, and the points that stand before it.
fn show_curve(row: &RowWords, tables: &Tables, said: &mut SaidSoFar) -> (String, String) {
    let (first, count) = (row[12] as usize, row[13] as usize);
    if count == 0 || first < said.points || first + count > tables.points.len() {
        return (String::new(), show_stretch(row, "points"));
    }
    let before = show_points(&tables.points[said.points..first]);
    said.points = first + count;
    let list = point_list(&tables.points[first..said.points]);
    (before, format!(" curve={list}"))
}

/// The schedules of a row of format 2, and the points and schedules that stand before them.
fn show_offer(row: &RowWords, tables: &Tables, said: &mut SaidSoFar) -> (String, String) {
    let (first, count) = (row[12] as usize, row[13] as usize);
    let mut dispatched = String::new();
    say(&mut dispatched, "dispatched", row[14], 0);
    if count == 0 || first < said.schedules || first + count > tables.schedules.len() {
        return (String::new(), show_stretch(row, "schedules") + &dispatched);
    }
    let mut before = show_schedules(&tables.schedules[said.schedules..first]);
    said.schedules = first + count;
    let own = &tables.schedules[first..said.schedules];
    let behind = own
        .iter()
        .map(|schedule| schedule[1] as usize)
        .find(|point| *point >= said.points);
    if let Some(points) = behind.and_then(|point| tables.points.get(said.points..point)) {
        before += &show_points(points);
        said.points += points.len();
    }
    let parts: Vec<String> = own
        .iter()
        .map(|schedule| show_schedule(schedule, tables, said))
        .collect();
    (before, format!(" offer={}{dispatched}", parts.join(";")))
}

/// A schedule, with its points if they are the next to be said.
fn show_schedule(schedule: &[u32; 3], tables: &Tables, said: &mut SaidSoFar) -> String {
    let [kind, first, count] = schedule.map(|word| word as usize);
    let own = first == said.points && count > 0;
    let points = tables.points.get(first..first + count).filter(|_| own);
    let Some(points) = points else {
        return named_schedule(schedule);
    };
    said.points += count;
    format!("{}@{}", schedule_kind(kind as u32), point_list(points))
}

/// A schedule with the first and the number of its points.
fn named_schedule([kind, first, count]: &[u32; 3]) -> String {
    format!("{}@{first}+{count}", schedule_kind(*kind))
}

/// A kind by its name, or its number if it has none.
fn schedule_kind(kind: u32) -> String {
    let named = kind
        .checked_sub(MARKET)
        .and_then(|kind| SCHEDULE_KINDS.get(kind as usize));
    named.map_or(kind.to_string(), |name| name.to_string())
}

/// The line of schedules that no row has as its own, if there are any.
fn show_schedules(schedules: &[[u32; 3]]) -> String {
    if schedules.is_empty() {
        return String::new();
    }
    let parts: Vec<String> = schedules.iter().map(named_schedule).collect();
    format!("schedules {}\n", parts.join(";"))
}

/// First entry and number of entries of a row.
fn show_stretch(row: &RowWords, number: &str) -> String {
    let mut text = String::new();
    say(&mut text, "first", row[12], 0);
    say(&mut text, number, row[13], 0);
    text
}

/// A row without its points or schedules.
fn show_row(row: &RowWords) -> String {
    let kind = KINDS.get(row[1] as usize);
    let kind = kind.map_or(row[1].to_string(), |name| name.to_string());
    let mut text = format!("row {} kind={kind}", row[0]);
    for (index, name, sign) in ROW_WORDS {
        match sign {
            Sign::Signed => say(&mut text, name, row[index] as i32, 0),
            Sign::Unsigned => say(&mut text, name, row[index], 0),
        }
    }
    text
}

/// The line of points that no row has as its curve, if there are any.
fn show_points(points: &[[u32; 2]]) -> String {
    if points.is_empty() {
        return String::new();
    }
    format!("points {}\n", point_list(points))
}

/// Points with commas between them.
fn point_list(points: &[[u32; 2]]) -> String {
    let points = points
        .iter()
        .map(|[price, kw]| format!("{}:{kw}", *price as i32));
    points.collect::<Vec<_>>().join(",")
}
