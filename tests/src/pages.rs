//! Inputs for the program npapage, and a page made a second way: out of the whole listing.

use crate::layout::{
    push_block, row_at, stream_of, word_at, IntervalFile, Opening, Row, Terms, FILE_MOST, IDS_MOST,
    KW_MOST,
};
use crate::listing::{DAYS, NET_CONE};
use crate::random::{self, Rng, SMALL};
use crate::reference::{npalist, HEADING};
use crate::streams::{self, Case};
use std::collections::HashSet;

// ---------------------------------------------------------------- a page out of the listing

/// The page of an input, its lines taken from the listing of its stream and its sums from these lines.
pub fn from_listing(input: &[u8]) -> Vec<u8> {
    let Some(id) = word_at(input, 0) else {
        return format!("{HEADING}cut,0\n").into_bytes();
    };
    let stream = &input[4..];
    let listing = String::from_utf8(npalist(stream)).expect("a listing is text");
    let second = listing.lines().nth(1).unwrap_or_default();
    if second == "cut,0" || second.starts_with("refused,0,") {
        return listing.into_bytes();
    }
    if !roster(stream).contains(&id) {
        return format!("{HEADING}refused,0,17\n").into_bytes();
    }
    let (lines, [shortfall, bonus, charged, credited]) = shown(&listing, id);
    let terms = Terms::of_opening(&stream[4..]).expect("an accepted opening has its words");
    let limit = terms.limit(largest_commitment(stream, &listing, id).into());
    let year = format!("year,{id},{shortfall},{bonus},{charged},{credited},{limit}\n");
    [HEADING, &lines, &year].concat().into_bytes()
}

/// The lines of a listing that a page shows too, with the sums of shortfall, bonus, charge and credit.
fn shown(listing: &str, id: u32) -> (String, [u64; 4]) {
    let id = id.to_string();
    let mut lines = String::new();
    let mut sums = [0; 4];
    for line in listing.lines().skip(1) {
        let words: Vec<&str> = line.split(',').collect();
        match words[..] {
            ["pool", ..] => continue,
            ["refused" | "cut", ..] => (),
            [_, plant, ..] if plant != id => continue,
            _ => {
                for (sum, word) in sums.iter_mut().zip(&words[6..]) {
                    *sum += word.parse::<u64>().expect("a figure of a row");
                }
            }
        }
        lines += &format!("{line}\n");
    }
    (lines, sums)
}

/// The greatest commitment of the plant's rows in the files that are wholly there and that the listing does not refuse.
fn largest_commitment(stream: &[u8], listing: &str, id: u32) -> u32 {
    let block_of = |line: &str| {
        line.strip_prefix("refused,")?
            .split(',')
            .next()?
            .parse()
            .ok()
    };
    let refused: HashSet<usize> = listing.lines().filter_map(block_of).collect();
    let mut largest = 0;
    let mut rest = stream;
    for number in 0.. {
        let Some(length) = word_at(rest, 0).filter(|length| *length as usize <= FILE_MOST) else {
            break;
        };
        let Some(block) = rest.get(4..4 + length as usize) else {
            break;
        };
        if number > 0 && !refused.contains(&number) {
            largest = largest.max(commitment(block, id));
        }
        rest = &rest[4 + block.len()..];
    }
    largest
}

/// The commitment of the plant's row in an accepted file; 0 if it has none.
fn commitment(file: &[u8], id: u32) -> u32 {
    let word = |at| word_at(file, at).expect("an accepted file has its words");
    let mut rows = (0..word(24) as usize).map(|index| row_at(file, index));
    rows.find(|at| word(*at) == id).map_or(0, |at| word(at + 8))
}

// ---------------------------------------------------------------- ids

/// The ids of a stream's opening, as far as they are there.
pub fn roster(stream: &[u8]) -> Vec<u32> {
    let word = |at: usize| word_at(stream, 4 + at);
    let (Some(count), Some(at)) = (word(12), word(16)) else {
        return Vec::new();
    };
    let count = (count as usize).min(IDS_MOST);
    (0..count)
        .map_while(|index| word(at as usize + 4 * index))
        .collect()
}

/// An id that a roster does not have, after that of some plant.
fn absent(roster: &[u32], from: u32) -> u32 {
    let free = |id: &u32| *id > 0 && !roster.contains(id);
    (from..=u32::MAX)
        .chain(1..)
        .find(free)
        .expect("a roster has few ids")
}

/// The first, middle and last plant of a stream, one that it does not have, 0 and the largest number.
fn some_ids(stream: &[u8]) -> Vec<u32> {
    let roster = roster(stream);
    let plant = |index: usize| roster.get(index).copied().unwrap_or(11);
    let last = roster.len().saturating_sub(1);
    let [first, middle, last] = [0, roster.len() / 2, last].map(plant);
    let absent = absent(&roster, middle);
    let mut ids = vec![first, middle, last, absent, 0, u32::MAX];
    ids.sort_unstable();
    ids.dedup();
    ids
}

/// The input for the page of this plant.
pub fn with_id(case: &Case, id: u32) -> Case {
    let input = [&id.to_le_bytes(), &case.stream[..]].concat();
    Case::new(format!("plant {id}, {}", case.name), input)
}

/// Each stream with some ids.
pub fn with_ids(cases: &[Case]) -> Vec<Case> {
    let inputs = |case: &Case| -> Vec<Case> {
        let ids = some_ids(&case.stream).into_iter();
        ids.map(|id| with_id(case, id)).collect()
    };
    cases.iter().flat_map(inputs).collect()
}

/// Each stream with a plant in its middle.
pub fn with_plants(cases: &[Case]) -> Vec<Case> {
    let input = |case: &Case| {
        let roster = roster(&case.stream);
        with_id(case, roster.get(roster.len() / 2).copied().unwrap_or(11))
    };
    cases.iter().map(input).collect()
}

/// Each stream with an id that it does not have.
pub fn with_absent_ids(cases: &[Case]) -> Vec<Case> {
    let input = |case: &Case| with_id(case, absent(&roster(&case.stream), 1));
    cases.iter().map(input).collect()
}

/// An input cut at every byte.
fn cut_everywhere(input: &Case) -> Vec<Case> {
    let cut = |length: usize| {
        let name = format!("{}, {length} bytes", input.name);
        Case::new(name, input.stream[..length].to_vec())
    };
    (0..=input.stream.len()).map(cut).collect()
}

/// The stream of two intervals behind the ids of a plant that is charged, one that is credited and one that it does
/// not have, each cut at every byte.
pub fn prefixes() -> Vec<Case> {
    let case = Case::new("two intervals", streams::two_intervals());
    let input = |id| cut_everywhere(&with_id(&case, id));
    [12, 14, 15].into_iter().flat_map(input).collect()
}

/// The random input with this number: mostly the page of a plant that the stream has.
pub fn random_page(rng: &mut Rng, number: u64) -> Case {
    let case = streams::random_stream(rng, number);
    let roster = roster(&case.stream);
    let any = rng.below(1 << 32) as u32;
    let id = match rng.below(12) {
        _ if roster.is_empty() => any,
        0 => absent(&roster, rng.pick(&roster)),
        1 => rng.pick(&[0, u32::MAX, any]),
        _ => rng.pick(&roster),
    };
    let mut input = with_id(&case, id);
    if rng.one_in(100) {
        input.stream.truncate(rng.index(4));
    }
    input
}

/// The small input with this number: every fifth has an absent id, 0 or the largest number; every tenth is cut in its
/// id.
pub fn small_page(rng: &mut Rng, number: u64) -> Case {
    let calls = rng.index(4);
    let stream = random::stream(rng, &SMALL, calls);
    let roster = roster(&stream);
    let id = match number % 20 {
        _ if roster.is_empty() => 1,
        0 | 10 => absent(&roster, rng.pick(&roster)),
        5 => 0,
        15 => u32::MAX,
        _ => rng.pick(&roster),
    };
    let mut input = with_id(&Case::new(format!("small stream {number}"), stream), id);
    if number % 10 == 9 {
        input.stream.truncate((number / 10 % 4) as usize);
    }
    input
}

// ---------------------------------------------------------------- years that a last row does not tell

/// A row of a demand resource.
fn demand(id: u32, committed: u32, metered: i32) -> Row {
    Row {
        id,
        kind: 1,
        committed,
        metered,
        ..Row::default()
    }
}

/// A PRD row without points, which is not considered.
fn unconsidered(id: u32, committed: u32) -> Row {
    Row {
        kind: 3,
        ..demand(id, committed, 0)
    }
}

/// A file without points.
fn file(net_cone: u32, days: u32, interval: u32, rows: &[Row]) -> Vec<u8> {
    let rows = rows.iter().map(Row::words).collect();
    IntervalFile::new(net_cone, days, interval, rows, Vec::new()).bytes()
}

/// The plants of a year below.
const PLANTS: [u32; 3] = [1, 2, 3];

/// A stream of files with these intervals and rows.
fn year(name: &str, files: &[(u32, Vec<Row>)]) -> Case {
    opened_by(&Opening::new(NET_CONE, DAYS, &PLANTS), name, files)
}

/// The same, with an opening that names this year.
fn named_year(start: u32, name: &str, files: &[(u32, Vec<Row>)]) -> Case {
    let opening = Opening::of_year(start, NET_CONE, DAYS, &PLANTS);
    opened_by(&opening, &format!("{name}, in {start}"), files)
}

fn opened_by(opening: &Opening, name: &str, files: &[(u32, Vec<Row>)]) -> Case {
    let mut stream = stream_of(&[&opening.bytes()]);
    for (interval, rows) in files {
        push_block(&mut stream, &file(NET_CONE, DAYS, *interval, rows));
    }
    Case::new(name, stream)
}

/// Streams in which plant 1's largest commitment is not that of its last row, or not one that counts.
pub fn commitments() -> Vec<Case> {
    let of = |committed| vec![demand(1, committed, 10), demand(2, 7, 900)];
    let falling = [(0, of(100)), (1, of(5_000)), (2, of(30))];
    let refused = [(0, of(100)), (0, of(5_000)), (1, of(30))];
    let prd = [(0, vec![unconsidered(1, 700)])];
    let prd_between = [(0, of(100)), (1, vec![unconsidered(1, 700)]), (2, of(50))];
    let mut cut = year(
        "the file with the largest is cut",
        &[(0, of(100)), (1, of(5_000))],
    );
    cut.stream.pop();
    let mut too_long = year(
        "the largest is behind a length over the limit",
        &[(0, of(100))],
    );
    let length = FILE_MOST as u32 + 1;
    too_long.stream.extend(length.to_le_bytes());
    push_block(&mut too_long.stream, &file(NET_CONE, DAYS, 1, &of(5_000)));
    vec![
        year("no files", &[]),
        year("the largest is not the last", &falling),
        year("the file with the largest is refused", &refused),
        year("only a PRD row that is not considered", &prd),
        year(
            "the largest is that of a PRD row not considered",
            &prd_between,
        ),
        cut,
        too_long,
        over_full_pool(),
    ]
}

/// A file that would raise the last plant's commitment, but fills the pool too full.
fn over_full_pool() -> Case {
    let ids: Vec<u32> = (1..=IDS_MOST as u32).collect();
    let all = |interval, last| {
        let mut rows: Vec<Row> = ids.iter().map(|id| demand(*id, KW_MOST, 0)).collect();
        rows[IDS_MOST - 1].committed = last;
        file(200_000, 366, interval, &rows)
    };
    let opening = Opening::new(200_000, 366, &ids).bytes();
    let files = [all(0, 5), all(1, 3), all(2, KW_MOST)];
    let stream = stream_of(&[&opening, &files[0], &files[1], &files[2]]);
    Case::new("the file with the largest is refused on 16", stream)
}

/// Streams in which plant 1 reaches its limit: after the last charge is cut; and raised again later.
pub fn limits() -> Vec<Case> {
    let short = |interval| (interval, vec![demand(1, 1, 0), demand(2, 0, 10)]);
    let reached: Vec<_> = (0..560).map(short).collect();
    let mut raised = reached.clone();
    raised.push((560, vec![demand(1, 2, 2)]));
    raised.extend((561..570).map(short));
    vec![
        year("a limit that is reached", &reached),
        year("a limit that is reached and raised", &raised),
        large_sums("sums above 32 bits", &Opening::new(200_000, 366, &[1, 2])),
        named_year(2016, "a limit that is reached", &reached),
        named_year(2016, "a limit that is reached and raised", &raised),
        named_year(2018, "a limit that is reached", &reached),
        large_sums(
            "sums above 32 bits, in 2016",
            &Opening::of_year(2016, 200_000, 365, &[1, 2]),
        ),
    ]
}

/// Sums of kW above 32 bits, and plant 1 at the largest limit.
fn large_sums(name: &str, opening: &Opening) -> Case {
    let most = KW_MOST as i32;
    let credited = Row {
        adjustment: most,
        ..demand(2, 0, most)
    };
    let [_, net_cone, days, ..] = opening.words;
    let mut stream = stream_of(&[&opening.bytes()]);
    for interval in 0..1_100 {
        let rows = [demand(1, KW_MOST, 0), credited];
        push_block(&mut stream, &file(net_cone, days, interval, &rows));
    }
    Case::new(name, stream)
}

/// Ids whose digits begin each other, in intervals of the same numbers.
pub fn alike() -> Case {
    let ids = [1, 11, 111, 1_111];
    let mut stream = stream_of(&[&Opening::new(NET_CONE, DAYS, &ids).bytes()]);
    for interval in ids {
        let rows = ids.map(|id| demand(id, 5 * id, 600));
        push_block(&mut stream, &file(NET_CONE, DAYS, interval, &rows));
    }
    Case::new("ids and intervals alike", stream)
}
