//! Streams for the listing program: whole, refused at every ground, cut everywhere, at every limit, and long.

use crate::layout::{
    ledger_bytes, push_block, result_bytes, stream_of, Format, IntervalFile, Opening, Row,
    BLOCK_MOST, DAY_INTERVALS, FILE_MOST, IDS_MOST, KW_MOST, POINTS_MOST, ROWS_MOST,
};
use crate::listing;
use crate::random::{
    self, damage_settle, damaged_open, first_made, four_schedules, Rng, SettleCase, World, FULL,
    MIDDLE, SETTLING_GROUNDS, SMALL,
};
use crate::reference::{npalist, open};

/// The points of each row in a full file, which then has as many as there may be.
pub const ROW_POINTS: usize = POINTS_MOST / ROWS_MOST;

/// A stream and what it is called.
pub struct Case {
    pub name: String,
    pub stream: Vec<u8>,
}

impl Case {
    pub fn new(name: impl Into<String>, stream: Vec<u8>) -> Self {
        let name = name.into();
        Case { name, stream }
    }
}

/// The stream of document 01's listing.
pub fn document() -> Vec<u8> {
    stream_of(&[&listing::opening().bytes(), &listing::file(1000).bytes()])
}

/// The opening of document 01 and its file, for two intervals.
pub fn two_intervals() -> Vec<u8> {
    let second = stream_of(&[&listing::file(1001).bytes()]);
    [document(), second].concat()
}

/// The same with a third interval, whose file has format 2.
fn three_intervals() -> Vec<u8> {
    let third = stream_of(&[&listing::file(1002).in_format_2().bytes()]);
    [two_intervals(), third].concat()
}

/// The stream of three intervals, one of them in format 2, cut at every byte.
pub fn prefixes() -> Vec<Case> {
    let stream = three_intervals();
    let cut = |length: usize| Case::new(format!("{length} bytes"), stream[..length].to_vec());
    (0..=stream.len()).map(cut).collect()
}

/// Openings that each ground refuses, so many of each, with a file behind them.
pub fn refused_openings(rng: &mut Rng, each: usize) -> Vec<Case> {
    let file = listing::file(1000).bytes();
    let mut cases = Vec::new();
    for ground in [1, 2, 23, 3, 4] {
        for number in 0..each {
            let name = format!("opening refused by {ground}, number {number}");
            let block = first_made(&name, || {
                let block = damaged_open(rng, &FULL, ground).call(rng).block;
                let answer = open(&block, &mut vec![0; ledger_bytes(IDS_MOST)]);
                (answer == ground).then_some(block)
            });
            cases.push(Case::new(name, stream_of(&[&block, &file])));
        }
    }
    cases
}

/// Files that each ground refuses, so many of each, between two accepted ones.
pub fn refused_files(rng: &mut Rng, each: usize) -> Vec<Case> {
    let mut cases = Vec::new();
    let listed = SETTLING_GROUNDS
        .iter()
        .filter(|ground| ![6, 15, 16].contains(*ground));
    for ground in listed.copied() {
        for number in 0..each {
            let name = format!("file refused by {ground}, number {number}");
            cases.push(Case::new(name, refused_in_the_middle(rng, ground)));
        }
    }
    cases.push(Case::new("file refused by 16", full_pool()));
    cases
}

/// A stream of three files, of which this ground refuses the second and nothing the others.
fn refused_in_the_middle(rng: &mut Rng, ground: u32) -> Vec<u8> {
    first_made(&format!("a file refused by {ground} alone"), || {
        let world = World::any(rng, &MIDDLE);
        let [first, last] = [10, 12].map(|interval| world.file(rng, &MIDDLE, interval).bytes());
        let mut case = SettleCase {
            ledger: world.opened(),
            file: world.file(rng, &MIDDLE, 11),
            result_length: result_bytes(ROWS_MOST),
        };
        damage_settle(rng, &MIDDLE, ground, &mut case);
        if ground == 10 {
            case.file.head[1] = rng.below(11) as u32;
        }
        let opening = world.opening(rng, &MIDDLE).bytes();
        let refused = case.call(rng).file;
        let stream = stream_of(&[&opening, &first, &refused, &last]);
        let listing = String::from_utf8(npalist(&stream)).expect("a listing is text");
        let refusals: Vec<&str> = listing
            .lines()
            .filter(|line| line.starts_with('r'))
            .collect();
        let alone = refusals == [format!("refused,2,{ground}")] && listing.contains("\npool,12,");
        alone.then_some(stream)
    })
}

/// Two intervals that fill the pool, one too many, and a smaller one in its place.
fn full_pool() -> Vec<u8> {
    let ids: Vec<u32> = (1..=IDS_MOST as u32).collect();
    let file = |interval: u32, rows: usize| {
        let row = |id: &u32| Row {
            id: *id,
            kind: 1,
            committed: KW_MOST,
            ..Row::default()
        };
        let rows = ids[..rows].iter().map(|id| row(id).words()).collect();
        IntervalFile::new(200_000, 366, interval, rows, Vec::new()).bytes()
    };
    let opening = Opening::new(200_000, 366, &ids).bytes();
    let all = ids.len();
    let files = [file(0, all), file(1, all), file(2, all), file(2, 100)];
    let files = files.each_ref().map(|file| &file[..]);
    stream_of(&[&[&opening[..]], &files[..]].concat())
}

/// Blocks with lengths at, below and over each limit: whole, cut behind the length, and cut inside.
pub fn lengths() -> Vec<Case> {
    let far = [1 << 16, 1 << 24, 1 << 31, u32::MAX];
    let openings = [
        0, 1, 19, 20, 23, 24, 35, 36, 37, 39, 40, 41, 4095, 4096, 4097, 49_152, 61_440,
    ];
    let files = [
        0, 1, 3, 4, 39, 40, 41, 47, 48, 49, 311, 312, 313, 371, 372, 373,
    ];
    let limits = [49_151, 49_152, 49_153, 61_439, 61_440, 61_441];
    let mut cases = Vec::new();
    for length in openings.into_iter().chain(far) {
        cases.extend(openings_of(&listing::opening(), length));
        cases.extend(openings_of(&listing::opening_of(2016), length));
    }
    for length in files.into_iter().chain(limits).chain(far) {
        cases.extend(
            Format::BOTH
                .into_iter()
                .flat_map(|format| files_of(format, length)),
        );
    }
    for year in [0, 2016] {
        let name = format!("limits reached, year {year}");
        cases.push(Case::new(name, at_the_limits(year)));
    }
    cases
}

/// Blocks one byte over each limit, whose lengths end a listing.
pub fn too_long() -> Vec<Case> {
    let mut cases = openings_of(&listing::opening(), BLOCK_MOST as u32 + 1);
    for format in Format::BOTH {
        cases.extend(files_of(format, FILE_MOST as u32 + 1));
    }
    cases
}

/// An opening with this length, before the files of document 01's.
fn openings_of(opening: &Opening, length: u32) -> Vec<Case> {
    let mut opening = opening.clone();
    let files = &two_intervals()[4 + listing::opening().length..];
    opening.length = length.min(100_000) as usize;
    let name = format!("opening of format {}", opening.words[0]);
    at_length(&name, &[], &opening.bytes(), length, files)
}

/// The file of document 01 in this format with this length, behind two and before one that have their own.
fn files_of(format: Format, length: u32) -> Vec<Case> {
    let mut file = listing::file(1002);
    if format == Format::Two {
        file = file.in_format_2();
    }
    file.length = length.min(100_000) as usize;
    let behind = stream_of(&[&listing::file(1003).bytes()]);
    let name = format!("file of format {}", format.word());
    at_length(&name, &two_intervals(), &file.bytes(), length, &behind)
}

/// A block that is to have this length, between other bytes of a stream.
fn at_length(name: &str, before: &[u8], block: &[u8], length: u32, behind: &[u8]) -> Vec<Case> {
    let begun = [before, &length.to_le_bytes()].concat();
    let inside = &block[..block.len() / 2];
    let cases = [
        ("followed", [&begun, block, behind].concat()),
        ("last", [&begun, block].concat()),
        ("cut inside", [&begun, inside].concat()),
        ("cut behind its length", begun),
    ];
    let case = |(how, stream)| Case::new(format!("{name} of {length} bytes, {how}"), stream);
    cases.into_iter().map(case).collect()
}

/// The longest opening with the most ids, and the longest file of each format with the most rows and points, each point
/// of some row, and the most schedules.
fn at_the_limits(year: u32) -> Vec<u8> {
    let mut world = World::full();
    world.year = year;
    let mut opening = world.block();
    opening.place(BLOCK_MOST - 4 * IDS_MOST, 0);
    let mut rng = Rng::new(1);
    let mut file = world.full_file(&mut rng, 0, ROW_POINTS);
    let header = file.format.header_bytes();
    file.place(header + file.point_bytes(), header, file.format.most());
    let second = world.full_file(&mut rng, 1, ROW_POINTS);
    let mut second = four_schedules(&mut rng, second);
    let [_, points, schedules] = second.table_bytes();
    let header = second.format.header_bytes();
    let [points_at, rows_at] = [header + schedules, header + schedules + points];
    second.place_three([rows_at, points_at, header], second.format.most());
    let last = world.full_file(&mut Rng::new(2), DAY_INTERVALS * world.days - 1, ROW_POINTS);
    stream_of(&[
        &opening.bytes(),
        &file.bytes(),
        &second.bytes(),
        &last.bytes(),
    ])
}

/// The full year with so many files of its first intervals, all of format 1.
pub fn full_intervals(count: u32) -> Vec<u8> {
    full_year(count, |_, file| file)
}

/// The same, every second file in format 2 with four schedules a row.
fn full_schedules(count: u32) -> Vec<u8> {
    full_year(count, |rng, file| match file.head[1] % 2 {
        0 => file,
        _ => four_schedules(rng, file),
    })
}

/// The full year with so many files, each changed.
fn full_year(count: u32, change: fn(&mut Rng, IntervalFile) -> IntervalFile) -> Vec<u8> {
    let world = World::full();
    let mut rng = Rng::new(1);
    let mut stream = stream_of(&[&world.block().bytes()]);
    for interval in 0..count {
        let file = world.full_file(&mut rng, interval, ROW_POINTS);
        push_block(&mut stream, &change(&mut rng, file).bytes());
    }
    stream
}

/// Streams of very many blocks.
pub fn long(rng: &mut Rng) -> Vec<Case> {
    let opening = stream_of(&[&listing::opening().bytes()]);
    let empty = [opening.clone(), vec![0; 4 * 120_000]].concat();
    let mut accepted = opening;
    for interval in 0..6_000 {
        push_block(&mut accepted, &listing::file(17 * interval).bytes());
    }
    vec![
        Case::new("120000 empty blocks", empty),
        Case::new("6000 accepted files", accepted),
        Case::new("4000 files, accepted and refused", mixed(rng)),
        Case::new("40 full files of both formats", full_schedules(40)),
    ]
}

/// A year of 4000 files that is not over soon.
fn mixed(rng: &mut Rng) -> Vec<u8> {
    first_made("a year that is not over soon", || {
        let year = random::year(rng, &SMALL, 4_000);
        let mut stream = stream_of(&[&year.block]);
        for (file, _) in &year.calls {
            push_block(&mut stream, file);
        }
        let listing = npalist(&stream);
        let pools = listing.windows(5).filter(|line| line == b"pool,").count();
        (pools > 2_000).then_some(stream)
    })
}

/// The random stream with this number.
pub fn random_stream(rng: &mut Rng, number: u64) -> Case {
    let stream = match number % 16 {
        0 => random::stream(rng, &FULL, 5),
        1..=4 => random::stream(rng, &MIDDLE, 10),
        _ => random::stream(rng, &SMALL, 12),
    };
    Case::new(format!("random stream {number}"), stream)
}
