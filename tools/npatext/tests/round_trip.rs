//! Text to stream to text to stream gives the same bytes and the same text.

use npa_tests::layout::{push_block, stream_of, IntervalFile, Opening, Row};
use npa_tests::random::{self, Rng, Size, FULL, MIDDLE, SMALL};
use npa_tests::streams::document;
use npatext::{make, show};

/// Shows a stream and makes it again.
fn hold(stream: &[u8], name: &str) {
    let text = show(stream);
    let again = make(&text).unwrap_or_else(|fault| panic!("{name}: {fault}\n{text}"));
    assert!(again == stream, "{name}\n{text}");
    assert_eq!(show(&again), text, "{name}");
}

#[test]
fn document_01() {
    hold(&document(), "document 01");
}

#[test]
fn every_prefix() {
    let stream = document();
    for length in 0..=stream.len() {
        hold(&stream[..length], &format!("{length} bytes"));
    }
}

fn random_streams(size: &Size, calls: usize, count: u64) {
    for seed in 0..count {
        let stream = random::stream(&mut Rng::new(seed), size, calls);
        hold(&stream, &format!("seed {seed}"));
    }
}

#[test]
fn small_streams() {
    random_streams(&SMALL, 12, 2_000);
}

#[test]
fn middle_streams() {
    random_streams(&MIDDLE, 12, 300);
}

#[test]
fn full_streams() {
    random_streams(&FULL, 6, 40);
}

/// Blocks with any bytes in them: damaged openings and files of every ground.
#[test]
fn damaged_blocks() {
    for seed in 0..2_000 {
        let mut rng = Rng::new(seed);
        let mut stream = Vec::new();
        push_block(&mut stream, &random::open_call(&mut rng, &SMALL).block);
        for _ in 0..4 {
            push_block(&mut stream, &random::settle_call(&mut rng, &SMALL).file);
        }
        hold(&stream, &format!("seed {seed}"));
    }
}

/// Any bytes behind lengths of their own, and any bytes at all.
#[test]
fn any_bytes() {
    for seed in 0..2_000 {
        let mut rng = Rng::new(seed);
        let mut stream = Vec::new();
        for _ in 0..3 {
            let length = rng.index(130);
            push_block(&mut stream, &rng.bytes(length));
        }
        let length = rng.index(20);
        stream.extend(rng.bytes(length));
        hold(&stream, &format!("seed {seed}"));
    }
}

/// The words of the text's fields are those of the layouts.
#[test]
fn fields_are_the_words_of_the_layouts() {
    let text = "
        opening net_cone=1 days=2 ids=3,5-7 format=9
        interval 10 format=11 net_cone=12 days=13 region_wide=14 imports=-15
        row 20 kind=21 committed=22 owned=23 metered=-24 adjustment=-25 planned=26 \
            forced=27 maximum=28 minimum=29 online=30 lmp=-31 curve=-32:33,34:35
        row 36 kind=prd first=37 points=38";
    let mut opening = Opening::new(1, 2, &[3, 5, 6, 7]);
    opening.words[0] = 9;
    let row = Row {
        id: 20,
        kind: 21,
        committed: 22,
        owned: 23,
        metered: -24,
        adjustment: -25,
        planned: 26,
        forced: 27,
        maximum: 28,
        minimum: 29,
        online: 30,
        lmp: -31,
        first: 0,
        count: 2,
        dispatched: 0,
    };
    let prd = Row {
        id: 36,
        kind: 3,
        first: 37,
        count: 38,
        ..Row::default()
    };
    let points = vec![[-32i32 as u32, 33], [34, 35]];
    let mut file = IntervalFile::new(12, 13, 10, vec![row.words(), prd.words()], points);
    file.head[0] = 11;
    file.head[4] = 14;
    file.head[5] = -15i32 as u32;
    let stream = stream_of(&[&opening.bytes(), &file.bytes()]);
    assert_eq!(make(text).unwrap(), stream);
}

/// A year is word 5, and the ids follow it; the format is 2 unless another is given.
#[test]
fn a_year_is_a_word_of_the_opening() {
    let made = |text: &str| make(text).unwrap();
    let mut opening = Opening::of_year(2016, 1, 365, &[3, 5]);
    let text = "opening net_cone=1 days=365 year=2016 ids=3,5\n";
    assert_eq!(made(text), stream_of(&[&opening.bytes()]));
    assert_eq!(show(&made(text)), format!("# block 0\n{text}"));
    opening.words[0] = 1;
    let text = "opening net_cone=1 days=365 year=2016 ids=3,5 format=1\n";
    assert_eq!(made(text), stream_of(&[&opening.bytes()]));
    opening.words[0] = 2;
    opening.place(20, 0);
    let text = "opening net_cone=1 days=365 year=2016 ids=3,5 ids_at=20\n";
    assert_eq!(made(text), stream_of(&[&opening.bytes()]));
    let mut plain = Opening::new(1, 365, &[3, 5]);
    plain.words[0] = 2;
    let text = "opening net_cone=1 days=365 ids=3,5 format=2\n";
    assert_eq!(made(text), stream_of(&[&plain.bytes()]));
}

/// The words of format 2: three tables, rows that own schedules and rows that name some, and schedules with points of
/// their own and with named ones.
#[test]
fn fields_of_format_2() {
    let text = "
        interval 10 format=2 net_cone=12 days=13 schedules_at=300
        schedules 9@7+8
        points 1:2
        row 20 kind=prd offer=market@-32:33,34:35;pls@0+1;cost@36:37 dispatched=2
        row 21 kind=demand first=38 schedules=39 dispatched=40
        schedules cost@4+5";
    let row = |id, kind, first, count, dispatched| Row {
        id,
        kind,
        first,
        count,
        dispatched,
        ..Row::default()
    };
    let rows = vec![row(20, 3, 1, 3, 2).words(), row(21, 1, 38, 39, 40).words()];
    let points = vec![[1, 2], [-32i32 as u32, 33], [34, 35], [36, 37]];
    let mut file = IntervalFile::new(12, 13, 10, rows, points).with_schedules(vec![
        [9, 7, 8],
        [1, 1, 2],
        [2, 0, 1],
        [3, 3, 1],
        [3, 4, 5],
    ]);
    file.place_three([48, 168, 300], 360);
    let stream = stream_of(&[&file.bytes()]);
    assert_eq!(make(text).unwrap(), stream);
}

/// A format that there is not is laid out as format 1, and shown so.
#[test]
fn another_format() {
    let stream =
        make("opening net_cone=1 days=365 ids=1\ninterval 0 format=3\nrow 1 kind=demand curve=1:2")
            .unwrap();
    assert!(show(&stream).contains("interval 0 format=3\nrow 1 kind=demand curve=1:2\n"));
    hold(&stream, "format 3");
}

/// A line for several rows makes the same bytes as a line for each, with points shared.
#[test]
fn rows_that_are_alike() {
    let opening = "opening net_cone=1 days=365 ids=1-9\ninterval 0\n";
    let alike = "row 1-3,7 kind=demand metered=-4 curve=5:6";
    let each = "row 1 kind=1 metered=-4 curve=5:6
        row 2 kind=1 metered=-4 first=0 points=1
        row 3 kind=1 metered=-4 first=0 points=1
        row 7 kind=1 metered=-4 first=0 points=1";
    let [alike, each] = [alike, each].map(|rows| make(&format!("{opening}{rows}")));
    assert_eq!(alike, each);
}

/// In format 2 they share their schedules.
#[test]
fn rows_that_are_alike_in_format_2() {
    let opening = "opening net_cone=1 days=365 ids=1-9\ninterval 0 format=2\n";
    let alike = "row 1-2,7 kind=demand offer=cost@5:6;market@0+1 dispatched=1";
    let each = "row 1 kind=1 offer=3@5:6;1@0+1 dispatched=1
        row 2 kind=1 first=0 schedules=2 dispatched=1
        row 7 kind=1 first=0 schedules=2 dispatched=1";
    let [alike, each] = [alike, each].map(|rows| make(&format!("{opening}{rows}")));
    assert_eq!(alike, each);
}

#[test]
fn bytes_of_the_stream_itself() {
    let text = "block length=6\nbytes 1 0a0b\nblock\nlength 258\nraw 01 02ff\ncut 1";
    let stream = [
        &[6, 0, 0, 0, 0, 10, 11, 0, 0, 0][..],
        &[0, 0, 0, 0],
        &[2, 1, 0, 0, 1, 2],
    ];
    assert_eq!(make(text).unwrap(), stream.concat());
}
