//! Every fault of a stream in words, and that the first ground named is the one that npalist prints.

mod common;

use common::{npatext, Folder, SAMPLES};
use npa_tests::layout::{push_block, word_at};
use npa_tests::random::{
    self, flip, Rng, RunningYear, Size, FULL, MIDDLE, OPENING_GROUNDS, SETTLING_GROUNDS, SMALL,
};
use npa_tests::reference::npalist;
use npa_tests::streams;
use npatext::{make, Source, Why};
use std::collections::BTreeMap;
use std::io::Cursor;

const OPENING: &str = "opening net_cone=200000 days=366 ids=1-512";

/// What is said of a stream, a line each, without the count at the end.
fn said(stream: &[u8]) -> Vec<String> {
    let run = npatext(&["why"], stream);
    assert_eq!(run.error, "");
    let mut lines: Vec<String> = run.text().lines().map(str::to_string).collect();
    let count = lines.pop().expect("the count");
    let none = count.starts_with("no faults in ");
    assert_eq!((run.status, lines.is_empty()), (Some(!none as i32), none));
    lines
}

/// What is said of a text's stream.
fn said_of(text: &str) -> Vec<String> {
    said(&make(text).unwrap_or_else(|fault| panic!("{fault}\n{text}")))
}

/// Every ground of an opening: what stands in the text, and what is said of it.
#[test]
fn openings_in_words() {
    for (text, faults) in [
        ("block", &["0 bytes, under 20, ground 1"][..]),
        ("block length=19\nbytes 0 01", &["19 bytes, under 20, ground 1"]),
        (
            "block length=19\nbytes 0 07",
            &["19 bytes, under 20, ground 1", "format 7, neither 1 nor 2, ground 1"],
        ),
        (
            "opening net_cone=1 days=365 ids=1 format=3",
            &["format 3, neither 1 nor 2 (the rest is read as format 1), ground 1"],
        ),
        ("block length=23\nbytes 0 02", &["23 bytes, under 24, ground 1"]),
        (
            "opening net_cone=1 days=365 year=2017 ids=1",
            &["year 2017, neither 2016 nor from 2018 to 2023, ground 23"],
        ),
        (
            "opening net_cone=1 days=366 year=2016 ids=1",
            &["year 2016 with 366 days, not 365, ground 23"],
        ),
        (
            "opening net_cone=1 days=365 ids=5 format=2",
            &[
                "year 5, neither 2016 nor from 2018 to 2023, ground 23",
                "ids_at 20 below 24; its ids are not examined, ground 3",
            ],
        ),
        (
            "opening net_cone=1 days=365 year=2018 ids=5 ids_at=23",
            &["ids_at 23 below 24; its ids are not examined, ground 3"],
        ),
        (
            "opening net_cone=0 days=366 year=0 ids=2,2 count=3",
            &[
                "net_cone 0 below 1, ground 2",
                "year 0, neither 2016 nor from 2018 to 2023, ground 23",
                "3 ids from ids_at 24 end at byte 36, beyond its 32 bytes; its ids are not examined, ground 3",
            ],
        ),
        (
            "opening net_cone=0 days=365 ids=1",
            &["net_cone 0 below 1, ground 2"],
        ),
        (
            "opening net_cone=200001 days=367 ids=1",
            &[
                "net_cone 200001 above 200000, ground 2",
                "days 367, neither 365 nor 366, ground 2",
            ],
        ),
        (
            "opening net_cone=1 days=365 ids=",
            &["count 0 below 1, ground 3"],
        ),
        (
            "opening net_cone=1 days=365 ids=1-513",
            &["count 513 above 512, ground 3"],
        ),
        (
            "opening net_cone=1 days=365 ids=1 ids_at=19",
            &["ids_at 19 below 20; its ids are not examined, ground 3"],
        ),
        (
            "opening net_cone=1 days=365 ids=1 ids_at=25 length=24",
            &["ids_at 25 beyond its 24 bytes; its ids are not examined, ground 3"],
        ),
        (
            "opening net_cone=1 days=365 ids=1 count=2",
            &["2 ids from ids_at 20 end at byte 28, beyond its 24 bytes; its ids are not examined, ground 3"],
        ),
        (
            "opening net_cone=1 days=365 ids=0,5,5,4,9,0",
            &[
                "id 1: 0, not above 0, ground 4",
                "id 3: 5 not above 5, the id before it, ground 4",
                "id 4: 4 not above 5, the id before it, ground 4",
                "id 6: 0, not above 0, ground 4",
            ],
        ),
        (
            "opening net_cone=0 days=0 ids=2,1 format=0 length=28",
            &[
                "format 0, neither 1 nor 2 (the rest is read as format 1), ground 1",
                "net_cone 0 below 1, ground 2",
                "days 0, neither 365 nor 366, ground 2",
                "id 2: 1 not above 2, the id before it, ground 4",
            ],
        ),
        (
            "length 4097\nraw 01",
            &["length 4097 above 4096 (1 byte after it not read), ground 1"],
        ),
    ] {
        let line = |fault: &&str| match fault.starts_with("id ") {
            true => format!("block 0, {fault}"),
            false => format!("block 0: {fault}"),
        };
        let lines: Vec<String> = faults.iter().map(line).collect();
        assert_eq!(said_of(text), lines, "{text}");
    }
}

/// Every fault of an interval file: what stands in the text, and what is said of it, each with its ground.
#[test]
fn intervals_in_words() {
    for (text, faults) in [
        ("row 1 kind=6", &["row 1 (id 1): kind 6 above 5, ground 13"][..]),
        (
            "row 1 kind=0 committed=4000001 owned=4000001 planned=4000001 forced=4000001 maximum=4000002 minimum=4000001",
            &[
                "row 1 (id 1): committed 4000001 above 4000000, ground 13",
                "row 1 (id 1): owned 4000001 above 4000000, ground 13",
                "row 1 (id 1): planned 4000001 above 4000000, ground 13",
                "row 1 (id 1): forced 4000001 above 4000000, ground 13",
                "row 1 (id 1): maximum 4000002 above 4000000, ground 13",
                "row 1 (id 1): minimum 4000001 above 4000000, ground 13",
            ],
        ),
        (
            "row 1 kind=0 metered=4000001 adjustment=-4000001 lmp=1000001 online=2\n\
             row 2 kind=0 metered=-4000001 adjustment=4000001 lmp=-1000001 online=1",
            &[
                "row 1 (id 1): metered 4000001 above 4000000, ground 13",
                "row 1 (id 1): adjustment -4000001 below -4000000, ground 13",
                "row 1 (id 1): online 2 above 1, ground 13",
                "row 1 (id 1): lmp 1000001 above 1000000, ground 13",
                "row 2 (id 2): metered -4000001 below -4000000, ground 13",
                "row 2 (id 2): adjustment 4000001 above 4000000, ground 13",
                "row 2 (id 2): lmp -1000001 below -1000000, ground 13",
            ],
        ),
        (
            "row 1 kind=demand maximum=5 minimum=6\n\
             row 2 kind=energy_only committed=1\nrow 3 kind=importer committed=7",
            &[
                "row 1 (id 1): minimum 6 above maximum 5, ground 13",
                "row 2 (id 2): committed 1 above 0, with kind 4 (energy_only), ground 13",
                "row 3 (id 3): committed 7 above 0, with kind 5 (importer), ground 13",
            ],
        ),
        (
            "row 3 kind=0\nrow 3 kind=0\nrow 2 kind=0\nrow 513 kind=0\nrow 513 kind=0\nrow 0 kind=0",
            &[
                "row 2 (id 3): id 3 not above 3, the id of row 1, ground 12",
                "row 3 (id 2): id 2 not above 3, the id of row 2, ground 12",
                "row 4 (id 513): id 513 not in the opening, ground 12",
                "row 5 (id 513): id 513 not above 513, the id of row 4, ground 12",
                "row 5 (id 513): id 513 not in the opening, ground 12",
                "row 6 (id 0): id 0 not above 513, the id of row 5, ground 12",
                "row 6 (id 0): id 0 not in the opening, ground 12",
            ],
        ),
        (
            "row 1 kind=0 curve=0:0,1:1,2:2,3:3,4:4,5:5,6:6,7:7,8:8,9:9,8:10",
            &[
                "row 1 (id 1): points 11 above 10, ground 14",
                "row 1 (id 1), point 11: price 8 below 9, that of point 10, ground 14",
            ],
        ),
        (
            "row 1 kind=0 first=1 points=2\nrow 2 kind=0 first=7 points=0\npoints 0:0,1:1",
            &["row 1 (id 1): 2 points from first 1 end at 3, beyond the 2 of the table, ground 14"],
        ),
        (
            "row 1 kind=0 curve=-1000001:4000001,1000001:4000000\nrow 2 kind=0 curve=5:5,4:4",
            &[
                "row 1 (id 1), point 1: price -1000001 below -1000000, ground 14",
                "row 1 (id 1), point 1: kw 4000001 above 4000000, ground 14",
                "row 1 (id 1), point 2: price 1000001 above 1000000, ground 14",
                "row 1 (id 1), point 2: kw 4000000 below 4000001, that of point 1, ground 14",
                "row 2 (id 2), point 2: price 4 below 5, that of point 1, ground 14",
                "row 2 (id 2), point 2: kw 4 below 5, that of point 1, ground 14",
            ],
        ),
    ] {
        let place = "block 1 (interval 7), ";
        let lines: Vec<String> = faults.iter().map(|fault| format!("{place}{fault}")).collect();
        assert_eq!(said_of(&format!("{OPENING}\ninterval 7\n{text}")), lines, "{text}");
    }
}

/// Every fault of schedules: what stands in the text, and what is said of it, each with its ground.
#[test]
fn schedules_in_words() {
    for (text, faults) in [
        (
            "row 1 kind=0 offer=market@0:0;pls@0+1;cost@0+1;cost@0+1;cost@0+1 dispatched=5",
            &[
                "row 1 (id 1): schedules 5 above 4, ground 18",
                "row 1 (id 1): dispatched 5 not below schedules 5, ground 18",
            ][..],
        ),
        (
            "row 1 kind=5 first=7 dispatched=1\nrow 2 kind=0 first=1 schedules=2\nschedules 1@0+1;2@0+1\npoints 0:0",
            &[
                "row 1 (id 1): dispatched 1 above 0, without schedules, ground 18",
                "row 2 (id 2): 2 schedules from first 1 end at 3, beyond the 2 of the table, ground 18",
            ],
        ),
        (
            "row 1 kind=0 offer=0@0:0;4@0+1;3@0+1\nschedules 99@99+99",
            &[
                "row 1 (id 1), schedule 1: kind 0 below 1, ground 18",
                "row 1 (id 1), schedule 2: kind 4 above 3, ground 18",
            ],
        ),
        (
            "row 1 kind=1 offer=cost@0+0;pls@5:5,4:4;market@1+2\nrow 2 kind=0 first=1 schedules=1",
            &[
                "row 1 (id 1), schedule 1: points 0 below 1, ground 14",
                "row 1 (id 1), schedule 2, point 2: price 4 below 5, that of point 1, ground 14",
                "row 1 (id 1), schedule 2, point 2: kw 4 below 5, that of point 1, ground 14",
                "row 1 (id 1), schedule 3: 2 points from first 1 end at 3, beyond the 2 of the table, ground 14",
                "row 2 (id 2), schedule 1, point 2: price 4 below 5, that of point 1, ground 14",
                "row 2 (id 2), schedule 1, point 2: kw 4 below 5, that of point 1, ground 14",
            ],
        ),
        (
            "row 1 kind=0 offer=cost@5:5,4:4\nrow 2 kind=0 dispatched=1\nrow 3 kind=6",
            &[
                "row 3 (id 3): kind 6 above 5, ground 13",
                "row 2 (id 2): dispatched 1 above 0, without schedules, ground 18",
                "row 1 (id 1), schedule 1, point 2: price 4 below 5, that of point 1, ground 14",
                "row 1 (id 1), schedule 1, point 2: kw 4 below 5, that of point 1, ground 14",
            ],
        ),
    ] {
        let place = "block 1 (interval 7), ";
        let lines: Vec<String> = faults.iter().map(|fault| format!("{place}{fault}")).collect();
        let said = said_of(&format!("{OPENING}\ninterval 7 format=2\n{text}"));
        assert_eq!(said, lines, "{text}");
    }
}

/// Faults of a header, of which each interval of the text has some.
#[test]
fn headers_in_words() {
    let row = "row 1 kind=demand";
    for (interval, faults) in [
        ("interval 7 net_cone=1 days=365", &[
            "net_cone 1, not the opening's 200000, ground 8",
            "days 365, not the opening's 366, ground 8",
        ][..]),
        ("interval 7 region_wide=2 imports=40000001", &[
            "region_wide 2 above 1, ground 9",
            "imports 40000001 above 40000000, ground 9",
        ]),
        ("interval 7 imports=-40000001", &["imports -40000001 below -40000000, ground 9"]),
        ("interval 7 format=3", &["format 3, neither 1 nor 2 (the rest is read as format 1), ground 7"]),
        ("interval 7 length=49153", &["49153 bytes, over 49152, ground 7"]),
        ("interval 7 format=2 schedules=1025", &[
            "schedules 1025 above 1024, ground 11",
            "1025 schedules from schedules_at 108 end at byte 12408, beyond its 108 bytes; its schedules are not \
             examined, ground 11",
        ]),
        ("interval 7 format=2 rows_at=47 points_at=48 length=108", &[
            "rows_at 47 below 48; its rows are not examined, ground 11",
        ]),
        ("interval 7 format=2 schedules_at=47", &["schedules_at 47 below 48, ground 11"]),
        ("interval 7 format=2 points=1 points_at=104 schedules=1 schedules_at=111 length=123", &[
            "rows and points share bytes 104 to 107, ground 11",
            "points and schedules share bytes 111 to 111, ground 11",
        ]),
        ("interval 7 rows=513", &[
            "rows 513 above 512, ground 11",
            "513 rows from rows_at 40 end at byte 28768, beyond its 96 bytes; its rows are not examined, ground 11",
        ]),
        ("interval 7 points=2049", &[
            "points 2049 above 2048, ground 11",
            "2049 points from points_at 96 end at byte 16488, beyond its 96 bytes; its points are not examined, ground 11",
        ]),
        ("interval 7 rows_at=39 points_at=40 length=100", &[
            "rows_at 39 below 40; its rows are not examined, ground 11",
        ]),
        ("interval 7 rows_at=97 points_at=97 length=96", &[
            "rows_at 97 beyond its 96 bytes; its rows are not examined, ground 11",
            "points_at 97 beyond its 96 bytes, ground 11",
        ]),
        ("interval 7 points_at=39", &["points_at 39 below 40, ground 11"]),
        ("interval 7 points=1 points_at=90 length=98", &["rows and points share bytes 90 to 95, ground 11"]),
    ] {
        let lines: Vec<String> = faults
            .iter()
            .map(|fault| format!("block 1 (interval 7): {fault}"))
            .collect();
        assert_eq!(said_of(&format!("{OPENING}\n{interval}\n{row}")), lines, "{interval}");
    }
    assert_eq!(
        said_of(&format!("{OPENING}\ninterval 7")),
        ["block 1 (interval 7): rows 0 below 1, ground 11"]
    );
    assert_eq!(
        said_of(&format!("{OPENING}\ninterval 105408\n{row}")),
        ["block 1 (interval 105408): interval 105408 not below 105408, 288 times the days 366, ground 9"]
    );
    assert_eq!(
        said_of(&format!(
            "{OPENING}\nblock length=39\nbytes 0 01\nblock length=47\nbytes 0 02\nlength 61441\nraw 0102"
        )),
        [
            "block 1 (interval 0): 39 bytes, under 40, ground 7",
            "block 2 (interval 0): 47 bytes, under 48, ground 7",
            "block 3: length 61441 above 61440 (2 bytes after it not read), ground 7",
        ]
    );
}

/// A file with a fault of every ground from 8 to 14 has all of them named, in checking order.
#[test]
fn all_faults_of_a_block() {
    let text = format!(
        "{OPENING}\ninterval 9\nrow 1 kind=demand\n\
         interval 8 net_cone=2 region_wide=2 points_at=39\n\
         row 600 kind=6 points=11\nrow 500 kind=demand lmp=1000001"
    );
    let place = "block 2 (interval 8)";
    assert_eq!(
        said_of(&text),
        [
            format!("{place}: net_cone 2, not the opening's 200000, ground 8"),
            format!("{place}: region_wide 2 above 1, ground 9"),
            format!("{place}: interval 8 below 10, the earliest still accepted after block 1 (interval 9), ground 10"),
            format!("{place}: points_at 39 below 40, ground 11"),
            format!("{place}, row 1 (id 600): id 600 not in the opening, ground 12"),
            format!("{place}, row 2 (id 500): id 500 not above 600, the id of row 1, ground 12"),
            format!("{place}, row 1 (id 600): kind 6 above 5, ground 13"),
            format!("{place}, row 2 (id 500): lmp 1000001 above 1000000, ground 13"),
            format!("{place}, row 1 (id 600): points 11 above 10, ground 14"),
            format!("{place}, row 1 (id 600): 11 points from first 0 end at 11, beyond the 0 of the table, ground 14"),
        ]
    );
}

/// A row far down, as a clerk meets it: row 300 with id 812.
#[test]
fn a_row_among_many() {
    let text = "opening net_cone=1 days=365 ids=513-1020\ninterval 7\n\
                row 513-811 kind=demand\nrow 812 kind=demand maximum=5 minimum=6\nrow 813-900 kind=demand";
    assert_eq!(
        said_of(text),
        ["block 1 (interval 7), row 300 (id 812): minimum 6 above maximum 5, ground 13"]
    );
}

#[test]
fn a_pool_too_large() {
    let all = "row 1-512 kind=demand committed=4000000";
    let text = format!(
        "{OPENING}\ninterval 1\n{all}\ninterval 2\n{all}\ninterval 3\n{all}\ninterval 4\n{all}"
    );
    let what = "carried 832853332992 and charges 416426666496 make a pool of 1249279999488, above 1099511627775";
    assert_eq!(
        said_of(&text),
        [3, 4].map(|block| format!("block {block} (interval {block}): {what}, ground 16"))
    );
}

#[test]
fn cuts_in_words() {
    let text = format!("{OPENING}\ninterval 7\nrow 1 kind=demand\n");
    for (cut, fault) in [
        (
            "cut 0\nraw 0102",
            "block 2: cut, the stream ends after 2 of the 4 bytes of its length",
        ),
        (
            "cut 1",
            "block 1 (interval 7): cut, the stream ends after 95 of its 96 bytes",
        ),
        (
            "cut 90",
            "block 1: cut, the stream ends after 6 of its 96 bytes",
        ),
        (
            "cut 96",
            "block 1: cut, the stream ends after 0 of its 96 bytes",
        ),
        (
            "cut 170",
            "block 0: cut, the stream ends after 1998 of its 2068 bytes",
        ),
    ] {
        assert_eq!(said_of(&(text.clone() + cut)), [fault], "{cut}");
    }
    assert_eq!(
        said(b""),
        ["block 0: cut, the stream ends before its opening"]
    );
}

/// After a refused opening npalist stops, but the files that follow may have faults of their own.
#[test]
fn blocks_after_a_refused_opening() {
    let text = "opening net_cone=1 days=364 ids=1\ninterval 0\nrow 1 kind=demand\n\
                interval 1 net_cone=5\nrow 1 kind=6\nlength 61441\nraw 00";
    assert_eq!(
        said_of(text),
        [
            "block 0: days 364, neither 365 nor 366, ground 2",
            "block 0 is refused, so nothing after it is listed; what follows is examined alone, without grounds 8, \
             10 and 16 and without the ids of an opening",
            "block 2 (interval 1), row 1 (id 1): kind 6 above 5, ground 13",
            "block 3: length 61441 above 61440 (1 byte after it not read), ground 7",
        ]
    );
}

/// A block that would do elsewhere is told: an opening in the middle, a file at the front, a length left out.
#[test]
fn blocks_in_the_wrong_place() {
    let opening = "opening net_cone=300 days=365 ids=1-20";
    let file = "interval 7\nrow 1 kind=demand";
    let second = said_of(&format!("{opening}\n{file}\n{opening}"));
    let remark = "block 2 (interval 300): reads as an opening; a stream has one, its first block";
    assert_eq!(second.last().unwrap(), remark);
    let first = said_of("interval 7 net_cone=300 days=365\nrow 1 kind=demand");
    let remark = "block 0: reads as an interval file; the first block of a stream is an opening";
    assert_eq!(first.last().unwrap(), remark);
    let bare = said(&make(&format!("{opening}\n{file}")).unwrap()[4..]);
    let remark = "block 0: a length of 1 may be the format word of a block whose length is missing";
    assert!(bare.contains(&remark.to_string()), "{bare:?}");
}

#[test]
fn faults_are_counted() {
    let folder = Folder::new();
    folder.sample("document");
    folder
        .run(&["why", "document.stream"])
        .writes("no faults in 2 blocks\n");
    for (sample, count) in [
        ("refusals", "74 faults in 66 of 72 blocks"),
        ("afternoon", "no faults in 25 blocks"),
        ("cut", "1 fault in 1 of 3 blocks"),
    ] {
        let path = format!("{SAMPLES}/{sample}.stream");
        let text = npatext(&["why", &path], b"").text();
        assert_eq!(text.lines().last(), Some(count), "{sample}");
    }
}

/// How often each ground was the first of a block.
type Met = BTreeMap<u32, u64>;

/// The place of a ground in checking order.
fn turn(ground: &u32) -> Option<usize> {
    let mut grounds = OPENING_GROUNDS.iter().chain(&SETTLING_GROUNDS);
    grounds.position(|other| other == ground)
}

/// The first ground that is named for a block is the one that npalist prints for it, and none where it settles;
/// nothing is said to be refused by a fault that is not found.
fn agree(stream: &[u8], name: &str, met: &mut Met) {
    let listing = String::from_utf8(npalist(stream)).expect("a listing is text");
    let source = Source::new(name, Cursor::new(stream.to_vec())).expect("bytes can be read");
    let mut why = Why::new(source);
    let mut printed = listing
        .lines()
        .skip(1)
        .filter(|line| line.starts_with(|first: char| first.is_ascii_lowercase()));
    let mut listed = true;
    while let Some(said) = why.block().expect("bytes can be read") {
        let unfound = said.lines.iter().any(|line| line.contains("not found"));
        assert!(!unfound, "{name}: {said:?}");
        let turns: Vec<_> = said.grounds.iter().map(turn).collect();
        assert!(
            turns.windows(2).all(|pair| pair[0] <= pair[1]),
            "{name}: {said:?}"
        );
        if !listed {
            continue;
        }
        let opened = said.block == 0 && said.faults == 0;
        let line = if opened { None } else { printed.next() };
        let words: Vec<&str> = line.unwrap_or("opened").split(',').collect();
        let number = said.block.to_string();
        match words[..] {
            ["opened"] => assert!(opened, "{name}: {said:?}"),
            ["pool", ..] => assert_eq!((said.faults, said.lines.len()), (0, 0), "{name}: {said:?}"),
            ["cut", block] => {
                assert_eq!(
                    (block, said.faults, said.grounds.len()),
                    (&number[..], 1, 0),
                    "{name}"
                );
            }
            ["refused", block, ground] => {
                let ground = ground.parse().expect("a ground is a number");
                assert_eq!(block, number, "{name}");
                assert_eq!(said.grounds.first(), Some(&ground), "{name}: {said:?}");
                *met.entry(ground).or_default() += 1;
                listed = said.block > 0;
            }
            _ => panic!("{name}: {words:?}"),
        }
    }
    assert_eq!(printed.next(), None, "{name}");
}

#[test]
fn first_grounds_are_npalists() {
    let mut met = Met::new();
    let rng = &mut Rng::new(5);
    for cases in [
        streams::prefixes(),
        streams::lengths(),
        streams::too_long(),
        streams::refused_openings(rng, 40),
        streams::refused_files(rng, 40),
    ] {
        for case in cases {
            agree(&case.stream, &case.name, &mut met);
        }
    }
    for number in 0..1_500 {
        let case = streams::random_stream(&mut Rng::of(11, number), number);
        agree(&case.stream, &case.name, &mut met);
    }
    let grounds: Vec<u32> = met.keys().copied().collect();
    assert_eq!(
        grounds,
        [1, 2, 3, 4, 7, 8, 9, 10, 11, 12, 13, 14, 16, 18, 23],
        "{met:?}"
    );
}

/// A year of which every block may have bits turned, so that faults of several grounds meet.
fn damaged(rng: &mut Rng, size: &Size, calls: usize) -> Vec<u8> {
    let mut year = RunningYear::open(rng, size);
    let mut stream = Vec::new();
    let mut block = year.block.clone();
    if rng.one_in(4) {
        flip(rng, &mut block);
    }
    push_block(&mut stream, &block);
    for _ in 0..calls {
        let mut file = year.next_call(rng, size).file;
        for _ in 0..rng.below(4) {
            flip(rng, &mut file);
        }
        push_block(&mut stream, &file);
    }
    stream
}

#[test]
fn first_grounds_of_damaged_blocks_are_npalists() {
    let mut met = Met::new();
    for seed in 0..1_500 {
        let rng = &mut Rng::of(3, seed);
        let stream = match seed % 20 {
            0 => damaged(rng, &FULL, 6),
            1..=4 => damaged(rng, &MIDDLE, 10),
            _ => damaged(rng, &SMALL, 12),
        };
        agree(&stream, &format!("seed {seed}"), &mut met);
    }
    for ground in (1..=4).chain(7..=14).chain([18, 23]) {
        assert!(
            met.get(&ground).is_some_and(|count| *count > 5),
            "{ground}: {met:?}"
        );
    }
}

/// Events that fill the pool, some of them until a bonus empties it: ground 16 is where npalist has it, and its
/// carried cents are those of the pool line before.
#[test]
fn pools_at_the_limit_are_npalists() {
    let mut met = Met::new();
    for seed in 0..40 {
        let rng = &mut Rng::of(16, seed);
        let net_cone = 170_000 + rng.below(30_001);
        let mut text = format!("opening net_cone={net_cone} days=366 ids=1-512\n");
        for interval in 0..8 {
            let rows = 300 + rng.below(212);
            let metered = rng.below(1_000_000);
            text += &format!("interval {interval}\nrow 1-{rows} kind=demand committed=4000000 metered={metered}\n");
            if rng.one_in(6) {
                text += "row 512 kind=demand metered=1\n";
            }
        }
        let stream = make(&text).expect("it is a text");
        agree(&stream, &format!("seed {seed}"), &mut met);
        let listing = String::from_utf8(npalist(&stream)).expect("a listing is text");
        let mut carried = "0";
        let mut lines = said(&stream).into_iter();
        for line in listing.lines() {
            if line.starts_with("pool,") {
                carried = line.rsplit(',').next().expect("it has fields");
            } else if line.starts_with("refused,") {
                let line = lines.next().expect("a line for each refusal");
                assert!(
                    line.contains(&format!(": carried {carried} and charges ")),
                    "{line}"
                );
            }
        }
        assert_eq!(lines.next(), None);
    }
    assert_eq!(met.keys().copied().collect::<Vec<_>>(), [16]);
    assert!(met[&16] > 40, "{met:?}");
}

/// Words set out of range, at random, are named, each of them and nothing else.
#[test]
fn every_planted_fault_is_named() {
    const WORDS: [(usize, &str, u32); 9] = [
        (2, "committed", 4_000_001),
        (3, "owned", 4_100_000),
        (4, "metered", 4_000_001),
        (5, "adjustment", 5_000_000),
        (6, "planned", u32::MAX),
        (7, "forced", 4_000_001),
        (8, "maximum", 4_000_001),
        (10, "online", 2),
        (11, "lmp", 1_000_001),
    ];
    for seed in 0..300 {
        let rng = &mut Rng::new(seed);
        let text = format!("{OPENING}\ninterval 3\nrow 1-40 kind=demand");
        let mut stream = make(&text).expect("it is a text");
        let rows_at = stream.len() - 40 * 56;
        let mut planted = Vec::new();
        for row in 0..40 {
            for (word, name, value) in WORDS {
                if rng.one_in(30) {
                    let at = rows_at + 56 * row + 4 * word;
                    assert_eq!(word_at(&stream, at), Some(0));
                    stream[at..at + 4].copy_from_slice(&value.to_le_bytes());
                    planted.push(format!("row {0} (id {0}): {name} {value} above ", row + 1));
                }
            }
        }
        let lines = said(&stream);
        assert_eq!(lines.len(), planted.len(), "seed {seed}");
        for (line, planted) in lines.iter().zip(&planted) {
            let place = format!("block 1 (interval 3), {planted}");
            assert!(
                line.starts_with(&place) && line.ends_with(", ground 13"),
                "{line}"
            );
        }
    }
}

/// A random stream ends well through the program too, whatever it is.
#[test]
fn any_bytes_end_well() {
    for seed in 0..60 {
        let rng = &mut Rng::new(seed);
        let length = rng.index(400);
        let mut stream = rng.bytes(length);
        if rng.one_in(2) {
            let mut whole = random::stream(rng, &SMALL, 3);
            random::scramble(rng, &mut whole);
            stream = whole;
        }
        let run = npatext(&["why"], &stream);
        assert!(matches!(run.status, Some(0 | 1)), "seed {seed}: {run:?}");
    }
}
