//! A listing held to its stream, and its tables.

mod common;

use common::{run_in, Folder};
use npa_tests::layout::push_block;
use npa_tests::listing;
use npa_tests::random::{self, Rng, SMALL};
use npa_tests::reference::npalist;
use npa_tests::streams::document;
use std::collections::BTreeSet;
use std::fs;

const NOT: &str = "listing.csv is not the whole listing of document.stream: ";
const LAST: &str = "1000,14,5000,15001,0,0,0,10001,0,139417";
const LAST_ROW: &str = "(row 4 (id 14) of block 1 (interval 1000))";
const HEADING: &str = "interval,id,expected,actual,outage,economic,shortfall,bonus,charge,credit";

/// What becomes of a listing.
type Change<'a> = &'a dyn Fn(&str) -> String;

/// The document's stream and, as `listing.csv`, its listing changed.
fn folder(change: impl Fn(&str) -> String) -> Folder {
    let folder = Folder::new();
    folder.sample("document");
    folder.write("listing.csv", change(&folder.read("document.csv")));
    folder
}

#[test]
fn whole_listings() {
    let folder = folder(str::to_string);
    let whole = "listing.csv is the whole listing of document.stream: \
                 6 lines, 1 interval settled, 0 blocks refused, 0 blocks cut\n";
    folder
        .run(&["check", "document.stream", "listing.csv"])
        .writes(whole);
    let listing = folder.read("listing.csv");
    run_in(
        folder.path(),
        &["check", "document.stream", "-"],
        listing.as_bytes(),
    )
    .writes(&whole.replace("listing.csv", "standard input"));
    run_in(folder.path(), &["check", "-", "listing.csv"], &document())
        .writes(&whole.replace("document.stream", "standard input"));
    folder.write("listing.csv", listing.replace('\n', "\r\n"));
    let windows = " (its lines end in a carriage return too, which npalist does not write)\n";
    folder
        .run(&["check", "document.stream", "listing.csv"])
        .writes(&(whole.trim_end().to_string() + windows));
}

/// What is refused or cut is told, though the listing is whole.
#[test]
fn what_was_refused_or_cut() {
    let folder = Folder::new();
    for (name, lines) in [
        (
            "cut",
            "5 lines, 1 interval settled, 0 blocks refused, 1 block cut\n\
             block 2 (interval 1) is cut: the stream ends after 150 of its 152 bytes\n",
        ),
        (
            "opening",
            "2 lines, 0 intervals settled, 1 block refused, 0 blocks cut\n\
             block 0 is refused on ground 4: an id is 0 or not above the one before it\n",
        ),
        (
            "opening_length",
            "2 lines, 0 intervals settled, 1 block refused, 0 blocks cut\n\
             block 0 is refused on ground 1: a length of 4097, and nothing after it is listed\n",
        ),
    ] {
        folder.sample(name);
        let (stream, listing) = (format!("{name}.stream"), format!("{name}.csv"));
        let why = format!("npatext why {stream} names every fault\n");
        folder.run(&["check", &stream, &listing]).writes(&format!(
            "{listing} is the whole listing of {stream}: {lines}{why}"
        ));
    }
    folder.sample("refusals");
    let run = folder.run(&["check", "refusals.stream", "refusals.csv"]);
    assert_eq!(run.status, Some(0));
    let text = run.text();
    let grounds: BTreeSet<&str> = text
        .lines()
        .filter_map(|line| line.split_once("on ground ")?.1.split_once(':'))
        .map(|(ground, _)| ground)
        .collect();
    assert_eq!(grounds.len(), 10, "{grounds:?}");
    assert_eq!(text.lines().count(), 1 + 66 + 1);
}

/// A listing that is not the stream's: the first line that differs, with what it should be.
#[test]
fn listings_that_differ() {
    let cut_inside = |listing: &str| listing[..200].to_string();
    let cases: [(Change, String); 12] = [
        (
            &|listing| listing.replace("139417\n", "139418\n"),
            format!("line 5 is `1000,14,5000,15001,0,0,0,10001,0,139418`, not `{LAST}` {LAST_ROW}"),
        ),
        (
            &|listing| listing.replace("pool,", "pool, "),
            "line 6 is `pool, 1000,866673,557629,557628,1`, not `pool,1000,866673,557629,557628,1` \
             (the pool of block 1 (interval 1000))"
                .to_string(),
        ),
        (
            &|listing| listing.lines().take(4).map(|line| format!("{line}\n")).collect(),
            format!("it ends after line 4; `{LAST}` {LAST_ROW} is missing; 1 line after it must follow"),
        ),
        (
            &cut_inside,
            format!("it ends within line 5, `1000,14,`, which should be `{LAST}` {LAST_ROW}; 1 line after it must follow"),
        ),
        (
            &|listing| listing.trim_end().to_string(),
            "line 6 (the pool of block 1 (interval 1000)) has no newline, as if cut there"
                .to_string(),
        ),
        (
            &|_| String::new(),
            format!("it is empty; `{HEADING}` (the heading) is missing; 5 lines after it must follow"),
        ),
        (
            &|listing| format!("{listing}cut,2\n"),
            "line 7, `cut,2`, is too much: the listing of this stream ends before it".to_string(),
        ),
        (
            &|listing| format!("\u{feff}{listing}"),
            "line 1 begins with a byte order mark, which npalist does not write: another program has saved the listing"
                .to_string(),
        ),
        (
            &|listing| listing.replace("139417\n", "139417\r\n"),
            "line 5 ends with a carriage return, unlike those before it".to_string(),
        ),
        (
            &|listing| {
                listing
                    .replace('\n', "\r\n")
                    .replace("139417\r\n", "139417\n")
            },
            "line 5 ends without a carriage return, unlike those before it".to_string(),
        ),
        (
            &|listing| listing.replace("1000,14,", "1000,\u{200b}14,"),
            format!("line 5 is `1000,\\u{{200b}}14,5000,15001,0,0,0,10001,0,139417`, not `{LAST}` {LAST_ROW}"),
        ),
        (
            &|listing| listing.replace(HEADING, &"x".repeat(5_000)),
            format!("line 1 is too long, and should be `{HEADING}` (the heading)"),
        ),
    ];
    for (change, difference) in cases {
        let folder = folder(change);
        folder
            .run(&["check", "document.stream", "listing.csv"])
            .finds(&format!("{NOT}{difference}\n"));
        // no tables of such a listing, and nothing is left of the attempt
        let before = folder.names();
        folder
            .run(&["tables", "document.stream", "listing.csv", "tables"])
            .fails(&format!("{NOT}{difference}"));
        assert_eq!(folder.names(), before);
    }
}

/// A listing of another stream, of fewer or of more blocks.
#[test]
fn listings_of_other_streams() {
    let folder = Folder::new();
    folder.sample("document");
    let mut longer = document();
    push_block(&mut longer, &listing::file(1001).bytes());
    push_block(&mut longer, b"");
    folder.write("longer.stream", &longer);
    folder.write("longer.csv", npalist(&longer));
    folder.run(&["check", "longer.stream", "document.csv"]).finds(
        "document.csv is not the whole listing of longer.stream: it ends after line 6; \
         `1001,11,86667,60000,10000,26667,0,0,0,0` (row 1 (id 11) of block 2 (interval 1001)) is missing; \
         5 lines after it must follow\n\
         block 3 is refused on ground 7: the interval file is too short or too long or of another format\n\
         npatext why longer.stream names every fault\n",
    );
    folder.run(&["check", "document.stream", "longer.csv"]).finds(
        "longer.csv is not the whole listing of document.stream: \
         line 7, `1001,11,86667,60000,10000,26667,0,0,0,0`, is too much: the listing of this stream ends before it\n",
    );
}

/// Any byte of a listing changed, left out or added makes it another, and any prefix is not the whole.
#[test]
fn no_other_bytes_are_the_listing() {
    let folder = Folder::new();
    for seed in 0..40 {
        let rng = &mut Rng::new(seed);
        let stream = random::stream(rng, &SMALL, 6);
        let listing = npalist(&stream);
        folder.write("a.stream", &stream);
        folder.write("a.csv", &listing);
        let whole = folder.run(&["check", "a.stream", "a.csv"]);
        assert_eq!(whole.status, Some(0), "{whole:?}");
        let at = rng.index(listing.len());
        let mut changed = listing.clone();
        match seed % 4 {
            0 => changed.truncate(at),
            1 => changed[at] ^= 1,
            2 => drop(changed.remove(at)),
            _ => changed.insert(at, b'7'),
        }
        folder.write("a.csv", &changed);
        let other = folder.run(&["check", "a.stream", "a.csv"]);
        assert_eq!(other.status, Some(1), "seed {seed}, byte {at}: {other:?}");
    }
}

/// The fields of a table, whose lines all have as many as its heading.
fn table(folder: &Folder, name: &str, heading: &str) -> Vec<Vec<String>> {
    let text = folder.read(&format!("tables/{name}.csv"));
    let mut lines = text.lines();
    assert_eq!(lines.next(), Some(heading), "{name}");
    let columns = heading.split(',').count();
    let fields = |line: &str| -> Vec<String> {
        let fields: Vec<String> = line.split(',').map(str::to_string).collect();
        assert_eq!(fields.len(), columns, "{name}: {line}");
        fields
    };
    lines.map(fields).collect()
}

const ROWS: &str = "block,interval,month,day,time,id,expected,actual,outage,economic,shortfall,bonus,charge,credit";
const POOLS: &str = "block,interval,month,day,time,ratio,charges,credits,carried";
const REFUSALS: &str = "block,interval,month,day,time,what,ground,meaning";

/// The sum of a column.
fn sum(lines: &[Vec<String>], column: usize) -> u64 {
    let numbers = lines.iter().map(|line| line[column].parse::<u64>());
    numbers.map(|number| number.expect("a number")).sum()
}

/// In the listing a sum of the column `economic` takes the carried cents of the pools with it; in the tables not.
#[test]
fn columns_of_the_tables_can_be_summed() {
    let folder = Folder::new();
    folder.sample("afternoon");
    folder
        .run(&["tables", "afternoon.stream", "afternoon.csv", "tables"])
        .writes("tables/rows.csv: 387 rows\ntables/pools.csv: 24 pools\ntables/refusals.csv: 0 refusals\n");
    let rows = table(&folder, "rows", ROWS);
    let pools = table(&folder, "pools", POOLS);
    assert_eq!(
        table(&folder, "refusals", REFUSALS),
        Vec::<Vec<String>>::new()
    );
    assert_eq!(
        rows[0].join(","),
        "1,35592,10,2,14:00,1,0,1000,0,0,0,1000,0,3400"
    );
    assert_eq!(pools[23][..5].join(","), "24,35615,10,2,15:55");
    let listing: Vec<Vec<String>> = folder
        .read("afternoon.csv")
        .lines()
        .skip(1)
        .map(|line| line.split(',').map(str::to_string).collect())
        .collect();
    assert_eq!(sum(&listing, 5), sum(&rows, 9) + 107);
    assert_eq!(sum(&rows, 12), sum(&pools, 6));
    assert_eq!(sum(&rows, 13), sum(&pools, 7));
}

#[test]
fn refusals_have_their_table() {
    let folder = Folder::new();
    folder.sample("refusals");
    folder
        .run(&["tables", "refusals.stream", "refusals.csv", "tables"])
        .writes("tables/rows.csv: 1030 rows\ntables/pools.csv: 5 pools\ntables/refusals.csv: 66 refusals\n");
    table(&folder, "rows", ROWS);
    table(&folder, "pools", POOLS);
    let refusals: Vec<String> = table(&folder, "refusals", REFUSALS)
        .iter()
        .map(|line| line.join(","))
        .collect();
    for line in [
        "2,,,,,refused,7,the interval file is too short or too long or of another format",
        "9,105408,,,,refused,9,the interval is not in the year or region-wide or imports are out of range",
        "13,10,6,1,00:50,refused,10,the interval is before the earliest that is still accepted",
        "61,12,6,1,01:00,refused,18,the schedules of a row are too many or misplaced or of no kind or none is the one \
         dispatched on",
        "71,,,,,refused,7,a length of 61441: nothing after it is listed",
    ] {
        assert!(refusals.contains(&line.to_string()), "{line}");
    }
    folder.sample("cut");
    assert_eq!(
        folder
            .run(&["tables", "cut.stream", "cut.csv", "tables"])
            .status,
        Some(0)
    );
    assert_eq!(
        folder.read("tables/refusals.csv"),
        format!("{REFUSALS}\n2,1,6,1,00:05,cut,,the stream ends after 150 of its 152 bytes\n")
    );
    folder.sample("opening");
    assert_eq!(
        folder
            .run(&["tables", "opening.stream", "opening.csv", "tables"])
            .status,
        Some(0)
    );
    assert_eq!(folder.read("tables/rows.csv"), format!("{ROWS}\n"));
    assert_eq!(
        folder.read("tables/refusals.csv"),
        format!("{REFUSALS}\n0,,,,,refused,4,an id is 0 or not above the one before it\n")
    );
}

/// The tables have every line of the listing once, whatever the stream.
#[test]
fn tables_have_every_line() {
    let folder = Folder::new();
    for seed in 0..30 {
        let stream = random::stream(&mut Rng::new(seed), &SMALL, 8);
        let listing = npalist(&stream);
        folder.write("a.stream", &stream);
        folder.write("a.csv", &listing);
        let run = folder.run(&["tables", "a.stream", "a.csv", "tables"]);
        assert_eq!(run.status, Some(0), "{run:?}");
        let mut lines = BTreeSet::new();
        let tail = |line: &[String]| [&line[1..2], &line[5..]].concat().join(",");
        for line in table(&folder, "rows", ROWS) {
            lines.insert(tail(&line));
        }
        for line in table(&folder, "pools", POOLS) {
            lines.insert(format!("pool,{}", tail(&line)));
        }
        for line in table(&folder, "refusals", REFUSALS) {
            let ground = &line[6..7].join(",");
            let comma = if ground.is_empty() { "" } else { "," };
            lines.insert(format!("{},{}{comma}{ground}", line[5], line[0]));
        }
        let listing = String::from_utf8(listing).expect("a listing is text");
        let printed: BTreeSet<String> = listing.lines().skip(1).map(str::to_string).collect();
        assert_eq!(lines, printed, "seed {seed}");
    }
}

/// February's length goes by the opening's days.
#[test]
fn dates_go_by_the_days() {
    let folder = Folder::new();
    for (days, at) in [(365, "3,1"), (366, "2,29")] {
        let text = format!(
            "opening net_cone=1 days={days} ids=1\ninterval {}\nrow 1 kind=demand\n",
            288 * 273 + 1
        );
        let stream = npatext::make(&text).expect("it is a text");
        folder.write("a.stream", &stream);
        folder.write("a.csv", npalist(&stream));
        folder.run(&["tables", "a.stream", "a.csv", "tables"]);
        let rows = folder.read("tables/rows.csv");
        let wanted = format!("1,78625,{at},00:05,1,");
        assert!(rows.contains(&wanted), "{rows}");
    }
}

/// An older table is replaced, a folder that cannot be written to is told, and an input is never written over.
#[test]
fn folders_of_tables() {
    let folder = folder(str::to_string);
    let tables = |to: &str| folder.run(&["tables", "document.stream", "listing.csv", to]);
    fs::create_dir(folder.path().join("tables")).expect("a folder can be made");
    folder.write("tables/rows.csv", "old");
    folder.write("tables/other.csv", "kept");
    assert_eq!(tables("tables").status, Some(0));
    assert!(folder.read("tables/rows.csv").starts_with("block,"));
    assert_eq!(folder.read("tables/other.csv"), "kept");
    let names = fs::read_dir(folder.path().join("tables")).expect("the folder is there");
    assert_eq!(names.count(), 4);
    tables("listing.csv").fails("listing.csv is not a folder");
    tables("no/where").fails("no/where: No such file or directory (os error 2)");
    folder.write("tables/rows.csv", folder.read("listing.csv"));
    folder
        .run(&["tables", "document.stream", "tables/rows.csv", "tables"])
        .fails("tables/rows.csv is an input, and would be written over");
    assert_eq!(folder.read("tables/rows.csv"), folder.read("listing.csv"));
}
