//! The samples: every stream is made of its text, and every listing and page is the reference's.

use npa_tests::random::SETTLING_GROUNDS;
use npa_tests::reference::{npalist, npapage, HEADING};
use npa_tests::streams::document;
use npatext::{make, show};
use std::collections::{BTreeMap, BTreeSet};
use std::fs;
use std::path::Path;

const FOLDER: &str = concat!(env!("CARGO_MANIFEST_DIR"), "/../../samples");

/// A file of a sample.
fn file(name: &str, kind: &str) -> Vec<u8> {
    let path = Path::new(FOLDER).join(format!("{name}.{kind}"));
    fs::read(&path).unwrap_or_else(|error| panic!("{}: {error}", path.display()))
}

/// A text file of a sample.
fn text(name: &str, kind: &str) -> String {
    String::from_utf8(file(name, kind)).expect("the file is text")
}

/// The names of files in the folder, and the kinds that each has.
fn files() -> BTreeMap<String, BTreeSet<String>> {
    let mut files: BTreeMap<String, BTreeSet<String>> = BTreeMap::new();
    for entry in fs::read_dir(FOLDER).expect("the samples are there") {
        let name = entry.expect("an entry").file_name();
        let name = name.to_string_lossy().to_string();
        match name.split_once('.') {
            Some((name, kind)) if kind != "md" => {
                let kinds = files.entry(name.to_string()).or_default();
                kinds.insert(kind.to_string());
            }
            _ => assert!(["README.md", "make"].contains(&&name[..]), "{name}"),
        }
    }
    files
}

/// The samples and the kinds of files that each has.
fn samples() -> BTreeMap<String, BTreeSet<String>> {
    let mut files = files();
    files.retain(|name, _| !name.contains("-page-"));
    files
}

/// The pages of plants: sample, id and what is printed.
fn pages() -> Vec<(String, u32, String)> {
    let mut pages = Vec::new();
    for (name, kinds) in files() {
        if let Some((sample, id)) = name.split_once("-page-") {
            assert!(kinds.iter().eq(["csv"]), "{name}");
            let id = id.parse().expect("a page has the id of its plant");
            pages.push((sample.to_string(), id, text(&name, "csv")));
        }
    }
    pages
}

#[test]
fn samples_are_complete() {
    let samples = samples();
    let names: Vec<&str> = samples.keys().map(String::as_str).collect();
    let wanted = [
        "afternoon",
        "cut",
        "document",
        "importers",
        "opening",
        "opening_1",
        "opening_2",
        "opening_23",
        "opening_3",
        "opening_length",
        "refusals",
        "schedules",
        "year2016",
    ];
    assert_eq!(names, wanted);
    for (name, kinds) in &samples {
        let kinds: Vec<&str> = kinds.iter().map(String::as_str).collect();
        assert_eq!(kinds, ["csv", "stream", "txt"], "{name}");
    }
}

#[test]
fn streams_are_made_of_their_texts() {
    for name in samples().keys() {
        let made = make(&text(name, "txt")).unwrap_or_else(|fault| panic!("{name}: {fault}"));
        assert!(made == file(name, "stream"), "{name}.stream is another");
        let shown = show(&made);
        assert!(make(&shown).as_ref() == Ok(&made), "{name}: {shown}");
    }
}

#[test]
fn listings_are_the_references() {
    for name in samples().keys() {
        let listing = npalist(&file(name, "stream"));
        assert!(listing == file(name, "csv"), "{name}.csv is another");
    }
}

#[test]
fn pages_are_the_references() {
    let pages = pages();
    let plants: Vec<_> = pages.iter().map(|(name, id, _)| (&name[..], *id)).collect();
    assert_eq!(plants, [("afternoon", 15), ("afternoon", 9)]);
    for (name, id, page) in &pages {
        let input = [&id.to_le_bytes(), &file(name, "stream")[..]].concat();
        assert!(
            npapage(&input) == page.as_bytes(),
            "{name}-page-{id}.csv is another"
        );
    }
}

/// One plant is charged and the other credited; the lines are the listing's, and the year is their sum.
#[test]
fn pages_have_a_charged_and_a_credited_plant() {
    let years: Vec<Vec<u64>> = pages()
        .iter()
        .map(|(name, id, page)| {
            let rows = lines(page, None);
            let mut listed = lines(&text(name, "csv"), None);
            listed.retain(|row| row[1] == u64::from(*id));
            assert_eq!(rows, listed);
            let sum = |column: usize| rows.iter().map(|row| row[column]).sum::<u64>();
            let mut year = lines(page, Some("year,")).pop().expect("a page has a year");
            let sums: Vec<u64> = (6..10).map(sum).collect();
            assert_eq!(year[1..5], sums);
            year.drain(3..).collect()
        })
        .collect();
    assert_eq!(years[0], [491_310_765, 0, 61_389_180_000]);
    assert_eq!(years[1], [0, 166_001_142, 0]);
}

/// The input stands in document 01, and the output too, but for charges to the nearest cent.
#[test]
fn document_is_document_01() {
    assert_eq!(file("document", "stream"), document());
    let printed = "\
interval,id,expected,actual,outage,economic,shortfall,bonus,charge,credit
1000,11,86667,60000,10000,26667,0,0,0,0
1000,12,43333,25000,0,0,18333,0,557629,0
1000,13,0,35000,0,0,0,30000,0,418211
1000,14,5000,15001,0,0,0,10001,0,139417
pool,1000,866673,557629,557628,1
";
    assert_eq!(text("document", "csv"), printed);
}

/// Worked by hand: 8000 of 10000 kW are expected of plant 11 with the imports, 5000 without them.
#[test]
fn importers_earn_in_a_region_wide_event() {
    let printed = "\
interval,id,expected,actual,outage,economic,shortfall,bonus,charge,credit
0,11,8000,5000,0,0,3000,0,91250,0
0,12,0,3000,0,0,0,3000,0,65700
0,13,0,2000,0,0,0,2000,0,43800
0,14,0,0,0,0,0,0,0,0
0,15,1000,400,0,0,600,0,18250,0
pool,0,800000,109500,109500,0
1,11,5000,5000,0,0,0,0,0,0
1,12,0,0,0,0,0,0,0,0
1,13,0,0,0,0,0,0,0,0
1,14,0,0,0,0,0,0,0,0
1,15,1000,400,0,0,600,0,18250,0
pool,1,500000,18250,0,18250
";
    assert_eq!(text("importers", "csv"), printed);
}

/// Worked by hand: 987 kW cost 987 * 365 / 720000, or 0.5003 of a cent, and the limit is 3 * 365 * 987 / 4000, or
/// 270.19 cents.
#[test]
fn a_limit_of_2016_is_reached() {
    let mut printed = HEADING.to_string();
    for interval in 0..270 {
        let carried = interval + 1;
        printed += &format!("{interval},11,987,0,0,0,987,0,1,0\npool,{interval},0,1,0,{carried}\n");
    }
    printed += "\
270,11,987,0,0,0,987,0,0,0
270,12,0,500,0,0,0,500,0,270
pool,270,0,0,270,0
271,11,987,0,0,0,987,0,0,0
271,12,0,500,0,0,0,500,0,0
pool,271,0,0,0,0
";
    assert_eq!(text("year2016", "csv"), printed);
    let input = [&11u32.to_le_bytes(), &file("year2016", "stream")[..]].concat();
    let page = String::from_utf8(npapage(&input)).expect("a page is text");
    assert!(page.ends_with("\nyear,11,268464,0,270,0,270\n"));
}

/// Worked by hand: the pool of interval 100 is 70000, 60000 and 50000 kW at 30.41667 cents.
#[test]
fn schedules_decide_what_is_excused() {
    let printed = "\
interval,id,expected,actual,outage,economic,shortfall,bonus,charge,credit
100,11,100000,10000,0,20000,70000,0,2129167,0
100,12,100000,10000,0,30000,60000,0,1825000,0
100,13,100000,10000,0,40000,50000,0,1520833,0
100,14,0,90000,0,0,0,60000,0,5015267
100,15,1000,1500,0,0,0,500,0,41793
100,16,50000,55000,0,0,0,5000,0,417938
pool,100,1000000,5475000,5474998,2
101,11,100000,10000,0,20000,70000,0,2129167,0
101,14,0,30000,20000,0,0,20000,0,2129169
pool,101,1000000,2129167,2129169,0
102,11,100000,10000,0,40000,50000,0,1520833,0
102,14,0,30000,20000,0,0,20000,0,1520833
pool,102,1000000,1520833,1520833,0
";
    assert_eq!(text("schedules", "csv"), printed);
}

/// The numbers of the lines that begin with a word, or with a number if there is none.
fn lines(csv: &str, word: Option<&str>) -> Vec<Vec<u64>> {
    let numbers = |line: &str| {
        let line = match word {
            Some(word) => line.strip_prefix(word)?,
            None => line,
        };
        line.split(',').map(|number| number.parse().ok()).collect()
    };
    csv.lines().filter_map(numbers).collect()
}

#[test]
fn refusals_show_every_ground() {
    let csv = text("refusals", "csv");
    let refused = lines(&csv, Some("refused,"));
    let grounds: BTreeSet<u64> = refused.iter().map(|line| line[1]).collect();
    let settling = SETTLING_GROUNDS.into_iter().map(u64::from);
    let wanted: BTreeSet<u64> = settling
        .filter(|ground| ![6, 15].contains(ground))
        .collect();
    assert_eq!(grounds, wanted);
    assert_eq!(lines(&csv, Some("pool,")).len(), 5);
    assert!(csv.ends_with(",7\n"));
    for (name, ground) in [
        ("opening_1", 1),
        ("opening_length", 1),
        ("opening_2", 2),
        ("opening_3", 3),
        ("opening_23", 23),
        ("opening", 4),
    ] {
        let listing = format!("{HEADING}refused,0,{ground}\n");
        assert_eq!(text(name, "csv"), listing, "{name}");
    }
    assert!(text("cut", "csv").ends_with("\ncut,2\n"));
}

/// Total bonus in kW, charges in cents and cents for a MW of bonus, by interval: Table 9 of PJM's review.
const TABLE_9: [[u64; 3]; 24] = [
    [10_854_700, 36_909_733, 3400],
    [10_707_500, 37_463_973, 3499],
    [10_852_300, 37_367_849, 3443],
    [10_764_500, 37_983_280, 3529],
    [10_761_100, 37_933_345, 3525],
    [10_954_100, 39_393_287, 3596],
    [10_569_200, 37_730_176, 3570],
    [10_560_500, 37_991_807, 3598],
    [10_378_600, 38_097_569, 3671],
    [10_344_100, 37_621_899, 3637],
    [10_342_600, 41_074_836, 3971],
    [10_368_000, 39_915_894, 3850],
    [10_522_900, 25_526_773, 2426],
    [10_420_900, 41_287_566, 3962],
    [10_552_600, 40_666_432, 3854],
    [10_524_300, 40_176_228, 3817],
    [10_654_900, 42_031_708, 3945],
    [10_540_300, 45_665_166, 4332],
    [10_567_700, 44_141_251, 4177],
    [10_707_700, 35_947_094, 3357],
    [10_680_800, 34_479_129, 3228],
    [3_523_800, 3_414_012, 969],
    [3_360_900, 3_068_727, 913],
    [3_423_700, 2_269_352, 663],
];

/// Each interval has the published bonus and, within 15 cents, the published pool; a MW of bonus earns the
/// published rate, or a cent less since it is rounded down.
#[test]
fn afternoon_has_the_published_figures() {
    let csv = text("afternoon", "csv");
    let rows = lines(&csv, None);
    let pools = lines(&csv, Some("pool,"));
    assert_eq!(pools.len(), TABLE_9.len());
    let mut carried = 0;
    for (index, [total, charges, rate]) in TABLE_9.into_iter().enumerate() {
        let interval = 35_592 + index as u64;
        let own = || rows.iter().filter(|row| row[0] == interval);
        let bonus: u64 = own().map(|row| row[7]).sum();
        assert_eq!((pools[index][0], bonus), (interval, total));
        let pool = carried + pools[index][2];
        assert!(pool.abs_diff(charges) <= 15, "{interval}: {pool}");
        let first = own().next().expect("plant 1 has a row");
        assert_eq!((first[1], first[7]), (1, 1000));
        assert!(
            [rate, rate - 1].contains(&first[9]),
            "{interval}: {first:?}"
        );
        assert_eq!(first[9], 1000 * charges / total, "{interval}");
        carried = pools[index][4];
    }
}
