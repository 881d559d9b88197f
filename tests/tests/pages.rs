//! The reference's page of one plant.

use npa_tests::layout::{stream_of, Opening};
use npa_tests::listing::{self, DAYS, NET_CONE};
use npa_tests::pages::{self, from_listing, with_ids};
use npa_tests::random::Rng;
use npa_tests::reference::{npapage, HEADING};
use npa_tests::streams::{self, Case};

/// What the page of a plant prints behind its heading.
fn page(id: u32, stream: &[u8]) -> String {
    let text = String::from_utf8(npapage(&[&id.to_le_bytes(), stream].concat())).unwrap();
    let lines = text.strip_prefix(HEADING);
    lines.expect("the heading comes first").to_string()
}

/// The last line of a plant's page.
fn year(id: u32, case: &Case) -> String {
    let page = page(id, &case.stream);
    page.lines().last().unwrap_or_default().to_string()
}

#[test]
fn pages_of_the_document() {
    let stream = streams::document();
    for (id, lines) in [
        (
            11,
            "1000,11,86667,60000,10000,26667,0,0,0,0\nyear,11,0,0,0,0,1642500000\n",
        ),
        (
            12,
            "1000,12,43333,25000,0,0,18333,0,557629,0\nyear,12,18333,0,557629,0,821250000\n",
        ),
        (
            13,
            "1000,13,0,35000,0,0,0,30000,0,418211\nyear,13,0,30000,0,418211,0\n",
        ),
        (
            14,
            "1000,14,5000,15001,0,0,0,10001,0,139417\nyear,14,0,10001,0,139417,82125000\n",
        ),
        (0, "refused,0,17\n"),
        (15, "refused,0,17\n"),
        (u32::MAX, "refused,0,17\n"),
    ] {
        assert_eq!(page(id, &stream), lines);
    }
}

#[test]
fn a_page_of_any_first_part_of_an_input() {
    let opening = stream_of(&[&listing::opening().bytes()]);
    let file = stream_of(&[&listing::file(1_000).bytes()]);
    let twice = [&opening[..], &file, &file].concat();
    let row = "1000,14,5000,15001,0,0,0,10001,0,139417\n";
    let year = "year,14,0,10001,0,139417,82125000\n";
    let none = "year,14,0,0,0,0,0\n";
    for end in 0..=twice.len() {
        let first = opening.len() + file.len();
        let expected = match end {
            e if e < opening.len() => "cut,0\n".to_string(),
            e if e == opening.len() => none.to_string(),
            e if e < first => format!("cut,1\n{none}"),
            e if e == first => format!("{row}{year}"),
            e if e < twice.len() => format!("{row}cut,2\n{year}"),
            _ => format!("{row}refused,2,10\n{year}"),
        };
        assert_eq!(page(14, &twice[..end]), expected, "{end} bytes");
        let absent = match end < opening.len() {
            true => "cut,0\n",
            false => "refused,0,17\n",
        };
        assert_eq!(page(15, &twice[..end]), absent, "{end} bytes");
    }
    for bytes in 0..4 {
        let cut = format!("{HEADING}cut,0\n");
        assert_eq!(npapage(&[11, 0, 0, 0][..bytes]), cut.as_bytes());
    }
}

#[test]
fn a_refused_opening_has_its_own_ground_and_no_year() {
    let file = listing::file(1_000).bytes();
    let zero = Opening::new(0, DAYS, &[11]).bytes();
    let falling = Opening::new(NET_CONE, DAYS, &[12, 11]).bytes();
    let no_year = listing::opening_of(2017).bytes();
    for id in [11, 12, 0] {
        assert_eq!(page(id, &stream_of(&[&[], &file])), "refused,0,1\n");
        assert_eq!(page(id, &stream_of(&[&zero, &file])), "refused,0,2\n");
        assert_eq!(page(id, &stream_of(&[&falling])), "refused,0,4\n");
        assert_eq!(page(id, &stream_of(&[&no_year, &file])), "refused,0,23\n");
        assert_eq!(page(id, &4_097u32.to_le_bytes()), "refused,0,1\n");
    }
}

#[test]
fn a_length_over_the_limit_is_followed_by_the_year() {
    let opening = stream_of(&[&listing::opening().bytes()]);
    let file = stream_of(&[&listing::file(1_000).bytes()]);
    let input = [&opening[..], &61_441u32.to_le_bytes(), &file].concat();
    assert_eq!(page(11, &input), "refused,1,7\nyear,11,0,0,0,0,0\n");
}

/// A kW of commitment makes a limit of 16425 cents; 90 kW short are 2737.5 cents.
#[test]
fn the_limit_is_that_of_the_largest_commitment() {
    let years: Vec<String> = pages::commitments()
        .iter()
        .map(|case| year(1, case))
        .collect();
    let expected = [
        "year,1,0,0,0,0,0",
        "year,1,5100,0,155125,0,82125000",
        "year,1,110,0,3346,0,1642500",
        "year,1,0,0,0,0,11497500",
        "year,1,130,0,3955,0,11497500",
        "year,1,90,0,2738,0,1642500",
        "year,1,90,0,2738,0,1642500",
        "year,1,8000000,0,1626666666,0,439200000000",
    ];
    assert_eq!(years, expected);
    let refused_on_16 = pages::commitments().pop().unwrap();
    assert_eq!(year(512, &refused_on_16), "year,512,8,0,1627,0,549000");
}

#[test]
fn plants_at_their_limit() {
    let lines: Vec<[String; 2]> = pages::limits()
        .iter()
        .map(|case| [1, 2].map(|id| year(id, case)))
        .collect();
    let reached = ["year,1,560,0,16425,0,16425", "year,2,0,5600,0,16425,0"];
    let expected = [
        reached,
        ["year,1,569,0,16695,0,32850", "year,2,0,5690,0,16695,0"],
        [
            "year,1,4400000000,0,439200000000,0,439200000000",
            "year,2,0,8800000000,0,439200000000,0",
        ],
        // In 2016 a kW costs 15 cents, up to 8212.5; two have a limit of 16425.
        ["year,1,560,0,8212,0,8212", "year,2,0,5600,0,8212,0"],
        ["year,1,569,0,8347,0,16425", "year,2,0,5690,0,8347,0"],
        reached,
        [
            "year,1,4400000000,0,219000000000,0,219000000000",
            "year,2,0,8800000000,0,219000000000,0",
        ],
    ];
    assert_eq!(lines, expected);
}

/// The year's line goes by the divisor of its year, for a plant without charges too.
#[test]
fn the_limit_is_that_of_the_year() {
    let file = listing::file(1_000).bytes();
    for (start, limit) in [
        (2016, 821_250_000),
        (2018, 1_642_500_000),
        (2023, 1_642_500_000),
    ] {
        let opening = listing::opening_of(start).bytes();
        let lines = page(11, &stream_of(&[&opening, &file]));
        let row = "1000,11,86667,60000,10000,26667,0,0,0,0";
        assert_eq!(lines, format!("{row}\nyear,11,0,0,0,0,{limit}\n"));
    }
}

/// Lines and sums are those of the listing, and the limit goes by the accepted files.
#[test]
fn pages_are_parts_of_listings() {
    let mut rng = Rng::new(5);
    let mut inputs = pages::prefixes();
    inputs.extend((0..3_000).map(|number| pages::random_page(&mut rng, number)));
    inputs.extend(with_ids(&streams::lengths()));
    inputs.extend(with_ids(&streams::refused_openings(&mut rng, 3)));
    inputs.extend(with_ids(&streams::refused_files(&mut rng, 3)));
    inputs.extend(with_ids(&pages::commitments()));
    inputs.extend(with_ids(&pages::limits()));
    inputs.extend(with_ids(&[pages::alike()]));
    for input in &inputs {
        let page = String::from_utf8(npapage(&input.stream)).unwrap();
        let made = String::from_utf8(from_listing(&input.stream)).unwrap();
        assert_eq!(page, made, "{}", input.name);
    }
}
