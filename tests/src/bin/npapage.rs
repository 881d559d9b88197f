//! `npapage BINARY [SEED [N]]` runs the program npapage on fixed inputs, the vectors and N random inputs, and holds
//! every page to the reference's, byte for byte, and that to the listing of its stream.

use npa_tests::held::{common_sorts, line_sort, samples, Held};
use npa_tests::outcome::{seed_and_count, shown};
use npa_tests::pages::{self, from_listing, with_absent_ids, with_ids, with_plants};
use npa_tests::program::{Input, Output};
use npa_tests::random::Rng;
use npa_tests::reference::npapage;
use npa_tests::streams::{self, Case};
use npa_tests::vectors::{Operation, Print};
use std::env;
use std::process::ExitCode;

/// Years of a page, as they are counted.
const YEARS: [&str; 8] = [
    "row",
    "year without rows",
    "year of rows that are all 0, with a limit",
    "year charged",
    "year credited",
    "year at its limit",
    "year after a cut",
    "year after a refusal",
];

/// The reference's page, if its lines and sums are those of the listing too.
fn page(input: &[u8]) -> Result<Vec<u8>, String> {
    let page = npapage(input);
    match page == from_listing(input) {
        true => Ok(page),
        false => Err("its page is not that of its listing".to_string()),
    }
}

/// The sorts of lines and years of a page.
fn sorts(page: &str) -> Vec<String> {
    let lines: Vec<&str> = page.lines().skip(1).collect();
    let mut sorts: Vec<String> = lines.iter().filter_map(|line| line_sort(line)).collect();
    let is_row = |line: &&&str| line.starts_with(|first: char| first.is_ascii_digit());
    let rows: Vec<&&str> = lines.iter().filter(is_row).collect();
    sorts.extend(rows.iter().map(|_| YEARS[0].to_string()));
    let Some(year) = lines.last().and_then(|line| line.strip_prefix("year,")) else {
        return sorts;
    };
    let numbers: Vec<u64> = year
        .split(',')
        .filter_map(|word| word.parse().ok())
        .collect();
    let [charged, credited, limit] = [3, 4, 5].map(|at| numbers[at]);
    let idle = rows.iter().all(|row| row.ends_with(",0,0,0,0,0,0,0,0"));
    let before = |word| lines.len() > 1 && lines[lines.len() - 2].starts_with(word);
    let years = [
        rows.is_empty(),
        !rows.is_empty() && idle && limit > 0,
        charged > 0,
        credited > 0,
        charged > 0 && charged == limit,
        before("cut,"),
        before("refused,"),
    ];
    let met = YEARS[1..].iter().zip(years).filter(|(_, met)| *met);
    sorts.extend(met.map(|(sort, _)| sort.to_string()));
    sorts
}

/// Small inputs: every prefix, each limit and each ground with ids of every sort; and one parted at every byte.
fn small(held: &mut Held, rng: &mut Rng) -> Result<(), String> {
    held.hold_all(&pages::prefixes(), Input::Pipe)?;
    held.hold_all(&pages::prefixes(), Input::File)?;
    let streams = [
        streams::lengths(),
        streams::refused_openings(rng, 10),
        streams::refused_files(rng, 8),
        pages::commitments(),
        pages::limits(),
        vec![pages::alike()],
    ];
    for cases in streams {
        held.hold_all(&with_ids(&cases), Input::File)?;
        held.hold_all(&with_plants(&cases), Input::Pieces(900))?;
    }
    let document = Case::new("two intervals", streams::two_intervals());
    held.hold_parted(&pages::with_id(&document, 12))?;
    held.hold_parted(&pages::with_id(&document, 15))
}

/// The page of a vector.
fn own(operation: &Operation) -> Option<&Print> {
    match operation {
        Operation::Page(print) => Some(print),
        _ => None,
    }
}

/// What stops the page, with an input that does not end: the program ends all the same.
fn stopped(held: &mut Held, rng: &mut Rng) -> Result<(), String> {
    held.hold_all(&with_ids(&streams::too_long()), Input::Open)?;
    held.hold_all(&with_ids(&streams::refused_openings(rng, 2)), Input::Open)?;
    let absent = with_absent_ids(&[pages::alike(), Case::new("a document", streams::document())]);
    held.hold_all(&absent, Input::Open)
}

fn run(binary: &str, seed: u64, count: u64) -> Result<String, String> {
    let mut held = Held::new(binary, page, sorts)?;
    let mut rng = Rng::new(seed);
    small(&mut held, &mut rng)?;
    held.hold_vectors(own)?;
    for case in with_ids(&samples()?) {
        held.hold(&case, Input::File, Output::Pipe)?;
        held.hold(&case, Input::Pieces(700), Output::Slow(3_000))?;
    }
    held.hold_unread()?;
    stopped(&mut held, &mut rng)?;
    let long = streams::long(&mut rng);
    held.hold_long(&with_plants(&long))?;
    held.hold_all(&with_absent_ids(&long), Input::Pipe)?;
    let mut closed = with_plants(&long);
    closed.push(pages::random_page(&mut rng, 1));
    held.hold_closed(&closed)?;
    held.hold_random(seed, count, pages::random_page)?;
    let mut wanted = common_sorts();
    wanted.push("refused,0,17".to_string());
    wanted.extend(YEARS.map(str::to_string));
    held.counts(seed, &wanted)
}

fn main() -> ExitCode {
    let words: Vec<String> = env::args().skip(1).collect();
    shown(match &words[..] {
        [binary, numbers @ ..] => {
            seed_and_count(numbers, 2_000).and_then(|(seed, count)| run(binary, seed, count))
        }
        [] => Err("usage: npapage BINARY [SEED [N]]".to_string()),
    })
}
