//! `npalist BINARY [SEED [N]]` runs the program npalist on fixed streams, the vectors and N random streams, and holds
//! every listing to the reference's, byte for byte.

use npa_tests::held::{common_sorts, line_sort, samples, Held};
use npa_tests::outcome::{seed_and_count, shown};
use npa_tests::program::{Input, Output};
use npa_tests::random::Rng;
use npa_tests::reference::npalist;
use npa_tests::streams;
use npa_tests::vectors::{Operation, Print};
use std::env;
use std::process::ExitCode;

/// Small streams: each limit, each ground, every prefix; and a document in two pieces, parted at every byte.
fn small(held: &mut Held, rng: &mut Rng) -> Result<(), String> {
    held.hold_all(&streams::prefixes(), Input::Pipe)?;
    held.hold_all(&streams::prefixes(), Input::File)?;
    let [lengths, openings, files] = [
        streams::lengths(),
        streams::refused_openings(rng, 25),
        streams::refused_files(rng, 15),
    ];
    for cases in [lengths, openings, files] {
        held.hold_all(&cases, Input::File)?;
        held.hold_all(&cases, Input::Pieces(900))?;
    }
    let prefixes = streams::prefixes();
    held.hold_parted(prefixes.last().expect("the whole stream"))
}

/// The listing of a vector.
fn listing(operation: &Operation) -> Option<&Print> {
    match operation {
        Operation::List(print) => Some(print),
        _ => None,
    }
}

/// A stream that stops the listing, with an input that does not end: the program ends all the same.
fn stopped(held: &mut Held, rng: &mut Rng) -> Result<(), String> {
    held.hold_all(&streams::too_long(), Input::Open)?;
    held.hold_all(&streams::refused_openings(rng, 2), Input::Open)
}

fn run(binary: &str, seed: u64, count: u64) -> Result<String, String> {
    let sorts = |listing: &str| listing.lines().filter_map(line_sort).collect();
    let mut held = Held::new(binary, |stream| Ok(npalist(stream)), sorts)?;
    let mut rng = Rng::new(seed);
    small(&mut held, &mut rng)?;
    held.hold_vectors(listing)?;
    for case in samples()? {
        held.hold(&case, Input::File, Output::Pipe)?;
        held.hold(&case, Input::Pieces(700), Output::Slow(3_000))?;
    }
    held.hold_unread()?;
    stopped(&mut held, &mut rng)?;
    held.hold_long(&streams::long(&mut rng))?;
    held.writes_cut_short()?;
    let mut closed = streams::long(&mut rng);
    closed.push(streams::random_stream(&mut rng, 1));
    held.hold_closed(&closed)?;
    held.hold_random(seed, count, streams::random_stream)?;
    let mut wanted = common_sorts();
    wanted.push("pool".to_string());
    held.counts(seed, &wanted)
}

fn main() -> ExitCode {
    let words: Vec<String> = env::args().skip(1).collect();
    shown(match &words[..] {
        [binary, numbers @ ..] => {
            seed_and_count(numbers, 2_000).and_then(|(seed, count)| run(binary, seed, count))
        }
        [] => Err("usage: npalist BINARY [SEED [N]]".to_string()),
    })
}
