//! `theorems SEED N DIR` writes small calls as theorems about the definitions into DIR: N calls of opening and
//! settling, and fewer events, pages and listings. Each says that a definition gives what the reference gives.

use npa_tests::layout::hex;
use npa_tests::outcome::shown;
use npa_tests::small::{cases, events, inputs, Case, Input};
use std::fmt::Write as _;
use std::path::Path;
use std::process::ExitCode;
use std::{fs, io};

/// Theorems in one module.
const A_MODULE: usize = 100;

/// Calls for each event, and for each input of a page and a listing: these take longer to compute.
const FOR_AN_EVENT: u64 = 4;
const FOR_AN_INPUT: u64 = 10;

/// What theorems of one sort have in common.
struct Sort {
    /// The name of their modules.
    name: &'static str,
    imports: &'static str,
    /// The definitions that are opened.
    opened: &'static str,
}

const IMPORTS: &str = "\
use Rattle.std.specs.Prelude.{◌≡◌, []}
use mathlib.Core.Path.{refl}
use Rattle.words.specs.Words.{bytes_of}
";

const CALLS: Sort = Sort {
    name: "Calls",
    imports: "\
use Rattle.ledger.specs.Opening.{opening}
use Rattle.settling.specs.Settling.{settling}
use Rattle.settling.proofs.Computing.{computing}
",
    opened: "computing",
};

const EVENTS: Sort = Sort {
    name: "Events",
    imports: "\
use Rattle.stream.specs.Stream.{next_block}
use Rattle.settling.proofs.Computing.{computing}
use Rattle.event.specs.Event.{no_file, one_file, turn, settled_files, event}
",
    opened: "computing next_block no_file one_file turn settled_files event",
};

const PAGES: Sort = Sort {
    name: "Pages",
    imports: "\
use Rattle.stream.specs.Stream.{bytes_of_next}
use Rattle.listing.specs.Npalist.{npalist}
use Rattle.listing.proofs.Computing.{computing}
use Rattle.page.specs.Page.{on_page, chosen, figure_on, summed, year_of, opened, on_roster, opening_of}
use Rattle.page.specs.Page.{lines_above, page_year, page_lines, npapage}
",
    opened: "computing bytes_of_next on_page chosen figure_on summed year_of opened on_roster opening_of \
             lines_above page_year page_lines npapage",
};

/// Bytes as the definitions make them of one number, its lowest byte first.
fn bytes(of: &[u8]) -> String {
    if of.is_empty() {
        return "[]".to_string();
    }
    format!("(bytes_of {} 0x{})", of.len(), hex(of.iter().rev()))
}

/// What a case says of the definitions.
fn statement(case: &Case) -> String {
    match case {
        Case::Open {
            call,
            ground,
            ledger,
        } => format!(
            "opening {} {} ≡ record {{ refusal = {ground}; ledger = {} }}",
            bytes(&call.block),
            bytes(&call.ledger),
            bytes(ledger)
        ),
        Case::Settle {
            call,
            ground,
            ledger,
            result,
        } => format!(
            "settling {} {} {} ≡ record {{ refusal = {ground}; ledger = {}; result = {} }}",
            bytes(&call.ledger),
            bytes(&call.file),
            bytes(&call.result),
            bytes(ledger),
            bytes(result)
        ),
        Case::Event { call, ground, left } => format!(
            "event {} {} {} {} ≡ record {{ refusal = {ground}; ledger = {}; result = {}; count = {} }}",
            bytes(&call.ledger),
            bytes(&call.files),
            bytes(&call.result),
            bytes(&call.count),
            bytes(&left.ledger),
            bytes(&left.result),
            bytes(&left.count)
        ),
    }
}

/// What an input says of the page, and its stream of the listing.
fn printed(of: &Input) -> [String; 2] {
    [
        format!("npapage {} ≡ {}", bytes(&of.bytes), bytes(&of.page)),
        format!("npalist {} ≡ {}", bytes(of.stream()), bytes(&of.listing)),
    ]
}

/// A module of theorems, each proved by computing.
fn module(sort: &Sort, says: &[String]) -> String {
    let mut text = format!("{IMPORTS}{}", sort.imports);
    let opened = sort.opened;
    for (index, says) in says.iter().enumerate() {
        let _ = write!(
            text,
            "\ncall{index} : {says}\nunfolding {opened}\ncall{index} = refl\n"
        );
    }
    text
}

/// Writes the theorems of one sort, and the names of their modules into `root`.
fn write_sort(sort: &Sort, says: &[String], dir: &Path, root: &mut String) -> io::Result<()> {
    for (index, part) in says.chunks(A_MODULE).enumerate() {
        let name = format!("{}{index}", sort.name);
        fs::write(dir.join(format!("{name}.antt")), module(sort, part))?;
        let _ = writeln!(root, "pub mod {name}");
    }
    Ok(())
}

/// How many of some cases are accepted.
fn accepted(cases: &[Case]) -> usize {
    cases.iter().filter(|case| case.ground() == 0).count()
}

/// Writes the theorems, and says how many.
fn write_all(seed: u64, count: u64, dir: &Path) -> io::Result<String> {
    let calls = cases(seed, count);
    let events = events(seed, count / FOR_AN_EVENT);
    let inputs = inputs(seed, count / FOR_AN_INPUT);
    let mut root = String::new();
    let sorts: [(Sort, Vec<String>); 3] = [
        (CALLS, calls.iter().map(statement).collect()),
        (EVENTS, events.iter().map(statement).collect()),
        (PAGES, inputs.iter().flat_map(printed).collect()),
    ];
    for (sort, says) in &sorts {
        write_sort(sort, says, dir, &mut root)?;
    }
    fs::write(dir.join("Lib.antt"), root)?;
    Ok(format!(
        "{count} calls, {} accepted; {} events, {} accepted; {} pages, and as many listings; seed {seed}",
        accepted(&calls),
        events.len(),
        accepted(&events),
        inputs.len()
    ))
}

fn run(words: &[String]) -> Result<String, String> {
    let [seed, count, dir] = words else {
        return Err("usage: theorems SEED N DIR".to_string());
    };
    let (Ok(seed), Ok(count)) = (seed.parse(), count.parse()) else {
        return Err("theorems: SEED and N are numbers".to_string());
    };
    write_all(seed, count, Path::new(dir)).map_err(|error| format!("theorems: {error}"))
}

fn main() -> ExitCode {
    let words: Vec<String> = std::env::args().skip(1).collect();
    shown(run(&words))
}
