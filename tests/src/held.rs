//! Runs of a program that lists a stream, with inputs and outputs of every sort; each is held to the reference, byte
//! for byte.

use crate::layout::hex;
use crate::program::{Closed, Input, Output, Program, Unread};
use crate::random::{Rng, SETTLING_GROUNDS};
use crate::streams::Case;
use crate::vectors::{vectors, Operation, Print};
use std::collections::{BTreeMap, HashSet};
use std::fs;
use std::path::Path;

const SAMPLES: &str = concat!(env!("CARGO_MANIFEST_DIR"), "/../samples");

/// An output with more bytes is not over before a pipe is full and some thousands were taken from it.
const FILLS_A_PIPE: usize = 150_000;

/// What a program is to print for an input, or what is wrong with the reference itself.
pub type MustBe = fn(&[u8]) -> Result<Vec<u8>, String>;

/// The sorts of things that an output has, each as often as it has them.
pub type Sorts = fn(&str) -> Vec<String>;

/// The program, and what its runs met so far.
pub struct Held {
    program: Program,
    must_be: MustBe,
    sorts: Sorts,
    runs: u64,
    streams: HashSet<Vec<u8>>,
    /// How many things of each sort the outputs had.
    met: BTreeMap<String, u64>,
}

/// What begins a line, but for block numbers; nothing for rows and the heading.
pub fn line_sort(line: &str) -> Option<String> {
    let parts: Vec<&str> = line.split(',').collect();
    match parts[..] {
        ["pool", ..] => Some("pool".to_string()),
        ["cut", "0"] => Some("cut,0".to_string()),
        ["cut", _] => Some("cut".to_string()),
        ["refused", "0", ground] => Some(format!("refused,0,{ground}")),
        ["refused", _, ground] => Some(format!("refused,_,{ground}")),
        _ => None,
    }
}

/// The sorts of lines that both programs can print: refusals on every ground that a stream can show, and cuts.
pub fn common_sorts() -> Vec<String> {
    let openings = (1..=4).map(|ground| format!("refused,0,{ground}"));
    let grounds = SETTLING_GROUNDS
        .iter()
        .filter(|ground| ![6, 15].contains(*ground));
    let files = grounds.map(|ground| format!("refused,_,{ground}"));
    let cuts = ["cut,0", "cut"].map(str::to_string);
    openings.chain(files).chain(cuts).collect()
}

/// The first line in which an output is not as it should be.
fn difference(is: &[u8], must_be: &[u8]) -> Option<String> {
    if is == must_be {
        return None;
    }
    let lines = |bytes: &[u8]| -> Vec<String> {
        let text = String::from_utf8_lossy(bytes);
        text.split('\n').map(str::to_string).collect()
    };
    let (is, must_be) = (lines(is), lines(must_be));
    let at = (0..).find(|at| is.get(*at) != must_be.get(*at))?;
    let of = |lines: &[String]| lines.get(at).map_or("missing".into(), |l| format!("`{l}`"));
    let (is, must_be) = (of(&is), of(&must_be));
    Some(format!("line {} is {is}, not {must_be}", at + 1))
}

/// What is said of a case that goes wrong.
fn report(case: &Case, how: &str, what: &str) -> String {
    let digits = hex(case.stream.iter().take(2_000));
    let more = if case.stream.len() > 2_000 { ".." } else { "" };
    let length = case.stream.len();
    format!(
        "{}, {how}: {what}\nstream, {length} bytes: {digits}{more}",
        case.name
    )
}

/// The streams of the samples.
pub fn samples() -> Result<Vec<Case>, String> {
    let mut cases = Vec::new();
    for entry in fs::read_dir(SAMPLES).map_err(|error| format!("{SAMPLES}: {error}"))? {
        let path = entry.map_err(|error| error.to_string())?.path();
        if path.extension().is_some_and(|kind| kind == "stream") {
            let name = path.display().to_string();
            let stream = fs::read(&path).map_err(|error| format!("{name}: {error}"))?;
            cases.push(Case::new(name, stream));
        }
    }
    match cases.len() {
        0 => Err("there are no samples".to_string()),
        _ => Ok(cases),
    }
}

impl Held {
    pub fn new(binary: &str, must_be: MustBe, sorts: Sorts) -> Result<Self, String> {
        Ok(Held {
            program: Program::new(Path::new(binary)).map_err(|error| error.to_string())?,
            must_be,
            sorts,
            runs: 0,
            streams: HashSet::new(),
            met: BTreeMap::new(),
        })
    }

    /// What the program is to print for a case.
    fn must_be(&self, case: &Case) -> Result<Vec<u8>, String> {
        (self.must_be)(&case.stream).map_err(|what| report(case, "reference", &what))
    }

    /// Holds the program to the vectors that are its own, after the reference.
    pub fn hold_vectors(&mut self, own: fn(&Operation) -> Option<&Print>) -> Result<(), String> {
        for vector in vectors()? {
            let Some(print) = own(&vector.operation) else {
                continue;
            };
            vector.hold_reference()?;
            let case = Case::new(vector.name.clone(), print.input.clone());
            self.hold(&case, Input::File, Output::Pipe)?;
        }
        Ok(())
    }

    /// Holds one run to the reference.
    pub fn hold(&mut self, case: &Case, input: Input, output: Output) -> Result<(), String> {
        let must_be = self.must_be(case)?;
        let how = format!("input {input:?}, output {output:?}");
        let written = self.program.run(&case.stream, input, output);
        let written = written.map_err(|what| report(case, &how, &what))?;
        if let Some(what) = difference(&written, &must_be) {
            return Err(report(case, &how, &what));
        }
        self.count(case);
        for sort in (self.sorts)(&String::from_utf8_lossy(&must_be)) {
            *self.met.entry(sort).or_default() += 1;
        }
        Ok(())
    }

    /// Counts a run, and its stream if it is another than before.
    fn count(&mut self, case: &Case) {
        self.runs += 1;
        if !self.streams.contains(&case.stream) {
            self.streams.insert(case.stream.clone());
        }
    }

    /// Holds a run for each case.
    pub fn hold_all(&mut self, cases: &[Case], input: Input) -> Result<(), String> {
        cases
            .iter()
            .try_for_each(|case| self.hold(case, input, Output::Pipe))
    }

    /// An input in two pieces, parted at every byte, and in small pieces into a slow output.
    pub fn hold_parted(&mut self, case: &Case) -> Result<(), String> {
        for at in 0..case.stream.len() {
            self.hold(case, Input::Split(at), Output::Pipe)?;
        }
        for most in [1, 2, 3, 5, 7] {
            self.hold(case, Input::Pieces(most), Output::Slow(most))?;
        }
        Ok(())
    }

    /// Long inputs: in pieces, into a slow output, and into one that is full while the program is stopped.
    pub fn hold_long(&mut self, cases: &[Case]) -> Result<(), String> {
        self.hold_all(cases, Input::File)?;
        self.hold_all(cases, Input::Pipe)?;
        self.hold_all(cases, Input::Pieces(50_000))?;
        for case in cases {
            self.hold(case, Input::Pipe, Output::Slow(20_000))?;
            if self.must_be(case)?.len() > FILLS_A_PIPE {
                self.hold(case, Input::File, Output::Interrupted)?;
                self.hold(case, Input::Pieces(200_000), Output::Interrupted)?;
            }
        }
        Ok(())
    }

    /// Of writes longer than a pipe takes at once, some were seen to move less than they were given.
    pub fn writes_cut_short(&self) -> Result<(), String> {
        match self.program.short_writes() {
            0 => Err("no write was seen to move less than it was given".to_string()),
            _ => Ok(()),
        }
    }

    /// Outputs that take no more: the program ends, and what it wrote begins what it is to print.
    pub fn hold_closed(&mut self, cases: &[Case]) -> Result<(), String> {
        for case in cases {
            let must_be = self.must_be(case)?;
            let mut ways = vec![Closed::Nothing, Closed::Full];
            for most in [0, 1, 73, 74, 5_000, 70_000] {
                ways.extend([Closed::Reader(most), Closed::ReaderIgnored(most)]);
            }
            for closed in ways {
                let how = format!("output closed, {closed:?}");
                let written = self.program.run_closed(&case.stream, closed);
                let written = written.map_err(|what| report(case, &how, &what))?;
                let wanted = match closed {
                    Closed::Nothing | Closed::Full => 0,
                    Closed::Reader(most) | Closed::ReaderIgnored(most) => most.min(must_be.len()),
                };
                if let Some(what) = difference(&written, &must_be[..wanted]) {
                    return Err(report(case, &how, &what));
                }
                self.count(case);
            }
        }
        Ok(())
    }

    /// An input that cannot be read is one that has ended.
    pub fn hold_unread(&mut self) -> Result<(), String> {
        let must_be = (self.must_be)(b"")?;
        for unread in [Unread::Nothing, Unread::Folder] {
            let written = self.program.run_unread(unread);
            let what = written.map(|written| difference(&written, &must_be));
            if let Some(what) = what.unwrap_or_else(Some) {
                return Err(format!("input {unread:?}: {what}"));
            }
            self.runs += 1;
        }
        Ok(())
    }

    /// So many random inputs, each in one of the ways in.
    pub fn hold_random(
        &mut self,
        seed: u64,
        count: u64,
        make: fn(&mut Rng, u64) -> Case,
    ) -> Result<(), String> {
        for number in 0..count {
            let mut rng = Rng::of(seed, number);
            let mut case = make(&mut rng, number);
            case.name += &format!(" of seed {seed}");
            let input = match number % 8 {
                0 => Input::Pieces(1 + case.stream.len() / 20),
                1 => Input::Split(rng.index(case.stream.len() + 1)),
                2 | 3 => Input::File,
                _ => Input::Pipe,
            };
            self.hold(&case, input, Output::Pipe)?;
        }
        Ok(())
    }

    /// The counts, if the outputs had every sort that is wanted.
    pub fn counts(&self, seed: u64, wanted: &[String]) -> Result<String, String> {
        if let Some(sort) = wanted.iter().find(|sort| !self.met.contains_key(*sort)) {
            return Err(format!("seed {seed}: no output has `{sort}`"));
        }
        let counts = self
            .met
            .iter()
            .map(|(sort, count)| format!("{sort}: {count}"));
        let counts = counts.collect::<Vec<_>>().join("; ");
        let (runs, streams, short) = (self.runs, self.streams.len(), self.program.short_writes());
        Ok(format!(
            "{runs} runs of {streams} streams, {short} writes cut short, seed {seed}; lines {counts}"
        ))
    }
}
