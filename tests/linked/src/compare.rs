//! A function of the module beside the reference's: both get the same calls, and
//! answer and bytes are compared. The module gets each call twice, with buffers
//! at the end and at the start of their pages.

use crate::guard::{watch, Guarded, Lent, Side};
use npa_tests::layout::hex;
use npa_tests::outcome::{seed_and_count, shown};
use npa_tests::random::Rng;
use std::array;
use std::collections::BTreeMap;
use std::process::ExitCode;
use std::{env, fmt};

/// One buffer to read and `W` to write; answers 0 or a ground of refusal.
pub type Function<const W: usize> = fn(&[u8], [&mut [u8]; W]) -> u32;

/// A function of the module and what it is held to.
pub struct Pair<const W: usize> {
    pub name: &'static str,
    /// What the buffer to read is called.
    pub read: &'static str,
    /// What the buffers to write are called.
    pub written: [&'static str; W],
    pub module: Function<W>,
    pub reference: Function<W>,
    /// The answers that a run must meet.
    pub answers: &'static [u32],
}

/// The buffers of one call.
pub struct Call<const W: usize> {
    pub read: Vec<u8>,
    pub written: [Vec<u8>; W],
}

/// The calls of a run.
pub struct Calls<const W: usize> {
    /// Those that come first in every run; the random numbers are for filler.
    pub fixed: fn(&mut Rng) -> Vec<Call<W>>,
    /// The random call with this number.
    pub random: fn(&mut Rng, u64) -> Call<W>,
}

/// A call's place in the run with this seed: its number, or its number in a year.
#[derive(Clone, Copy)]
pub struct Place {
    pub seed: u64,
    pub year: Option<u64>,
    pub number: u64,
}

impl fmt::Display for Place {
    fn fmt(&self, to: &mut fmt::Formatter) -> fmt::Result {
        let Place { seed, number, .. } = self;
        match self.year {
            None => write!(to, "seed {seed}, case {number}"),
            Some(year) => write!(to, "seed {seed}, year {year}, call {number}"),
        }
    }
}

/// What a call answers, and the bytes it leaves in the buffers to write.
struct Outcome<const W: usize> {
    answer: u32,
    left: [Vec<u8>; W],
}

impl<const W: usize> Pair<W> {
    /// What the reference makes of a call.
    fn wanted(&self, call: &Call<W>) -> Outcome<W> {
        let mut left = call.written.clone();
        let lent = left.each_mut().map(|bytes| &mut bytes[..]);
        let answer = (self.reference)(&call.read, lent);
        Outcome { answer, left }
    }

    /// The first thing that is not as it should be.
    fn difference(&self, answer: u32, left: [&[u8]; W], wanted: &Outcome<W>) -> Option<String> {
        if answer != wanted.answer {
            return Some(format!("answer {answer}, not {}", wanted.answer));
        }
        (0..W).find_map(|index| {
            let (is, must_be) = (left[index], &wanted.left[index]);
            let at = (0..is.len()).find(|at| is[*at] != must_be[*at])?;
            let name = self.written[index];
            let (is, must_be) = (is[at], must_be[at]);
            Some(format!(
                "answer {answer}, {name} byte {at} is {is:02x}, not {must_be:02x}"
            ))
        })
    }

    /// What is printed of a call that goes wrong.
    fn report(&self, call: &Call<W>, place: Place, side: Side, what: &str) -> String {
        let (name, side) = (self.name, format!("{side:?}").to_lowercase());
        let mut text = format!("{name}: {place}, buffers at the {side} of their pages: {what}");
        let names = [self.read].into_iter().chain(self.written);
        let buffers = [&call.read].into_iter().chain(&call.written);
        for (name, bytes) in names.zip(buffers) {
            text += &format!("\n{name}, {} bytes: {}", bytes.len(), hex(bytes));
        }
        text
    }
}

/// A function with guarded buffers for its calls.
pub struct Comparison<const W: usize> {
    pair: Pair<W>,
    read: Guarded,
    written: [Guarded; W],
    /// How many calls had each answer.
    met: BTreeMap<u32, u64>,
}

impl<const W: usize> Comparison<W> {
    pub fn new(pair: Pair<W>) -> Self {
        Comparison {
            pair,
            read: Guarded::map(),
            written: array::from_fn(|_| Guarded::map()),
            met: BTreeMap::new(),
        }
    }

    /// Compares the fixed calls and `count` random ones.
    pub fn compare_all(&mut self, calls: &Calls<W>, seed: u64, count: u64) -> Result<(), String> {
        let mut fixed = (calls.fixed)(&mut Rng::new(seed)).into_iter();
        for number in 0..fixed.len() as u64 + count {
            let call = match fixed.next() {
                Some(call) => call,
                None => (calls.random)(&mut Rng::of(seed, number), number),
            };
            let year = None;
            self.compare(&call, Place { seed, year, number })?;
        }
        Ok(())
    }

    /// Compares a call on both sides of the pages; the answer, or what goes wrong.
    pub fn compare(&mut self, call: &Call<W>, place: Place) -> Result<u32, String> {
        let wanted = self.pair.wanted(call);
        for side in [Side::End, Side::Start] {
            let answer = self.call(call, place, side);
            if let Some(what) = self.pair.difference(answer, self.left(), &wanted) {
                return Err(self.pair.report(call, place, side, &what));
            }
        }
        *self.met.entry(wanted.answer).or_default() += 1;
        Ok(wanted.answer)
    }

    /// The buffers to write, as the module left them.
    pub fn left(&self) -> [&[u8]; W] {
        self.written.each_ref().map(Guarded::bytes)
    }

    /// Counts the calls and their answers, if every one of these was met.
    pub fn counts(&self, seed: u64) -> Result<String, String> {
        let Pair { name, answers, .. } = self.pair;
        if let Some(answer) = answers.iter().find(|answer| !self.met.contains_key(answer)) {
            return Err(format!("{name}: seed {seed}: no case is answered {answer}"));
        }
        let total: u64 = self.met.values().sum();
        let accepted = self.met.get(&0).unwrap_or(&0);
        let counts: Vec<String> = self.met.iter().map(|(a, n)| format!("{a}: {n}")).collect();
        let counts = counts.join(", ");
        Ok(format!(
            "{total} cases, {accepted} accepted, seed {seed}; answers {counts}"
        ))
    }

    /// Calls the module; the guarded buffers stay as it leaves them.
    fn call(&mut self, call: &Call<W>, place: Place, side: Side) -> u32 {
        self.read.put(&call.read, side, Lent::ToRead);
        for (guarded, bytes) in self.written.iter_mut().zip(&call.written) {
            guarded.put(bytes, side, Lent::ToWrite);
        }
        let pair = &self.pair;
        let says = |means: &str| pair.report(call, place, side, &format!("trap: {means}"));
        let read = self.read.bytes();
        let written = self.written.each_mut().map(Guarded::bytes_mut);
        watch(&says, || (pair.module)(read, written))
    }
}

/// A program that runs on a seed and a number of random calls, `count` unless one is given.
pub fn program(count: u64, run: fn(u64, u64) -> Result<String, String>) -> ExitCode {
    let words: Vec<String> = env::args().skip(1).collect();
    shown(seed_and_count(&words, count).and_then(|(seed, count)| run(seed, count)))
}

#[cfg(test)]
mod tests {
    use super::*;

    /// Answers 0 and sets all its bytes to the first that is read; an empty one gets 1.
    fn fill(read: &[u8], [written]: [&mut [u8]; 1]) -> u32 {
        let Some(byte) = read.first() else {
            return 1;
        };
        written.fill(*byte);
        0
    }

    fn pair(module: Function<1>) -> Pair<1> {
        Pair {
            name: "filling",
            read: "source",
            written: ["target"],
            module,
            reference: fill,
            answers: &[0, 1],
        }
    }

    /// What comparing says of a module, for a call on so many bytes.
    fn compared(module: Function<1>, read: usize, written: usize) -> Result<u32, String> {
        let call = Call {
            read: vec![0x5a; read],
            written: [vec![0x11; written]],
        };
        let place = Place {
            seed: 3,
            year: None,
            number: 4,
        };
        Comparison::new(pair(module)).compare(&call, place)
    }

    #[test]
    fn equal_functions_are_equal() {
        assert_eq!(compared(fill, 2, 3), Ok(0));
        assert_eq!(compared(fill, 0, 3), Ok(1));
        assert_eq!(compared(fill, 2, 0), Ok(0));
    }

    #[test]
    fn another_answer_is_reported() {
        let report = compared(|_, _| 7, 2, 3).unwrap_err();
        let lines: Vec<&str> = report.lines().collect();
        let first = "filling: seed 3, case 4, buffers at the end of their pages: answer 7, not 0";
        assert_eq!(
            lines,
            [first, "source, 2 bytes: 5a5a", "target, 3 bytes: 111111"]
        );
    }

    #[test]
    fn another_byte_is_reported() {
        let wrong: Function<1> = |read, [written]| {
            let answer = fill(read, [&mut *written]);
            written[2] = 0x10;
            answer
        };
        for (read, says) in [(2, "answer 0"), (0, "answer 1")] {
            let report = compared(wrong, read, 3).unwrap_err();
            assert!(report.contains(says) && report.contains("target byte 2 is 10, not "));
        }
    }

    #[test]
    fn an_answer_that_no_case_has_is_a_failure() {
        let calls = Calls {
            fixed: |_| Vec::new(),
            random: |_, _| Call {
                read: vec![1],
                written: [Vec::new()],
            },
        };
        let mut comparison = Comparison::new(pair(fill));
        assert_eq!(comparison.compare_all(&calls, 3, 10), Ok(()));
        let report = comparison.counts(3).unwrap_err();
        assert_eq!(report, "filling: seed 3: no case is answered 1");
        comparison.pair.answers = &[0];
        let counts = "10 cases, 10 accepted, seed 3; answers 0: 10";
        assert_eq!(comparison.counts(3).unwrap(), counts);
    }
}
