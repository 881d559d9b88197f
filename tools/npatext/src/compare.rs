//! A listing held to its stream, line by line.

use crate::source::{is_wide, seen, Source, MARK};
use crate::walk::{place, Outcome, Step, Walk};
use crate::words::{many, meaning};
use npa_tests::reference::HEADING;

/// The most bytes of a listing's line that are read; no line of a stream has so many.
const LINE_MOST: usize = 1000;

/// A listing on its way beside its stream.
pub struct Comparison {
    listing: Source,
    line: Vec<u8>,
    /// Lines that were as they should be.
    pub equal: u64,
    /// Whether lines end in a carriage return and a newline.
    pub windows: bool,
    /// The first line that is not as it should be.
    pub difference: Option<String>,
    /// Where the listing ends early: lines that should follow.
    missing: u64,
}

impl Comparison {
    /// Begins with the heading.
    pub fn new(listing: Source) -> Result<Self, String> {
        let mut comparison = Comparison {
            listing,
            line: Vec::new(),
            equal: 0,
            windows: false,
            difference: None,
            missing: 0,
        };
        comparison.line(HEADING.trim_end(), || "the heading".to_string())?;
        Ok(comparison)
    }

    /// Holds the next lines to those of a block.
    pub fn block(&mut self, step: &Step, interval: Option<u32>) -> Result<(), String> {
        for (index, line) in step.lines.lines().enumerate() {
            self.line(line, || line_place(line, index, step.number, interval))?;
        }
        Ok(())
    }

    /// Holds the next line to what it should be.
    fn line(&mut self, should: &str, what: impl Fn() -> String) -> Result<(), String> {
        if self.difference.is_some() {
            self.missing += u64::from(self.missing > 0);
            return Ok(());
        }
        self.listing.line(LINE_MOST, &mut self.line)?;
        let number = self.equal + 1;
        let Some(line) = self.line.strip_suffix(b"\n") else {
            self.missing = 1;
            let what = what();
            self.difference = Some(match self.line.len() {
                0 if self.equal == 0 => format!("it is empty; `{should}` ({what}) is missing"),
                0 => format!(
                    "it ends after line {}; `{should}` ({what}) is missing",
                    self.equal
                ),
                LINE_MOST => {
                    self.missing = 0;
                    format!("line {number} is too long, and should be `{should}` ({what})")
                }
                _ if self.line == should.as_bytes() => {
                    format!("line {number} ({what}) has no newline, as if cut there")
                }
                _ => format!(
                    "it ends within line {number}, `{}`, which should be `{should}` ({what})",
                    shown(&self.line)
                ),
            });
            return Ok(());
        };
        let returned = line.strip_suffix(b"\r");
        if self.equal == 0 {
            self.windows = returned.is_some();
        }
        let text = returned.unwrap_or(line);
        let alike = returned.is_some() == self.windows;
        if text == should.as_bytes() && alike {
            self.equal = number;
            return Ok(());
        }
        self.difference = Some(if line.starts_with(MARK) || is_wide(line) {
            format!(
                "line {number} begins with a byte order mark, which npalist does not write: another program has \
                 saved the listing"
            )
        } else if text == should.as_bytes() {
            let how = if self.windows { "without" } else { "with" };
            format!("line {number} ends {how} a carriage return, unlike those before it")
        } else {
            let is = shown(text);
            format!("line {number} is `{is}`, not `{should}` ({})", what())
        });
        Ok(())
    }

    /// After the last block: a listing that goes on is not as it should be either.
    pub fn end(&mut self) -> Result<(), String> {
        if self.difference.is_none() {
            self.listing.line(LINE_MOST, &mut self.line)?;
            if !self.line.is_empty() {
                let (number, is) = (self.equal + 1, shown(&self.line));
                self.difference = Some(format!(
                    "line {number}, `{is}`, is too much: the listing of this stream ends before it"
                ));
            }
        }
        if let (Some(difference), 2..) = (&mut self.difference, self.missing) {
            let more = many(self.missing - 1, "line");
            *difference += &format!("; {more} after it must follow");
        }
        Ok(())
    }
}

/// A line as it is shown in a message.
fn shown(line: &[u8]) -> String {
    let text = String::from_utf8_lossy(line);
    seen(text.trim_end_matches('\n'))
}

/// Which line of a block it is.
fn line_place(line: &str, index: usize, number: u64, interval: Option<u32>) -> String {
    let block = place(number, interval);
    let mut words = line.split(',');
    match words.next() {
        Some("pool") => format!("the pool of {block}"),
        Some("refused") => format!("the refusal of {block}"),
        Some("cut") => format!("the cut in {block}"),
        _ => format!(
            "row {} (id {}) of {block}",
            index + 1,
            words.next().unwrap_or("")
        ),
    }
}

/// What a listing is beside its stream.
#[derive(Debug)]
pub struct Checked {
    pub whole: bool,
    /// What was compared, then what the stream does not settle.
    pub lines: Vec<String>,
}

/// Whether a listing is the whole listing of a stream.
pub fn check(stream: Source, listing: Source) -> Result<Checked, String> {
    let names = (stream.name.clone(), listing.name.clone());
    let mut walk = Walk::new(stream);
    let mut comparison = Comparison::new(listing)?;
    let mut lines = vec![String::new()];
    let (mut settled, mut refused, mut cut) = (0, 0, 0);
    while let Some(step) = walk.step()? {
        let interval = walk.interval(step.number);
        comparison.block(&step, interval)?;
        match step.outcome {
            Outcome::Opened => (),
            Outcome::Settled => settled += 1,
            Outcome::Refused(_) | Outcome::TooLong(..) => refused += 1,
            Outcome::Cut(_) => cut += 1,
        }
        lines.extend(unsettled(&step, interval));
    }
    comparison.end()?;
    let (stream, listing) = names;
    lines[0] = match &comparison.difference {
        Some(difference) => {
            format!("{listing} is not the whole listing of {stream}: {difference}")
        }
        None => {
            let windows = if comparison.windows {
                " (its lines end in a carriage return too, which npalist does not write)"
            } else {
                ""
            };
            format!(
                "{listing} is the whole listing of {stream}: {}, {} settled, {} refused, {} cut{windows}",
                many(comparison.equal, "line"),
                many(settled, "interval"),
                many(refused, "block"),
                many(cut, "block"),
            )
        }
    };
    if refused + cut > 0 {
        lines.push(format!("npatext why {stream} names every fault"));
    }
    Ok(Checked {
        whole: comparison.difference.is_none(),
        lines,
    })
}

/// A block that is refused or cut, in words.
fn unsettled(step: &Step, interval: Option<u32>) -> Option<String> {
    let place = place(step.number, interval);
    match step.outcome {
        Outcome::Opened | Outcome::Settled => None,
        Outcome::Refused(ground) => Some(format!(
            "{place} is refused on ground {ground}: {}",
            meaning(ground)
        )),
        Outcome::TooLong(length, ground) => Some(format!(
            "{place} is refused on ground {ground}: a length of {length}, and nothing after it is listed"
        )),
        Outcome::Cut(cut) => Some(format!("{place} is cut: {}", cut.words())),
    }
}
