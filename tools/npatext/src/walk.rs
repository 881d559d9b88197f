//! A stream block by block, as npalist takes it, with the lines that the reference prints.

use crate::source::Source;
use npa_tests::layout::{word_at, FILE_MOST};
use npa_tests::reference::Listing;

/// How a block came out.
#[derive(Clone, Copy, Debug, PartialEq)]
pub enum Outcome {
    Opened,
    Settled,
    Refused(u32),
    /// A length over the limit, and its ground.
    TooLong(u32, u32),
    Cut(Cut),
}

/// Where a stream ends too early.
#[derive(Clone, Copy, Debug, PartialEq)]
pub enum Cut {
    /// Before the opening.
    Empty,
    /// After so many of the four bytes of a length.
    Length(usize),
    /// After so many of a block's bytes.
    Block(usize, u32),
}

/// What comes next in a stream.
pub enum Next {
    End,
    Cut(Cut),
    TooLong(u32),
    Block,
}

/// The next block, or what there is of it, into the buffer.
pub fn next_block(from: &mut Source, most: usize, block: &mut Vec<u8>) -> Result<Next, String> {
    from.fill(4, block)?;
    let Some(length) = word_at(block, 0) else {
        let there = block.len();
        block.clear();
        return Ok(match there {
            0 => Next::End,
            _ => Next::Cut(Cut::Length(there)),
        });
    };
    block.clear();
    if length as usize > most {
        return Ok(Next::TooLong(length));
    }
    from.fill(length as usize, block)?;
    if block.len() < length as usize {
        return Ok(Next::Cut(Cut::Block(block.len(), length)));
    }
    Ok(Next::Block)
}

/// A block that was listed.
pub struct Step {
    pub number: u64,
    pub outcome: Outcome,
    /// What npalist prints for it.
    pub lines: String,
}

/// A stream on its way through the reference.
pub struct Walk {
    pub source: Source,
    listing: Listing,
    /// The ledger before the block that was listed last.
    pub before: Vec<u8>,
    /// The bytes of that block, as far as they are there.
    pub block: Vec<u8>,
    ended: bool,
}

impl Walk {
    pub fn new(source: Source) -> Self {
        Walk {
            source,
            listing: Listing::default(),
            before: Vec::new(),
            block: Vec::new(),
            ended: false,
        }
    }

    /// Lists the next block; nothing where the listing has ended.
    pub fn step(&mut self) -> Result<Option<Step>, String> {
        if self.ended {
            return Ok(None);
        }
        let number = self.listing.number();
        self.before.clear();
        self.before.extend(self.listing.ledger());
        let mut lines = String::new();
        let next = next_block(&mut self.source, self.listing.most(), &mut self.block)?;
        let outcome = match next {
            Next::End if number > 0 => {
                self.ended = true;
                return Ok(None);
            }
            Next::End => self.cut(Cut::Empty, &mut lines),
            Next::Cut(cut) => self.cut(cut, &mut lines),
            Next::TooLong(length) => {
                self.ended = true;
                Outcome::TooLong(length, self.listing.too_long(&mut lines))
            }
            Next::Block => match self.listing.block(&self.block, &mut lines) {
                0 if number == 0 => Outcome::Opened,
                0 => Outcome::Settled,
                ground => {
                    self.ended = number == 0;
                    Outcome::Refused(ground)
                }
            },
        };
        Ok(Some(Step {
            number,
            outcome,
            lines,
        }))
    }

    fn cut(&mut self, cut: Cut, lines: &mut String) -> Outcome {
        self.ended = true;
        self.listing.cut(lines);
        Outcome::Cut(cut)
    }

    /// The next block of a stream whose opening is refused, which npalist does not read.
    pub fn block_alone(&mut self) -> Result<Next, String> {
        next_block(&mut self.source, FILE_MOST, &mut self.block)
    }

    /// The interval that the last block names.
    pub fn interval(&self, number: u64) -> Option<u32> {
        word_at(&self.block, 4).filter(|_| number > 0)
    }
}

/// A block in words.
pub fn place(number: u64, interval: Option<u32>) -> String {
    match interval {
        Some(interval) => format!("block {number} (interval {interval})"),
        None => format!("block {number}"),
    }
}

impl Cut {
    /// Where the stream ends, in words.
    pub fn words(&self) -> String {
        match self {
            Cut::Empty => "the stream ends before its opening".to_string(),
            Cut::Length(there) => {
                format!("the stream ends after {there} of the 4 bytes of its length")
            }
            Cut::Block(there, length) => {
                format!("the stream ends after {there} of its {length} bytes")
            }
        }
    }
}
