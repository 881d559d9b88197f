//! Every fault of a stream, in words.

use crate::examine::{file_faults, opening_faults, Found, Known};
use crate::source::Source;
use crate::walk::{place, Cut, Next, Outcome, Step, Walk};
use crate::words::many;
use npa_tests::layout::{
    ledger_bytes, long_at, word_at, BLOCK_MOST, FILE_MOST, IDS_MOST, POOL_MOST,
};
use npa_tests::reference::{open, pool};

/// What is said before the blocks after a refused opening.
const ALONE: &str =
    "block 0 is refused, so nothing after it is listed; what follows is examined alone, \
                     without grounds 8, 10 and 16 and without the ids of an opening";

/// What is said of one block.
#[derive(Debug, PartialEq)]
pub struct Said {
    pub block: u64,
    place: String,
    /// The ground of each fault that has one, in checking order.
    pub grounds: Vec<u32>,
    /// How many faults there are; a remark is none.
    pub faults: u64,
    pub lines: Vec<String>,
}

impl Said {
    fn new(block: u64, interval: Option<u32>) -> Self {
        Said {
            block,
            place: place(block, interval),
            grounds: Vec::new(),
            faults: 0,
            lines: Vec::new(),
        }
    }

    /// A fault of the block with its ground.
    fn ground(&mut self, ground: u32, what: &str) {
        self.found(&Found {
            ground,
            place: String::new(),
            what: what.to_string(),
        });
    }

    /// A fault that was found in the block.
    fn found(&mut self, found: &Found) {
        let comma = if found.place.is_empty() { "" } else { ", " };
        let (block, place) = (&self.place, &found.place);
        let (what, ground) = (&found.what, found.ground);
        self.lines
            .push(format!("{block}{comma}{place}: {what}, ground {ground}"));
        self.grounds.push(ground);
        self.faults += 1;
    }

    /// The fault of a block that is not all there.
    fn cut(&mut self, cut: Cut) {
        self.remark(&format!("cut, {}", cut.words()));
        self.faults += 1;
    }

    fn remark(&mut self, what: &str) {
        self.lines.push(format!("{}: {what}", self.place));
    }
}

/// The faults of a stream, block after block.
pub struct Why {
    walk: Walk,
    /// Net CONE, days and ids of the opening.
    terms: [u32; 2],
    ids: Vec<u32>,
    /// The block that was settled last, and its interval.
    last: Option<(u64, u32)>,
    /// The number of the next block after a refused opening.
    alone: Option<u64>,
}

impl Why {
    pub fn new(source: Source) -> Self {
        Why {
            walk: Walk::new(source),
            terms: [0; 2],
            ids: Vec::new(),
            last: None,
            alone: None,
        }
    }

    /// What is said of the next block; nothing at the end of the stream.
    pub fn block(&mut self) -> Result<Option<Said>, String> {
        if let Some(number) = self.alone {
            return self.block_alone(number);
        }
        match self.walk.step()? {
            Some(step) => self.listed(&step).map(Some),
            None => Ok(None),
        }
    }

    /// A block that npalist lists.
    fn listed(&mut self, step: &Step) -> Result<Said, String> {
        let interval = self.walk.interval(step.number);
        let mut said = Said::new(step.number, interval);
        match step.outcome {
            Outcome::Opened => {
                self.examine(&mut said);
                self.keep_opening();
            }
            Outcome::Settled => {
                self.examine(&mut said);
                self.last = Some((step.number, interval.unwrap_or(0)));
            }
            Outcome::Refused(ground) => self.refused(ground, &mut said),
            Outcome::TooLong(length, ground) => {
                let most = if step.number == 0 {
                    BLOCK_MOST
                } else {
                    FILE_MOST
                };
                self.too_long(length, most, ground, &mut said)?;
            }
            Outcome::Cut(cut) => said.cut(cut),
        }
        Ok(said)
    }

    /// Every fault of a block but 16.
    fn examine(&self, said: &mut Said) {
        let faults = match said.block {
            0 => opening_faults(&self.walk.block),
            _ => file_faults(&self.walk.block, Some(&self.known())),
        };
        faults.iter().for_each(|found| said.found(found));
    }

    /// Every fault of a refused block, and what it may be instead.
    fn refused(&mut self, ground: u32, said: &mut Said) {
        self.examine(said);
        if ground == 16 {
            said.ground(16, &self.too_large());
        }
        if said.grounds.first() != Some(&ground) {
            said.ground(ground, "refused by a fault that is not found here");
        }
        if let Some(remark) = self.instead(said.block) {
            said.remark(remark);
        }
        if said.block == 0 {
            self.alone = Some(1);
        }
    }

    /// A length over the limit: what follows cannot be told apart into blocks.
    fn too_long(
        &mut self,
        length: u32,
        most: usize,
        ground: u32,
        said: &mut Said,
    ) -> Result<(), String> {
        let rest = many(self.walk.source.rest()?, "byte");
        let what = format!("length {length} above {most} ({rest} after it not read)");
        said.ground(ground, &what);
        Ok(())
    }

    /// A block after a refused opening.
    fn block_alone(&mut self, number: u64) -> Result<Option<Said>, String> {
        let next = self.walk.block_alone()?;
        let mut said = Said::new(number, self.walk.interval(number));
        if number == 1 {
            said.lines.push(ALONE.to_string());
        }
        self.alone = Some(number + 1);
        match next {
            Next::End => return Ok(None),
            Next::Cut(cut) => said.cut(cut),
            Next::TooLong(length) => self.too_long(length, FILE_MOST, 7, &mut said)?,
            Next::Block => {
                let faults = file_faults(&self.walk.block, None);
                faults.iter().for_each(|found| said.found(found));
            }
        }
        Ok(Some(said))
    }

    /// Keeps what an accepted opening says.
    fn keep_opening(&mut self) {
        let block = &self.walk.block;
        let word = |at: usize| word_at(block, at).unwrap_or(0);
        let (count, at) = (word(12) as usize, word(16) as usize);
        self.terms = [word(4), word(8)];
        self.ids = (0..count).map(|index| word(at + 4 * index)).collect();
    }

    /// What the stream says before the block that was listed last.
    fn known(&self) -> Known<'_> {
        Known {
            net_cone: self.terms[0],
            days: self.terms[1],
            ids: &self.ids,
            earliest: long_at(&self.walk.before, 3).unwrap_or(0),
            last: self.last,
        }
    }

    /// Ground 16 in words.
    fn too_large(&self) -> String {
        let carried = long_at(&self.walk.before, 4).unwrap_or(0);
        let pool = pool(&self.walk.before, &self.walk.block).unwrap_or(0);
        let charges = pool - i128::from(carried);
        format!("carried {carried} and charges {charges} make a pool of {pool}, above {POOL_MOST}")
    }

    /// What a refused block may be instead of what it should be.
    fn instead(&self, number: u64) -> Option<&'static str> {
        let block = &self.walk.block;
        match number {
            0 if block.len() == 1 => {
                Some("a length of 1 may be the format word of a block whose length is missing")
            }
            0 if file_faults(block, None).is_empty() => {
                Some("reads as an interval file; the first block of a stream is an opening")
            }
            1.. if open(block, &mut vec![0; ledger_bytes(IDS_MOST)]) == 0 => {
                Some("reads as an opening; a stream has one, its first block")
            }
            _ => None,
        }
    }
}
