//! What `npalist` prints.

use super::block::BLOCK_MOST;
use super::file::{read_head, read_row_ids, FILE_MOST, ROWS_MOST};
use super::ledger::ledger_bytes;
use super::opening::open;
use super::settling::{result_bytes, settle};
use super::terms::IDS_MOST;
use super::words::{long, unsigned};
use super::Whole;

/// The first line of every listing.
pub const HEADING: &str =
    "interval,id,expected,actual,outage,economic,shortfall,bonus,charge,credit\n";

/// What stands at the front of the rest of a stream.
enum Next<'a> {
    End,
    Cut,
    TooLong,
    Block(&'a [u8], &'a [u8]),
}

/// A block that was taken, if it is an accepted file, and the rest of the stream.
type Taken<'a> = (Option<&'a [u8]>, &'a [u8]);

/// Splits the next block, at most `most` bytes long, from the rest of the stream.
fn next_block(rest: &[u8], most: usize) -> Next<'_> {
    if rest.is_empty() {
        return Next::End;
    }
    if rest.len() < 4 {
        return Next::Cut;
    }
    let length = unsigned(rest, 0, 0) as usize;
    if length > most {
        return Next::TooLong;
    }
    if rest.len() - 4 < length {
        return Next::Cut;
    }
    Next::Block(&rest[4..4 + length], &rest[4 + length..])
}

/// What `npalist` prints for a whole standard input.
pub fn npalist(input: &[u8]) -> Vec<u8> {
    let mut out = String::from(HEADING);
    let mut listing = Listing::default();
    let mut rest = input;
    while let Some((accepted, after)) = listing.next(rest, &mut out) {
        if let Some(file) = accepted {
            listing.print_interval(file, &mut out);
        }
        rest = after;
    }
    out.into_bytes()
}

/// A listing under way: the number of the block that comes next, and the ledger that those before it left.
pub struct Listing {
    number: u64,
    ledger: Vec<u8>,
    result: Vec<u8>,
}

impl Default for Listing {
    fn default() -> Self {
        Listing {
            number: 0,
            ledger: vec![0; ledger_bytes(IDS_MOST) as usize],
            result: vec![0; result_bytes(ROWS_MOST) as usize],
        }
    }
}

impl Listing {
    /// The number of the next block.
    pub fn number(&self) -> u64 {
        self.number
    }

    /// The most bytes that it may have.
    pub fn most(&self) -> usize {
        match self.number {
            0 => BLOCK_MOST,
            _ => FILE_MOST,
        }
    }

    /// The ledger so far; zeros before the opening.
    pub fn ledger(&self) -> &[u8] {
        &self.ledger
    }

    /// Takes the next block of a stream and prints its line if it is refused or not all there: the block if it is
    /// an accepted file, and what follows it. Nothing where the stream ends or is not read on.
    pub(super) fn next<'a>(&mut self, rest: &'a [u8], out: &mut String) -> Option<Taken<'a>> {
        match next_block(rest, self.most()) {
            Next::End if self.number > 0 => None,
            Next::End | Next::Cut => {
                self.cut(out);
                None
            }
            Next::TooLong => {
                self.too_long(out);
                None
            }
            Next::Block(block, after) => {
                let opening = self.number == 0;
                let accepted = self.take(block, out) == 0;
                match opening {
                    true => accepted.then_some((None, after)),
                    false => Some((accepted.then_some(block), after)),
                }
            }
        }
    }

    /// Opens or settles the next block and prints the line of a refusal; answers 0 or the ground.
    fn take(&mut self, block: &[u8], out: &mut String) -> u32 {
        let number = self.number;
        self.number += 1;
        let answer = match number {
            0 => open(block, &mut self.ledger),
            _ => settle(&mut self.ledger, block, &mut self.result),
        };
        if answer != 0 {
            print_refusal(out, number, answer);
        }
        answer
    }

    /// Opens or settles the next block and prints its lines; answers 0 or the ground of refusal.
    pub fn block(&mut self, block: &[u8], out: &mut String) -> u32 {
        let opening = self.number == 0;
        let answer = self.take(block, out);
        if answer == 0 && !opening {
            self.print_interval(block, out);
        }
        answer
    }

    /// The row lines of the file that was accepted last, each as interval, id and the row's eight words.
    pub(super) fn row_lines(&self, file: &[u8]) -> Vec<[Whole; 10]> {
        let head = read_head(file);
        let line = |(index, id)| {
            let words = |word| long(&self.result, 8 + 8 * index + word);
            let mut line = [head.interval; 10];
            line[1] = id;
            line[2..].copy_from_slice(&[0, 1, 2, 3, 4, 5, 6, 7].map(words));
            line
        };
        let ids = read_row_ids(file, &head);
        ids.into_iter().enumerate().map(line).collect()
    }

    /// Prints the lines of the file that was accepted last: its rows, then its pool.
    fn print_interval(&self, file: &[u8], out: &mut String) {
        for line in self.row_lines(file) {
            print_numbers(out, &line);
        }
        out.push_str("pool,");
        let [ratio, charges, credits, carried] = [0, 1, 2, 3].map(|word| long(&self.result, word));
        let interval = read_head(file).interval;
        print_numbers(out, &[interval, ratio, charges, credits, carried]);
    }

    /// Prints the line of a next block that has too many bytes; answers its ground.
    pub fn too_long(&self, out: &mut String) -> u32 {
        let ground = if self.number == 0 { 1 } else { 7 };
        print_refusal(out, self.number, ground);
        ground
    }

    /// Prints the line of a next block that is not all there.
    pub fn cut(&self, out: &mut String) {
        print_cut(out, self.number);
    }
}

/// The line of a stream that ends too early.
pub(super) fn print_cut(out: &mut String, number: u64) {
    out.push_str(&format!("cut,{number}\n"));
}

/// The line of a refused block.
pub(super) fn print_refusal(out: &mut String, number: u64, ground: u32) {
    out.push_str(&format!("refused,{number},{ground}\n"));
}

/// Numbers with commas between them, as one line.
pub(super) fn print_numbers(out: &mut String, numbers: &[Whole]) {
    let texts: Vec<String> = numbers.iter().map(Whole::to_string).collect();
    out.push_str(&texts.join(","));
    out.push('\n');
}
