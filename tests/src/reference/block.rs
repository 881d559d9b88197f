//! The opening block.

use super::terms::id_count_holds;
use super::words::{lies_within, unsigned};
use super::Whole;

pub const BLOCK_MOST: usize = 4096;

/// Without a year, and with it as a sixth word.
pub enum Format {
    Without,
    WithYear,
}

impl Format {
    /// The bytes of the first words, which are the least of a block.
    fn front(&self) -> usize {
        match self {
            Format::Without => 20,
            Format::WithYear => 24,
        }
    }
}

/// The format of an opening block, if it is one and the block has a possible length.
pub fn block_format(block: &[u8]) -> Option<Format> {
    let format = match block.get(..4).map(|word| unsigned(word, 0, 0))? {
        1 => Format::Without,
        2 => Format::WithYear,
        _ => return None,
    };
    (format.front()..=BLOCK_MOST)
        .contains(&block.len())
        .then_some(format)
}

/// The ids are of a possible number and all behind the first words.
pub fn id_table_holds(format: &Format, count: Whole, offset: Whole, length: usize) -> bool {
    id_count_holds(count) && lies_within(offset, 4 * count, format.front(), length)
}

/// The ids of an opening block, one word each.
pub fn read_ids(block: &[u8], offset: usize, count: usize) -> Vec<Whole> {
    (0..count).map(|i| unsigned(block, offset, i)).collect()
}
