//! Words of blocks, files, ledgers and results, and the order and place of things in them.

use super::Whole;

/// Word `word` of 32 bits, counted from byte `at`, unsigned.
pub fn unsigned(bytes: &[u8], at: usize, word: usize) -> Whole {
    let start = at + 4 * word;
    Whole::from(u32::from_le_bytes(
        bytes[start..start + 4].try_into().unwrap(),
    ))
}

/// Word `word` of 32 bits, counted from byte `at`, signed.
pub fn signed(bytes: &[u8], at: usize, word: usize) -> Whole {
    let start = at + 4 * word;
    Whole::from(i32::from_le_bytes(
        bytes[start..start + 4].try_into().unwrap(),
    ))
}

/// Word `word` of 64 bits, counted from the first byte.
pub fn long(bytes: &[u8], word: usize) -> Whole {
    let start = 8 * word;
    Whole::from(u64::from_le_bytes(
        bytes[start..start + 8].try_into().unwrap(),
    ))
}

/// Writes 64-bit words one after another from word `word` on.
pub fn put_longs(bytes: &mut [u8], word: usize, values: &[Whole]) {
    for (index, value) in values.iter().enumerate() {
        let start = 8 * (word + index);
        bytes[start..start + 8].copy_from_slice(&(*value as u64).to_le_bytes());
    }
}

/// Each number is larger than the one before.
pub fn rise_strictly(numbers: &[Whole]) -> bool {
    numbers.windows(2).all(|pair| pair[0] < pair[1])
}

/// A stretch of `size` bytes from `offset` lies between byte `from` and the end.
pub fn lies_within(offset: Whole, size: Whole, from: usize, end: usize) -> bool {
    offset >= from as Whole && offset + size <= end as Whole
}
