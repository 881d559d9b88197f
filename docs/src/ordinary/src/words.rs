//! Little-endian words.

use std::array;

/// The first `N` words of 32 bits.
pub fn words32<const N: usize>(bytes: &[u8]) -> [u32; N] {
    array::from_fn(|i| u32::from_le_bytes(bytes[4 * i..4 * i + 4].try_into().unwrap()))
}

/// The first `N` words of 64 bits.
pub fn words64<const N: usize>(bytes: &[u8]) -> [u64; N] {
    array::from_fn(|i| u64::from_le_bytes(bytes[8 * i..8 * i + 8].try_into().unwrap()))
}

/// Writes words of 64 bits at the front.
pub fn put_words64(bytes: &mut [u8], words: &[u64]) {
    for (bytes, word) in bytes.chunks_exact_mut(8).zip(words) {
        bytes.copy_from_slice(&word.to_le_bytes());
    }
}
