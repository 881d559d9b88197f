//! An event: files one after another into one ledger, up to the first refusal.

use super::settling::{result_bytes, settle};
use super::words::{put_longs, unsigned};
use super::{refuse_if, Checked, Whole};

/// The bytes of a length, and of the count.
const LENGTH_BYTES: usize = 4;
const COUNT_BYTES: usize = 8;

/// Settles the files of an event in order; answers 0, or the ground of the first refusal.
pub fn event(ledger: &mut [u8], files: &[u8], result: &mut [u8], count: &mut [u8]) -> u32 {
    if count.len() < COUNT_BYTES {
        return 20;
    }
    let (settled, ground) = settle_files(ledger, files, result);
    put_longs(count, 0, &[settled]);
    ground
}

/// The number of files settled, and 0 or the ground on which the next is refused.
fn settle_files(ledger: &mut [u8], files: &[u8], result: &mut [u8]) -> (Whole, u32) {
    let (mut settled, mut at, mut room_at) = (0, 0, 0);
    while at < files.len() {
        let file = match next_file(&files[at..]) {
            Ok(file) => file,
            Err(ground) => return (settled, ground),
        };
        let ground = settle(ledger, file, &mut result[room_at..]);
        if ground != 0 {
            return (settled, ground);
        }
        // An accepted file has a header, whose word 6 is its number of rows.
        room_at += result_bytes(unsigned(file, 0, 6)) as usize;
        at += LENGTH_BYTES + file.len();
        settled += 1;
    }
    (settled, 0)
}

/// The file that stands first, behind its length; ground 22 if it is not wholly there.
fn next_file(files: &[u8]) -> Checked<&[u8]> {
    refuse_if(files.len() < LENGTH_BYTES, 22)?;
    let (length, rest) = (unsigned(files, 0, 0), &files[LENGTH_BYTES..]);
    refuse_if(length > rest.len() as Whole, 22)?;
    Ok(&rest[..length as usize])
}
