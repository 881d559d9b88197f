//! Opening: grounds 1 to 5 and 23, and the ledger of a year that begins.

use crate::ensure;
use crate::ledger::{ids_hold, ledger_bytes, Account, Ledger, ACCOUNTS_MOST};
use crate::terms::{Terms, Year};
use crate::words::words32;

/// The bytes of the words before the ids in formats 1 and 2, and of the longest block.
const FRONT_BYTES: usize = 20;
const YEAR_FRONT_BYTES: usize = 24;
pub const BLOCK_MOST: usize = 4096;

/// Opens a ledger for one delivery year; answers 0 or the ground of refusal.
pub fn open(block: &[u8], ledger: &mut [u8]) -> u32 {
    try_open(block, ledger).err().unwrap_or(0)
}

fn try_open(block: &[u8], bytes: &mut [u8]) -> Result<(), u32> {
    ensure((FRONT_BYTES..=BLOCK_MOST).contains(&block.len()), 1)?;
    let [format, net_cone, days, count, offset] = words32(block);
    let front = match format {
        1 => FRONT_BYTES,
        2 if block.len() >= YEAR_FRONT_BYTES => YEAR_FRONT_BYTES,
        _ => return Err(1),
    };
    let terms = Terms {
        net_cone: net_cone.into(),
        days: days.into(),
    };
    ensure(terms.hold(), 2)?;
    let year = read_year(terms, &block[FRONT_BYTES..front]).ok_or(23u32)?;
    let ids = id_table(block, front, count as usize, offset as usize).ok_or(3u32)?;
    let accounts: Vec<Account> = ids.chunks_exact(4).map(opened_account).collect();
    ensure(ids_hold(&accounts), 4)?;
    ensure(bytes.len() >= ledger_bytes(accounts.len()), 5)?;
    let ledger = Ledger {
        year,
        earliest: 0,
        carried: 0,
        accounts,
    };
    ledger.write(bytes);
    Ok(())
}

/// The year by the bytes of its word, which format 1 does not have; none if it cannot be named.
fn read_year(terms: Terms, word: &[u8]) -> Option<Year> {
    if word.is_empty() {
        return Some(Year { terms, start: 0 });
    }
    let [start] = words32(word);
    let year = Year {
        terms,
        start: start.into(),
    };
    year.can_be_named().then_some(year)
}

/// The bytes of the ids, if they are of a possible number and lie in the block behind its first words.
fn id_table(block: &[u8], front: usize, count: usize, offset: usize) -> Option<&[u8]> {
    if !(1..=ACCOUNTS_MOST).contains(&count) || offset < front {
        return None;
    }
    block.get(offset..offset + 4 * count)
}

fn opened_account(id: &[u8]) -> Account {
    let [id] = words32(id);
    Account {
        id: id.into(),
        ..Account::default()
    }
}
