//! Opening: grounds 1 to 5 and 23, and the ledger of a year that begins.

use super::block::{block_format, id_table_holds, read_ids, Format};
use super::ledger::{ledger_bytes, write_opened};
use super::terms::{ids_hold, start_holds, terms_hold, Terms, Year};
use super::words::unsigned;
use super::{refuse_if, Checked, Whole};

struct Opening {
    year: Year,
    ids: Vec<Whole>,
}

/// Opens a ledger for one delivery year; answers 0 or the ground of refusal.
pub fn open(block: &[u8], ledger: &mut [u8]) -> u32 {
    match check_opening(block, ledger.len()) {
        Ok(opening) => {
            write_opened(opening.year, &opening.ids, ledger);
            0
        }
        Err(ground) => ground,
    }
}

/// Grounds 1, 2, 23, 3, 4 and 5, in this order.
fn check_opening(block: &[u8], room: usize) -> Checked<Opening> {
    let format = block_format(block).ok_or(1u32)?;
    let terms = Terms {
        net_cone: unsigned(block, 0, 1),
        days: unsigned(block, 0, 2),
    };
    refuse_if(!terms_hold(terms), 2)?;
    let year = read_year(block, &format, terms)?;
    let count = unsigned(block, 0, 3);
    let offset = unsigned(block, 0, 4);
    refuse_if(!id_table_holds(&format, count, offset, block.len()), 3)?;
    let ids = read_ids(block, offset as usize, count as usize);
    refuse_if(!ids_hold(&ids), 4)?;
    refuse_if((room as Whole) < ledger_bytes(count), 5)?;
    Ok(Opening { year, ids })
}

/// The year of a block; ground 23 if it names one that there is not.
fn read_year(block: &[u8], format: &Format, terms: Terms) -> Checked<Year> {
    match format {
        Format::Without => Ok(Year { terms, start: 0 }),
        Format::WithYear => {
            let year = Year {
                terms,
                start: unsigned(block, 0, 5),
            };
            refuse_if(!start_holds(year), 23)?;
            Ok(year)
        }
    }
}
