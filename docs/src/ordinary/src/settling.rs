//! Settling: grounds 6 to 16 and 18, charges, credits, and what an accepted file leaves.

use crate::assessment::{figures, Figures, Ratio};
use crate::ensure;
use crate::file::{Header, Row};
use crate::ledger::{Ledger, POOL_MOST};
use crate::words::put_words64;

const SUMMARY_BYTES: usize = 64;
const ROW_BYTES: usize = 64;

/// The bytes of a result with so many rows.
pub fn result_bytes(rows: usize) -> usize {
    SUMMARY_BYTES + ROW_BYTES * rows
}

/// Settles an interval file; answers 0 or the ground of refusal.
pub fn settle(ledger: &mut [u8], file: &[u8], result: &mut [u8]) -> u32 {
    try_settle(ledger, file, result).err().unwrap_or(0)
}

fn try_settle(ledger_bytes: &mut [u8], file: &[u8], result: &mut [u8]) -> Result<(), u32> {
    let mut ledger = Ledger::read(ledger_bytes).ok_or(6u32)?;
    let header = Header::read(file).ok_or(7u32)?;
    ensure(header.terms == ledger.year.terms, 8)?;
    ensure(header.holds(), 9)?;
    ensure(header.interval >= ledger.earliest, 10)?;
    let tables = header.tables(file).ok_or(11u32)?;
    let rows = &tables.rows;
    let places = ledger.places(rows).ok_or(12u32)?;
    ensure(rows.iter().all(Row::holds), 13)?;
    ensure(tables.schedules_hold(), 18)?;
    let offers = tables.offers().ok_or(14u32)?;
    ensure(result.len() >= result_bytes(rows.len()), 15)?;

    let ratio = Ratio::of(&header, rows, &offers);
    let figures: Vec<Figures> = rows
        .iter()
        .zip(&offers)
        .map(|(row, offer)| figures(&header, row, offer, &tables.points, &ratio))
        .collect();
    let charges = charge(&mut ledger, &places, rows, &figures);
    let charged: u64 = charges.iter().sum();
    let pool = ledger.carried + charged;
    ensure(pool <= POOL_MOST, 16)?;
    let total_bonus: u64 = figures.iter().map(|figures| figures.bonus).sum();
    let credits = credit(&mut ledger, &places, &figures, pool, total_bonus);
    let credited: u64 = credits.iter().sum();
    ledger.carried = pool - credited;
    ledger.earliest = header.interval + 1;

    ledger.write(ledger_bytes);
    let (summary, row_results) = result.split_at_mut(SUMMARY_BYTES);
    let words = [
        ratio.portion(1_000_000),
        charged,
        credited,
        ledger.carried,
        total_bonus,
        ratio.numerator,
        ratio.denominator,
        rows.len() as u64,
    ];
    put_words64(summary, &words);
    let row_results = row_results.chunks_exact_mut(ROW_BYTES);
    for (((bytes, figures), charge), credit) in
        row_results.zip(&figures).zip(&charges).zip(&credits)
    {
        let words = [
            figures.expected,
            figures.actual,
            figures.outage,
            figures.economic,
            figures.shortfall,
            figures.bonus,
            *charge,
            *credit,
        ];
        put_words64(bytes, &words);
    }
    Ok(())
}

/// Charges each row to its account.
fn charge(ledger: &mut Ledger, places: &[usize], rows: &[Row], figures: &[Figures]) -> Vec<u64> {
    let year = ledger.year;
    let rows = rows.iter().zip(figures).zip(places);
    rows.map(|((row, figures), place)| {
        ledger.accounts[*place].charge(&year, row.committed, figures.shortfall)
    })
    .collect()
}

/// Credits each row's share of the pool to its account; there are none without a bonus.
fn credit(
    ledger: &mut Ledger,
    places: &[usize],
    figures: &[Figures],
    pool: u64,
    total_bonus: u64,
) -> Vec<u64> {
    let share = |figures: &Figures| match total_bonus {
        0 => 0,
        total => figures.bonus * pool / total,
    };
    let credits: Vec<u64> = figures.iter().map(share).collect();
    for (place, credit) in places.iter().zip(&credits) {
        ledger.accounts[*place].credited += credit;
    }
    credits
}
