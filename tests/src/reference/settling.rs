//! Settling: grounds 6 to 16 and 18 in checking order, charges, credits, and what an accepted file leaves.

use super::assessment::{assess, total_bonus, Assessment};
use super::file::{
    event_holds, file_holds, row_holds, row_points_hold, row_schedules_hold, tables_hold,
};
use super::file::{read_head, read_tables, Row};
use super::ledger::{find_account, read_ledger, write_ledger, Account, Ledger, POOL_MOST};
use super::money::{charge, credit, limit};
use super::words::{put_longs, rise_strictly};
use super::{refuse_if, Checked, Whole};

/// Everything an accepted call writes.
struct Settlement {
    ledger: Ledger,
    assessment: Assessment,
    charges: Vec<Whole>,
    credits: Vec<Whole>,
}

/// Settles one interval file; answers 0 or the ground of refusal.
pub fn settle(ledger: &mut [u8], file: &[u8], result: &mut [u8]) -> u32 {
    match work_out(ledger, file, result.len()) {
        Ok(settlement) => {
            write_ledger(&settlement.ledger, ledger);
            write_result(&settlement, result);
            0
        }
        Err(ground) => ground,
    }
}

/// A file that no ground up to 15 refuses, charged to the accounts.
struct Charged {
    interval: Whole,
    rows: Vec<Row>,
    ledger: Ledger,
    assessment: Assessment,
    charges: Vec<Whole>,
}

impl Charged {
    /// The cents carried plus the charges.
    fn pool(&self) -> Whole {
        self.ledger.carried + self.charges.iter().sum::<Whole>()
    }
}

/// The pool that a file makes, unless a ground before 16 refuses it.
pub fn pool(ledger: &[u8], file: &[u8]) -> Checked<Whole> {
    charged(ledger, file, usize::MAX).map(|charged| charged.pool())
}

/// Grounds 6 to 13, 18, 14 and 15, in order, and the charges.
fn charged(ledger: &[u8], file: &[u8], room: usize) -> Checked<Charged> {
    let mut ledger = read_ledger(ledger)?;
    refuse_if(!file_holds(file), 7)?;
    let head = read_head(file);
    refuse_if(head.terms != ledger.year.terms, 8)?;
    refuse_if(!event_holds(&head), 9)?;
    refuse_if(head.interval < ledger.earliest, 10)?;
    refuse_if(!tables_hold(&head, file.len()), 11)?;
    let tables = read_tables(file, &head);
    let rows = &tables.rows;
    refuse_if(!row_ids_hold(rows, &ledger), 12)?;
    refuse_if(!rows.iter().all(row_holds), 13)?;
    refuse_if(!rows.iter().all(|row| row_schedules_hold(row, &tables)), 18)?;
    refuse_if(!rows.iter().all(|row| row_points_hold(row, &tables)), 14)?;
    refuse_if((room as Whole) < result_bytes(head.rows.count), 15)?;
    let assessment = assess(&head, &tables);
    let charges = charge_rows(&mut ledger, rows, &assessment);
    Ok(Charged {
        interval: head.interval,
        rows: tables.rows,
        ledger,
        assessment,
        charges,
    })
}

/// All grounds in order, and the figures.
fn work_out(ledger: &[u8], file: &[u8], room: usize) -> Checked<Settlement> {
    let charged = charged(ledger, file, room)?;
    let pool = charged.pool();
    refuse_if(pool > POOL_MOST, 16)?;
    let Charged {
        interval,
        rows,
        mut ledger,
        assessment,
        charges,
    } = charged;
    let credits = credit_rows(&mut ledger, &rows, &assessment, pool);
    ledger.carried = pool - credits.iter().sum::<Whole>();
    ledger.earliest = interval + 1;
    Ok(Settlement {
        ledger,
        assessment,
        charges,
        credits,
    })
}

/// The rows rise by id and every one has an account.
fn row_ids_hold(rows: &[Row], ledger: &Ledger) -> bool {
    let ids: Vec<Whole> = rows.iter().map(|row| row.id).collect();
    rise_strictly(&ids) && ids.iter().all(|id| find_account(ledger, *id).is_some())
}

/// The account of a row that passed ground 12.
fn account_of<'a>(ledger: &'a mut Ledger, row: &Row) -> &'a mut Account {
    let index = find_account(ledger, row.id).expect("every row has an account");
    &mut ledger.accounts[index]
}

/// Raises commitments, then charges every row to its account.
fn charge_rows(ledger: &mut Ledger, rows: &[Row], assessment: &Assessment) -> Vec<Whole> {
    let year = ledger.year;
    let mut charges = Vec::new();
    for (row, figures) in rows.iter().zip(&assessment.rows) {
        let account = account_of(ledger, row);
        account.commitment = account.commitment.max(row.committed);
        let left = limit(year, account.commitment) - account.charged;
        let charge = charge(year, figures.shortfall, left);
        account.charged += charge;
        charges.push(charge);
    }
    charges
}

/// Shares the pool among the rows by bonus, each share rounded down.
fn credit_rows(
    ledger: &mut Ledger,
    rows: &[Row],
    assessment: &Assessment,
    pool: Whole,
) -> Vec<Whole> {
    let total = total_bonus(assessment);
    let mut credits = Vec::new();
    for (row, figures) in rows.iter().zip(&assessment.rows) {
        let credit = credit(figures.bonus, pool, total);
        account_of(ledger, row).credited += credit;
        credits.push(credit);
    }
    credits
}

/// The bytes of a result with so many rows.
pub fn result_bytes(rows: Whole) -> Whole {
    64 + 64 * rows
}

/// Eight words for the interval, then eight for each row.
fn write_result(settlement: &Settlement, bytes: &mut [u8]) {
    let assessment = &settlement.assessment;
    let summary = [
        assessment.ratio,
        settlement.charges.iter().sum(),
        settlement.credits.iter().sum(),
        settlement.ledger.carried,
        total_bonus(assessment),
        assessment.numerator,
        assessment.denominator,
        assessment.rows.len() as Whole,
    ];
    put_longs(bytes, 0, &summary);
    for (index, figures) in assessment.rows.iter().enumerate() {
        let words = [
            figures.expected,
            figures.actual,
            figures.outage,
            figures.economic,
            figures.shortfall,
            figures.bonus,
            settlement.charges[index],
            settlement.credits[index],
        ];
        put_longs(bytes, 8 + 8 * index, &words);
    }
}
