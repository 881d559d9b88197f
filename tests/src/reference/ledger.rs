//! The ledger: its words, ground 6, and what opening and settling write.

use super::file::KW_MOST;
use super::money::limit;
use super::terms::{id_count_holds, ids_hold, intervals, start_holds, terms_hold, Terms, Year};
use super::words::{long, put_longs};
use super::{refuse_if, Checked, Whole};

const FORMAT: Whole = 1;
pub const POOL_MOST: Whole = 1_099_511_627_775;
const CREDITED_MOST: Whole = 224_870_400_000_000;

pub struct Account {
    pub id: Whole,
    pub commitment: Whole,
    pub charged: Whole,
    pub credited: Whole,
}

pub struct Ledger {
    pub year: Year,
    pub earliest: Whole,
    pub carried: Whole,
    pub accounts: Vec<Account>,
}

/// The bytes of a ledger with so many accounts.
pub fn ledger_bytes(accounts: Whole) -> Whole {
    64 + 32 * accounts
}

/// Ground 6: the ledger, if all of it is as an accepted call could leave it.
pub fn read_ledger(bytes: &[u8]) -> Checked<Ledger> {
    refuse_if(!ledger_frame_holds(bytes), 6)?;
    let count = long(bytes, 5) as usize;
    let ledger = Ledger {
        year: Year {
            terms: Terms {
                net_cone: long(bytes, 1),
                days: long(bytes, 2),
            },
            start: long(bytes, 7),
        },
        earliest: long(bytes, 3),
        carried: long(bytes, 4),
        accounts: (0..count).map(|i| read_account(bytes, i)).collect(),
    };
    refuse_if(!ledger_holds(&ledger), 6)?;
    Ok(ledger)
}

/// The fixed words are right and the accounts fit into the bytes.
fn ledger_frame_holds(bytes: &[u8]) -> bool {
    bytes.len() >= 64
        && long(bytes, 0) == FORMAT
        && long(bytes, 6) == 8
        && id_count_holds(long(bytes, 5))
        && bytes.len() as Whole >= ledger_bytes(long(bytes, 5))
}

/// The four words of one account.
fn read_account(bytes: &[u8], index: usize) -> Account {
    let word = 8 + 4 * index;
    Account {
        id: long(bytes, word),
        commitment: long(bytes, word + 1),
        charged: long(bytes, word + 2),
        credited: long(bytes, word + 3),
    }
}

/// Terms, year, ids, interval, carried cents and every account are possible.
fn ledger_holds(ledger: &Ledger) -> bool {
    let ids: Vec<Whole> = ledger.accounts.iter().map(|account| account.id).collect();
    terms_hold(ledger.year.terms)
        && (ledger.year.start == 0 || start_holds(ledger.year))
        && ids_hold(&ids)
        && ledger.earliest <= intervals(ledger.year.terms)
        && ledger.carried <= POOL_MOST
        && ledger
            .accounts
            .iter()
            .all(|account| account_holds(ledger.year, account))
        && ledger_balances(ledger)
}

/// Commitment and sums of an account are within their bounds.
fn account_holds(year: Year, account: &Account) -> bool {
    account.commitment <= KW_MOST
        && account.charged <= limit(year, account.commitment)
        && account.credited <= CREDITED_MOST
}

/// Everything charged was either credited or is carried.
fn ledger_balances(ledger: &Ledger) -> bool {
    let charged: Whole = ledger.accounts.iter().map(|a| a.charged).sum();
    let credited: Whole = ledger.accounts.iter().map(|a| a.credited).sum();
    charged == credited + ledger.carried
}

/// The place of an id among the accounts, which rise by id.
pub fn find_account(ledger: &Ledger, id: Whole) -> Option<usize> {
    ledger
        .accounts
        .binary_search_by_key(&id, |account| account.id)
        .ok()
}

/// An opened ledger: the terms, the year, the accounts with their ids, and zeros.
pub fn write_opened(year: Year, ids: &[Whole], bytes: &mut [u8]) {
    let Year {
        terms: Terms { net_cone, days },
        start,
    } = year;
    let count = ids.len() as Whole;
    put_longs(bytes, 0, &[FORMAT, net_cone, days, 0, 0, count, 8, start]);
    for (index, id) in ids.iter().enumerate() {
        put_longs(bytes, 8 + 4 * index, &[*id, 0, 0, 0]);
    }
}

/// The words of the ledger that an accepted file can change.
pub fn write_ledger(ledger: &Ledger, bytes: &mut [u8]) {
    put_longs(bytes, 3, &[ledger.earliest, ledger.carried]);
    for (index, account) in ledger.accounts.iter().enumerate() {
        let words = [account.commitment, account.charged, account.credited];
        put_longs(bytes, 9 + 4 * index, &words);
    }
}
