//! The ledger and ground 6.

use crate::file::{Row, KW_MOST};
use crate::terms::{Terms, Year};
use crate::words::{put_words64, words64};

pub const ACCOUNTS_MOST: usize = 512;
pub const POOL_MOST: u64 = 1_099_511_627_775;
const CREDITED_MOST: u64 = 224_870_400_000_000;

const HEADER_BYTES: usize = 64;
const ACCOUNT_BYTES: usize = 32;

#[derive(Clone, Default)]
pub struct Account {
    pub id: u64,
    pub commitment: u64,
    pub charged: u64,
    pub credited: u64,
}

pub struct Ledger {
    pub year: Year,
    pub earliest: u64,
    pub carried: u64,
    pub accounts: Vec<Account>,
}

/// The bytes of a ledger with so many accounts.
pub fn ledger_bytes(accounts: usize) -> usize {
    HEADER_BYTES + ACCOUNT_BYTES * accounts
}

/// Ids are above 0 and rise.
pub fn ids_hold(accounts: &[Account]) -> bool {
    accounts.first().is_some_and(|account| account.id > 0)
        && accounts.windows(2).all(|pair| pair[0].id < pair[1].id)
}

impl Account {
    fn read(bytes: &[u8]) -> Self {
        let [id, commitment, charged, credited] = words64(bytes);
        Account {
            id,
            commitment,
            charged,
            credited,
        }
    }

    fn holds(&self, year: &Year) -> bool {
        self.commitment <= KW_MOST
            && self.charged <= year.limit(self.commitment)
            && self.credited <= CREDITED_MOST
    }

    /// Raises the commitment, then charges a shortfall as far as the limit leaves room.
    pub fn charge(&mut self, year: &Year, committed: u64, shortfall: u64) -> u64 {
        self.commitment = self.commitment.max(committed);
        let left = year.limit(self.commitment) - self.charged;
        let charge = year.charge(shortfall).min(left);
        self.charged += charge;
        charge
    }
}

impl Ledger {
    /// The ledger of these bytes, if they are as opening or settling leaves them.
    pub fn read(bytes: &[u8]) -> Option<Self> {
        if bytes.len() < HEADER_BYTES {
            return None;
        }
        let [format, net_cone, days, earliest, carried, count, offset, start] = words64(bytes);
        let laid_out = format == 1 && offset == 8;
        if !laid_out || !(1..=ACCOUNTS_MOST as u64).contains(&count) {
            return None;
        }
        let accounts = bytes.get(HEADER_BYTES..ledger_bytes(count as usize))?;
        let ledger = Ledger {
            year: Year {
                terms: Terms { net_cone, days },
                start,
            },
            earliest,
            carried,
            accounts: accounts
                .chunks_exact(ACCOUNT_BYTES)
                .map(Account::read)
                .collect(),
        };
        ledger.holds().then_some(ledger)
    }

    fn holds(&self) -> bool {
        let year = &self.year;
        year.terms.hold()
            && (year.start == 0 || year.can_be_named())
            && self.earliest <= year.terms.intervals()
            && self.carried <= POOL_MOST
            && ids_hold(&self.accounts)
            && self.accounts.iter().all(|account| account.holds(year))
            && self.closes()
    }

    /// All that was charged is credited or carried.
    fn closes(&self) -> bool {
        let charged: u64 = self.accounts.iter().map(|account| account.charged).sum();
        let credited: u64 = self.accounts.iter().map(|account| account.credited).sum();
        charged == credited + self.carried
    }

    /// The place of each row's account, if the rows rise and all have one. Both lists rise, so
    /// that a search begins where the one before it ended.
    pub fn places(&self, rows: &[Row]) -> Option<Vec<usize>> {
        if !rows.windows(2).all(|pair| pair[0].id < pair[1].id) {
            return None;
        }
        let mut place = 0;
        let place_of = |row: &Row| {
            let mut rest = self.accounts[place..].iter();
            place += rest.position(|account| account.id == row.id)?;
            Some(place)
        };
        rows.iter().map(place_of).collect()
    }

    /// Writes the header and all accounts.
    pub fn write(&self, bytes: &mut [u8]) {
        let Year {
            terms: Terms { net_cone, days },
            start,
        } = self.year;
        let count = self.accounts.len() as u64;
        let (header, accounts) = bytes.split_at_mut(HEADER_BYTES);
        let words = [
            1,
            net_cone,
            days,
            self.earliest,
            self.carried,
            count,
            8,
            start,
        ];
        put_words64(header, &words);
        for (bytes, account) in accounts.chunks_exact_mut(ACCOUNT_BYTES).zip(&self.accounts) {
            let Account {
                id,
                commitment,
                charged,
                credited,
            } = *account;
            put_words64(bytes, &[id, commitment, charged, credited]);
        }
    }
}
