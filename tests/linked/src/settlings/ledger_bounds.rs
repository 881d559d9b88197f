//! Grounds 6, 10 and 16: ledgers on both sides of every bound.

use super::{listing, plain, with};
use npa_tests::layout::{self, Ledger, POOL_MOST};
use npa_tests::random::SettleCase;

const HIGH: u64 = 1 << 32;
const TOP: u64 = 1 << 63;
const KW_MOST: u64 = layout::KW_MOST as u64;
/// Net CONE and days at which limits are largest.
pub const LARGEST: (u32, u32) = (200_000, 366);
/// The charges of the listing's file at these terms.
const CHARGES: u64 = 3_727_710;

pub fn cases() -> Vec<SettleCase> {
    let mut cases = lengths();
    cases.extend(words());
    cases.extend(years());
    cases.extend(account_counts());
    cases.extend(ids());
    cases.extend(commitments());
    cases.extend(charged_sums());
    cases.extend(credited_sums());
    cases.extend(carried());
    cases.extend(balances());
    cases.extend(pools());
    cases.extend(pools_of_2016());
    cases.extend(orders());
    cases
}

/// Ledgers of every length around 64 bytes and around the one needed.
fn lengths() -> Vec<SettleCase> {
    let mut cases = Vec::new();
    for accounts in [1, 2, 4, 512] {
        let case = plain(accounts, 1);
        let needed = case.ledger.length;
        let lengths = (0..=66).chain(needed - 33..=needed + 33);
        cases.extend(lengths.map(|length| with(&case, |case| case.ledger.length = length)));
    }
    cases
}

/// The first words at their bounds, and right only in some of their bytes.
fn words() -> Vec<SettleCase> {
    let last = 288 * 365;
    let values: [&[u64]; 8] = [
        &[0, 1, 2, 255, 256, 257, HIGH, HIGH + 1, TOP + 1],
        &[0, 1, 2, 29_999, 30_000, 199_999, 200_000, 200_001],
        &[0, 109, 110, 364, 365, 366, 367, 621, 65_901],
        &[0, 1, 999, 1_000, 1_001, last - 1, last, last + 1, HIGH],
        &[0, 1, 2, HIGH, TOP],
        &[0, 1, 2, 3, 4, 5, 6, 255, 256, 260, 512, 513],
        &[0, 1, 7, 8, 9, 64, 264, HIGH + 8, TOP + 8],
        &[0, 1, 255, 256, HIGH, TOP],
    ];
    let mut cases = Vec::new();
    for (word, values) in values.iter().enumerate() {
        for value in values.iter().copied().chain(beyond(word)) {
            let case = with(&listing(), |case| case.ledger.words[word] = value);
            // Terms that the file has as well are refused on 6 or not at all.
            cases.push(with(&case, |case| match word {
                1 => case.file.head[2] = value as u32,
                2 => case.file.head[3] = value as u32,
                _ => (),
            }));
            cases.push(case);
        }
    }
    cases
}

/// Years at the bounds of those that a ledger can have, and right only in some of their bytes, with either number of
/// days.
fn years() -> Vec<SettleCase> {
    let near = (2014..=2025).chain([0, 1, 2, 16, 23, 255, 256]);
    let parts = (2014..=2025).flat_map(|year| [year & 0xff, year & 0xff00, year << 8, year << 32]);
    let bits = [1 << 12, 1 << 16, 1 << 31, HIGH, 1 << 48, TOP];
    let high = bits.into_iter().flat_map(|high| {
        let years = [0].into_iter().chain(2014..=2025);
        years.map(move |year| high + year)
    });
    near.chain(parts)
        .chain(high)
        .chain([u64::MAX])
        .flat_map(|year| [365, 366].map(|days| at_year(30_000, days, year)))
        .collect()
}

/// The listing's word with bits above those that count.
fn beyond(word: usize) -> impl Iterator<Item = u64> {
    let right = listing().ledger.words[word];
    let high = [HIGH, 1 << 58, 1 << 59, 1 << 60, TOP].map(move |high| right + high);
    high.into_iter().chain([u64::MAX - 7, u64::MAX])
}

/// So many accounts, all really there, and a count word that is off by one.
fn account_counts() -> Vec<SettleCase> {
    let mut cases = Vec::new();
    for accounts in [1, 2, 511, 512, 513, 514] {
        let case = plain(accounts, 1);
        for count in accounts - 1..=accounts + 1 {
            cases.push(with(&case, |case| case.ledger.words[5] = count as u64));
        }
    }
    cases
}

/// Ids that are 0, equal, fall or rise by one, also in their upper halves.
fn ids() -> Vec<SettleCase> {
    let mut cases = Vec::new();
    for index in 0..4 {
        let id = 11 + index as u64;
        let near = [0, 1, 10, 11, 12, 13, 14, 15, 255, 256];
        let far = [HIGH - 1, HIGH, HIGH + id, TOP, TOP + id, u64::MAX];
        for value in near.into_iter().chain(far) {
            cases.push(with(&listing(), |case| {
                case.ledger.accounts[index][0] = value;
            }));
        }
        cases.push(with(&listing(), |case| {
            for account in &mut case.ledger.accounts[index..] {
                account[0] += HIGH;
            }
        }));
    }
    let case = plain(512, 1);
    for (index, value) in [(510, 511 * 7), (511, 511 * 7), (511, 0), (511, 511 * 7 + 1)] {
        cases.push(with(&case, |case| {
            case.ledger.accounts[index][0] = value;
        }));
    }
    cases
}

/// Largest commitments at their bound.
fn commitments() -> Vec<SettleCase> {
    let mut cases = Vec::new();
    for index in 0..4 {
        let far = [HIGH, HIGH + 5, TOP, u64::MAX];
        for kw in (KW_MOST - 1..=KW_MOST + 1).chain(far) {
            cases.push(with(&listing(), |case| {
                case.ledger.accounts[index][1] = kw;
            }));
        }
    }
    cases
}

/// The listing's file at these terms.
pub fn at_terms(net_cone: u32, days: u32) -> SettleCase {
    at_year(net_cone, days, 0)
}

/// The listing's file at these terms, in a ledger of this year.
pub fn at_year(net_cone: u32, days: u32, year: u64) -> SettleCase {
    with(&listing(), |case| set_terms(case, net_cone, days, year))
}

/// Sets the terms of ledger and file, and the ledger's year.
pub fn set_terms(case: &mut SettleCase, net_cone: u32, days: u32, year: u64) {
    (case.ledger.words[1], case.ledger.words[2]) = (net_cone.into(), days.into());
    (case.file.head[2], case.file.head[3]) = (net_cone, days);
    case.ledger.words[7] = year;
}

/// Charged sums at the limits of some commitments; the cents are carried or credited.
fn charged_sums() -> Vec<SettleCase> {
    let mut cases = Vec::new();
    for (net_cone, days, year) in [
        (1, 365, 0),
        (1, 366, 0),
        (30_000, 365, 0),
        (199_999, 365, 0),
        (LARGEST.0, LARGEST.1, 0),
        (1, 365, 2016),
        (3, 365, 2016),
        (30_000, 365, 2016),
        (199_999, 365, 2016),
        (200_000, 365, 2016),
        (30_000, 365, 2018),
        (LARGEST.0, LARGEST.1, 2023),
    ] {
        let case = at_year(net_cone, days, year);
        for kw in [0, 1, 2, 3, 5, 999, 50_000, KW_MOST - 1, KW_MOST] {
            let most = case.ledger.terms().limit(kw);
            for charged in most.saturating_sub(1)..=most + 1 {
                let account = [0, kw, charged, 0];
                cases.push(with(&case, |case| {
                    put_account(&mut case.ledger, 1, account)
                }));
                cases.push(with(&case, |case| {
                    put_account(&mut case.ledger, 3, account);
                    set_carried(&mut case.ledger, 0);
                }));
            }
        }
    }
    cases
}

/// Puts an account in, all but its id; what it is charged is carried.
fn put_account(ledger: &mut Ledger, index: usize, account: [u64; 4]) {
    let id = ledger.accounts[index][0];
    ledger.accounts[index] = account;
    ledger.accounts[index][0] = id;
    ledger.words[4] = account[2];
}

/// Sets the cents carried; the rest of what was charged goes to the first account.
pub fn set_carried(ledger: &mut Ledger, carried: u64) {
    let charged: u64 = ledger.accounts.iter().map(|account| account[2]).sum();
    ledger.words[4] = carried;
    ledger.accounts[0][3] = charged - carried;
}

/// Credited sums at their bound, and at all that can be charged in 2016.
fn credited_sums() -> Vec<SettleCase> {
    let mut cases = credited_in(LARGEST.1, 0);
    cases.extend(credited_in(365, 2016));
    cases
}

/// A credited sum as large as it can be and larger ones, in a ledger where all is charged that can be.
fn credited_in(days: u32, year: u64) -> Vec<SettleCase> {
    let mut case = plain(512, 1);
    set_terms(&mut case, LARGEST.0, days, year);
    let most = case.ledger.terms().limit(KW_MOST);
    for account in &mut case.ledger.accounts {
        (account[1], account[2]) = (KW_MOST, most);
    }
    set_carried(&mut case.ledger, 0);
    let whole = case.ledger.accounts[0][3];
    let mut cases = vec![case.clone()];
    for credited in [whole - 1, whole + 1, whole + HIGH, whole + TOP] {
        cases.push(with(&case, |case| {
            case.ledger.accounts[0][3] = credited;
        }));
    }
    // Halves of 2^64 in two accounts would close if a sum wrapped.
    cases.push(with(&case, |case| {
        case.ledger.accounts[0][3] = whole + TOP;
        case.ledger.accounts[511][3] = TOP;
    }));
    cases
}

/// The listing's file at the largest terms, in a ledger of large sums that carries so much.
pub fn carrying(carried: u64) -> SettleCase {
    with(&at_terms(LARGEST.0, LARGEST.1), |case| {
        for account in &mut case.ledger.accounts {
            (account[1], account[2]) = (3_000_000, 300_000_000_000);
        }
        set_carried(&mut case.ledger, carried);
    })
}

/// A settling that makes the pool as large as it may be.
pub fn full_pool() -> SettleCase {
    carrying(POOL_MOST - CHARGES)
}

/// Carried cents at their bound, with no charges added to them.
fn carried() -> Vec<SettleCase> {
    let amounts = [
        0,
        1,
        HIGH - 1,
        HIGH,
        POOL_MOST - 1,
        POOL_MOST,
        POOL_MOST + 1,
    ];
    let without_charges = |carried| {
        with(&carrying(carried), |case| {
            case.file.rows[1][4] = KW_MOST as u32;
        })
    };
    amounts.map(without_charges).to_vec()
}

/// A pool at its bound, and 1 cent of charges above it.
fn pools() -> Vec<SettleCase> {
    let below = POOL_MOST - CHARGES;
    let near = (below - 2..=below + 2).chain(POOL_MOST - 1..=POOL_MOST);
    let mut cases: Vec<SettleCase> = near.map(carrying).collect();
    // A charge that the limit cuts: only the rest of it counts.
    for (left, carried) in [(1, POOL_MOST - 1), (1, POOL_MOST), (0, POOL_MOST)] {
        cases.push(with(&carrying(carried), |case| {
            let most = case.ledger.terms().limit(3_000_000);
            case.ledger.accounts[1][2] = most - left;
            set_carried(&mut case.ledger, carried);
        }));
    }
    // A commitment that would be raised if the pool were not too large.
    cases.push(with(&carrying(POOL_MOST), |case| {
        case.file.rows[3][2] = KW_MOST as u32;
        case.file.rows[3][4] = KW_MOST as u32;
    }));
    cases
}

/// A pool of 2016 at its bound: six accounts carry it, and 40 kW cost 4055.56 cents.
fn pools_of_2016() -> Vec<SettleCase> {
    let mut case = plain(6, 1);
    set_terms(&mut case, LARGEST.0, 365, 2016);
    for account in &mut case.ledger.accounts {
        (account[1], account[2]) = (KW_MOST, 200_000_000_000);
    }
    let below = POOL_MOST - 4_056;
    let carried = (below - 1..=below + 1).chain([POOL_MOST, POOL_MOST + 1]);
    carried
        .map(|carried| with(&case, |case| set_carried(&mut case.ledger, carried)))
        .collect()
}

/// Sums that are off, alone and in pairs that close again.
fn balances() -> Vec<SettleCase> {
    let case = carrying(500_000_000_000);
    let sums: Vec<(usize, usize)> = (0..4).flat_map(|a| [(a, 2), (a, 3)]).collect();
    let amounts = [1, 256, HIGH, TOP];
    let amounts = amounts
        .into_iter()
        .flat_map(|by: u64| [by, 0u64.wrapping_sub(by)]);
    let mut cases = Vec::new();
    for by in amounts {
        let add = |word: &mut u64| *word = word.wrapping_add(by);
        cases.push(with(&case, |case| add(&mut case.ledger.words[4])));
        for (account, word) in &sums {
            let off = with(
                &case,
                |case| add(&mut case.ledger.accounts[*account][*word]),
            );
            cases.push(with(&off, |case| add(&mut case.ledger.words[4])));
            cases.push(with(&off, |case| add(&mut case.ledger.accounts[3][3])));
            cases.push(off);
        }
    }
    cases
}

/// Ground 10: the earliest interval next to the file's, also at the ends of the year.
fn orders() -> Vec<SettleCase> {
    let mut cases = Vec::new();
    for days in [365, 366] {
        let last = 288 * days - 1;
        for interval in [0, 1, 255, 256, 1_000, last - 1, last] {
            for earliest in [
                0,
                1,
                255,
                256,
                257,
                999,
                1_000,
                1_001,
                last - 1,
                last,
                last + 1,
            ] {
                cases.push(with(&at_terms(30_000, days), |case| {
                    case.file.head[1] = interval;
                    case.ledger.words[3] = earliest.into();
                }));
            }
        }
    }
    cases
}

#[cfg(test)]
mod tests {
    use super::super::answer;
    use super::*;

    #[test]
    fn bounds_are_where_they_should_be() {
        assert_eq!(answer(&full_pool()), 0);
        assert_eq!(answer(&carrying(POOL_MOST - CHARGES + 1)), 16);
        let answers: Vec<u32> = carried().iter().map(answer).collect();
        assert_eq!(answers, [0, 0, 0, 0, 0, 0, 6]);
        let answers: Vec<u32> = pools().iter().map(answer).collect();
        assert_eq!(answers, [0, 0, 0, 16, 16, 16, 16, 0, 16, 0, 16]);
        let answers: Vec<u32> = credited_sums().iter().map(answer).collect();
        assert_eq!(answers, [0, 6, 6, 6, 6, 6, 0, 6, 6, 6, 6, 6]);
        let answers: Vec<u32> = pools_of_2016().iter().map(answer).collect();
        assert_eq!(answers, [0, 0, 16, 16, 6]);
    }

    #[test]
    fn years_are_on_both_sides() {
        let answers: Vec<u32> = years().iter().map(answer).collect();
        assert!(answers.iter().all(|answer| [0, 6].contains(answer)));
        // 2016 with 365 days, and six years and none with either number.
        let accepted = answers.iter().filter(|answer| **answer == 0).count();
        assert_eq!(accepted, 15);
    }

    #[test]
    fn both_sides_are_there() {
        for cases in [lengths(), words(), ids(), charged_sums(), balances()] {
            let answers: Vec<u32> = cases.iter().map(answer).collect();
            assert!(answers.contains(&0) && answers.contains(&6));
        }
        let answers: Vec<u32> = orders().iter().map(answer).collect();
        assert!(answers.contains(&0) && answers.contains(&10));
    }
}
