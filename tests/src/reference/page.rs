//! What `npapage` prints: the page of one plant.

use super::ledger::{find_account, read_ledger};
use super::listing::{print_cut, print_numbers, print_refusal, Listing, HEADING};
use super::money::limit;
use super::words::unsigned;
use super::Whole;

/// The ground of an id that the opening does not have.
const NOT_ON_ROSTER: u32 = 17;

/// What `npapage` prints for a whole standard input.
pub fn npapage(input: &[u8]) -> Vec<u8> {
    let mut out = String::from(HEADING);
    if input.len() < 4 {
        print_cut(&mut out, 0);
    } else {
        print_page(unsigned(input, 0, 0), &input[4..], &mut out);
    }
    out.into_bytes()
}

/// Prints the page of the plant with this id, without its heading.
fn print_page(id: Whole, stream: &[u8], out: &mut String) {
    let mut listing = Listing::default();
    let Some((_, mut rest)) = listing.next(stream, out) else {
        return;
    };
    if !is_on_roster(&listing, id) {
        print_refusal(out, 0, NOT_ON_ROSTER);
        return;
    }
    let (mut shortfall, mut bonus) = (0, 0);
    while let Some((accepted, after)) = listing.next(rest, out) {
        let lines = accepted.map_or(Vec::new(), |file| listing.row_lines(file));
        for line in lines.iter().filter(|line| line[1] == id) {
            print_numbers(out, line);
            shortfall += line[6];
            bonus += line[7];
        }
        rest = after;
    }
    print_year(&listing, id, shortfall, bonus, out);
}

/// Whether the opened ledger has an account with this id.
fn is_on_roster(listing: &Listing, id: Whole) -> bool {
    let ledger = read_ledger(listing.ledger()).expect("an accepted opening leaves a ledger");
    find_account(&ledger, id).is_some()
}

/// The last line: cents and limit are those of the plant's account as the stream leaves it.
fn print_year(listing: &Listing, id: Whole, shortfall: Whole, bonus: Whole, out: &mut String) {
    let ledger = read_ledger(listing.ledger()).expect("accepted calls leave a ledger");
    let index = find_account(&ledger, id).expect("the id is on the roster");
    let account = &ledger.accounts[index];
    let (charged, credited) = (account.charged, account.credited);
    let limit = limit(ledger.year, account.commitment);
    out.push_str("year,");
    print_numbers(out, &[id, shortfall, bonus, charged, credited, limit]);
}
