//! Ledgers and results as text, to read.

use crate::examine::year_fault;
use npa_tests::layout::{long_at, result_bytes};

const LEDGER: [&str; 8] = [
    "format",
    "net_cone",
    "days",
    "earliest",
    "carried",
    "accounts",
    "accounts_at",
    "year",
];
const ACCOUNT: [&str; 4] = ["id", "commitment", "charged", "credited"];
const INTERVAL: [&str; 8] = [
    "ratio",
    "charges",
    "credits",
    "carried",
    "total_bonus",
    "numerator",
    "denominator",
    "rows",
];
const ROW: [&str; 8] = [
    "expected",
    "actual",
    "outage",
    "economic",
    "shortfall",
    "bonus",
    "charge",
    "credit",
];

/// The word at which a ledger's accounts begin.
const ACCOUNTS_AT: u64 = 8;

/// The text of a buffer as far as it reaches, and what is wrong with it.
#[derive(Debug, PartialEq)]
pub struct Shown {
    pub text: String,
    pub fault: Option<String>,
}

/// The most rows of a result.
const ROWS_MOST: u64 = npa_tests::layout::ROWS_MOST as u64;

/// Nothing shown, since the buffer is something else.
fn other(fault: &str) -> Shown {
    Shown {
        text: String::new(),
        fault: Some(fault.to_string()),
    }
}

/// Whether bytes have the fixed words of a ledger; a result has as its number of rows neither 0 nor a year.
fn is_ledger(bytes: &[u8]) -> bool {
    let is = |word, value| long_at(bytes, word) == Some(value);
    is(0, 1) && is(6, ACCOUNTS_AT) && (is(7, 0) || long_at(bytes, 7) > Some(ROWS_MOST))
}

/// Whether bytes have all rows of a result where a ledger has two fixed words.
fn is_result(bytes: &[u8]) -> bool {
    let rows = long_at(bytes, 7).filter(|rows| (1..=ROWS_MOST).contains(rows));
    long_at(bytes, 6) != Some(ACCOUNTS_AT)
        && rows.is_some_and(|rows| bytes.len() >= result_bytes(rows as usize))
}

/// A ledger shown.
pub fn show_ledger(bytes: &[u8]) -> Shown {
    if is_result(bytes) {
        return other("it is a result, not a ledger; npatext result shows it");
    }
    let mut shown = show_words(bytes, ("ledger", &LEDGER), 5, ("account", &ACCOUNT));
    let begin = long_at(bytes, 6).filter(|at| *at != ACCOUNTS_AT);
    if let Some(at) = begin {
        let what = format!("accounts_at is {at}, but accounts begin at word {ACCOUNTS_AT}");
        shown.fault = shown.fault.or(Some(what));
    }
    let [days, year] = [2, 7].map(|word| long_at(bytes, word).unwrap_or(0));
    if year > 0 {
        shown.fault = shown.fault.or_else(|| year_fault(year, days));
    }
    shown
}

/// A result shown.
pub fn show_result(bytes: &[u8]) -> Shown {
    if is_ledger(bytes) {
        return other("it is a ledger, not a result; npatext ledger shows it");
    }
    show_words(bytes, ("result", &INTERVAL), 7, ("row", &ROW))
}

/// A line for the first eight words, of which one counts the entries, and a line for each entry after them.
fn show_words(
    bytes: &[u8],
    first: (&str, &[&str]),
    counting: usize,
    entry: (&str, &[&str]),
) -> Shown {
    let (name, fields) = first;
    let length = bytes.len();
    let Some(mut text) = show_line(bytes, 0, name, fields) else {
        return Shown {
            text: String::new(),
            fault: Some(format!("{length} bytes are too few for a {name}")),
        };
    };
    let mut fault = None;
    let mut word = fields.len();
    let entries = long_at(bytes, counting).expect("it is one of the words shown");
    for number in 1..=entries {
        let line = show_line(bytes, word, &format!("{} {number}", entry.0), entry.1);
        let Some(line) = line else {
            let what = format!(
                "{length} bytes are too few for a {name} of {entries} {}s",
                entry.0
            );
            fault = Some(what);
            break;
        };
        text += &line;
        word += entry.1.len();
    }
    let rest = length - 8 * word;
    if rest > 0 {
        text += &format!("# {rest} bytes after them\n");
    }
    Shown { text, fault }
}

/// A line of named words, if all are there.
fn show_line(bytes: &[u8], word: usize, name: &str, fields: &[&str]) -> Option<String> {
    let mut text = name.to_string();
    for (index, field) in fields.iter().enumerate() {
        text += &format!(" {field}={}", long_at(bytes, word + index)?);
    }
    Some(text + "\n")
}
