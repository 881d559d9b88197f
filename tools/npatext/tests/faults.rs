//! A fault of a text names its line and field.

mod common;

use common::npatext;
use npa_tests::random::{self, Rng, SMALL};
use npatext::{make, show, show_ledger, show_result, text_of, Shown};

const OPENING: &str = "opening net_cone=1 days=365 ids=1";

/// What is said of a line below an opening and an interval.
fn said(line: &str) -> String {
    let text = format!("{OPENING}\ninterval 0\n# a comment\n{line}");
    make(&text).expect_err(line).to_string()
}

/// What is said of a line below an interval of format 2.
fn said_of_format_2(line: &str) -> String {
    let text = format!("{OPENING}\ninterval 0 format=2\n{line}");
    make(&text).expect_err(line).to_string()
}

#[test]
fn faults_of_schedules_name_line_and_field() {
    for (line, what) in [
        (
            "row 1 kind=0 curve=1:2",
            "field curve: is no field of `row`",
        ),
        (
            "row 1 kind=0 points=2",
            "field points: is no field of `row`",
        ),
        (
            "row 1 kind=0 offer=market",
            "field offer: `market` is not a kind, an @ and points",
        ),
        (
            "row 1 kind=0 offer=spot@1:2",
            "field offer: `spot` is none of market, pls, cost, and no number of 32 bits",
        ),
        (
            "row 1 kind=0 offer=cost@1",
            "field offer: `1` is not a price, a colon and kW",
        ),
        (
            "row 1 kind=0 offer=cost@1:2;",
            "field offer: `` is not a kind, an @ and points",
        ),
        (
            "row 1 kind=0 offer=cost@-1+2",
            "field offer: `-1` is not a number from 0 to 4294967295",
        ),
        (
            "row 1 kind=0 offer=cost@1:2 schedules=1",
            "field schedules: is given beside `offer`, which says it",
        ),
        (
            "row 1 kind=0 offer=cost@1:2 first=0",
            "field first: is given beside `offer`, which says it",
        ),
        ("schedules", "field schedules: is missing"),
    ] {
        assert_eq!(said_of_format_2(line), format!("line 3, {what}"), "{line}");
    }
}

#[test]
fn faults_name_line_and_field() {
    let signed = "is not a number from -2147483648 to 2147483647";
    let cases = [
        (
            "row 1 kind=0 metered=x",
            format!("line 4, field metered: `x` {signed}"),
        ),
        (
            "row 1 kind=0 lmp=2147483648",
            format!("line 4, field lmp: `2147483648` {signed}"),
        ),
        (
            "row x",
            "line 4, field id: `x` is not a number from 0 to 4294967295".to_string(),
        ),
        ("row", "line 4, field id: is missing".to_string()),
        (
            "row 1 committed=5",
            "line 4, field kind: is missing".to_string(),
        ),
        (
            "row 1 kind=0 colour=3",
            "line 4, field colour: is no field of `row`".to_string(),
        ),
        (
            "row 1 lmp=3 lmp=3",
            "line 4, field lmp: is given twice".to_string(),
        ),
        ("row 1 2 kind=0", "line 4: `2` is too much for `row`".to_string()),
        (
            "row 1 kind=wind",
            "line 4, field kind: `wind` is none of generation, demand, efficiency, prd, energy_only, importer, \
             and no number of 32 bits"
                .to_string(),
        ),
        (
            "row 1 committed = 5",
            "line 4: `=` has no name; a field is name=value, without blanks".to_string(),
        ),
        (
            "row 1 =5",
            "line 4: `=5` has no name; a field is name=value, without blanks".to_string(),
        ),
        (
            "row 1 kind=0 curve=10",
            "line 4, field curve: `10` is not a price, a colon and kW".to_string(),
        ),
        (
            "row 1 kind=0 curve=1:2 first=3",
            "line 4, field first: is given beside `curve`, which says it".to_string(),
        ),
        (
            "row 1 kind=0 curve=1:2 points=3",
            "line 4, field points: is given beside `curve`, which says it".to_string(),
        ),
        ("points", "line 4, field points: is missing".to_string()),
        (
            "schedules market@0+1",
            "line 4: `schedules` needs an interval of format=2 above it".to_string(),
        ),
        (
            "row 1 kind=0 offer=market@1:2",
            "line 4, field offer: is no field of `row`".to_string(),
        ),
        (
            "row 1 kind=0 dispatched=1",
            "line 4, field dispatched: is no field of `row`".to_string(),
        ),
        (
            "bytes 39 0102",
            "line 4, field bytes: lie beyond the block's end".to_string(),
        ),
        (
            "bytes 0",
            "line 4, field bytes: is missing".to_string(),
        ),
        ("raw", "line 4, field raw: is missing".to_string()),
        (
            "bytes 0 012",
            "line 4, field bytes: is not pairs of hexadecimal digits".to_string(),
        ),
        (
            "opening net_cone=1 days=2",
            "line 4, field ids: is missing".to_string(),
        ),
        (
            "opening net_cone=1 days=2 ids=7-3",
            "line 4, field ids: `7-3` is no range of ids".to_string(),
        ),
        ("interval", "line 4, field interval: is missing".to_string()),
        (
            "interval 3 rows_at=4000000000",
            "line 4, field length: is missing, and a table lies far out".to_string(),
        ),
        (
            "cut 1000",
            "line 4, field cut: is more than the stream has".to_string(),
        ),
        (
            "length 1\nrow 2",
            "line 5: `row` needs an interval above it".to_string(),
        ),
        ("file 3", "line 4: `file` begins no line".to_string()),
        (
            "\u{feff}row 1 kind=0",
            "line 4: has a byte order mark (U+FEFF), which is not seen".to_string(),
        ),
        (
            "ro\u{200b}w 1",
            "line 4: `ro\\u{200b}w` begins no line".to_string(),
        ),
        (
            "# a comment\rrow 1 kind=0",
            "line 4: has a carriage return within it; lines end in a newline".to_string(),
        ),
    ];
    for (line, fault) in cases {
        assert_eq!(said(line), fault);
    }
    let fault = make("interval 3").unwrap_err().to_string();
    assert_eq!(
        fault,
        "line 1, field net_cone: is missing, and no opening stands above"
    );
}

#[test]
fn a_byte_that_is_no_text_has_its_line() {
    assert_eq!(text_of(b"block\n# \xc3\xa9\n"), Ok("block\n# é\n"));
    for (bytes, fault) in [
        (&b"block\nraw \xff0\n"[..], "line 2: byte ff is not UTF-8"),
        (b"\xc3", "line 1: byte c3 is not UTF-8"),
        (
            b"\xef\xbb\xbfblock\n",
            "line 1: begins with a byte order mark (ef bb bf); save the text as UTF-8 without it",
        ),
        (
            b"\xff\xfeb\0l\0",
            "line 1: begins with a byte order mark of UTF-16; save the text as UTF-8 without one",
        ),
        (
            b"block\n\0",
            "line 2: has a byte of 0, so it is no text; npatext show gives the text of a stream",
        ),
    ] {
        assert_eq!(text_of(bytes).unwrap_err().to_string(), fault);
    }
}

/// A damaged text is made or refused; it does not end the tool.
#[test]
fn damaged_texts_end_well() {
    let mut refused = 0;
    for seed in 0..3_000 {
        let mut rng = Rng::new(seed);
        let stream = random::stream(&mut rng, &SMALL, 3);
        let mut text = format!("{}\n", show(&stream)).into_bytes();
        for _ in 0..1 + rng.below(4) {
            let at = rng.index(text.len());
            text[at] = rng.pick(b" =:,-#\n0123456789abcdefrowlength");
        }
        let text = String::from_utf8(text).unwrap();
        match make(&text) {
            Ok(stream) => assert_eq!(make(&show(&stream)).as_ref(), Ok(&stream)),
            Err(_) => refused += 1,
        }
    }
    assert!((100..2_900).contains(&refused), "{refused}");
}

/// The bytes of 64-bit words.
fn bytes_of(words: &[u64]) -> Vec<u8> {
    words.iter().flat_map(|word| word.to_le_bytes()).collect()
}

const LEDGER: &str = "ledger format=1 net_cone=30000 days=365 earliest=1001 carried=1 accounts=1";
const ACCOUNT: &str = "account 1 id=11 commitment=12 charged=13 credited=14";

#[test]
fn ledgers_and_results_are_shown() {
    let ledger = bytes_of(&[1, 30000, 365, 1001, 1, 1, 8, 0, 11, 12, 13, 14, 15]);
    let text = format!("{LEDGER} accounts_at=8 year=0\n{ACCOUNT}\n# 8 bytes after them\n");
    let fault = None;
    assert_eq!(show_ledger(&ledger), Shown { text, fault });
    let ledger = bytes_of(&[1, 30000, 365, 1001, 1, 1, 8, 2016, 11, 12, 13, 14]);
    let text = format!("{LEDGER} accounts_at=8 year=2016\n{ACCOUNT}\n");
    let fault = None;
    assert_eq!(show_ledger(&ledger), Shown { text, fault });
    let result = bytes_of(&[1, 2, 3, 4, 5, 6, 7, 1, 8, 9, 10, 11, 12, 13, 14, 15]);
    let text = "\
result ratio=1 charges=2 credits=3 carried=4 total_bonus=5 numerator=6 denominator=7 rows=1
row 1 expected=8 actual=9 outage=10 economic=11 shortfall=12 bonus=13 charge=14 credit=15
";
    let (text, fault) = (text.to_string(), None);
    assert_eq!(show_result(&result), Shown { text, fault });
}

/// What is wrong with a buffer or text is said, and the status is 1; the words that are there are shown.
#[test]
fn what_is_wrong_is_said() {
    let short = bytes_of(&[1, 30000, 365, 1001, 1, 2, 8, 0, 11, 12, 13, 14, 15]);
    let whole = bytes_of(&[1, 30000, 365, 1001, 1, 1, 8, 0, 11, 12, 13, 14]);
    let result = bytes_of(&[1, 2, 3, 4, 5, 6, 7, 1, 8, 9, 10, 11, 12, 13, 14, 15]);
    let elsewhere = bytes_of(&[1, 30000, 365, 1001, 1, 1, 9, 0, 11, 12, 13, 14]);
    let no_year = bytes_of(&[1, 30000, 365, 1001, 1, 1, 8, 2017, 11, 12, 13, 14]);
    let leap = bytes_of(&[1, 30000, 366, 1001, 1, 1, 8, 2016, 11, 12, 13, 14]);
    let cases = [
        (
            "ledger",
            &short[..63],
            String::new(),
            "63 bytes are too few for a ledger",
        ),
        (
            "ledger",
            &short,
            format!(
                "{} accounts_at=8 year=0\n{ACCOUNT}\n# 8 bytes after them\n",
                LEDGER.replace("accounts=1", "accounts=2")
            ),
            "104 bytes are too few for a ledger of 2 accounts",
        ),
        (
            "ledger",
            &elsewhere,
            format!("{LEDGER} accounts_at=9 year=0\n{ACCOUNT}\n"),
            "accounts_at is 9, but accounts begin at word 8",
        ),
        (
            "ledger",
            &no_year,
            format!("{LEDGER} accounts_at=8 year=2017\n{ACCOUNT}\n"),
            "year 2017, neither 2016 nor from 2018 to 2023",
        ),
        (
            "ledger",
            &leap,
            format!(
                "{} accounts_at=8 year=2016\n{ACCOUNT}\n",
                LEDGER.replace("days=365", "days=366")
            ),
            "year 2016 with 366 days, not 365",
        ),
        (
            "result",
            &no_year,
            String::new(),
            "it is a ledger, not a result; npatext ledger shows it",
        ),
        (
            "result",
            b"",
            String::new(),
            "0 bytes are too few for a result",
        ),
        (
            "result",
            &whole,
            String::new(),
            "it is a ledger, not a result; npatext ledger shows it",
        ),
        (
            "ledger",
            &result,
            String::new(),
            "it is a result, not a ledger; npatext result shows it",
        ),
        (
            "make",
            b"block\nraw \xff\n",
            String::new(),
            "line 2: byte ff is not UTF-8",
        ),
    ];
    for (command, input, shown, fault) in cases {
        let run = npatext(&[command], input);
        let error = format!("standard input: {fault}\n");
        assert_eq!((run.text(), &run.error), (shown, &error));
        assert_eq!(run.status, Some(1), "{fault}");
    }
    let run = npatext(&["make"], b"length 258\n");
    run.writes("\u{2}\u{1}\0\0");
}

/// Windows line endings make the same stream.
#[test]
fn carriage_returns_before_newlines_are_nothing() {
    let text = format!("{OPENING}\n# a comment\n\ninterval 0\nrow 1 kind=demand curve=1:2\n");
    assert_eq!(make(&text.replace('\n', "\r\n")), make(&text));
}
