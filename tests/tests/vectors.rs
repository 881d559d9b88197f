//! The reference gives every answer of the vectors from outside.

use npa_tests::layout::{hex, ledger_bytes, result_bytes, stream_of};
use npa_tests::listing;
use npa_tests::random::SETTLING_GROUNDS;
use npa_tests::reference::{event, npalist, open, settle};
use npa_tests::streams::document;
use npa_tests::vectors::{vector, vectors, Operation, FILES, FOLDER};
use std::collections::{BTreeMap, BTreeSet};
use std::fs;

/// The rules that the reference has.
const RULES: &str = "n2,n5,n6,n7,n10";

/// The ground, if the case has one.
fn ground(operation: &Operation) -> Option<u32> {
    match operation {
        Operation::Open(call) => Some(call.ground),
        Operation::Settle(call) => Some(call.ground),
        Operation::Event(call) => Some(call.ground),
        Operation::List(_) | Operation::Page(_) => None,
    }
}

/// What the case calls.
fn operation_name(operation: &Operation) -> &'static str {
    match operation {
        Operation::Open(_) => "open",
        Operation::Settle(_) => "settle",
        Operation::Event(_) => "event",
        Operation::List(_) => "list",
        Operation::Page(_) => "page",
    }
}

#[test]
fn the_reference_gives_every_case() {
    let (mut counts, mut grounds) = (BTreeMap::new(), BTreeSet::new());
    for vector in vectors().unwrap() {
        assert_eq!(vector.rules, RULES, "{}", vector.name);
        vector.hold_reference().unwrap();
        let name = operation_name(&vector.operation);
        *counts.entry(name).or_insert(0) += 1;
        if let Some(ground) = ground(&vector.operation) {
            grounds.insert((name, ground));
        }
    }
    let wanted = [
        ("event", 60),
        ("list", 80),
        ("open", 40),
        ("page", 60),
        ("settle", 400),
    ];
    assert_eq!(counts, BTreeMap::from(wanted));
    for name in ["open", "settle", "event"] {
        assert!(grounds.contains(&(name, 0)), "an accepted {name}");
    }
    for ground in [1, 2, 23, 3, 4, 5] {
        assert!(grounds.contains(&("open", ground)), "open: {ground}");
    }
    for ground in SETTLING_GROUNDS {
        assert!(grounds.contains(&("settle", ground)), "settle: {ground}");
    }
}

#[test]
fn every_file_of_the_folder_is_read() {
    let names = fs::read_dir(FOLDER).unwrap();
    let names = names.map(|entry| entry.unwrap().file_name().into_string().unwrap());
    let mut cases: Vec<String> = names.filter(|name| name != "README.md").collect();
    cases.sort();
    assert_eq!(cases, FILES);
}

/// What is said of a line.
fn fault(line: &str) -> String {
    vector("a".to_string(), line).expect_err(line)
}

#[test]
fn lines_that_are_no_case() {
    let no_case = "a: is not `RULES OPERATION BUFFERS = ANSWER`";
    for (line, what) in [
        ("", no_case),
        ("base page 00", no_case),
        ("base = 00", no_case),
        ("base close 00 = 00", "a: there is no operation `close`"),
        ("base page = 00", "a: has 0 byte strings, not 1"),
        ("base page 00 00 = 00", "a: has 2 byte strings, not 1"),
        ("base page 00 = 00 00", "a: has 2 byte strings, not 1"),
        ("base page 0 = 00", "a: `0` are no bytes"),
        ("base page  = 00", "a: `` are no bytes"),
        ("base list 0G = 00", "a: `0G` are no bytes"),
        ("base list +1 = 00", "a: `+1` are no bytes"),
        ("base list AB = 00", "a: `AB` are no bytes"),
        ("base open 00 00 =", "a: has no answer"),
        ("base open 00 00 = - 00", "a: `-` is no ground"),
        ("base open 00 00 = 1", "a: has 0 byte strings, not 1"),
        (
            "base event 00 00 00 = 1 - - -",
            "a: has 3 byte strings, not 4",
        ),
    ] {
        assert_eq!(fault(line), what);
    }
}

/// Holds a case that the reference answers, and the same case with other answers.
fn told_apart(given: &str, answer: &str) {
    let held = |answer: &str| {
        let line = format!("base {given} = {answer}");
        vector("a".to_string(), &line).unwrap().hold_reference()
    };
    let otherwise = Err("a: the reference answers otherwise".to_string());
    assert_eq!(held(answer), Ok(()));
    let longer = answer.strip_suffix('-').unwrap_or(answer);
    assert_eq!(held(&format!("{longer}00")), otherwise);
    if !given.starts_with("list") {
        assert_eq!(held(&format!("2{answer}")), otherwise);
    }
}

/// The ledger of document 01's listing, opened.
fn opened() -> Vec<u8> {
    let mut ledger = vec![7; ledger_bytes(4)];
    assert_eq!(open(&listing::opening().bytes(), &mut ledger), 0);
    ledger
}

#[test]
fn calls_and_listings_are_held() {
    let block = listing::opening().bytes();
    let file = listing::file(1_000).bytes();
    let blank = hex(&vec![7; ledger_bytes(4)]);
    let mut ledger = opened();
    let opened = hex(&ledger);
    let mut result = vec![7; result_bytes(4)];
    let unwritten = hex(&result);
    assert_eq!(settle(&mut ledger, &file, &mut result), 0);
    let (block, file) = (hex(&block), hex(&file));
    let (settled, result) = (hex(&ledger), hex(&result));
    told_apart(&format!("open {block} {blank}"), &format!("0 {opened}"));
    told_apart(&format!("open - {blank}"), &format!("1 {blank}"));
    told_apart(
        &format!("settle {opened} {file} {unwritten}"),
        &format!("0 {settled} {result}"),
    );
    told_apart(
        &format!("settle {settled} {file} {unwritten}"),
        &format!("10 {settled} {unwritten}"),
    );
    let stream = document();
    told_apart(&format!("list {}", hex(&stream)), &hex(&npalist(&stream)));
}

#[test]
fn events_are_held() {
    let files = stream_of(&[&listing::file(1_000).bytes()]);
    let (mut ledger, mut result) = (opened(), vec![7; result_bytes(4)]);
    let (before, unwritten) = (hex(&ledger), hex(&result));
    let mut count = vec![7; 9];
    assert_eq!(event(&mut ledger, &files, &mut result, &mut count), 0);
    let [files, ledger, result] = [&files, &ledger, &result].map(hex);
    told_apart(
        &format!("event {before} {files} {unwritten} {}", "07".repeat(9)),
        &format!("0 {ledger} {result} {}", hex(&count)),
    );
    told_apart(
        &format!("event {before} {files} {unwritten} -"),
        &format!("20 {before} {unwritten} -"),
    );
}

#[test]
fn an_event_is_read() {
    let line = "n5,n7 event 01 - 02 03 = 22 01 02 0304";
    let event = vector("a".to_string(), line).unwrap();
    assert_eq!(event.rules, "n5,n7");
    let Operation::Event(call) = event.operation else {
        panic!("it is an event");
    };
    assert_eq!(call.given, [vec![1], vec![], vec![2], vec![3]]);
    assert_eq!(call.ground, 22);
    assert_eq!(call.left, [vec![1], vec![2], vec![3, 4]]);
}
