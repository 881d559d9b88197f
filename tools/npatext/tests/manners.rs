//! How the tool is asked, and how it answers: help, version, names of files, wrong usage.

mod common;

use common::{npatext, Folder};
use npa_tests::layout::{ledger_bytes, result_bytes};
use npa_tests::listing;
use npa_tests::reference::{open, settle};
use std::process::{Command, Stdio};

const COMMANDS: [&str; 8] = [
    "make", "show", "ledger", "result", "why", "check", "tables", "page",
];

#[test]
fn help_and_version() {
    let help = npatext(&["--help"], b"");
    assert_eq!((&help.error[..], help.status), ("", Some(0)));
    for command in COMMANDS {
        assert!(
            help.text().contains(&format!("\n  {command} ")),
            "{command}"
        );
        assert_eq!(npatext(&[command, "--help"], b""), help);
    }
    assert_eq!(npatext(&["-h"], b""), help);
    let version = include_str!("../../../VERSION");
    npatext(&["--version"], b"").writes(&format!("npatext {version}"));
    let numbers: Vec<&str> = version.trim_end().split('.').collect();
    assert!(numbers.len() == 3 && numbers.iter().all(|number| number.parse::<u32>().is_ok()));
}

#[test]
fn wrong_usage() {
    let usage = npatext(&["--help"], b"").text();
    npatext::<&str>(&[], b"").fails(usage.trim_end());
    for (arguments, error) in [
        (&["why", "a", "b"][..], "usage: npatext why [STREAM]"),
        (&["make", "a", "b"], "usage: npatext make [TEXT]"),
        (&["show", "a", "b"], "usage: npatext show [STREAM]"),
        (&["ledger", "a", "b"], "usage: npatext ledger [LEDGER]"),
        (&["result", "a", "b"], "usage: npatext result [RESULT]"),
        (&["check"], "usage: npatext check STREAM LISTING"),
        (&["check", "a"], "usage: npatext check STREAM LISTING"),
        (
            &["check", "a", "b", "c"],
            "usage: npatext check STREAM LISTING",
        ),
        (
            &["tables", "a", "b"],
            "usage: npatext tables STREAM LISTING DIR",
        ),
        (&["page"], "usage: npatext page ID [STREAM]"),
        (&["page", "1", "a", "b"], "usage: npatext page ID [STREAM]"),
        (
            &["check", "-", "-"],
            "only one of the stream and the listing can be standard input",
        ),
        (
            &["list"],
            "npatext has no command `list`; npatext --help shows all",
        ),
        (
            &["--colour"],
            "npatext has no command `--colour`; npatext --help shows all",
        ),
        (
            &["why", "nowhere"],
            "nowhere: No such file or directory (os error 2)",
        ),
        (
            &["make", "nowhere"],
            "nowhere: No such file or directory (os error 2)",
        ),
        (&["show", "/"], "/: Is a directory (os error 21)"),
        (
            &["page", "1", "nowhere"],
            "nowhere: No such file or directory (os error 2)",
        ),
    ] {
        npatext(arguments, b"").fails(error);
    }
}

/// Files in the wrong place are told by what they are.
#[test]
fn wrong_files() {
    let folder = Folder::new();
    folder.sample("document");
    folder.sample("cut");
    let mut ledger = vec![0; ledger_bytes(4)];
    let mut result = vec![0; result_bytes(4)];
    assert_eq!(open(&listing::opening().bytes(), &mut ledger), 0);
    folder.write("new.ledger", &ledger);
    assert_eq!(
        settle(&mut ledger, &listing::file(1000).bytes(), &mut result),
        0
    );
    folder.write("a.ledger", &ledger);
    folder.write("a.result", &result);
    folder.write("marked.txt", "\u{feff}opening net_cone=1 days=365 ids=1\n");
    folder.write(
        "bad.txt",
        "opening net_cone=1 days=365 ids=1\ninterval 0\nrow 1\n",
    );
    let first = " (the stream comes first, then its listing)";
    let text = "is text, not a stream; npatext make gives the stream of a text";
    for (arguments, error) in [
        (&["show", "document.txt"][..], format!("document.txt {text}")),
        (&["show", "marked.txt"], format!("marked.txt {text}")),
        (&["why", "document.txt"], format!("document.txt {text}")),
        (&["why", "document.csv"], "document.csv is a listing, not a stream".to_string()),
        (&["page", "11", "document.txt"], format!("document.txt {text}")),
        (&["page", "11", "document.csv"], "document.csv is a listing, not a stream".to_string()),
        (&["ledger", "document.csv"], "document.csv is a listing, not a ledger".to_string()),
        (&["result", "document.txt"], "document.txt is text, not a result".to_string()),
        (
            &["result", "a.ledger"],
            "a.ledger: it is a ledger, not a result; npatext ledger shows it".to_string(),
        ),
        (
            &["result", "new.ledger"],
            "new.ledger: it is a ledger, not a result; npatext ledger shows it".to_string(),
        ),
        (
            &["ledger", "a.result"],
            "a.result: it is a result, not a ledger; npatext result shows it".to_string(),
        ),
        (
            &["check", "document.csv", "document.stream"],
            format!("document.csv is a listing, not a stream{first}"),
        ),
        (
            &["check", "document.txt", "document.csv"],
            format!("document.txt {text}{first}"),
        ),
        (
            &["check", "document.stream", "cut.stream"],
            "cut.stream is not text, so it is no listing".to_string(),
        ),
        (
            &["tables", "document.csv", "document.stream", "tables"],
            format!("document.csv is a listing, not a stream{first}"),
        ),
        (
            &["check", "nowhere", "document.csv"],
            "nowhere: No such file or directory (os error 2)".to_string(),
        ),
        (
            &["make", "document.stream"],
            "document.stream: line 1: has a byte of 0, so it is no text; npatext show gives the text of a stream"
                .to_string(),
        ),
        (
            &["make", "marked.txt"],
            "marked.txt: line 1: begins with a byte order mark (ef bb bf); save the text as UTF-8 without it"
                .to_string(),
        ),
        (&["make", "bad.txt"], "bad.txt: line 3, field kind: is missing".to_string()),
    ] {
        folder.run(arguments).fails(&error);
    }
    assert!(folder
        .run(&["ledger", "a.ledger"])
        .text()
        .starts_with("ledger format=1 "));
    assert!(folder
        .run(&["result", "a.result"])
        .text()
        .starts_with("result ratio=866673 "));
    assert_eq!(
        folder.run(&["make", "document.txt"]).out,
        std::fs::read(folder.path().join("document.stream")).unwrap()
    );
}

/// A reader that goes away is not told as a fault; a full disk is.
#[test]
fn outputs_that_take_no_more() {
    let sample = format!("{}/refusals.stream", common::SAMPLES);
    let shell = |script: &str| {
        let output = Command::new("sh")
            .args(["-c", script, env!("CARGO_BIN_EXE_npatext"), &sample])
            .stdin(Stdio::null())
            .output()
            .expect("a shell runs");
        String::from_utf8(output.stderr).expect("it writes text")
    };
    assert_eq!(shell("\"$0\" show \"$1\" | head -n 1"), "");
    let full = "standard output: No space left on device (os error 28)\n";
    assert_eq!(shell("\"$0\" why \"$1\" >/dev/full"), full);
    assert_eq!(shell("\"$0\" show \"$1\" >/dev/full"), full);
    assert_eq!(shell("\"$0\" page 1 \"$1\" | head -c 1"), "");
    assert_eq!(shell("\"$0\" page 1 \"$1\" >/dev/full"), full);
}
