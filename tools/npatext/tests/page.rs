//! The stream behind the word of an id.

mod common;

use common::{npatext, Folder, Run};
use npa_tests::random::Rng;
use npa_tests::reference::{npalist, npapage};

/// Holds a run that writes these bytes.
fn writes(run: Run, bytes: &[u8]) {
    assert_eq!((&run.error[..], run.status), ("", Some(0)));
    assert!(run.out == bytes, "it writes {} bytes", run.out.len());
}

#[test]
fn the_id_comes_before_the_stream() {
    let folder = Folder::new();
    folder.sample("document");
    folder.sample("cut");
    for name in ["document.stream", "cut.stream"] {
        let stream = std::fs::read(folder.path().join(name)).unwrap();
        for id in [0, 1, 11, 256, u32::MAX] {
            let page = [&id.to_le_bytes(), &stream[..]].concat();
            let id = id.to_string();
            writes(folder.run(&["page", &id, name]), &page);
            writes(npatext(&["page", &id], &stream), &page);
            writes(npatext(&["page", &id, "-"], &stream), &page);
        }
    }
    writes(npatext(&["page", "258"], b""), &[2, 1, 0, 0]);
    writes(npatext(&["page", "0011"], &[7]), &[11, 0, 0, 0, 7]);
}

/// The stream may be anything, and of any length.
#[test]
fn bytes_stay_as_they_are() {
    for length in [65_535, 65_536, 65_537, 300_000] {
        let mut stream = vec![0];
        stream.extend(Rng::new(3).bytes(length - 1));
        let page = [&[11, 0, 0, 0], &stream[..]].concat();
        writes(npatext(&["page", "11"], &stream), &page);
    }
}

#[test]
fn ids_that_are_no_word() {
    for id in [
        "",
        "x",
        "-1",
        "+1",
        "1.0",
        "0x0b",
        " 11",
        "4294967296",
        "99999999999999999999",
    ] {
        let error = format!("id `{id}` is not a number from 0 to 4294967295");
        npatext(&["page", id], b"").fails(&error);
    }
    let error = "id `a.stream` is not a number from 0 to 4294967295";
    npatext(&["page", "a.stream", "11"], b"").fails(error);
}

/// The plant's page of a sample, through the tool.
#[test]
fn a_page_has_the_plants_lines() {
    let folder = Folder::new();
    folder.sample("afternoon");
    let stream = std::fs::read(folder.path().join("afternoon.stream")).unwrap();
    let listing = String::from_utf8(npalist(&stream)).unwrap();
    let page = npapage(&folder.run(&["page", "15", "afternoon.stream"]).out);
    let page = String::from_utf8(page).unwrap();
    let is_own = |line: &&str| line.split(',').nth(1) == Some("15") && !line.starts_with("pool");
    let own: Vec<&str> = listing.lines().filter(is_own).collect();
    let lines: Vec<&str> = page.lines().collect();
    assert_eq!(lines[1..lines.len() - 1], own);
    assert!(lines[lines.len() - 1].starts_with("year,15,"));
}
