//! Running a program: with `cat`, which must give back what it gets, `yes`, which does not end, and `sh`, which
//! does what it reads.

use npa_tests::program::{Closed, Input, Output, Program, Unread};
use npa_tests::random::Rng;
use std::path::Path;
use std::time::Duration;

fn program(path: &str) -> Program {
    Program::new(Path::new(path)).expect("a folder can be made")
}

#[test]
fn bytes_come_through_in_every_way() {
    let cat = program("cat");
    let bytes = Rng::new(1).bytes(300_000);
    let inputs = [
        Input::File,
        Input::Pipe,
        Input::Pieces(20_000),
        Input::Split(7),
    ];
    for input in inputs {
        for output in [Output::Pipe, Output::Slow(30_000), Output::Interrupted] {
            let written = cat.run(&bytes, input, output);
            assert!(written == Ok(bytes.clone()), "{input:?} {output:?}");
        }
    }
    assert!(cat.short_writes() > 0);
}

#[test]
fn a_closed_output_has_the_first_bytes() {
    let cat = program("cat");
    let bytes = Rng::new(1).bytes(300_000);
    for closed in [Closed::Reader(100_000), Closed::ReaderIgnored(100_000)] {
        let written = cat.run_closed(&bytes, closed);
        assert!(written == Ok(bytes[..100_000].to_vec()), "{closed:?}");
    }
    for closed in [Closed::Nothing, Closed::Full] {
        assert_eq!(cat.run_closed(&bytes, closed), Ok(Vec::new()));
    }
    for unread in [Unread::Nothing, Unread::Folder] {
        assert_eq!(cat.run_unread(unread), Ok(Vec::new()));
    }
}

#[test]
fn a_program_that_does_not_end_is_reported() {
    let impatient = |path| {
        let mut program = program(path);
        program.patience = Duration::from_millis(200);
        program
    };
    let does_not_end = Err("it did not end in 200ms".to_string());
    let cat = impatient("cat");
    assert_eq!(cat.run(b"", Input::Open, Output::Pipe), does_not_end);
    let yes = impatient("yes");
    assert_eq!(yes.run(b"", Input::File, Output::Pipe), does_not_end);
    let silent = impatient("sh");
    for closed in [
        Closed::Reader(1),
        Closed::ReaderIgnored(1),
        Closed::Nothing,
        Closed::Full,
    ] {
        let written = silent.run_closed(b"exec sleep 10", closed);
        assert_eq!(written, does_not_end, "{closed:?}");
    }
}
