//! Runs of the tool, and folders for its files.
#![allow(dead_code)] // each test file takes a part of it

use std::ffi::OsStr;
use std::io::Write;
use std::path::{Path, PathBuf};
use std::process::{Command, Stdio};
use std::sync::atomic::{AtomicU64, Ordering};
use std::{env, fs, process};

pub const SAMPLES: &str = concat!(env!("CARGO_MANIFEST_DIR"), "/../../samples");

/// What the tool wrote, and how it ended.
#[derive(Debug, PartialEq)]
pub struct Run {
    pub out: Vec<u8>,
    pub error: String,
    pub status: Option<i32>,
}

impl Run {
    /// Its standard output as text.
    pub fn text(&self) -> String {
        String::from_utf8(self.out.clone()).expect("npatext writes text")
    }

    /// Holds a run that fails and says why on standard error alone.
    pub fn fails(&self, error: &str) {
        assert_eq!(self.text(), "");
        assert_eq!(self.error, format!("{error}\n"));
        assert_eq!(self.status, Some(1));
    }

    /// Holds a run that says on standard output what is wrong, and has status 1.
    pub fn finds(&self, out: &str) {
        assert_eq!(self.text(), out);
        assert_eq!((&self.error[..], self.status), ("", Some(1)));
    }

    /// Holds a run in which nothing is wrong.
    pub fn writes(&self, out: &str) {
        assert_eq!(self.text(), out);
        assert_eq!((&self.error[..], self.status), ("", Some(0)));
    }
}

/// A run with arguments and an input.
pub fn npatext<A: AsRef<OsStr>>(arguments: &[A], input: &[u8]) -> Run {
    run_in(Path::new("."), arguments, input)
}

/// A run in a folder.
pub fn run_in<A: AsRef<OsStr>>(folder: &Path, arguments: &[A], input: &[u8]) -> Run {
    let mut child = Command::new(env!("CARGO_BIN_EXE_npatext"))
        .args(arguments)
        .current_dir(folder)
        .stdin(Stdio::piped())
        .stdout(Stdio::piped())
        .stderr(Stdio::piped())
        .spawn()
        .expect("npatext runs");
    let mut stdin = child.stdin.take().expect("its input is a pipe");
    let input = input.to_vec();
    // a tool that has seen enough does not read on
    let feeder = std::thread::spawn(move || drop(stdin.write_all(&input)));
    let output = child.wait_with_output().expect("npatext ends");
    feeder.join().expect("its input is written");
    Run {
        out: output.stdout,
        error: String::from_utf8(output.stderr).expect("npatext writes text"),
        status: output.status.code(),
    }
}

/// A folder that is there as long as the test.
pub struct Folder(PathBuf);

impl Folder {
    pub fn new() -> Self {
        static COUNT: AtomicU64 = AtomicU64::new(0);
        let count = COUNT.fetch_add(1, Ordering::Relaxed);
        let path = env::temp_dir().join(format!("npatext-{}-{count}", process::id()));
        fs::create_dir_all(&path).expect("a folder can be made");
        Folder(path)
    }

    pub fn path(&self) -> &Path {
        &self.0
    }

    pub fn write(&self, name: &str, content: impl AsRef<[u8]>) {
        fs::write(self.0.join(name), content).expect("a file can be written");
    }

    pub fn read(&self, name: &str) -> String {
        let path = self.0.join(name);
        fs::read_to_string(&path).unwrap_or_else(|error| panic!("{}: {error}", path.display()))
    }

    /// A sample's files, under their own names.
    pub fn sample(&self, name: &str) {
        for kind in ["txt", "stream", "csv"] {
            let name = format!("{name}.{kind}");
            let content = fs::read(Path::new(SAMPLES).join(&name)).expect("the sample is there");
            self.write(&name, content);
        }
    }

    /// The names of what is in it, in order.
    pub fn names(&self) -> Vec<String> {
        let entries = fs::read_dir(&self.0).expect("the folder is there");
        let name = |entry: std::io::Result<fs::DirEntry>| {
            let name = entry.expect("an entry").file_name();
            name.to_string_lossy().to_string()
        };
        let mut names: Vec<String> = entries.map(name).collect();
        names.sort();
        names
    }

    /// The tool, run in it.
    pub fn run(&self, arguments: &[&str]) -> Run {
        run_in(&self.0, arguments, b"")
    }
}

impl Drop for Folder {
    fn drop(&mut self) {
        let _ = fs::remove_dir_all(&self.0);
    }
}
