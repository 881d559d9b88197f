//! A listing as three tables, each with the same columns in every line.

use crate::calendar::begin;
use crate::compare::Comparison;
use crate::source::Source;
use crate::walk::{Outcome, Step, Walk};
use crate::words::{many, meaning};
use npa_tests::layout::word_at;
use npa_tests::reference::HEADING;
use std::fs::{self, File};
use std::io::{self, BufWriter, Write};
use std::path::{Path, PathBuf};

/// Which block a line is of, and when its interval begins.
const WHEN: &str = "block,interval,month,day,time";

/// The most lines that common spreadsheets take, the heading among them.
const SPREADSHEET_LINES: u64 = 1_048_576;

/// A table that is being written, beside its name until it is complete.
struct Table {
    path: PathBuf,
    part: PathBuf,
    to: BufWriter<File>,
    lines: u64,
}

impl Table {
    fn create(folder: &Path, name: &str, heading: &str) -> Result<Self, String> {
        let path = folder.join(name);
        let part = folder.join(format!("{name}.part"));
        let file = File::create(&part).map_err(|error| failed(&part, &error))?;
        let mut table = Table {
            path,
            part,
            to: BufWriter::new(file),
            lines: 0,
        };
        table.write(&format!("{WHEN},{heading}\n"))?;
        Ok(table)
    }

    fn write(&mut self, text: &str) -> Result<(), String> {
        let written = self.to.write_all(text.as_bytes());
        written.map_err(|error| failed(&self.part, &error))
    }

    fn line(&mut self, when: &str, fields: &str) -> Result<(), String> {
        self.lines += 1;
        self.write(&format!("{when},{fields}\n"))
    }

    /// Everything is on the disk.
    fn complete(&mut self) -> Result<(), String> {
        let kept = self.to.flush().and_then(|()| self.to.get_ref().sync_all());
        kept.map_err(|error| failed(&self.part, &error))
    }

    /// Takes its name, in place of an older one.
    fn publish(&self) -> Result<(), String> {
        fs::rename(&self.part, &self.path).map_err(|error| failed(&self.path, &error))
    }

    /// What it has, in words.
    fn words(&self, thing: &str) -> String {
        let path = self.path.display();
        let more = if self.lines >= SPREADSHEET_LINES {
            format!(", more than a spreadsheet of {SPREADSHEET_LINES} lines takes")
        } else {
            String::new()
        };
        format!("{path}: {}{more}", many(self.lines, thing))
    }
}

/// A part that was not completed does not stay; one that has its name is no longer there.
impl Drop for Table {
    fn drop(&mut self) {
        let _ = fs::remove_file(&self.part);
    }
}

fn failed(path: &Path, error: &io::Error) -> String {
    format!("{}: {error}", path.display())
}

/// Writes the tables of a listing into a folder and tells what each has; nothing is written unless it is the whole
/// listing of the stream.
pub fn tables(stream: Source, listing: Source, folder: &Path) -> Result<Vec<String>, String> {
    if folder.is_dir() {
        return written(stream, listing, folder);
    }
    if folder.exists() {
        return Err(format!("{} is not a folder", folder.display()));
    }
    fs::create_dir(folder).map_err(|error| failed(folder, &error))?;
    let told = written(stream, listing, folder);
    if told.is_err() {
        let _ = fs::remove_dir(folder);
    }
    told
}

/// The same into a folder that is there.
fn written(stream: Source, listing: Source, folder: &Path) -> Result<Vec<String>, String> {
    let names = (stream.name.clone(), listing.name.clone());
    for name in [&names.0, &names.1] {
        spare(name, folder)?;
    }
    let columns = HEADING.trim_end().trim_start_matches("interval,");
    let mut rows = Table::create(folder, "rows.csv", columns)?;
    let mut pools = Table::create(folder, "pools.csv", "ratio,charges,credits,carried")?;
    let mut refusals = Table::create(folder, "refusals.csv", "what,ground,meaning")?;
    let mut walk = Walk::new(stream);
    let mut comparison = Comparison::new(listing)?;
    let mut days = 0;
    while let Some(step) = walk.step()? {
        if step.outcome == Outcome::Opened {
            days = word_at(&walk.block, 8).unwrap_or(0);
        }
        let interval = walk.interval(step.number);
        comparison.block(&step, interval)?;
        let when = when(step.number, interval, days);
        for line in step.lines.lines() {
            match line.split_once(',') {
                Some(("refused" | "cut", _)) => refusals.line(&when, &refusal(&step))?,
                Some(("pool", numbers)) => pools.line(&when, behind_interval(numbers))?,
                _ => rows.line(&when, behind_interval(line))?,
            }
        }
    }
    comparison.end()?;
    if let Some(difference) = comparison.difference {
        let (stream, listing) = names;
        return Err(format!(
            "{listing} is not the whole listing of {stream}: {difference}"
        ));
    }
    let mut tables = [rows, pools, refusals];
    tables.iter_mut().try_for_each(Table::complete)?;
    tables.iter().try_for_each(Table::publish)?;
    let things = ["row", "pool", "refusal"];
    let words = tables.iter().zip(things);
    Ok(words.map(|(table, thing)| table.words(thing)).collect())
}

/// Refuses to write over an input.
fn spare(input: &str, folder: &Path) -> Result<(), String> {
    let Ok(input) = fs::canonicalize(input) else {
        return Ok(());
    };
    for name in ["rows.csv", "pools.csv", "refusals.csv"] {
        let path = folder.join(name);
        if fs::canonicalize(&path).is_ok_and(|path| path == input) {
            let path = path.display();
            return Err(format!("{path} is an input, and would be written over"));
        }
    }
    Ok(())
}

/// Block, interval, month, day and time, as far as there are any.
fn when(number: u64, interval: Option<u32>, days: u32) -> String {
    let Some(interval) = interval else {
        return format!("{number},,,,");
    };
    match begin(interval, days) {
        Some(at) => format!(
            "{number},{interval},{},{},{:02}:{:02}",
            at.month, at.day, at.hour, at.minute
        ),
        None => format!("{number},{interval},,,"),
    }
}

/// The fields behind the interval.
fn behind_interval(line: &str) -> &str {
    line.split_once(',').map_or("", |(_, fields)| fields)
}

/// The last fields of a refused or cut block.
fn refusal(step: &Step) -> String {
    match step.outcome {
        Outcome::Refused(ground) => format!("refused,{ground},{}", meaning(ground)),
        Outcome::TooLong(length, ground) => {
            format!("refused,{ground},a length of {length}: nothing after it is listed")
        }
        Outcome::Cut(cut) => format!("cut,,{}", cut.words()),
        Outcome::Opened | Outcome::Settled => ",,".to_string(),
    }
}
