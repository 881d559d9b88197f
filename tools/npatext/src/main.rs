//! OUTSIDE THE PROOFS: a plain Rust tool. It makes streams for npalist from
//! readable text, shows streams, ledgers and results as text, finds faults, and
//! puts a plant's id before a stream for npapage.

use npatext::{
    check, make, many, show, show_ledger, show_result, tables, text_of, version, Shown, Source, Why,
};
use std::env;
use std::ffi::OsString;
use std::io::{self, BufWriter, ErrorKind, StdoutLock, Write};
use std::path::Path;
use std::process::ExitCode;

const USAGE: &str = "\
usage: npatext COMMAND FILES
  make [TEXT]                 text to a stream for npalist
  show [STREAM]               a stream to text, from which make gives the same bytes
  ledger [LEDGER]             a ledger to text
  result [RESULT]             a result to text
  why [STREAM]                every fault of a stream in words
  check STREAM LISTING        whether a file is the whole listing of a stream
  tables STREAM LISTING DIR   rows.csv, pools.csv and refusals.csv of a listing, in a folder
  page ID [STREAM]            a stream behind the word of a plant's id, for npapage
  --help                      this text
  --version                   the version
A file named - is standard input, and so is one in [] that is left out.
The status is 0; it is 1 if something is wrong, which is said: faults that why finds and what check compares on
standard output, everything else on standard error.
";

/// The bytes of a stream that are copied at once.
const PIECE_BYTES: usize = 65_536;

/// Why a command ends with status 1.
enum Trouble {
    /// To be said on standard error.
    Said(String),
    /// Already said, or nobody reads on.
    Known,
}

impl From<String> for Trouble {
    fn from(what: String) -> Self {
        Trouble::Said(what)
    }
}

type Done = Result<(), Trouble>;

/// Standard output; a reader that goes away is no fault to be told.
struct Out(BufWriter<StdoutLock<'static>>);

impl Out {
    fn new() -> Self {
        Out(BufWriter::new(io::stdout().lock()))
    }

    fn write(&mut self, bytes: &[u8]) -> Done {
        Self::told(self.0.write_all(bytes))
    }

    fn line(&mut self, line: &str) -> Done {
        Self::told(writeln!(self.0, "{line}"))
    }

    fn end(mut self) -> Done {
        Self::told(self.0.flush())
    }

    fn told(written: io::Result<()>) -> Done {
        written.map_err(|error| match error.kind() {
            ErrorKind::BrokenPipe => Trouble::Known,
            _ => Trouble::Said(format!("standard output: {error}")),
        })
    }
}

/// Writes to standard output.
fn write(bytes: &[u8]) -> Done {
    let mut out = Out::new();
    out.write(bytes)?;
    out.end()
}

/// The stream that a text describes.
fn make_command(path: &Path) -> Done {
    let source = Source::open(path)?;
    let name = source.name.clone();
    let text = source.all()?;
    let stream = text_of(&text).and_then(make);
    let stream = stream.map_err(|fault| format!("{name}: {fault}"))?;
    write(&stream)
}

/// The text of a stream.
fn show_command(path: &Path) -> Done {
    let stream = Source::of_bytes(path, "stream")?;
    write(show(&stream.all()?).as_bytes())
}

/// The text of a ledger or result as far as it reaches, and what is wrong with it.
fn buffer_command(path: &Path, what: &str, show: fn(&[u8]) -> Shown) -> Done {
    let source = Source::of_bytes(path, what)?;
    let name = source.name.clone();
    let Shown { text, fault } = show(&source.all()?);
    write(text.as_bytes())?;
    match fault {
        Some(fault) => Err(Trouble::Said(format!("{name}: {fault}"))),
        None => Ok(()),
    }
}

/// Every fault of a stream, then how many there are.
fn why_command(path: &Path) -> Done {
    let mut why = Why::new(Source::of_bytes(path, "stream")?);
    let mut out = Out::new();
    let (mut blocks, mut faulty, mut faults) = (0, 0, 0);
    while let Some(said) = why.block()? {
        blocks += 1;
        faulty += u64::from(said.faults > 0);
        faults += said.faults;
        for line in &said.lines {
            out.line(line)?;
        }
    }
    let blocks = many(blocks, "block");
    match faults {
        0 => {
            out.line(&format!("no faults in {blocks}"))?;
            out.end()
        }
        _ => {
            let faults = many(faults, "fault");
            out.line(&format!("{faults} in {faulty} of {blocks}"))?;
            out.end()?;
            Err(Trouble::Known)
        }
    }
}

/// Whether a listing is the whole listing of a stream.
fn check_command(stream: &Path, listing: &Path) -> Done {
    let (stream, listing) = Source::pair(stream, listing)?;
    let checked = check(stream, listing)?;
    let mut out = Out::new();
    for line in &checked.lines {
        out.line(line)?;
    }
    out.end()?;
    match checked.whole {
        true => Ok(()),
        false => Err(Trouble::Known),
    }
}

/// The tables of a listing.
fn tables_command(stream: &Path, listing: &Path, folder: &Path) -> Done {
    let (stream, listing) = Source::pair(stream, listing)?;
    let mut out = Out::new();
    for line in tables(stream, listing, folder)? {
        out.line(&line)?;
    }
    out.end()
}

/// The word of an id, then the stream as it is.
fn page_command(id: &str, path: &Path) -> Done {
    let is_number = id.bytes().all(|byte| byte.is_ascii_digit());
    let number = id.parse::<u32>().ok().filter(|_| is_number);
    let most = u32::MAX;
    let number = number.ok_or_else(|| format!("id `{id}` is not a number from 0 to {most}"))?;
    let mut stream = Source::of_bytes(path, "stream")?;
    let mut out = Out::new();
    out.write(&number.to_le_bytes())?;
    let mut piece = Vec::new();
    loop {
        stream.fill(PIECE_BYTES, &mut piece)?;
        if piece.is_empty() {
            return out.end();
        }
        out.write(&piece)?;
    }
}

/// What a command takes, for the one who gave it something else.
fn takes(command: &str) -> Option<&'static str> {
    USAGE
        .lines()
        .map(str::trim)
        .find_map(|line| line.strip_prefix(command)?.strip_prefix(' '))
        .and_then(|line| line.split("  ").next())
}

fn run(arguments: &[OsString]) -> Done {
    let words: Vec<String> = arguments
        .iter()
        .map(|word| word.to_string_lossy().to_string())
        .collect();
    let Some(command) = words.first().map(String::as_str) else {
        return Err(Trouble::Said(USAGE.trim_end().to_string()));
    };
    let files: Vec<&Path> = arguments[1..].iter().map(Path::new).collect();
    if words.iter().any(|word| word == "--help" || word == "-h") {
        return write(USAGE.as_bytes());
    }
    let one = files.first().copied().unwrap_or(Path::new("-"));
    match (command, &files[..]) {
        ("--version", []) => write(format!("npatext {}\n", version()).as_bytes()),
        ("make", [] | [_]) => make_command(one),
        ("show", [] | [_]) => show_command(one),
        ("ledger", [] | [_]) => buffer_command(one, "ledger", show_ledger),
        ("result", [] | [_]) => buffer_command(one, "result", show_result),
        ("why", [] | [_]) => why_command(one),
        ("check", [stream, listing]) => check_command(stream, listing),
        ("tables", [stream, listing, folder]) => tables_command(stream, listing, folder),
        ("page", [_]) => page_command(&words[1], Path::new("-")),
        ("page", [_, stream]) => page_command(&words[1], stream),
        _ => Err(Trouble::Said(match takes(command) {
            Some(takes) => format!("usage: npatext {command} {takes}"),
            None => format!("npatext has no command `{command}`; npatext --help shows all"),
        })),
    }
}

fn main() -> ExitCode {
    let arguments: Vec<OsString> = env::args_os().skip(1).collect();
    match run(&arguments) {
        Ok(()) => ExitCode::SUCCESS,
        Err(trouble) => {
            if let Trouble::Said(what) = trouble {
                eprintln!("{what}");
            }
            ExitCode::FAILURE
        }
    }
}
