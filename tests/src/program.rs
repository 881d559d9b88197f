//! Runs of a program that reads standard input and writes standard output.

use crate::random::Rng;
use std::fs::{self, File};
use std::io::{self, Read, Write};
use std::os::unix::process::ExitStatusExt;
use std::path::{Path, PathBuf};
use std::process::{self, Child, ChildStdin, ChildStdout, Command, ExitStatus, Stdio};
use std::sync::atomic::{AtomicU64, Ordering};
use std::sync::mpsc::{self, Receiver};
use std::thread;
use std::time::{Duration, Instant};

/// How the input comes.
#[derive(Clone, Copy, Debug)]
pub enum Input {
    File,
    /// Through a pipe, at once.
    Pipe,
    /// Through a pipe, in pieces of up to so many bytes with a pause behind each.
    Pieces(usize),
    /// Through a pipe, the rest behind so many bytes after a pause.
    Split(usize),
    /// Through a pipe that stays open behind it until the program ends.
    Open,
}

/// How the output is taken.
#[derive(Clone, Copy, Debug)]
pub enum Output {
    /// Through a pipe, as fast as it comes.
    Pipe,
    /// Through a pipe, in pieces of up to so many bytes with a pause behind each.
    Slow(usize),
    /// Through a pipe that is full at times, when the program is stopped and goes on: a write that had begun
    /// then moves less than it was given.
    Interrupted,
}

/// An output that takes no more.
#[derive(Clone, Copy, Debug)]
pub enum Closed {
    /// A pipe whose reader goes away after so many bytes, which ends the program by a signal.
    Reader(usize),
    /// The same where the signal is ignored, so that writing fails.
    ReaderIgnored(usize),
    /// No output at all.
    Nothing,
    /// A device without room.
    Full,
}

/// An input that cannot be read.
#[derive(Clone, Copy, Debug)]
pub enum Unread {
    /// No input at all.
    Nothing,
    /// A folder.
    Folder,
}

/// A program, and a folder for its input files.
pub struct Program {
    path: PathBuf,
    folder: PathBuf,
    /// How long a run may take.
    pub patience: Duration,
    /// The writes that were seen to move less than they were given.
    short_writes: AtomicU64,
}

impl Program {
    pub fn new(path: &Path) -> io::Result<Self> {
        static COUNT: AtomicU64 = AtomicU64::new(0);
        let count = COUNT.fetch_add(1, Ordering::Relaxed);
        let name = format!("npa-program-{}-{count}", process::id());
        let folder = std::env::temp_dir().join(name);
        fs::create_dir_all(&folder)?;
        Ok(Program {
            path: path.to_path_buf(),
            folder,
            patience: Duration::from_secs(20),
            short_writes: AtomicU64::new(0),
        })
    }

    /// How many writes of runs so far were seen to move less than they were given.
    pub fn short_writes(&self) -> u64 {
        self.short_writes.load(Ordering::Relaxed)
    }

    /// What the program writes for an input, if it ends by itself.
    pub fn run(&self, stream: &[u8], input: Input, output: Output) -> Result<Vec<u8>, String> {
        let mut command = Command::new(&self.path);
        command.stdin(self.stdin(stream, input)?);
        command.stdout(Stdio::piped());
        let mut child = command.spawn().map_err(text)?;
        let id = child.id();
        let (status, written) = thread::scope(|scope| {
            let (ended, until) = mpsc::channel();
            if let Some(pipe) = child.stdin.take() {
                scope.spawn(move || feed(pipe, stream, input, &until));
            }
            let outcome = self.outcome(&mut child, |from| self.take(from, id, output));
            drop(ended);
            outcome
        })?;
        match status.signal() {
            None => Ok(written),
            Some(_) => Err(format!("it ended with {status}")),
        }
    }

    /// What the program wrote before its output was closed; it must end, by a signal or not.
    pub fn run_closed(&self, stream: &[u8], closed: Closed) -> Result<Vec<u8>, String> {
        let (mut command, most) = match closed {
            Closed::Reader(most) => (Command::new(&self.path), most),
            Closed::ReaderIgnored(most) => (self.shell("trap '' PIPE; exec \"$0\""), most),
            Closed::Nothing => (self.shell("exec \"$0\" >&-"), 0),
            Closed::Full => (self.shell("exec \"$0\" >/dev/full"), 0),
        };
        command.stdin(self.stdin(stream, Input::File)?);
        command.stdout(Stdio::piped()).stderr(Stdio::null());
        let mut child = command.spawn().map_err(text)?;
        let (_, written) = self.outcome(&mut child, |from| read(from.take(most as u64)))?;
        Ok(written)
    }

    /// What the program writes if its input cannot be read.
    pub fn run_unread(&self, unread: Unread) -> Result<Vec<u8>, String> {
        let mut command = self.shell(match unread {
            Unread::Nothing => "exec \"$0\" <&-",
            Unread::Folder => "exec \"$0\" </",
        });
        command.stdin(Stdio::null()).stdout(Stdio::piped());
        command.stderr(Stdio::null());
        let mut child = command.spawn().map_err(text)?;
        let (_, written) = self.outcome(&mut child, read)?;
        Ok(written)
    }

    /// The program with its input from a file and its output into another: how long it takes, and the output.
    pub fn timed(&self, stream: &Path) -> Result<(Duration, Vec<u8>), String> {
        let to = self.folder.join("listing");
        let mut command = Command::new(&self.path);
        command.stdin(File::open(stream).map_err(text)?);
        command.stdout(File::create(&to).map_err(text)?);
        let start = Instant::now();
        let status = command.status().map_err(text)?;
        let time = start.elapsed();
        match status.success() {
            true => Ok((time, fs::read(&to).map_err(text)?)),
            false => Err(format!("it ended with {status}")),
        }
    }

    /// A file with this content, in the folder.
    pub fn file(&self, content: &[u8]) -> Result<PathBuf, String> {
        let path = self.folder.join("stream");
        fs::write(&path, content).map_err(text)?;
        Ok(path)
    }

    /// A shell that becomes the program.
    fn shell(&self, script: &str) -> Command {
        let mut command = Command::new("sh");
        command.arg("-c").arg(script).arg(&self.path);
        command
    }

    fn stdin(&self, stream: &[u8], input: Input) -> Result<Stdio, String> {
        match input {
            Input::File => Ok(File::open(self.file(stream)?).map_err(text)?.into()),
            _ => Ok(Stdio::piped()),
        }
    }

    /// How the program ended, and what was taken from its output; patience is for each of the two.
    fn outcome(
        &self,
        child: &mut Child,
        take: impl FnOnce(ChildStdout) -> io::Result<Vec<u8>> + Send,
    ) -> Result<(ExitStatus, Vec<u8>), String> {
        let from = child.stdout.take().expect("its output is a pipe");
        thread::scope(|scope| {
            let (taken, writes) = mpsc::channel();
            scope.spawn(move || taken.send(take(from)));
            let written = writes.recv_timeout(self.patience);
            let status = self.end(child, written.is_ok())?;
            let written = written.expect("else it did not end");
            Ok((status, written.map_err(text)?))
        })
    }

    /// How the program ended; one that does not end is ended here, and that is an error.
    fn end(&self, child: &mut Child, may_wait: bool) -> Result<ExitStatus, String> {
        let start = Instant::now();
        while may_wait && start.elapsed() < self.patience {
            match child.try_wait().map_err(text)? {
                Some(status) => return Ok(status),
                None if start.elapsed() < Duration::from_millis(2) => thread::yield_now(),
                None => pause(1_000),
            }
        }
        child.kill().map_err(text)?;
        child.wait().map_err(text)?;
        Err(format!("it did not end in {:?}", self.patience))
    }

    /// Takes the output to its end.
    fn take(&self, mut from: ChildStdout, id: u32, output: Output) -> io::Result<Vec<u8>> {
        let mut taken = Vec::new();
        match output {
            Output::Pipe => (),
            Output::Slow(most) => {
                let mut piece = vec![0; most];
                loop {
                    pause(50);
                    match from.read(&mut piece)? {
                        0 => return Ok(taken),
                        count => taken.extend(&piece[..count]),
                    }
                }
            }
            Output::Interrupted => {
                for _ in 0..8 {
                    pause(20_000);
                    let before = Writing::of(id)?;
                    signal(id, "STOP")?;
                    signal(id, "CONT")?;
                    pause(2_000);
                    let short = Writing::of(id)?.follows_short(before);
                    self.short_writes.fetch_add(short.into(), Ordering::Relaxed);
                    (&mut from).take(5_000).read_to_end(&mut taken)?;
                }
            }
        }
        taken.extend(read(from)?);
        Ok(taken)
    }
}

impl Drop for Program {
    fn drop(&mut self) {
        let _ = fs::remove_dir_all(&self.folder);
    }
}

fn text(error: io::Error) -> String {
    error.to_string()
}

fn pause(microseconds: u64) {
    thread::sleep(Duration::from_micros(microseconds));
}

/// Writes the input; the program may stop reading before its end.
fn feed(mut pipe: ChildStdin, stream: &[u8], input: Input, until: &Receiver<()>) {
    let mut pieces = Vec::new();
    match input {
        Input::Split(at) => pieces.extend([&stream[..at], &stream[at..]]),
        Input::Pieces(most) => {
            let mut rng = Rng::new(stream.len() as u64);
            let mut rest = stream;
            while !rest.is_empty() {
                let (piece, behind) = rest.split_at((1 + rng.index(most)).min(rest.len()));
                pieces.push(piece);
                rest = behind;
            }
        }
        Input::File | Input::Pipe | Input::Open => pieces.push(stream),
    }
    for piece in pieces {
        if pipe.write_all(piece).is_err() {
            return;
        }
        if matches!(input, Input::Split(_) | Input::Pieces(_)) {
            pause(60);
        }
    }
    if matches!(input, Input::Open) {
        let _ = until.recv();
    }
}

/// All that is left to read.
fn read(mut from: impl Read) -> io::Result<Vec<u8>> {
    let mut bytes = Vec::new();
    from.read_to_end(&mut bytes)?;
    Ok(bytes)
}

/// Sends a signal to a child that was not waited for.
fn signal(id: u32, name: &str) -> io::Result<()> {
    let status = Command::new("kill")
        .args(["-s", name, &id.to_string()])
        .status()?;
    match status.success() {
        true => Ok(()),
        false => Err(io::Error::other(format!("kill -s {name}: {status}"))),
    }
}

/// The call of `write` in which a program waits for room, if it does: where its bytes begin and how many they are.
#[derive(Clone, Copy)]
struct Writing(Option<(u64, u64)>);

impl Writing {
    /// The number of the call on x86-64.
    const CALL: u64 = 1;

    /// What the system says of a child that was not waited for.
    fn of(id: u32) -> io::Result<Self> {
        let said = fs::read_to_string(format!("/proc/{id}/syscall"))?;
        let number = |word: &str| match word.strip_prefix("0x") {
            Some(digits) => u64::from_str_radix(digits, 16).ok(),
            None => word.parse().ok(),
        };
        let numbers: Vec<u64> = said.split_whitespace().map_while(number).collect();
        Ok(Writing(match numbers[..] {
            [Self::CALL, _, from, count, ..] => Some((from, count)),
            _ => None,
        }))
    }

    /// Whether the write that waited before is over though nobody took a byte: it moved less than it was given.
    fn follows_short(self, before: Self) -> bool {
        self.0.is_some() && before.0.is_some() && self.0 != before.0
    }
}
