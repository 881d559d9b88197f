//! What a command reads, by name, and what it is at first sight.

use npa_tests::reference::HEADING;
use std::fs::File;
use std::io::{self, BufRead, BufReader, Chain, Cursor, Read};
use std::path::Path;

/// The bytes of an input that are looked at to tell what it is.
const FRONT_BYTES: usize = 512;

/// The mark with which some programs begin a text of UTF-8.
pub const MARK: &[u8] = b"\xef\xbb\xbf";

/// What an input is by its first bytes.
#[derive(Clone, Copy, Debug, PartialEq)]
pub enum Looks {
    Listing,
    Text,
    Bytes,
    /// Too few bytes to tell.
    Short,
}

/// The bytes that were looked at, then the others.
type Whole = Chain<Cursor<Vec<u8>>, Box<dyn Read>>;

/// An input and its name, for messages.
pub struct Source {
    pub name: String,
    pub looks: Looks,
    from: BufReader<Whole>,
}

impl Source {
    /// The file of a path; `-` is standard input.
    pub fn open(path: &Path) -> Result<Self, String> {
        if path == Path::new("-") {
            return Source::new("standard input", io::stdin());
        }
        let name = path.display().to_string();
        match File::open(path) {
            Ok(file) => Source::new(&name, file),
            Err(error) => Err(format!("{name}: {error}")),
        }
    }

    /// An input under a name.
    pub fn new(name: &str, mut from: impl Read + 'static) -> Result<Self, String> {
        let mut front = Vec::new();
        let read = (&mut from).take(FRONT_BYTES as u64).read_to_end(&mut front);
        read.map_err(|error| format!("{name}: {error}"))?;
        let looks = looks(&front);
        let from: Box<dyn Read> = Box::new(from);
        Ok(Source {
            name: name.to_string(),
            looks,
            from: BufReader::new(Cursor::new(front).chain(from)),
        })
    }

    /// An input that is to be a stream, a ledger or a result.
    pub fn of_bytes(path: &Path, what: &str) -> Result<Self, String> {
        Source::open(path)?.no_text(what, "")
    }

    /// Refuses an input that is text.
    fn no_text(self, what: &str, remark: &str) -> Result<Self, String> {
        let name = &self.name;
        match self.looks {
            Looks::Bytes | Looks::Short => Ok(self),
            Looks::Listing => Err(format!("{name} is a listing, not a {what}{remark}")),
            Looks::Text if what == "stream" => Err(format!(
                "{name} is text, not a stream; npatext make gives the stream of a text{remark}"
            )),
            Looks::Text => Err(format!("{name} is text, not a {what}{remark}")),
        }
    }

    /// A stream and its listing.
    pub fn pair(stream: &Path, listing: &Path) -> Result<(Self, Self), String> {
        let standard = Path::new("-");
        if stream == standard && listing == standard {
            return Err("only one of the stream and the listing can be standard input".to_string());
        }
        let (stream, listing) = (Source::open(stream)?, Source::open(listing)?);
        let stream = stream.no_text("stream", " (the stream comes first, then its listing)")?;
        match listing.looks {
            Looks::Bytes => Err(format!("{} is not text, so it is no listing", listing.name)),
            _ => Ok((stream, listing)),
        }
    }

    /// All bytes.
    pub fn all(mut self) -> Result<Vec<u8>, String> {
        let mut bytes = Vec::new();
        let read = self.from.read_to_end(&mut bytes);
        read.map_err(|error| self.failed(&error))?;
        Ok(bytes)
    }

    /// Up to so many bytes into the buffer; fewer only where the input ends.
    pub fn fill(&mut self, count: usize, buffer: &mut Vec<u8>) -> Result<(), String> {
        buffer.clear();
        let read = (&mut self.from).take(count as u64).read_to_end(buffer);
        read.map_err(|error| self.failed(&error))?;
        Ok(())
    }

    /// A line with its newline, or the first bytes of one that is longer than `most`; nothing at the end.
    pub fn line(&mut self, most: usize, buffer: &mut Vec<u8>) -> Result<(), String> {
        buffer.clear();
        let read = (&mut self.from).take(most as u64).read_until(b'\n', buffer);
        read.map_err(|error| self.failed(&error))?;
        Ok(())
    }

    /// How many bytes are left; they are read.
    pub fn rest(&mut self) -> Result<u64, String> {
        let read = io::copy(&mut self.from, &mut io::sink());
        read.map_err(|error| self.failed(&error))
    }

    fn failed(&self, error: &io::Error) -> String {
        format!("{}: {error}", self.name)
    }
}

/// What first bytes look like. No stream begins like a text: its length would be over every limit.
fn looks(front: &[u8]) -> Looks {
    let unmarked = front.strip_prefix(MARK).unwrap_or(front);
    let heading = &HEADING.as_bytes()[..12];
    if front.len() < 4 {
        Looks::Short
    } else if unmarked.starts_with(heading) {
        Looks::Listing
    } else if unmarked.len() < front.len() || is_wide(front) || is_plain(front) {
        Looks::Text
    } else {
        Looks::Bytes
    }
}

/// UTF-16 with its mark, as some editors save text.
pub fn is_wide(front: &[u8]) -> bool {
    match front {
        [0xff, 0xfe, low, 0, ..] | [0xfe, 0xff, 0, low, ..] => is_seen(*low),
        _ => false,
    }
}

/// UTF-8 without control characters; its last character may be cut.
fn is_plain(front: &[u8]) -> bool {
    let text = match std::str::from_utf8(front) {
        Ok(text) => text,
        Err(error) if error.error_len().is_none() => {
            std::str::from_utf8(&front[..error.valid_up_to()]).unwrap_or("")
        }
        Err(_) => return false,
    };
    text.bytes().all(|byte| byte >= 0x80 || is_seen(byte))
}

/// A printed character of ASCII, a blank or the end of a line.
fn is_seen(byte: u8) -> bool {
    matches!(byte, b' '..=b'~' | b'\t' | b'\r' | b'\n')
}

/// A text whose characters that are not seen on paper are written out.
pub fn seen(text: &str) -> String {
    let mut shown = String::new();
    for character in text.chars() {
        match character {
            '\'' | '"' | '\\' => shown.push(character),
            _ => shown.extend(character.escape_debug()),
        }
    }
    shown
}

#[cfg(test)]
mod tests {
    use super::*;

    #[test]
    fn texts_and_streams_are_told_apart() {
        for (front, is) in [
            (&b"# a text\r\nopening"[..], Looks::Text),
            (b"\xef\xbb\xbfopening", Looks::Text),
            (b"\xff\xfeo\0p\0", Looks::Text),
            (b"interval 3 net_cone=1", Looks::Text),
            (b"interval,id,expected", Looks::Listing),
            (b"\xef\xbb\xbfinterval,id,expected", Looks::Listing),
            (b"caf\xc3\xa9", Looks::Text),
            (b"cafe\xc3", Looks::Text),
            (b"", Looks::Short),
            (b"\x01\0\0", Looks::Short),
            (b"caf", Looks::Short),
            (b"\x24\0\0\0\x01\0\0\0", Looks::Bytes),
            (b"abcd\0", Looks::Bytes),
            (b"\xff\xfe\0\0", Looks::Bytes),
        ] {
            assert_eq!(looks(front), is, "{front:?}");
        }
    }

    #[test]
    fn what_is_not_seen_is_written_out() {
        assert_eq!(
            seen("\u{feff}row 'a'\\\r\u{200b}é"),
            r"\u{feff}row 'a'\\r\u{200b}é"
        );
    }
}
