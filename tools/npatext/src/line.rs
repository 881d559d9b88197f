//! One line of text: a keyword, words, named fields; and what is wrong with it.

use crate::source::{is_wide, seen, MARK};
use std::{fmt, str};

/// What is wrong with a text, and where.
#[derive(Debug, PartialEq)]
pub struct Fault {
    pub line: usize,
    pub field: Option<String>,
    pub what: String,
}

impl fmt::Display for Fault {
    fn fmt(&self, to: &mut fmt::Formatter) -> fmt::Result {
        write!(to, "line {}", self.line)?;
        if let Some(field) = &self.field {
            write!(to, ", field {}", seen(field))?;
        }
        write!(to, ": {}", seen(&self.what))
    }
}

/// The text that bytes are; a fault names the line of the first that is not UTF-8, or what is there instead of text.
pub fn text_of(bytes: &[u8]) -> Result<&str, Fault> {
    let fault = |at: usize, what: String| {
        let above = bytes[..at].iter().filter(|byte| **byte == b'\n').count();
        Fault {
            line: above + 1,
            field: None,
            what,
        }
    };
    if bytes.starts_with(MARK) {
        let what = "begins with a byte order mark (ef bb bf); save the text as UTF-8 without it";
        return Err(fault(0, what.to_string()));
    }
    if is_wide(bytes) {
        let what = "begins with a byte order mark of UTF-16; save the text as UTF-8 without one";
        return Err(fault(0, what.to_string()));
    }
    if let Some(at) = bytes.iter().position(|byte| *byte == 0) {
        let what = "has a byte of 0, so it is no text; npatext show gives the text of a stream";
        return Err(fault(at, what.to_string()));
    }
    str::from_utf8(bytes).map_err(|error| {
        let at = error.valid_up_to();
        fault(at, format!("byte {:02x} is not UTF-8", bytes[at]))
    })
}

/// A line without its comment; fields leave it as they are read.
pub struct Line<'a> {
    pub number: usize,
    pub keyword: &'a str,
    words: Vec<&'a str>,
    fields: Vec<(&'a str, &'a str)>,
}

impl<'a> Line<'a> {
    /// Takes a line apart; nothing if it is empty or a comment.
    pub fn split(number: usize, text: &'a str) -> Result<Option<Self>, Fault> {
        let whole = |what: &str| Fault {
            line: number,
            field: None,
            what: what.to_string(),
        };
        if text.contains('\r') {
            return Err(whole(
                "has a carriage return within it; lines end in a newline",
            ));
        }
        let text = text.split('#').next().unwrap_or("");
        if text.contains('\u{feff}') {
            return Err(whole("has a byte order mark (U+FEFF), which is not seen"));
        }
        let mut parts = text.split_whitespace();
        let Some(keyword) = parts.next() else {
            return Ok(None);
        };
        let mut line = Line {
            number,
            keyword,
            words: Vec::new(),
            fields: Vec::new(),
        };
        for part in parts {
            let Some((name, value)) = part.split_once('=') else {
                line.words.push(part);
                continue;
            };
            if name.is_empty() {
                let what = format!("`{part}` has no name; a field is name=value, without blanks");
                return Err(line.wrong(what));
            }
            if line.fields.iter().any(|(other, _)| *other == name) {
                return Err(line.fault(name, "is given twice"));
            }
            line.fields.push((name, value));
        }
        Ok(Some(line))
    }

    /// A fault of one field.
    pub fn fault(&self, field: &str, what: impl Into<String>) -> Fault {
        Fault {
            line: self.number,
            field: Some(field.to_string()),
            what: what.into(),
        }
    }

    /// A fault of the whole line.
    pub fn wrong(&self, what: impl Into<String>) -> Fault {
        Fault {
            line: self.number,
            field: None,
            what: what.into(),
        }
    }

    /// The next word without a name.
    pub fn word(&mut self, field: &str) -> Result<&'a str, Fault> {
        if self.words.is_empty() {
            return Err(self.fault(field, "is missing"));
        }
        Ok(self.words.remove(0))
    }

    /// A named field, if it is given.
    pub fn take(&mut self, field: &str) -> Option<&'a str> {
        let index = self.fields.iter().position(|(name, _)| *name == field)?;
        Some(self.fields.remove(index).1)
    }

    /// A named field that must be given.
    pub fn need(&mut self, field: &str) -> Result<&'a str, Fault> {
        self.take(field)
            .ok_or_else(|| self.fault(field, "is missing"))
    }

    /// A number in its range.
    pub fn number(&self, field: &str, text: &str, low: i64, high: i64) -> Result<i64, Fault> {
        let number = text.parse().ok().filter(|n| (low..=high).contains(n));
        number.ok_or_else(|| {
            let what = format!("`{text}` is not a number from {low} to {high}");
            self.fault(field, what)
        })
    }

    /// An unsigned number of 32 bits.
    pub fn unsigned(&self, field: &str, text: &str) -> Result<u32, Fault> {
        let number = self.number(field, text, 0, u32::MAX.into())?;
        Ok(number as u32)
    }

    /// The word of a signed number of 32 bits.
    pub fn signed(&self, field: &str, text: &str) -> Result<u32, Fault> {
        let number = self.number(field, text, i32::MIN.into(), i32::MAX.into())?;
        Ok(number as i32 as u32)
    }

    /// An unsigned number in a named field, if it is given.
    pub fn take_unsigned(&mut self, field: &str) -> Result<Option<u32>, Fault> {
        let text = self.take(field);
        text.map(|text| self.unsigned(field, text)).transpose()
    }

    /// A signed number in a named field, if it is given.
    pub fn take_signed(&mut self, field: &str) -> Result<Option<u32>, Fault> {
        let text = self.take(field);
        text.map(|text| self.signed(field, text)).transpose()
    }

    /// Bytes in two hexadecimal digits each: all words that are left, at least one.
    pub fn hex(&mut self, field: &str) -> Result<Vec<u8>, Fault> {
        if self.words.is_empty() {
            return Err(self.fault(field, "is missing"));
        }
        let digits = self.words.concat();
        self.words.clear();
        let pairs = digits.as_bytes().chunks(2);
        let bytes: Option<Vec<u8>> = pairs.map(byte).collect();
        bytes.ok_or_else(|| self.fault(field, "is not pairs of hexadecimal digits"))
    }

    /// Everything in the line was read.
    pub fn done(&self) -> Result<(), Fault> {
        let keyword = self.keyword;
        if let Some((name, _)) = self.fields.first() {
            return Err(self.fault(name, format!("is no field of `{keyword}`")));
        }
        match self.words.first() {
            Some(word) => Err(self.wrong(format!("`{word}` is too much for `{keyword}`"))),
            None => Ok(()),
        }
    }
}

/// The byte of two hexadecimal digits.
fn byte(pair: &[u8]) -> Option<u8> {
    let digit = |at: usize| (*pair.get(at)? as char).to_digit(16);
    Some((16 * digit(0)? + digit(1)?) as u8)
}
