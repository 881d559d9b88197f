//! Vectors from outside, as `tests/vectors/README.md` describes them.

use crate::reference::{event, npalist, npapage, open, settle};
use std::path::Path;
use std::{fs, str};

/// The folder of the vectors.
pub const FOLDER: &str = concat!(env!("CARGO_MANIFEST_DIR"), "/vectors");

/// Its files with cases.
pub const FILES: [&str; 1] = ["after-N2.txt"];

/// What a case calls, with its buffers and the answer.
#[derive(Clone, Debug, PartialEq)]
pub enum Operation {
    /// Block and ledger; the ledger that is left.
    Open(Call<2, 1>),
    /// Ledger, file and result; the ledger and the result that are left.
    Settle(Call<3, 2>),
    /// Ledger, files, result and count; the ledger, the result and the count that are left.
    Event(Call<4, 3>),
    List(Print),
    Page(Print),
}

/// A call with so many buffers, which answers a ground and leaves so many.
#[derive(Clone, Debug, PartialEq)]
pub struct Call<const GIVEN: usize, const LEFT: usize> {
    pub given: [Vec<u8>; GIVEN],
    pub ground: u32,
    pub left: [Vec<u8>; LEFT],
}

/// An input of a program and what it prints.
#[derive(Clone, Debug, PartialEq)]
pub struct Print {
    pub input: Vec<u8>,
    pub printed: Vec<u8>,
}

/// One case.
#[derive(Clone, Debug, PartialEq)]
pub struct Vector {
    /// File and line.
    pub name: String,
    /// The requests whose rules hold.
    pub rules: String,
    pub operation: Operation,
}

/// All cases of all files.
pub fn vectors() -> Result<Vec<Vector>, String> {
    let files: Result<Vec<_>, _> = FILES.iter().map(|file| cases(file)).collect();
    files.map(|cases| cases.concat())
}

/// All cases of a file in the folder.
fn cases(file: &str) -> Result<Vec<Vector>, String> {
    let path = Path::new(FOLDER).join(file);
    let text = fs::read_to_string(path).map_err(|error| format!("{file}: {error}"))?;
    (1..)
        .zip(text.lines())
        .map(|(number, line)| vector(format!("{file}, line {number}"), line))
        .collect()
}

/// The case of a line.
pub fn vector(name: String, line: &str) -> Result<Vector, String> {
    let fields: Vec<&str> = line.split(' ').collect();
    let middle = fields.iter().position(|field| *field == "=");
    let operation = match (&fields[..], middle) {
        ([_, operation, ..], Some(middle)) if middle >= 2 => {
            operation_of(operation, &fields[2..middle], &fields[middle + 1..])
        }
        _ => Err("is not `RULES OPERATION BUFFERS = ANSWER`".to_string()),
    };
    Ok(Vector {
        operation: operation.map_err(|what| format!("{name}: {what}"))?,
        name,
        rules: fields[0].to_string(),
    })
}

fn operation_of(name: &str, given: &[&str], answer: &[&str]) -> Result<Operation, String> {
    match name {
        "open" => call(given, answer).map(Operation::Open),
        "settle" => call(given, answer).map(Operation::Settle),
        "event" => call(given, answer).map(Operation::Event),
        "list" => print(given, answer).map(Operation::List),
        "page" => print(given, answer).map(Operation::Page),
        _ => Err(format!("there is no operation `{name}`")),
    }
}

fn call<const GIVEN: usize, const LEFT: usize>(
    given: &[&str],
    answer: &[&str],
) -> Result<Call<GIVEN, LEFT>, String> {
    let (ground, left) = answer.split_first().ok_or("has no answer")?;
    Ok(Call {
        given: buffers(given)?,
        ground: ground
            .parse()
            .map_err(|_| format!("`{ground}` is no ground"))?,
        left: buffers(left)?,
    })
}

fn print(given: &[&str], answer: &[&str]) -> Result<Print, String> {
    let [input] = buffers(given)?;
    let [printed] = buffers(answer)?;
    Ok(Print { input, printed })
}

/// So many byte strings, no more and no fewer.
fn buffers<const COUNT: usize>(fields: &[&str]) -> Result<[Vec<u8>; COUNT], String> {
    let buffers: Result<Vec<_>, _> = fields.iter().map(|field| bytes(field)).collect();
    let of = |buffers: Vec<_>| format!("has {} byte strings, not {COUNT}", buffers.len());
    buffers?.try_into().map_err(of)
}

/// The bytes of a field.
fn bytes(field: &str) -> Result<Vec<u8>, String> {
    if field == "-" {
        return Ok(Vec::new());
    }
    let is_digit = |digit: &u8| matches!(digit, b'0'..=b'9' | b'a'..=b'f');
    let byte = |pair: &[u8]| {
        let digits = str::from_utf8(pair)
            .ok()
            .filter(|_| pair.iter().all(is_digit));
        digits.and_then(|digits| u8::from_str_radix(digits, 16).ok())
    };
    let pairs = field.as_bytes().chunks(2);
    let bytes: Option<Vec<u8>> = pairs
        .map(|pair| byte(pair).filter(|_| pair.len() == 2))
        .collect();
    bytes
        .filter(|bytes| !bytes.is_empty())
        .ok_or_else(|| format!("`{field:.40}` are no bytes"))
}

impl Vector {
    /// Holds the reference to the case.
    pub fn hold_reference(&self) -> Result<(), String> {
        let same = match &self.operation {
            Operation::Open(call) => call.is_answered(|[block, ledger]| {
                let ground = open(block, ledger);
                (ground, [&ledger[..]])
            }),
            Operation::Settle(call) => call.is_answered(|[ledger, file, result]| {
                let ground = settle(ledger, file, result);
                (ground, [&ledger[..], &result[..]])
            }),
            Operation::Event(call) => call.is_answered(|[ledger, files, result, count]| {
                let ground = event(ledger, files, result, count);
                (ground, [&ledger[..], &result[..], &count[..]])
            }),
            Operation::List(Print { input, printed }) => npalist(input) == *printed,
            Operation::Page(Print { input, printed }) => npapage(input) == *printed,
        };
        match same {
            true => Ok(()),
            false => Err(format!("{}: the reference answers otherwise", self.name)),
        }
    }
}

impl<const GIVEN: usize, const LEFT: usize> Call<GIVEN, LEFT> {
    /// Whether a function answers the ground and leaves the buffers of this call.
    fn is_answered(
        &self,
        function: impl for<'a> FnOnce(&'a mut [Vec<u8>; GIVEN]) -> (u32, [&'a [u8]; LEFT]),
    ) -> bool {
        let mut given = self.given.clone();
        let (ground, left) = function(&mut given);
        ground == self.ground && left == self.left.each_ref().map(|left| &left[..])
    }
}
