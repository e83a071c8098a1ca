//! Reads a record as the event program does, to tell what is wrong with one that it refused. docs/RULES.md, "Event text", has the questions.

use crate::event::{Operation, Record};

pub const OPERATIONS: [(&str, Operation); 6] = [
    ("start", Operation::Start),
    ("pipe", Operation::Pipe),
    ("book", Operation::Book),
    ("release", Operation::Release),
    ("arrive", Operation::Arrive),
    ("tick", Operation::Tick),
];
/// The most bytes of a record, and the most digits of a number.
pub const BYTES_MAX: usize = 64;
pub const DIGITS_MAX: usize = 10;

/// Why a record cannot be read, in the order of the questions. Fields count from 1.
#[derive(Clone, Copy, Debug, PartialEq, Eq)]
pub enum Fault<'a> {
    TooLong { bytes: usize },
    Quote,
    UnknownOperation { name: &'a [u8] },
    BeforeStart,
    Fields { count: usize },
    NotANumber { operation: Operation, field: usize, text: &'a [u8] },
    UnusedNot0 { operation: Operation, field: usize, value: u64 },
}

impl Fault<'_> {
    /// The number that refuses such a record.
    pub fn number(&self) -> u32 {
        match self {
            Fault::Fields { .. } => 13,
            Fault::NotANumber { .. } => 14,
            _ => 12,
        }
    }
}

/// The record, or the first fault; `started` tells whether a start was accepted before it.
pub fn read(text: &[u8], started: bool) -> Result<Record, Fault<'_>> {
    if text.len() > BYTES_MAX {
        return Err(Fault::TooLong { bytes: text.len() });
    }
    if text.contains(&b'"') {
        return Err(Fault::Quote);
    }
    let mut fields = text.split(|&byte| byte == b',');
    let name = fields.next().unwrap_or_default();
    let operation = operation(name).ok_or(Fault::UnknownOperation { name })?;
    if !started && !matches!(operation, Operation::Start | Operation::Pipe) {
        return Err(Fault::BeforeStart);
    }
    let ([Some(a), Some(b), Some(c)], None) = ([fields.next(), fields.next(), fields.next()], fields.next()) else {
        return Err(Fault::Fields { count: text.split(|&byte| byte == b',').count() });
    };
    let mut numbers = [0; 3];
    for (at, text) in [a, b, c].into_iter().enumerate() {
        numbers[at] = number(text).ok_or(Fault::NotANumber { operation, field: at + 2, text })?;
    }
    match unused(operation).iter().find(|&&field| numbers[field - 2] != 0) {
        Some(&field) => Err(Fault::UnusedNot0 { operation, field, value: numbers[field - 2] }),
        None => Ok(Record { operation, numbers }),
    }
}

pub fn operation(name: &[u8]) -> Option<Operation> {
    OPERATIONS.iter().find(|(known, _)| known.as_bytes() == name).map(|&(_, operation)| operation)
}

/// The value of one to ten digits.
pub fn number(text: &[u8]) -> Option<u64> {
    let digits = (1..=DIGITS_MAX).contains(&text.len()) && text.iter().all(u8::is_ascii_digit);
    digits.then(|| text.iter().fold(0, |value, digit| 10 * value + u64::from(digit - b'0')))
}

/// The fields that an operation does not use.
fn unused(operation: Operation) -> &'static [usize] {
    match operation {
        Operation::Start | Operation::Pipe => &[4],
        Operation::Tick => &[2, 3],
        Operation::Book | Operation::Release | Operation::Arrive => &[],
    }
}
