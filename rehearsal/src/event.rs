//! A record of an event file, and what the proved program made of it.

/// The six operations of an event file.
#[derive(Clone, Copy, Debug, PartialEq, Eq)]
pub enum Operation {
    Start,
    Pipe,
    Book,
    Release,
    Arrive,
    Tick,
}

/// A record that can be read: its operation and its three numbers.
#[derive(Clone, Copy, Debug, PartialEq, Eq)]
pub struct Record {
    pub operation: Operation,
    pub numbers: [u64; 3],
}

/// A pair that a slot handed out; by pass one where it is booked, else by pass two (leftover).
#[derive(Clone, Copy, Debug, PartialEq, Eq)]
pub struct Pair {
    pub slot: u64,
    pub input: usize,
    pub output: usize,
    pub booked: bool,
}

/// What came of a record.
#[derive(Clone, Copy, Debug)]
pub struct Event<'a> {
    /// its line in the file, from 1
    pub line: usize,
    /// the record as it was fed, without its line end
    pub text: &'a [u8],
    /// none where it cannot be read
    pub record: Option<Record>,
    /// the number that refused it; none where it is accepted
    pub refusal: Option<u32>,
    /// the pairs that it handed out, slots rising, and inputs in each
    pub pairs: &'a [Pair],
    /// the last slot run after it; 0 before an accepted start
    pub last_slot: u64,
}
