//! Why a call was refused.

use std::fmt;
use std::num::NonZeroU32;

/// The number of the question that was answered no. Nothing has changed then. As text it says why, and what to do.
#[derive(Clone, Copy, Debug, PartialEq, Eq, PartialOrd, Ord, Hash)]
pub struct Refusal(NonZeroU32);

/// What the numbers 0 to 15 say, and at last what any other says; build.rs takes it from the C header.
const TEXTS: [&str; 17] = include!(concat!(env!("OUT_DIR"), "/texts.rs"));

impl Refusal {
    /// Is the number of ports 1 to 32?
    pub const PORTS: Refusal = Refusal::of(1);
    /// Is the length of a frame 1 to 10,000?
    pub const FRAME: Refusal = Refusal::of(2);
    /// Pipelined: has a frame at least as many slots as there are ports?
    pub const PIPELINE: Refusal = Refusal::of(3);
    /// Are all lent slices long enough?
    pub const RUNS: Refusal = Refusal::of(4);
    /// Are input and output ports of the switch?
    pub const PAIR: Refusal = Refusal::of(5);
    /// Is the amount, the rate or the line rate in range?
    pub const AMOUNT: Refusal = Refusal::of(6);
    /// Has the clock run fewer than 4,000,000,000 slots?
    pub const CLOCK: Refusal = Refusal::of(7);
    /// Plain book: has the input room?
    pub const INPUT: Refusal = Refusal::of(8);
    /// Plain book: has the output room?
    pub const OUTPUT: Refusal = Refusal::of(9);
    /// Is as much booked as is to be released?
    pub const RELEASE: Refusal = Refusal::of(10);
    /// Does the queue stay within 1,000,000 packets?
    pub const QUEUE: Refusal = Refusal::of(11);
    /// Fine book: does each booked pair on the input or the output still fit the frame?
    pub const FINE: Refusal = Refusal::of(15);

    const fn of(number: u32) -> Refusal {
        match NonZeroU32::new(number) {
            Some(number) => Refusal(number),
            None => panic!("0 is no refusal"),
        }
    }

    /// The result that a call's number stands for: 0 is accepted.
    pub fn check(number: u32) -> Result<(), Refusal> {
        NonZeroU32::new(number).map_or(Ok(()), |number| Err(Refusal(number)))
    }

    /// Its number.
    pub fn number(self) -> u32 {
        self.0.get()
    }
}

impl fmt::Display for Refusal {
    fn fmt(&self, f: &mut fmt::Formatter) -> fmt::Result {
        f.write_str(TEXTS[self.number().min(16) as usize])
    }
}

impl std::error::Error for Refusal {}

/// The slots booked on an input and on an output, as a preview tells them.
#[derive(Clone, Copy, Debug, PartialEq, Eq)]
pub struct Sums {
    /// the sum of the input's bookings
    pub row: u64,
    /// the sum of the output's bookings
    pub column: u64,
}

/// Why a preview says no.
#[derive(Clone, Copy, Debug, PartialEq, Eq)]
pub struct PreviewRefusal {
    /// what the operation would be refused with
    pub refusal: Refusal,
    /// the sums that it would have led to; only where it is the book that has no room
    pub sums: Option<Sums>,
}

impl PreviewRefusal {
    pub(crate) fn new(refusal: Refusal, sums: Sums) -> PreviewRefusal {
        let no_room = matches!(refusal, Refusal::INPUT | Refusal::OUTPUT | Refusal::FINE);
        PreviewRefusal { refusal, sums: no_room.then_some(sums) }
    }
}

impl fmt::Display for PreviewRefusal {
    fn fmt(&self, f: &mut fmt::Formatter) -> fmt::Result {
        self.refusal.fmt(f)?;
        match self.sums {
            Some(Sums { row, column }) => write!(f, " (slots booked would be {row} on the input, {column} on the output)"),
            None => Ok(()),
        }
    }
}

impl std::error::Error for PreviewRefusal {}

impl From<PreviewRefusal> for Refusal {
    fn from(no: PreviewRefusal) -> Refusal {
        no.refusal
    }
}
