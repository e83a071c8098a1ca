//! A switch whose ticks are timed, and its tick by each of the three schedulers.

use crate::plain;
use compare::Random;
use kivdrag::raw::*;

const FRAME: u32 = 100;
/// 1 Gbit/s, in kbit/s.
pub const LINE: u32 = 1_000_000;
/// More packets and credits than any pair is served while it is timed.
const PLENTY: u32 = 1_000_000;

#[derive(Clone, PartialEq)]
pub struct Switch {
    pub clock: plain::Clock,
    pub slots: Vec<u32>,
    pub rates: Vec<u32>,
    pub credits: Vec<u32>,
    pub queues: Vec<u32>,
    pub given: Vec<u32>,
    pub copy: Vec<u32>,
    pub flight: Vec<u32>,
}

impl Switch {
    fn new(n: usize) -> Switch {
        let run = || vec![0; n * n];
        Switch {
            clock: [n as u32, FRAME, 0, LINE, 0],
            slots: run(),
            rates: run(),
            credits: run(),
            queues: run(),
            given: vec![0; n],
            copy: run(),
            flight: vec![0; 2 * n * n],
        }
    }

    /// Sets the length of a frame so that the next tick reads the book, or does not: in the direct form the slot to run, in the pipelined
    /// form the slot 2N after it is then the first of a frame, or far from it. The last slot run goes round between 4,096 and 8,192,
    /// which leaves the rows in flight where they are.
    #[inline(always)]
    pub fn set_frame(&mut self, pipelined: bool, reads: bool) {
        if self.clock[2] == 0 || self.clock[2] >= 8_192 {
            self.clock[2] = 4_096;
        }
        let ahead = if pipelined { 2 * self.clock[0] } else { 0 };
        self.clock[1] = if reads { self.clock[2] + ahead } else { 10_000 };
    }
}

/// A switch in which so many of a hundred pairs have packets for a long time and one slot booked in each frame.
pub fn loaded(n: usize, percent: u64) -> Switch {
    let mut r = Random::new(n as u64 * 1000 + percent);
    let mut s = Switch::new(n);
    for at in 0..n * n {
        if r.within(1, 100) <= percent {
            s.queues[at] = PLENTY;
            s.slots[at] = 1;
        }
    }
    s
}

/// A switch in which all pairs have packets and credits for a long time, and, where rates are wanted, each has some rate.
pub fn with_credits(n: usize, rates: bool) -> Switch {
    let mut r = Random::new(n as u64);
    let mut s = Switch::new(n);
    for run in [&mut s.slots, &mut s.credits, &mut s.queues] {
        run.fill(PLENTY);
    }
    if rates {
        s.rates.fill_with(|| r.within(1_000, 50_000) as u32);
    }
    s
}

/// Whether a tick that is prepared so takes bookings out of the book.
pub fn reads_book(pipelined: bool, s: &Switch, prepare: impl Fn(&mut Switch)) -> bool {
    let mut s = s.clone();
    s.credits.fill(0);
    prepare(&mut s);
    proved(pipelined, &mut s);
    s.credits.iter().chain(&s.copy).any(|&word| word > 0)
}

fn proved_direct(s: &mut Switch, outputs: &mut [u8; 32], first: &mut u32) -> u32 {
    let (n, ports) = (s.slots.len(), s.given.len());
    unsafe {
        kivdrag_tick_direct(
            s.clock.as_mut_ptr(), s.slots.as_ptr(), n, s.rates.as_ptr(), n, s.credits.as_mut_ptr(), n, s.queues.as_mut_ptr(), n,
            s.given.as_mut_ptr(), ports, outputs.as_mut_ptr(), first,
        )
    }
}

fn proved_pipelined(s: &mut Switch, outputs: &mut [u8; 32], first: &mut u32) -> u32 {
    let (n, ports) = (s.slots.len(), s.given.len());
    unsafe {
        kivdrag_tick_pipelined(
            s.clock.as_mut_ptr(), s.slots.as_ptr(), n, s.rates.as_ptr(), n, s.credits.as_mut_ptr(), n, s.queues.as_mut_ptr(), n,
            s.given.as_mut_ptr(), ports, s.copy.as_mut_ptr(), n, s.flight.as_mut_ptr(), 2 * n, outputs.as_mut_ptr(), first,
        )
    }
}

pub fn proved(pipelined: bool, s: &mut Switch) -> plain::Answer {
    let mut a = plain::Answer { refusal: 0, outputs: [0; 32], first: 0 };
    a.refusal = if pipelined { proved_pipelined(s, &mut a.outputs, &mut a.first) } else { proved_direct(s, &mut a.outputs, &mut a.first) };
    a
}

pub fn by_hand(pipelined: bool, s: &mut Switch) -> plain::Answer {
    if pipelined {
        plain::tick_pipelined(&mut s.clock, &s.slots, &s.rates, &mut s.credits, &mut s.queues, &mut s.given, &mut s.copy, &mut s.flight)
    } else {
        plain::tick_direct(&mut s.clock, &s.slots, &s.rates, &mut s.credits, &mut s.queues, &mut s.given)
    }
}

/// The second program's switch of the same contents, at the level in force.
pub fn of_second(s: &Switch) -> second::Switch {
    let mut other = second::Switch::off(compare::rules());
    [other.clock.ports, other.clock.frame, other.clock.last, other.clock.line, _] = s.clock;
    other.clock.fine = s.clock[4] != 0;
    let w = &mut other.words;
    (w.slots, w.rates, w.credits, w.queues) = (s.slots.clone(), s.rates.clone(), s.credits.clone(), s.queues.clone());
    (w.given, w.copy, w.flight) = (s.given.clone(), s.copy.clone(), s.flight.clone());
    other
}

pub fn by_second(pipelined: bool, s: &mut second::Switch) -> second::Answer {
    if pipelined {
        s.tick_pipelined()
    } else {
        s.tick_direct()
    }
}
