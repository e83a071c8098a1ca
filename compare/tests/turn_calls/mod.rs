//! An input's turn alone: by the library for tests alone (crates/turns_c_c), and by the second program.

use compare::rules;
use second::switch::MAX_PORTS;
use second::{Clock, Pass, Switch, Words};

pub mod exported {
    #[link(name = "turns_c", kind = "static")]
    extern "C" {
        pub fn kivdrag_test_first_turn(
            free: u32, ports: usize, input: u64, credits: *mut u32, credits_len: usize, queues: *mut u32, queues_len: usize,
            given: *mut u32, given_len: usize, looks: *mut u32,
        ) -> u64;
        pub fn kivdrag_test_second_turn(
            free: u32, ports: usize, input: u64, queues: *mut u32, queues_len: usize, given: *mut u32, given_len: usize, looks: *mut u32,
        ) -> u64;
    }
}

use exported::*;

/// What a turn is asked with, of any contents. Pass two is not lent the credits.
#[derive(Clone, Debug, PartialEq, Eq)]
pub struct TurnCall {
    pub pass: Pass,
    /// bit j - 1 for output j; bits past the ports are no outputs
    pub free: u32,
    pub ports: u64,
    pub input: u64,
    pub words: Words,
}

/// What a turn gives: the output, 0 for none, and the count of looks.
#[derive(Clone, Copy, Debug, Default, PartialEq, Eq)]
pub struct TurnResult {
    pub output: u64,
    pub looks: u32,
}

/// Why there is no turn.
#[derive(Clone, Copy, Debug, PartialEq, Eq, PartialOrd, Ord)]
pub enum NoTurn {
    PortsAboveMost,
    InputZero,
    InputAbovePorts,
    CreditsTooShort,
    QueuesTooShort,
    GivenTooShort,
}

impl TurnCall {
    /// Every reason why there is no turn.
    pub fn no_turn(&self) -> Vec<NoTurn> {
        let (n, w) = (self.ports, &self.words);
        let too_short = |run: &[u32], words: u64| (run.len() as u64) < words;
        let pairs = n.saturating_mul(n);
        let reasons = [
            (n > MAX_PORTS, NoTurn::PortsAboveMost),
            (self.input == 0, NoTurn::InputZero),
            (self.input > n, NoTurn::InputAbovePorts),
            (self.pass == Pass::One && too_short(&w.credits, pairs), NoTurn::CreditsTooShort),
            (too_short(&w.queues, pairs), NoTurn::QueuesTooShort),
            (too_short(&w.given, n), NoTurn::GivenTooShort),
        ];
        reasons.into_iter().filter(|&(is, _)| is).map(|(_, reason)| reason).collect()
    }

    /// The switch on which it is a turn.
    pub fn switch(&self) -> Switch {
        Switch { rules: rules(), clock: Clock { ports: self.ports as u32, ..Clock::default() }, words: self.words.clone() }
    }

    /// What the count held before must not matter.
    pub fn by_library(&mut self) -> TurnResult {
        let (free, ports, input, w, mut looks) = (self.free, self.ports as usize, self.input, &mut self.words, 0xA5A5_A5A5);
        let output = match self.pass {
            Pass::One => unsafe {
                kivdrag_test_first_turn(
                    free, ports, input, w.credits.as_mut_ptr(), w.credits.len(), w.queues.as_mut_ptr(), w.queues.len(),
                    w.given.as_mut_ptr(), w.given.len(), &mut looks,
                )
            },
            Pass::Two => unsafe {
                kivdrag_test_second_turn(
                    free, ports, input, w.queues.as_mut_ptr(), w.queues.len(), w.given.as_mut_ptr(), w.given.len(), &mut looks,
                )
            },
        };
        TurnResult { output, looks }
    }

    /// The choice, and what it pays. Without a turn nothing is given, and nothing changes.
    pub fn by_second(&mut self) -> TurnResult {
        if !self.no_turn().is_empty() {
            return TurnResult::default();
        }
        let mut s = self.switch();
        let (chosen, looks) = s.choose(self.input, self.free, self.pass);
        if let Some(j) = chosen {
            s.give(self.input, j, self.pass);
        }
        self.words = s.words;
        TurnResult { output: chosen.unwrap_or(0), looks }
    }
}
