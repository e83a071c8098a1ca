//! The proved library (include/kivdrag.h) beside the second program: the calls of both, and random numbers for tests of them.

use second::Rules;

pub mod calls;
pub mod tally;
pub mod turns;

/// The rules in force: the file LEVEL at the repository's root holds the level.
pub fn rules() -> Rules {
    Rules { upto: include_str!("../../LEVEL").trim().parse().expect("LEVEL is a number") }
}

/// Random numbers: xorshift64* from a seed.
pub struct Random(u64);

impl Random {
    pub fn new(seed: u64) -> Random {
        Random(seed.wrapping_mul(0x2545_F491_4F6C_DD1D) | 1)
    }

    pub fn next(&mut self) -> u64 {
        self.0 ^= self.0 >> 12;
        self.0 ^= self.0 << 25;
        self.0 ^= self.0 >> 27;
        self.0.wrapping_mul(0x2545_F491_4F6C_DD1D)
    }

    /// A number from low to high.
    pub fn within(&mut self, low: u64, high: u64) -> u64 {
        low + (self.next() >> 11) % (high - low + 1)
    }

    pub fn one_in(&mut self, n: u64) -> bool {
        self.within(1, n) == 1
    }

    pub fn of<T: Copy>(&mut self, choices: &[T]) -> T {
        choices[self.within(0, choices.len() as u64 - 1) as usize]
    }

    /// A number at or around a limit, or any other.
    pub fn around(&mut self, limit: u64) -> u64 {
        match self.within(0, 9) {
            0 => 0,
            1 => limit.saturating_sub(1),
            2 => limit,
            3 => limit.saturating_add(1),
            4 => self.of(&[1 << 32, (1 << 32) + 1, u64::MAX, u32::MAX as u64]),
            _ => self.within(1, limit.max(1)),
        }
    }
}

/// A number that a test takes from the environment, or else this one.
pub fn setting(name: &str, default: u64) -> u64 {
    std::env::var(name).ok().map_or(default, |v| v.parse().unwrap_or_else(|_| panic!("{name} is a number")))
}

/// Last given outputs of every kind: ports, 0, and words outside the ports.
pub fn any_given(r: &mut Random, n: u64, length: usize) -> Vec<u32> {
    let word = |r: &mut Random| match r.within(0, 11) {
        0 => 0,
        1 => r.of(&[n as u32 + 1, n as u32 + 32, n as u32 + 100, 1 << 31, u32::MAX]),
        2 => n as u32,
        3 => r.next() as u32,
        _ => r.within(1, n.max(1)) as u32,
    };
    (0..length).map(|_| word(r)).collect()
}
