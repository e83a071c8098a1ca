//! looks LEVEL: writes random searches of an input's turn, and what the second program chooses and counts at that level.
//!
//! A line is `N LAST FREE PERMITTED CHOSEN COUNT`: the ports; the input's word of the output last given, as it stands in the run; the free outputs and
//! the permitted ones, bit j - 1 for output j; the chosen output, 0 for none; and the count of looks. Bits of FREE past N are no outputs.

use ledgers::Random;
use second::turns::all_free;
use second::{Clock, Pass, Rules, Switch, Words};

const SEARCHES: usize = 450;

/// Mostly few, since a checker has to compute with them.
fn ports(r: &mut Random) -> u64 {
    if r.one_in(40) { 32 } else { r.of(&[1, 2, 3, 4, 5, 6, 6, 6]) }
}

/// Last given outputs of every kind: mostly ports; also 0 and numbers past n.
fn last_given(r: &mut Random, n: u64) -> u32 {
    let (port, past) = (r.within(1, n), r.of(&[n + 1, n + 2, 33, 100 + n, u32::MAX as u64]));
    r.of(&[port, port, port, port, port, 0, past]) as u32
}

/// Free outputs: none, few, half, most or all of them; one word in four may have the bits of the two outputs past n.
fn free_outputs(r: &mut Random, n: u64) -> u32 {
    let [a, b] = [r.next() as u32, r.next() as u32];
    let free = r.of(&[0, a & b, a, a, a, a | b, a | b, a | b, u32::MAX]);
    free & all_free(if r.one_in(4) { (n + 2).min(32) } else { n })
}

/// A switch of n ports, with last given outputs of every kind. Words of 0 in credits and queues are many or few.
fn any_switch(r: &mut Random, rules: Rules, n: u64) -> Switch {
    let mut s = Switch { rules, clock: Clock { ports: n as u32, ..Clock::default() }, words: Words::filled(0) };
    let (pairs, zero_in) = ((n * n) as usize, r.of(&[1, 2, 2, 3, 3, 4]));
    for run in [&mut s.words.credits, &mut s.words.queues] {
        run[..pairs].fill_with(|| if r.one_in(zero_in) { 0 } else { r.of(&[1, 2, u32::MAX]) });
    }
    s.words.given[..n as usize].fill_with(|| last_given(r, n));
    s
}

fn main() {
    let arguments: Vec<u32> = std::env::args().skip(1).map(|a| a.parse().expect("a number")).collect();
    let &[upto] = &arguments[..] else { panic!("usage: looks LEVEL") };
    let mut r = Random(1);
    for _ in 0..SEARCHES {
        let n = ports(&mut r);
        let s = any_switch(&mut r, Rules { upto }, n);
        let (input, free, pass) = (r.within(1, n), free_outputs(&mut r, n), r.of(&[Pass::One, Pass::Two]));
        let permitted = (1..=n).filter(|&j| s.permits(input, j, pass)).fold(0, |word, j| word | 1u32 << (j - 1));
        let (chosen, count) = s.choose(input, free, pass);
        println!("{n} {} {free} {permitted} {} {count}", s.words.given[input as usize - 1], chosen.unwrap_or(0));
    }
}
