//! Every exported call, an entry each: its questions, random arguments, and what library, second program and ledger make of it. A request that
//! adds or alters a call does so here; what tests want to see happen at it stands in tally.rs.

use crate::{rules, Random};
use kivdrag::slices::{self, Outputs};
use second::book::Preview;
use second::ledger::Ledger;
use second::{Answer, Form, Run, Switch, Words};
use std::hint::black_box;

/// The numbers that a caller brings, in the call's order; 0 for those that it has not.
pub type Arguments = [u64; 4];

/// A switch as the library has it: the clock's word for the kind of book stands beside the second program's clock, which has only whether the book
/// is fine.
#[derive(Clone, Debug, PartialEq, Eq)]
pub struct Lent {
    pub switch: Switch,
    pub fine: u32,
}

impl Lent {
    /// The switch with this word for the kind of its book: 0 for a plain one, any other for a fine one.
    pub fn new(mut switch: Switch, fine: u32) -> Lent {
        switch.clock.fine = fine != 0;
        Lent { switch, fine }
    }
}

/// What a call gives back: the refusal, a tick's pairs and passes, a headroom, and the sums of row and column that a preview shows; 0 for what
/// it has not.
#[derive(Clone, Copy, Debug, PartialEq, Eq)]
pub struct Reply {
    pub answer: Answer,
    pub headroom: i64,
    pub sums: [u64; 2],
}

impl Reply {
    pub fn refusal(&self) -> u32 {
        self.answer.refusal
    }

    pub fn refused(refusal: u32) -> Reply {
        Reply::of(Answer::refused(refusal))
    }

    fn of(answer: Answer) -> Reply {
        Reply { answer, headroom: 0, sums: [0; 2] }
    }
}

pub struct Call {
    pub name: &'static str,
    /// the form that it belongs to, none for a call of both
    pub form: Option<Form>,
    /// the questions that it has
    pub questions: &'static [u32],
    /// how often it is drawn: on a switch of any words, and in a list of calls on one switch
    pub weights: [u64; 2],
    /// its arguments on a switch of any words
    pub any: fn(&mut Random, &Switch) -> Arguments,
    /// its arguments in a list, in which much arrives (films) or little
    pub listed: fn(&mut Random, &Switch, bool) -> Arguments,
    pub by_library: fn(&mut Lent, Form, Arguments) -> Reply,
    pub by_second: fn(&mut Switch, Form, Arguments) -> Reply,
    /// what it makes of the ledgers, one for each accepted start
    pub noted: fn(&mut Vec<Ledger>, Form, Answer, Arguments),
}

impl Call {
    /// The name of the operation that the call previews; none for a call that is no preview.
    pub fn previewed(&self) -> Option<&'static str> {
        self.name.strip_prefix("preview_")
    }
}

/// The most ports in a list.
pub const MOST_LISTED: u64 = 9;

/// Of the calls of a form its start is the first.
pub static CALLS: [Call; 14] = [
    Call {
        name: "start_direct",
        form: Some(Form::Direct),
        questions: &[1, 2, 4, 6],
        weights: [2, 1],
        any: any_start,
        listed: |r, _, _| {
            let n = r.of(&[1, 2, 3, 4, 6, MOST_LISTED]);
            [n, r.within(1, n + 9), line_rate(r), any_kind(r)]
        },
        by_library: |s, _, [n, f, line, fine]| {
            lent(s, |clock, w| {
                slices::start_direct(n, f, line, fine as u32, clock, &mut w.slots, &mut w.rates, &mut w.credits, &mut w.queues, &mut w.given)
            })
        },
        by_second: |s, _, [n, f, line, fine]| number(s.start_direct(n, f, line, fine != 0, false)),
        noted: begin,
    },
    Call {
        name: "start_pipelined",
        form: Some(Form::Pipelined),
        questions: &[1, 2, 3, 4, 6],
        weights: [2, 1],
        any: any_start,
        listed: |r, _, _| {
            let n = r.of(&[1, 2, 3, 4, 6, MOST_LISTED]);
            [n, r.within(n, n + 9), line_rate(r), any_kind(r)]
        },
        by_library: |s, _, [n, f, line, fine]| {
            lent(s, |clock, w| {
                slices::start_pipelined(
                    n, f, line, fine as u32, clock, &mut w.slots, &mut w.rates, &mut w.credits, &mut w.queues, &mut w.given, &mut w.copy,
                    &mut w.flight,
                )
            })
        },
        by_second: |s, _, [n, f, line, fine]| number(s.start_pipelined(n, f, line, fine != 0)),
        noted: begin,
    },
    Call {
        name: "book",
        form: None,
        questions: &[1, 2, 4, 5, 6, 8, 9, 15],
        weights: [6, 20],
        any: any_slots_to_book,
        listed: slots_to_book,
        by_library: |s, _, [i, j, d, _]| lent(s, |clock, w| slices::book(clock, &mut w.slots, &w.rates, i, j, d)),
        by_second: |s, form, [i, j, d, _]| number(s.book(form, i, j, d)),
        noted: |l, _, a, [i, j, d, _]| latest(l).book(a.refusal, i, j, d),
    },
    Call {
        name: "book_rate",
        form: None,
        questions: &[1, 2, 4, 5, 6, 8, 9, 15],
        weights: [8, 60],
        any: any_rate_to_book,
        listed: rate_to_book,
        by_library: |s, _, [i, j, rate, _]| lent(s, |clock, w| slices::book_rate(clock, &w.slots, &mut w.rates, i, j, rate)),
        by_second: |s, form, [i, j, rate, _]| number(s.book_rate(form, i, j, 0, rate)),
        noted: |l, _, a, [i, j, rate, _]| latest(l).book_rate(a.refusal, i, j, 0, rate),
    },
    Call {
        name: "release",
        form: None,
        questions: &[1, 2, 4, 5, 6, 10],
        weights: [4, 20],
        any: any_slots_to_release,
        listed: slots_to_release,
        by_library: |s, _, [i, j, d, _]| lent(s, |clock, w| slices::release(clock, &mut w.slots, &w.rates, i, j, d)),
        by_second: |s, _, [i, j, d, _]| number(s.release(i, j, d)),
        noted: |l, _, a, [i, j, d, _]| latest(l).release(a.refusal, i, j, d),
    },
    Call {
        name: "release_rate",
        form: None,
        questions: &[1, 2, 4, 5, 6, 10],
        weights: [6, 30],
        any: any_rate_to_release,
        listed: rate_to_release,
        by_library: |s, _, [i, j, rate, _]| lent(s, |clock, w| slices::release_rate(clock, &w.slots, &mut w.rates, i, j, rate)),
        by_second: |s, _, [i, j, rate, _]| number(s.release_rate(i, j, rate)),
        noted: |l, _, a, [i, j, rate, _]| latest(l).release_rate(a.refusal, i, j, rate),
    },
    Call {
        name: "headroom",
        form: None,
        questions: &[1, 2, 4, 5],
        weights: [6, 40],
        any: |r, s| {
            let run = r.of(&[Run::Slots, Run::Rates]);
            let (i, j) = any_pair(r, s, s.words.run(run));
            [i, j, 0, 0]
        },
        // a pair that holds something, or the input of one with the output of another; seldom one that the switch has not
        listed: |r, s, _| {
            let (i, own) = pair(r, s, &s.words.slots);
            let (_, other) = pair(r, s, &s.words.rates);
            let (j, far) = (r.of(&[own, other]), r.of(&[0, s.n() + 1]));
            if r.one_in(20) { r.of(&[[i, far, 0, 0], [far, j, 0, 0]]) } else { [i, j, 0, 0] }
        },
        by_library: |s, _, [i, j, ..]| {
            let mut headroom = 0xA5A5_A5A5_A5A5_A5A5_u64 as i64;
            let reply = lent(s, |clock, w| slices::headroom(clock, &w.slots, &w.rates, i, j, &mut headroom));
            Reply { headroom, ..reply }
        },
        by_second: |s, _, [i, j, ..]| {
            let (refusal, headroom) = s.headroom(i, j);
            Reply { headroom, ..number(refusal) }
        },
        noted: |_, _, _, _| (),
    },
    Call {
        name: "preview_book",
        form: None,
        questions: &[1, 2, 4, 5, 6, 8, 9, 15],
        weights: [6, 20],
        any: any_slots_to_book,
        listed: slots_to_book,
        by_library: |s, _, arguments| lent_with_sums(s, slices::preview_book, arguments),
        by_second: |s, form, [i, j, d, _]| shown(s.preview_book(form, i, j, d)),
        noted: |_, _, _, _| (),
    },
    Call {
        name: "preview_book_rate",
        form: None,
        questions: &[1, 2, 4, 5, 6, 8, 9, 15],
        weights: [6, 30],
        any: any_rate_to_book,
        listed: rate_to_book,
        by_library: |s, _, arguments| lent_with_sums(s, slices::preview_book_rate, arguments),
        by_second: |s, form, [i, j, rate, _]| shown(s.preview_book_rate(form, i, j, 0, rate)),
        noted: |_, _, _, _| (),
    },
    Call {
        name: "preview_release",
        form: None,
        questions: &[1, 2, 4, 5, 6, 10],
        weights: [6, 15],
        any: any_slots_to_release,
        listed: slots_to_release,
        by_library: |s, _, arguments| lent_with_sums(s, slices::preview_release, arguments),
        by_second: |s, _, [i, j, d, _]| shown(s.preview_release(i, j, d)),
        noted: |_, _, _, _| (),
    },
    Call {
        name: "preview_release_rate",
        form: None,
        questions: &[1, 2, 4, 5, 6, 10],
        weights: [6, 15],
        any: any_rate_to_release,
        listed: rate_to_release,
        by_library: |s, _, arguments| lent_with_sums(s, slices::preview_release_rate, arguments),
        by_second: |s, _, [i, j, rate, _]| shown(s.preview_release_rate(i, j, rate)),
        noted: |_, _, _, _| (),
    },
    Call {
        name: "arrive",
        form: None,
        questions: &[1, 2, 4, 5, 6, 11],
        weights: [8, 120],
        any: |r, s| {
            let (n, _) = sizes(s);
            let d = if r.one_in(4) { r.around(65_535) } else { r.within(1, 5) };
            [any_port(r, n), any_port(r, n), d, 0]
        },
        listed: |r, s, films| [port(r, s), port(r, s), if films { r.within(20, 90) } else { r.within(1, 3) }, 0],
        by_library: |s, _, [i, j, d, _]| lent(s, |clock, w| slices::arrive(clock, &mut w.queues, i, j, d)),
        by_second: |s, _, [i, j, d, _]| number(s.arrive(i, j, d)),
        noted: |l, _, a, [i, j, d, _]| latest(l).arrive(a.refusal, i, j, d),
    },
    Call {
        name: "tick_direct",
        form: Some(Form::Direct),
        questions: &[1, 2, 4, 7],
        weights: [16, 150],
        any: |_, _| [0; 4],
        listed: |_, _, _| [0; 4],
        by_library: |s, _, _| {
            lent_with_answer(s, |clock, w, outputs, first| {
                slices::tick_direct(clock, &w.slots, &w.rates, &mut w.credits, &mut w.queues, &mut w.given, outputs, first)
            })
        },
        by_second: |s, _, _| Reply::of(s.tick_direct()),
        noted: |l, _, a, _| latest(l).tick(a),
    },
    Call {
        name: "tick_pipelined",
        form: Some(Form::Pipelined),
        questions: &[1, 2, 3, 4, 7],
        weights: [16, 150],
        any: |_, _| [0; 4],
        listed: |_, _, _| [0; 4],
        by_library: |s, _, _| {
            lent_with_answer(s, |clock, w, outputs, first| {
                slices::tick_pipelined(
                    clock, &w.slots, &w.rates, &mut w.credits, &mut w.queues, &mut w.given, &mut w.copy, &mut w.flight, outputs, first,
                )
            })
        },
        by_second: |s, _, _| Reply::of(s.tick_pipelined()),
        noted: |l, _, a, _| latest(l).tick(a),
    },
];

/// The reply of a call that gives a number alone.
fn number(refusal: u32) -> Reply {
    Reply::of(Answer { refusal, ..Answer::nobody() })
}

/// The reply of a preview.
fn shown(Preview { refusal, row, column }: Preview) -> Reply {
    Reply { sums: [row, column], ..number(refusal) }
}

/// A call of the library on a switch: its clock is lent as words and read back, even where the library is not to write it. The compiler is kept from
/// taking it for granted that words lent as shared have stayed.
fn lent(s: &mut Lent, call: impl FnOnce(&mut slices::Clock, &mut Words) -> u32) -> Reply {
    let clock = &mut s.switch.clock;
    let mut words = [clock.ports, clock.frame, clock.last, clock.line, s.fine];
    let refusal = call(&mut words, &mut s.switch.words);
    [clock.ports, clock.frame, clock.last, clock.line, s.fine] = *black_box(&mut words);
    clock.fine = s.fine != 0;
    number(refusal)
}

/// The same where a matching and a pass word are answered; what they held before must not matter.
fn lent_with_answer(s: &mut Lent, call: impl FnOnce(&mut slices::Clock, &mut Words, &mut Outputs, &mut u32) -> u32) -> Reply {
    let (mut outputs, mut first) = ([0xA5; 32], 0xA5A5_A5A5);
    let refusal = lent(s, |clock, w| call(clock, w, &mut outputs, &mut first)).refusal();
    Reply::of(Answer { refusal, outputs, first })
}

/// The same where two sums are answered; what they held before must not matter.
fn lent_with_sums(s: &mut Lent, preview: slices::Preview, [i, j, amount, _]: Arguments) -> Reply {
    let [mut row, mut column] = [0xA5A5_A5A5_A5A5_A5A5, 0xC3C3_C3C3_C3C3_C3C3];
    let reply = lent(s, |clock, w| preview(clock, &w.slots, &w.rates, i, j, amount, &mut row, &mut column));
    Reply { sums: [row, column], ..reply }
}

/// An accepted start begins a ledger.
fn begin(ledgers: &mut Vec<Ledger>, form: Form, answer: Answer, [n, f, line, _]: Arguments) {
    if answer.refusal == 0 {
        ledgers.push(Ledger::start(rules(), form, n, f, line));
    }
}

fn latest(ledgers: &mut [Ledger]) -> &mut Ledger {
    ledgers.last_mut().expect("a list opens with an accepted start")
}

/// Ports and frame of a switch of any words, within what arguments are drawn for.
fn sizes(s: &Switch) -> (u64, u64) {
    (s.n().clamp(1, 40), s.f().clamp(1, 20_000))
}

fn any_start(r: &mut Random, _: &Switch) -> Arguments {
    let n = if r.one_in(3) { r.around(32) } else { r.within(1, 8) };
    let f = if r.one_in(3) { r.around(10_000) } else { r.within(1, 40) };
    let line = if r.one_in(3) { r.around(100_000_000) } else { line_rate(r) };
    [n, f, line, any_kind(r)]
}

/// A number for the kind of book: 0, 1, or any other.
pub fn any_kind(r: &mut Random) -> u64 {
    match r.within(0, 5) {
        0..=2 => 0,
        3 => 1,
        4 => r.of(&[2, 7, 1 << 8, 1 << 16, 1 << 31, u32::MAX as u64]),
        _ => r.within(2, u32::MAX as u64),
    }
}

/// A line rate that a start accepts; 0 seldom.
fn line_rate(r: &mut Random) -> u64 {
    if r.one_in(10) {
        0
    } else {
        r.of(&[1, 7, 1_000, 1_000, 999_983, 100_000_000])
    }
}

fn any_port(r: &mut Random, n: u64) -> u64 {
    if r.one_in(12) {
        r.around(n)
    } else {
        r.within(1, n)
    }
}

/// A port of a started switch.
fn port(r: &mut Random, s: &Switch) -> u64 {
    r.within(1, s.n())
}

/// A pair that has a word above 0 in the run; none where there is none, or the run has not all pairs.
fn holding(r: &mut Random, s: &Switch, run: &[u32]) -> Option<(u64, u64)> {
    let all_there = s.n() <= 32 && run.len() as u64 >= s.n() * s.n();
    let pairs = if all_there { s.pairs() } else { Vec::new() };
    let holding: Vec<_> = pairs.into_iter().filter(|&(i, j)| run[s.at(i, j)] > 0).collect();
    (!holding.is_empty()).then(|| r.of(&holding))
}

/// A pair, of any words and of a started switch; often one that holds something in the run.
fn any_pair(r: &mut Random, s: &Switch, run: &[u32]) -> (u64, u64) {
    let (n, _) = sizes(s);
    let held = if r.one_in(2) { holding(r, s, run) } else { None };
    held.unwrap_or_else(|| (any_port(r, n), any_port(r, n)))
}

fn pair(r: &mut Random, s: &Switch, run: &[u32]) -> (u64, u64) {
    let held = if r.one_in(3) { None } else { holding(r, s, run) };
    held.unwrap_or_else(|| (port(r, s), port(r, s)))
}

/// Pair and amount of an operation on the book and of its preview: first on a switch of any words, then in a list.
fn any_slots_to_book(r: &mut Random, s: &Switch) -> Arguments {
    let (n, f) = sizes(s);
    let d = if r.one_in(3) { r.around(f) } else { r.within(1, f / n / 2 + 1) };
    [any_port(r, n), any_port(r, n), d, 0]
}

fn slots_to_book(r: &mut Random, s: &Switch, _: bool) -> Arguments {
    [port(r, s), port(r, s), few_slots(r, s), 0]
}

fn any_rate_to_book(r: &mut Random, s: &Switch) -> Arguments {
    let (i, j) = any_pair(r, s, &s.words.rates);
    [i, j, if r.one_in(4) { r.around(line(s)) } else { some_rate(r, s, i, j) }, 0]
}

fn rate_to_book(r: &mut Random, s: &Switch, _: bool) -> Arguments {
    let (i, j) = pair(r, s, &s.words.rates);
    [i, j, if r.one_in(30) { r.of(&[0, line(s) + 1]) } else { some_rate(r, s, i, j) }, 0]
}

fn any_slots_to_release(r: &mut Random, s: &Switch) -> Arguments {
    let (n, f) = sizes(s);
    let d = if r.one_in(3) { r.around(f) } else { r.within(1, 3) };
    [any_port(r, n), any_port(r, n), d, 0]
}

fn slots_to_release(r: &mut Random, s: &Switch, _: bool) -> Arguments {
    let (i, j) = pair(r, s, &s.words.slots);
    [i, j, few_slots(r, s), 0]
}

fn any_rate_to_release(r: &mut Random, s: &Switch) -> Arguments {
    let (i, j) = any_pair(r, s, &s.words.rates);
    [i, j, if r.one_in(4) { r.around(line(s)) } else { part_of_rate(r, s, i, j) }, 0]
}

fn rate_to_release(r: &mut Random, s: &Switch, _: bool) -> Arguments {
    let (i, j) = pair(r, s, &s.words.rates);
    [i, j, part_of_rate(r, s, i, j), 0]
}

fn few_slots(r: &mut Random, s: &Switch) -> u64 {
    r.within(1, (s.f() / 2).max(1))
}

fn line(s: &Switch) -> u64 {
    s.clock.line as u64
}

/// The summed rate of a pair; 0 where there is no such pair or no such word.
fn rate_of(s: &Switch, i: u64, j: u64) -> u64 {
    let ports = 1..=s.n().min(32);
    let at = (ports.contains(&i) && ports.contains(&j)).then(|| s.at(i, j));
    at.and_then(|at| s.words.rates.get(at)).map_or(0, |&rate| rate as u64)
}

/// How much more rate fits into the last slot that the pair's rate takes, so that its booking does not rise.
fn left_in_slot(s: &Switch, i: u64, j: u64) -> u64 {
    let (f, line, rate) = (s.f().max(1), line(s).max(1), rate_of(s, i, j));
    (rate * f).div_ceil(line) * line / f - rate
}

/// A rate to book: around what is left in the pair's last slot, a part of a slot, or more.
fn some_rate(r: &mut Random, s: &Switch, i: u64, j: u64) -> u64 {
    let ((n, f), line, left) = (sizes(s), line(s), left_in_slot(s, i, j));
    match r.within(0, 9) {
        0 | 1 => left.max(1),
        2 | 3 => left + 1,
        4 => r.within(1, left.max(1)),
        5 | 6 => r.within(1, (line / f).max(1)),
        7 | 8 => r.within(1, (line / n).max(1)),
        _ => r.within(1, line.max(1)),
    }
}

/// A rate to release: what the pair holds, a part of it, or a little more.
fn part_of_rate(r: &mut Random, s: &Switch, i: u64, j: u64) -> u64 {
    let rate = rate_of(s, i, j);
    match r.within(0, 4) {
        0 => rate,
        1 => rate + 1,
        _ => r.within(1, rate.max(1)),
    }
}
