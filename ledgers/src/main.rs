//! ledgers LEVEL SEED: writes a random list of calls on one switch, and what the second program and its ledger say of it at that level.
//!
//! The list opens with an accepted start; its starts and ticks are direct for an even seed, pipelined for an odd one. The lines are:
//!
//! - `clock N F SLOT LINE FINE` and `run NAME WORD ..`: the switch that the list finds, of any words, in runs for three ports;
//! - `call REFUSAL CALL`: the calls in turn, written as crates/wsgs/specs/Switch.antt has them;
//! - `lowest TICKS CLAIMS`: how many of the ticks would answer otherwise, and how many of the claims would be others, if each turn took the lowest
//!   output that it may take;
//! - `fine BOOKINGS`: how many bookings were accepted that a plain book would have refused;
//! - `claim I J FIRST A M B SERVED`: every pair in every frame since the last accepted start;
//! - `headroom I J REFUSAL NUMBER`: every pair after the last call, and two that the switch has not;
//! - `preview OPERATION I J AMOUNT REFUSAL ROW COLUMN`: ten operations after the last call, of every kind.

use ledgers::Random;
use second::book::Preview;
use second::ledger::{Claim, Ledger};
use second::switch::{used, EVERY_RUN, MAX_FRAME, MAX_LINE_RATE, MAX_PACKETS, MAX_PORTS, MAX_QUEUE};
use second::{Answer, Clock, Form, Rules, Run, Switch, Words};
use std::fmt;

/// Small, since a checker has to compute with them.
const MOST_PORTS: u64 = 3;
const LONGEST_FRAME: u64 = 7;

/// The operations on the book, named as crates/wsgs/specs/Preview.antt names them.
#[derive(Clone, Copy)]
enum Operation {
    SlotsBooking,
    RateBooking,
    SlotsRelease,
    RateRelease,
}

const OPERATIONS: [Operation; 4] = [Operation::SlotsBooking, Operation::RateBooking, Operation::SlotsRelease, Operation::RateRelease];

impl fmt::Display for Operation {
    fn fmt(&self, to: &mut fmt::Formatter) -> fmt::Result {
        to.write_str(match self {
            Operation::SlotsBooking => "slots_booking",
            Operation::RateBooking => "rate_booking",
            Operation::SlotsRelease => "slots_release",
            Operation::RateRelease => "rate_release",
        })
    }
}

impl Operation {
    /// The call that does it.
    fn call(self, (input, output): (u64, u64), amount: u64) -> Call {
        match self {
            Operation::SlotsBooking => Call::Book { input, output, slots: amount },
            Operation::RateBooking => Call::BookRate { input, output, rate: amount },
            Operation::SlotsRelease => Call::Release { input, output, slots: amount },
            Operation::RateRelease => Call::ReleaseRate { input, output, rate: amount },
        }
    }

    /// What the second program shows of it.
    fn preview(self, form: Form, s: &Switch, (input, output): (u64, u64), amount: u64) -> Preview {
        match self {
            Operation::SlotsBooking => s.preview_book(form, input, output, amount),
            Operation::RateBooking => s.preview_book_rate(form, input, output, 0, amount),
            Operation::SlotsRelease => s.preview_release(input, output, amount),
            Operation::RateRelease => s.preview_release_rate(input, output, amount),
        }
    }

    /// The most that question 6 lets through.
    fn most(self, s: &Switch) -> u64 {
        match self {
            Operation::SlotsBooking | Operation::SlotsRelease => s.f(),
            Operation::RateBooking | Operation::RateRelease => s.clock.line as u64,
        }
    }
}

#[derive(Clone, Copy)]
enum Call {
    Start { form: Form, ports: u64, frame: u64, line: u64, fine: bool },
    Book { input: u64, output: u64, slots: u64 },
    BookRate { input: u64, output: u64, rate: u64 },
    Release { input: u64, output: u64, slots: u64 },
    ReleaseRate { input: u64, output: u64, rate: u64 },
    Headroom { input: u64, output: u64 },
    Preview { operation: Operation, pair: (u64, u64), amount: u64 },
    Arrive { input: u64, output: u64, packets: u64 },
    Tick { form: Form },
}

fn name(form: Form) -> &'static str {
    match form {
        Form::Direct => "direct",
        Form::Pipelined => "pipelined",
    }
}

impl fmt::Display for Call {
    fn fmt(&self, to: &mut fmt::Formatter) -> fmt::Result {
        match *self {
            Call::Start { form, ports, frame, line, fine } => {
                write!(to, "start {} {ports} {frame} {line} {}", name(form), if fine { "fine" } else { "plain" })
            }
            Call::Book { input, output, slots } => write!(to, "book {input} {output} {slots}"),
            Call::BookRate { input, output, rate } => write!(to, "book_rate {input} {output} {rate}"),
            Call::Release { input, output, slots } => write!(to, "release {input} {output} {slots}"),
            Call::ReleaseRate { input, output, rate } => write!(to, "release_rate {input} {output} {rate}"),
            Call::Headroom { input, output } => write!(to, "headroom {input} {output}"),
            Call::Preview { operation, pair: (input, output), amount } => write!(to, "preview {operation} {input} {output} {amount}"),
            Call::Arrive { input, output, packets } => write!(to, "arrive {input} {output} {packets}"),
            Call::Tick { form } => write!(to, "tick {}", name(form)),
        }
    }
}

impl Call {
    /// The call on a switch of this form.
    fn on(self, form: Form, s: &mut Switch) -> Answer {
        let number = |refusal| Answer { refusal, ..Answer::nobody() };
        match self {
            Call::Start { form: Form::Direct, ports, frame, line, fine } => number(s.start_direct(ports, frame, line, fine, false)),
            Call::Start { form: Form::Pipelined, ports, frame, line, fine } => number(s.start_pipelined(ports, frame, line, fine)),
            Call::Book { input, output, slots } => number(s.book(form, input, output, slots)),
            Call::BookRate { input, output, rate } => number(s.book_rate(form, input, output, 0, rate)),
            Call::Release { input, output, slots } => number(s.release(input, output, slots)),
            Call::ReleaseRate { input, output, rate } => number(s.release_rate(input, output, rate)),
            Call::Headroom { input, output } => number(s.headroom(input, output).0),
            Call::Preview { operation, pair, amount } => number(operation.preview(form, s, pair, amount).refusal),
            Call::Arrive { input, output, packets } => number(s.arrive(input, output, packets)),
            Call::Tick { form: Form::Direct } => s.tick_direct(),
            Call::Tick { form: Form::Pipelined } => s.tick_pipelined(),
        }
    }
}

/// A list in the making: the switch, the ledger since the last accepted start, and the calls so far with their answers.
struct List {
    random: Random,
    form: Form,
    switch: Switch,
    ledger: Option<Ledger>,
    calls: Vec<(Call, Answer)>,
}

impl List {
    /// The call on the switch; the ledger is fed its arguments and its answer.
    fn put(&mut self, call: Call) {
        let answer = call.on(self.form, &mut self.switch);
        let no = answer.refusal;
        match (call, &mut self.ledger) {
            (Call::Start { form, ports, frame, line, .. }, ledger) if no == 0 => {
                *ledger = Some(Ledger::start(self.switch.rules, form, ports, frame, line))
            }
            (Call::Start { .. }, _) => (),
            (_, None) => panic!("a list opens with an accepted start"),
            (Call::Book { input, output, slots }, Some(l)) => l.book(no, input, output, slots),
            (Call::BookRate { input, output, rate }, Some(l)) => l.book_rate(no, input, output, 0, rate),
            (Call::Release { input, output, slots }, Some(l)) => l.release(no, input, output, slots),
            (Call::ReleaseRate { input, output, rate }, Some(l)) => l.release_rate(no, input, output, rate),
            (Call::Headroom { .. } | Call::Preview { .. }, _) => (),
            (Call::Arrive { input, output, packets }, Some(l)) => l.arrive(no, input, output, packets),
            (Call::Tick { .. }, Some(l)) => l.tick(answer),
        }
        self.calls.push((call, answer));
    }

    fn port(&mut self) -> u64 {
        let n = self.switch.n();
        self.random.within(1, n)
    }

    /// Slots to book or to release: few.
    fn slots(&mut self) -> u64 {
        let most = self.switch.f().div_ceil(2);
        if self.random.one_in(4) { self.random.within(1, most) } else { 1 }
    }

    /// A line rate of 0 seldom; a fine book as often as a plain one.
    fn start(&mut self) {
        let fine = self.random.apart().one_in(2);
        let ports = self.random.of(&[1, 2, 2, MOST_PORTS, MOST_PORTS]);
        let shortest = if self.form == Form::Pipelined { ports } else { self.random.of(&[1, 2, 3]) };
        let frame = self.random.within(shortest, LONGEST_FRAME);
        let line = if self.random.one_in(8) { 0 } else { self.random.of(&[7, 1_000, 1_000, 99_999_999, MAX_LINE_RATE]) };
        self.put(Call::Start { form: self.form, ports, frame, line, fine });
    }

    /// A rate of a third of a slot or more, or a little above, within the line rate.
    fn rate(&mut self) -> u64 {
        let (line, f) = (self.switch.clock.line as u64, self.switch.f());
        let thirds = self.random.of(&[1, 1, 1, 1, 2, 3]);
        (line * thirds / (3 * f) + self.random.of(&[0, 0, 1])).clamp(1, line.max(1))
    }

    /// Several small rates on one pair, which share slots.
    fn streams(&mut self) {
        let (input, output) = (self.port(), self.port());
        for _ in 0..self.random.within(2, 4) {
            let rate = self.rate();
            self.put(Call::BookRate { input, output, rate });
        }
    }

    /// Mostly a pair that holds something in the run.
    fn pair(&mut self, run: Run) -> (u64, u64) {
        let s = &self.switch;
        let holding: Vec<_> = s.pairs().into_iter().filter(|&(i, j)| s.words.run(run)[s.at(i, j)] > 0).collect();
        if holding.is_empty() || self.random.one_in(4) { (self.port(), self.port()) } else { self.random.of(&holding) }
    }

    /// A pair and an amount for an operation, mostly in range. A rate to release is a part of what the pair holds, all of it, or a little more.
    fn drawn(&mut self, operation: Operation) -> ((u64, u64), u64) {
        match operation {
            Operation::SlotsBooking => ((self.port(), self.port()), self.slots()),
            Operation::RateBooking => ((self.port(), self.port()), self.rate()),
            Operation::SlotsRelease => (self.pair(Run::Slots), self.slots()),
            Operation::RateRelease => {
                let (input, output) = self.pair(Run::Rates);
                let held = self.switch.words.rates[self.switch.at(input, output)] as u64;
                let part = self.rate().min(held.max(1));
                ((input, output), self.random.of(&[part, part, part, held.max(1), held + 1]))
            }
        }
    }

    fn operate(&mut self, operation: Operation) {
        let (pair, amount) = self.drawn(operation);
        self.put(operation.call(pair, amount));
    }

    fn preview(&mut self) {
        let operation = self.random.of(&OPERATIONS);
        let (pair, amount) = self.drawn(operation);
        self.put(Call::Preview { operation, pair, amount });
    }

    fn headroom(&mut self) {
        let (input, output) = (self.port(), self.port());
        self.put(Call::Headroom { input, output });
    }

    /// At most so many packets, and at least half of them.
    fn arrive(&mut self, most: u64) {
        let (input, output, packets) = (self.port(), self.port(), self.random.within(most / 2, most));
        self.put(Call::Arrive { input, output, packets });
    }

    /// A call with a number out of range; a start asks for the other kind of book.
    fn out_of_range(&mut self) {
        let (form, n, f, line) = (self.form, self.switch.n(), self.switch.f(), self.switch.clock.line as u64);
        let fine = !self.switch.clock.fine;
        let (input, output) = (self.port(), self.port());
        let r = &mut self.random;
        let far = r.of(&[0, n + 1, (1 << 32) + 1]);
        let (i, j) = r.of(&[(input, far), (far, output)]);
        let short = if form == Form::Pipelined { n - 1 } else { 0 };
        let operation = r.of(&OPERATIONS);
        let (most, pair) = (operation.most(&self.switch), (input, output));
        let call = match r.within(0, 16) {
            0 => Call::Start { form, ports: r.of(&[0, MAX_PORTS + 1]), frame: f, line, fine },
            1 => Call::Start { form, ports: n, frame: r.of(&[0, short, short, MAX_FRAME + 1]), line, fine },
            2 => Call::Start { form, ports: r.within(MOST_PORTS + 1, MAX_PORTS), frame: MAX_PORTS, line, fine },
            3 => Call::Start { form, ports: n, frame: f, line: MAX_LINE_RATE + 1, fine },
            4 => Call::Book { input: i, output: j, slots: 1 },
            5 => Call::Book { input, output, slots: r.of(&[0, f + 1]) },
            6 => Call::BookRate { input: i, output: j, rate: 1 },
            7 => Call::BookRate { input, output, rate: r.of(&[0, line + 1]) },
            8 => Call::Release { input: i, output: j, slots: 1 },
            9 => Call::Release { input, output, slots: r.of(&[0, f + 1]) },
            10 => Call::ReleaseRate { input: i, output: j, rate: 1 },
            11 => Call::ReleaseRate { input, output, rate: r.of(&[0, line + 1]) },
            12 => Call::Arrive { input: i, output: j, packets: 1 },
            13 => Call::Headroom { input: i, output: j },
            14 => Call::Preview { operation, pair: (i, j), amount: 1 },
            15 => Call::Preview { operation, pair, amount: r.of(&[0, most + 1]) },
            _ => Call::Arrive { input, output, packets: r.of(&[0, MAX_PACKETS + 1, MAX_PACKETS + 1]) },
        };
        self.put(call);
    }

    /// A queue that is filled, and one packet more.
    fn fill_queue(&mut self) {
        let (input, output) = (self.port(), self.port());
        let mut put = |packets| self.put(Call::Arrive { input, output, packets });
        (0..MAX_QUEUE / MAX_PACKETS).for_each(|_| put(MAX_PACKETS));
        put(MAX_QUEUE % MAX_PACKETS + 1);
        put(MAX_QUEUE % MAX_PACKETS);
        put(1);
    }

    /// A start, bookings and arrivals, then so many ticks with other calls between them. Much arrives or little.
    fn part(&mut self, ticks: u64) {
        self.start();
        let pairs = self.switch.n() * self.switch.n();
        let most = self.random.of(&[2, 5, 12, 90]);
        for _ in 0..self.random.within(self.switch.n(), pairs) {
            match self.random.within(1, 4) {
                1 => self.operate(Operation::RateBooking),
                2 | 3 => self.streams(),
                _ => self.operate(Operation::SlotsBooking),
            }
        }
        if self.random.one_in(12) {
            self.fill_queue();
        }
        for _ in 0..self.random.within(self.switch.n(), 2 * pairs) {
            self.arrive(most);
        }
        let mut run = 0;
        while run < ticks {
            match self.random.within(1, 32) {
                1 | 2 => self.operate(Operation::SlotsBooking),
                3 | 4 => self.operate(Operation::RateBooking),
                5 => self.operate(Operation::SlotsRelease),
                6 | 7 => self.operate(Operation::RateRelease),
                8 | 9 => self.out_of_range(),
                10..=13 => self.arrive(most),
                14 => self.headroom(),
                15 | 16 => self.preview(),
                _ => {
                    self.put(Call::Tick { form: self.form });
                    run += 1;
                }
            }
        }
    }

    /// What is previewed after the last call: each operation as it is drawn for a call, and with up to half of the largest amount; and two with a
    /// pair or an amount out of range.
    fn previewed(&mut self) -> Vec<(Operation, (u64, u64), u64)> {
        let mut all = Vec::new();
        for operation in OPERATIONS {
            let (pair, amount) = self.drawn(operation);
            all.push((operation, pair, amount));
            let (pair, most) = (self.drawn(operation).0, operation.most(&self.switch).div_ceil(2));
            all.push((operation, pair, self.random.within(1, most.max(1))));
        }
        let (operation, (input, output)) = (self.random.of(&OPERATIONS), (self.port(), self.port()));
        let far = self.random.of(&[0, self.switch.n() + 1, (1 << 32) + 1]);
        all.push((operation, self.random.of(&[(input, far), (far, output)]), 1));
        let operation = self.random.of(&OPERATIONS);
        let amount = self.random.of(&[0, operation.most(&self.switch) + 1]);
        all.push((operation, (input, output), amount));
        all
    }
}

/// Each turn takes the lowest output that it may take: the rules before T-04.
const LOWEST: Rules = Rules { upto: 3 };

/// The claims of the list, in numbers.
fn claims(list: &List) -> Vec<[u64; 7]> {
    let numbers = |c: Claim| [c.input as u64, c.output as u64, c.first as u64, c.booked, c.others, c.waited, c.served];
    list.ledger.as_ref().expect("a list opens with an accepted start").claims().into_iter().map(numbers).collect()
}

/// How many ticks of the list, and how many of its claims, are not as the lowest output would have them on the switch that the list found. Only the
/// ticks go by those rules, so that the book is the list's own.
fn not_by_lowest(list: &List, found: &Switch) -> (usize, usize) {
    let mut other = List { random: Random(0), form: list.form, switch: found.clone(), ledger: None, calls: Vec::new() };
    for &(call, _) in &list.calls {
        other.switch.rules = if matches!(call, Call::Tick { .. }) { LOWEST } else { found.rules };
        other.put(call);
    }
    let otherwise = |((call, answer), (_, by_lowest)): &(&(Call, Answer), &(Call, Answer))| matches!(call, Call::Tick { .. }) && answer != by_lowest;
    let ticks = list.calls.iter().zip(&other.calls).filter(otherwise);
    let (is, by_lowest) = (claims(list), claims(&other));
    assert_eq!(is.len(), by_lowest.len());
    (ticks.count(), is.iter().zip(&by_lowest).filter(|(is, by_lowest)| is != by_lowest).count())
}

/// How many bookings of the list are accepted where a plain book would have refused them.
fn above_plain(list: &List, found: &Switch) -> usize {
    let (mut s, mut count) = (found.clone(), 0);
    for &(call, _) in &list.calls {
        let mut plain = Switch { clock: Clock { fine: false, ..s.clock }, ..s.clone() };
        let accepted = [call.on(list.form, &mut s), call.on(list.form, &mut plain)].map(|answer| answer.refusal == 0);
        count += (matches!(call, Call::Book { .. } | Call::BookRate { .. }) && accepted == [true, false]) as usize;
    }
    count
}

/// A clock and words that no calls have to have left: the runs of both forms at the level, with something in each word.
fn any_switch(r: &mut Random, rules: Rules) -> Switch {
    let mut apart = r.apart();
    let (ports, frame, last) = (r.of(&[0, 1, 2, 3, 9, 33]), r.of(&[0, 1, 2, 5, 10_001]), r.of(&[0, 1, 5, 77, 4_000_000_000]));
    let line = r.of(&[0, 1, 1_000, 100_000_001]);
    let mut words = Words::default();
    for run in EVERY_RUN {
        let r = if run == Run::Given { &mut apart } else { &mut *r };
        *words.run_mut(run) = (0..length(rules, run)).map(|_| r.of(&[1, 1, 2, 2, 3, 4, 7, 101, 102, 103, 104])).collect();
    }
    Switch { rules, clock: Clock { ports, frame, last, line, fine: apart.one_in(2), ..Clock::default() }, words }
}

/// How many words of a run a switch of either form uses.
fn length(rules: Rules, run: Run) -> usize {
    [Form::Direct, Form::Pipelined].into_iter().filter_map(|form| used(rules, form, false, MOST_PORTS, run)).max().unwrap_or(0)
}

fn main() {
    let arguments: Vec<u64> = std::env::args().skip(1).map(|a| a.parse().expect("a number")).collect();
    let &[level, seed] = &arguments[..] else { panic!("usage: ledgers LEVEL SEED") };
    let mut random = Random(seed);
    let switch = any_switch(&mut random, Rules { upto: level as u32 });
    let Clock { ports, frame, last, line, fine, .. } = switch.clock;
    // a fine book by another word than a start sets
    println!("clock {ports} {frame} {last} {line} {}", if fine { 7 } else { 0 });
    for run in EVERY_RUN.into_iter().filter(|&run| !switch.words.run(run).is_empty()) {
        let words: Vec<String> = switch.words.run(run).iter().map(u32::to_string).collect();
        println!("run {} {}", format!("{run:?}").to_lowercase(), words.join(" "));
    }
    let (form, found) = (if seed % 2 == 0 { Form::Direct } else { Form::Pipelined }, switch.clone());
    let mut list = List { random, form, switch, ledger: None, calls: Vec::new() };
    if list.random.one_in(4) {
        let ticks = list.random.within(1, 6);
        list.part(ticks);
    }
    let ticks = list.random.within(10, 24);
    list.part(ticks);
    let previewed = list.previewed();
    let not_there = [(list.switch.n() + 1, 1), (1, list.random.of(&[0, (1 << 32) + 1]))];
    for (call, answer) in &list.calls {
        println!("call {} {call}", answer.refusal);
    }
    let (ticks, others) = not_by_lowest(&list, &found);
    println!("lowest {ticks} {others}");
    println!("fine {}", above_plain(&list, &found));
    for [i, j, first, booked, others, waited, served] in claims(&list) {
        println!("claim {i} {j} {first} {booked} {others} {waited} {served}");
    }
    for (input, output) in list.switch.pairs().into_iter().chain(not_there) {
        let (refusal, number) = list.switch.headroom(input, output);
        println!("headroom {input} {output} {refusal} {number}");
    }
    for (operation, pair, amount) in previewed {
        let Preview { refusal, row, column } = operation.preview(form, &list.switch, pair, amount);
        println!("preview {operation} {} {} {amount} {refusal} {row} {column}", pair.0, pair.1);
    }
}
