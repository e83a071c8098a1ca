//! Times the proved library against the plain Rust scheduler, in one run: `cargo run --release -- FOLDER` after `tools/proved kivdrag_c`.
//! Writes three tables into the folder, each as Markdown and as comma-separated values: ticks, frames (the ticks that read the book), bookings (with headroom and previews).

mod plain;
mod switch;

use compare::Random;
use kivdrag::raw::*;
use std::collections::BTreeSet;
use std::fmt::Write;
use std::hint::black_box;
use std::time::Instant;
use switch::{by_hand, by_second, loaded, of_second, proved, Switch, LINE};

const FORMS: [bool; 2] = [false, true];
const PORTS: [usize; 4] = [4, 8, 16, 32];
const LOADS: [(&str, u64); 4] = [("idle", 0), ("sparse", 5), ("half", 50), ("full", 100)];

fn name(pipelined: bool) -> &'static str {
    if pipelined {
        "pipelined"
    } else {
        "direct"
    }
}

/// A table as it is printed, and its values.
struct Table {
    markdown: String,
    values: String,
}

impl Table {
    /// A table of these headings, as it is printed and for its values.
    fn new(heading: &str, values: &str) -> Table {
        let columns = heading.matches('|').count() - 1;
        Table { markdown: format!("{heading}\n{}|\n", "|---".repeat(columns)), values: format!("{values}\n") }
    }

    fn write(&self, folder: &str, name: &str) {
        for (text, kind) in [(&self.markdown, "md"), (&self.values, "csv")] {
            std::fs::write(format!("{folder}/{name}.{kind}"), text).expect("the table is written");
        }
    }
}

/// Keeps the processor busy until it runs at its full speed, so that the first work timed meets the same machine as the others.
fn warm_up() {
    let (mut s, begun) = (loaded(32, 50), Instant::now());
    while begun.elapsed().as_millis() < 2_000 {
        black_box(by_hand(false, black_box(&mut s)).first);
    }
}

type Work<'a> = Box<dyn FnMut() + 'a>;

const ROUNDS: usize = 30;
const COPIES: usize = 5;

/// Nanoseconds of each of several works, done in turn so that all meet the same machine: the least of many rounds. The rounds go through copies of the
/// works, whose words lie elsewhere in memory, so that no work has the luck of its place. Where all works of a table are given at once, the rounds of
/// each lie far apart, and what disturbs the machine for some seconds spoils few of them.
fn nanoseconds(times: u32, mut copies: Vec<Vec<Work>>) -> Vec<f64> {
    let mut least = vec![f64::MAX; copies[0].len()];
    for round in 0..ROUNDS {
        let works = round % copies.len();
        for (work, best) in copies[works].iter_mut().zip(&mut least) {
            let begun = Instant::now();
            for _ in 0..times {
                work();
            }
            *best = best.min(begun.elapsed().as_nanos() as f64 / times as f64);
        }
    }
    least
}

/// Library and plain scheduler give the same answers and words for some thousand ticks; each tick is prepared so.
fn agree(pipelined: bool, s: &Switch, prepare: impl Fn(&mut Switch)) {
    let (mut a, mut b) = (s.clone(), s.clone());
    for _ in 0..3_000 {
        prepare(&mut a);
        prepare(&mut b);
        let (x, y) = (proved(pipelined, &mut a), by_hand(pipelined, &mut b));
        assert!((x.refusal, x.outputs, x.first) == (y.refusal, y.outputs, y.first));
        assert!(a == b);
    }
}

fn read_once(s: &Switch) -> u64 {
    s.credits.iter().zip(&s.queues).map(|(&c, &q)| c as u64 + q as u64).sum()
}

/// Ticks one after the other, among them one in a hundred that reads the book.
fn ticks() -> Table {
    let mut table = Table::new(
        "| form | N | load | proved, ns | plain Rust, ns | ratio | second program, ns | ratio | matrices read once, ns | ratio |",
        "form,ports,load,proved_ns,plain_ns,second_ns,read_ns",
    );
    let rows: Vec<_> = FORMS
        .into_iter()
        .flat_map(|pipelined| PORTS.map(|n| LOADS.map(|(load, percent)| (pipelined, n, load, percent))))
        .flatten()
        .collect();
    let works = || rows.iter().flat_map(|&(pipelined, n, _, percent)| ticks_under(pipelined, n, percent)).collect();
    let t = nanoseconds(20_000, (0..COPIES).map(|_| works()).collect());
    for (&(pipelined, n, load, _), t) in rows.iter().zip(t.chunks_exact(4)) {
        tick_row(&mut table, name(pipelined), n, load, t);
    }
    table
}

/// The works of a row: proved, plain, second, and the matrices read once.
fn ticks_under(pipelined: bool, n: usize, percent: u64) -> [Work<'static>; 4] {
    let s = loaded(n, percent);
    agree(pipelined, &s, |_| ());
    let (mut a, mut b, mut d) = (s.clone(), s.clone(), of_second(&s));
    [
        Box::new(move || _ = black_box(proved(pipelined, black_box(&mut a)).first)),
        Box::new(move || _ = black_box(by_hand(pipelined, black_box(&mut b)).first)),
        Box::new(move || _ = black_box(by_second(pipelined, black_box(&mut d)).first)),
        Box::new(move || _ = black_box(read_once(black_box(&s)))),
    ]
}

fn tick_row(table: &mut Table, form: &str, n: usize, load: &str, t: &[f64]) {
    writeln!(
        table.markdown,
        "| {form} | {n} | {load} | {:.0} | {:.0} | {:.2} | {:.0} | {:.2} | {:.0} | {:.1} |",
        t[0], t[1], t[0] / t[1], t[2], t[0] / t[2], t[3], t[0] / t[3]
    )
    .unwrap();
    writeln!(table.values, "{form},{n},{load},{:.3},{:.3},{:.3},{:.3}", t[0], t[1], t[2], t[3]).unwrap();
}

/// Ticks that do not read the book, that read one without rates, and that read one with a rate for every pair.
fn frames() -> Table {
    let mut table = Table::new(
        "| form | N | tick within a frame: proved, ns | plain Rust, ns | ratio | tick that reads the book, no rates: proved, ns | plain Rust, ns | ratio \
         | rates on all pairs: proved, ns | plain Rust, ns | ratio |",
        "form,ports,within_proved_ns,within_plain_ns,slots_proved_ns,slots_plain_ns,rates_proved_ns,rates_plain_ns",
    );
    let kinds = [(false, true), (true, false), (true, true)];
    let rows: Vec<_> = FORMS.into_iter().flat_map(|pipelined| PORTS.map(|n| (pipelined, n))).collect();
    let row = |&(pipelined, n): &(bool, usize)| kinds.into_iter().flat_map(move |(reads, rates)| frame_ticks(pipelined, n, reads, rates));
    let t = nanoseconds(5_000, (0..COPIES).map(|_| rows.iter().flat_map(row).collect()).collect());
    for (&(pipelined, n), t) in rows.iter().zip(t.chunks_exact(2 * kinds.len())) {
        write!(table.markdown, "| {} | {n} |", name(pipelined)).unwrap();
        t.chunks_exact(2).for_each(|t| write!(table.markdown, " {:.0} | {:.0} | {:.2} |", t[0], t[1], t[0] / t[1]).unwrap());
        table.markdown.push('\n');
        let values: Vec<String> = t.iter().map(|ns| format!("{ns:.3}")).collect();
        writeln!(table.values, "{},{n},{}", name(pipelined), values.join(",")).unwrap();
    }
    table
}

/// A tick that reads the book or does not, where all pairs have packets and credits for all ticks: proved, and plain.
fn frame_ticks(pipelined: bool, n: usize, reads: bool, rates: bool) -> [Work<'static>; 2] {
    let s = switch::with_credits(n, rates);
    let prepare = move |s: &mut Switch| s.set_frame(pipelined, reads);
    agree(pipelined, &s, prepare);
    assert_eq!(switch::reads_book(pipelined, &s, prepare), reads);
    let (mut a, mut b) = (s.clone(), s);
    let by_library = move || {
        prepare(&mut a);
        black_box(proved(pipelined, black_box(&mut a)).first);
    };
    let by_hand = move || {
        prepare(&mut b);
        black_box(by_hand(pipelined, black_box(&mut b)).first);
    };
    [Box::new(by_library), Box::new(by_hand)]
}

/// The calls on the book that take sums of bookings.
#[derive(Clone, Copy)]
enum OnSums {
    BySlots,
    ByRate,
    Headroom,
    Preview,
}

const KINDS: [(u32, &str); 2] = [(0, "plain"), (1, "fine")];

/// What each pair of a book holds: slots, a rate, and how that is named.
type Held = (u32, u32, &'static str);

const HELD: [Held; 3] = [(0, 0, "nothing"), (100, 0, "slots"), (0, 1_000, "a rate")];

/// Accepted calls, on plain books and on fine ones; headroom, which does not ask for the kind, on plain ones.
fn bookings() -> Table {
    let mut table = Table::new(
        "| call | book | each pair holds | N | proved, million a second | plain Rust, million a second | ratio |",
        "call,book,held,ports,proved_ns,plain_ns",
    );
    let calls = [
        (OnSums::BySlots, "booking by slots", &KINDS[..]),
        (OnSums::ByRate, "booking by rate", &KINDS),
        (OnSums::Headroom, "headroom", &KINDS[..1]),
        (OnSums::Preview, "preview of a booking by slots", &KINDS),
    ];
    for (call, name, kinds) in calls {
        for (&(fine, kind), held) in kinds.iter().flat_map(|kind| HELD.map(|held| (kind, held))) {
            for n in PORTS {
                let t = calls_on_sums([n as u32, 10_000, 0, LINE, fine], call, held);
                let row = format!("{name} | {kind} | {} | {n}", held.2);
                writeln!(table.markdown, "| {row} | {:.1} | {:.1} | {:.2} |", 1e3 / t[0], 1e3 / t[1], t[1] / t[0]).unwrap();
                writeln!(table.values, "{},{:.3},{:.3}", row.replace(" | ", ","), t[0], t[1]).unwrap();
            }
        }
    }
    table
}

/// Slots and rates.
type Book = (Vec<u32>, Vec<u32>);

/// What a call on the book gives: the number, a headroom, and the sums of a preview; 0 for what it has not.
type Reply = (u32, i64, [u64; 2]);

#[inline(always)]
fn on_book_by_library(call: OnSums, clock: &plain::Clock, (slots, rates): &mut Book, [i, j, amount]: [u64; 3]) -> Reply {
    let (clock, u, v) = (clock.as_ptr(), slots.len(), rates.len());
    let (mut headroom, mut row, mut column) = (0, 0, 0);
    let refusal = unsafe {
        match call {
            OnSums::BySlots => kivdrag_book(clock, slots.as_mut_ptr(), u, rates.as_ptr(), v, i, j, amount),
            OnSums::ByRate => kivdrag_book_rate(clock, slots.as_ptr(), u, rates.as_mut_ptr(), v, i, j, amount),
            OnSums::Headroom => kivdrag_headroom(clock, slots.as_ptr(), u, rates.as_ptr(), v, i, j, &mut headroom),
            OnSums::Preview => kivdrag_preview_book(clock, slots.as_ptr(), u, rates.as_ptr(), v, i, j, amount, &mut row, &mut column),
        }
    };
    (refusal, headroom, [row, column])
}

#[inline(always)]
fn on_book_by_hand(call: OnSums, clock: &plain::Clock, (slots, rates): &mut Book, [i, j, amount]: [u64; 3]) -> Reply {
    match call {
        OnSums::BySlots => (plain::book(clock, slots, rates, i, j, amount), 0, [0; 2]),
        OnSums::ByRate => (plain::book_rate(clock, slots, rates, i, j, amount), 0, [0; 2]),
        OnSums::Headroom => {
            let (refusal, headroom) = plain::headroom(clock, slots, rates, i, j);
            (refusal, headroom, [0; 2])
        }
        OnSums::Preview => {
            let (refusal, sums) = plain::preview_book(clock, slots, rates, i, j, amount);
            (refusal, 0, sums)
        }
    }
}

/// Library and plain Rust give the same replies and words for some thousand calls on a book that fills up and from which pairs are taken again.
fn agree_on_book(r: &mut Random, n: u64, fine: u32) {
    let (clock, pairs) = ([n as u32, 40, 0, 4_000, fine], (n * n) as usize);
    let (mut a, mut met): (Book, _) = ((vec![0; pairs], vec![0; pairs]), BTreeSet::new());
    for _ in 0..5_000 {
        let (call, slots) = (r.of(&[OnSums::BySlots, OnSums::ByRate, OnSums::Headroom, OnSums::Preview]), r.within(1, 12));
        let amount = if matches!(call, OnSums::ByRate) { 100 * slots - r.within(0, 99) } else { slots };
        let (request, mut b) = ([r.within(1, n), r.within(1, n), amount], a.clone());
        let (x, y) = (on_book_by_library(call, &clock, &mut a, request), on_book_by_hand(call, &clock, &mut b, request));
        assert!((x, &a) == (y, &b));
        met.insert(x.0);
        if r.one_in(3) {
            let at = r.within(1, pairs as u64) as usize - 1;
            (a.0[at], a.1[at]) = (0, 0);
        }
    }
    let numbers = match (fine, n) {
        (0, 1) => vec![0, 8],
        (0, _) => vec![0, 8, 9],
        _ => vec![0, 15],
    };
    assert!(met.into_iter().eq(numbers));
}

/// Nanoseconds of a call for the pair (1, 1), whose words are set back before each: proved, and plain. Every pair holds the same.
fn calls_on_sums(clock: plain::Clock, call: OnSums, (slots, rate, _): Held) -> Vec<f64> {
    let n = clock[0] as u64;
    let book = (vec![slots; (n * n) as usize], vec![rate; (n * n) as usize]);
    let request = [1, 1, if matches!(call, OnSums::ByRate) { 950 } else { 9 }];
    let (mut a, mut b) = (book.clone(), book);
    let mut by_library = || {
        (a.0[0], a.1[0]) = (slots, rate);
        let reply = on_book_by_library(call, &clock, &mut a, request);
        black_box((reply, a.0[0], a.1[0]))
    };
    let mut by_hand = || {
        (b.0[0], b.1[0]) = (slots, rate);
        let reply = on_book_by_hand(call, &clock, &mut b, request);
        black_box((reply, b.0[0], b.1[0]))
    };
    let booked = slots as u64 + (rate as u64 * 10_000).div_ceil(LINE as u64);
    let expected = match call {
        OnSums::BySlots => ((0, 0, [0; 2]), slots + 9, rate),
        OnSums::ByRate => ((0, 0, [0; 2]), slots, rate + 950),
        OnSums::Headroom => ((0, 10_000 - ((2 * n - 1) * booked) as i64, [0; 2]), slots, rate),
        OnSums::Preview => ((0, 0, [n * booked + 9; 2]), slots, rate),
    };
    assert_eq!((by_library(), by_hand()), (expected, expected));
    nanoseconds(20_000, vec![vec![Box::new(|| _ = by_library()), Box::new(|| _ = by_hand())]])
}

fn main() {
    let folder = std::env::args().nth(1).expect("usage: bench FOLDER");
    let mut r = Random::new(1);
    [1, 2, 4, 8, 32].into_iter().flat_map(|n| KINDS.map(|(fine, _)| (n, fine))).for_each(|(n, fine)| agree_on_book(&mut r, n, fine));
    warm_up();
    ticks().write(&folder, "ticks");
    frames().write(&folder, "frames");
    bookings().write(&folder, "bookings");
}
