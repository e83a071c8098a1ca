//! What happened at the calls of a test, and how often: a test that compares much and meets little says nothing.

use crate::calls::{Arguments, Call, Lent, Reply};
use crate::turns::{of_tick, reads_book, Turn};
use second::book::{rate_part, within_8, within_9, Book, MOST};
use second::switch::MAX_LINE_RATE;
use second::{Form, Pass, Switch};
use std::collections::{BTreeMap, BTreeSet};

#[derive(Clone, Copy, Debug, PartialEq, Eq, PartialOrd, Ord)]
pub enum Event {
    /// the call gave this number
    Gave(u32),
    /// it changed a rate, and no booking
    NoBookingChanged,
    /// it read a book with rates in it, where the clock has a line rate of this kind
    ReadRates(Line),
    /// it read a booking that is above what a word holds
    ReadAboveWord,
    /// it told a headroom of this kind, of a pair with a booking or of one without
    Told { booked: bool, headroom: Headroom },
    /// it showed sums beside this number, of which these are within the limit of questions 8 and 9
    Showed { number: u32, row_fits: bool, column_fits: bool },
    /// it showed two sums that differ beside this number
    SumsDiffer(u32),
    /// it showed the sums that the book has already, beside 0
    SumsStay,
    /// it showed a sum that is above what a word holds
    SumAboveWord,
    /// it showed sums where the pair's booking would be above what a word holds
    PairAboveWord,
    /// it showed 0 and 0 beside this number, and neither sum of the book is 0
    Hid(u32),
    /// it was refused with 4, and of all runs only the last given outputs were too short
    GivenTooShort,
    /// it was accepted, though the last given outputs were too short for a tick
    GivenNotAsked,
    /// an input had a turn of this kind, by pass one or by pass two
    Chose { by_first: bool, choice: Choice },
    /// it found this kind of book, and was accepted or not
    Found { kind: Kind, accepted: bool },
    /// a start was asked for this kind of book where it found that one, and was accepted or not
    Asked { kind: Kind, found: Kind, accepted: bool },
    /// a booking gave this number on a fine book, and would have given that one on a plain one
    OnFine { number: u32, plain: u32 },
    /// a booking that counts as 0 gave this number on a fine book
    CountsAsNone(u32),
    /// a booking gave 15, and of the pairs that are asked only those in this place do not fit
    OnlyBy(Place),
    /// a booking was accepted on a fine book where a pair in this place does not fit, and is not asked: one without a booking, or elsewhere
    NotAsked(Place),
}

/// The clock's word for the kind of book, or a start's number for it.
#[derive(Clone, Copy, Debug, PartialEq, Eq, PartialOrd, Ord)]
pub enum Kind {
    Zero,
    One,
    AboveOne,
}

pub const KINDS: [Kind; 3] = [Kind::Zero, Kind::One, Kind::AboveOne];

fn kind_of_book(number: u64) -> Kind {
    KINDS[number.min(2) as usize]
}

/// Where a pair stands to the one that is booked.
#[derive(Clone, Copy, Debug, PartialEq, Eq, PartialOrd, Ord)]
pub enum Place {
    Itself,
    OnInput,
    OnOutput,
    Elsewhere,
}

fn place((i, j): (u64, u64), (x, y): (u64, u64)) -> Place {
    match (x == i, y == j) {
        (true, true) => Place::Itself,
        (true, false) => Place::OnInput,
        (false, true) => Place::OnOutput,
        (false, false) => Place::Elsewhere,
    }
}

/// The places of pairs of which inequality (2) does not hold after a booking that counts as d, and whether they have a booking.
fn unfit(s: &Switch, (i, j): (u64, u64), d: u64) -> BTreeSet<(Place, bool)> {
    let (present, n) = (bookings(s), s.n());
    let book = Book::new(n, |x, y| present.pair(x, y) + if (x, y) == (i, j) { d } else { 0 });
    let rows: Vec<_> = (1..=n).map(|x| book.row(x)).collect();
    let columns: Vec<_> = (1..=n).map(|y| book.column(y)).collect();
    let fits = |x: u64, y: u64| rows[x as usize - 1] + columns[y as usize - 1] - book.pair(x, y) <= s.f();
    let unfit = s.pairs().into_iter().filter(|&(x, y)| !fits(x, y));
    unfit.map(|(x, y)| (place((i, j), (x, y)), book.pair(x, y) > 0)).collect()
}

/// What a booking counts as in the book's rule: its slots, or the rise of its pair's booking.
pub fn counts_as(operation: &str, s: &Switch, [i, j, amount, _]: Arguments) -> u64 {
    let (slots, rate) = (s.words.slots[s.at(i, j)] as u64, s.words.rates[s.at(i, j)] as u64);
    let booking = |rate| (slots + rate_part(rate, s.f(), s.clock.line as u64)).min(MOST);
    match operation {
        "book" => amount,
        "book_rate" => booking(rate + amount) - booking(rate),
        _ => panic!("{operation} is not asked by the book's rule"),
    }
}

#[derive(Clone, Copy, Debug, PartialEq, Eq, PartialOrd, Ord)]
pub enum Choice {
    /// the lowest output that it might have taken was not the one taken: the word decided
    NotLowest,
    /// it found an output below N, and took one that is not past it
    Wrapped,
    /// it found N, and took an output
    PastN,
    /// it took the output that it was last given
    Again,
    /// it found a word outside 1 to N, 0 or above N, and took an output
    OutsideReplaced { zero: bool },
    /// it found a word above N, and took none
    OutsideKept,
    /// it found what the pass-one turn of the same tick had left, and took an output
    FromSameTick,
    /// and took another than it would have taken with the word before that
    BySameTick,
}

/// The kinds that a turn is of.
fn choices(turn: &Turn) -> Vec<Choice> {
    let (found, n) = (turn.found, turn.ports);
    let Some(taken) = turn.taken else {
        return if found > n { vec![Choice::OutsideKept] } else { Vec::new() };
    };
    let kinds = [
        (turn.lowest != turn.taken, Choice::NotLowest),
        (taken <= found && found < n, Choice::Wrapped),
        (found == n, Choice::PastN),
        (taken == found, Choice::Again),
        (found == 0 || found > n, Choice::OutsideReplaced { zero: found == 0 }),
        (turn.from_same_tick, Choice::FromSameTick),
        (turn.from_same_tick && turn.by_word_before != turn.taken, Choice::BySameTick),
    ];
    kinds.into_iter().filter(|&(is, _)| is).map(|(_, kind)| kind).collect()
}

#[derive(Clone, Copy, Debug, PartialEq, Eq, PartialOrd, Ord)]
pub enum Headroom {
    /// row and column are 32 times the largest word
    Lowest,
    /// below what 32 bits and a sign hold
    FarBelowZero,
    BelowZero,
    Zero,
    AboveZero,
}

fn kind_of(headroom: i64, frame: u64) -> Headroom {
    match headroom {
        h if h == frame as i64 - 63 * MOST as i64 => Headroom::Lowest,
        h if h < -(1 << 32) => Headroom::FarBelowZero,
        h if h < 0 => Headroom::BelowZero,
        0 => Headroom::Zero,
        _ => Headroom::AboveZero,
    }
}

#[derive(Clone, Copy, Debug, PartialEq, Eq, PartialOrd, Ord)]
pub enum Line {
    Zero,
    InRange,
    Above,
}

fn line_of(s: &Switch) -> Line {
    match s.clock.line as u64 {
        0 => Line::Zero,
        line if line <= MAX_LINE_RATE => Line::InRange,
        _ => Line::Above,
    }
}

fn bookings(s: &Switch) -> Book {
    s.standing_book(s.f())
}

/// Whether a pair's booking would be above what a word holds after an operation that is asked for, if it could be.
fn above_word(call: &Call, s: &Switch, [i, j, amount, _]: Arguments) -> bool {
    let at = s.at(i, j);
    let (slots, rate) = (s.words.slots[at] as u64, s.words.rates[at] as u64);
    let (slots, rate) = match call.previewed() {
        Some("book") => (slots + amount, rate),
        Some("book_rate") => (slots, rate + amount),
        _ => (slots, rate),
    };
    slots + rate_part(rate, s.f(), s.clock.line as u64) > MOST
}

/// The ports of the switch that a call asks about: those that a start is given, or the clock's.
fn ports_asked(call: &Call, [ports, ..]: Arguments, s: &Switch) -> u64 {
    if call.name.starts_with("start") {
        ports
    } else {
        s.n()
    }
}

/// How often each call met each event.
#[derive(Debug, Default)]
pub struct Tally(BTreeMap<(&'static str, Event), u64>);

impl Tally {
    fn add(&mut self, call: &Call, event: Event) {
        *self.0.entry((call.name, event)).or_default() += 1;
    }

    pub fn count(&self, name: &'static str, event: Event) -> u64 {
        self.0.get(&(name, event)).copied().unwrap_or(0)
    }

    /// A call, with its arguments, the switch that it found, the switch that it left, and its reply.
    pub fn note(&mut self, call: &Call, form: Form, arguments: Arguments, found: &Lent, left: &Lent, reply: Reply) {
        self.add(call, Event::Gave(reply.refusal()));
        self.note_kind(call, arguments, found, reply);
        let (before, after) = (&found.switch, &left.switch);
        if before.is_fine() {
            self.note_fine(call, form, arguments, before, reply);
        }
        if call.previewed().is_some() {
            self.note_preview(call, arguments, before, reply);
        }
        if (before.words.given.len() as u64) < ports_asked(call, arguments, before) {
            self.note_short_given(call, form, arguments, before, reply);
        }
        if reply.refusal() != 0 {
            return;
        }
        let [i, j, ..] = arguments;
        if call.name == "headroom" {
            self.add(call, Event::Told { booked: bookings(before).pair(i, j) > 0, headroom: kind_of(reply.headroom, before.f()) });
        }
        if call.form.is_none() && before.words.rates != after.words.rates && bookings(before) == bookings(after) {
            self.add(call, Event::NoBookingChanged);
        }
        if call.name.starts_with("tick") {
            if reads_book(form, before) {
                self.note_reading(call, before);
            }
            let (turns, left) = of_tick(form, before);
            assert_eq!(left, *after, "the turns one by one leave something else");
            self.note_turns(call, &turns);
        }
    }

    fn note_kind(&mut self, call: &Call, arguments: Arguments, found: &Lent, reply: Reply) {
        let (kind, accepted) = (kind_of_book(found.fine as u64), reply.refusal() == 0);
        self.add(call, Event::Found { kind, accepted });
        if call.name.starts_with("start") {
            self.add(call, Event::Asked { kind: kind_of_book(arguments[3]), found: kind, accepted });
        }
    }

    /// A call on a fine book: where it is a booking or the preview of one that comes to the rule, it is tried on a plain book too.
    fn note_fine(&mut self, call: &Call, form: Form, arguments: Arguments, s: &Switch, reply: Reply) {
        let (operation, number, [i, j, ..]) = (call.previewed().unwrap_or(call.name), reply.refusal(), arguments);
        if !operation.starts_with("book") || ![0, 15].contains(&number) {
            return;
        }
        let (mut plain, d) = (s.clone(), counts_as(operation, s, arguments));
        plain.clock.fine = false;
        self.add(call, Event::OnFine { number, plain: (call.by_second)(&mut plain, form, arguments).refusal() });
        if d == 0 {
            self.add(call, Event::CountsAsNone(number));
        }
        let unfit = unfit(s, (i, j), d);
        let asked: Vec<_> = unfit.iter().filter(|&&(place, booked)| booked && place != Place::Elsewhere).map(|&(place, _)| place).collect();
        assert_eq!(number == 15, !asked.is_empty(), "{} {arguments:?} on {s:?}", call.name);
        if let [place] = asked[..] {
            self.add(call, Event::OnlyBy(place));
        }
        if asked.is_empty() {
            let others = unfit.into_iter().filter(|&(place, booked)| booked == (place == Place::Elsewhere));
            others.for_each(|(place, _)| self.add(call, Event::NotAsked(place)));
        }
    }

    /// Each kind of turn once for a tick.
    fn note_turns(&mut self, call: &Call, turns: &[Turn]) {
        let events = |turn| choices(turn).into_iter().map(|choice| Event::Chose { by_first: turn.pass == Pass::One, choice });
        turns.iter().flat_map(events).collect::<BTreeSet<_>>().into_iter().for_each(|event| self.add(call, event));
    }

    /// A call that found too few words of last given outputs; where it is refused, it is tried with enough of them.
    fn note_short_given(&mut self, call: &Call, form: Form, arguments: Arguments, s: &Switch, reply: Reply) {
        if reply.refusal() == 0 {
            self.add(call, Event::GivenNotAsked);
        } else if reply.refusal() == 4 {
            let mut longer = s.clone();
            longer.words.given.resize(ports_asked(call, arguments, s) as usize, 0);
            if (call.by_second)(&mut longer, form, arguments).refusal() != 4 {
                self.add(call, Event::GivenTooShort);
            }
        }
    }

    fn note_preview(&mut self, call: &Call, arguments: Arguments, s: &Switch, reply: Reply) {
        let ([i, j, ..], number, [row, column]) = (arguments, reply.refusal(), reply.sums);
        // under these numbers the pair is one of the switch
        let present = || [bookings(s).row(i), bookings(s).column(j)];
        match number {
            0 | 8 | 9 | 15 => {
                self.add(call, Event::Showed { number, row_fits: within_8(row, s.f()), column_fits: within_9(column, s.f()) });
                let events = [
                    (row != column, Event::SumsDiffer(number)),
                    (number == 0 && [row, column] == present(), Event::SumsStay),
                    (row.max(column) > MOST, Event::SumAboveWord),
                    (above_word(call, s, arguments), Event::PairAboveWord),
                ];
                events.into_iter().filter(|&(met, _)| met).for_each(|(_, event)| self.add(call, event));
            }
            6 | 10 if !present().contains(&0) => self.add(call, Event::Hid(number)),
            _ => (),
        }
    }

    fn note_reading(&mut self, call: &Call, s: &Switch) {
        let (book, words) = (bookings(s), &s.words);
        if s.pairs().into_iter().any(|(i, j)| words.rates[s.at(i, j)] > 0) {
            self.add(call, Event::ReadRates(line_of(s)));
        }
        if s.pairs().into_iter().any(|(i, j)| book.pair(i, j) == MOST && words.slots[s.at(i, j)] < u32::MAX) {
            self.add(call, Event::ReadAboveWord);
        }
    }

    /// Fails where the event was met in less than one of so many calls.
    pub fn at_least_one_in(&self, many: u64, name: &'static str, event: Event) {
        let calls: u64 = (0..=99).map(|number| self.count(name, Event::Gave(number))).sum();
        let count = self.count(name, event);
        assert!(count > 0 && count * many >= calls, "{name}: {event:?} {count} times in {calls} calls");
    }
}
