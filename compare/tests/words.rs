//! The proved library beside the second program: after every call the result, the clock and every lent word are compared, refused calls too.
//! KIVDRAG_SEED, KIVDRAG_CALLS and KIVDRAG_LISTS set another seed and other counts.

use compare::calls::{any_kind, Arguments, Call, Lent, Reply, CALLS, MOST_LISTED};
use compare::tally::{counts_as, Choice, Event, Headroom, Line, Place, Tally, KINDS};
use compare::{any_given, rules, setting, Random};
use second::ledger::Ledger;
use second::switch::{used, EVERY_RUN};
use second::{Clock, Form, Run, Switch, Words};

const FORMS: [Form; 2] = [Form::Direct, Form::Pipelined];

/// A call by its weight, of those that a switch of the form has.
fn drawn(r: &mut Random, form: Form, weight: fn(&Call) -> u64) -> &'static Call {
    let choices = || CALLS.iter().filter(|call| call.form.is_none_or(|of| of == form));
    let mut at = r.within(1, choices().map(weight).sum());
    choices()
        .find(|call| {
            let found = at <= weight(call);
            at = at.saturating_sub(weight(call));
            found
        })
        .expect("at is at most the sum")
}

/// The call of this name.
fn named(name: &str) -> &'static Call {
    CALLS.iter().find(|call| call.name == name).expect("a call of this name")
}

/// The clock's word for the kind of book after a call: an accepted start sets it to 0 or 1, and all else leaves it, whatever it is.
fn kind_after(call: &Call, [.., fine]: Arguments, reply: &Reply, before: u32) -> u32 {
    if call.name.starts_with("start") && reply.refusal() == 0 {
        (fine != 0) as u32
    } else {
        before
    }
}

/// One call on both; they must agree on all of it.
fn both(call: &Call, form: Form, arguments: Arguments, s: &mut Lent, tally: &mut Tally) -> Reply {
    let (before, mut other) = (s.clone(), s.switch.clone());
    let reply = (call.by_library)(s, form, arguments);
    let expected = (call.by_second)(&mut other, form, arguments);
    let said = || format!("{} {form:?} {arguments:?} on {before:?}", call.name);
    assert_eq!(reply, expected, "{}", said());
    assert_eq!(s.switch, other, "{}", said());
    assert_eq!(s.fine, kind_after(call, arguments, &reply, before.fine), "the kind of book: {}", said());
    let past_ports = s.switch.n() as usize..;
    assert_eq!(s.switch.words.given.get(past_ports.clone()), before.switch.words.given.get(past_ports), "words past N stay: {}", said());
    if reply.refusal() != 0 {
        let shows_sums = call.previewed().is_some() && [8, 9, 15].contains(&reply.refusal());
        let refused = Reply { sums: if shows_sums { reply.sums } else { [0; 2] }, ..Reply::refused(reply.refusal()) };
        assert_eq!((&*s, reply), (&before, refused), "refused: {}", said());
    }
    if call.previewed().is_some() {
        assert_eq!(*s, before, "a preview changes nothing: {}", said());
    }
    tally.note(call, form, arguments, &before, s, reply);
    reply
}

/// The sums of a pair's row and column, as the second program has the book.
fn sums(s: &Switch, i: u64, j: u64) -> [u64; 2] {
    let book = s.standing_book(s.f());
    [book.row(i), book.column(j)]
}

/// A preview, and its operation on a copy: the number is the same, and the sums shown are those of the copy where it is accepted, and the present
/// ones with what it counts as where 8, 9 or 15 refuses it.
fn preview_holds(call: &Call, form: Form, arguments: Arguments, s: &mut Lent, tally: &mut Tally) {
    let shown = both(call, form, arguments, s, tally);
    let (operation, mut copy, [i, j, ..]) = (call.previewed().expect("a preview"), s.clone(), arguments);
    let done = both(named(operation), form, arguments, &mut copy, &mut Tally::default());
    let expected = match done.refusal() {
        0 => sums(&copy.switch, i, j),
        8 | 9 | 15 => sums(&s.switch, i, j).map(|sum| sum + counts_as(operation, &s.switch, arguments)),
        _ => [0; 2],
    };
    assert_eq!((shown.refusal(), shown.sums), (done.refusal(), expected), "{} {form:?} {arguments:?} on {s:?}", call.name);
}

/// Words of every kind: none, few, many, and those around what a word in flight may hold.
fn any_run(r: &mut Random, n: u64, length: usize) -> Vec<u32> {
    let kind = r.within(0, 4);
    let word = |r: &mut Random| match kind {
        0 => r.of(&[0, 0, 0, 1, 2]),
        1 => r.within(0, 6) as u32,
        2 => r.of(&[0, 1, n as u32, n as u32 + 1, 99, 100, 101, 100 + n as u32, 101 + n as u32, u32::MAX]),
        3 => r.of(&[0, 1, 999_999, 1_000_000, 1_000_001, 5_000, 5_001, u32::MAX]),
        _ => r.next() as u32,
    };
    (0..length).map(|_| word(r)).collect()
}

/// The words of a run that a switch of either form uses.
fn most_used(n: u64, run: Run) -> usize {
    FORMS.into_iter().filter_map(|form| used(rules(), form, true, n, run)).max().unwrap_or(0)
}

/// A clock of any contents, also where the level in force does not look. Its book is plain: `Lent` sets the kind of book.
fn any_clock(r: &mut Random) -> Clock {
    Clock {
        ports: if r.one_in(10) { r.of(&[0, 33, u32::MAX]) } else { r.of(&[1, 2, 3, 4, 5, 8, 16, 31, 32]) },
        frame: if r.one_in(10) { r.of(&[0, 10_001, u32::MAX]) } else { r.of(&[1, 2, 3, 4, 5, 7, 32, 33, 100, 10_000]) },
        last: match r.within(0, 5) {
            0 => r.of(&[3_999_999_999, 4_000_000_000, 4_000_000_001, u32::MAX, 3_999_999_936]),
            1 => r.next() as u32,
            _ => r.within(0, 200) as u32,
        },
        line: if r.one_in(3) { r.of(&[0, 100_000_001, u32::MAX]) } else { r.of(&[1, 7, 1_000, 1_000, 99_999_999, 100_000_000]) },
        fine: false,
        islip: r.one_in(2),
        since: if r.one_in(3) { r.next() as u32 } else { r.within(0, 200) as u32 },
        before: if r.one_in(3) { r.next() as u32 } else { r.within(0, 20) as u32 },
        waiting: r.of(&[0, 0, 1, 3, 7, 9_999, 10_000, 10_001, u32::MAX]),
    }
}

/// A run of a book that may be near the limits of its rows and columns: in slots, and in rates, many of which end just below, at or above a slot.
fn near_limits(r: &mut Random, clock: &Clock, run: Run, length: usize) -> Vec<u32> {
    let (n, f, line) = (clock.ports.clamp(1, 32) as u64, clock.frame.max(1) as u64, clock.line as u64);
    let edge = |r: &mut Random| (line * r.within(1, f / 4 + 1) / f + r.within(0, 2)).saturating_sub(1);
    let word = |r: &mut Random| match run {
        _ if !r.one_in(n) => 0,
        Run::Slots => r.within(1, f / 4 + 1),
        _ if r.one_in(2) => edge(r),
        _ => r.within(0, line / 4),
    };
    (0..length).map(|_| word(r).min(u32::MAX as u64) as u32).collect()
}

/// A clock and words that nobody has to have come by through calls.
fn any_switch(r: &mut Random) -> Lent {
    let mut s = Switch { rules: rules(), clock: any_clock(r), words: Words::default() };
    let n = s.n().min(40);
    let kind = r.within(1, 20);
    for run in EVERY_RUN {
        let words = most_used(n, run);
        let short = words.saturating_sub(1);
        let length = if r.one_in(40) { r.of(&[short, short, short / 2, 0]) } else { words + r.of(&[0, 0, 1, 5]) };
        *s.words.run_mut(run) = match (run, kind) {
            (Run::Slots | Run::Rates, 1..=12) => near_limits(r, &s.clock, run, length),
            (Run::Slots | Run::Rates, 13) => vec![u32::MAX; length],
            (Run::Given, _) => any_given(r, n, length),
            _ => any_run(r, n, length),
        };
    }
    Lent::new(s, any_kind(r) as u32)
}

#[test]
fn any_words_and_any_clock() {
    let mut r = Random::new(setting("KIVDRAG_SEED", 1));
    let calls = setting("KIVDRAG_CALLS", 3_000_000);
    let mut s = any_switch(&mut r);
    let mut tally = Tally::default();
    for at in 0..calls {
        if at % 12 == 0 {
            s = any_switch(&mut r);
        }
        let form = r.of(&FORMS);
        let call = drawn(&mut r, form, |call| call.weights[0]);
        let arguments = (call.any)(&mut r, &s.switch);
        if call.previewed().is_some() {
            preview_holds(call, form, arguments, &mut s, &mut tally);
        } else {
            both(call, form, arguments, &mut s, &mut tally);
        }
    }
    println!("{calls} calls; how often each met what: {tally:?}");
    for (call, number) in CALLS.iter().flat_map(|call| (1..=99).map(move |number| (call, number))) {
        let gave = tally.count(call.name, Event::Gave(number));
        assert!(gave == 0 || call.questions.contains(&number), "{} gave {number}", call.name);
    }
    if calls >= 100_000 {
        enough_is_met(&tally);
    }
}

fn told(booked: bool, headroom: Headroom) -> Event {
    Event::Told { booked, headroom }
}

/// Every call gave every number that it has, and often; rates changed without their bookings, and were read with line rates of every kind;
/// headrooms were of every kind, the lowest of all too; previews showed and hid sums of every kind; outputs were taken in turn from words of
/// every kind, and too few of these words mattered to starts and ticks, and to no other call; and every call met books of both kinds, a fine one
/// by words above 1 too, and was accepted and refused there.
fn enough_is_met(tally: &Tally) {
    for call in &CALLS {
        [0].iter().chain(call.questions).for_each(|&number| tally.at_least_one_in(100, call.name, Event::Gave(number)));
    }
    for name in ["book_rate", "release_rate"] {
        tally.at_least_one_in(100, name, Event::NoBookingChanged);
    }
    for name in ["tick_direct", "tick_pipelined"] {
        for line in [Line::Zero, Line::InRange, Line::Above] {
            tally.at_least_one_in(1_000, name, Event::ReadRates(line));
        }
        tally.at_least_one_in(3_000, name, Event::ReadAboveWord);
    }
    for booked in [true, false] {
        for headroom in [Headroom::FarBelowZero, Headroom::BelowZero, Headroom::Zero, Headroom::AboveZero] {
            tally.at_least_one_in(2_000, "headroom", told(booked, headroom));
        }
    }
    tally.at_least_one_in(3_000, "headroom", told(true, Headroom::Lowest));
    previews_are_met(tally);
    fine_books_are_met(tally);
    kinds_of_book_are_met(tally);
    turns_are_met(tally, 100);
    outside_words_are_met(tally);
    for call in &CALLS {
        let event = if call.form.is_some() { Event::GivenTooShort } else { Event::GivenNotAsked };
        tally.at_least_one_in(1_000, call.name, event);
        let other = if call.form.is_some() { Event::GivenNotAsked } else { Event::GivenTooShort };
        assert_eq!(tally.count(call.name, other), 0, "{}: {other:?}", call.name);
    }
    for name in ["book_rate", "preview_book_rate"] {
        tally.at_least_one_in(100, name, Event::CountsAsNone(15));
    }
    for name in BOOKINGS {
        tally.at_least_one_in(500, name, Event::NotAsked(Place::Elsewhere));
    }
    for name in PREVIEWS {
        tally.at_least_one_in(100, name, Event::SumAboveWord);
        tally.at_least_one_in(300, name, Event::PairAboveWord);
        tally.at_least_one_in(100, name, Event::Hid(6));
    }
    for name in ["preview_release", "preview_release_rate"] {
        tally.at_least_one_in(100, name, showed(0, false, false));
    }
}

const TICKS: [&str; 2] = ["tick_direct", "tick_pipelined"];

fn chose(by_first: bool, choice: Choice) -> Event {
    Event::Chose { by_first, choice }
}

/// In both passes the word decided, a search wrapped, one began past N, and one came round to the output last given; in the pipelined form a
/// pass-two turn went on from what the pass-one turn of the same tick had left, which decided.
fn turns_are_met(tally: &Tally, many: u64) {
    for (name, by_first) in TICKS.into_iter().flat_map(|name| [(name, true), (name, false)]) {
        for choice in [Choice::NotLowest, Choice::Wrapped, Choice::PastN, Choice::Again, Choice::OutsideReplaced { zero: true }] {
            tally.at_least_one_in(many, name, chose(by_first, choice));
        }
    }
    for choice in [Choice::FromSameTick, Choice::BySameTick] {
        tally.at_least_one_in(many, "tick_pipelined", chose(false, choice));
        let elsewhere = [("tick_direct", true), ("tick_direct", false), ("tick_pipelined", true)];
        assert!(elsewhere.into_iter().all(|(name, by_first)| tally.count(name, chose(by_first, choice)) == 0));
    }
}

/// In both passes words above N were found, by turns that replaced them and by turns that left them.
fn outside_words_are_met(tally: &Tally) {
    for (name, by_first) in TICKS.into_iter().flat_map(|name| [(name, true), (name, false)]) {
        for choice in [Choice::OutsideReplaced { zero: false }, Choice::OutsideKept] {
            tally.at_least_one_in(500, name, chose(by_first, choice));
        }
    }
}

const PREVIEWS: [&str; 4] = ["preview_book", "preview_book_rate", "preview_release", "preview_release_rate"];

fn showed(number: u32, row_fits: bool, column_fits: bool) -> Event {
    Event::Showed { number, row_fits, column_fits }
}

/// Previews showed sums beside 0, beside 9, and beside 8 with a column within the limit and with one above it, and not always twice the same sum;
/// some of rates showed the sums that the book had; and beside 10 sums that are not 0 were hidden.
fn previews_are_met(tally: &Tally) {
    for name in PREVIEWS {
        tally.at_least_one_in(100, name, showed(0, true, true));
        tally.at_least_one_in(100, name, Event::SumsDiffer(0));
    }
    for name in ["preview_book", "preview_book_rate"] {
        for event in [showed(8, false, true), showed(8, false, false), showed(9, true, false), Event::SumsDiffer(8), Event::SumsDiffer(9)] {
            tally.at_least_one_in(100, name, event);
        }
    }
    for name in ["preview_release", "preview_release_rate"] {
        tally.at_least_one_in(100, name, Event::Hid(10));
    }
    for name in ["preview_book_rate", "preview_release_rate"] {
        tally.at_least_one_in(100, name, Event::SumsStay);
    }
}

const BOOKINGS: [&str; 4] = ["book", "book_rate", "preview_book", "preview_book_rate"];

/// On fine books bookings and their previews gave 0 and 15 where a plain book would have given 0, 8 and 9; gave 15 by the pair itself, by one on
/// its input and by one on its output alone; and were accepted beside pairs on both that do not fit and have no booking. Rates that count as 0 were
/// accepted, and sums that differ were shown beside 15.
fn fine_books_are_met(tally: &Tally) {
    for name in BOOKINGS {
        for (number, plain) in [0, 15].into_iter().flat_map(|number| [0, 8, 9].map(|plain| (number, plain))) {
            tally.at_least_one_in(1_000, name, Event::OnFine { number, plain });
        }
        [0, 15].into_iter().for_each(|number| tally.at_least_one_in(50, name, Event::Gave(number)));
        places_are_met(tally, 500, name);
    }
    for name in ["preview_book", "preview_book_rate"] {
        tally.at_least_one_in(50, name, Event::SumsDiffer(15));
    }
    for name in ["book_rate", "preview_book_rate"] {
        tally.at_least_one_in(200, name, Event::CountsAsNone(0));
    }
}

/// 15 was given by pairs in each place that is asked, alone; and 0 beside pairs on input and output that are not asked, as they have no booking.
fn places_are_met(tally: &Tally, many: u64, name: &'static str) {
    for place in [Place::Itself, Place::OnInput, Place::OnOutput] {
        tally.at_least_one_in(many, name, Event::OnlyBy(place));
    }
    for place in [Place::OnInput, Place::OnOutput] {
        tally.at_least_one_in(many, name, Event::NotAsked(place));
    }
}

/// Every call met every kind of book, and was accepted and refused there; and starts were asked for every kind where they found every kind.
fn kinds_of_book_are_met(tally: &Tally) {
    let kinds = KINDS.into_iter().flat_map(|kind| [(kind, true), (kind, false)]);
    for (call, (kind, accepted)) in CALLS.iter().flat_map(|call| kinds.clone().map(move |kind| (call, kind))) {
        tally.at_least_one_in(100, call.name, Event::Found { kind, accepted });
        if call.name.starts_with("start") {
            KINDS.into_iter().for_each(|found| tally.at_least_one_in(200, call.name, Event::Asked { kind, found, accepted }));
        }
    }
}

/// A switch before its first slot, with nothing booked.
fn small(ports: u32, frame: u32, line: u32) -> Switch {
    let mut s = Switch::off(rules());
    for run in EVERY_RUN {
        s.words.run_mut(run).truncate(most_used(ports as u64, run) + 1);
    }
    (s.clock.ports, s.clock.frame, s.clock.line) = (ports, frame, line);
    s
}

/// A switch of one pair, with a plain book and with a fine one.
fn one_pair(frame: u32, line: u32, slots: u32, rate: u32) -> [Lent; 2] {
    let mut s = small(1, frame, line);
    (s.words.slots[0], s.words.rates[0]) = (slots, rate);
    [0, 7].map(|fine| Lent::new(s.clone(), fine))
}

/// Every call on the book and its preview with every amount that is in range and one on either side, the headrooms, and both readings of the
/// book.
fn every_amount(s: &Lent, tally: &mut Tally) {
    let Clock { frame, line, .. } = s.switch.clock;
    for (name, most) in [("book", frame), ("release", frame), ("book_rate", line), ("release_rate", line)] {
        let (call, preview) = (named(name), named(&format!("preview_{name}")));
        for amount in 0..=most as u64 + 1 {
            preview_holds(preview, Form::Direct, [1, 1, amount, 0], &mut s.clone(), tally);
            both(call, Form::Direct, [1, 1, amount, 0], &mut s.clone(), tally);
        }
    }
    for pair in [[1, 1, 0, 0], [0, 1, 0, 0], [1, 2, 0, 0]] {
        both(named("headroom"), Form::Direct, pair, &mut s.clone(), tally);
    }
    for form in FORMS {
        let tick = CALLS.iter().find(|call| call.form == Some(form) && call.name.starts_with("tick")).expect("the form's tick");
        both(tick, form, [0; 4], &mut s.clone(), tally);
    }
}

/// Every small book of one pair: all ways in which a rate is rounded.
#[test]
fn every_small_book() {
    let mut tally = Tally::default();
    for (frame, line) in [1, 2, 3, 5, 8, 13].into_iter().flat_map(|frame| (0..=16).map(move |line| (frame, line))) {
        for (slots, rate) in (0..=3).flat_map(|slots| (0..=line + 1).map(move |rate| (slots, rate))) {
            one_pair(frame, line, slots, rate).iter().for_each(|s| every_amount(s, &mut tally));
        }
    }
    println!("small books; how often each call met what: {tally:?}");
    let booking = [0, 6, 8, 15];
    for (name, numbers) in [("book", &booking[..]), ("book_rate", &booking), ("release", &[0, 6, 10]), ("release_rate", &[0, 6, 10])] {
        numbers.iter().for_each(|&number| tally.at_least_one_in(50, name, Event::Gave(number)));
        let preview = named(&format!("preview_{name}")).name;
        numbers.iter().for_each(|&number| tally.at_least_one_in(50, preview, Event::Gave(number)));
    }
    for name in ["book_rate", "release_rate"] {
        tally.at_least_one_in(50, name, Event::NoBookingChanged);
    }
    for name in ["preview_book_rate", "preview_release_rate"] {
        tally.at_least_one_in(50, name, Event::SumsStay);
    }
    for headroom in [Headroom::BelowZero, Headroom::Zero, Headroom::AboveZero] {
        tally.at_least_one_in(50, "headroom", told(true, headroom));
    }
}

/// Every book of two ports in which each pair holds up to half a frame, or more than a frame; plain and fine, with every booking for each pair: by
/// slots, and by a rate of as many.
#[test]
fn every_book_of_two_ports() {
    let mut tally = Tally::default();
    for (frame, book) in (1..=6).flat_map(|frame: u32| (0..(frame / 2 + 2).pow(4)).map(move |book| (frame, book))) {
        let (mut s, words) = (small(2, frame, 10 * frame), frame / 2 + 2);
        for (pair, word) in s.words.slots[..4].iter_mut().enumerate() {
            let held = book / words.pow(pair as u32) % words;
            *word = if held > frame / 2 { frame + 1 } else { held };
        }
        for mut lent in [0, 1].map(|fine| Lent::new(s.clone(), fine)) {
            for ((i, j), d) in s.pairs().into_iter().flat_map(|pair| (1..=frame as u64).map(move |d| (pair, d))) {
                preview_holds(named("preview_book"), Form::Direct, [i, j, d, 0], &mut lent, &mut tally);
                preview_holds(named("preview_book_rate"), Form::Direct, [i, j, 10 * d, 0], &mut lent, &mut tally);
            }
        }
    }
    println!("books of two ports; how often each call met what: {tally:?}");
    for name in ["preview_book", "preview_book_rate"] {
        [0, 8, 9, 15].into_iter().for_each(|number| tally.at_least_one_in(100, name, Event::Gave(number)));
        places_are_met(&tally, 300, name);
        tally.at_least_one_in(300, name, Event::NotAsked(Place::Elsewhere));
    }
}

/// A booking in a list that a plain book has accepted: a fine book with the same bookings accepts it too. Tells whether it was one.
fn fine_accepts_too(call: &Call, form: Form, arguments: Arguments, found: &Lent, reply: &Reply) -> bool {
    let accepted = call.name.starts_with("book") && found.fine == 0 && reply.refusal() == 0;
    if accepted {
        let mut fine = Lent::new(found.switch.clone(), 1);
        assert_eq!(both(call, form, arguments, &mut fine, &mut Tally::default()).refusal(), 0, "{} {arguments:?} on {fine:?}", call.name);
    }
    accepted
}

/// A headroom in a list of calls, which is at least 0 where the ledger has a booking of the pair; tells whether it has.
fn headroom_in_list(form: Form, arguments: Arguments, s: &mut Lent, ledgers: &[Ledger], tally: &mut Tally) -> bool {
    let reply = both(named("headroom"), form, arguments, s, tally);
    let ([i, j, ..], ledger) = (arguments, ledgers.last().expect("a list opens with an accepted start"));
    let booked = reply.refusal() == 0 && ledger.booked(s.switch.at(i, j), 0, s.switch.f() as usize) > 0;
    assert!(!booked || reply.headroom >= 0, "({i}, {j}) is booked, with a headroom of {}, on {s:?}", reply.headroom);
    booked
}

#[test]
fn long_lists_keep_demand_3_headroom_and_previews() {
    let mut r = Random::new(setting("KIVDRAG_SEED", 1) ^ 0x5EED);
    let lists = setting("KIVDRAG_LISTS", 400);
    let mut tally = Tally::default();
    let (mut claims, mut binding, mut booked, mut too) = (0usize, 0usize, 0u64, 0u64);
    for _ in 0..lists {
        let form = r.of(&FORMS);
        let mut s = any_switch(&mut r);
        for run in EVERY_RUN {
            s.switch.words.run_mut(run).resize(most_used(MOST_LISTED, run) + 3, 7);
        }
        let films = r.one_in(2);
        let mut ledgers = Vec::new();
        let mut call = CALLS.iter().find(|call| call.form == Some(form)).expect("the form's start");
        for _ in 0..=r.within(20, 400) {
            let arguments = (call.listed)(&mut r, &s.switch, films);
            if call.name == "headroom" {
                booked += headroom_in_list(form, arguments, &mut s, &ledgers, &mut tally) as u64;
            } else if call.previewed().is_some() {
                preview_holds(call, form, arguments, &mut s, &mut tally);
            } else {
                let found = s.clone();
                let reply = both(call, form, arguments, &mut s, &mut tally);
                too += fine_accepts_too(call, form, arguments, &found, &reply) as u64;
                (call.noted)(&mut ledgers, form, reply.answer, arguments);
            }
            call = drawn(&mut r, form, |call| call.weights[1]);
        }
        for (i, j) in s.switch.pairs() {
            booked += headroom_in_list(form, [i, j, 0, 0], &mut s, &ledgers, &mut tally) as u64;
        }
        for claim in ledgers.iter().flat_map(|ledger| ledger.claims()) {
            assert!(claim.holds(), "{claim:?} {form:?}");
            claims += 1;
            binding += claim.binds() as usize;
        }
    }
    println!("{lists} lists, {claims} claims, {binding} bind, {booked} headrooms of booked pairs, {too} bookings of plain books that fine ones take");
    println!("how often each call met what: {tally:?}");
    assert!(binding * 100 > claims, "few claims say anything: {binding} of {claims}");
    assert!(too > lists, "few bookings of a plain book: {too} in {lists} lists");
    assert_eq!(booked, tally.count("headroom", told(true, Headroom::Zero)) + tally.count("headroom", told(true, Headroom::AboveZero)));
    if lists >= 100 {
        rates_are_met(&tally);
        headrooms_are_met(&tally);
        previews_are_met(&tally);
        fine_books_are_met(&tally);
        turns_are_met(&tally, 400);
    }
}

/// Headrooms of both signs and of zero, as far as a list can lead to them, and the refusal of a pair.
fn headrooms_are_met(tally: &Tally) {
    [0, 5].into_iter().for_each(|number| tally.at_least_one_in(100, "headroom", Event::Gave(number)));
    for headroom in [Headroom::Zero, Headroom::AboveZero] {
        tally.at_least_one_in(400, "headroom", told(true, headroom));
    }
    for headroom in [Headroom::BelowZero, Headroom::Zero, Headroom::AboveZero] {
        tally.at_least_one_in(400, "headroom", told(false, headroom));
    }
}

/// Rates were booked, released and read, and refused with every number that a list can lead to.
fn rates_are_met(tally: &Tally) {
    for (name, numbers) in [("book_rate", &[0, 6][..]), ("release_rate", &[0, 6, 10])] {
        numbers.iter().for_each(|&number| tally.at_least_one_in(50, name, Event::Gave(number)));
        tally.at_least_one_in(20, name, Event::NoBookingChanged);
    }
    [8, 9, 15].iter().for_each(|&number| tally.at_least_one_in(100, "book_rate", Event::Gave(number)));
    for name in ["tick_direct", "tick_pipelined"] {
        tally.at_least_one_in(50, name, Event::ReadRates(Line::InRange));
    }
}
