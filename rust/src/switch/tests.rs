//! Each method writes and answers what its call does, on both forms; each refusal by its number.

use super::*;
use std::fmt::Debug;

const PORTS: usize = 4;
const FRAME: u64 = 8;
const LINE: u64 = 1_000;

fn direct(book: Book) -> Direct {
    Direct::start(PORTS as u64, FRAME, LINE, book).expect("accepted")
}

fn pipelined(book: Book) -> Pipelined {
    Pipelined::start(PORTS as u64, FRAME, LINE, book).expect("accepted")
}

type Operation<Form> = fn(&mut Switch<Form>) -> Result<(), Refusal>;

/// What switches of both forms are compared and shown by.
trait Any: Clone + Debug + PartialEq {}
impl<T: Clone + Debug + PartialEq> Any for T {}

fn started_as<Form: Any>(s: Switch<Form>, fine: u32) {
    assert_eq!(s.clock, [PORTS as u32, FRAME as u32, 0, LINE as u32, fine]);
    assert_eq!((s.ports(), s.frame(), s.last_slot()), (PORTS as u32, FRAME as u32, 0));
    assert_eq!([&s.slots, &s.rates, &s.credits, &s.queues].map(Vec::len), [PORTS * PORTS; 4]);
    assert_eq!(s.given.len(), PORTS);
}

#[test]
fn start_sets_the_clock() {
    started_as(direct(Book::Plain), 0);
    started_as(direct(Book::Fine), 1);
    started_as(pipelined(Book::Plain), 0);
    started_as(pipelined(Book::Fine), 1);
    let form = pipelined(Book::Plain).form;
    assert_eq!((form.copy.len(), form.flight.len()), (PORTS * PORTS, 2 * PORTS * PORTS));
}

/// Does an operation, which is to set one word of a run to a number and to leave all else.
fn sets<Form: Any>(
    s: &mut Switch<Form>, operation: Operation<Form>, run: fn(&mut Switch<Form>) -> &mut Vec<u32>, at: usize, word: u32,
) {
    let mut expected = s.clone();
    run(&mut expected)[at] = word;
    assert_eq!(operation(s), Ok(()));
    assert_eq!(*s, expected);
}

fn operations_write_one_word<Form: Any>(mut s: Switch<Form>) {
    sets(&mut s, |s| s.book(1, 2, 3), |s| &mut s.slots, 1, 3);
    sets(&mut s, |s| s.book_rate(2, 1, 400), |s| &mut s.rates, PORTS, 400);
    sets(&mut s, |s| s.release(1, 2, 1), |s| &mut s.slots, 1, 2);
    sets(&mut s, |s| s.release_rate(2, 1, 100), |s| &mut s.rates, PORTS, 300);
    sets(&mut s, |s| s.arrive(3, 1, 7), |s| &mut s.queues, 2 * PORTS, 7);
    assert_eq!([s.waiting(3, 1), s.waiting(1, 3), s.waiting(4, 4)], [Some(7), Some(0), Some(0)]);
    assert_eq!([s.waiting(0, 1), s.waiting(1, 0), s.waiting(5, 1), s.waiting(1, 5)], [None; 4]);
}

#[test]
fn operations_write_one_word_of_either_form() {
    operations_write_one_word(direct(Book::Plain));
    operations_write_one_word(pipelined(Book::Fine));
}

/// Input 1 has 3 slots booked, 2 of them for output 2, which has 1 more from input 2, by a rate of 125.
fn booked<Form>(mut s: Switch<Form>) -> Switch<Form> {
    s.book(1, 2, 2).expect("accepted");
    s.book(1, 3, 1).expect("accepted");
    s.book_rate(2, 2, 125).expect("accepted");
    s
}

fn no(refusal: Refusal, row: u64, column: u64) -> Result<Sums, PreviewRefusal> {
    Err(PreviewRefusal { refusal, sums: Some(Sums { row, column }) })
}

fn no_sums(refusal: Refusal) -> Result<Sums, PreviewRefusal> {
    Err(PreviewRefusal { refusal, sums: None })
}

fn previews_tell<Form>(s: &Switch<Form>) {
    assert_eq!([s.headroom(1, 2), s.headroom(2, 1)], [Ok(8 - 4), Ok(8 - 1)]);
    assert_eq!(s.preview_book(1, 4, 1), Ok(Sums { row: 4, column: 1 }));
    assert_eq!(s.preview_book_rate(2, 3, 126), Ok(Sums { row: 3, column: 3 }));
    assert_eq!(s.preview_release(1, 2, 2), Ok(Sums { row: 1, column: 1 }));
    assert_eq!(s.preview_release_rate(2, 2, 125), Ok(Sums { row: 0, column: 2 }));
    assert_eq!(s.preview_release(1, 2, 3), no_sums(Refusal::RELEASE));
    assert_eq!(s.preview_release_rate(2, 2, 126), no_sums(Refusal::RELEASE));
    assert_eq!(s.preview_book_rate(2, 2, LINE + 1), no_sums(Refusal::AMOUNT));
}

#[test]
fn previews_tell_sums_on_either_form() {
    previews_tell(&booked(direct(Book::Plain)));
    previews_tell(&booked(pipelined(Book::Fine)));
}

#[test]
fn previews_without_room_tell_why() {
    let (plain, fine) = (booked(direct(Book::Plain)), booked(direct(Book::Fine)));
    assert_eq!(plain.preview_book(1, 4, 2), no(Refusal::INPUT, 5, 2));
    assert_eq!(plain.preview_book(3, 2, 2), no(Refusal::OUTPUT, 2, 5));
    assert_eq!(plain.preview_book_rate(3, 2, 126), no(Refusal::OUTPUT, 2, 5));
    assert_eq!(fine.preview_book(1, 4, 5), no(Refusal::FINE, 8, 5));
    let said = fine.preview_book(1, 4, 5).expect_err("no room");
    assert_eq!(said.to_string(), format!("{} (slots booked would be 8 on the input, 5 on the output)", Refusal::FINE));
    assert_eq!(plain.preview_book(5, 1, 1).expect_err("no such input").to_string(), Refusal::PAIR.to_string());
    assert_eq!(Refusal::from(said), Refusal::FINE);
}

#[test]
fn starts_are_refused() {
    type Start = fn(u64, u64, u64) -> Option<Refusal>;
    let direct: Start = |ports, frame, line| Direct::start(ports, frame, line, Book::Plain).err();
    let pipelined: Start = |ports, frame, line| Pipelined::start(ports, frame, line, Book::Plain).err();
    for start in [direct, pipelined] {
        assert_eq!([0, 33, u64::MAX].map(|ports| start(ports, 100, 0)), [Some(Refusal::PORTS); 3]);
        assert_eq!([0, 10_001, u64::MAX].map(|frame| start(4, frame, 0)), [Some(Refusal::FRAME); 3]);
        assert_eq!([start(4, 8, 100_000_001), start(32, 10_000, 100_000_000)], [Some(Refusal::AMOUNT), None]);
    }
    assert_eq!([direct(4, 3, 0), pipelined(4, 3, 0), pipelined(4, 4, 0)], [None, Some(Refusal::PIPELINE), None]);
}

/// Operations that are refused with a number, and change nothing.
fn refused<Form: Any>(s: &Switch<Form>, refusal: Refusal, operations: &[Operation<Form>]) {
    for (at, operation) in operations.iter().enumerate() {
        let mut after = s.clone();
        assert_eq!(operation(&mut after), Err(refusal), "operation {at}");
        assert_eq!(after, *s, "operation {at}");
    }
}

fn operations_are_refused<Form: Any>(s: &Switch<Form>) {
    refused(s, Refusal::PAIR, &[|s| s.book(0, 1, 1), |s| s.book_rate(1, 0, 1), |s| s.release(5, 1, 1), |s| s.release_rate(1, 5, 1)]);
    refused(s, Refusal::PAIR, &[|s| s.arrive(5, 1, 1), |s| s.headroom(1, u64::MAX).map(|_| ())]);
    refused(s, Refusal::AMOUNT, &[|s| s.book(1, 1, 0), |s| s.book(1, 1, FRAME + 1), |s| s.book_rate(1, 1, LINE + 1), |s| s.release(1, 2, 0)]);
    refused(s, Refusal::AMOUNT, &[|s| s.release_rate(1, 1, 0), |s| s.arrive(1, 1, 0), |s| s.arrive(1, 1, 65_536)]);
    refused(s, Refusal::RELEASE, &[|s| s.release(1, 2, 3), |s| s.release(2, 2, 1), |s| s.release_rate(2, 2, 126), |s| s.release_rate(1, 2, 1)]);
    let mut full = s.clone();
    (1..=15).for_each(|_| full.arrive(2, 1, 65_535).expect("accepted"));
    refused(&full, Refusal::QUEUE, &[|s| s.arrive(2, 1, 1_000_001 - 15 * 65_535)]);
    assert_eq!(full.arrive(2, 1, 1_000_000 - 15 * 65_535), Ok(()));
}

#[test]
fn operations_are_refused_on_either_form() {
    operations_are_refused(&booked(direct(Book::Plain)));
    operations_are_refused(&booked(pipelined(Book::Fine)));
    let (plain, fine) = (booked(pipelined(Book::Plain)), booked(direct(Book::Fine)));
    refused(&plain, Refusal::INPUT, &[|s| s.book(1, 4, 2), |s| s.book_rate(1, 4, 126)]);
    refused(&plain, Refusal::OUTPUT, &[|s| s.book(3, 2, 2), |s| s.book_rate(3, 2, 126)]);
    refused(&fine, Refusal::FINE, &[|s| s.book(1, 4, 5), |s| s.book_rate(1, 4, 501)]);
}

/// Words of a run that is too short, or has none at all, are answered too.
#[test]
fn short_runs_are_refused() {
    for words in [0, PORTS * PORTS - 1] {
        let mut s = direct(Book::Plain);
        s.slots.truncate(words);
        refused(&s, Refusal::RUNS, &[|s| s.book(1, 1, 1), |s| s.book_rate(1, 1, 1), |s| s.headroom(1, 1).map(|_| ())]);
        refused(&s, Refusal::RUNS, &[|s| s.preview_book(1, 1, 1).map(|_| ()).map_err(Refusal::from), |s| s.tick().map(|_| ())]);
        let mut s = pipelined(Book::Plain);
        s.form.flight.truncate(2 * words);
        refused(&s, Refusal::RUNS, &[|s| s.tick().map(|_| ())]);
    }
}

#[test]
fn the_clock_ends() {
    let (mut one, mut other) = (direct(Book::Plain), pipelined(Book::Plain));
    (one.clock[2], other.clock[2]) = (3_999_999_999, 3_999_999_999);
    assert_eq!((one.tick().map(|pairs| pairs.slot()), other.tick().map(|pairs| pairs.slot())), (Ok(4_000_000_000), Ok(4_000_000_001)));
    refused(&one, Refusal::CLOCK, &[|s| s.tick().map(|_| ())]);
    refused(&other, Refusal::CLOCK, &[|s| s.tick().map(|_| ())]);
}

/// Words that a call only reads may be lent to it twice: it answers what it answers on copies.
#[test]
fn words_that_are_read_may_be_lent_twice() {
    // as a clock 2 ports, frames of 9 slots and a line of 1; as slots and as rates they come to bookings of 20 and 90, 10 and 10
    let words = [2, 9, 1, 1, 0];
    let (slots, rates) = (words, words);
    let (mut twice, mut once) = (0, 0);
    assert_eq!(slices::headroom(&words, &words, &words, 1, 2, &mut twice), 0);
    assert_eq!(slices::headroom(&words.clone(), &slots, &rates, 1, 2, &mut once), 0);
    assert_eq!([twice, once], [9 - (110 + 100 - 90); 2]);
    let tick = |slots: &[u32], rates: &[u32]| {
        let (mut clock, mut outputs, mut first_pass) = ([2, 9, 0, 1, 0], [0; 32], 0);
        let (mut credits, mut queues, mut given) = ([0; 4], [3; 4], [0; 2]);
        let number = slices::tick_direct(&mut clock, slots, rates, &mut credits, &mut queues, &mut given, &mut outputs, &mut first_pass);
        (number, clock, credits, queues, given, outputs, first_pass)
    };
    let expected = (0, [2, 9, 1, 1, 0], [19, 90, 10, 9], [2, 3, 3, 2], [1, 2], [[1, 2].as_slice(), &[0; 30]].concat().try_into().unwrap(), 3);
    assert_eq!([tick(&words, &words), tick(&slots, &rates)], [expected; 2]);
}

/// A pair of input, output, and whether it was booked.
fn pairs_of(pairs: Pairs) -> Vec<(u64, u64, bool)> {
    pairs.iter().map(|pair| (pair.input, pair.output, pair.booked)).collect()
}

#[test]
fn ticks_tell_all_inputs() {
    let mut s = Direct::start(32, 2, 0, Book::Plain).expect("accepted");
    s.book(32, 1, 1).expect("accepted");
    (1..=32).for_each(|input| s.arrive(input, 33 - input, 1).expect("accepted"));
    let expected: Vec<_> = (1..=32).map(|input| (input, 33 - input, input == 32)).collect();
    assert_eq!(s.tick().map(pairs_of), Ok(expected));
    assert_eq!(s.tick().map(pairs_of), Ok(vec![]));
    assert_eq!((s.last_slot(), s.waiting(32, 1)), (2, Some(0)));
}
