//! The turns of a tick, one after the other, with the second program's choice at each: what a tally tells of outputs in turn.

use second::turns::{all_free, is_free, looks};
use second::{Form, Pass, Switch};

/// A turn of an input.
pub struct Turn {
    pub input: u64,
    pub pass: Pass,
    /// N
    pub ports: u64,
    /// the word of the output last given, as the turn found it
    pub found: u64,
    /// whether the pass-one turn of the same tick left that word; only a pipelined tick gives an input an output in both
    pub from_same_tick: bool,
    /// what it took
    pub taken: Option<u64>,
    /// the lowest output that it might have taken
    pub lowest: Option<u64>,
    /// what it would have taken with the word that the tick found
    pub by_word_before: Option<u64>,
}

/// A tick under way: the switch as the tick found it and as it is now, and the turns so far.
struct Watch<'a> {
    before: &'a Switch,
    s: Switch,
    turns: Vec<Turn>,
}

/// Whether the next tick reads the book.
pub fn reads_book(form: Form, s: &Switch) -> bool {
    let ahead = if form == Form::Pipelined { 2 * s.n() } else { 0 };
    (s.clock.last as u64 + ahead).is_multiple_of(s.f())
}

/// The turns of a tick that is accepted, and the switch that they leave.
pub fn of_tick(form: Form, before: &Switch) -> (Vec<Turn>, Switch) {
    let mut watch = Watch { before, s: before.clone(), turns: Vec::new() };
    match form {
        Form::Direct => watch.direct(),
        Form::Pipelined => watch.pipelined(),
    }
    watch.s.clock.last += 1;
    (watch.turns, watch.s)
}

/// The bookings, as words.
fn bookings(s: &Switch) -> Vec<u32> {
    let book = s.standing_book(s.f());
    s.pairs().into_iter().map(|(i, j)| book.pair(i, j) as u32).collect()
}

impl Watch<'_> {
    /// The input's turn, with these free outputs.
    fn turn(&mut self, i: u64, free: u32, pass: Pass) -> Option<u64> {
        let (s, at) = (&mut self.s, i as usize - 1);
        let permitted = |j| is_free(free, j) && s.permits(i, j, pass);
        let turn = Turn {
            input: i,
            pass,
            ports: s.n(),
            found: s.words.given[at] as u64,
            from_same_tick: self.turns.last().is_some_and(|last| last.input == i && last.taken.is_some()),
            taken: s.choose(i, free, pass).0,
            lowest: (1..=s.n()).find(|&j| permitted(j)),
            by_word_before: looks(s.n(), self.before.last_given(i), free, permitted).0,
        };
        if let Some(j) = turn.taken {
            s.give(i, j, pass);
        }
        self.turns.push(turn);
        self.turns.last().and_then(|turn| turn.taken)
    }

    fn direct(&mut self) {
        if reads_book(Form::Direct, &self.s) {
            let bookings = bookings(&self.s);
            self.s.words.credits[..bookings.len()].copy_from_slice(&bookings);
        }
        let n = self.s.n();
        let mut free = all_free(n);
        let mut unserved: Vec<u64> = (1..=n).collect();
        for pass in [Pass::One, Pass::Two] {
            unserved.retain(|&i| match self.turn(i, free, pass) {
                Some(j) => {
                    free &= !(1 << (j - 1));
                    false
                }
                None => true,
            });
        }
    }

    /// Where the word of input i for a slot stands in flight.
    fn place(&self, slot: u64, i: u64) -> usize {
        let n = self.s.n();
        (slot % (2 * n) * n + i - 1) as usize
    }

    /// The output of input i in a slot to come.
    fn reserved(&self, slot: u64, i: u64) -> Option<u64> {
        let word = self.s.words.flight[self.place(slot, i)] as u64;
        [word, word.saturating_sub(100)].into_iter().find(|j| (1..=self.s.n()).contains(j))
    }

    fn turn_ahead(&mut self, i: u64, slot: u64, pass: Pass) {
        if self.reserved(slot, i).is_some() {
            return;
        }
        let n = self.s.n();
        let free = (1..=n).filter_map(|x| self.reserved(slot, x)).fold(all_free(n), |free, j| free & !(1 << (j - 1)));
        if let Some(j) = self.turn(i, free, pass) {
            let place = self.place(slot, i);
            self.s.words.flight[place] = j as u32 + if pass == Pass::One { 100 } else { 0 };
        }
    }

    fn pipelined(&mut self) {
        let (n, f, k) = (self.s.n(), self.s.f(), self.s.clock.last as u64 + 1);
        if reads_book(Form::Pipelined, &self.s) {
            let bookings = bookings(&self.s);
            self.s.words.copy[..bookings.len()].copy_from_slice(&bookings);
        }
        for i in 1..=n {
            let (s, t) = (k + 2 * n + 1 - i, k + n + 1 - i);
            if s > 2 * n {
                if (s - 1).is_multiple_of(f) {
                    let (words, row) = (&mut self.s.words, (i - 1) as usize * n as usize..i as usize * n as usize);
                    words.credits[row.clone()].copy_from_slice(&words.copy[row]);
                }
                self.turn_ahead(i, s, Pass::One);
            }
            if t > n {
                self.turn_ahead(i, t, Pass::Two);
            }
        }
        for i in 1..=n {
            let place = self.place(k + 1, i);
            self.s.words.flight[place] = 0;
        }
    }
}
