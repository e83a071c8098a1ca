//! Switches that own their words.

use crate::refusal::{PreviewRefusal, Refusal, Sums};
use crate::slices::{self, Clock, Outputs, PORTS_MAX};

/// The kind of a switch's book.
#[derive(Clone, Copy, Debug, PartialEq, Eq)]
pub enum Book {
    /// sells at most half a frame, rounded up, of each input and each output
    Plain = 0,
    /// can sell a whole line to one pair
    Fine = 1,
}

/// What the direct form has beside the words of both forms: nothing.
#[derive(Clone, Debug, PartialEq, Eq)]
pub struct DirectForm(());

/// What the pipelined form has beside the words of both forms: its copy of the book, and the pairs of slots to come.
#[derive(Clone, Debug, PartialEq, Eq)]
pub struct PipelinedForm {
    copy: Vec<u32>,
    flight: Vec<u32>,
}

/// A switch of one form, [`Direct`] or [`Pipelined`], that owns its words. A clone is a second switch, which goes on by itself from the same point.
///
/// Inputs and outputs are numbered from 1. Any numbers may be given; those that are not in range are refused, and then nothing changes.
#[derive(Clone, Debug, PartialEq, Eq)]
pub struct Switch<Form> {
    clock: Clock,
    slots: Vec<u32>,
    rates: Vec<u32>,
    credits: Vec<u32>,
    queues: Vec<u32>,
    given: Vec<u32>,
    form: Form,
}

/// A switch that finds the pairs of each slot in the tick that runs it.
///
/// ```
/// use kivdrag::{Book, Direct};
/// let s: Direct = Direct::start(4, 8, 0, Book::Plain)?;
/// # Ok::<(), kivdrag::Refusal>(())
/// ```
///
/// It is no pipelined switch:
///
/// ```compile_fail
/// use kivdrag::{Book, Direct, Pipelined};
/// let s: Pipelined = Direct::start(4, 8, 0, Book::Plain)?;
/// # Ok::<(), kivdrag::Refusal>(())
/// ```
pub type Direct = Switch<DirectForm>;

/// A switch whose inputs work on slots ahead. Its first slots are idle, as many as it has ports; as many after them serve no bookings yet.
pub type Pipelined = Switch<PipelinedForm>;

/// An input and the output that it is given in a slot.
#[derive(Clone, Copy, Debug, PartialEq, Eq)]
pub struct Pair {
    /// from 1
    pub input: u64,
    /// from 1
    pub output: u64,
    /// whether the slot was booked; else it was left over
    pub booked: bool,
}

/// The pairs of a slot.
#[derive(Clone, Copy, Debug, PartialEq, Eq)]
pub struct Pairs {
    slot: u64,
    outputs: Outputs,
    first_pass: u32,
}

impl Pairs {
    /// The number of the slot, from 1.
    pub fn slot(&self) -> u64 {
        self.slot
    }

    /// The pairs, inputs rising. An input that is given nothing is not among them.
    pub fn iter(&self) -> impl Iterator<Item = Pair> + '_ {
        let pair = |(at, &output): (usize, &u8)| Pair { input: at as u64 + 1, output: output.into(), booked: self.first_pass >> at & 1 == 1 };
        self.outputs.iter().enumerate().map(pair).filter(|pair| pair.output > 0)
    }
}

/// How many ports there are words for: as many as are asked for, and no more than a switch can have.
fn ports_with_words(ports: u64) -> usize {
    ports.min(PORTS_MAX as u64) as usize
}

/// A run of as many words as there are pairs.
fn words_of_pairs(ports: u64) -> Vec<u32> {
    vec![0; ports_with_words(ports).pow(2)]
}

impl<Form> Switch<Form> {
    /// The words of a switch that is not started.
    fn off(ports: u64, form: Form) -> Switch<Form> {
        let pairs = || words_of_pairs(ports);
        let given = vec![0; ports_with_words(ports)];
        Switch { clock: [0; 5], slots: pairs(), rates: pairs(), credits: pairs(), queues: pairs(), given, form }
    }

    /// The number of inputs, and of outputs.
    pub fn ports(&self) -> u32 {
        self.clock[0]
    }

    /// The number of slots in a frame.
    pub fn frame(&self) -> u32 {
        self.clock[1]
    }

    /// The last slot run, 0 before the first.
    pub fn last_slot(&self) -> u32 {
        self.clock[2]
    }

    /// The packets of a pair that no slot has been found for yet; none where the switch has no such pair.
    pub fn waiting(&self, input: u64, output: u64) -> Option<u32> {
        let ports = u64::from(self.ports());
        let is_port = |port: u64| (1..=ports).contains(&port);
        (is_port(input) && is_port(output)).then(|| self.queues[((input - 1) * ports + output - 1) as usize])
    }

    /// Books slots of each frame for a pair, in addition to what it has.
    pub fn book(&mut self, input: u64, output: u64, slots: u64) -> Result<(), Refusal> {
        Refusal::check(slices::book(&self.clock, &mut self.slots, &self.rates, input, output, slots))
    }

    /// Books a rate for a pair, in kbit/s, in addition to what it has.
    pub fn book_rate(&mut self, input: u64, output: u64, rate: u64) -> Result<(), Refusal> {
        Refusal::check(slices::book_rate(&self.clock, &self.slots, &mut self.rates, input, output, rate))
    }

    /// Takes slots off a pair that were booked by slots.
    pub fn release(&mut self, input: u64, output: u64, slots: u64) -> Result<(), Refusal> {
        Refusal::check(slices::release(&self.clock, &mut self.slots, &self.rates, input, output, slots))
    }

    /// Takes a rate off a pair that was booked by rate.
    pub fn release_rate(&mut self, input: u64, output: u64, rate: u64) -> Result<(), Refusal> {
        Refusal::check(slices::release_rate(&self.clock, &self.slots, &mut self.rates, input, output, rate))
    }

    /// How many slots the bookings of a pair's input and output, its own counted once, leave of a frame. Below 0 only for a pair without a booking.
    pub fn headroom(&self, input: u64, output: u64) -> Result<i64, Refusal> {
        let mut headroom = 0;
        let number = slices::headroom(&self.clock, &self.slots, &self.rates, input, output, &mut headroom);
        Refusal::check(number).map(|()| headroom)
    }

    fn preview(&self, call: slices::Preview, input: u64, output: u64, amount: u64) -> Result<Sums, PreviewRefusal> {
        let (mut row, mut column) = (0, 0);
        let number = call(&self.clock, &self.slots, &self.rates, input, output, amount, &mut row, &mut column);
        let sums = Sums { row, column };
        Refusal::check(number).map(|()| sums).map_err(|refusal| PreviewRefusal::new(refusal, sums))
    }

    /// What [`book`](Switch::book) would do: the sums that it would leave, or why it would be refused.
    pub fn preview_book(&self, input: u64, output: u64, slots: u64) -> Result<Sums, PreviewRefusal> {
        self.preview(slices::preview_book, input, output, slots)
    }

    /// What [`book_rate`](Switch::book_rate) would do.
    pub fn preview_book_rate(&self, input: u64, output: u64, rate: u64) -> Result<Sums, PreviewRefusal> {
        self.preview(slices::preview_book_rate, input, output, rate)
    }

    /// What [`release`](Switch::release) would do.
    pub fn preview_release(&self, input: u64, output: u64, slots: u64) -> Result<Sums, PreviewRefusal> {
        self.preview(slices::preview_release, input, output, slots)
    }

    /// What [`release_rate`](Switch::release_rate) would do.
    pub fn preview_release_rate(&self, input: u64, output: u64, rate: u64) -> Result<Sums, PreviewRefusal> {
        self.preview(slices::preview_release_rate, input, output, rate)
    }

    /// Adds packets that have arrived to a pair's queue.
    pub fn arrive(&mut self, input: u64, output: u64, packets: u64) -> Result<(), Refusal> {
        Refusal::check(slices::arrive(&self.clock, &mut self.queues, input, output, packets))
    }
}

impl Direct {
    /// Starts a direct switch: the number of its ports, the slots of a frame, the rate of a line in kbit/s (0 if none is booked), and its kind of book.
    pub fn start(ports: u64, frame: u64, line: u64, book: Book) -> Result<Direct, Refusal> {
        let mut s = Switch::off(ports, DirectForm(()));
        let number = slices::start_direct(
            ports, frame, line, book as u32, &mut s.clock, &mut s.slots, &mut s.rates, &mut s.credits, &mut s.queues, &mut s.given,
        );
        Refusal::check(number).map(|()| s)
    }

    /// Runs the next slot, and gives its pairs.
    pub fn tick(&mut self) -> Result<Pairs, Refusal> {
        let (mut outputs, mut first_pass) = ([0; PORTS_MAX], 0);
        let number = slices::tick_direct(
            &mut self.clock, &self.slots, &self.rates, &mut self.credits, &mut self.queues, &mut self.given, &mut outputs, &mut first_pass,
        );
        Refusal::check(number).map(|()| Pairs { slot: self.last_slot().into(), outputs, first_pass })
    }
}

impl Pipelined {
    /// Starts a pipelined switch as a direct one is started; a frame has at least as many slots as there are ports.
    pub fn start(ports: u64, frame: u64, line: u64, book: Book) -> Result<Pipelined, Refusal> {
        let (copy, flight) = (words_of_pairs(ports), [words_of_pairs(ports), words_of_pairs(ports)].concat());
        let mut s = Switch::off(ports, PipelinedForm { copy, flight });
        let number = slices::start_pipelined(
            ports, frame, line, book as u32, &mut s.clock, &mut s.slots, &mut s.rates, &mut s.credits, &mut s.queues, &mut s.given,
            &mut s.form.copy, &mut s.form.flight,
        );
        Refusal::check(number).map(|()| s)
    }

    /// Runs the next tick, and gives the pairs that it hands out: those of the slot after [`last_slot`](Switch::last_slot), as it is afterwards.
    pub fn tick(&mut self) -> Result<Pairs, Refusal> {
        let (mut outputs, mut first_pass) = ([0; PORTS_MAX], 0);
        let number = slices::tick_pipelined(
            &mut self.clock, &self.slots, &self.rates, &mut self.credits, &mut self.queues, &mut self.given, &mut self.form.copy,
            &mut self.form.flight, &mut outputs, &mut first_pass,
        );
        Refusal::check(number).map(|()| Pairs { slot: u64::from(self.last_slot()) + 1, outputs, first_pass })
    }
}

#[cfg(test)]
mod tests;
