//! What the events of a switch come to, counted as they come in: memory does not grow with the slots.

use crate::event::{Event, Operation, Pair};
use crate::switch::Switch;
use second::Form;
use std::collections::VecDeque;

/// Packets of a pair that arrived after the same tick.
struct Batch {
    after: u64,
    packets: u64,
}

/// A switch with the waits of its packets and the bookings that its last frame read.
pub struct Measured {
    pub switch: Switch,
    /// the number of the frame whose bookings were read last; 0 for none
    pub frame_read: u64,
    /// the first pair that was handed out without a packet: the proof excludes it
    pub without_packet: Option<Pair>,
    /// these bookings, and whether a booking has changed since
    reading: Vec<u64>,
    changed: bool,
    /// of each pair the packets not handed out, and the longest wait of those handed out
    queues: Vec<VecDeque<Batch>>,
    longest: Vec<Option<u64>>,
}

/// The longest wait of a pair's packets, in slots, and whether that packet still waits.
#[derive(Clone, Copy, Debug, PartialEq, Eq)]
pub struct Wait {
    pub slots: u64,
    pub goes_on: bool,
}

/// The bookings that a frame read: those of a pair, and of the other pairs of its input or its output.
#[derive(Clone, Copy, Debug, PartialEq, Eq)]
pub struct Reading {
    pub a: u64,
    pub m: u64,
}

impl Reading {
    /// The slot of the frame by which the pair's first booked slot comes, if it waits from the first on; none without a booking.
    pub fn first_by(&self) -> Option<u64> {
        (self.a > 0).then_some(self.m + 1)
    }
}

/// What is told of a pair.
#[derive(Clone, Copy, Debug, PartialEq, Eq)]
pub struct Row {
    pub input: usize,
    pub output: usize,
    pub booked: u64,
    pub arrived: u64,
    pub by_booking: u64,
    pub by_leftover: u64,
    pub waiting: u64,
    /// none where no packet has arrived
    pub worst: Option<Wait>,
    /// none where no frame has been read
    pub reading: Option<Reading>,
}

impl Row {
    /// Nothing is booked, has arrived or was handed out.
    pub fn is_blank(&self) -> bool {
        let read = self.reading.map_or(0, |reading| reading.a);
        self.booked + self.arrived + self.by_booking + self.by_leftover + read == 0
    }
}

impl Switch {
    /// How many slots ahead of its own number a tick hands out: tick k hands out slot k, pipelined slot k + 1.
    pub fn lead(&self) -> u64 {
        (self.form == Form::Pipelined) as u64
    }

    /// The last slot that was handed out; 0 before the first tick.
    pub fn last_handed_out(&self) -> u64 {
        if self.last_slot == 0 { 0 } else { self.last_slot + self.lead() }
    }

    pub fn form_name(&self) -> &'static str {
        match self.form {
            Form::Direct => "direct",
            Form::Pipelined => "pipelined",
        }
    }
}

impl Measured {
    pub fn new(switch: Switch) -> Measured {
        let pairs = switch.booked.len();
        let queues = (0..pairs).map(|_| VecDeque::new()).collect();
        Measured { switch, frame_read: 0, without_packet: None, reading: vec![0; pairs], changed: false, queues, longest: vec![None; pairs] }
    }

    /// Notes an event that is no accepted start.
    pub fn note(&mut self, event: &Event) {
        for pair in event.pairs {
            self.hand_out(pair);
        }
        let before = self.switch.last_slot;
        self.switch.note(event);
        if self.switch.last_slot > before {
            self.read_frame(before);
        }
        let Some(record) = event.record.filter(|_| event.refusal.is_none()) else { return };
        match record.operation {
            Operation::Book | Operation::Release => self.changed = true,
            Operation::Arrive => {
                let [input, output, packets] = record.numbers;
                self.queue(self.switch.at(input as usize, output as usize), packets);
            }
            Operation::Start | Operation::Pipe | Operation::Tick => {}
        }
    }

    fn queue(&mut self, at: usize, packets: u64) {
        let after = self.switch.last_slot;
        match self.queues[at].back_mut() {
            Some(batch) if batch.after == after => batch.packets += packets,
            _ => self.queues[at].push_back(Batch { after, packets }),
        }
    }

    fn hand_out(&mut self, pair: &Pair) {
        let at = self.switch.at(pair.input, pair.output);
        let tick = pair.slot - self.switch.lead();
        let Some(batch) = self.queues[at].front_mut() else {
            self.without_packet.get_or_insert(*pair);
            return;
        };
        self.longest[at] = self.longest[at].max(Some(tick - batch.after));
        batch.packets -= 1;
        if batch.packets == 0 {
            self.queues[at].pop_front();
        }
    }

    /// Reads the bookings if the ticks after `before` read a frame: direct just before its first slot, pipelined 2N ticks sooner.
    fn read_frame(&mut self, before: u64) {
        let ahead = 2 * self.switch.ports as u64 * self.switch.lead();
        let frame = (self.switch.last_slot + ahead - 1) / self.switch.frame + 1;
        let first = (frame - 1) * self.switch.frame + 1;
        if first <= ahead + before {
            return;
        }
        self.frame_read = frame;
        if std::mem::take(&mut self.changed) {
            self.reading.copy_from_slice(&self.switch.booked);
        }
    }

    pub fn frames_begun(&self) -> u64 {
        self.switch.last_handed_out().div_ceil(self.switch.frame)
    }

    /// All pairs, outputs rising within inputs.
    pub fn rows(&self) -> Vec<Row> {
        let ports = self.switch.ports;
        let sum_of_input = |input: usize| (1..=ports).map(|output| self.reading[self.switch.at(input, output)]).sum::<u64>();
        let sum_of_output = |output: usize| (1..=ports).map(|input| self.reading[self.switch.at(input, output)]).sum::<u64>();
        let (of_inputs, of_outputs): (Vec<u64>, Vec<u64>) = (1..=ports).map(|port| (sum_of_input(port), sum_of_output(port))).unzip();
        let row = |at: usize| {
            let (input, output) = (at / ports + 1, at % ports + 1);
            let a = self.reading[at];
            let reading = Reading { a, m: of_inputs[input - 1] + of_outputs[output - 1] - 2 * a };
            Row {
                input,
                output,
                booked: self.switch.booked[at],
                arrived: self.switch.arrived[at],
                by_booking: self.switch.by_booking[at],
                by_leftover: self.switch.by_leftover[at],
                waiting: self.queues[at].iter().map(|batch| batch.packets).sum(),
                worst: self.worst(at),
                reading: (self.frame_read > 0).then_some(reading),
            }
        };
        (0..ports * ports).map(row).collect()
    }

    /// A packet that still waits counts with the ticks so far; as it will wait longer, it is the worst also where it is level.
    fn worst(&self, at: usize) -> Option<Wait> {
        let handed_out = self.longest[at].map(|slots| Wait { slots, goes_on: false });
        let waiting = self.queues[at].front().map(|batch| Wait { slots: self.switch.last_slot - batch.after, goes_on: true });
        match (handed_out, waiting) {
            (Some(one), Some(other)) => Some(if other.slots >= one.slots { other } else { one }),
            (one, other) => one.or(other),
        }
    }
}
