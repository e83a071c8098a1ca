//! What a caller can know of a switch: what the accepted records said, and what was handed out.

use crate::event::{Event, Operation};
use second::Form;

#[derive(Clone, Debug)]
pub struct Switch {
    pub form: Form,
    /// N and F
    pub ports: usize,
    pub frame: u64,
    /// the line of its start
    pub line: usize,
    /// the last slot run
    pub last_slot: u64,
    /// of pair (i, j), at (i - 1) * N + j - 1: slots booked, packets arrived, handed out by booking and as leftover
    pub booked: Vec<u64>,
    pub arrived: Vec<u64>,
    pub by_booking: Vec<u64>,
    pub by_leftover: Vec<u64>,
}

impl Switch {
    /// The switch that an accepted start begins; none for any other event.
    pub fn begun_by(event: &Event) -> Option<Switch> {
        let record = event.record.filter(|_| event.refusal.is_none())?;
        let form = match record.operation {
            Operation::Start => Form::Direct,
            Operation::Pipe => Form::Pipelined,
            _ => return None,
        };
        let [ports, frame, _] = record.numbers;
        let run = || vec![0; (ports * ports) as usize];
        let (booked, arrived, by_booking, by_leftover) = (run(), run(), run(), run());
        Some(Switch { form, ports: ports as usize, frame, line: event.line, last_slot: 0, booked, arrived, by_booking, by_leftover })
    }

    /// Where the pair stands in each of the runs.
    pub fn at(&self, input: usize, output: usize) -> usize {
        (input - 1) * self.ports + output - 1
    }

    /// Notes an event that is no accepted start: refused records change nothing but what their slots handed out.
    pub fn note(&mut self, event: &Event) {
        self.last_slot = event.last_slot;
        for pair in event.pairs {
            let at = self.at(pair.input, pair.output);
            *(if pair.booked { &mut self.by_booking[at] } else { &mut self.by_leftover[at] }) += 1;
        }
        let Some(record) = event.record.filter(|_| event.refusal.is_none()) else { return };
        let [input, output, amount] = record.numbers;
        let run = match record.operation {
            Operation::Start | Operation::Pipe | Operation::Tick => return,
            Operation::Book | Operation::Release => &mut self.booked,
            Operation::Arrive => &mut self.arrived,
        };
        let word = &mut run[(input as usize - 1) * self.ports + output as usize - 1];
        match record.operation {
            Operation::Release => *word -= amount,
            _ => *word += amount,
        }
    }

    /// The slots booked of an input, and of an output.
    pub fn row(&self, input: usize) -> u64 {
        (1..=self.ports).map(|output| self.booked[self.at(input, output)]).sum()
    }

    pub fn column(&self, output: usize) -> u64 {
        (1..=self.ports).map(|input| self.booked[self.at(input, output)]).sum()
    }
}
