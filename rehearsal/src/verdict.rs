//! The verdict of the ledger on a switch: was the guarantee kept in every frame?

use crate::event::{Event, Operation};
use crate::measure::Measured;
use second::ledger::{Claim, Ledger};
use second::{Answer, Rules};

/// What the ledger takes of a file, all switches that it judges together. It keeps every slot and arrival, looks at each of them for every pair, and
/// makes a claim for every pair and frame.
const MOST_KEPT: u64 = 1_000_000;
const MOST_LOOKS: u64 = 50_000_000;
const MOST_CLAIMS: u64 = 500_000;

/// What was too much for the ledger: what is counted, how many there are, and how many it takes.
#[derive(Clone, Copy, Debug, PartialEq, Eq)]
pub struct TooMuch {
    pub what: &'static str,
    pub found: u64,
    pub most: u64,
}

/// What the ledger has to do.
#[derive(Clone, Copy, Default)]
struct Work {
    kept: u64,
    looks: u64,
    claims: u64,
}

/// Judges the switches of a file one after the other, as long as they are not too much for the ledger.
#[derive(Default)]
pub struct Judge {
    /// the work for all switches judged before this one
    done: Work,
    /// none as long as nothing has happened on the switch, and where it is too much
    ledger: Option<Ledger>,
    /// of this switch
    arrivals: u64,
}

pub enum Verdict {
    NotTaken(TooMuch),
    /// no claims where no slot was run
    Taken(Vec<Claim>),
}

/// The change requests in force.
pub fn rules() -> Rules {
    Rules { upto: include_str!("../../LEVEL").trim().parse().expect("LEVEL is a number") }
}

impl Work {
    fn too_much(&self) -> Option<TooMuch> {
        let counts = [
            ("slots and arrivals", self.kept, MOST_KEPT),
            ("slots and arrivals times pairs", self.looks, MOST_LOOKS),
            ("frames times pairs", self.claims, MOST_CLAIMS),
        ];
        counts.into_iter().map(|(what, found, most)| TooMuch { what, found, most }).find(|count| count.found > count.most)
    }
}

impl Judge {
    /// Notes an event that is no accepted start, after `measured` has noted it.
    pub fn note(&mut self, event: &Event, measured: &Measured) {
        let record = event.record.filter(|_| event.refusal.is_none());
        self.arrivals += record.is_some_and(|record| record.operation == Operation::Arrive) as u64;
        if self.work_with(measured).too_much().is_some() {
            self.ledger = None;
            return;
        }
        let switch = &measured.switch;
        let ledger = self.ledger.get_or_insert_with(|| Ledger::start(rules(), switch.form, switch.ports as u64, switch.frame, 0));
        note_slots(ledger, event, switch.lead());
        let Some(record) = record else { return };
        let [input, output, amount] = record.numbers;
        match record.operation {
            Operation::Book => ledger.book(0, input, output, amount),
            Operation::Release => ledger.release(0, input, output, amount),
            Operation::Arrive => ledger.arrive(0, input, output, amount),
            Operation::Start | Operation::Pipe | Operation::Tick => {}
        }
    }

    /// The work done, and this switch's.
    fn work_with(&self, measured: &Measured) -> Work {
        let kept = measured.switch.last_slot + self.arrivals;
        let pairs = (measured.switch.ports * measured.switch.ports) as u64;
        let Work { kept: done, looks, claims } = self.done;
        Work { kept: done + kept, looks: looks + pairs * kept, claims: claims + pairs * measured.frames_begun() }
    }

    /// Ends the switch. Work that is not done is not counted: a small switch after one that is too much is judged.
    pub fn verdict(&mut self, measured: &Measured) -> Verdict {
        let work = self.work_with(measured);
        self.arrivals = 0;
        let ledger = self.ledger.take();
        if measured.switch.last_slot == 0 {
            return Verdict::Taken(Vec::new());
        }
        match work.too_much() {
            Some(too_much) => Verdict::NotTaken(too_much),
            None => {
                self.done = work;
                Verdict::Taken(ledger.map_or(Vec::new(), |ledger| ledger.claims()))
            }
        }
    }
}

/// Tells the ledger the slots that the event ran, those without pairs too.
fn note_slots(ledger: &mut Ledger, event: &Event, lead: u64) {
    let mut pairs = event.pairs.iter().peekable();
    for tick in ledger.ticks() as u64 + 1..=event.last_slot {
        let mut answer = Answer::nobody();
        while let Some(pair) = pairs.next_if(|pair| pair.slot == tick + lead) {
            answer.note(pair.input as u64, pair.output as u64, if pair.booked { second::Pass::One } else { second::Pass::Two });
        }
        ledger.tick(answer);
    }
}

/// The claim holds, and so it does in each of the frame's slots, as far as the ledger tells: the n-th booked slot of a pair that waits from the
/// frame's first slot on comes by slot m + n.
pub fn holds(claim: &Claim) -> bool {
    claim.holds() && claim.spread_holds()
}
