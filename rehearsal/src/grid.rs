//! The part of a rehearsal that a chart shows: for each of its slots and inputs the output, and the bands that the slots are wrapped into.

use crate::event::{Event, Pair};
use crate::figures::counted;
use crate::switch::Switch;

/// What an input was given in a slot.
#[derive(Clone, Copy, Debug, PartialEq, Eq)]
pub enum Cell {
    Idle,
    Booked(usize),
    Leftover(usize),
}

/// Which slots of which switch are wanted; no switch is the last one.
#[derive(Clone, Copy, Debug)]
pub struct Wanted {
    pub from: u64,
    pub slots: u64,
    pub switch: Option<u64>,
}

/// The longest name of a file in a title, in letters.
pub const LONGEST_NAME: usize = 40;

/// Keeps the wanted pairs as the events come in, of one switch at a time.
pub struct Collector {
    wanted: Wanted,
    /// accepted starts so far
    pub switches: u64,
    kept: Option<(u64, Switch, Vec<Pair>)>,
}

/// Slots `first` to `last` of a switch.
pub struct Grid {
    pub number: u64,
    pub switch: Switch,
    pub first: u64,
    pub last: u64,
    cells: Vec<Cell>,
}

impl Collector {
    pub fn new(wanted: Wanted) -> Collector {
        Collector { wanted, switches: 0, kept: None }
    }

    pub fn note(&mut self, event: &Event) {
        if let Some(switch) = Switch::begun_by(event) {
            self.switches += 1;
            if self.wanted.switch.is_none_or(|number| number == self.switches) {
                self.kept = Some((self.switches, switch, Vec::new()));
            }
        } else if let Some((number, switch, pairs)) = &mut self.kept {
            if *number == self.switches {
                switch.note(event);
                let end = self.wanted.from.saturating_add(self.wanted.slots);
                pairs.extend(event.pairs.iter().filter(|pair| (self.wanted.from..end).contains(&pair.slot)));
            }
        }
    }

    /// The grid, or a line that says why there is none.
    pub fn grid(self) -> Result<Grid, String> {
        let Wanted { from, slots, switch } = self.wanted;
        if self.switches == 0 {
            return Err("there is nothing to draw: no start or pipe was accepted".to_string());
        }
        let missing = || format!("--switch {}: the file has only {}", switch.unwrap_or(0), counted(self.switches, "switch", "switches"));
        let (number, switch, pairs) = self.kept.ok_or_else(missing)?;
        let run = switch.last_handed_out();
        if run == 0 {
            return Err(format!("there is nothing to draw: switch {number}, started in line {}, ran no slots", switch.line));
        }
        if from > run {
            return Err(format!("--from {from}: switch {number} has slots 1 to {run}"));
        }
        let last = run.min(from.saturating_add(slots - 1));
        let mut cells = vec![Cell::Idle; (last - from + 1) as usize * switch.ports];
        for pair in pairs {
            let cell = if pair.booked { Cell::Booked(pair.output) } else { Cell::Leftover(pair.output) };
            cells[(pair.slot - from) as usize * switch.ports + pair.input - 1] = cell;
        }
        Ok(Grid { number, switch, first: from, last, cells })
    }
}

impl Grid {
    pub fn cell(&self, slot: u64, input: usize) -> Cell {
        self.cells[(slot - self.first) as usize * self.switch.ports + input - 1]
    }

    pub fn begins_frame(&self, slot: u64) -> bool {
        (slot - 1).is_multiple_of(self.switch.frame)
    }

    /// The number of the frame that a slot is in.
    pub fn frame_of(&self, slot: u64) -> u64 {
        (slot - 1) / self.switch.frame + 1
    }

    /// Runs of up to `most` slots, first and last of each. Where a frame fits, frames are kept whole.
    pub fn bands(&self, most: u64) -> Vec<(u64, u64)> {
        let frame = self.switch.frame;
        let mut bands = Vec::new();
        let mut first = self.first;
        while first <= self.last {
            let length = if frame <= most { most / frame * frame - (first - 1) % frame } else { most };
            let last = self.last.min(first + length - 1);
            bands.push((first, last));
            first = last + 1;
        }
        bands
    }

    /// One line about what is drawn; a name of more than `most` letters is shortened in the middle.
    pub fn title(&self, name: &str, most: usize) -> String {
        let name = shortened(name, most);
        let Switch { ports, frame, .. } = self.switch;
        let (ports, frame) = (counted(ports as u64, "port", "ports"), counted(frame, "slot", "slots"));
        format!("{name}: {} switch, {ports}, frames of {frame}", self.switch.form_name())
    }
}

fn shortened(name: &str, most: usize) -> String {
    let letters: Vec<char> = name.chars().collect();
    if letters.len() <= most {
        return name.to_string();
    }
    let kept = most.saturating_sub(3);
    let (start, end) = (&letters[..kept.div_ceil(2)], &letters[letters.len() - kept / 2..]);
    start.iter().chain(&['.'; 3]).chain(end).collect()
}
