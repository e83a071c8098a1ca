//! A chart in characters: a row for each input, a cell for each slot with the number of its output.

use crate::colours::{dark, pale, terminal, Colour, ON_DARK, ON_PALE};
use crate::grid::{Cell, Grid, LONGEST_NAME};

/// What the chart is written on.
pub struct Paper {
    pub columns: usize,
    pub colour: bool,
}

const LEGEND: [(&str, &str); 4] = [
    ("1* ", "booked: the input was given output 1 in a slot of its booking"),
    ("1  ", "leftover: it was given output 1 in a slot that no booking took"),
    ("|  ", "a frame begins"),
    (".  ", "the input is idle"),
];

/// A row's name stands before its cells.
const NAME: usize = 9;

/// A band with the column in which each of its slots begins; a frame line stands in the column before a frame's first slot.
struct Band {
    first: u64,
    columns: Vec<usize>,
    /// the columns of the paper beside the names of rows
    room: usize,
}

pub fn text(grid: &Grid, name: &str, paper: &Paper) -> String {
    let mut text = wrapped("", &grid.title(name, LONGEST_NAME.min(paper.columns.saturating_sub(1))), paper.columns);
    // a blank, the digits of the output, and the mark of a booking
    let cell = grid.switch.ports.to_string().len() + 2;
    let room = paper.columns.saturating_sub(NAME);
    for (first, last) in grid.bands(slots_that_fit(grid, cell, room)) {
        let band = Band::new(grid, first, last, cell, room);
        text += &format!("\n{}\n", format!("{:NAME$}{}", "", band.frames(grid)).trim_end());
        text += &format!("{:NAME$}{}\n", "slot", band.ruler(grid, cell - 1));
        for input in 1..=grid.switch.ports {
            text += &format!("{:NAME$}{}\n", format!("input {input}"), band.row(grid, input, cell, paper.colour));
        }
    }
    text.push('\n');
    LEGEND.iter().for_each(|(mark, words)| text += &wrapped(mark, words, paper.columns));
    text
}

/// Words behind a mark, in lines of up to so many columns.
fn wrapped(mark: &str, words: &str, columns: usize) -> String {
    let mut text = mark.to_string();
    let mut width = mark.len();
    for word in words.split(' ') {
        let length = word.chars().count();
        if width > mark.len() && width + 1 + length > columns {
            text += &format!("\n{:1$}", "", mark.len());
            width = mark.len();
        } else if width > mark.len() {
            text.push(' ');
            width += 1;
        }
        text += word;
        width += length;
    }
    text + "\n"
}

/// How many slots a band has at most: each frame needs a column for its line.
fn slots_that_fit(grid: &Grid, cell: usize, columns: usize) -> u64 {
    let whole_frame = grid.switch.frame as usize * cell + 1;
    if whole_frame <= columns {
        return (columns / whole_frame) as u64 * grid.switch.frame;
    }
    // shorter than a frame: at most one frame begins in it
    (columns.saturating_sub(1) / cell).max(1) as u64
}

impl Band {
    fn new(grid: &Grid, first: u64, last: u64, cell: usize, room: usize) -> Band {
        let mut width = 0;
        let place = |slot: u64| {
            let column = width + grid.begins_frame(slot) as usize;
            width = column + cell;
            column
        };
        let columns = (first..=last).map(place).collect();
        Band { first, columns, room }
    }

    fn slots(&self) -> impl Iterator<Item = (u64, usize)> + '_ {
        (self.first..).zip(self.columns.iter().copied())
    }

    /// The numbers of the frames, each where it begins, as far as there is room.
    fn frames(&self, grid: &Grid) -> String {
        let begins = self.slots().filter(|&(slot, _)| slot == self.first || grid.begins_frame(slot));
        let labels = begins.map(|(slot, column)| (format!("frame {}", grid.frame_of(slot)), column.saturating_sub(1)));
        self.labelled(labels)
    }

    /// The numbers of slots, above the last digit of the cell: of the first slot, of each frame's first and of every fifth, as far as there is room.
    fn ruler(&self, grid: &Grid, digits: usize) -> String {
        let told = self.slots().filter(|&(slot, _)| slot == self.first || grid.begins_frame(slot) || slot.is_multiple_of(5));
        let labels = told.map(|(slot, column)| {
            let label = slot.to_string();
            let start = (column + digits).saturating_sub(label.len());
            (label, start)
        });
        self.labelled(labels)
    }

    /// Labels in their columns; one that would touch the label before it or has no room is left out.
    fn labelled(&self, labels: impl Iterator<Item = (String, usize)>) -> String {
        let mut line = String::new();
        for (label, column) in labels.filter(|(label, column)| column + label.len() <= self.room) {
            if line.is_empty() || column > line.len() {
                line += &" ".repeat(column - line.len());
                line += &label;
            }
        }
        line
    }

    fn row(&self, grid: &Grid, input: usize, cell: usize, colour: bool) -> String {
        let mut row = String::new();
        for (slot, _) in self.slots() {
            if grid.begins_frame(slot) {
                row.push('|');
            }
            row += &shown(grid.cell(slot, input), grid.switch.ports, cell - 2, colour);
        }
        row.trim_end().to_string()
    }
}

fn shown(cell: Cell, ports: usize, digits: usize, colour: bool) -> String {
    let (text, colours) = match cell {
        Cell::Idle => return format!(" {:>digits$} ", "."),
        Cell::Booked(output) => (format!(" {output:>digits$}*"), (dark(output, ports), ON_DARK)),
        Cell::Leftover(output) => (format!(" {output:>digits$} "), (pale(output, ports), ON_PALE)),
    };
    if colour { coloured(&text, colours) } else { text }
}

fn coloured(text: &str, (ground, letters): (Colour, Colour)) -> String {
    format!("\x1b[48;5;{};38;5;{}m{text}\x1b[0m", terminal(ground), terminal(letters))
}
