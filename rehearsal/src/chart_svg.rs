//! A chart as SVG, for people: it has a white ground of its own, needs nothing else, and is the same at every run.

use crate::colours::{dark, hexadecimal, pale, ON_DARK, ON_PALE};
use crate::grid::{Cell, Grid, LONGEST_NAME};

/// Lengths in pixels: the margin, the names of rows, a row, the frame numbers above a band, the slot numbers and the gap below it, the titles, and
/// a line of the legend.
const MARGIN: u64 = 24;
const NAMES: u64 = 64;
const ROW: u64 = 32;
const ABOVE: u64 = 26;
const BELOW: u64 = 44;
const TITLES: u64 = 58;
const LEGEND_LINE: u64 = 30;
/// The cells of a band share this width, within limits.
const CELLS: u64 = 840;
const NARROWEST: u64 = 24;
const WIDEST: u64 = 46;
/// The picture is at least so wide; a title that needs more makes it wider.
const NARROWEST_PICTURE: u64 = 700;
/// No digit of a slot or a frame is wider.
const DIGIT: u64 = 8;

const INK: &str = "#1A1A1A";
const SOFT_INK: &str = "#5A5A5A";

struct Layout {
    bands: Vec<(u64, u64)>,
    cell: u64,
    /// the width of the picture
    width: u64,
}

impl Layout {
    fn new(grid: &Grid, title: &str) -> Layout {
        let bands = grid.bands(CELLS / NARROWEST);
        let slots = bands.iter().map(|(first, last)| last - first + 1).max().unwrap_or(1);
        let cell = (CELLS / slots).clamp(NARROWEST, WIDEST);
        let width = (MARGIN + NAMES + slots * cell).max(MARGIN + title_width(title)) + MARGIN;
        Layout { bands, cell, width: width.max(NARROWEST_PICTURE) }
    }

    fn left(&self) -> u64 {
        MARGIN + NAMES
    }

    fn top(&self, grid: &Grid, band: usize) -> u64 {
        TITLES + band as u64 * (ABOVE + grid.switch.ports as u64 * ROW + BELOW) + ABOVE
    }
}

/// `name` is what the title calls the file.
pub fn svg(grid: &Grid, name: &str) -> String {
    let title = grid.title(name, LONGEST_NAME);
    let layout = Layout::new(grid, &title);
    let width = layout.width;
    let legend_top = layout.top(grid, layout.bands.len()) - ABOVE;
    let (legend, legend_height) = legend(grid, legend_top, width);
    let height = legend_top + legend_height + MARGIN;
    let title = escaped(&title);
    let mut picture = format!(
        "<svg xmlns=\"http://www.w3.org/2000/svg\" width=\"{width}\" height=\"{height}\" viewBox=\"0 0 {width} {height}\" role=\"img\" \
         font-family=\"Helvetica, Arial, 'DejaVu Sans', sans-serif\" font-size=\"14\" fill=\"{INK}\">\n<title>{title}</title>\n\
         <rect width=\"{width}\" height=\"{height}\" fill=\"#FFFFFF\"/>\n\
         <text x=\"{MARGIN}\" y=\"36\" font-size=\"18\" font-weight=\"bold\">{title}</text>\n"
    );
    for (at, &(first, last)) in layout.bands.iter().enumerate() {
        picture += &band(grid, &layout, layout.top(grid, at), first, last);
    }
    picture + &legend + "</svg>\n"
}

fn band(grid: &Grid, layout: &Layout, top: u64, first: u64, last: u64) -> String {
    let bottom = top + grid.switch.ports as u64 * ROW;
    let mut text = String::new();
    for input in 1..=grid.switch.ports {
        let y = top + (input as u64 - 1) * ROW;
        text += &format!("<text x=\"{}\" y=\"{}\" text-anchor=\"end\">input {input}</text>\n", layout.left() - 10, y + ROW / 2 + 5);
        for slot in first..=last {
            text += &cell(grid, slot, input, layout.left() + (slot - first) * layout.cell, y, layout.cell);
        }
    }
    text += &format!("<text x=\"{}\" y=\"{}\" text-anchor=\"end\" fill=\"{SOFT_INK}\">slot</text>\n", layout.left() - 10, bottom + 18);
    text + &slot_numbers(layout, bottom + 18, first, last) + &frame_lines(grid, layout, top, first, last)
}

fn cell(grid: &Grid, slot: u64, input: usize, x: u64, y: u64, width: u64) -> String {
    let ports = grid.switch.ports;
    let (output, ground, ink, kind) = match grid.cell(slot, input) {
        Cell::Idle => return square(x, y, width, "#FFFFFF\" stroke=\"#DDDDDD", "", ""),
        Cell::Booked(output) => (output, dark(output, ports), ON_DARK, "booked"),
        Cell::Leftover(output) => (output, pale(output, ports), ON_PALE, "leftover"),
    };
    let weight = if kind == "booked" { "\" font-weight=\"bold" } else { "" };
    let number = number(x + width / 2, y + ROW / 2 + 5, output, &(hexadecimal(ink) + weight));
    let title = format!("<title>slot {slot}: input {input} to output {output}, {kind}</title>");
    square(x, y, width, &hexadecimal(ground), &title, &number)
}

/// A cell with its title, which browsers show beside the pointer, and what stands on it.
fn square(x: u64, y: u64, width: u64, fill: &str, title: &str, on_it: &str) -> String {
    let (x, y, width, height) = (x + 2, y + 2, width - 4, ROW - 4);
    format!("<g>{title}<rect x=\"{x}\" y=\"{y}\" width=\"{width}\" height=\"{height}\" rx=\"3\" fill=\"{fill}\"/>{on_it}</g>\n")
}

fn number(x: u64, y: u64, number: usize, fill: &str) -> String {
    format!("<text x=\"{x}\" y=\"{y}\" text-anchor=\"middle\" fill=\"{fill}\">{number}</text>")
}

/// About as wide as the title is at most: capitals and letters of other scripts may need the whole size of the type.
fn title_width(title: &str) -> u64 {
    title.chars().map(|letter| if letter.is_ascii() && !letter.is_ascii_uppercase() { 11 } else { 18 }).sum()
}

/// That of the first slot, and as many others as there is room for: of every slot, or of each whose number is a multiple of 5, 10, 20 and so on.
fn slot_numbers(layout: &Layout, y: u64, first: u64, last: u64) -> String {
    let digits = last.to_string().len() as u64;
    let needed = digits * 9 + 6;
    let step = [1, 5, 10, 20, 50].into_iter().find(|step| step * layout.cell >= needed).unwrap_or(50);
    // a number that is wider than its cell keeps clear of the row's name
    let x = |slot: u64| layout.left() + ((slot - first) * layout.cell + layout.cell / 2).max(digits * DIGIT / 2);
    let told = (first..=last).filter(|&slot| slot == first || slot.is_multiple_of(step) && x(slot) >= x(first) + needed);
    told.map(|slot| format!("<text x=\"{}\" y=\"{y}\" text-anchor=\"middle\" fill=\"{SOFT_INK}\">{slot}</text>\n", x(slot))).collect()
}

/// A line before each frame's first slot and after its last, and the frame's number, where there is room for it before the next line or the edge.
fn frame_lines(grid: &Grid, layout: &Layout, top: u64, first: u64, last: u64) -> String {
    let (above, below) = (top - ABOVE + 4, top + grid.switch.ports as u64 * ROW + 6);
    let x = |slot: u64| layout.left() + (slot - first) * layout.cell;
    let mut text = String::new();
    for slot in first..=last + 1 {
        if grid.begins_frame(slot) {
            text += &format!("<line x1=\"{0}\" y1=\"{above}\" x2=\"{0}\" y2=\"{below}\" stroke=\"{INK}\" stroke-width=\"2\"/>\n", x(slot));
        }
        let next = grid.frame_of(slot) * grid.switch.frame + 1;
        let end = if next <= last + 1 { x(next) } else { layout.width };
        let label = format!("frame {}", grid.frame_of(slot));
        let fits = x(slot) + 7 + label.len() as u64 * DIGIT <= end;
        if slot <= last && (slot == first || grid.begins_frame(slot)) && fits {
            text += &format!("<text x=\"{}\" y=\"{}\" fill=\"{SOFT_INK}\">{label}</text>\n", x(slot) + 7, top - 8);
        }
    }
    text
}

/// The legend and its height: what dark, pale and blank mean, and the colours of the outputs, as many beside each other as there is room for.
fn legend(grid: &Grid, top: u64, width: u64) -> (String, u64) {
    let ports = grid.switch.ports;
    let left = MARGIN + NAMES;
    let (swatch, step) = (30, 72);
    let in_line = ((width - MARGIN - left) / step).max(1);
    let mut text = format!("<text x=\"{}\" y=\"{}\" text-anchor=\"end\">output</text>\n", left - 10, top + ROW / 2 + 5);
    for output in 1..=ports {
        let at = output as u64 - 1;
        let (x, y) = (left + at % in_line * step, top + at / in_line * LEGEND_LINE);
        let bold = hexadecimal(ON_DARK) + "\" font-weight=\"bold";
        for (x, ground, ink) in [(x, dark(output, ports), bold), (x + swatch, pale(output, ports), hexadecimal(ON_PALE))] {
            text += &square(x, y, swatch, &hexadecimal(ground), "", &number(x + swatch / 2, y + ROW / 2 + 5, output, &ink));
        }
    }
    let y = top + (ports as u64).div_ceil(in_line) * LEGEND_LINE + 4;
    let kinds = [("#444444", "booked (dark)"), ("#C8C8C8", "leftover (pale)"), ("#FFFFFF\" stroke=\"#DDDDDD", "idle (blank)")];
    for (x, (fill, words)) in (left..).step_by(170).zip(kinds) {
        text += &square(x, y, swatch, fill, "", "");
        text += &format!("<text x=\"{}\" y=\"{}\">{words}</text>\n", x + swatch + 6, y + ROW / 2 + 5);
    }
    (text, y + ROW - top)
}

/// Text as XML takes it.
fn escaped(text: &str) -> String {
    let mut escaped = String::new();
    for letter in text.chars() {
        match letter {
            '&' => escaped += "&amp;",
            '<' => escaped += "&lt;",
            '>' => escaped += "&gt;",
            letter if letter.is_control() || matches!(letter, '\u{FFFE}' | '\u{FFFF}') => escaped.push('?'),
            letter => escaped.push(letter),
        }
    }
    escaped
}
