//! The rows of a report, as a table for people and as CSV (RFC 4180).

use crate::figures::grouped;
use crate::measure::{Measured, Row};
use crate::report::Style;
use crate::verdict::{holds, Verdict};

const COLUMNS: [&str; 11] =
    ["input", "output", "booked", "arrived", "by booking", "by leftover", "waiting", "worst wait", "a", "m", "first by"];
const CSV_COLUMNS: &str = "switch,line,form,ports,frame,slots,input,output,booked,arrived,by_booking,by_leftover,waiting,worst_wait,worst_is_waiting,\
                           a,m,first_by,kept";

fn or_dash(number: Option<u64>) -> String {
    number.map_or("-".to_string(), grouped)
}

fn text_cells(row: &Row, style: &Style) -> Vec<String> {
    let first_by = row.reading.and_then(|reading| reading.first_by());
    let mut cells = vec![row.input.to_string(), row.output.to_string()];
    cells.extend([row.booked, row.arrived, row.by_booking, row.by_leftover, row.waiting].map(grouped));
    let mark = if row.worst.is_some_and(|wait| wait.goes_on) { "+" } else { "" };
    cells.push(or_dash(row.worst.map(|wait| wait.slots)) + mark);
    cells.extend([row.reading.map(|reading| reading.a), row.reading.map(|reading| reading.m)].map(or_dash));
    cells.push(first_by.map_or("-".to_string(), |slot| format!("slot {}", grouped(slot))));
    if let Some(time) = style.slot_time {
        cells.push(row.worst.map_or("-".to_string(), |wait| time.text(wait.slots) + mark));
        cells.push(first_by.map_or("-".to_string(), |slot| time.text(slot)));
    }
    cells
}

/// A table with a heading, all columns set to the right.
pub fn text_rows(rows: &[Row], style: &Style) -> String {
    let mut heading: Vec<String> = COLUMNS.map(String::from).to_vec();
    if style.slot_time.is_some() {
        heading.extend(["worst wait time", "first by time"].map(String::from));
    }
    let lines: Vec<Vec<String>> = std::iter::once(heading).chain(rows.iter().map(|row| text_cells(row, style))).collect();
    let width = |column: usize| lines.iter().map(|cells| cells[column].len()).max().unwrap_or(0);
    let widths: Vec<usize> = (0..lines[0].len()).map(width).collect();
    let mut text = String::new();
    for cells in &lines {
        let line: Vec<String> = cells.iter().zip(&widths).map(|(cell, &width)| format!("{cell:>width$}")).collect();
        text += &format!("{}\n", line.join("  "));
    }
    text
}

pub fn csv_heading(style: &Style) -> String {
    format!("{CSV_COLUMNS}{}\r\n", if style.slot_time.is_some() { ",worst_wait_ns,first_by_ns" } else { "" })
}

/// A line for each pair. Fields that have no value are empty.
pub fn csv_rows(text: &mut String, number: u64, measured: &Measured, verdict: &Verdict, style: &Style) {
    let switch = &measured.switch;
    let start = [number, switch.line as u64].map(|number| number.to_string()).join(",");
    let size = [switch.ports as u64, switch.frame, switch.last_slot].map(|number| number.to_string()).join(",");
    let kept = kept_by_pair(switch.ports, verdict);
    for (row, kept) in measured.rows().iter().zip(kept) {
        *text += &format!("{start},{},{size},{},{kept}{}\r\n", switch.form_name(), csv_cells(row), csv_times(row, style));
    }
}

fn csv_cells(row: &Row) -> String {
    let Row { input, output, booked, arrived, by_booking, by_leftover, waiting, worst, reading } = *row;
    let or_empty = |number: Option<u64>| number.map_or(String::new(), |number| number.to_string());
    let goes_on = worst.map_or("", |wait| if wait.goes_on { "yes" } else { "no" });
    let mut cells = vec![input.to_string(), output.to_string()];
    cells.extend([booked, arrived, by_booking, by_leftover, waiting].map(|number| number.to_string()));
    cells.extend([or_empty(worst.map(|wait| wait.slots)), goes_on.to_string()]);
    cells.extend([reading.map(|reading| reading.a), reading.map(|reading| reading.m), reading.and_then(|reading| reading.first_by())].map(or_empty));
    cells.join(",")
}

fn csv_times(row: &Row, style: &Style) -> String {
    let Some(time) = style.slot_time else { return String::new() };
    let times = [row.worst.map(|wait| wait.slots), row.reading.and_then(|reading| reading.first_by())];
    times.map(|slots| format!(",{}", slots.map_or(String::new(), |slots| time.nanoseconds(slots)))).concat()
}

/// For each pair `yes` where it has claims and all of them hold, `no` where one fails, `not judged` where it has none: no slot was run, or the
/// switch was too much for the ledger.
fn kept_by_pair(ports: usize, verdict: &Verdict) -> Vec<&'static str> {
    let mut kept = vec!["not judged"; ports * ports];
    let Verdict::Taken(claims) = verdict else { return kept };
    for claim in claims {
        let kept = &mut kept[(claim.input - 1) * ports + claim.output - 1];
        *kept = if holds(claim) && *kept != "no" { "yes" } else { "no" };
    }
    kept
}
