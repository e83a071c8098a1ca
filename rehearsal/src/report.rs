//! `kivdrag report`: what each switch of a file did for each pair, and the guarantee beside it.

use crate::arguments::Arguments;
use crate::event::Event;
use crate::feed::feed;
use crate::figures::{counted, grouped, SlotTime};
use crate::measure::{Measured, Row};
use crate::refusals::Refusals;
use crate::switch::Switch;
use crate::table;
use crate::verdict::{holds, Judge, Verdict};
use crate::{say, Output, Status};
use second::ledger::Claim;
use second::Form;
use std::path::Path;

pub fn run(program: &Path, words: &[String]) -> Result<Status, String> {
    let arguments = Arguments::read(words, &["--csv", "--all"], &["--slot-ns"])?;
    let slot_time = arguments.value("--slot-ns").map(SlotTime::read).transpose()?;
    let text = crate::refusals::open(arguments.file.as_deref())?;
    let mut report = Report::new(Style { csv: arguments.has("--csv"), all: arguments.has("--all"), slot_time });
    let mut output = Output::new();
    let mut written = Ok(());
    feed(program, &text, |event| {
        report.note(event);
        if written.is_ok() {
            written = output.write(std::mem::take(&mut report.text).as_bytes());
        }
    })?;
    written?;
    let end = report.end(arguments.file.as_deref());
    output.write(report.text.as_bytes())?;
    output.flush()?;
    end
}

#[derive(Clone, Copy, Default)]
pub struct Style {
    pub csv: bool,
    /// pairs that have nothing too
    pub all: bool,
    pub slot_time: Option<SlotTime>,
}

/// The report as far as the events have come: each switch is told when it ends.
pub struct Report {
    style: Style,
    /// what is told and not taken yet
    pub text: String,
    running: Option<Measured>,
    judge: Judge,
    switches: u64,
    forms: Vec<Form>,
    refusals: Refusals,
    /// the first thing that the proof excludes
    contradiction: Option<String>,
}

impl Report {
    pub fn new(style: Style) -> Report {
        let text = if style.csv { table::csv_heading(&style) } else { String::new() };
        let (judge, refusals) = (Judge::default(), Refusals::default());
        Report { style, text, running: None, judge, switches: 0, forms: Vec::new(), refusals, contradiction: None }
    }

    pub fn note(&mut self, event: &Event) {
        self.refusals.note(event);
        if let Some(switch) = Switch::begun_by(event) {
            self.end_switch();
            self.running = Some(Measured::new(switch));
        } else if let Some(measured) = &mut self.running {
            measured.note(event);
            self.judge.note(event, measured);
        }
    }

    fn end_switch(&mut self) {
        let Some(measured) = self.running.take() else { return };
        self.switches += 1;
        if !self.forms.contains(&measured.switch.form) {
            self.forms.push(measured.switch.form);
        }
        let verdict = self.judge.verdict(&measured);
        let contradiction = contradiction(&measured, &verdict);
        if self.style.csv {
            table::csv_rows(&mut self.text, self.switches, &measured, &verdict, &self.style);
        } else {
            self.tell(&measured, &verdict, contradiction.is_some());
        }
        self.contradiction = self.contradiction.take().or(contradiction);
    }

    fn tell(&mut self, measured: &Measured, verdict: &Verdict, broken: bool) {
        let text = &mut self.text;
        *text += &heading(self.switches, measured, &self.style);
        let rows = measured.rows();
        let shown: Vec<Row> = rows.iter().filter(|row| self.style.all || !row.is_blank()).copied().collect();
        *text += &table::text_rows(&shown, &self.style);
        let others = (rows.len() - shown.len()) as u64;
        if others > 0 {
            let have = if others == 1 { "has" } else { "have" };
            *text += &format!("{} {have} nothing booked, arrived or handed out (--all shows them).\n", counted(others, "other pair", "other pairs"));
        }
        *text += &if broken { "NOT kept.\n\n".to_string() } else { verdict_line(verdict, measured.switch.ports) };
    }

    /// Ends the last switch and tells what holds for the whole file. An error is something that the proof excludes.
    pub fn end(&mut self, file: Option<&str>) -> Result<Status, String> {
        self.end_switch();
        if !self.style.csv && self.switches > 0 {
            self.text += &legend(&self.forms, self.style.slot_time.is_some());
        }
        if let Some(line) = self.contradiction.take() {
            return Err(line);
        }
        if self.switches == 0 {
            self.remark("No start or pipe was accepted, so there is no switch to report on.");
        }
        if let Some(line) = self.refusals.line(file) {
            self.remark(&line);
        }
        Ok(if self.switches == 0 { Status::Refused } else { self.refusals.status() })
    }

    /// A line about the whole file; CSV has no place for it.
    fn remark(&mut self, line: &str) {
        if self.style.csv {
            say(&line);
        } else {
            self.text += &format!("{line}\n");
        }
    }
}

fn heading(number: u64, measured: &Measured, style: &Style) -> String {
    let switch = &measured.switch;
    let (form, ports) = (switch.form_name(), counted(switch.ports as u64, "port", "ports"));
    let time = |slots: u64| style.slot_time.map_or(String::new(), |time| format!(" ({})", time.text(slots)));
    let frame = format!("frames of {}{}", counted(switch.frame, "slot", "slots"), time(switch.frame));
    let run = format!("{} run{}", counted(switch.last_slot, "slot", "slots"), time(switch.last_slot));
    let begun = counted(measured.frames_begun(), "frame", "frames");
    let read = match measured.frame_read {
        0 => "no frame has read its bookings yet, so there is no a and no m".to_string(),
        frame => format!("a and m are those of frame {}, the last one that has read its bookings", grouped(frame)),
    };
    format!("Switch {number}, started in line {}: {form}, {ports}, {frame}.\n{run}, {begun} begun; {read}.\n\n", grouped(switch.line as u64))
}

fn verdict_line(verdict: &Verdict, ports: usize) -> String {
    match verdict {
        Verdict::NotTaken(count) => {
            let (found, most) = (grouped(count.found), grouped(count.most));
            format!(
                "Verdict not taken: with this switch {found} {} would have to be judged; the ledger takes up to {most} in a file.\n\
                 The counts above stand all the same.\n\n",
                count.what
            )
        }
        Verdict::Taken(claims) if claims.is_empty() => "No slot was run, so there is no frame to judge.\n\n".to_string(),
        Verdict::Taken(claims) => {
            let frames = match claims.len() / (ports * ports) {
                1 => "the one frame".to_string(),
                frames => format!("each of {} frames", grouped(frames as u64)),
            };
            let asking = |asks: fn(&Claim) -> bool| grouped(claims.iter().filter(|claim| asks(claim)).count() as u64);
            let (all, asking, in_time) = (grouped(claims.len() as u64), asking(Claim::binds), asking(Claim::spread_binds));
            format!(
                "Kept: in {frames} every pair was served by its booking at least min(a, b - m) and at most a times\n\
                 (claims of a pair in a frame: {all}; asking for a slot: {asking}; asking for it by slot m + 1: {in_time}).\n\n"
            )
        }
    }
}

/// The line for what the proof excludes, if the switch has done it.
fn contradiction(measured: &Measured, verdict: &Verdict) -> Option<String> {
    let what = match (measured.without_packet, verdict) {
        (Some(pair), _) => format!("slot {} handed out input {} to output {}, which had no packet", pair.slot, pair.input, pair.output),
        (None, Verdict::Taken(claims)) => broken(claims.iter().find(|claim| !holds(claim))?),
        (None, Verdict::NotTaken(_)) => return None,
    };
    let line = measured.switch.line;
    Some(format!("the switch of line {line} did what the proof excludes: {what}; please report this, with the file"))
}

fn broken(claim: &Claim) -> String {
    let Claim { input, output, frame, booked: a, others: m, waited: b, served, length, .. } = *claim;
    let pair = format!("in frame {frame} input {input} to output {output}");
    if a > 0 && a + m > length {
        return format!("{pair} has a = {a} and m = {m}, more than the frame's {length} slots");
    }
    if claim.holds() {
        return format!("{pair} waited from the first slot on, with a = {a} and m = {m}, and was not served by its booking n times by slot m + n");
    }
    let least = a.min(b.saturating_sub(m));
    format!("{pair} was served by its booking {served} times; with a = {a}, m = {m} and b = {b} at least {least} and at most {a} are proved")
}

fn legend(forms: &[Form], times: bool) -> String {
    let pipelined = forms.contains(&Form::Pipelined);
    let parts = [(MEASURED, true), (MEASURED_PIPELINED, pipelined), (PROVED, true), (PROVED_TIME, times), (PROVED_PIPELINED, pipelined)];
    parts.into_iter().filter(|(_, told)| *told).map(|(part, _)| part).chain(["\n"]).collect()
}

const MEASURED: &str = "\
MEASURED, on this file alone: every count and every wait.
  booked       slots of each frame that the pair has booked at the end
  by booking   packets handed out in the pair's booked slots (pass one)
  by leftover  packets handed out in slots that no booking took (pass two)
  waiting      packets that arrived and were not handed out by the end
  worst wait   the longest wait of a packet, in slots: the ticks after its arrival, up to and with the
               one that handed it out; within a pair first come, first served; + marks a packet that
               still waits, with the ticks so far
";
const MEASURED_PIPELINED: &str = "  pipelined    packets in flight, for which a slot to come has been found, are among those that wait
";
const PROVED: &str = "\
PROVED, for every film (theorem bookings-kept):
  a, m         slots that the pair, and that all other pairs of its input or its output together, had
               booked when the frame was read
  kept         in each frame the pair is served by its booking at least min(a, b - m) and at most a
               times; b counts the frame's slots for which it has a packet waiting
  first by     where a is above 0, a pair that waits from the frame's first slot on is given its first
               booked slot at the latest in slot m + 1 of the frame (the line above, taken at the end
               of that slot). So a packet that waits for a frame's first slot, with none of its pair
               before it, is handed out by slot m + 1, booked or leftover. One that comes too late for
               that, again with none before it, is handed out by slot m + 1 of the first frame for
               whose first slot it comes in time, if a is above 0 there; a and m are that frame's
";
const PROVED_TIME: &str = "               Its time runs from the beginning of the frame to the end of that slot
";
const PROVED_PIPELINED: &str = "  pipelined    a packet comes in time for slot s if it arrives before tick s - 2N - 1 + i, the pass-one
               turn of its input i for that slot
";
