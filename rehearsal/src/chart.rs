//! `kivdrag chart`: a rehearsal as a picture, in characters or as SVG.

use crate::arguments::Arguments;
use crate::chart_svg::svg;
use crate::chart_text::{text, Paper};
use crate::feed::feed;
use crate::figures::grouped;
use crate::grid::{Collector, Grid, Wanted};
use crate::refusals::{open, Refusals};
use crate::{reason, replace, say, Output, Status};
use std::fs::{self, File};
use std::io::{IsTerminal, Read};
use std::ops::RangeInclusive;
use std::os::fd::AsFd;
use std::os::unix::fs::MetadataExt;
use std::path::Path;
use std::process::{Command, Stdio};

/// Slots shown where --slots is not given, and the most that it takes.
const SLOTS: u64 = 200;
const MOST_SLOTS: u64 = 10_000;

pub fn run(program: &Path, words: &[String]) -> Result<Status, String> {
    let arguments = Arguments::read(words, &[], &["--svg", "--from", "--slots", "--switch"])?;
    let wanted = wanted(&arguments)?;
    let file = arguments.file.as_deref();
    if let Some(out) = arguments.value("--svg").filter(|&out| out != "-") {
        may_be_written(out, file)?;
    }
    let events = open(file)?;
    let (mut collector, mut refusals) = (Collector::new(wanted), Refusals::default());
    feed(program, &events, |event| {
        refusals.note(event);
        collector.note(event);
    })?;
    let switches = collector.switches;
    let grid = collector.grid()?;
    let name = file.map_or("standard input", |file| Path::new(file).file_name().and_then(|name| name.to_str()).unwrap_or(file));
    match arguments.value("--svg") {
        Some(out) if out != "-" => replace::put(Path::new(out), svg(&grid, name).as_bytes())?,
        Some(_) => print(&svg(&grid, name))?,
        None => print(&text(&grid, name, &paper()))?,
    }
    let notes = [switch_note(&grid, switches, &wanted), range_note(&grid), refusals.line(file)];
    for note in notes.into_iter().flatten() {
        say(&note);
    }
    Ok(refusals.status())
}

/// An error where a file stands under the name that is no picture, the event file above all.
fn may_be_written(out: &str, file: Option<&str>) -> Result<(), String> {
    // What is not there or cannot be reached is told when it is written.
    let Some(there) = fs::metadata(out).ok().filter(|there| there.is_file()) else { return Ok(()) };
    let events = file.filter(|&file| file != "-").and_then(|file| fs::metadata(file).ok());
    if events.is_some_and(|events| (events.dev(), events.ino()) == (there.dev(), there.ino())) {
        return Err(format!("{out} is the event file itself; give another name"));
    }
    let mut start = Vec::new();
    let read = File::open(out).and_then(|picture| picture.take(5).read_to_end(&mut start));
    read.map_err(|error| format!("{out} is there already and cannot be read: {}; give another name", reason(&error)))?;
    if start.is_empty() || start.starts_with(b"<svg") || start.starts_with(b"<?xml") {
        return Ok(());
    }
    Err(format!("{out} is there already and is no picture; give another name"))
}

fn wanted(arguments: &Arguments) -> Result<Wanted, String> {
    let number = |option: &str, range: RangeInclusive<u64>| {
        let Some(text) = arguments.value(option) else { return Ok(None) };
        let number = text.bytes().all(|byte| byte.is_ascii_digit()).then(|| text.parse().ok()).flatten();
        let line = || format!("{option} {text}: a number from {} to {} is needed", grouped(*range.start()), grouped(*range.end()));
        number.filter(|number| range.contains(number)).map(Some).ok_or_else(line)
    };
    Ok(Wanted {
        from: number("--from", 1..=4_000_000_001)?.unwrap_or(1),
        slots: number("--slots", 1..=MOST_SLOTS)?.unwrap_or(SLOTS),
        switch: number("--switch", 1..=1_000_000_000)?,
    })
}

fn switch_note(grid: &Grid, switches: u64, wanted: &Wanted) -> Option<String> {
    let (number, line) = (grouped(grid.number), grouped(grid.switch.line as u64));
    let many = switches > 1 && wanted.switch.is_none();
    let switches = grouped(switches);
    many.then(|| format!("the file starts {switches} switches; shown is number {number}, the last, started in line {line} (--switch shows another)"))
}

fn range_note(grid: &Grid) -> Option<String> {
    let run = grid.switch.last_handed_out();
    let all = grid.first == 1 && grid.last == run;
    let (first, last, run) = (grouped(grid.first), grouped(grid.last), grouped(run));
    (!all).then(|| format!("slots {first} to {last} of {run} are shown (--from and --slots show others)"))
}

/// In a terminal as wide as it is, in colour unless NO_COLOR asks for none or the terminal has none.
fn paper() -> Paper {
    if !std::io::stdout().is_terminal() {
        return Paper { columns: 100, colour: false };
    }
    let columns = std::env::var("COLUMNS").ok().and_then(|columns| above_0(&columns)).or_else(columns_of_terminal).unwrap_or(80);
    let no_colour = std::env::var_os("NO_COLOR").is_some_and(|value| !value.is_empty());
    Paper { columns, colour: !no_colour && std::env::var_os("TERM").is_none_or(|terminal| terminal != "dumb") }
}

/// What stty tells of the terminal that it reads from: rows and columns, 0 where they are not known.
fn columns_of_terminal() -> Option<usize> {
    let terminal = std::io::stdout().as_fd().try_clone_to_owned().ok()?;
    let size = Command::new("stty").arg("size").stdin(terminal).stderr(Stdio::null()).output().ok()?;
    above_0(String::from_utf8(size.stdout).ok()?.split_whitespace().nth(1)?)
}

fn above_0(number: &str) -> Option<usize> {
    number.parse().ok().filter(|&number| number > 0)
}

fn print(text: &str) -> Result<(), String> {
    let mut output = Output::new();
    output.write(text.as_bytes())?;
    output.flush()
}
