//! `kivdrag check [--fix | --output OUT] [FILE]`: tells why each refused record is refused, and what has to be repaired in the file.

use crate::arguments::Arguments;
use crate::event::Event;
use crate::explain::why;
use crate::feed::feed;
use crate::figures::{counted, grouped};
use crate::shown::{shell_word, shown};
use crate::switch::Switch;
use crate::text::Text;
use crate::{read_file, replace, Output, Status};
use std::path::{Path, PathBuf};

pub fn run(program: &Path, words: &[String]) -> Result<Status, String> {
    let arguments = Arguments::read(words, &["--fix"], &["--output"])?;
    let target = Target::of(&arguments)?;
    let text = read_file(arguments.file.as_deref())?;
    let mut check = Check { output: Output::new(), lost: Ok(()), switch: None, records: 0, refused: 0, first_refused: 0 };
    feed(program, &text, |event| check.note(event))?;
    check.lost.clone()?;
    // Where nobody can be told, nothing is written.
    check.tell(text.repairs.iter().map(|repair| format!("to repair: {repair}")).chain(text.warning.iter().map(|line| format!("warning: {line}"))))?;
    let written = target.write(&text)?;
    let hint = (written.is_none() && !text.repairs.is_empty()).then(|| repair_hint(&arguments));
    let told = check.tell(written.clone().or(hint).into_iter().chain([check.summary()]));
    told.map_err(|error| written.iter().fold(error, |error, written| format!("{error}; {written}")))?;
    let accepted = check.all_accepted() && text.warning.is_none() && (text.repairs.is_empty() || written.is_some());
    Ok(if accepted { Status::Accepted } else { Status::Refused })
}

struct Check {
    output: Output,
    /// the first failure of the output
    lost: Result<(), String>,
    /// the one that is running
    switch: Option<Switch>,
    records: u64,
    refused: u64,
    /// the line of the first refused record
    first_refused: usize,
}

impl Check {
    fn note(&mut self, event: &Event) {
        self.records += 1;
        if let Some(number) = event.refusal {
            if self.refused == 0 {
                self.first_refused = event.line;
            }
            self.refused += 1;
            self.lost = self.lost.clone().and_then(|()| self.output.line(&refusal_line(event, number, self.switch.as_ref())));
        }
        if let Some(switch) = Switch::begun_by(event) {
            self.switch = Some(switch);
        } else if let Some(switch) = &mut self.switch {
            switch.note(event);
        }
    }

    /// Says lines that are not to be lost.
    fn tell(&mut self, lines: impl Iterator<Item = String>) -> Result<(), String> {
        for line in lines {
            self.output.line(&line)?;
        }
        self.output.flush()
    }

    fn all_accepted(&self) -> bool {
        self.refused == 0 && self.switch.is_some()
    }

    fn summary(&self) -> String {
        let records = counted(self.records, "record", "records");
        let start = if self.switch.is_none() { "; no switch was started" } else { "" };
        match (self.records, self.refused) {
            (0, _) => "no records: no switch was started".to_string(),
            (1, 0) => format!("{records}: accepted"),
            (_, 0) => format!("{records}: all accepted"),
            (_, refused) => format!("{records}: {} refused, the first in line {}{start}", grouped(refused), grouped(self.first_refused as u64)),
        }
    }
}

fn refusal_line(event: &Event, number: u32, switch: Option<&Switch>) -> String {
    let record = if event.text.is_empty() { String::new() } else { format!("{}: ", shown(event.text)) };
    format!("line {}: {record}refused ({number}): {}", grouped(event.line as u64), why(event, number, switch))
}

fn repair_hint(arguments: &Arguments) -> String {
    match &arguments.file {
        Some(file) => format!("`kivdrag check --fix {}` repairs it", shell_word(file)),
        None => "`kivdrag check --output OUT` writes it repaired to OUT".to_string(),
    }
}

/// Where a repaired file goes.
enum Target {
    Nowhere,
    InPlace(PathBuf),
    New(PathBuf),
}

impl Target {
    fn of(arguments: &Arguments) -> Result<Target, String> {
        match (arguments.value("--output"), &arguments.file) {
            (Some(_), _) if arguments.has("--fix") => {
                Err("--fix repairs the file in its place, and --output OUT writes it to OUT; give one of the two".to_string())
            }
            (Some("-"), _) => Err("--output needs the name of a file; standard output has what check says".to_string()),
            (Some(out), _) if Path::new(out).symlink_metadata().is_ok() => Err(replace::taken(Path::new(out))),
            (Some(out), _) => Ok(Target::New(PathBuf::from(out))),
            (None, _) if !arguments.has("--fix") => Ok(Target::Nowhere),
            (None, None) => Err("standard input cannot be repaired in its place; name a file, or give --output OUT without --fix".to_string()),
            // What is missing or a directory is told when it is read.
            (None, Some(file)) => match Path::new(file).metadata() {
                Ok(kind) if !kind.is_file() && !kind.is_dir() => {
                    Err(format!("{file} is no plain file and cannot be replaced; give --output OUT without --fix"))
                }
                _ => Ok(Target::InPlace(PathBuf::from(file))),
            },
        }
    }

    /// Writes the repaired text, and says so; none where nothing was to be written.
    fn write(&self, text: &Text) -> Result<Option<String>, String> {
        let clean = text.repairs.is_empty();
        Ok(match self {
            Target::Nowhere => None,
            Target::InPlace(file) if clean => Some(format!("nothing to repair: {} stays as it is", file.display())),
            Target::InPlace(file) => {
                let kept = replace::replace(file, &text.repaired())?;
                Some(format!("{} is repaired; the original is kept as {}", file.display(), kept.display()))
            }
            Target::New(file) => {
                replace::write(file, &text.repaired())?;
                Some(format!("{}{} is written", if clean { "nothing to repair: " } else { "" }, file.display()))
            }
        })
    }
}
