//! What report and chart say beside their result: what was repaired in the file, and what was refused.

use crate::event::Event;
use crate::figures::{counted, grouped};
use crate::shown::shell_word;
use crate::text::Text;
use crate::{say, Status};

/// The file's text; what was read differently from how it stands there, and what looks like a mistake in it, is said on standard error.
pub fn open(file: Option<&str>) -> Result<Text, String> {
    let text = crate::read_file(file)?;
    text.repairs.iter().chain(&text.warning).for_each(|line| say(line));
    Ok(text)
}

/// The refused records of a file.
#[derive(Default)]
pub struct Refusals {
    count: u64,
    first_line: usize,
}

impl Refusals {
    pub fn note(&mut self, event: &Event) {
        if event.refusal.is_some() {
            if self.count == 0 {
                self.first_line = event.line;
            }
            self.count += 1;
        }
    }

    pub fn status(&self) -> Status {
        if self.count == 0 { Status::Accepted } else { Status::Refused }
    }

    /// A line about them; none where nothing was refused.
    pub fn line(&self, file: Option<&str>) -> Option<String> {
        let (count, first) = (counted(self.count, "record was", "records were"), grouped(self.first_line as u64));
        let first = if self.count == 1 { format!("in line {first}") } else { format!("the first in line {first}") };
        let command = file.map_or("kivdrag check".to_string(), |file| format!("kivdrag check {}", shell_word(file)));
        (self.count > 0).then(|| format!("{count} refused, {first}: `{command}` tells why."))
    }
}
