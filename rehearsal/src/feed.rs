//! Feeds an event text to the proved event program, and tells what came of each record.
//!
//! What the program prints does not name the record it is for. So each record is followed by a mark: a release that is refused with 5 whatever the
//! switch holds, since no switch has such an input, and that is echoed in its refusal. Until a start has been accepted each record gets exactly one
//! refusal instead.

use crate::event::{Event, Operation, Pair};
use crate::record;
use crate::text::Text;
use std::io::{self, BufRead, BufReader, Write};
use std::path::Path;
use std::process::{ChildStdin, Command, Stdio};

const HEADING: &[u8] = b"kind,slot,input,output,detail\r\n";
/// Bytes that are written, and read, at a time.
const BLOCK: usize = 1 << 16;
/// The input of a mark, and the one of a record that names the first itself.
const MARK_INPUT: u64 = 4_294_967_295;
const OTHER_MARK_INPUT: u64 = MARK_INPUT - 1;
/// The output of a mark is the record's number, below this.
const MARK_OUTPUTS: u64 = 1_000_000_000;

/// Calls `each` once for each record after the heading, in order.
pub fn feed(program: &Path, text: &Text, each: impl FnMut(&Event)) -> Result<(), String> {
    let cannot_start = |error| format!("the event program {} cannot be started: {}", program.display(), crate::reason(&error));
    let mut child = Command::new(program).stdin(Stdio::piped()).stdout(Stdio::piped()).spawn().map_err(cannot_start)?;
    let (Some(stdin), Some(stdout)) = (child.stdin.take(), child.stdout.take()) else { return Err("the event program has no pipes".to_string()) };
    std::thread::scope(|scope| {
        // A program that no longer reads is noticed by what it prints.
        scope.spawn(|| write_marked(stdin, text));
        let result = read_marked(BufReader::with_capacity(BLOCK, stdout), text, each);
        if result.is_err() {
            // So that the writing ends. It cannot be killed only where it has ended by itself.
            let _ = child.kill();
        }
        child.wait().map_err(|error| format!("the event program was lost: {}", crate::reason(&error)))?;
        result
    })
}

fn write_marked(mut program: ChildStdin, text: &Text) -> io::Result<()> {
    let mut block = text.heading().to_vec();
    for (mark, record) in marks().zip(text.records()) {
        block.extend_from_slice(record);
        write!(block, "\r\nrelease,{},{mark},1\r\n", mark_input(record))?;
        if block.len() >= BLOCK {
            program.write_all(&block)?;
            block.clear();
        }
    }
    program.write_all(&block)
}

fn marks() -> impl Iterator<Item = u64> {
    (0..MARK_OUTPUTS).cycle()
}

/// Another one than the record's own, so that its refusal cannot be taken for the mark's.
fn mark_input(record: &[u8]) -> u64 {
    let own = record.split(|&byte| byte == b',').nth(1).and_then(record::number);
    if own == Some(MARK_INPUT) {
        OTHER_MARK_INPUT
    } else {
        MARK_INPUT
    }
}

fn read_marked(answers: impl BufRead, text: &Text, mut each: impl FnMut(&Event)) -> Result<(), String> {
    let mut reader = Reader { answers, line: Vec::new(), pairs: Vec::new(), ports: 0 };
    if !reader.next_line().is_ok_and(|more| more) || reader.line != HEADING {
        return Err("the event program does not begin with its heading; build it anew".to_string());
    }
    for ((line, mark), record) in (2..).zip(marks()).zip(text.records()) {
        let event = reader.event(line, record, [mark_input(record), mark, 5])?;
        each(&event);
    }
    match reader.next_line()? {
        true => Err("the event program printed more than the file asks for; build it anew".to_string()),
        false => Ok(()),
    }
}

struct Reader<R> {
    answers: R,
    /// the line read last
    line: Vec<u8>,
    pairs: Vec<Pair>,
    /// of the switch; 0 as long as no start has been accepted
    ports: u64,
}

impl<R: BufRead> Reader<R> {
    /// Whether there was another line.
    fn next_line(&mut self) -> Result<bool, String> {
        self.line.clear();
        let read = self.answers.read_until(b'\n', &mut self.line);
        read.map(|bytes| bytes > 0).map_err(|error| format!("what the event program prints cannot be read: {}", crate::reason(&error)))
    }

    /// What was printed for a record, up to its mark.
    fn event<'a>(&'a mut self, line: usize, text: &'a [u8], mark: [u64; 3]) -> Result<Event<'a>, String> {
        let started = self.ports > 0;
        let record = record::read(text, started).ok();
        let mut refusal = None;
        self.pairs.clear();
        let last_slot = loop {
            if !self.next_line()? {
                return Err(format!("the event program ended early, at line {line} of the file; run it again"));
            }
            match (answer(&self.line), refusal) {
                (Some(Answer::Refused([slot, rest @ ..])), _) if rest == mark && (started || refusal.is_none()) => break slot,
                (Some(Answer::Refused([0, 0, 0, 12])), Some(_)) if !started => break 0,
                (Some(Answer::Refused([.., number @ 1..=99])), None) => refusal = Some(number as u32),
                (Some(Answer::Match(pair)), None) if self.has(pair.input as u64) && self.has(pair.output as u64) => self.pairs.push(pair),
                _ => return Err(unfitting(line)),
            }
        };
        match record.filter(|_| refusal.is_none()).map(|record| (record.operation, record.numbers)) {
            Some((Operation::Start | Operation::Pipe, [ports @ 1..=32, ..])) => self.ports = ports,
            Some((Operation::Book | Operation::Release | Operation::Arrive, [input, output, _])) if self.has(input) && self.has(output) => {}
            Some((Operation::Tick, _)) => {}
            None if refusal.is_some() => {}
            _ => return Err(unfitting(line)),
        }
        Ok(Event { line, text, record, refusal, pairs: &self.pairs, last_slot })
    }

    fn has(&self, port: u64) -> bool {
        (1..=self.ports).contains(&port)
    }
}

fn unfitting(line: usize) -> String {
    format!("the event program's answer to line {line} does not fit the record; build it anew")
}

/// A line that the program prints.
enum Answer {
    Match(Pair),
    /// slot, the record's two fields, number
    Refused([u64; 4]),
}

fn answer(line: &[u8]) -> Option<Answer> {
    let line = line.strip_suffix(b"\r\n")?;
    if let Some(fields) = line.strip_prefix(b"refused,") {
        return numbers(fields).map(Answer::Refused);
    }
    let [slot, input, output, pass] = numbers(line.strip_prefix(b"match,")?)?;
    (pass == 1 || pass == 2).then_some(Answer::Match(Pair { slot, input: input as usize, output: output as usize, booked: pass == 1 }))
}

fn numbers(fields: &[u8]) -> Option<[u64; 4]> {
    let mut numbers = [0; 4];
    let mut fields = fields.split(|&byte| byte == b',');
    for number in &mut numbers {
        *number = record::number(fields.next()?)?;
    }
    fields.next().is_none().then_some(numbers)
}
