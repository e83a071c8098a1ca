//! Why a record was refused, in an installer's words. The program's number decides: where the figures do not bear it out, only its question is told.

use crate::event::{Event, Operation, Record};
use crate::figures::{counted, grouped};
use crate::record::{self, Fault, BYTES_MAX, DIGITS_MAX, OPERATIONS};
use crate::shown::shown;
use crate::switch::Switch;
use crate::text::is_blank;
use second::Form;

const PORTS_MAX: u64 = 32;
const FRAME_MAX: u64 = 10_000;
const PACKETS_MAX: u64 = 65_535;
const TICK_MAX: u64 = 10_000;
const QUEUE_MAX: u64 = 1_000_000;
const CLOCK_END: u64 = 4_000_000_000;

/// The reason for a refusal; `switch` is the one that was running before the record.
pub fn why(event: &Event, number: u32, switch: Option<&Switch>) -> String {
    let reason = match (record::read(event.text, switch.is_some()), switch) {
        (Err(fault), _) => (fault.number() == number).then(|| unreadable(&fault, event.text)),
        (Ok(record), _) if matches!(record.operation, Operation::Start | Operation::Pipe) => start(number, &record),
        (Ok(record), Some(switch)) if number == 7 => clock(&record, event, switch),
        (Ok(record), Some(switch)) => call(number, &record, switch),
        (Ok(_), None) => None,
    };
    reason.unwrap_or_else(|| format!("the answer is no to: {}", question(number)))
}

/// What is asked, in the words of README.md.
fn question(number: u32) -> &'static str {
    match number {
        1 => "are there 1 to 32 ports?",
        2 => "has a frame 1 to 10,000 slots?",
        3 => "pipelined: has a frame at least as many slots as there are ports?",
        4 => "are all lent runs of words long enough?",
        5 => "are input and output ports of the switch?",
        6 => "is the amount in range?",
        7 => "has the clock run fewer than 4,000,000,000 slots?",
        8 => "has the input room for the booking?",
        9 => "has the output room for the booking?",
        10 => "are as many slots booked as are released?",
        11 => "does the queue stay within 1,000,000 packets?",
        12 => "has the record at most 64 bytes, no quote, a known operation, an accepted start before it, and 0 in fields that are not used?",
        13 => "has the record four fields?",
        14 => "is each of its number fields one to ten digits?",
        15 => "does each pair with a booking on this input or this output still fit the frame?",
        _ => "a question that include/kivdrag.h does not have",
    }
}

fn unreadable(fault: &Fault, text: &[u8]) -> String {
    let reason = match *fault {
        Fault::TooLong { bytes } => format!("the record has {} bytes; at most {BYTES_MAX} are read", grouped(bytes as u64)),
        Fault::Quote => "a quote (\") stands in it; only quotes around a whole field can be taken off".to_string(),
        Fault::UnknownOperation { name } => unknown_operation(name, text),
        Fault::BeforeStart => "no switch is started yet; a start or pipe that is accepted has to come first".to_string(),
        Fault::Fields { count } => fields(count, text),
        Fault::NotANumber { operation, field, text } => {
            let field = format!("field {field}{}", field_name(operation, field));
            return format!("{field} {}; a number is 1 to {DIGITS_MAX} digits and nothing else", flaw(text));
        }
        Fault::UnusedNot0 { operation, field, value } => {
            format!("field {field} is {}; {} does not use it, and it has to be 0", grouped(value), operation_name(operation))
        }
    };
    match text.iter().find_map(|&byte| stray_line_end(byte.into())) {
        Some(stray) => format!("{reason}; {stray}"),
        None => reason,
    }
}

/// What is said of a line end that is left in a record, since what follows it does not begin like one.
fn stray_line_end(character: char) -> Option<&'static str> {
    match character {
        '\r' => Some("a stray line end (carriage return) stands in it"),
        '\n' => Some("a stray line end (line feed) stands in it"),
        _ => None,
    }
}

fn unknown_operation(name: &[u8], text: &[u8]) -> String {
    if is_blank(text) {
        return "the line is blank; take it out".to_string();
    }
    let plain = String::from_utf8_lossy(name).split_whitespace().collect::<String>().to_lowercase();
    let known = OPERATIONS.iter().find(|(known, _)| *known == plain);
    if let Some((known, _)) = known {
        return format!("the operation has to be written {known}, in small letters and without blanks; it is `{}`", shown(name));
    }
    if let Some((separator, _)) = [("semicolons", b';'), ("tabs", b'\t')].into_iter().find(|(_, byte)| name.contains(byte)) {
        return format!("{separator} stand in it before the first comma; fields are separated by commas alone");
    }
    let operations = OPERATIONS.map(|(known, _)| known).join(", ");
    format!("the operation `{}` is not known; there are {operations}", shown(name))
}

fn fields(count: usize, text: &[u8]) -> String {
    let empty = text.iter().rev().take_while(|&&byte| byte == b',').count();
    let last = match count - 4.min(count) {
        surplus if surplus == 0 || empty < surplus => String::new(),
        1 => "; the last is empty: take the comma at the end off".to_string(),
        surplus => format!("; the last {surplus} are empty: take {surplus} commas at the end off"),
    };
    format!("it has {}; a record has 4: an operation and three numbers{last}", counted(count as u64, "field", "fields"))
}

fn operation_name(operation: Operation) -> &'static str {
    OPERATIONS.iter().find(|(_, known)| *known == operation).map_or("", |(name, _)| name)
}

/// What a field stands for, to be put behind its number.
fn field_name(operation: Operation, field: usize) -> &'static str {
    match (operation, field) {
        (Operation::Start | Operation::Pipe, 2) => " (ports)",
        (Operation::Start | Operation::Pipe, 3) => " (slots of a frame)",
        (Operation::Book | Operation::Release | Operation::Arrive, 2) => " (input)",
        (Operation::Book | Operation::Release | Operation::Arrive, 3) => " (output)",
        (Operation::Book | Operation::Release | Operation::Tick, 4) => " (slots)",
        (Operation::Arrive, 4) => " (packets)",
        _ => "",
    }
}

/// What is wrong with a field that is no number.
fn flaw(text: &[u8]) -> String {
    if text.is_empty() {
        return "is empty".to_string();
    }
    let characters = String::from_utf8_lossy(text);
    let other = characters.chars().find(|character| !character.is_ascii_digit());
    let flaw = match (other.and_then(stray_line_end), other) {
        (Some(stray), _) => stray.to_string(),
        (_, None) => format!("it has {} digits", text.len()),
        (_, Some(blank)) if blank.is_whitespace() => "a blank stands in it".to_string(),
        (_, Some('.')) => "a point stands in it".to_string(),
        (_, Some('+' | '-' | '\u{2212}')) => "a sign stands in it".to_string(),
        (_, Some(_)) => "it has other characters than digits".to_string(),
    };
    format!("is `{}`: {flaw}", shown(text))
}

fn start(number: u32, record: &Record) -> Option<String> {
    let [ports, frame, _] = record.numbers;
    let (outside, reason) = match number {
        1 => (!(1..=PORTS_MAX).contains(&ports), format!("{} asked for; a switch has 1 to {PORTS_MAX}", counted(ports, "port", "ports"))),
        2 => {
            let limit = grouped(FRAME_MAX);
            (!(1..=FRAME_MAX).contains(&frame), format!("frames of {} asked for; a frame has 1 to {limit}", slots(frame)))
        }
        3 => {
            let least = format!("a pipelined switch of {ports} ports needs frames of at least {ports} slots");
            (record.operation == Operation::Pipe && frame < ports, format!("{least}; {} asked for", are(frame)))
        }
        _ => return None,
    };
    outside.then_some(reason)
}

/// A tick that came to the end of the clock.
fn clock(record: &Record, event: &Event, switch: &Switch) -> Option<String> {
    let run = event.last_slot.checked_sub(switch.last_slot).filter(|_| event.last_slot >= CLOCK_END)?;
    let asked = slots(record.numbers[2]);
    Some(format!("the clock ends at slot {}: {} of {asked} {} run; a new start begins at slot 1", grouped(CLOCK_END), grouped(run), was(run)))
}

fn call(number: u32, record: &Record, switch: &Switch) -> Option<String> {
    if number == 6 {
        return amount(record, switch);
    }
    let [input, output, amount] = record.numbers;
    let outside: Vec<String> = [("input", input), ("output", output)]
        .into_iter()
        .filter(|(_, port)| !(1..=switch.ports as u64).contains(port))
        .map(|(name, port)| format!("{name} {}", grouped(port)))
        .collect();
    if number == 5 && record.operation != Operation::Tick && !outside.is_empty() {
        let ports = if switch.ports == 1 { "port 1 alone".to_string() } else { format!("ports 1 to {}", switch.ports) };
        return Some(format!("{}; the switch has {ports}", outside.join(" and ")));
    }
    if record.operation == Operation::Tick || !outside.is_empty() {
        return None;
    }
    let (input, output) = (input as usize, output as usize);
    match (number, record.operation) {
        (8, Operation::Book) => sold_out(&format!("input {input}"), switch.row(input), amount, switch.frame),
        (9, Operation::Book) => sold_out(&format!("output {output}"), switch.column(output), amount, switch.frame),
        (10, Operation::Release) => {
            let booked = switch.booked[switch.at(input, output)];
            let reason = format!("input {input} to output {output} has {} booked; {} to be released", slots(booked), were(amount));
            (booked < amount).then_some(reason)
        }
        (11, Operation::Arrive) => queue(input, output, amount, switch),
        _ => None,
    }
}

fn amount(record: &Record, switch: &Switch) -> Option<String> {
    let amount = record.numbers[2];
    let (most, asked, range) = match record.operation {
        Operation::Book => (switch.frame, slots(amount), "a booking is of"),
        Operation::Release => (switch.frame, slots(amount), "a release is of"),
        Operation::Arrive => (PACKETS_MAX, counted(amount, "packet", "packets"), "an arrival is of"),
        Operation::Tick => (TICK_MAX, slots(amount), "a tick runs"),
        Operation::Start | Operation::Pipe => return None,
    };
    let noun = if record.operation == Operation::Arrive { "packets" } else { "slots" };
    let range = if most == 1 { format!("{range} 1 slot, the whole frame") } else { format!("{range} 1 to {} {noun}", grouped(most)) };
    (amount == 0 || amount > most).then(|| format!("{asked} asked for; {range}"))
}

/// A line that has no room for a booking: it sells at most (F + 1) / 2 slots.
fn sold_out(line: &str, sold: u64, asked: u64, frame: u64) -> Option<String> {
    let limit = grouped(frame.div_ceil(2));
    let reason = format!("{line} can sell {limit} of {}; {} sold, {} asked for", slots(frame), are(sold), are(asked));
    (2 * (sold + asked) > frame + 1).then_some(reason)
}

/// The figures are those of arrivals and pairs handed out. Of a pipelined switch some packets more have left the queue, which nobody can count from
/// outside.
fn queue(input: usize, output: usize, asked: u64, switch: &Switch) -> Option<String> {
    let at = switch.at(input, output);
    let (arrived, handed_out) = (switch.arrived[at], switch.by_booking[at] + switch.by_leftover[at]);
    let limit = format!("the queue of input {input} to output {output} holds up to {} packets", grouped(QUEUE_MAX));
    let figures = format!("{} arrived, {} handed out, {} more asked for", grouped(arrived), grouped(handed_out), grouped(asked));
    let in_flight = if switch.form == Form::Pipelined { "; packets in flight to a slot to come no longer count in the queue" } else { "" };
    (arrived + asked > QUEUE_MAX + handed_out).then(|| format!("{limit}; {figures}{in_flight}"))
}

fn slots(number: u64) -> String {
    counted(number, "slot", "slots")
}

fn are(number: u64) -> String {
    counted(number, "is", "are")
}

fn were(number: u64) -> String {
    counted(number, "was", "were")
}

fn was(number: u64) -> &'static str {
    if number == 1 {
        "was"
    } else {
        "were"
    }
}
