//! What came of each record is what the proved program says of it.

mod common;

use common::{printed, program, trace, Folder};
use rehearsal::event::{Event, Operation, Pair};
use rehearsal::feed::feed;
use rehearsal::text::Text;
use std::fmt::Write;
use std::fs;
use std::path::Path;

const HEADING: &str = "kind,slot,input,output,detail\r\n";

fn text(text: &str) -> Text {
    Text::read(format!("op,input,output,amount\r\n{}\r\n", text.replace('\n', "\r\n")).into_bytes()).unwrap()
}

/// What the program prints for an event, made from the event alone.
struct Printer {
    lines: String,
    started: bool,
}

impl Printer {
    fn print(&mut self, event: &Event) {
        for Pair { slot, input, output, booked } in event.pairs {
            write!(self.lines, "match,{slot},{input},{output},{}\r\n", if *booked { 1 } else { 2 }).unwrap();
        }
        match (event.refusal, event.record) {
            (Some(number), Some(record)) if self.started => {
                let [input, output, _] = record.numbers;
                write!(self.lines, "refused,{},{input},{output},{number}\r\n", event.last_slot).unwrap();
            }
            (Some(number), _) => write!(self.lines, "refused,0,0,0,{number}\r\n").unwrap(),
            (None, record) => self.started |= matches!(record.unwrap().operation, Operation::Start | Operation::Pipe),
        }
    }
}

/// Feeds a text with marks; the events printed are what the program prints without marks. The number of events.
fn same_without_marks(text: &Text) -> usize {
    let mut printer = Printer { lines: HEADING.to_string(), started: false };
    let mut lines = Vec::new();
    feed(&program(), text, |event| {
        printer.print(event);
        lines.push((event.line, event.text.to_vec()));
    })
    .unwrap();
    assert_eq!(printer.lines, String::from_utf8(printed(&program(), &text.repaired())).unwrap());
    let records: Vec<_> = (2..).zip(text.records().map(<[u8]>::to_vec)).collect();
    assert_eq!(lines, records);
    lines.len()
}

#[test]
fn marks_change_nothing_in_random_files() {
    let events: usize = (1..=40).map(|seed| same_without_marks(&Text::read(trace(seed, 500)).unwrap())).sum();
    assert!(events > 15_000, "{events}");
}

#[test]
fn marks_change_nothing_in_the_examples() {
    let files = fs::read_dir(common::root().join("examples")).unwrap().map(|entry| entry.unwrap().path());
    let events = files.filter(|file| file.extension().is_some_and(|end| end == "csv")).map(|file| {
        let events = same_without_marks(&Text::read(fs::read(&file).unwrap()).unwrap());
        assert!(events > 5, "{}", file.display());
    });
    assert!(events.count() >= 5);
}

#[test]
fn a_record_that_equals_a_mark_is_no_mark() {
    let inputs = ["4294967295", "4294967294", "4294967296", "4294967295"];
    let copies = |numbers: std::ops::Range<usize>| -> String {
        numbers.map(|number| format!("{},{},{number},1\n", ["release", "book"][number / 4 % 2], inputs[number % 4])).collect()
    };
    let text = text(&format!("{}start,2,3,0\n{}tick,0,0,1\n{}", copies(0..24), copies(25..49), copies(50..74).trim_end()));
    assert_eq!(same_without_marks(&text), 74);
    let mut numbers = Vec::new();
    feed(&program(), &text, |event| numbers.push(event.refusal.unwrap_or(0))).unwrap();
    assert_eq!(numbers, [vec![12; 24], vec![0], vec![5; 24], vec![0], vec![5; 24]].concat());
}

#[test]
fn events_of_a_small_file() {
    let mut events = Vec::new();
    let text = text("tick,0,0,1\nstart,2,3,0\nbook,1,1,1\narrive,1,1,2\ntick,0,0,2\nbook,1,2,2\npipe,3,2,0\ntick,0,0,0");
    feed(&program(), &text, |event| {
        events.push((event.line, event.record.map(|record| record.numbers), event.refusal, event.pairs.to_vec(), event.last_slot));
    })
    .unwrap();
    let pair = |slot, booked| Pair { slot, input: 1, output: 1, booked };
    let expected = [
        (2, None, Some(12), vec![], 0),
        (3, Some([2, 3, 0]), None, vec![], 0),
        (4, Some([1, 1, 1]), None, vec![], 0),
        (5, Some([1, 1, 2]), None, vec![], 0),
        (6, Some([0, 0, 2]), None, vec![pair(1, true), pair(2, false)], 2),
        (7, Some([1, 2, 2]), Some(8), vec![], 2),
        (8, Some([3, 2, 0]), Some(3), vec![], 2),
        (9, Some([0, 0, 0]), Some(6), vec![], 2),
    ];
    assert_eq!(events, expected);
}

#[test]
fn files_without_records() {
    for bytes in ["", "op", "op\r\n"] {
        feed(&program(), &Text::read(bytes.into()).unwrap(), |event| panic!("{event:?}")).unwrap();
    }
}

/// The error where a shell script stands in the place of the program.
fn error_of(script: &str, text: &Text) -> String {
    let folder = Folder::new();
    feed(Path::new(&folder.script("program", script)), text, |_| {}).unwrap_err()
}

fn print_of(lines: &str) -> String {
    format!("cat >/dev/null; printf '{}'", format!("{HEADING}{lines}").replace('\r', "\\r").replace('\n', "\\n"))
}

#[test]
fn a_program_that_is_not_there() {
    let error = feed(Path::new("/nowhere/kivdrag"), &text("start,2,3,0"), |_| {}).unwrap_err();
    assert_eq!(error, "the event program /nowhere/kivdrag cannot be started: no such file or directory");
}

#[test]
fn a_program_that_is_killed_or_ends_early() {
    let text = text(&["start,2,3,0"; 100_000].join("\n"));
    let early = |line| format!("the event program ended early, at line {line} of the file; run it again");
    assert_eq!(error_of(&format!("{}; kill -9 $$", print_of("refused,0,4294967295,0,5\r\n")), &text), early(3));
    assert_eq!(error_of(&format!("printf '{}'", HEADING.replace('\r', "\\r").replace('\n', "\\n")), &text), early(2));
    let no_heading = "the event program does not begin with its heading; build it anew";
    assert_eq!(error_of("exit 0", &text), no_heading);
    assert_eq!(error_of("exec cat", &text), no_heading);
    assert_eq!(error_of("exec yes", &text), no_heading);
}

#[test]
fn answers_that_do_not_fit() {
    let mark = |number: usize| format!("refused,0,4294967295,{number},5\r\n");
    let start = mark(0);
    let text = text("start,2,3,0\ntick,0,0,1");
    let unfitting = "the event program's answer to line 3 does not fit the record; build it anew";
    let lines = ["match,1,3,1,1\r\n", "match,1,1,0,1\r\n", "match,1,1,1,3\r\n", "match,1,1,1\r\n", "match,1,1,1,1\n", "refused,0,0,0,0\r\n", "hello\r\n"];
    for answer in lines {
        assert_eq!(error_of(&print_of(&format!("{start}{answer}{}", mark(1))), &text), unfitting, "{answer}");
    }
    let refused = "refused,0,0,0,6\r\n";
    for answer in [format!("{refused}match,1,1,1,1\r\n"), refused.repeat(2), format!("{refused}{}", mark(0)), mark(0) + &mark(0)] {
        assert_eq!(error_of(&print_of(&format!("{start}{answer}{}", mark(1))), &text), unfitting, "{answer}");
    }
    // A mark is echoed only where a start was accepted before it.
    let early = error_of(&print_of(&format!("refused,0,0,0,1\r\n{start}{}", mark(1))), &text);
    assert_eq!(early, unfitting.replace("line 3", "line 2"));
    let more = print_of(&format!("{start}{}{}", mark(1), mark(1)));
    assert_eq!(error_of(&more, &text), "the event program printed more than the file asks for; build it anew");
}

#[test]
fn accepted_records_that_cannot_be_accepted() {
    let marks = |count: usize| (0..count).map(|number| format!("refused,0,4294967295,{number},5\r\n")).collect::<String>();
    for (line, records) in [(2, "start,33,3,0"), (2, "book,1,1,1"), (3, "start,2,3,0\nbook,3,1,1"), (3, "start,2,3,0\nhalt,1,1,1")] {
        let error = error_of(&print_of(&marks(records.lines().count())), &text(records));
        assert_eq!(error, format!("the event program's answer to line {line} does not fit the record; build it anew"));
    }
}
