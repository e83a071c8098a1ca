//! What `kivdrag check` says, writes and ends with.

mod common;

use common::{command, said, Folder};
use std::fs;
use std::os::unix::fs::{symlink, MetadataExt, PermissionsExt};
use std::process::{Command, Stdio};

const CLEAN: &str = "op,input,output,amount\r\nstart,2,3,0\r\nbook,1,1,1\r\ntick,0,0,2\r\n";

/// Status, standard output and standard error of a check of a file with these bytes and options before its name.
fn check(bytes: impl AsRef<[u8]>, options: &[&str]) -> (i32, String, String) {
    let folder = Folder::new();
    let file = folder.file("hall.csv", bytes.as_ref());
    said(&command("check", &[options, &[&file]].concat()).output().unwrap())
}

fn check_words(words: &[&str]) -> (i32, String, String) {
    said(&command("check", words).output().unwrap())
}

/// The lines of a check of records, which the heading comes before; the summary is left out.
fn lines(records: &str) -> Vec<String> {
    let (status, output, error) = check(format!("op,input,output,amount\r\n{}\r\n", records.replace('\n', "\r\n")), &[]);
    let lines: Vec<String> = output.lines().map(str::to_string).collect();
    let (summary, lines) = lines.split_last().unwrap();
    assert_eq!((status, error.as_str()), (i32::from(!lines.is_empty()), ""), "{summary}");
    lines.to_vec()
}

/// The last record is the only one refused, with this number and for this reason.
#[track_caller]
fn refused(records: &str, number: u32, reason: &str) {
    let last = records.lines().last().unwrap();
    let record = if last.is_empty() { String::new() } else { format!("{last}: ") };
    assert_eq!(lines(records), [format!("line {}: {record}refused ({number}): {reason}", records.lines().count() + 1)]);
}

#[test]
fn refusals_of_starts() {
    refused("start,2,3,0\nstart,33,3,0", 1, "33 ports asked for; a switch has 1 to 32");
    refused("start,2,3,0\npipe,0,3,0", 1, "0 ports asked for; a switch has 1 to 32");
    refused("start,2,3,0\nstart,2,10001,0", 2, "frames of 10,001 slots asked for; a frame has 1 to 10,000");
    refused("start,2,3,0\npipe,2,0,0", 2, "frames of 0 slots asked for; a frame has 1 to 10,000");
    refused("start,2,3,0\npipe,4,3,0", 3, "a pipelined switch of 4 ports needs frames of at least 4 slots; 3 are asked for");
    refused("start,2,3,0\npipe,2,1,0", 3, "a pipelined switch of 2 ports needs frames of at least 2 slots; 1 is asked for");
}

#[test]
fn refusals_for_ports() {
    refused("start,4,3,0\nbook,5,4,1", 5, "input 5; the switch has ports 1 to 4");
    refused("start,4,3,0\nrelease,4,0,1", 5, "output 0; the switch has ports 1 to 4");
    refused("start,4,3,0\narrive,5,4294967295,1", 5, "input 5 and output 4,294,967,295; the switch has ports 1 to 4");
    refused("start,1,3,0\nbook,2,1,1", 5, "input 2; the switch has port 1 alone");
}

#[test]
fn refusals_for_amounts() {
    refused("start,2,3,0\nbook,1,1,4", 6, "4 slots asked for; a booking is of 1 to 3 slots");
    refused("start,2,1,0\nbook,1,1,2", 6, "2 slots asked for; a booking is of 1 slot, the whole frame");
    refused("start,2,3,0\nrelease,1,1,0", 6, "0 slots asked for; a release is of 1 to 3 slots");
    refused("start,2,3,0\narrive,1,1,65536", 6, "65,536 packets asked for; an arrival is of 1 to 65,535 packets");
    refused("start,2,3,0\ntick,0,0,10001", 6, "10,001 slots asked for; a tick runs 1 to 10,000 slots");
    refused("start,2,3,0\ntick,0,0,0", 6, "0 slots asked for; a tick runs 1 to 10,000 slots");
}

#[test]
fn refusals_for_room() {
    refused("start,2,3,0\nbook,1,1,1\nbook,1,2,2", 8, "input 1 can sell 2 of 3 slots; 1 is sold, 2 are asked for");
    refused("start,2,4,0\nbook,1,1,2\nbook,1,2,1", 8, "input 1 can sell 2 of 4 slots; 2 are sold, 1 is asked for");
    refused("start,2,1,0\nbook,1,1,1\nbook,1,1,1", 8, "input 1 can sell 1 of 1 slot; 1 is sold, 1 is asked for");
    refused("pipe,2,9999,0\nbook,1,1,3000\nbook,2,1,2500", 9, "output 1 can sell 5,000 of 9,999 slots; 3,000 are sold, 2,500 are asked for");
    let released = "start,2,3,0\nbook,1,1,2\nrelease,1,1,1\nbook,1,2,1\nbook,1,2,1";
    refused(released, 8, "input 1 can sell 2 of 3 slots; 2 are sold, 1 is asked for");
    let anew = "start,2,3,0\nbook,1,1,2\nstart,2,3,0\nbook,2,2,1\nbook,1,2,2";
    refused(anew, 9, "output 2 can sell 2 of 3 slots; 1 is sold, 2 are asked for");
}

#[test]
fn refusals_for_what_is_not_booked() {
    refused("start,2,3,0\nbook,1,1,1\nrelease,1,1,2", 10, "input 1 to output 1 has 1 slot booked; 2 were to be released");
    refused("start,2,3,0\nbook,1,1,1\nrelease,1,2,1", 10, "input 1 to output 2 has 0 slots booked; 1 was to be released");
}

#[test]
fn refusals_for_full_queues() {
    let full = format!("{}arrive,1,2,16975\n", "arrive,1,2,65535\n".repeat(15));
    let limit = "the queue of input 1 to output 2 holds up to 1,000,000 packets";
    refused(&format!("start,2,3,0\n{full}arrive,1,2,1"), 11, &format!("{limit}; 1,000,000 arrived, 0 handed out, 1 more asked for"));
    let figures = "1,000,000 arrived, 5 handed out, 6 more asked for";
    refused(&format!("start,2,3,0\nbook,1,2,1\n{full}tick,0,0,5\narrive,1,2,6"), 11, &format!("{limit}; {figures}"));
    // Pipelined: 8 ticks hand out slots 2 to 9, the first of them idle, and one packet more has left the queue for slot 10.
    let piped = lines(&format!("pipe,2,3,0\n{full}tick,0,0,8\narrive,1,2,9\narrive,1,2,8\narrive,1,2,1"));
    assert_eq!(piped.len(), 2, "{piped:?}");
    let in_flight = "; packets in flight to a slot to come no longer count in the queue";
    assert_eq!(piped[0], format!("line 20: arrive,1,2,9: refused (11): {limit}; 1,000,000 arrived, 7 handed out, 9 more asked for{in_flight}"));
    assert_eq!(piped[1], format!("line 22: arrive,1,2,1: refused (11): {limit}; 1,000,008 arrived, 7 handed out, 1 more asked for{in_flight}"));
}

#[test]
fn refusals_of_records_before_a_start() {
    let reason = "no switch is started yet; a start or pipe that is accepted has to come first";
    let lines = lines("book,1,1,1\nstart,33,1,0\ntick,0,0,1\nstart,2,3,0");
    assert_eq!(lines.len(), 3);
    assert_eq!(lines[0], format!("line 2: book,1,1,1: refused (12): {reason}"));
    assert_eq!(lines[2], format!("line 4: tick,0,0,1: refused (12): {reason}"));
}

#[test]
fn refusals_of_records_that_cannot_be_read() {
    let after_start = |record: &str, number, reason: &str| refused(&format!("start,2,3,0\n{record}"), number, reason);
    after_start("book,1\"2,1,1", 12, "a quote (\") stands in it; only quotes around a whole field can be taken off");
    after_start("halt,1,1,1", 12, "the operation `halt` is not known; there are start, pipe, book, release, arrive, tick");
    after_start("Book,1,1,1", 12, "the operation has to be written book, in small letters and without blanks; it is `Book`");
    after_start(" tick ,0,0,1", 12, "the operation has to be written tick, in small letters and without blanks; it is ` tick `");
    after_start("book;1;1,5;1", 12, "semicolons stand in it before the first comma; fields are separated by commas alone");
    after_start("start,2,3,7", 12, "field 4 is 7; start does not use it, and it has to be 0");
    after_start("tick,0,1000,1", 12, "field 3 is 1,000; tick does not use it, and it has to be 0");
    after_start("book,1,1", 13, "it has 3 fields; a record has 4: an operation and three numbers");
    after_start("book", 13, "it has 1 field; a record has 4: an operation and three numbers");
    after_start("book,1,1,1,5", 13, "it has 5 fields; a record has 4: an operation and three numbers");
    let fields = |count| format!("it has {count} fields; a record has 4: an operation and three numbers");
    after_start("book,1,1,1,", 13, &format!("{}; the last is empty: take the comma at the end off", fields(5)));
    after_start("book,1,1,1,,", 13, &format!("{}; the last 2 are empty: take 2 commas at the end off", fields(6)));
    after_start("book,1,1,1,5,", 13, &fields(6));
}

#[test]
fn refusals_of_fields_that_are_no_numbers() {
    let flaw = |record: &str, field: &str| {
        refused(&format!("start,2,3,0\n{record}"), 14, &format!("{field}; a number is 1 to 10 digits and nothing else"));
    };
    flaw("start,two,3,0", "field 2 (ports) is `two`: it has other characters than digits");
    flaw("pipe,2,3.0,0", "field 3 (slots of a frame) is `3.0`: a point stands in it");
    flaw("book,+1,1,1", "field 2 (input) is `+1`: a sign stands in it");
    flaw("book,1,-1,x", "field 3 (output) is `-1`: a sign stands in it");
    flaw("release,1,1, 1", "field 4 (slots) is ` 1`: a blank stands in it");
    flaw("arrive,1,1,1 000", "field 4 (packets) is `1 000`: a blank stands in it");
    flaw("arrive,1,1,", "field 4 (packets) is empty");
    flaw("book,1,1,12345678901", "field 4 (slots) is `12345678901`: it has 11 digits");
    flaw("tick,,0,1", "field 2 is empty");
}

#[test]
fn refusals_of_stray_line_ends() {
    let (status, output, _) = check("op\r\nstart,2,30,0\r\nbook,1,1,1\r0\r\ntick,0,0,1\n000\r\nbook,1,1,1\n2,1,1,1\r\n9\n9\r\n", &[]);
    let number = "stands in it; a number is 1 to 10 digits and nothing else";
    let fields = "it has 7 fields; a record has 4: an operation and three numbers; a stray line end (line feed) stands in it";
    let unknown = "the operation `9\\n9` is not known; there are start, pipe, book, release, arrive, tick; a stray line end (line feed) stands in it";
    let told = [
        format!("line 3: book,1,1,1\\r0: refused (14): field 4 (slots) is `1\\r0`: a stray line end (carriage return) {number}"),
        format!("line 4: tick,0,0,1\\n000: refused (14): field 4 (slots) is `1\\n000`: a stray line end (line feed) {number}"),
        format!("line 5: book,1,1,1\\n2,1,1,1: refused (13): {fields}"),
        format!("line 6: 9\\n9: refused (12): {unknown}"),
        "5 records: 4 refused, the first in line 3".to_string(),
    ];
    assert_eq!((status, output.lines().collect::<Vec<_>>()), (1, told.iter().map(|line| &line[..]).collect()));
}

#[test]
fn records_within_quotes_are_judged() {
    let (status, output, _) = check("op,input,\"output,amount\nstart,2,3,0\nbook,9,9,1\n\"\nstart,2,3,0\n", &[]);
    let told: Vec<&str> = output.lines().collect();
    assert_eq!((status, told[0]), (1, "line 3: book,9,9,1: refused (5): input 9 and output 9; the switch has ports 1 to 2"));
    assert!(told[1].starts_with("line 4: \": refused (12): a quote"), "{output}");
    assert_eq!(told.last(), Some(&"4 records: 2 refused, the first in line 3"));
}

#[test]
fn a_blank_line_in_the_middle() {
    let blank = "refused (12): the line is blank; take it out";
    assert_eq!(lines("start,2,3,0\n\ntick,0,0,1"), [format!("line 3: {blank}")]);
    assert_eq!(lines("start,2,3,0\n,,,\ntick,0,0,1"), [format!("line 3: ,,,: {blank}")]);
}

#[test]
fn records_are_shown_on_one_line() {
    let long = "9".repeat(70);
    let said = lines(&format!("start,2,3,0\n{long}\nbook\u{7}\t\u{a0}é'\\,1"));
    assert_eq!(said[0], format!("line 3: {}…: refused (12): the record has 70 bytes; at most 64 are read", &long[..64]));
    let reason = "refused (12): tabs stand in it before the first comma; fields are separated by commas alone";
    assert_eq!(said[1], format!("line 4: book\\u{{7}}\\t\\u{{a0}}é'\\,1: {reason}"));
    let (_, said, _) = check(b"op\r\nstart,2,3,0\r\nbook\xff,1\r\n", &[]);
    assert!(said.starts_with("line 3: book\\xff,1: refused (12): the operation `book\\xff` is not known"), "{said}");
}

/// What check says where a shell script that prints these lines stands in the place of the program.
fn check_with_program(lines: &str, records: &str) -> (i32, String, String) {
    let folder = Folder::new();
    let print = format!("kind,slot,input,output,detail\n{lines}").replace('\n', "\\r\\n");
    let script = folder.script("program", &format!("cat >/dev/null; printf '{print}'"));
    let file = folder.file("hall.csv", format!("op\n{records}").replace('\n', "\r\n").as_bytes());
    said(&Command::new(env!("CARGO_BIN_EXE_rehearsal")).args(["check", "--program", &script, &file]).output().unwrap())
}

#[test]
fn the_end_of_the_clock() {
    let answers = "refused,0,4294967295,0,5\nrefused,3999999997,4294967295,1,5\nrefused,4000000000,0,0,7\nrefused,4000000000,4294967295,2,5\n";
    let (status, output, _) = check_with_program(answers, "start,2,3,0\ntick,0,0,1\ntick,0,0,9\n");
    let reason = "the clock ends at slot 4,000,000,000: 3 of 9 slots were run; a new start begins at slot 1";
    assert_eq!((status, output), (1, format!("line 4: tick,0,0,9: refused (7): {reason}\n3 records: 1 refused, the first in line 4\n")));
}

/// The program's number decides: a reason that would stand for another one, or whose figures deny it, is not told.
#[test]
fn numbers_that_the_figures_do_not_bear_out() {
    let mark = |number: usize| format!("refused,0,4294967295,{number},5\n");
    for number in 1..=16 {
        for record in ["start,2,3,0", "pipe,2,3,0", "book,1,1,1", "release,1,1,1", "arrive,1,1,1", "tick,0,0,1", "halt,1,1,1"] {
            let echo = if record == "halt,1,1,1" { "0,0" } else { "1,1" };
            let answers = format!("{}{}refused,0,{echo},{number}\n{}", mark(0), mark(1), mark(2));
            let (_, output, error) = check_with_program(&answers, &format!("start,2,3,0\nbook,1,1,1\n{record}\n"));
            let plain = output.starts_with(&format!("line 4: {record}: refused ({number}): the answer is no to: "));
            let borne_out = record == "halt,1,1,1" && number == 12;
            assert_eq!(plain, !borne_out, "{record} {number}: {output}{error}");
        }
    }
}

#[test]
fn summaries_and_statuses() {
    assert_eq!(check(CLEAN, &[]), (0, "3 records: all accepted\n".into(), String::new()));
    assert_eq!(check("op\r\nstart,2,3,0", &[]), (0, "1 record: accepted\n".into(), String::new()));
    assert_eq!(check("", &[]), (1, "no records: no switch was started\n".into(), String::new()));
    assert_eq!(check("op\r\n", &[]).0, 1);
    let (status, output, _) = check("op\r\nbook,1,1,1\r\nstart,0,1,0\r\n", &[]);
    assert_eq!((status, output.lines().last()), (1, Some("2 records: 2 refused, the first in line 2; no switch was started")));
    let many = format!("op\r\nstart,2,3,0\r\n{}", "book,3,1,1\r\n".repeat(1234));
    let (status, output, _) = check(many, &[]);
    assert_eq!((status, output.lines().last()), (1, Some("1,235 records: 1,234 refused, the first in line 3")));
    assert!(output.contains("\nline 1,236: book,3,1,1: refused (5): "));
}

#[test]
fn a_record_in_line_1() {
    let (status, output, _) = check("start,2,3,0\r\nstart,2,3,0\r\n", &[]);
    let warning = "warning: line 1 is taken for the heading and not read, but it looks like a record: start,2,3,0; put a heading in front of it";
    assert_eq!((status, output), (1, format!("{warning}\n1 record: accepted\n")));
}

/// What spreadsheets make of the clean file, with what is said of each.
fn file_kinds() -> Vec<(String, &'static str)> {
    vec![
        (CLEAN.replace("\r\n", "\n"), "line ends: LF in 4 lines, the first is line 1; CR LF is needed"),
        (CLEAN.replace("\r\n", "\r"), "line ends: CR in 4 lines, the first is line 1; CR LF is needed"),
        (format!("\u{feff}{CLEAN}"), "byte order mark: in front of line 1; none is needed"),
        (CLEAN.replace("book", "\"book\""), "quotes: around fields in 1 line, the first is line 3; none are needed"),
        (CLEAN.replace(',', ";"), "separators: semicolons in 4 lines, the first is line 1; commas are needed"),
        (format!("{CLEAN},,,\r\n\r\n"), "blank lines: 2 at the end, the first is line 5; none are needed"),
    ]
}

#[test]
fn each_kind_of_file_is_told_and_repaired() {
    for (bytes, repair) in file_kinds() {
        let folder = Folder::new();
        let file = folder.file("hall.csv", bytes.as_bytes());
        let told = format!("to repair: {repair}\n`kivdrag check --fix {file}` repairs it\n3 records: all accepted\n");
        assert_eq!(check_words(&[&file]), (1, told, String::new()));
        assert_eq!(folder.names(), ["hall.csv"]);

        let told = format!("to repair: {repair}\n{file} is repaired; the original is kept as {file}.orig\n3 records: all accepted\n");
        assert_eq!(check_words(&["--fix", &file]), (0, told, String::new()));
        assert_eq!(folder.names(), ["hall.csv", "hall.csv.orig"]);
        assert_eq!(fs::read_to_string(&file).unwrap(), CLEAN);
        assert_eq!(fs::read_to_string(folder.path("hall.csv.orig")).unwrap(), bytes);
        assert_eq!(check_words(&[&file]), (0, "3 records: all accepted\n".into(), String::new()));
    }
}

#[test]
fn the_command_that_repairs_can_be_copied() {
    let folder = Folder::new();
    let file = folder.file("the hall's.csv", CLEAN.replace("\r\n", "\n").as_bytes());
    let (_, output, _) = check_words(&[&file]);
    let quoted = folder.word("the hall'\\''s.csv");
    assert_eq!(output.lines().nth(1), Some(&format!("`kivdrag check --fix '{quoted}'` repairs it")[..]));
}

#[test]
fn originals_are_kept_under_free_names() {
    let folder = Folder::new();
    let file = folder.word("hall.csv");
    let versions: Vec<String> = (0..3).map(|version| CLEAN.replace("\r\n", "\n").replace("2,3,0", &format!("2,{},0", 3 + version))).collect();
    for version in &versions {
        fs::write(&file, version).unwrap();
        assert_eq!(check_words(&["--fix", &file]).0, 0);
    }
    assert_eq!(folder.names(), ["hall.csv", "hall.csv.orig", "hall.csv.orig.2", "hall.csv.orig.3"]);
    for (version, name) in versions.iter().zip(["hall.csv.orig", "hall.csv.orig.2", "hall.csv.orig.3"]) {
        assert_eq!(&fs::read_to_string(folder.path(name)).unwrap(), version);
    }
}

#[test]
fn a_repaired_file_with_refusals_is_written_all_the_same() {
    let folder = Folder::new();
    let file = folder.file("hall.csv", b"op\nstart,2,3,0\nbook,3,1,1\n");
    let (status, output, _) = check_words(&["--fix", &file]);
    assert_eq!((status, output.lines().next()), (1, Some("line 3: book,3,1,1: refused (5): input 3; the switch has ports 1 to 2")));
    assert_eq!(fs::read(&file).unwrap(), b"op\r\nstart,2,3,0\r\nbook,3,1,1\r\n");
}

#[test]
fn nothing_to_repair_writes_nothing() {
    let folder = Folder::new();
    let file = folder.file("hall.csv", CLEAN.as_bytes());
    let before = fs::metadata(&file).unwrap();
    let told = format!("nothing to repair: {file} stays as it is\n3 records: all accepted\n");
    assert_eq!(check_words(&["--fix", &file]), (0, told, String::new()));
    assert_eq!(folder.names(), ["hall.csv"]);
    assert_eq!(fs::metadata(&file).unwrap().ino(), before.ino());
}

#[test]
fn permissions_are_kept_and_links_followed() {
    let folder = Folder::new();
    let file = folder.file("hall.csv", CLEAN.replace("\r\n", "\n").as_bytes());
    fs::set_permissions(&file, fs::Permissions::from_mode(0o640)).unwrap();
    symlink("hall.csv", folder.path("link.csv")).unwrap();
    let (status, output, _) = check_words(&["--fix", &folder.word("link.csv")]);
    assert_eq!(status, 0);
    assert!(output.contains("hall.csv.orig\n"), "{output}");
    assert_eq!(folder.names(), ["hall.csv", "hall.csv.orig", "link.csv"]);
    assert!(folder.path("link.csv").is_symlink());
    assert_eq!(fs::read_to_string(&file).unwrap(), CLEAN);
    for name in ["hall.csv", "hall.csv.orig"] {
        assert_eq!(fs::metadata(folder.path(name)).unwrap().permissions().mode() & 0o7777, 0o640);
    }
}

#[test]
fn output_goes_to_a_new_file() {
    let folder = Folder::new();
    let damaged = CLEAN.replace("\r\n", "\n");
    let file = folder.file("hall.csv", damaged.as_bytes());
    let out = folder.word("out.csv");
    let told = "to repair: line ends: LF in 4 lines, the first is line 1; CR LF is needed";
    let told = format!("{told}\n{out} is written\n3 records: all accepted\n");
    assert_eq!(check_words(&["--output", &out, &file]), (0, told, String::new()));
    assert_eq!(fs::read_to_string(&out).unwrap(), CLEAN);
    assert_eq!(fs::read_to_string(&file).unwrap(), damaged);
    assert_eq!(folder.names(), ["hall.csv", "out.csv"]);

    // Told before anything is judged.
    fs::write(&out, "mine").unwrap();
    fs::write(&file, "op\nbook,1,1,1\n").unwrap();
    let taken = format!("kivdrag: {out} is there already and is not overwritten; give another name\n");
    assert_eq!(check_words(&["--output", &out, &file]), (2, String::new(), taken));
    assert_eq!(fs::read_to_string(&out).unwrap(), "mine");

    fs::remove_file(&out).unwrap();
    fs::write(&file, CLEAN).unwrap();
    let told = format!("nothing to repair: {out} is written\n3 records: all accepted\n");
    assert_eq!(check_words(&[&format!("--output={out}"), &file]), (0, told, String::new()));
    assert_eq!(fs::read_to_string(&out).unwrap(), CLEAN);

    let nowhere = folder.word("missing/out.csv");
    let error = format!("kivdrag: {nowhere} could not be written: no such file or directory\n");
    assert_eq!(check_words(&["--output", &nowhere, &file]).2, error);
}

#[test]
fn standard_input() {
    let folder = Folder::new();
    let damaged = folder.file("hall.csv", CLEAN.replace("\r\n", "\n").as_bytes());
    let from = |words: &[&str]| said(&command("check", words).stdin(fs::File::open(&damaged).unwrap()).output().unwrap());
    for words in [&[][..], &["-"], &["--", "-"]] {
        let (status, output, _) = from(words);
        assert_eq!((status, output.lines().nth(1)), (1, Some("`kivdrag check --output OUT` writes it repaired to OUT")));
    }
    let error = "kivdrag: standard input cannot be repaired in its place; name a file, or give --output OUT without --fix\n";
    assert_eq!(from(&["--fix"]), (2, String::new(), error.into()));
    let out = folder.word("out.csv");
    assert_eq!(from(&["--output", &out]).0, 0);
    assert_eq!(fs::read_to_string(&out).unwrap(), CLEAN);
}

#[test]
fn what_cannot_be_read() {
    let folder = Folder::new();
    let missing = folder.word("missing.csv");
    let error = |words: &[&str]| {
        let (status, output, error) = check_words(words);
        assert_eq!((status, output.as_str()), (2, ""), "{words:?}");
        error
    };
    let no_file = "no such file, or in a folder that you may not enter";
    assert_eq!(error(&[&missing]), format!("kivdrag: {missing}: {no_file}\n"));
    assert_eq!(error(&["--fix", &missing]), format!("kivdrag: {missing}: {no_file}\n"));
    assert_eq!(error(&[""]), format!("kivdrag: '': {no_file}\n"));
    assert_eq!(error(&["--fix", ""]), format!("kivdrag: '': {no_file}\n"));
    let directory = folder.word("");
    assert_eq!(error(&["--fix", &directory]), format!("kivdrag: {directory} is a directory; name a file in it\n"));
    let wide = folder.file("wide.csv", b"\xff\xfeo\0p\0");
    assert_eq!(error(&["--fix", &wide]), format!("kivdrag: {wide}: UTF-16 text cannot be read; save it as CSV UTF-8\n"));
    assert_eq!(folder.names(), ["wide.csv"]);
    assert_eq!(error(&["--fix", "/dev/null"]), "kivdrag: /dev/null is no plain file and cannot be replaced; give --output OUT without --fix\n");
}

#[test]
fn words_that_are_not_understood() {
    let error = |words: &[&str]| {
        let (status, _, error) = check_words(words);
        assert_eq!(status, 2, "{words:?}");
        error
    };
    assert_eq!(error(&["--mend", "a.csv"]), "kivdrag: --mend is no option of this command; it has --fix, --output\n");
    assert_eq!(error(&["--fix=yes", "a.csv"]), "kivdrag: --fix=yes is no option of this command; it has --fix, --output\n");
    assert_eq!(error(&["a.csv", "--output"]), "kivdrag: --output needs a value after it\n");
    assert_eq!(error(&["--fix", "--fix", "a.csv"]), "kivdrag: --fix is given twice\n");
    assert_eq!(error(&["a.csv", "b.csv"]), "kivdrag: 2 files are named; this command takes one\n");
    assert_eq!(error(&["--output=", "a.csv"]), "kivdrag: --output needs a value after it\n");
    assert_eq!(error(&["--", "--fix"]), "kivdrag: --fix: no such file, or in a folder that you may not enter\n");
    let both = "kivdrag: --fix repairs the file in its place, and --output OUT writes it to OUT; give one of the two\n";
    assert_eq!(error(&["--fix", "--output", "b.csv", "a.csv"]), both);
    assert_eq!(error(&["--output", "-", "a.csv"]), "kivdrag: --output needs the name of a file; standard output has what check says\n");
}

#[test]
fn a_repair_that_cannot_be_written_leaves_the_file() {
    let folder = Folder::new();
    let damaged = CLEAN.replace("\r\n", "\n");
    // The name of a file has at most 255 bytes: with 250 there is no room for the end of another name, on which the superuser fails too.
    let name = format!("{}.csv", "n".repeat(246));
    let file = folder.file(&name, damaged.as_bytes());
    let error = format!("kivdrag: {file} could not be repaired and stands as it was: file name too long\n");
    let told = "to repair: line ends: LF in 4 lines, the first is line 1; CR LF is needed\n";
    assert_eq!(check_words(&["--fix", &file]), (2, told.into(), error));
    assert_eq!(fs::read_to_string(&file).unwrap(), damaged);
    assert_eq!(folder.names(), [name]);
}

#[test]
fn output_that_is_lost() {
    for record in ["book,1,1,1", "book,3,1,1"] {
        let folder = Folder::new();
        let damaged = CLEAN.replace("\r\n", "\n").replace("book,1,1,1", record);
        let file = folder.file("hall.csv", damaged.as_bytes());
        let full = fs::OpenOptions::new().write(true).open("/dev/full").unwrap();
        let output = command("check", &["--fix", &file]).stdout(full).stderr(Stdio::piped()).output().unwrap();
        assert_eq!(said(&output), (2, String::new(), "kivdrag: the output could not be written: no space left on device\n".into()));
        assert_eq!(fs::read_to_string(&file).unwrap(), damaged);
        assert_eq!(folder.names(), ["hall.csv"]);
    }
}

/// The output has room for what is said before the file is replaced, and for no more.
#[test]
fn output_that_is_lost_after_the_repair() {
    let folder = Folder::new();
    let file = folder.file("hall.csv", CLEAN.replace("\r\n", "\n").as_bytes());
    let told = "to repair: line ends: LF in 4 lines, the first is line 1; CR LF is needed\n";
    let out = folder.file("out", &vec![b'\n'; 1024 - told.len()]);
    let check = command("check", &["--fix", &file]);
    let mut limited = Command::new("bash");
    limited.args(["-c", "trap '' XFSZ; ulimit -f 1; exec \"${@:2}\" >>\"$1\"", "bash", &out]).arg(check.get_program()).args(check.get_args());
    let lost = format!("the output could not be written: file too large; {file} is repaired; the original is kept as {file}.orig");
    assert_eq!(said(&limited.output().unwrap()), (2, String::new(), format!("kivdrag: {lost}\n")));
    assert_eq!(fs::read_to_string(&out).unwrap().trim_start(), told);
    assert_eq!(fs::read_to_string(&file).unwrap(), CLEAN);
}

#[test]
fn a_terminal() {
    let script = "import os, pty, subprocess, sys\n\
        master, terminal = pty.openpty()\n\
        run = subprocess.Popen(sys.argv[1:], stdin=terminal)\n\
        os.write(master, b'op\\nstart,1,1,0\\ntick,0,0,1\\n\\x04')\n\
        sys.exit(run.wait(timeout=20))\n";
    let check = command("check", &[]);
    let output = Command::new("python3").args(["-c", script]).arg(check.get_program()).args(check.get_args()).output().unwrap();
    let hint = "type a heading (any line), then records, as start,2,3,0; each line gets its CR LF; Ctrl-D in an empty line ends the input";
    assert_eq!(said(&output), (0, "2 records: all accepted\n".into(), format!("kivdrag: {hint}\n")));
}

#[test]
fn a_reader_that_leaves_ends_it_quietly() {
    let folder = Folder::new();
    let file = folder.file("hall.csv", format!("op\r\nstart,2,3,0\r\n{}", "book,3,1,1\r\n".repeat(10_000)).as_bytes());
    let mut child = command("check", &[&file]).stdout(Stdio::piped()).stderr(Stdio::piped()).spawn().unwrap();
    drop(child.stdout.take());
    assert_eq!(said(&child.wait_with_output().unwrap()), (141, String::new(), String::new()));
}
