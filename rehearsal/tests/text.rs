//! What is repaired in an event text, and what is not.

mod common;

use common::Random;
use rehearsal::text::Text;
use std::time::{Duration, Instant};

const CLEAN: &str = "op,input,output,amount\r\nstart,2,3,0\r\nbook,1,1,1\r\ntick,0,0,2\r\n";

fn read(text: impl AsRef<[u8]>) -> Text {
    Text::read(text.as_ref().to_vec()).unwrap()
}

/// The text as repaired, and what is said about it.
fn repaired(text: impl AsRef<[u8]>) -> (String, Vec<String>) {
    let text = read(text);
    (String::from_utf8(text.repaired()).unwrap(), text.repairs)
}

#[track_caller]
fn becomes_clean(text: impl AsRef<[u8]>, repairs: &[&str]) {
    let (text, said) = repaired(text);
    assert_eq!(text, CLEAN);
    assert_eq!(said, repairs);
}

#[track_caller]
fn stays(text: impl AsRef<[u8]>) {
    let text = text.as_ref();
    let read = read(text);
    assert_eq!(read.repairs, [""; 0]);
    assert_eq!(read.repaired(), text, "{}", text.escape_ascii());
}

#[test]
fn a_clean_text_stays() {
    stays(CLEAN);
    stays(CLEAN.trim_end());
    stays("");
    stays("op");
    stays("op\r\n");
    stays("\r\nstart,2,3,0\r\n");
}

#[test]
fn records_are_those_after_the_heading() {
    assert_eq!(read(CLEAN).records().collect::<Vec<_>>(), [b"start,2,3,0", &b"book,1,1,1"[..], b"tick,0,0,2"]);
    assert_eq!(read("op\r\n\r\nbook,1,1,1").records().collect::<Vec<_>>(), [b"", &b"book,1,1,1"[..]]);
    assert_eq!(read("op\r\n").records().count(), 0);
    assert_eq!(read("").records().count(), 0);
}

#[test]
fn line_ends() {
    becomes_clean(CLEAN.replace("\r\n", "\n"), &["line ends: LF in 4 lines, the first is line 1; CR LF is needed"]);
    becomes_clean(CLEAN.replace("\r\n", "\r"), &["line ends: CR in 4 lines, the first is line 1; CR LF is needed"]);
    becomes_clean(CLEAN.replace("\r\n", "\r\r\n"), &["line ends: CR CR LF in 4 lines, the first is line 1; CR LF is needed"]);
    becomes_clean(CLEAN.replace("3,0\r\n", "3,0\n"), &["line ends: LF in 1 line, the first is line 2; CR LF is needed"]);
    let mixed = CLEAN.replacen("\r\n", "\r", 1).replacen("2\r\n", "2\n", 1);
    let said = ["line ends: LF in 1 line, the first is line 4; CR LF is needed", "line ends: CR in 1 line, the first is line 1; CR LF is needed"];
    becomes_clean(mixed, &said);
    assert_eq!(repaired("op\nstart,2,3,0").0, "op\r\nstart,2,3,0");
}

#[test]
fn byte_order_mark() {
    becomes_clean(format!("\u{feff}{CLEAN}"), &["byte order mark: in front of line 1; none is needed"]);
    becomes_clean(format!("\u{feff}\u{feff}{CLEAN}"), &["byte order mark: in front of line 1; none is needed"]);
}

#[test]
fn quotes_around_whole_fields() {
    becomes_clean(CLEAN.replace("book", "\"book\""), &["quotes: around fields in 1 line, the first is line 3; none are needed"]);
    let all = CLEAN.replace(',', "\",\"").replace("\r\n", "\"\r\n\"");
    let all = format!("\"{}", all.strip_suffix('"').unwrap());
    becomes_clean(all, &["quotes: around fields in 4 lines, the first is line 1; none are needed"]);
    for kept in ["\"1,5\"", "\"1;5\"", "\"1\"\"5\"", "\"1", "1\"", "1\"5\"", "\"1\"5", " \"1\"", "\"1\n5\"", "\"1\r5\"", "\"1\"\n5", "\""] {
        stays(format!("op\r\nbook,1,1,{kept}\r\n"));
        stays(format!("op\r\nbook,1,{kept},1\r\n"));
    }
}

#[test]
fn quotes_of_the_heading_alone_need_no_repair() {
    stays(CLEAN.replace("input", "\"input\""));
    stays(CLEAN.replace("op,input,output,amount", "op;input;output;amount"));
}

#[test]
fn a_line_within_quotes_is_a_line() {
    let text = read("op,input,\"output,amount\nstart,2,3,0\nbook,9,9,1\n\"\nstart,2,3,0\n");
    assert_eq!(text.records().collect::<Vec<_>>(), [&b"start,2,3,0"[..], b"book,9,9,1", b"\"", b"start,2,3,0"]);
    assert_eq!(text.repairs, ["line ends: LF in 5 lines, the first is line 1; CR LF is needed"]);
    assert_eq!(read("op\nbook,\"1,1,1\nbook,1,1,1\n").records().count(), 2);
    assert_eq!(read("op\r\nbook,\"1,1,1\r\nbook,1\",1,1\r\n").records().count(), 2);
    assert_eq!(read("op\r\nbook,\"1,1,1\nbook,1\",1,1\r\n").records().count(), 2);
    assert_eq!(read("op,\"a\r\nbook\",1,1,1\r\n").records().count(), 1);
}

#[test]
fn a_line_break_within_the_heading() {
    let said = ["1 line break within the heading; a blank is needed instead"];
    for (heading, whole) in [("\"in\nput\"", "\"in put\""), ("\"in\rput\"", "\"in put\""), ("in\n1", "in 1")] {
        let (text, repairs) = repaired(CLEAN.replace("input", heading));
        assert_eq!((text, &repairs[..]), (CLEAN.replace("input", whole), &said.map(str::to_string)[..]), "{heading:?}");
    }
    let (text, said) = repaired("op,\"a\nb\",\"c\n1\"\nstart,2,3,0\r\n");
    assert_eq!(text, "op,\"a b\",\"c 1\"\r\nstart,2,3,0\r\n");
    let line_end = "line ends: LF in 1 line, the first is line 1; CR LF is needed";
    assert_eq!(said, [line_end, "2 line breaks within the heading; a blank is needed instead"]);
    // A quote that nothing closes protects no line end.
    assert_eq!(read("op,\"input\nstart,2,3,0\r\ntick,0,0,1\r\n").records().count(), 2);
}

#[test]
fn a_lone_line_end_cuts_no_number() {
    for end in ["\r", "\n", "\r\r", "\n\n", "\n \n", "\r,,\n"] {
        for follows in ["0", "000", " 1", ",1", "-1", "\u{feff}1", ";\"1\""] {
            stays(format!("op\r\nbook,1,1,1{end}{follows}\r\ntick,0,0,1\r\n"));
        }
    }
    let (text, said) = repaired("op\nbook,1,1,1\r0\ntick,0,0,1\rtick,0,0,2\n");
    assert_eq!(text, "op\r\nbook,1,1,1\r0\r\ntick,0,0,1\r\ntick,0,0,2\r\n");
    assert_eq!(said[1], "line ends: CR in 1 line, the first is line 3; CR LF is needed");
    // Without CR LF the others end a line whatever follows.
    assert_eq!(repaired("op\nbook,1,1,1\n0\n").0, "op\r\nbook,1,1,1\r\n0\r\n");
    assert_eq!(repaired("op\rbook,1,1,1\r0").0, "op\r\nbook,1,1,1\r\n0");
}

#[test]
fn a_lone_line_end_before_a_record_or_nothing_ends_a_line() {
    for end in ["\r", "\n"] {
        for follows in ["tick,0,0,1", "Tick", "\"tick\",0,0,1", "", "\r\n0", ",,,\r\n0", ",\"\"\r\n0"] {
            let text = read(format!("op\r\nbook,1,1,1{end}{follows}"));
            assert_eq!(text.records().next(), Some(&b"book,1,1,1"[..]), "{end:?} {follows:?}");
            assert!(text.repairs[0].ends_with("in 1 line, the first is line 2; CR LF is needed"), "{:?}", text.repairs);
        }
    }
}

#[test]
fn many_lone_line_ends_take_no_longer() {
    for end in ["\r", "\n", " \r", ",\n"] {
        for follows in ["0\r\n", "tick\r\n", "\r\n", ""] {
            let text = format!("op\r\nbook,1,1,1{}{follows}", end.repeat(300_000));
            let begun = Instant::now();
            read(text);
            assert!(begun.elapsed() < Duration::from_secs(3), "{end:?} {follows:?}");
        }
    }
}

#[test]
fn semicolons() {
    becomes_clean(CLEAN.replace(',', ";"), &["separators: semicolons in 4 lines, the first is line 1; commas are needed"]);
    becomes_clean(CLEAN.replace("book,1,1,1", "book;1;1;1"), &["separators: semicolons in 1 line, the first is line 3; commas are needed"]);
    for kept in ["book;1;1,5;1", "book,1;1,1,1", "book;1,1;\"1\"", "\"book\";1,1;1"] {
        stays(format!("op\r\n{kept}\r\n"));
    }
    let (text, _) = repaired("op\r\nbook;\"1,5\";\"a;b\";\"1\"\r\n");
    assert_eq!(text, "op\r\nbook,\"1,5\",\"a;b\",1\r\n");
}

#[test]
fn blank_last_lines() {
    becomes_clean(format!("{CLEAN}\r\n"), &["blank lines: 1 at the end, the first is line 5; none are needed"]);
    for row in ["", ",,,", ";;;", "  ", "\t", "\"\",\"\",\"\"", "\"\";\"\"", ", ,"] {
        becomes_clean(format!("{CLEAN}{row}\r\n{row}\r\n"), &["blank lines: 2 at the end, the first is line 5; none are needed"]);
        stays(format!("op\r\nstart,2,3,0\r\n{}\r\ntick,0,0,1\r\n", row.replace('"', "").replace(';', ",")));
    }
    becomes_clean(format!("{CLEAN};;;"), &["blank lines: 1 at the end, the first is line 5; none are needed"]);
    assert_eq!(repaired("\r\n\r\n\r\n").0, "\r\n");
}

#[test]
fn all_at_once() {
    let text = format!("\u{feff}{}\n;;;\n\n", CLEAN.trim_end().replace("\r\n", "\n").replace(',', "\";\"").replace('\n', "\"\n\""));
    let text = text.replacen("op\"", "\"op\"", 1).replacen("2\n;", "2\"\n;", 1);
    let said = [
        "line ends: LF in 4 lines, the first is line 1; CR LF is needed",
        "quotes: around fields in 4 lines, the first is line 1; none are needed",
        "separators: semicolons in 4 lines, the first is line 1; commas are needed",
        "byte order mark: in front of line 1; none is needed",
        "blank lines: 2 at the end, the first is line 5; none are needed",
    ];
    becomes_clean(text, &said);
}

#[test]
fn no_number_is_guessed() {
    for number in ["1,5", "1.0", " 1", "1 ", "1 000", "+3", "-3", "1e3", "0x1", "'1", "1\u{a0}000", "", "12345678901"] {
        stays(format!("op\r\nbook,1,1,{number}\r\ntick,0,0,1\r\n"));
    }
    assert_eq!(repaired("op\r\nbook;1;1;\" 1\"\r\n").0, "op\r\nbook,1,1, 1\r\n");
}

#[test]
fn what_is_no_text_is_an_error() {
    for bytes in [&b"\xff\xfeo\0p\0"[..], b"\xfe\xff\0o\0p"] {
        assert_eq!(Text::read(bytes.to_vec()).unwrap_err(), "UTF-16 text cannot be read; save it as CSV UTF-8");
    }
    let archive = Text::read(b"PK\x03\x04\x14\0".to_vec()).unwrap_err();
    assert_eq!(archive, "an archive or a spreadsheet's own format cannot be read; save it as CSV UTF-8");
    assert_eq!(read(b"op\xff\r\n\xfe\0").repaired(), b"op\xff\r\n\xfe\0");
}

#[test]
fn a_record_in_line_1_is_warned_of() {
    let warning = "line 1 is taken for the heading and not read, but it looks like a record: start,2,3,0; put a heading in front of it";
    for first in ["start,2,3,0", "start;2;3;0", "\"start\",\"2\",3,0", "\u{feff}start,2,3,0"] {
        let text = read(format!("{first}\r\nbook,1,1,1\r\n"));
        assert_eq!(text.warning.as_deref(), Some(warning));
    }
    assert!(read("tick,0,0").warning.is_some());
    for first in ["op,input,output,amount", "op,1,2,3", "start,ports,frame,amount", "book", "", "Start,2,3,0"] {
        assert_eq!(read(format!("{first}\r\nbook,1,1,1\r\n")).warning, None);
    }
}

#[test]
fn a_repaired_text_needs_no_repair() {
    let mut random = Random(1);
    let parts = ["\"", "\"", ",", ";", "\r", "\n", "\r\n", "\r\n", "book", "1", " ", "\u{feff}", "op,input\r\n", "\"1\"", "\"a,b\"", "\"\"", "book,1,1,1\n"];
    let mut changed = 0;
    for _ in 0..200_000 {
        let bytes = random.join(&parts, 12);
        let once = read(&bytes);
        let again = read(once.repaired());
        assert_eq!(again.repairs, [""; 0], "{}", bytes.escape_ascii());
        assert_eq!(again.repaired(), once.repaired(), "{}", bytes.escape_ascii());
        assert_eq!(once.repaired() == bytes, once.repairs.is_empty(), "{}", bytes.escape_ascii());
        changed += usize::from(!once.repairs.is_empty());
    }
    assert!((50_000..190_000).contains(&changed), "{changed}");
}

#[test]
fn digits_stay_as_they_are() {
    let mut random = Random(2);
    let parts = ["\"", ",", ";", "\r\n", "\n", "\r", "book", "1", "25", " 3", "+4", "5.5", "\"6\"", "\"7,8\""];
    let digits = |bytes: &[u8]| bytes.iter().copied().filter(|byte| !b"\",;\r\n \t".contains(byte)).collect::<Vec<u8>>();
    for _ in 0..50_000 {
        let bytes = random.join(&parts, 12);
        assert_eq!(digits(&read(&bytes).repaired()), digits(&bytes), "{}", bytes.escape_ascii());
    }
}
