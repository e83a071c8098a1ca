//! An event text as spreadsheets write it, and what has to be repaired in it before the event program can read it. Numbers are never touched.

use crate::figures::{counted, grouped};
use crate::record;
use crate::shown::shown;

/// An event text after its repairs: each record ends with CR LF, the last need not.
#[derive(Debug)]
pub struct Text {
    heading: Vec<u8>,
    records: Vec<u8>,
    /// what had to be repaired, a sentence each
    pub repairs: Vec<String>,
    /// what cannot be repaired without a guess
    pub warning: Option<String>,
}

const BYTE_ORDER_MARK: &[u8] = b"\xef\xbb\xbf";

impl Text {
    /// The text of a file's bytes. What is no text of bytes is an error.
    pub fn read(bytes: Vec<u8>) -> Result<Text, String> {
        if bytes.starts_with(b"\xff\xfe") || bytes.starts_with(b"\xfe\xff") {
            return Err("UTF-16 text cannot be read; save it as CSV UTF-8".to_string());
        }
        if bytes.starts_with(b"PK\x03\x04") {
            return Err("an archive or a spreadsheet's own format cannot be read; save it as CSV UTF-8".to_string());
        }
        let mut rest = &bytes[..];
        while let Some(after) = rest.strip_prefix(BYTE_ORDER_MARK) {
            rest = after;
        }
        let marked = rest.len() < bytes.len();
        let mut lines = Lines::of(rest);
        let first = lines.cut_heading();
        let (records, mut notes, blank) = repair_records(lines);
        let (heading, warning) = repair_heading(&first, &mut notes);
        let mut repairs = notes.sentences();
        repairs.extend(heading_sentence(first.breaks()));
        repairs.extend(marked.then(|| "byte order mark: in front of line 1; none is needed".to_string()));
        repairs.extend(blank_sentence(blank));
        Ok(Text { heading, records, repairs, warning })
    }

    /// Line 1 with its line end; empty for an empty file.
    pub fn heading(&self) -> &[u8] {
        &self.heading
    }

    /// The records after the heading, without their line ends: those of line 2, 3 and so on.
    pub fn records(&self) -> impl Iterator<Item = &[u8]> {
        let mut rest = &self.records[..];
        std::iter::from_fn(move || {
            if rest.is_empty() {
                return None;
            }
            let mut at = 0;
            while let Some(found) = rest[at..].iter().position(|&byte| byte == b'\n') {
                at += found + 1;
                if rest[..at].ends_with(b"\r\n") {
                    let record = &rest[..at - 2];
                    rest = &rest[at..];
                    return Some(record);
                }
            }
            Some(std::mem::take(&mut rest))
        })
    }

    /// The whole text as repaired.
    pub fn repaired(&self) -> Vec<u8> {
        [&self.heading[..], &self.records].concat()
    }
}

/// What may have to be repaired in a line.
#[derive(Clone, Copy)]
enum Kind {
    LineFeed,
    CarriageReturn,
    TwoCarriageReturns,
    Quotes,
    Semicolons,
}

/// For each kind, in how many lines it was needed, and the first of them.
#[derive(Default)]
struct Notes([Note; 5]);

#[derive(Clone, Copy, Default)]
struct Note {
    lines: usize,
    first: usize,
}

impl Note {
    fn add(&mut self, lines: usize, first: usize) {
        if lines > 0 && (self.lines == 0 || first < self.first) {
            self.first = first;
        }
        self.lines += lines;
    }
}

impl Notes {
    fn note(&mut self, kind: Kind, line: usize) {
        self.0[kind as usize].add(1, line);
    }

    fn take(&mut self, other: &mut Notes) {
        for (note, other) in self.0.iter_mut().zip(&mut other.0) {
            let Note { lines, first } = std::mem::take(other);
            note.add(lines, first);
        }
    }

    fn has(&self, kind: Kind) -> bool {
        self.0[kind as usize].lines > 0
    }

    fn sentences(&self) -> Vec<String> {
        let found = |kind: Kind, what: &str, needed: &str| {
            let Note { lines, first } = self.0[kind as usize];
            (lines > 0).then(|| format!("{what} in {}, the first is line {}; {needed}", counted(lines as u64, "line", "lines"), grouped(first as u64)))
        };
        let sentences = [
            found(Kind::LineFeed, "line ends: LF", "CR LF is needed"),
            found(Kind::CarriageReturn, "line ends: CR", "CR LF is needed"),
            found(Kind::TwoCarriageReturns, "line ends: CR CR LF", "CR LF is needed"),
            found(Kind::Quotes, "quotes: around fields", "none are needed"),
            found(Kind::Semicolons, "separators: semicolons", "commas are needed"),
        ];
        sentences.into_iter().flatten().collect()
    }
}

fn blank_sentence(Note { lines, first }: Note) -> Option<String> {
    (lines > 0).then(|| format!("blank lines: {} at the end, the first is line {}; none are needed", grouped(lines as u64), grouped(first as u64)))
}

fn heading_sentence(breaks: usize) -> Option<String> {
    (breaks > 0).then(|| format!("{} within the heading; a blank is needed instead", counted(breaks as u64, "line break", "line breaks")))
}

/// A line, and its end as it stands.
struct Line<'a> {
    text: &'a [u8],
    end: &'a [u8],
}

impl Line<'_> {
    fn end_repair(&self) -> Option<Kind> {
        match self.end {
            b"" | b"\r\n" => None,
            b"\n" => Some(Kind::LineFeed),
            b"\r" => Some(Kind::CarriageReturn),
            _ => Some(Kind::TwoCarriageReturns),
        }
    }

    fn repaired_end(&self) -> &'static [u8] {
        if self.end.is_empty() {
            b""
        } else {
            b"\r\n"
        }
    }

    /// The number of CR and LF within it, which end no line.
    fn breaks(&self) -> usize {
        self.text.iter().filter(|&byte| is_break(byte)).count()
    }
}

/// Cuts a text into its lines. CR LF ends a line, with more CR in front too. Where the file has none, each LF does; where it has no LF either, each CR.
/// Any other CR or LF may stand within a number: it ends a line only where what follows begins like a record or is blank.
struct Lines<'a> {
    text: &'a [u8],
    at: usize,
    /// the byte that ends a line wherever it stands
    plain_end: Option<u8>,
    /// up to where each CR and LF is a lone one, and whether they end lines
    lone: (usize, bool),
}

impl<'a> Lines<'a> {
    fn of(text: &[u8]) -> Lines<'_> {
        let plain_end = match text.windows(2).any(|two| two == b"\r\n") {
            true => None,
            false => Some(if text.contains(&b'\n') { b'\n' } else { b'\r' }),
        };
        Lines { text, at: 0, plain_end, lone: (0, false) }
    }

    /// Line 1. In a file with CR LF, a lone CR or LF within a quoted field does not end it.
    fn cut_heading(&mut self) -> Line<'a> {
        self.cut(if self.plain_end.is_none() { break_outside_quotes } else { first_break })
    }

    /// The next line; `find` tells where the next CR or LF stands that may end it.
    fn cut(&mut self, find: impl Fn(&[u8]) -> usize) -> Line<'a> {
        let from = self.at;
        let mut at = from;
        let end = loop {
            at += find(&self.text[at..]);
            if at == self.text.len() {
                break 0;
            }
            if let Some(end) = self.end(at) {
                break end;
            }
            at += 1;
        };
        self.at = at + end;
        Line { text: &self.text[from..at], end: &self.text[at..at + end] }
    }

    /// The length of the line end at a CR or LF; none where it ends no line.
    fn end(&mut self, at: usize) -> Option<usize> {
        if at >= self.lone.0 {
            match self.certain_end(at) {
                Ok(length) => return Some(length),
                Err(length) => self.lone = self.judge_lone(at + length),
            }
        }
        self.lone.1.then_some(1)
    }

    /// The length of the line end at a CR or LF, or of the lone CRs or the lone LF there.
    fn certain_end(&self, at: usize) -> Result<usize, usize> {
        let rest = &self.text[at..];
        if self.plain_end == Some(rest[0]) {
            return Ok(1);
        }
        let returns = rest.iter().take_while(|&&byte| byte == b'\r').count();
        match (returns, rest.get(returns)) {
            (1.., Some(b'\n')) => Ok(returns + 1),
            _ => Err(returns.max(1)),
        }
    }

    /// Whether lone CRs or LFs end lines where this follows them, and up to where there are only such.
    fn judge_lone(&self, mut at: usize) -> (usize, bool) {
        loop {
            let rest = &self.text[at..];
            if rest.first().is_none_or(|byte| byte.is_ascii_alphabetic() || *byte == b'"') {
                return (at, true);
            }
            // Quotes may be taken off, so they do not keep a line from being blank.
            let blank = rest.iter().take_while(|byte| b",; \t\"".contains(byte)).count();
            match rest.get(blank) {
                None => return (at, true),
                Some(byte) if !is_break(byte) => return (at, false),
                Some(_) => match self.certain_end(at + blank) {
                    Ok(_) => return (at + blank, true),
                    Err(length) => at += blank + length,
                },
            }
        }
    }
}

fn is_break(byte: &u8) -> bool {
    b"\r\n".contains(byte)
}

/// Where the first CR or LF stands, or the text ends.
fn first_break(text: &[u8]) -> usize {
    text.iter().position(is_break).unwrap_or(text.len())
}

/// The same, of those that stand within no quoted field.
fn break_outside_quotes(text: &[u8]) -> usize {
    let mut at = 0;
    loop {
        at += quoted(&text[at..]).unwrap_or(0);
        at += text[at..].iter().position(|byte| is_separator(byte) || is_break(byte)).unwrap_or(text.len() - at);
        if !text[at..].first().is_some_and(is_separator) {
            return at;
        }
        at += 1;
    }
}

fn is_separator(byte: &u8) -> bool {
    b",;".contains(byte)
}

/// The length of a quoted field with both of its quotes, where the text begins with a whole one: a separator, a line end or nothing follows.
fn quoted(text: &[u8]) -> Option<usize> {
    let mut rest = text.strip_prefix(b"\"")?;
    loop {
        let at = rest.iter().position(|&byte| byte == b'"')?;
        if rest[..at].windows(2).any(|two| two == b"\r\n") {
            return None;
        }
        rest = &rest[at + 1..];
        match rest.first() {
            Some(b'"') => rest = &rest[1..],
            Some(byte) if !is_separator(byte) && !is_break(byte) => return None,
            _ => return Some(text.len() - rest.len()),
        }
    }
}

/// The lines from line 2 on, repaired; blank ones at the end, which the last note is of, are left out.
fn repair_records(mut lines: Lines) -> (Vec<u8>, Notes, Note) {
    let (mut records, mut notes, mut blank) = (Vec::with_capacity(lines.text.len()), Notes::default(), Note::default());
    let (mut pending, mut kept, mut number) = (Notes::default(), 0, 1);
    while lines.at < lines.text.len() {
        let line = lines.cut(first_break);
        number += 1;
        let from = records.len();
        repair_fields(line.text, &mut records, |kind| pending.note(kind, number));
        let is_blank = is_blank(&records[from..]);
        records.extend_from_slice(line.repaired_end());
        line.end_repair().into_iter().for_each(|kind| pending.note(kind, number));
        if is_blank {
            blank.add(1, number);
        } else {
            notes.take(&mut pending);
            (blank, kept) = (Note::default(), records.len());
        }
    }
    records.truncate(kept);
    (records, notes, blank)
}

/// Line 1, which the program does not read: its line end and line breaks within it are repaired, and else only what other lines need too. The second
/// is a warning where it looks like a record.
fn repair_heading(line: &Line, notes: &mut Notes) -> (Vec<u8>, Option<String>) {
    let (mut repaired, mut own) = (Vec::new(), Notes::default());
    let unbroken: Vec<u8> = line.text.iter().map(|byte| if is_break(byte) { b' ' } else { *byte }).collect();
    repair_fields(&unbroken, &mut repaired, |kind| own.note(kind, 1));
    let warning = looks_like_record(&repaired).then(|| {
        let repaired = shown(&repaired);
        format!("line 1 is taken for the heading and not read, but it looks like a record: {repaired}; put a heading in front of it")
    });
    if [Kind::Quotes, Kind::Semicolons].into_iter().any(|kind| own.has(kind) && notes.has(kind)) {
        notes.take(&mut own);
    } else {
        repaired = unbroken;
    }
    line.end_repair().into_iter().for_each(|kind| notes.note(kind, 1));
    repaired.extend_from_slice(line.repaired_end());
    (repaired, warning)
}

fn looks_like_record(line: &[u8]) -> bool {
    let mut fields = line.split(|&byte| byte == b',');
    fields.next().is_some_and(|name| record::operation(name).is_some()) && fields.any(|field| record::number(field).is_some())
}

/// Whether a line has nothing but separators and blanks.
pub fn is_blank(line: &[u8]) -> bool {
    line.iter().all(|byte| b",; \t".contains(byte))
}

/// Appends a line with its quotes and semicolons repaired, and tells each kind that was needed once. A line with both separators stays as it is.
fn repair_fields(line: &[u8], repaired: &mut Vec<u8>, mut needed: impl FnMut(Kind)) {
    let separator = separator(line).filter(|_| line.iter().any(|byte| b"\";".contains(byte)));
    let Some(separator) = separator else { return repaired.extend_from_slice(line) };
    let mut unquoted = false;
    let mut rest = Some(line);
    while let Some(text) = rest {
        let (field, after) = cut_field(text);
        let content = content(field);
        unquoted |= content.len() < field.len();
        repaired.extend_from_slice(content);
        repaired.extend(after.map(|_| b','));
        rest = after;
    }
    if separator == b';' {
        needed(Kind::Semicolons);
    }
    if unquoted {
        needed(Kind::Quotes);
    }
}

/// The separator that a line has outside quotes, a comma where it has none; nothing where it has both.
fn separator(line: &[u8]) -> Option<u8> {
    let (mut found, mut rest) = (None, line);
    while let (field, Some(after)) = cut_field(rest) {
        let separator = rest[field.len()];
        if *found.get_or_insert(separator) != separator {
            return None;
        }
        rest = after;
    }
    Some(found.unwrap_or(b','))
}

/// The first field, and what follows its separator; nothing where it is the last.
fn cut_field(text: &[u8]) -> (&[u8], Option<&[u8]>) {
    let whole = quoted(text).filter(|&length| text.get(length).is_none_or(is_separator));
    let length = whole.or_else(|| text.iter().position(is_separator)).unwrap_or(text.len());
    (&text[..length], text.get(length + 1..))
}

/// What a field says: without its quotes, where nothing within needs them. A byte order mark does, or it would come to stand in front.
fn content(field: &[u8]) -> &[u8] {
    let [b'"', content @ .., b'"'] = field else { return field };
    let needs_quotes = content.iter().any(|byte| b"\",;\r\n".contains(byte)) || content.starts_with(BYTE_ORDER_MARK);
    if needs_quotes {
        field
    } else {
        content
    }
}
