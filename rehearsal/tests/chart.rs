//! `kivdrag chart`: the stored charts of the examples, every pair drawn exactly once, well-formed SVG, options and messages.

mod common;
mod support;

use common::{printed, program, root, trace, Folder};
use rehearsal::chart_svg::svg;
use rehearsal::chart_text::{text, Paper};
use rehearsal::event::{Event, Operation, Pair, Record};
use rehearsal::grid::{Collector, Grid, Wanted};
use std::io::{Read, Write};
use std::os::unix::fs::FileTypeExt;
use std::process::{Command, Stdio};
use support::{examples, kivdrag, stored};

/// Slot, input, output, booked.
type Drawn = (u64, usize, usize, bool);

/// The pairs of the file's last switch, as the proved program prints them; `file` has one switch alone.
fn pairs_printed(file: &[u8]) -> Vec<Drawn> {
    let text = String::from_utf8(printed(&program(), file)).unwrap();
    let pair = |line: &str| {
        let fields: Vec<u64> = line.strip_prefix("match,")?.split(',').map(|field| field.parse().unwrap()).collect();
        Some((fields[0], fields[1] as usize, fields[2] as usize, fields[3] == 1))
    };
    let mut pairs: Vec<Drawn> = text.lines().filter_map(pair).collect();
    pairs.sort();
    pairs
}

/// The cells of a chart in characters that starts at slot 1.
fn pairs_in_text(chart: &str) -> Vec<Drawn> {
    let mut slots = vec![0; 33];
    let mut pairs = Vec::new();
    for row in chart.lines().filter_map(|line| line.strip_prefix("input ")) {
        let row = row.replace('|', " ");
        let mut words = row.split_whitespace();
        let input: usize = words.next().unwrap().parse().unwrap();
        for cell in words {
            slots[input] += 1;
            if cell != "." {
                pairs.push((slots[input], input, cell.trim_end_matches('*').parse().unwrap(), cell.ends_with('*')));
            }
        }
    }
    pairs.sort();
    pairs
}

/// The cells of a picture, by their titles.
fn pairs_in_picture(picture: &str) -> Vec<Drawn> {
    let titles = picture.split("<g><title>slot ").skip(1).map(|rest| rest.split_once("</title>").unwrap().0);
    let pair = |title: &str| {
        let booked = title.ends_with(", booked");
        assert!(booked || title.ends_with(", leftover"), "{title}");
        let numbers: Vec<u64> = title.split(|letter: char| !letter.is_ascii_digit()).filter_map(|word| word.parse().ok()).collect();
        (numbers[0], numbers[1] as usize, numbers[2] as usize, booked)
    };
    let mut pairs: Vec<Drawn> = titles.map(pair).collect();
    pairs.sort();
    pairs
}

/// Python's parser takes it, and it needs nothing from elsewhere.
fn assert_well_formed(picture: &str) {
    let parse = "import sys, xml.etree.ElementTree as tree; tree.parse(sys.stdin.buffer)";
    let mut python = Command::new("python3").args(["-c", parse]).stdin(Stdio::piped()).spawn().unwrap();
    python.stdin.take().unwrap().write_all(picture.as_bytes()).unwrap();
    assert!(python.wait().unwrap().success());
    assert!(!picture.contains("href") && !picture.contains("url(") && picture.matches("http").count() == 1);
}

/// The file as the proved program is fed it.
fn repaired(file: Vec<u8>) -> Vec<u8> {
    rehearsal::text::Text::read(file).unwrap().repaired()
}

/// A random file of one switch: the second program's, up to its second accepted start.
fn one_switch(seed: u64) -> Vec<u8> {
    let text = repaired(trace(seed, 2000));
    let mut file = Vec::new();
    let mut starts = 0;
    for line in text.split_inclusive(|&byte| byte == b'\n') {
        starts += (line.starts_with(b"start,") || line.starts_with(b"pipe,")) as u32;
        if starts < 2 {
            file.extend(line);
        }
    }
    file
}

#[test]
fn the_examples_have_their_stored_charts() {
    for (name, status) in examples() {
        stored(&format!("{name}.chart"), &["chart", &format!("examples/{name}.csv")], status);
    }
}

#[test]
fn the_picture_of_the_documents_is_the_one_of_the_hall() {
    let picture = kivdrag(&["chart", "--svg", "-", "examples/hall.csv"], b"");
    assert_eq!((picture.status, &picture.errors[..]), (0, ""));
    assert_eq!(picture.text, std::fs::read_to_string(root().join("docs/hall.svg")).unwrap(), "docs/hall.svg is not what the tool makes");
    assert_well_formed(&picture.text);
}

#[test]
fn every_pair_is_drawn_exactly_once() {
    let example = |(name, _): &(String, i32)| repaired(std::fs::read(root().join(format!("examples/{name}.csv"))).unwrap());
    let mut files: Vec<Vec<u8>> = examples().iter().map(example).collect();
    files.extend((1..=10).map(one_switch));
    let mut drawn = 0;
    for file in files {
        let expected = pairs_printed(&file);
        if expected.is_empty() {
            continue;
        }
        drawn += 1;
        let picture = kivdrag(&["chart", "--slots", "10000", "--svg", "-"], &file);
        assert_eq!(pairs_in_picture(&picture.text), expected);
        assert_well_formed(&picture.text);
        assert_eq!(pairs_in_text(&kivdrag(&["chart", "--slots", "10000"], &file).text), expected);
    }
    assert!(drawn >= 8, "only {drawn} files had pairs");
}

/// A switch of one port, with `slots` slots and a pair in each that is a multiple of 3; booked where it is even.
fn made(frame: u64, slots: u64, wanted: Wanted) -> Result<Grid, String> {
    let mut collector = Collector::new(wanted);
    let pairs: Vec<Pair> = (1..=slots).filter(|slot| slot % 3 == 0).map(|slot| Pair { slot, input: 1, output: 1, booked: slot % 2 == 0 }).collect();
    let mut note = |operation, numbers, pairs: &[Pair], last_slot| {
        collector.note(&Event { line: 2, text: b"", record: Some(Record { operation, numbers }), refusal: None, pairs, last_slot })
    };
    note(Operation::Start, [1, frame, 0], &[], 0);
    note(Operation::Tick, [0, 0, slots], &pairs, slots);
    collector.grid()
}

#[test]
fn bands_follow_each_other_and_keep_frames_whole() {
    for (frame, from, most) in [(10, 1, 30), (10, 7, 30), (7, 1, 30), (100, 1, 30), (100, 95, 30), (1, 5, 30), (30, 3, 30), (31, 3, 30), (4, 2, 1)] {
        let grid = made(frame, 150, Wanted { from, slots: 200, switch: None }).unwrap();
        let bands = grid.bands(most);
        assert_eq!((bands[0].0, bands[bands.len() - 1].1), (from, 150));
        assert!(bands.windows(2).all(|two| two[1].0 == two[0].1 + 1), "{bands:?}");
        assert!(bands.iter().all(|(first, last)| first <= last && last - first < most), "{bands:?}");
        assert!(frame > most || bands[1..].iter().all(|&(first, _)| grid.begins_frame(first)), "{bands:?}");
    }
}

#[test]
fn no_line_is_wider_than_the_paper() {
    let cases = [(1, 5, 80), (3, 5, 80), (10, 5, 80), (10, 5, 41), (11, 3, 39), (23, 5, 80), (24, 5, 80), (1000, 5, 80), (1000, 5, 100)];
    for (frame, from, columns) in cases {
        let grid = made(frame, 150, Wanted { from, slots: 120, switch: None }).unwrap();
        let chart = text(&grid, "a-name-that-is-a-good-deal-longer-than-most-names-of-files-are.csv", &Paper { columns, colour: false });
        let widest = |lines: &mut dyn Iterator<Item = &str>| lines.map(str::len).max().unwrap();
        assert!(widest(&mut chart.lines()) <= columns, "frames of {frame}, {columns} columns:\n{chart}");
        let rows = widest(&mut chart.lines().filter(|line| line.starts_with("input")));
        assert!(rows + 10 + 3 * frame.min(30) as usize > columns, "frames of {frame}: {rows} of {columns}");
    }
}

#[test]
fn a_narrow_paper_breaks_the_legend_and_leaves_out_labels() {
    let chart = text(&made(4, 8, Wanted { from: 1, slots: 8, switch: None }).unwrap(), "made", &Paper { columns: 22, colour: false });
    let end = "\n1* booked: the input\n   was given output 1\n   in a slot of its\n   booking\n";
    assert!(chart.starts_with("made: direct switch, 1\nport, frames of 4\nslots\n\n         frame 1\n") && chart.contains(end), "{chart}");
    let narrower = text(&made(4, 8, Wanted { from: 1, slots: 8, switch: None }).unwrap(), "made", &Paper { columns: 15, colour: false });
    assert!(!narrower.contains("frame 1") && narrower.contains("input 1"), "{narrower}");
}

/// What a chart of the hall is in a terminal of so many columns: its widest row, and whether it has colours.
fn in_terminal(columns: u32, variables: &[(&str, &str)]) -> (usize, bool) {
    let script = "import fcntl, os, pty, struct, sys, termios
process, terminal = pty.fork()
if process == 0:
    fcntl.ioctl(1, termios.TIOCSWINSZ, struct.pack('HHHH', 24, int(sys.argv[1]), 0, 0))
    os.execv(sys.argv[2], sys.argv[2:])
try:
    while part := os.read(terminal, 4096):
        sys.stdout.buffer.write(part)
except OSError:
    pass  # Linux ends a terminal so
os.waitpid(process, 0)";
    let mut python = Command::new("python3");
    python.args(["-c", script, &columns.to_string(), env!("CARGO_BIN_EXE_rehearsal"), "chart", "--program"]).arg(program());
    python.args(["examples/hall.csv"]).current_dir(root()).env_remove("COLUMNS").env_remove("NO_COLOR").env("TERM", "xterm");
    let output = python.envs(variables.iter().copied()).output().unwrap();
    let chart = String::from_utf8(output.stdout).unwrap();
    assert!(chart.contains("a frame begins"), "{chart}");
    let plain = without_colour(&chart);
    let rows = plain.lines().filter(|line| line.starts_with("input"));
    (rows.map(|row| row.trim_end().len()).max().unwrap(), chart.contains('\x1b'))
}

#[test]
fn a_terminal_is_asked_for_its_width_and_dumb_ones_get_no_colour() {
    // of the hall's frames of 10 slots one fits into 40 columns; in 39 there are 9 slots beside each other, of which none in the last is booked
    assert_eq!((in_terminal(40, &[]), in_terminal(39, &[])), ((39, true), (36, true)));
    assert_eq!(in_terminal(200, &[("COLUMNS", "39"), ("TERM", "dumb")]), (36, false));
    assert_eq!(in_terminal(200, &[("NO_COLOR", "1")]), (52, false));
    assert_eq!((in_terminal(0, &[]), in_terminal(40, &[("COLUMNS", "0")])), ((52, true), (39, true)));
}

fn without_colour(chart: &str) -> String {
    let mut stripped = String::new();
    for (at, part) in chart.split('\x1b').enumerate() {
        stripped += if at == 0 { part } else { part.split_once('m').unwrap().1 };
    }
    stripped
}

/// The texts of a picture, each with its x.
fn texts_in_picture(picture: &str) -> Vec<(u64, &str)> {
    let read = |rest| {
        let (x, rest): (&str, &str) = str::split_once(rest, '"').unwrap();
        let (_, rest) = rest.split_once('>').unwrap();
        (x.parse().unwrap(), rest.split_once("</text>").unwrap().0)
    };
    picture.split("<text x=\"").skip(1).map(read).collect()
}

#[test]
fn a_picture_numbers_the_first_slot_of_each_band_and_no_numbers_touch() {
    for from in [1, 3, 98, 1102, 100_003] {
        let grid = made(1000, 100_200, Wanted { from, slots: 120, switch: None }).unwrap();
        let picture = svg(&grid, "made");
        let texts = texts_in_picture(&picture);
        // the row of each band begins with the word slot, whose end is 10 pixels before the first cell
        let rulers = texts.split(|(_, text)| *text == "slot").skip(1);
        for (ruler, (first, _)) in rulers.zip(grid.bands(35)) {
            let numbers: Vec<(u64, u64)> = ruler.iter().map_while(|(x, text)| Some((*x, text.parse().ok()?))).collect();
            let half = first.to_string().len() as u64 * 4;
            assert!(numbers[0].1 == first && numbers[0].0 - half >= 88, "{numbers:?}");
            assert!(numbers.len() > 2 && numbers.windows(2).all(|two| two[1].0 >= two[0].0 + 2 * half + 6), "{numbers:?}");
        }
    }
}

#[test]
fn labels_of_frames_end_before_the_next_frame_or_the_edge() {
    let labels = |frame: u64, from: u64, slots: u64| -> Vec<(u64, String)> {
        let picture = svg(&made(frame, 2000, Wanted { from, slots, switch: None }).unwrap(), "made");
        let texts = texts_in_picture(&picture);
        texts.iter().filter(|(_, text)| text.starts_with("frame ")).map(|(x, text)| (*x, text.to_string())).collect()
    };
    // slot 6 is the last of frame 1 and leaves no room for its label; cells are 33 pixels wide, the first begins at 88
    assert_eq!(labels(6, 6, 30)[0], (88 + 33 + 7, "frame 2".to_string()));
    assert_eq!(labels(6, 1, 30)[0], (88 + 7, "frame 1".to_string()));
    assert_eq!(labels(1, 1, 35), []);
    // the 35th slot begins a frame whose label would leave the picture
    assert_eq!(labels(1000, 967, 35).iter().map(|(_, label)| &label[..]).collect::<Vec<_>>(), ["frame 1"]);
}

#[test]
fn a_long_name_is_shortened_in_the_middle_and_widens_the_picture() {
    let grid = made(10, 5, Wanted { from: 1, slots: 5, switch: None }).unwrap();
    let width = |picture: &str| picture.split('"').nth(3).unwrap().parse::<u64>().unwrap();
    let (short, long) = (svg(&grid, "made"), svg(&grid, &format!("START{}end.csv", "W".repeat(200))));
    assert!(long.contains(&format!(">START{}...{}end.csv: direct switch,", "W".repeat(14), "W".repeat(11))), "{long}");
    assert_eq!(width(&short), 700);
    // 30 capitals of up to 17 pixels, 53 others of about 10, and the margins
    assert!(width(&long) > 30 * 17 + 53 * 10 + 2 * 24, "{}", width(&long));
}

#[test]
fn numbers_of_slots_do_not_touch_each_other() {
    for from in [1, 95, 1100] {
        let chart = text(&made(1, 1200, Wanted { from, slots: 50, switch: None }).unwrap(), "made", &Paper { columns: 80, colour: false });
        let rulers = chart.lines().filter_map(|line| line.strip_prefix("slot"));
        let numbers: Vec<u64> = rulers.flat_map(str::split_whitespace).map(|word| word.parse().unwrap()).collect();
        assert!(numbers.len() >= 20 && numbers.iter().all(|number| (from..from + 50).contains(number)), "{numbers:?}");
    }
}

#[test]
fn colour_changes_no_character() {
    let grid = made(5, 12, Wanted { from: 1, slots: 200, switch: None }).unwrap();
    let (plain, coloured) = (text(&grid, "made", &Paper { columns: 80, colour: false }), text(&grid, "made", &Paper { columns: 80, colour: true }));
    // blue, dark under white for the booked and pale under black for the leftover
    assert_eq!((coloured.matches("\x1b[48;5;26;38;5;231m 1*\x1b[0m").count(), coloured.matches("\x1b[48;5;147;38;5;16m 1 \x1b[0m").count()), (2, 2));
    let trimmed = |text: &str| text.lines().map(|line| line.trim_end().to_string()).collect::<Vec<_>>();
    assert_eq!(trimmed(&without_colour(&coloured)), trimmed(&plain));
}

#[test]
fn options_choose_slots_and_switch() {
    let file = b"h\r\nstart,1,2,0\r\narrive,1,1,9\r\ntick,0,0,5\r\nstart,2,3,0\r\narrive,2,1,9\r\ntick,0,0,9\r\n";
    let last = kivdrag(&["chart"], file);
    assert!(last.text.starts_with("standard input: direct switch, 2 ports, frames of 3 slots\n"), "{}", last.text);
    assert_eq!(last.errors, "kivdrag: the file starts 2 switches; shown is number 2, the last, started in line 5 (--switch shows another)\n");
    let first = kivdrag(&["chart", "--switch", "1"], file);
    assert_eq!((pairs_in_text(&first.text).len(), &first.errors[..], first.status), (5, "", 0));
    let part = kivdrag(&["chart", "--switch=2", "--from", "4", "--slots", "5"], file);
    assert_eq!((pairs_in_text(&part.text).len(), &part.errors[..]), (5, "kivdrag: slots 4 to 8 of 9 are shown (--from and --slots show others)\n"));
    let many = kivdrag(&["chart"], b"h\r\nstart,1,2,0\r\narrive,1,1,900\r\ntick,0,0,1234\r\n");
    assert_eq!(pairs_in_text(&many.text).len(), 200);
    assert_eq!(many.errors, "kivdrag: slots 1 to 200 of 1,234 are shown (--from and --slots show others)\n");
}

#[test]
fn what_cannot_be_drawn_is_one_line_and_status_2() {
    let file: &[u8] = b"h\r\nstart,1,2,0\r\ntick,0,0,5\r\n";
    let cases: [(&[&str], &[u8], &str); 11] = [
        (&["chart", "--from", "6"], file, "--from 6: switch 1 has slots 1 to 5"),
        (&["chart", "--from", "0"], file, "--from 0: a number from 1 to 4,000,000,001 is needed"),
        (&["chart", "--from", "+1"], file, "--from +1: a number from 1 to 4,000,000,001 is needed"),
        (&["chart", "--slots", "0"], file, "--slots 0: a number from 1 to 10,000 is needed"),
        (&["chart", "--slots", "10001"], file, "--slots 10001: a number from 1 to 10,000 is needed"),
        (&["chart", "--switch", "2"], file, "--switch 2: the file has only 1 switch"),
        (&["chart", "--switch", "x"], file, "--switch x: a number from 1 to 1,000,000,000 is needed"),
        (&["chart"], b"h\r\nbook,1,1,1\r\n", "there is nothing to draw: no start or pipe was accepted"),
        (&["chart"], b"h\r\nstart,1,2,0\r\n", "there is nothing to draw: switch 1, started in line 2, ran no slots"),
        (&["chart", "--svg"], file, "--svg needs a value after it"),
        (&["chart", "--svg", "/nowhere/x.svg"], file, "/nowhere/x.svg could not be written: no such file or directory"),
    ];
    for (words, input, line) in cases {
        let ended = kivdrag(words, input);
        assert_eq!((ended.status, &ended.text[..], ended.errors), (2, "", format!("kivdrag: {line}\n")), "{words:?}");
    }
}

#[test]
fn a_picture_takes_its_place_whole() {
    let folder = Folder::new();
    let out = folder.file("picture.svg", b"<svg an older one");
    let ended = kivdrag(&["chart", "--svg", &out, "examples/hall.csv"], b"");
    assert_eq!((ended.status, &ended.text[..], &ended.errors[..]), (0, "", ""));
    let written = std::fs::read_to_string(folder.path("picture.svg")).unwrap();
    assert!(written.starts_with("<svg ") && written.ends_with("</svg>\n"));
    let name = folder.word(".");
    let directory = kivdrag(&["chart", "--svg", &name, "examples/hall.csv"], b"");
    assert_eq!((directory.status, directory.errors), (2, format!("kivdrag: {name} could not be written: is a directory\n")));
    assert_eq!(folder.names(), ["picture.svg"]);
}

#[test]
fn a_file_that_is_no_picture_is_not_written_over() {
    let folder = Folder::new();
    let events = folder.file("events.csv", b"h\r\nstart,1,2,0\r\ntick,0,0,1\r\n");
    let (link, alias) = (folder.word("link.svg"), folder.word("alias.svg"));
    std::os::unix::fs::symlink(&events, &link).unwrap();
    std::fs::hard_link(&events, &alias).unwrap();
    let other = folder.file("other.txt", b"notes");
    let same = "is the event file itself; give another name";
    let no_picture = "is there already and is no picture; give another name";
    // a missing event file is not looked for before
    let cases = [(&events, Some(&events), same), (&link, Some(&events), same), (&alias, Some(&events), same), (&other, Some(&events), no_picture)];
    let missing = folder.word("missing.csv");
    for (out, file, line) in cases.into_iter().chain([(&other, Some(&missing), no_picture), (&events, None, no_picture)]) {
        let words: Vec<&str> = ["chart", "--svg", out].into_iter().chain(file.map(|file| &file[..])).collect();
        let ended = kivdrag(&words, b"h\r\nstart,1,2,0\r\ntick,0,0,1\r\n");
        assert_eq!((ended.status, ended.errors), (2, format!("kivdrag: {out} {line}\n")), "{words:?}");
    }
    assert_eq!(std::fs::read(folder.path("events.csv")).unwrap(), b"h\r\nstart,1,2,0\r\ntick,0,0,1\r\n");
    assert_eq!(std::fs::read(folder.path("other.txt")).unwrap(), b"notes");
    for (name, older) in [("a.svg", "<?xml version=\"1.0\"?>"), ("b.svg", ""), ("c.svg", "<svg>")] {
        let out = folder.file(name, older.as_bytes());
        assert_eq!(kivdrag(&["chart", "--svg", &out, &events], b"").status, 0, "{name}");
        assert!(std::fs::read(folder.path(name)).unwrap().ends_with(b"</svg>\n"), "{name}");
    }
}

#[test]
fn a_pipe_is_written_to_and_stays_a_pipe() {
    let folder = Folder::new();
    let out = folder.word("pipe");
    assert!(Command::new("mkfifo").arg(&out).status().unwrap().success());
    // open for both, so that nobody has to wait; the picture fits into the pipe
    let mut pipe = std::fs::File::options().read(true).write(true).open(&out).unwrap();
    assert_eq!(kivdrag(&["chart", "--svg", &out, "examples/hall.csv"], b"").status, 0);
    assert!(folder.path("pipe").metadata().unwrap().file_type().is_fifo());
    let picture = std::fs::read(root().join("docs/hall.svg")).unwrap();
    let mut written = vec![0; picture.len()];
    pipe.read_exact(&mut written).unwrap();
    assert!(written == picture);
}

#[test]
fn a_name_with_marks_of_xml_is_escaped() {
    let folder = Folder::new();
    let file = folder.file("a<b>&\"c\u{1}.csv", b"h\r\nstart,1,2,0\r\ntick,0,0,1\r\n");
    let picture = kivdrag(&["chart", "--svg", "-", &file], b"").text;
    assert!(picture.contains("<title>a&lt;b&gt;&amp;\"c?.csv: direct switch, 1 port, frames of 2 slots</title>"), "{picture}");
    assert_well_formed(&picture);
}
