//! `kivdrag report`: figures worked out by hand, the stored reports of the examples, and random files beside the second program.

mod common;
mod support;

use common::{root, trace};
use rehearsal::event::{Event, Operation, Pair, Record};
use rehearsal::measure::{Measured, Reading, Row, Wait};
use rehearsal::report::{Report, Style};
use rehearsal::switch::Switch;
use rehearsal::verdict::rules;
use rehearsal::Status;
use second::events::{run_with_switches, Started};
use second::ledger::Claim;
use second::Form;
use support::{examples, kivdrag, stored};

/// Accepted records, made by hand: operation, numbers, the pairs handed out (slot, input, output, booked), the last slot run.
type Made<'a> = (Operation, [u64; 3], &'a [(u64, usize, usize, bool)], u64);

fn each_event(made: &[Made], mut each: impl FnMut(&Event)) {
    for (at, &(operation, numbers, pairs, last_slot)) in made.iter().enumerate() {
        let pairs: Vec<Pair> = pairs.iter().map(|&(slot, input, output, booked)| Pair { slot, input, output, booked }).collect();
        let record = Some(Record { operation, numbers });
        each(&Event { line: at + 2, text: b"", record, refusal: None, pairs: &pairs, last_slot });
    }
}

fn measured(made: &[Made]) -> Measured {
    let mut measured = None;
    each_event(made, |event| match Switch::begun_by(event) {
        Some(switch) => measured = Some(Measured::new(switch)),
        None => measured.as_mut().expect("a start comes first").note(event),
    });
    measured.expect("a start is there")
}

fn reported(made: &[Made]) -> (String, Result<Status, String>) {
    let mut report = Report::new(Style::default());
    each_event(made, |event| report.note(event));
    let end = report.end(None);
    (report.text, end)
}

use Operation::*;

#[test]
fn waits_are_those_of_first_come_first_served() {
    // Of (1, 1) two packets come before tick 1 and go in slots 1 and 3: waits 1 and 3. One comes after tick 2 and goes in slot 6: wait 4.
    let made: [Made; 9] = [
        (Start, [2, 10, 0], &[], 0),
        (Book, [1, 1, 2], &[], 0),
        (Arrive, [1, 1, 1], &[], 0),
        (Arrive, [1, 1, 1], &[], 0),
        (Tick, [0, 0, 2], &[(1, 1, 1, true)], 2),
        (Arrive, [1, 1, 1], &[], 2),
        (Arrive, [2, 2, 3], &[], 2),
        (Tick, [0, 0, 2], &[(3, 1, 1, true), (3, 2, 2, false)], 4),
        (Tick, [0, 0, 3], &[(6, 1, 1, false)], 7),
    ];
    let row = Row {
        input: 1,
        output: 1,
        booked: 2,
        arrived: 3,
        by_booking: 2,
        by_leftover: 1,
        waiting: 0,
        worst: Some(Wait { slots: 4, goes_on: false }),
        reading: Some(Reading { a: 2, m: 0 }),
    };
    let rows = measured(&made).rows();
    assert_eq!(rows[0], row);
    // Of (2, 2) one of three has gone at once; the others have waited since tick 2, five ticks up to 7.
    assert_eq!((rows[3].waiting, rows[3].worst), (2, Some(Wait { slots: 5, goes_on: true })));
    assert_eq!((rows[1].worst, rows[1].is_blank(), rows[3].is_blank()), (None, true, false));
}

#[test]
fn packets_of_two_ticks_wait_each_for_themselves() {
    // One comes before tick 1 and goes in slot 2, one comes before tick 2 and goes in slot 3: both wait 2.
    let made: [Made; 5] = [
        (Start, [1, 10, 0], &[], 0),
        (Arrive, [1, 1, 1], &[], 0),
        (Tick, [0, 0, 1], &[], 1),
        (Arrive, [1, 1, 1], &[], 1),
        (Tick, [0, 0, 2], &[(2, 1, 1, false), (3, 1, 1, false)], 3),
    ];
    assert_eq!(measured(&made).rows()[0].worst, Some(Wait { slots: 2, goes_on: false }));
}

#[test]
fn a_pair_released_within_its_frame_is_still_told() {
    let made: [Made; 4] = [(Start, [1, 10, 0], &[], 0), (Book, [1, 1, 1], &[], 0), (Tick, [0, 0, 1], &[], 1), (Release, [1, 1, 1], &[], 1)];
    assert!(!measured(&made).rows()[0].is_blank());
    assert!(measured(&made[..1]).rows()[0].is_blank());
}

#[test]
fn a_packet_that_still_waits_is_the_worst_where_it_is_level() {
    let waits = |ticks: u64| {
        let made: [Made; 5] = [
            (Start, [1, 10, 0], &[], 0),
            (Arrive, [1, 1, 1], &[], 0),
            (Tick, [0, 0, 3], &[(3, 1, 1, false)], 3),
            (Arrive, [1, 1, 1], &[], 3),
            (Tick, [0, 0, ticks], &[], 3 + ticks),
        ];
        measured(&made).rows()[0].worst
    };
    assert_eq!(waits(2), Some(Wait { slots: 3, goes_on: false }));
    assert_eq!(waits(3), Some(Wait { slots: 3, goes_on: true }));
    let just_arrived = measured(&[(Start, [1, 10, 0], &[], 0), (Arrive, [1, 1, 1], &[], 0)]);
    assert_eq!(just_arrived.rows()[0].worst, Some(Wait { slots: 0, goes_on: true }));
    assert_eq!((just_arrived.rows()[0].reading, just_arrived.frames_begun()), (None, 0));
}

#[test]
fn pipelined_tick_k_hands_out_slot_k_plus_1() {
    // The packet comes before tick 1; slot 4 is handed out by tick 3, so it waits 3 ticks. The other has waited 5.
    let made: [Made; 3] = [(Pipe, [2, 4, 0], &[], 0), (Arrive, [1, 2, 2], &[], 0), (Tick, [0, 0, 5], &[(4, 1, 2, false)], 5)];
    let measured = measured(&made);
    assert_eq!(measured.rows()[1].worst, Some(Wait { slots: 5, goes_on: true }));
    // slots 2 to 6 are handed out, of frames 1 and 2
    assert_eq!((measured.switch.last_handed_out(), measured.frames_begun()), (6, 2));
    let first: [Made; 3] = [made[0], (Arrive, [1, 2, 1], &[], 0), made[2]];
    assert_eq!(self::measured(&first).rows()[1].worst, Some(Wait { slots: 3, goes_on: false }));
}

#[test]
fn a_and_m_are_those_of_the_last_frame_read() {
    // Direct, frames of 3: slot 4 reads 1 for (1, 1), 2 for (1, 2) and 1 for (2, 1); what is booked after tick 4 is not read yet.
    let mut made: Vec<Made> = vec![
        (Start, [2, 3, 0], &[], 0),
        (Book, [1, 1, 1], &[], 0),
        (Tick, [0, 0, 1], &[], 1),
        (Book, [2, 1, 1], &[], 1),
        (Tick, [0, 0, 2], &[], 3),
    ];
    let reading = |made: &[Made], at: usize| (measured(made).frame_read, measured(made).rows()[at].reading);
    assert_eq!(reading(&made, 0), (1, Some(Reading { a: 1, m: 0 })));
    made.extend([(Book, [1, 2, 2], &[][..], 3), (Tick, [0, 0, 1], &[], 4), (Release, [1, 1, 1], &[], 4)]);
    assert_eq!(reading(&made, 0), (2, Some(Reading { a: 1, m: 3 })));
    assert_eq!(reading(&made, 3), (2, Some(Reading { a: 0, m: 3 })));
    assert_eq!((Reading { a: 1, m: 3 }.first_by(), Reading { a: 0, m: 3 }.first_by()), (Some(4), None));
    // Pipelined, 2 ports, frames of 3: frames 1 and 2 begin at slots 1 and 4, not above 2N, and are never read; frame 3, from slot 7, by tick 3.
    let mut made: Vec<Made> = vec![(Pipe, [2, 3, 0], &[], 0), (Book, [1, 1, 1], &[], 0), (Tick, [0, 0, 2], &[], 2)];
    assert_eq!(reading(&made, 0), (0, None));
    made.extend([(Release, [1, 1, 1], &[][..], 2), (Book, [2, 1, 1], &[], 2), (Tick, [0, 0, 1], &[], 3)]);
    assert_eq!(reading(&made, 0), (3, Some(Reading { a: 0, m: 1 })));
}

#[test]
fn what_the_proof_excludes_is_an_error() {
    let lost = |pairs: &[(u64, usize, usize, bool)]| {
        let made: [Made; 4] = [(Start, [2, 3, 0], &[], 0), (Book, [1, 1, 1], &[], 0), (Arrive, [1, 1, 9], &[], 0), (Tick, [0, 0, 3], pairs, 3)];
        reported(&made)
    };
    let (text, kept) = lost(&[(1, 1, 1, true)]);
    assert_eq!(kept, Ok(Status::Accepted));
    assert!(text.contains("Kept: in the one frame "), "{text}");
    let says = |pairs: &[(u64, usize, usize, bool)], words: &str| {
        let (text, end) = lost(pairs);
        let line = end.unwrap_err();
        assert!(line.starts_with("the switch of line 2 did what the proof excludes: ") && line.ends_with("; please report this, with the file"));
        assert!(line.contains(words) && text.contains("NOT kept.") && !text.contains("Kept"), "{line}\n{text}");
    };
    says(&[], "in frame 1 input 1 to output 1 was served by its booking 0 times; with a = 1, m = 0 and b = 3 at least 1 and at most 1 are proved");
    says(&[(1, 1, 1, true), (2, 1, 1, true)], "was served by its booking 2 times; with a = 1, m = 0 and b = 3 at least 1 and at most 1 are proved");
    says(&[(2, 1, 1, true)], "waited from the first slot on, with a = 1 and m = 0, and was not served by its booking n times by slot m + n");
    says(&[(1, 1, 1, true), (2, 2, 1, false)], "slot 2 handed out input 2 to output 1, which had no packet");
    let (_, oversold) = reported(&[(Start, [2, 3, 0], &[], 0), (Book, [1, 1, 2], &[], 0), (Book, [1, 2, 2], &[], 0), (Tick, [0, 0, 1], &[], 1)]);
    assert!(oversold.unwrap_err().contains("in frame 1 input 1 to output 1 has a = 2 and m = 2, more than the frame's 3 slots"));
}

#[test]
fn a_switch_too_large_for_the_ledger_gets_no_verdict() {
    let slots = |ports: u64, frame: u64, ticks: u64, records: u64| {
        let mut made: Vec<Made> = vec![(Start, [ports, frame, 0], &[], 0)];
        made.extend((1..=records).map(|record| (Tick, [0, 0, ticks], &[][..], record * ticks)));
        let (text, end) = reported(&made);
        assert_eq!(end, Ok(Status::Accepted));
        text
    };
    let says = |text: String, words: &str| assert!(text.contains(words) && !text.contains("Kept"), "{text}");
    says(slots(1, 10_000, 10_000, 101), "1,010,000 slots and arrivals would have to be judged; the ledger takes up to 1,000,000 in");
    says(slots(32, 10_000, 9_800, 5), "50,176,000 slots and arrivals times pairs would have to be judged; the ledger takes up to 50,000,000 in");
    says(slots(32, 1, 489, 1), "Verdict not taken: with this switch 500,736 frames times pairs would have to be judged; the ledger takes up to");
    assert!(slots(32, 1, 100, 1).contains("Kept: in each of 100 frames"));
    assert!(slots(2, 5, 1, 0).contains("No slot was run, so there is no frame to judge."));
}

#[test]
fn all_switches_of_a_file_share_what_the_ledger_takes() {
    // frames times pairs: 400,000, then 200,000, which are too many, then 100,000
    let switches = [400_000, 200_000, 100_000].map(|slots| -> [Made; 2] { [(Start, [1, 1, 0], &[], 0), (Tick, [0, 0, slots], &[], slots)] });
    let (text, end) = reported(&switches.concat());
    assert_eq!(end, Ok(Status::Accepted));
    let verdicts: Vec<&str> = text.lines().filter(|line| line.starts_with("Kept") || line.starts_with("Verdict")).collect();
    assert_eq!(verdicts.len(), 3, "{text}");
    assert!(verdicts[0].starts_with("Kept: in each of 400,000 frames") && verdicts[2].starts_with("Kept: in each of 100,000 frames"), "{text}");
    assert!(verdicts[1].starts_with("Verdict not taken: with this switch 600,000 frames times pairs"), "{text}");
}

#[test]
fn kept_is_told_of_pairs_that_were_judged() {
    let kept = |made: &[Made]| -> Vec<String> {
        let mut report = Report::new(Style { csv: true, ..Style::default() });
        each_event(made, |event| report.note(event));
        let _ = report.end(None);
        report.text.split_terminator("\r\n").skip(1).map(|line| line.rsplit(',').next().unwrap().to_string()).collect()
    };
    // 2 ports, frames of 1 slot; in frame 2 of 3 the pair (1, 1) does not get what it has booked
    let ticks: Made = (Tick, [0, 0, 3], &[(1, 1, 1, true), (3, 1, 1, true)], 3);
    let made: [Made; 4] = [(Start, [2, 1, 0], &[], 0), (Book, [1, 1, 1], &[], 0), (Arrive, [1, 1, 9], &[], 0), ticks];
    assert_eq!(kept(&made), ["no", "yes", "yes", "yes"]);
    assert_eq!(kept(&made[..3]), ["not judged"; 4]);
    assert_eq!(kept(&[(Start, [1, 1, 0], &[], 0), (Tick, [0, 0, 500_001], &[], 500_001)]), ["not judged"]);
}

#[test]
fn the_examples_have_their_stored_reports() {
    for (name, status) in examples() {
        let file = format!("examples/{name}.csv");
        stored(&format!("{name}.report"), &["report", &file], status);
        stored(&format!("{name}.csv"), &["report", &file, "--csv"], status);
    }
    stored("hall.slot-ns.report", &["report", "--all", "--slot-ns", "5.12", "examples/hall.csv"], 0);
    stored("pipelined.slot-ns.csv", &["report", "--csv", "--slot-ns", "512", "examples/pipelined.csv"], 0);
}

#[test]
fn the_readme_shows_the_report_of_the_kiosk() {
    let readme = std::fs::read_to_string(root().join("README.md")).unwrap();
    let (_, block) = readme.split_once("$ ./kivdrag report --slot-ns 5120 examples/kiosk.csv\n").expect("README.md shows the command");
    let (shown, _) = block.split_once("```").unwrap();
    let report = kivdrag(&["report", "--slot-ns", "5120", "examples/kiosk.csv"], b"").text;
    let (told, _) = report.split_once("\nMEASURED").unwrap();
    assert_eq!(shown, told);
}

#[test]
fn files_without_an_accepted_start_and_options_that_cannot_be() {
    let none = kivdrag(&["report", "-"], b"op,input,output,amount\r\nbook,1,1,1\r\n");
    let no_switch = "No start or pipe was accepted, so there is no switch to report on.\n";
    assert_eq!((none.status, none.text), (1, format!("{no_switch}1 record was refused, in line 2: `kivdrag check` tells why.\n")));
    let empty = kivdrag(&["report"], b"");
    assert_eq!((empty.status, &empty.text[..]), (1, no_switch));
    let csv = kivdrag(&["report", "--csv"], b"h\r\nbook,1,1,1\r\n");
    assert_eq!((csv.status, csv.text.lines().count()), (1, 1));
    assert_eq!(csv.errors, format!("kivdrag: {no_switch}kivdrag: 1 record was refused, in line 2: `kivdrag check` tells why.\n"));
    let repaired = kivdrag(&["report"], b"h\nstart,1,2,0\ntick,0,0,1\n");
    assert!(repaired.status == 0 && repaired.errors.starts_with("kivdrag: line ends: LF in 3 lines"), "{}", repaired.errors);
    for words in ["--slot-ns 0", "--slot-ns x", "--slot-ns", "--colour", "a b", "--csv --csv"] {
        let words: Vec<&str> = std::iter::once("report").chain(words.split(' ')).collect();
        let wrong = kivdrag(&words, b"");
        assert!(wrong.status == 2 && wrong.text.is_empty() && wrong.errors.lines().count() == 1, "{words:?}: {}", wrong.errors);
    }
}

#[test]
fn several_switches_are_told_in_their_order() {
    let file = b"h\r\nstart,1,2,0\r\narrive,1,1,3\r\ntick,0,0,1\r\npipe,2,2,0\r\nstart,0,1,0\r\ntick,0,0,3\r\n";
    let report = kivdrag(&["report"], file);
    let first = report.text.find("Switch 1, started in line 2: direct, 1 port,");
    let second = report.text.find("Switch 2, started in line 5: pipelined, 2 ports,");
    assert!(report.status == 1 && first.is_some() && first < second, "{}", report.text);
    assert!(report.text.contains("pipelined    packets in flight"), "{}", report.text);
    let csv = kivdrag(&["report", "--csv"], file).text;
    let lines: Vec<&str> = csv.split_terminator("\r\n").collect();
    assert_eq!(lines[1], "1,2,direct,1,2,1,1,1,0,3,0,1,2,1,yes,0,0,,yes");
    assert_eq!((lines.len(), lines[5]), (6, "2,5,pipelined,2,2,3,2,2,0,0,0,0,0,,,0,0,,yes"));
}

/// A line of the CSV as numbers; what is no number is 0.
fn csv_numbers(line: &str) -> Vec<u64> {
    line.split(',').map(|field| field.parse().unwrap_or(0)).collect()
}

#[test]
fn random_files_count_as_in_the_second_program() {
    for seed in 1..=10 {
        let file = trace(seed, 2000);
        let text = rehearsal::text::Text::read(file.clone()).unwrap().repaired();
        let (lines, switches) = run_with_switches(rules(), &text);
        let csv = kivdrag(&["report", "--csv"], &file);
        let rows: Vec<Vec<u64>> = csv.text.split_terminator("\r\n").skip(1).map(csv_numbers).collect();
        let kept = |line: &str| line.ends_with(if csv_numbers(line)[5] > 0 { ",yes" } else { ",not judged" });
        assert!(csv.text.split_terminator("\r\n").skip(1).all(kept), "seed {seed}");
        let mut rest = &rows[..];
        for started in &switches {
            let pairs = started.switch.n() as usize * started.switch.n() as usize;
            assert!(rest.len() >= pairs, "seed {seed}: the report has too few rows");
            let claims = started.ledger.claims();
            rest[..pairs].iter().for_each(|row| agrees(started, &claims, row, seed));
            rest = &rest[pairs..];
        }
        let leftover = String::from_utf8(lines).unwrap().lines().filter(|line| line.starts_with("match,") && line.ends_with(",2")).count() as u64;
        assert_eq!((rest.len(), rows.iter().map(|row| row[11]).sum::<u64>()), (0, leftover), "seed {seed}");
        assert!(leftover > 0 && rows.iter().any(|row| row[10] > 0), "seed {seed} tries too little");
    }
}

/// A row of the report beside the second program's words and its ledger.
fn agrees(started: &Started, claims: &[Claim], row: &[u64], seed: u64) {
    let (words, n) = (&started.switch.words, started.switch.n() as usize);
    let [input, output] = [row[6] as usize, row[7] as usize];
    let pair = (input - 1) * n + output - 1;
    let [booked, arrived, by_booking, by_leftover, waiting] = row[8..13] else { panic!("the row is too short") };
    let has_pair = |at: &usize| at % n == input - 1 && [output, output + 100].contains(&(words.flight[*at] as usize));
    let in_flight = if started.form == Form::Pipelined { (0..words.flight.len()).filter(has_pair).count() as u64 } else { 0 };
    let served = claims.iter().filter(|claim| (claim.input, claim.output) == (input, output)).map(|claim| claim.served).sum::<u64>();
    let told = format!("seed {seed}, line {}, pair {input} {output}", row[1]);
    assert_eq!(row[5], started.ledger.ticks() as u64, "slots: {told}");
    assert_eq!(booked, words.slots[pair] as u64, "booked: {told}");
    assert_eq!(waiting, words.queues[pair] as u64 + in_flight, "waiting: {told}");
    assert_eq!(by_booking, served, "by booking: {told}");
    assert_eq!(arrived, by_booking + by_leftover + waiting, "arrived: {told}");
    let read = started.ledger.last_reading().map_or(0, |(_, booked)| booked[pair]);
    assert_eq!(row[15], read, "a: {told}");
}
