//! The event files of examples/, by a switch of this crate: it hands out the pairs, and gives the refusals, that the proved program prints.

use kivdrag::{Book, Direct, Pairs, Pipelined, Refusal};
use std::fmt::Write;

/// A switch of either form: an event file says which at its start.
enum Either {
    Direct(Direct),
    Pipelined(Pipelined),
}

/// The same on either form.
macro_rules! on {
    ($either:expr, $s:ident => $what:expr) => {
        match $either {
            Either::Direct($s) => $what,
            Either::Pipelined($s) => $what,
        }
    };
}

fn print_pairs(pairs: Pairs, printed: &mut String) {
    for pair in pairs.iter() {
        let pass = if pair.booked { 1 } else { 2 };
        write!(printed, "match,{},{},{},{pass}\r\n", pairs.slot(), pair.input, pair.output).unwrap();
    }
}

fn running(s: &mut Option<Either>) -> &mut Either {
    s.as_mut().expect("a start comes first")
}

/// Carries out a record, which prints the pairs of its slots.
fn record(operation: &str, [a, b, c]: [u64; 3], s: &mut Option<Either>, printed: &mut String) -> Result<(), Refusal> {
    match operation {
        "start" => *s = Some(Either::Direct(Direct::start(a, b, 0, Book::Plain)?)),
        "pipe" => *s = Some(Either::Pipelined(Pipelined::start(a, b, 0, Book::Plain)?)),
        "book" => on!(running(s), s => s.book(a, b, c))?,
        "release" => on!(running(s), s => s.release(a, b, c))?,
        "arrive" => on!(running(s), s => s.arrive(a, b, c))?,
        "tick" => {
            for _ in 0..c {
                print_pairs(on!(running(s), s => s.tick())?, printed);
            }
        }
        other => panic!("{other} is no operation"),
    }
    Ok(())
}

/// What the program prints for an event file without bad records.
fn printed(file: &str) -> String {
    let (mut s, mut printed) = (None, String::from("kind,slot,input,output,detail\r\n"));
    for line in file.split_terminator("\r\n").skip(1) {
        let (operation, numbers) = line.split_once(',').expect("fields");
        let numbers: Vec<u64> = numbers.split(',').map(|digits| digits.parse().expect("a number")).collect();
        let numbers = numbers.try_into().expect("three numbers");
        if let Err(no) = record(operation, numbers, &mut s, &mut printed) {
            let last = s.as_ref().map_or(0, |s| on!(s, s => s.last_slot()));
            write!(printed, "refused,{last},{},{},{}\r\n", numbers[0], numbers[1], no.number()).unwrap();
        }
    }
    printed
}

#[test]
fn event_files_give_what_the_proved_program_prints() {
    for name in ["document", "hall", "pipelined"] {
        let stored = |end| std::fs::read_to_string(format!("{}/../examples/{name}.{end}", env!("CARGO_MANIFEST_DIR"))).expect("a file");
        assert_eq!(printed(&stored("csv")), stored("out"), "{name}");
    }
}
