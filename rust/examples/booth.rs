//! A hall with a touch panel and a film: on a direct switch, with a preview that says no and why; then on a pipelined one, for some ticks.
//! Run it with `cargo run --release --offline --manifest-path rust/Cargo.toml --example booth`, after `tools/proved kivdrag_c`.

use kivdrag::{Book, Direct, Pairs, Pipelined, Refusal};

/// The inputs in use, and the outputs.
const PANEL: u64 = 1;
const PLAYER: u64 = 2;
const DESK: u64 = 1;
const WALL: u64 = 2;

/// A line of 1 Gbit/s, in kbit/s.
const LINE: u64 = 1_000_000;

fn print_slot(pairs: &Pairs) {
    let kind = |booked| if booked { "booked" } else { "left over" };
    let said: Vec<_> = pairs.iter().map(|pair| format!("{} to {} ({})", pair.input, pair.output, kind(pair.booked))).collect();
    println!("slot {}: {}", pairs.slot(), if said.is_empty() { "idle".into() } else { said.join(", ") });
}

/// The player has films for the desk and the wall. The panel's touch arrives late, and still has its booked slot in the frame.
fn direct() -> Result<(), Refusal> {
    let mut s = Direct::start(4, 8, LINE, Book::Plain)?;
    println!("a direct switch of {} ports, frames of {} slots, lines of 1 Gbit/s", s.ports(), s.frame());
    s.book(PANEL, DESK, 2)?;
    println!("booked from panel to desk: 2 slots of each frame; headroom {}", s.headroom(PANEL, DESK)?);
    s.book_rate(PLAYER, WALL, 300_000)?;
    println!("booked from player to wall: 300 Mbit/s; headroom {}", s.headroom(PLAYER, WALL)?);
    for slots in [3, 1] {
        match s.preview_book(PLAYER, DESK, slots) {
            Ok(sums) => println!("player to desk, {slots} more: yes; {} slots booked on the input, {} on the output", sums.row, sums.column),
            Err(no) => println!("player to desk, {slots} more: no, refusal {}: {no}", no.refusal.number()),
        }
    }
    s.book(PLAYER, DESK, 1)?;
    s.arrive(PLAYER, WALL, 9)?;
    s.arrive(PLAYER, DESK, 9)?;
    for slot in 1..=s.frame() {
        if slot == 5 {
            s.arrive(PANEL, DESK, 1)?;
            println!("a touch on the panel");
        }
        print_slot(&s.tick()?);
    }
    Ok(())
}

/// A frame must have as many slots as there are ports; then the first slots are idle, and the next ones serve no bookings yet.
fn pipelined() -> Result<(), Refusal> {
    if let Err(no) = Pipelined::start(4, 3, 0, Book::Fine) {
        println!("a pipelined switch of 4 ports, frames of 3 slots: no, refusal {}: {no}", no.number());
    }
    let mut s = Pipelined::start(4, 8, 0, Book::Fine)?;
    println!("a pipelined switch of {} ports, frames of {} slots, a fine book", s.ports(), s.frame());
    s.book(PLAYER, WALL, 8)?;
    println!("booked from player to wall: all 8 slots of each frame");
    s.arrive(PLAYER, WALL, 7)?;
    s.arrive(PANEL, WALL, 2)?;
    for _ in 1..=11 {
        print_slot(&s.tick()?);
    }
    Ok(())
}

fn main() -> Result<(), Refusal> {
    direct()?;
    println!();
    pipelined()
}
