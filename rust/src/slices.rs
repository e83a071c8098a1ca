//! The fourteen calls on words that the caller lends as slices. Each has the arguments of its C function in their order, a slice in the place of a
//! pointer and a length, and returns its number: 0, or the refusal, of which [`Refusal::check`](crate::Refusal::check) makes a `Result`. What a call
//! does and which refusals it has stands in `include/kivdrag.h`. Any numbers, lengths and contents are answered. Which words belong together is left
//! to the caller; [`Direct`](crate::Direct) and [`Pipelined`](crate::Pipelined) see to that too.
//!
//! Why no caller has to check anything: a reference is aligned and to memory that is there in its whole length; that of an empty slice is dangling
//! but not null, as the header asks. What a call writes is borrowed exclusively, so that it overlaps with no other argument and no other thread uses
//! it. What it only reads may be lent twice, as slots and as rates, say. The header forbids that too, but the library's own functions take such words
//! as shared slices (crates/kivdrag_c), and a test here sees that they answer the same.
#![allow(clippy::too_many_arguments)]

use crate::raw;

/// The number of ports, the length of a frame, the last slot run, the line rate, and the kind of book.
pub type Clock = [u32; 5];

/// The most ports of a switch.
pub const PORTS_MAX: usize = 32;

/// The outputs of a slot by input, from input 1 on; 0 for none.
pub type Outputs = [u8; PORTS_MAX];

/// Starts a direct switch, on words of any contents; `fine` is 0 for a plain book.
pub fn start_direct(
    ports: u64, frame: u64, line: u64, fine: u32, clock: &mut Clock, slots: &mut [u32], rates: &mut [u32], credits: &mut [u32],
    queues: &mut [u32], given: &mut [u32],
) -> u32 {
    // SAFETY: all are exclusive references, as above.
    unsafe {
        raw::kivdrag_start_direct(
            ports, frame, line, fine, clock.as_mut_ptr(), slots.as_mut_ptr(), slots.len(), rates.as_mut_ptr(), rates.len(),
            credits.as_mut_ptr(), credits.len(), queues.as_mut_ptr(), queues.len(), given.as_mut_ptr(), given.len(),
        )
    }
}

/// Starts a pipelined switch, on words of any contents; `fine` is 0 for a plain book.
pub fn start_pipelined(
    ports: u64, frame: u64, line: u64, fine: u32, clock: &mut Clock, slots: &mut [u32], rates: &mut [u32], credits: &mut [u32],
    queues: &mut [u32], given: &mut [u32], copy: &mut [u32], flight: &mut [u32],
) -> u32 {
    // SAFETY: all are exclusive references, as above.
    unsafe {
        raw::kivdrag_start_pipelined(
            ports, frame, line, fine, clock.as_mut_ptr(), slots.as_mut_ptr(), slots.len(), rates.as_mut_ptr(), rates.len(),
            credits.as_mut_ptr(), credits.len(), queues.as_mut_ptr(), queues.len(), given.as_mut_ptr(), given.len(),
            copy.as_mut_ptr(), copy.len(), flight.as_mut_ptr(), flight.len(),
        )
    }
}

/// Defines calls that write the slots of the book.
macro_rules! on_slots {
    ($($(#[$about:meta])* $name:ident is $call:ident;)*) => {$(
        $(#[$about])*
        pub fn $name(clock: &Clock, slots: &mut [u32], rates: &[u32], input: u64, output: u64, amount: u64) -> u32 {
            // SAFETY: slots are written, and are an exclusive reference; the others are read, as above.
            unsafe { raw::$call(clock.as_ptr(), slots.as_mut_ptr(), slots.len(), rates.as_ptr(), rates.len(), input, output, amount) }
        }
    )*};
}

on_slots! {
    /// Books slots of each frame for a pair, in addition to what it has.
    book is kivdrag_book;
    /// Takes slots off a pair that were booked by slots.
    release is kivdrag_release;
}

/// Defines calls that write the rates of the book.
macro_rules! on_rates {
    ($($(#[$about:meta])* $name:ident is $call:ident;)*) => {$(
        $(#[$about])*
        pub fn $name(clock: &Clock, slots: &[u32], rates: &mut [u32], input: u64, output: u64, rate: u64) -> u32 {
            // SAFETY: rates are written, and are an exclusive reference; the others are read, as above.
            unsafe { raw::$call(clock.as_ptr(), slots.as_ptr(), slots.len(), rates.as_mut_ptr(), rates.len(), input, output, rate) }
        }
    )*};
}

on_rates! {
    /// Books a rate for a pair, in kbit/s, in addition to what it has.
    book_rate is kivdrag_book_rate;
    /// Takes a rate off a pair that was booked by rate.
    release_rate is kivdrag_release_rate;
}

/// Sets `headroom` to how many slots a pair is from the limit of the paper's inequality (2), below 0 where it is past it; to 0 where it is refused.
pub fn headroom(clock: &Clock, slots: &[u32], rates: &[u32], input: u64, output: u64, headroom: &mut i64) -> u32 {
    // SAFETY: headroom is written, and is an exclusive reference; the others are read, as above.
    unsafe { raw::kivdrag_headroom(clock.as_ptr(), slots.as_ptr(), slots.len(), rates.as_ptr(), rates.len(), input, output, headroom) }
}

/// A preview: it returns what its operation would return, and sets row and column, the last two arguments.
pub type Preview = fn(&Clock, &[u32], &[u32], u64, u64, u64, &mut u64, &mut u64) -> u32;

/// Defines previews. Each sets row and column to the sums of bookings that its operation would lead to, or to 0 and 0 where they are not told.
macro_rules! previews {
    ($($(#[$about:meta])* $name:ident is $call:ident;)*) => {$(
        $(#[$about])*
        pub fn $name(
            clock: &Clock, slots: &[u32], rates: &[u32], input: u64, output: u64, amount: u64, row: &mut u64, column: &mut u64,
        ) -> u32 {
            // SAFETY: row and column are written, and are exclusive references; the others are read, as above.
            unsafe { raw::$call(clock.as_ptr(), slots.as_ptr(), slots.len(), rates.as_ptr(), rates.len(), input, output, amount, row, column) }
        }
    )*};
}

previews! {
    /// Tells what [`book`] would return, and the sums of the input's and the output's bookings.
    preview_book is kivdrag_preview_book;
    /// Tells what [`book_rate`] would return, and the sums of the input's and the output's bookings.
    preview_book_rate is kivdrag_preview_book_rate;
    /// Tells what [`release`] would return, and the sums of the input's and the output's bookings.
    preview_release is kivdrag_preview_release;
    /// Tells what [`release_rate`] would return, and the sums of the input's and the output's bookings.
    preview_release_rate is kivdrag_preview_release_rate;
}

/// Adds packets that have arrived to a pair's queue.
pub fn arrive(clock: &Clock, queues: &mut [u32], input: u64, output: u64, packets: u64) -> u32 {
    // SAFETY: queues are written, and are an exclusive reference; the clock is read, as above.
    unsafe { raw::kivdrag_arrive(clock.as_ptr(), queues.as_mut_ptr(), queues.len(), input, output, packets) }
}

/// Runs the next slot of a direct switch. Sets `outputs`, and bit i - 1 of `first_pass` where input i was served a booked slot.
pub fn tick_direct(
    clock: &mut Clock, slots: &[u32], rates: &[u32], credits: &mut [u32], queues: &mut [u32], given: &mut [u32], outputs: &mut Outputs,
    first_pass: &mut u32,
) -> u32 {
    // SAFETY: slots and rates are read; the others are written, and are exclusive references, as above.
    unsafe {
        raw::kivdrag_tick_direct(
            clock.as_mut_ptr(), slots.as_ptr(), slots.len(), rates.as_ptr(), rates.len(), credits.as_mut_ptr(), credits.len(),
            queues.as_mut_ptr(), queues.len(), given.as_mut_ptr(), given.len(), outputs.as_mut_ptr(), first_pass,
        )
    }
}

/// Runs the next tick of a pipelined switch, which hands out the pairs of the slot one past the clock's. Answers as [`tick_direct`] does.
pub fn tick_pipelined(
    clock: &mut Clock, slots: &[u32], rates: &[u32], credits: &mut [u32], queues: &mut [u32], given: &mut [u32], copy: &mut [u32],
    flight: &mut [u32], outputs: &mut Outputs, first_pass: &mut u32,
) -> u32 {
    // SAFETY: slots and rates are read; the others are written, and are exclusive references, as above.
    unsafe {
        raw::kivdrag_tick_pipelined(
            clock.as_mut_ptr(), slots.as_ptr(), slots.len(), rates.as_ptr(), rates.len(), credits.as_mut_ptr(), credits.len(),
            queues.as_mut_ptr(), queues.len(), given.as_mut_ptr(), given.len(), copy.as_mut_ptr(), copy.len(), flight.as_mut_ptr(), flight.len(),
            outputs.as_mut_ptr(), first_pass,
        )
    }
}
