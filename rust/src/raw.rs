//! The fourteen functions of the C interface, as `include/kivdrag.h` declares and documents them. The caller sees to what the header asks of
//! pointers; [`slices`](crate::slices) has the same functions without that.

extern "C" {
    /// Starts a direct switch.
    pub fn kivdrag_start_direct(
        ports: u64, frame: u64, line: u64, fine: u32, clock: *mut u32, slots: *mut u32, slots_length: usize, rates: *mut u32, rates_length: usize,
        credits: *mut u32, credits_length: usize, queues: *mut u32, queues_length: usize, given: *mut u32, given_length: usize,
    ) -> u32;
    /// Starts a pipelined switch.
    pub fn kivdrag_start_pipelined(
        ports: u64, frame: u64, line: u64, fine: u32, clock: *mut u32, slots: *mut u32, slots_length: usize, rates: *mut u32, rates_length: usize,
        credits: *mut u32, credits_length: usize, queues: *mut u32, queues_length: usize, given: *mut u32, given_length: usize,
        copy: *mut u32, copy_length: usize, flight: *mut u32, flight_length: usize,
    ) -> u32;
    /// Books slots.
    pub fn kivdrag_book(
        clock: *const u32, slots: *mut u32, slots_length: usize, rates: *const u32, rates_length: usize, input: u64, output: u64, amount: u64,
    ) -> u32;
    /// Books a rate.
    pub fn kivdrag_book_rate(
        clock: *const u32, slots: *const u32, slots_length: usize, rates: *mut u32, rates_length: usize, input: u64, output: u64, rate: u64,
    ) -> u32;
    /// Releases slots.
    pub fn kivdrag_release(
        clock: *const u32, slots: *mut u32, slots_length: usize, rates: *const u32, rates_length: usize, input: u64, output: u64, amount: u64,
    ) -> u32;
    /// Releases a rate.
    pub fn kivdrag_release_rate(
        clock: *const u32, slots: *const u32, slots_length: usize, rates: *mut u32, rates_length: usize, input: u64, output: u64, rate: u64,
    ) -> u32;
    /// Answers the headroom of a pair.
    pub fn kivdrag_headroom(
        clock: *const u32, slots: *const u32, slots_length: usize, rates: *const u32, rates_length: usize, input: u64, output: u64,
        headroom: *mut i64,
    ) -> u32;
    /// Previews a booking of slots.
    pub fn kivdrag_preview_book(
        clock: *const u32, slots: *const u32, slots_length: usize, rates: *const u32, rates_length: usize, input: u64, output: u64, amount: u64,
        row: *mut u64, column: *mut u64,
    ) -> u32;
    /// Previews a booking of a rate.
    pub fn kivdrag_preview_book_rate(
        clock: *const u32, slots: *const u32, slots_length: usize, rates: *const u32, rates_length: usize, input: u64, output: u64, rate: u64,
        row: *mut u64, column: *mut u64,
    ) -> u32;
    /// Previews a release of slots.
    pub fn kivdrag_preview_release(
        clock: *const u32, slots: *const u32, slots_length: usize, rates: *const u32, rates_length: usize, input: u64, output: u64, amount: u64,
        row: *mut u64, column: *mut u64,
    ) -> u32;
    /// Previews a release of a rate.
    pub fn kivdrag_preview_release_rate(
        clock: *const u32, slots: *const u32, slots_length: usize, rates: *const u32, rates_length: usize, input: u64, output: u64, rate: u64,
        row: *mut u64, column: *mut u64,
    ) -> u32;
    /// Adds packets to a pair's queue.
    pub fn kivdrag_arrive(clock: *const u32, queues: *mut u32, queues_length: usize, input: u64, output: u64, packets: u64) -> u32;
    /// Runs the next slot of a direct switch.
    pub fn kivdrag_tick_direct(
        clock: *mut u32, slots: *const u32, slots_length: usize, rates: *const u32, rates_length: usize, credits: *mut u32, credits_length: usize,
        queues: *mut u32, queues_length: usize, given: *mut u32, given_length: usize, outputs: *mut u8, first_pass: *mut u32,
    ) -> u32;
    /// Runs the next tick of a pipelined switch.
    pub fn kivdrag_tick_pipelined(
        clock: *mut u32, slots: *const u32, slots_length: usize, rates: *const u32, rates_length: usize, credits: *mut u32, credits_length: usize,
        queues: *mut u32, queues_length: usize, given: *mut u32, given_length: usize, copy: *mut u32, copy_length: usize,
        flight: *mut u32, flight_length: usize, outputs: *mut u8, first_pass: *mut u32,
    ) -> u32;
}
