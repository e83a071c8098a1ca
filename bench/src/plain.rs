//! A plain Rust scheduler of the same rules on the same words, written for speed as one would by hand: masks of free outputs, rows as
//! slices swept once for words above 0, no loop over outputs, no row in flight read where nothing is asked for, no check twice, no division for a
//! pair without a rate, no sums of all rows and columns where a fine book holds nothing else on the two ports. It answers what the proved library
//! answers; main.rs compares them before it measures.

pub struct Answer {
    pub refusal: u32,
    pub outputs: [u8; 32],
    pub first: u32,
}

const NOTHING: Answer = Answer { refusal: 0, outputs: [0; 32], first: 0 };

fn refused(refusal: u32) -> Answer {
    Answer { refusal, ..NOTHING }
}

/// Ports, frame, last slot run, line rate, kind of book.
pub type Clock = [u32; 5];

fn sizes(clock: &Clock) -> u32 {
    match clock {
        [n, ..] if *n == 0 || *n > 32 => 1,
        [_, f, ..] if *f == 0 || *f > 10_000 => 2,
        _ => 0,
    }
}

/// The booking of a pair with a rate, where the line rate is not 0.
#[inline(always)]
fn with_rate(clock: &Clock, slots: u32, rate: u64) -> u64 {
    let (f, line) = (clock[1] as u64, clock[3] as u64);
    (slots as u64 + (rate * f).div_ceil(line)).min(u32::MAX as u64)
}

#[inline(always)]
fn booking(clock: &Clock, slots: u32, rate: u32) -> u64 {
    if rate == 0 || clock[3] == 0 {
        slots as u64
    } else {
        with_rate(clock, slots, rate as u64)
    }
}

/// Whether there is a rate; the compiler makes vector instructions of it.
#[inline(always)]
fn any_rate<'a>(rates: impl Iterator<Item = &'a u32>) -> bool {
    rates.fold(0, |any, &rate| any | rate) != 0
}

/// Writes the bookings of a book of n ports. Rows without a rate are only copied.
fn read_book(clock: &Clock, n: usize, slots: &[u32], rates: &[u32], bookings: &mut [u32]) {
    bookings.copy_from_slice(slots);
    for (row, rates) in bookings.chunks_exact_mut(n).zip(rates.chunks_exact(n)) {
        if any_rate(rates.iter()) {
            row.iter_mut().zip(rates).for_each(|(a, &r)| *a = booking(clock, *a, r) as u32);
        }
    }
}

fn all(n: usize) -> u32 {
    u32::MAX >> (32 - n)
}

/// The bits of a word, from the lowest on.
const BITS: [u32; 32] = {
    let mut bits = [0; 32];
    let mut k = 0;
    while k < 32 {
        bits[k] = 1 << k;
        k += 1;
    }
    bits
};

/// The columns in which both rows are above 0, and those in which the row of packets is; the compiler makes vector instructions of it.
#[inline(always)]
fn swept(credits: &[u32], packets: &[u32]) -> (u32, u32) {
    credits.iter().zip(packets).zip(&BITS).fold((0, 0), |(ready, waiting), ((&c, &q), &bit)| {
        let packet = (q > 0) as u32 * bit;
        (ready | packet & ((c > 0) as u32 * bit), waiting | packet)
    })
}

/// The column of the first open output in turn: of those past the output last given where there are any, else of all. Any word that is no output
/// has none past it, or all.
#[inline(always)]
fn in_turn(open: u32, last: u32) -> Option<usize> {
    let past = open & u32::MAX.checked_shl(last).unwrap_or(0);
    (open != 0).then(|| if past != 0 { past } else { open }.trailing_zeros() as usize)
}

pub fn tick_direct(clock: &mut Clock, slots: &[u32], rates: &[u32], credits: &mut [u32], queues: &mut [u32], given: &mut [u32]) -> Answer {
    let no = sizes(clock);
    if no != 0 {
        return refused(no);
    }
    let n = clock[0] as usize;
    let used = n * n;
    if [slots.len(), rates.len(), credits.len(), queues.len()].iter().any(|&l| l < used) || given.len() < n {
        return refused(4);
    }
    if clock[2] >= 4_000_000_000 {
        return refused(7);
    }
    let (credits, queues) = (&mut credits[..used], &mut queues[..used]);
    if clock[2] % clock[1] == 0 {
        read_book(clock, n, &slots[..used], &rates[..used], credits);
    }
    let mut answer = NOTHING;
    let mut free = all(n);
    // what pass two can give an input that pass one gave nothing, and whose row is therefore as it was
    let mut left_over = [0; 32];
    for (i, (c, q)) in credits.chunks_exact_mut(n).zip(queues.chunks_exact_mut(n)).enumerate() {
        let (ready, waiting) = swept(c, q);
        if let Some(j) = in_turn(free & ready, given[i]) {
            c[j] -= 1;
            q[j] -= 1;
            free &= !(1 << j);
            given[i] = j as u32 + 1;
            answer.outputs[i] = j as u8 + 1;
            answer.first |= 1 << i;
        } else {
            left_over[i] = waiting;
        }
    }
    for (i, q) in queues.chunks_exact_mut(n).enumerate() {
        if let Some(j) = in_turn(free & left_over[i], given[i]) {
            q[j] -= 1;
            free &= !(1 << j);
            given[i] = j as u32 + 1;
            answer.outputs[i] = j as u8 + 1;
        }
    }
    clock[2] += 1;
    answer
}

/// A word in flight: the output, 0 for none, and whether pass one gave it.
#[inline(always)]
fn decoded(n: usize, word: u32) -> (u32, bool) {
    if word.wrapping_sub(1) < n as u32 {
        (word, false)
    } else if word.wrapping_sub(101) < n as u32 {
        (word - 100, true)
    } else {
        (0, false)
    }
}

/// The free outputs of a row.
#[inline(always)]
fn free_in(n: usize, row: &[u32]) -> u32 {
    row.iter().fold(all(n), |free, &word| match decoded(n, word).0 {
        0 => free,
        j => free & !(1 << (j - 1)),
    })
}

/// The output that input i takes, in turn, of those that it asks for and that its slot's row leaves free; none where it has one already.
#[inline(always)]
fn taken_in(n: usize, row: &[u32], i: usize, asked: u32, last: u32) -> Option<usize> {
    (asked != 0 && decoded(n, row[i]).0 == 0).then(|| in_turn(free_in(n, row) & asked, last)).flatten()
}

pub fn tick_pipelined(
    clock: &mut Clock, slots: &[u32], rates: &[u32], credits: &mut [u32], queues: &mut [u32], given: &mut [u32], copy: &mut [u32],
    flight: &mut [u32],
) -> Answer {
    let no = sizes(clock);
    if no != 0 {
        return refused(no);
    }
    let (n, f) = (clock[0] as usize, clock[1]);
    if (f as usize) < n {
        return refused(3);
    }
    let used = n * n;
    let lengths = [slots.len(), rates.len(), credits.len(), queues.len(), copy.len()];
    if lengths.iter().any(|&l| l < used) || given.len() < n || flight.len() < 2 * used {
        return refused(4);
    }
    if clock[2] >= 4_000_000_000 {
        return refused(7);
    }
    let k = clock[2] as usize + 1;
    if (k + 2 * n - 1) % f as usize == 0 {
        read_book(clock, n, &slots[..used], &rates[..used], &mut copy[..used]);
    }
    for i in 0..n {
        let own = i * n..(i + 1) * n;
        let (c, q) = (&mut credits[own.clone()], &mut queues[own.clone()]);
        let s = k + 2 * n - i;
        if s > 2 * n && (s - 1) % f as usize == 0 {
            c.copy_from_slice(&copy[own.clone()]);
        }
        let (ready, mut waiting) = swept(c, q);
        if s > 2 * n {
            let row = &mut flight[s % (2 * n) * n..][..n];
            if let Some(j) = taken_in(n, row, i, ready, given[i]) {
                c[j] -= 1;
                q[j] -= 1;
                waiting &= !(((q[j] == 0) as u32) << j);
                given[i] = 1 + j as u32;
                row[i] = 101 + j as u32;
            }
        }
        let t = k + n - i;
        if t > n {
            let row = &mut flight[t % (2 * n) * n..][..n];
            if let Some(j) = taken_in(n, row, i, waiting, given[i]) {
                q[j] -= 1;
                given[i] = 1 + j as u32;
                row[i] = 1 + j as u32;
            }
        }
    }
    let mut answer = NOTHING;
    let row = &mut flight[(k + 1) % (2 * n) * n..][..n];
    for (i, word) in row.iter_mut().enumerate() {
        let (j, first) = decoded(n, *word);
        answer.outputs[i] = j as u8;
        answer.first |= (first as u32) << i;
        *word = 0;
    }
    clock[2] = k as u32;
    answer
}

/// The questions on ports, frame, runs and pair; or where the pair stands.
#[inline(always)]
fn on_pair(clock: &Clock, slots: &[u32], rates: &[u32], input: u64, output: u64) -> Result<(usize, usize), u32> {
    let no = sizes(clock);
    if no != 0 {
        return Err(no);
    }
    let n = clock[0] as usize;
    if slots.len() < n * n || rates.len() < n * n {
        return Err(4);
    }
    if input == 0 || input > n as u64 || output == 0 || output > n as u64 {
        return Err(5);
    }
    Ok((input as usize - 1, output as usize - 1))
}

/// The sum of some pairs' bookings.
#[inline(always)]
fn sum<'a>(clock: &Clock, slots: impl Iterator<Item = &'a u32>, rates: impl Iterator<Item = &'a u32> + Clone) -> u64 {
    if any_rate(rates.clone()) {
        slots.zip(rates).map(|(&s, &r)| booking(clock, s, r)).sum()
    } else {
        slots.map(|&s| s as u64).sum()
    }
}

/// The sum of row i, and of column j.
#[inline(always)]
fn row_sum(clock: &Clock, slots: &[u32], rates: &[u32], i: usize) -> u64 {
    let n = clock[0] as usize;
    let row = i * n..(i + 1) * n;
    sum(clock, slots[row.clone()].iter(), rates[row].iter())
}

#[inline(always)]
fn column_sum(clock: &Clock, slots: &[u32], rates: &[u32], j: usize) -> u64 {
    let n = clock[0] as usize;
    sum(clock, slots[j..n * n].iter().step_by(n), rates[j..n * n].iter().step_by(n))
}

/// The questions of a plain book on these sums, with d more.
#[inline(always)]
fn sums_admit(clock: &Clock, slots: &[u32], rates: &[u32], (i, j): (usize, usize), d: u64) -> Result<(), u32> {
    let limit = clock[1] as u64 + 1;
    if 2 * (row_sum(clock, slots, rates, i) + d) > limit {
        return Err(8);
    }
    if 2 * (column_sum(clock, slots, rates, j) + d) > limit {
        return Err(9);
    }
    Ok(())
}

/// The sums of all rows and of all columns, for which each word is read once; the compiler makes vector instructions of rows without a rate.
fn all_sums(clock: &Clock, slots: &[u32], rates: &[u32]) -> [[u64; 32]; 2] {
    let n = clock[0] as usize;
    let [mut rows, mut columns] = [[0; 32]; 2];
    for ((slots, rates), row) in slots.chunks_exact(n).zip(rates.chunks_exact(n)).zip(&mut rows[..n]) {
        let mut add = |y: usize, a: u64| {
            *row += a;
            columns[y] += a;
        };
        if any_rate(rates.iter()) {
            (0..n).for_each(|y| add(y, booking(clock, slots[y], rates[y])));
        } else {
            (0..n).for_each(|y| add(y, slots[y] as u64));
        }
    }
    [rows, columns]
}

/// Whether the words of row i and of column j are 0 beside the one in both.
fn nothing_else(n: usize, words: &[u32], (i, j): (usize, usize)) -> bool {
    let (row, column) = (words[i * n..(i + 1) * n].iter(), words[j..n * n].iter().step_by(n));
    row.enumerate().all(|(y, &word)| y == j || word == 0) && column.enumerate().all(|(x, &word)| x == i || word == 0)
}

/// Whether a fine book admits d more, and the sums of row i and of column j with it.
fn fine_admits(clock: &Clock, slots: &[u32], rates: &[u32], (i, j): (usize, usize), d: u64) -> (bool, [u64; 2]) {
    let (n, f) = (clock[0] as usize, clock[1] as u64);
    if nothing_else(n, slots, (i, j)) && nothing_else(n, rates, (i, j)) {
        let after = booking(clock, slots[i * n + j], rates[i * n + j]) + d;
        return (after <= f, [after; 2]);
    }
    let [rows, columns] = all_sums(clock, slots, rates);
    let a = |x: usize, y: usize| booking(clock, slots[x * n + y], rates[x * n + y]);
    let fits = |x: usize, y: usize, a: u64| rows[x] + columns[y] - a + d <= f;
    let booked_fits = |x, y| a(x, y) == 0 || fits(x, y, a(x, y));
    let admits = fits(i, j, a(i, j)) && (0..n).all(|y| booked_fits(i, y)) && (0..n).all(|x| booked_fits(x, j));
    (admits, [rows[i] + d, columns[j] + d])
}

/// The questions of the book's rule on d more.
#[inline(always)]
fn rule(clock: &Clock, slots: &[u32], rates: &[u32], pair: (usize, usize), d: u64) -> Result<(), u32> {
    if clock[4] == 0 {
        sums_admit(clock, slots, rates, pair, d)
    } else if fine_admits(clock, slots, rates, pair, d).0 {
        Ok(())
    } else {
        Err(15)
    }
}

#[inline(always)]
fn try_book(clock: &Clock, slots: &mut [u32], rates: &[u32], input: u64, output: u64, amount: u64) -> Result<(), u32> {
    let (i, j) = on_pair(clock, slots, rates, input, output)?;
    if amount == 0 || amount > clock[1] as u64 {
        return Err(6);
    }
    rule(clock, slots, rates, (i, j), amount)?;
    slots[i * clock[0] as usize + j] += amount as u32;
    Ok(())
}

#[inline(always)]
fn try_book_rate(clock: &Clock, slots: &[u32], rates: &mut [u32], input: u64, output: u64, rate: u64) -> Result<(), u32> {
    let (i, j) = on_pair(clock, slots, rates, input, output)?;
    if clock[3] == 0 || clock[3] > 100_000_000 || rate == 0 || rate > clock[3] as u64 {
        return Err(6);
    }
    let at = i * clock[0] as usize + j;
    let rise = with_rate(clock, slots[at], rates[at] as u64 + rate) - booking(clock, slots[at], rates[at]);
    rule(clock, slots, rates, (i, j), rise)?;
    rates[at] += rate as u32;
    Ok(())
}

#[inline(always)]
pub fn book(clock: &Clock, slots: &mut [u32], rates: &[u32], input: u64, output: u64, amount: u64) -> u32 {
    try_book(clock, slots, rates, input, output, amount).err().unwrap_or(0)
}

#[inline(always)]
pub fn book_rate(clock: &Clock, slots: &[u32], rates: &mut [u32], input: u64, output: u64, rate: u64) -> u32 {
    try_book_rate(clock, slots, rates, input, output, rate).err().unwrap_or(0)
}

#[inline(always)]
fn try_headroom(clock: &Clock, slots: &[u32], rates: &[u32], input: u64, output: u64) -> Result<i64, u32> {
    let (i, j) = on_pair(clock, slots, rates, input, output)?;
    let at = i * clock[0] as usize + j;
    let taken = row_sum(clock, slots, rates, i) + column_sum(clock, slots, rates, j) - booking(clock, slots[at], rates[at]);
    Ok(clock[1] as i64 - taken as i64)
}

/// The sums are added up once, for the questions and for the answer.
#[inline(always)]
fn try_preview_book(clock: &Clock, slots: &[u32], rates: &[u32], input: u64, output: u64, amount: u64) -> Result<(u32, [u64; 2]), u32> {
    let (i, j) = on_pair(clock, slots, rates, input, output)?;
    if amount == 0 || amount > clock[1] as u64 {
        return Err(6);
    }
    if clock[4] != 0 {
        let (admits, sums) = fine_admits(clock, slots, rates, (i, j), amount);
        return Ok((if admits { 0 } else { 15 }, sums));
    }
    let sums = [row_sum(clock, slots, rates, i) + amount, column_sum(clock, slots, rates, j) + amount];
    let [row_fits, column_fits] = sums.map(|sum| 2 * sum <= clock[1] as u64 + 1);
    let number = if !row_fits { 8 } else if !column_fits { 9 } else { 0 };
    Ok((number, sums))
}

#[inline(always)]
pub fn preview_book(clock: &Clock, slots: &[u32], rates: &[u32], input: u64, output: u64, amount: u64) -> (u32, [u64; 2]) {
    try_preview_book(clock, slots, rates, input, output, amount).unwrap_or_else(|no| (no, [0; 2]))
}

#[inline(always)]
pub fn headroom(clock: &Clock, slots: &[u32], rates: &[u32], input: u64, output: u64) -> (u32, i64) {
    try_headroom(clock, slots, rates, input, output).map_or_else(|no| (no, 0), |number| (0, number))
}
