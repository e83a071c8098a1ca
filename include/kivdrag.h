/*
 * Kivdrag: a slot scheduler for a packet switch with bookings (weighted sequential greedy scheduling, WSGS). The rules
 * that it follows are in docs/RULES.md, with the paper that they are from.
 *
 * A switch has N inputs and N outputs, each numbered from 1 to N, and runs in slots numbered from 1. In each slot an
 * input sends at most one packet and an output takes at most one. F slots make a frame; slot k is the first of a
 * frame when (k - 1) mod F is 0. A pair of an input and an output can book slots of each frame. A slot is scheduled
 * in two passes, in each of which the inputs have their turns from 1 to N:
 *
 *   pass one  an input takes a free output for which it has a credit and a packet, and both fall by 1;
 *   pass two  an input without output takes a free one for which it has a packet, and only packets fall.
 *
 * Of the outputs that it may take, an input takes the first in turn: it looks from one past the output that it was
 * last given, by either pass, up to N, and then from 1 on, so that the one last given comes last. An input that was
 * never given an output looks from 1 on.
 *
 * Credits are set anew from the bookings for each frame, so a change of the bookings counts from the next frame whose
 * bookings are read.
 *
 * There are two forms, and a switch is of one of them from its start on. The direct form schedules each slot in the
 * tick that runs it. The pipelined form spreads the turns for a slot over the 2N ticks before it, one of each pass
 * for each input in each tick. Bookings, releases, headroom, previews and arrivals are the same calls for both.
 *
 * BOOKINGS. A pair books by slots or by rate, and may do both. The line rate B, what a line carries when all its slots
 * are used, is given at the start; it and all rates are in kbit/s. A pair's booking, in slots of each frame, is
 *
 *   slots + rates * F / B, rounded up
 *
 * of the slots that it holds and the sum of the rates that it holds. The sum is rounded, and not each rate, so small
 * streams of a pair share a slot: with F = 3 and B = 1,000 one stream of 200 takes 1 slot, and three of them take 2. A
 * booking by rate counts as what it adds to the pair's booking, which may be 0. What was booked by slots is released
 * by slots, and what was booked by rate is released by rate. Where B is 0, no rate can be booked or released, and rates
 * count as 0 slots. A booking above 4,294,967,295, to which no calls lead, counts as that number.
 *
 * THE BOOK is plain or fine, from the start on. A plain one accepts a booking in range where the sum of the input's
 * bookings and that of the output's, with it, are each at most (F + 1) / 2. A fine one accepts it where afterwards the
 * paper's inequality (2),
 *
 *   row + column - a <= F
 *
 * holds of each booked pair (one whose booking is above 0) that shares the input or the output, the pair itself among
 * them: row is the sum of the bookings of that pair's input, column that of its output's, and a its own booking, which
 * is in both and counts once. So a fine book sells a whole line: with F = 3 and nothing booked, a pair can book 3 slots
 * in it, and in a plain one 2. Bookings that a plain book accepts, one after the other from the start on, a fine one
 * accepts too. With either, booked pairs keep their slots; and a release is not asked any of this.
 *
 * MEMORY. The library has no memory of its own, and calls nothing but the C library's memset and memcpy: a switch is the
 * memory that the caller lends, and several switches do not know of each other. For N ports:
 *
 *   clock    5 words: the number of ports, the length of a frame, the last slot run, the line rate, the kind of book
 *   slots    N * N words: the slots of each frame that a pair holds by bookings by slots
 *   rates    N * N words: the sum of the rates that a pair holds
 *   credits  N * N words: the booked slots that a pair has left in the present frame
 *   queues   N * N words: the packets of a pair that are not scheduled yet
 *   given    N words: the output that an input was last given; 0, or any word above N, for none yet
 *   copy     N * N words, pipelined form only: the bookings as they were last read
 *   flight   2 * N * N words, pipelined form only: the pairs of slots to come
 *
 * The word of input i and output j stands at [(i - 1) * N + (j - 1)], and in given the word of input i at [i - 1]. In
 * flight the word of input i for slot s stands at [(s mod 2N) * N + (i - 1)]: j for output j by pass two, 100 + j by
 * pass one, and 0, or any other word, for none. The kind of book is 0 for a plain one, and any other word for a fine
 * one; a start sets it to 0 or 1, and no other call changes it.
 *
 * A word is a uint32_t. A run of words is two arguments, a pointer to its first word and its length, counted in
 * words. A run may be longer than needed: the words beyond have no effect and are not written. All of it may be read
 * between calls, and any contents have a defined outcome; but only a start and the calls that follow it on the same
 * memory make a switch whose bookings are kept, so let nothing else write there. What a call takes as const it does not
 * write.
 *
 * What the caller must see to, as no call can ask for it: every pointer is to memory that is there in its whole
 * length and is aligned for its type, and none is a null pointer, not even where a length is 0; no two arguments of a
 * call overlap, clock, headroom, row, column, outputs and first_pass included; and no other thread uses the same memory
 * during a call.
 * Nothing else has to be checked before a call: every number may have any value.
 *
 * REFUSALS. Every call returns 0 if it is accepted, and otherwise the number of the first of these questions, among
 * those that the call has, whose answer is no. After a refused call every lent word has the value that it had before
 * (a start or a tick may have stored it anew); only the answer of a tick is set, to all zeros, a headroom, to 0, and
 * the two sums of a preview, to 0 unless the refusal is 8, 9 or 15.
 */
#ifndef KIVDRAG_H
#define KIVDRAG_H

#include <stddef.h>
#include <stdint.h>

#define KIVDRAG_ACCEPTED 0u
#define KIVDRAG_REFUSED_PORTS 1u    /* Is the number of ports 1 to 32? */
#define KIVDRAG_REFUSED_FRAME 2u    /* Is the length of a frame 1 to 10,000? */
#define KIVDRAG_REFUSED_PIPELINE 3u /* Pipelined: is the length of a frame at least the number of ports? */
#define KIVDRAG_REFUSED_RUNS 4u     /* Are all runs long enough? */
#define KIVDRAG_REFUSED_PAIR 5u     /* Are input and output 1 to N? */
#define KIVDRAG_REFUSED_AMOUNT 6u   /* Is the amount, rate or line rate in the range that the call names? */
#define KIVDRAG_REFUSED_CLOCK 7u    /* Tick: is the last slot run below 4,000,000,000? */
#define KIVDRAG_REFUSED_INPUT 8u    /* Booking d, plain book: is 2 * (the sum of the input's bookings + d) <= F + 1? */
#define KIVDRAG_REFUSED_OUTPUT 9u   /* Booking d, plain book: is 2 * (the sum of the output's bookings + d) <= F + 1? */
#define KIVDRAG_REFUSED_RELEASE 10u /* Release: does the pair hold at least so many slots, or so much rate? */
#define KIVDRAG_REFUSED_QUEUE 11u   /* Arrival: would the pair's queue hold at most 1,000,000 packets? */
#define KIVDRAG_REFUSED_FINE 15u    /* Booking d, fine book, in the place of 8 and 9: with d more, is row + column - a
                                       <= F of each booked pair that shares the input or the output? */

/* The most ports of a switch, and its words: of clock; of slots, rates, credits, queues and copy each; of given; of
   flight. */
#define KIVDRAG_PORTS_MAX 32
#define KIVDRAG_CLOCK_WORDS 5
#define KIVDRAG_PAIR_WORDS(ports) ((size_t)(ports) * (size_t)(ports))
#define KIVDRAG_GIVEN_WORDS(ports) ((size_t)(ports))
#define KIVDRAG_FLIGHT_WORDS(ports) (2 * (size_t)(ports) * (size_t)(ports))

/* Where the number of ports, the length of a frame, the last slot run, the line rate and the kind of book stand in a
   clock. */
#define KIVDRAG_CLOCK_PORTS 0
#define KIVDRAG_CLOCK_FRAME 1
#define KIVDRAG_CLOCK_SLOT 2
#define KIVDRAG_CLOCK_LINE 3
#define KIVDRAG_CLOCK_FINE 4

#ifdef __cplusplus
extern "C" {
#endif

/*
 * Starts a direct switch, on memory with any contents.
 *
 * ports is N, 1 to 32; frame is F, 1 to 10,000; line is B, 0 to 100,000,000; fine is 0 for a plain book, and any other
 * number for a fine one. slots, rates, credits and queues have N * N words or more, given N.
 * Sets the clock to ports, frame, 0, line, and 0 or, for a fine book, 1; and the first N * N words of each run, of
 * given the first N, to 0.
 * Refusals: 1 (ports), 2 (frame), 4 (a run is too short), 6 (line).
 */
uint32_t kivdrag_start_direct(uint64_t ports, uint64_t frame, uint64_t line, uint32_t fine, uint32_t clock[5],
                              uint32_t *slots, size_t slots_length,
                              uint32_t *rates, size_t rates_length,
                              uint32_t *credits, size_t credits_length,
                              uint32_t *queues, size_t queues_length,
                              uint32_t *given, size_t given_length);

/*
 * Starts a pipelined switch, on memory with any contents.
 *
 * ports is N, 1 to 32; frame is F, 1 to 10,000 and at least N; line is B, 0 to 100,000,000; fine is 0 for a plain book,
 * and any other number for a fine one. slots, rates, credits, queues and copy have N * N words or more, given N, flight
 * 2 * N * N.
 * Sets the clock to ports, frame, 0, line, and 0 or, for a fine book, 1; and the first N * N words of each run, of
 * given the first N, of flight the first 2 * N * N, to 0.
 * Refusals: 1 (ports), 2 (frame), 3 (frame below ports), 4 (a run is too short), 6 (line).
 */
uint32_t kivdrag_start_pipelined(uint64_t ports, uint64_t frame, uint64_t line, uint32_t fine, uint32_t clock[5],
                                 uint32_t *slots, size_t slots_length,
                                 uint32_t *rates, size_t rates_length,
                                 uint32_t *credits, size_t credits_length,
                                 uint32_t *queues, size_t queues_length,
                                 uint32_t *given, size_t given_length,
                                 uint32_t *copy, size_t copy_length,
                                 uint32_t *flight, size_t flight_length);

/*
 * Books slots of each frame for a pair, in addition to what it has.
 *
 * input and output are 1 to N; amount is 1 to F. slots and rates have N * N words or more.
 * Adds amount to the pair's word of slots, and writes nothing else.
 * Refusals: 1, 2 (the clock's ports or frame), 4 (a run is too short), 5 (input or output), 6 (amount); then, with
 * amount for d, in a plain book 8 (the input's sum) and 9 (the output's sum), in a fine one 15 (inequality (2)).
 */
uint32_t kivdrag_book(const uint32_t clock[5], uint32_t *slots, size_t slots_length,
                      const uint32_t *rates, size_t rates_length,
                      uint64_t input, uint64_t output, uint64_t amount);

/*
 * Books a rate for a pair, in addition to what it has.
 *
 * input and output are 1 to N; the clock's line rate B is 1 to 100,000,000, and rate is 1 to B. slots and rates have
 * N * N words or more.
 * Adds rate to the pair's word of rates, and writes nothing else.
 * Refusals: 1, 2 (the clock's ports or frame), 4 (a run is too short), 5 (input or output), 6 (B or rate); then, with
 * the rise of the pair's booking for d, even where it is 0, in a plain book 8 (the input's sum) and 9 (the output's
 * sum), in a fine one 15 (inequality (2)).
 */
uint32_t kivdrag_book_rate(const uint32_t clock[5], const uint32_t *slots, size_t slots_length,
                           uint32_t *rates, size_t rates_length,
                           uint64_t input, uint64_t output, uint64_t rate);

/*
 * Takes slots that were booked by slots off a pair again. The rates that it holds do not count.
 *
 * input and output are 1 to N; amount is 1 to F, and at most the pair's word of slots. slots and rates have N * N words
 * or more.
 * Subtracts amount from the pair's word of slots, and writes nothing else.
 * Refusals: 1, 2 (the clock's ports or frame), 4 (a run is too short), 5 (input or output), 6 (amount), 10 (the pair
 * holds fewer slots).
 */
uint32_t kivdrag_release(const uint32_t clock[5], uint32_t *slots, size_t slots_length,
                         const uint32_t *rates, size_t rates_length,
                         uint64_t input, uint64_t output, uint64_t amount);

/*
 * Takes a rate off a pair again: of one booking, of several, or a part. The slots that it holds do not count.
 *
 * input and output are 1 to N; the clock's line rate B is 1 to 100,000,000, and rate is 1 to B, and at most the pair's
 * word of rates. slots and rates have N * N words or more.
 * Subtracts rate from the pair's word of rates, and writes nothing else. The pair's booking may stay as it is.
 * Refusals: 1, 2 (the clock's ports or frame), 4 (a run is too short), 5 (input or output), 6 (B or rate), 10 (the pair
 * holds less rate).
 */
uint32_t kivdrag_release_rate(const uint32_t clock[5], const uint32_t *slots, size_t slots_length,
                              uint32_t *rates, size_t rates_length,
                              uint64_t input, uint64_t output, uint64_t rate);

/*
 * Answers how far a pair is from the limit of the paper's inequality (2), row + column - a <= F: row is the sum of the
 * input's bookings, column that of the output's, and a the pair's own booking, which is in both and counts once.
 *
 * input and output are 1 to N. slots and rates have N * N words or more.
 * Sets *headroom to F - (row + column - a), exactly, whatever the words hold, and writes nothing else. Above 0 it is
 * the number of slots that row + column - a is below F; at 0 they are equal; below 0 the inequality does not hold of
 * the pair. On a book that accepted calls have made, of either kind, it is below 0 only for pairs whose booking is 0:
 * with F = 3, row 2, column 2 and a = 0 it is -1. Where the call is refused, *headroom is set to 0.
 * Refusals: 1, 2 (the clock's ports or frame), 4 (a run is too short), 5 (input or output).
 */
uint32_t kivdrag_headroom(const uint32_t clock[5], const uint32_t *slots, size_t slots_length,
                          const uint32_t *rates, size_t rates_length,
                          uint64_t input, uint64_t output, int64_t *headroom);

/*
 * PREVIEWS. Each of the next four calls tells what a booking or a release would do, and does not do it. It has the
 * questions of that operation, and returns the number that the operation would return. Where no other call on the same
 * memory comes between the two, a preview that returns 0 is followed by an operation that is accepted, and a preview
 * that returns another number by one that is refused with that number.
 *
 * Sets *row and *column, in every call, and writes nothing else:
 *
 *   where 0 is returned           the sum of the input's bookings, and of the output's, as the operation would leave
 *                                 them;
 *   where 8, 9 or 15 is returned  the present sums with d more, both, even with 8;
 *   otherwise                     0 and 0.
 *
 * The sums are exact, whatever the words hold. With F = 3, where a pair has 1 slot booked and nothing else is booked,
 * booking 1 more would return 0, with sums of 2 and 2; booking 2 more would return 8 in a plain book, and 0 in a fine
 * one, with sums of 3 and 3; booking 3 more would return 15 in a fine one, with sums of 4 and 4.
 */

/*
 * Previews kivdrag_book.
 *
 * input and output are 1 to N; amount is 1 to F. slots and rates have N * N words or more.
 * Refusals: 1, 2 (the clock's ports or frame), 4 (a run is too short), 5 (input or output), 6 (amount); then, with
 * amount for d, in a plain book 8 (the input's sum) and 9 (the output's sum), in a fine one 15 (inequality (2)).
 */
uint32_t kivdrag_preview_book(const uint32_t clock[5], const uint32_t *slots, size_t slots_length,
                              const uint32_t *rates, size_t rates_length,
                              uint64_t input, uint64_t output, uint64_t amount, uint64_t *row, uint64_t *column);

/*
 * Previews kivdrag_book_rate.
 *
 * input and output are 1 to N; the clock's line rate B is 1 to 100,000,000, and rate is 1 to B. slots and rates have
 * N * N words or more.
 * Refusals: 1, 2 (the clock's ports or frame), 4 (a run is too short), 5 (input or output), 6 (B or rate); then, with
 * the rise of the pair's booking for d, which may be 0, in a plain book 8 (the input's sum) and 9 (the output's sum),
 * in a fine one 15 (inequality (2)).
 */
uint32_t kivdrag_preview_book_rate(const uint32_t clock[5], const uint32_t *slots, size_t slots_length,
                                   const uint32_t *rates, size_t rates_length,
                                   uint64_t input, uint64_t output, uint64_t rate, uint64_t *row, uint64_t *column);

/*
 * Previews kivdrag_release.
 *
 * input and output are 1 to N; amount is 1 to F, and at most the pair's word of slots. slots and rates have N * N words
 * or more.
 * Refusals: 1, 2 (the clock's ports or frame), 4 (a run is too short), 5 (input or output), 6 (amount), 10 (the pair
 * holds fewer slots).
 */
uint32_t kivdrag_preview_release(const uint32_t clock[5], const uint32_t *slots, size_t slots_length,
                                 const uint32_t *rates, size_t rates_length,
                                 uint64_t input, uint64_t output, uint64_t amount, uint64_t *row, uint64_t *column);

/*
 * Previews kivdrag_release_rate.
 *
 * input and output are 1 to N; the clock's line rate B is 1 to 100,000,000, and rate is 1 to B, and at most the pair's
 * word of rates. slots and rates have N * N words or more.
 * Refusals: 1, 2 (the clock's ports or frame), 4 (a run is too short), 5 (input or output), 6 (B or rate), 10 (the pair
 * holds less rate).
 */
uint32_t kivdrag_preview_release_rate(const uint32_t clock[5], const uint32_t *slots, size_t slots_length,
                                      const uint32_t *rates, size_t rates_length,
                                      uint64_t input, uint64_t output, uint64_t rate, uint64_t *row, uint64_t *column);

/*
 * Adds packets that arrived at an input for an output to the pair's queue.
 *
 * input and output are 1 to N; packets is 1 to 65,535. queues has N * N words or more.
 * Adds packets to the pair's word of queues, and writes nothing else.
 * Refusals: 1, 2 (the clock's ports or frame), 4 (queues is too short), 5 (input or output), 6 (packets), 11 (the
 * queue would exceed 1,000,000).
 */
uint32_t kivdrag_arrive(const uint32_t clock[5], uint32_t *queues, size_t queues_length,
                        uint64_t input, uint64_t output, uint64_t packets);

/*
 * Runs the next slot of a direct switch: slot k, where clock[2] is k - 1 before the call and k after it.
 *
 * slots, rates, credits and queues have N * N words or more, given N.
 * Advances clock[2], and writes credits, queues and given: in the first slot of a frame the credits become the
 * bookings; then each pair that is served loses a packet, and by pass one a credit too, and its output becomes the word
 * of its input in given. The word of an input that is given no output stays, whatever it is.
 * Answers the pairs of slot k: outputs[i - 1] is the output of input i, or 0 for none, and 0 for inputs above N; bit
 * i - 1 of *first_pass, the lowest bit being bit 0, is 1 where pass one served input i. Both are written whole by
 * every call, and are all 0 where it is refused.
 * Refusals: 1, 2 (the clock's ports or frame), 4 (a run is too short), 7 (clock[2] is 4,000,000,000 or more).
 */
uint32_t kivdrag_tick_direct(uint32_t clock[5], const uint32_t *slots, size_t slots_length,
                             const uint32_t *rates, size_t rates_length,
                             uint32_t *credits, size_t credits_length,
                             uint32_t *queues, size_t queues_length,
                             uint32_t *given, size_t given_length,
                             uint8_t outputs[32], uint32_t *first_pass);

/*
 * Runs the next tick of a pipelined switch: every input has its turns for slots ahead, and the pairs of the next slot
 * are handed out. That is slot k + 1, where clock[2] is k - 1 before the call and k after it. Slots up to N are idle,
 * and slots N + 1 to 2N know only pass two.
 *
 * slots, rates, credits, queues and copy have N * N words or more, given N, flight 2 * N * N.
 * Advances clock[2], and writes credits, queues, given, copy and flight: where slot k + 2N is the first of a frame,
 * copy becomes the bookings; an input that comes to a slot that is the first of a frame reloads its credits from copy;
 * each output that an input takes at one of its turns is noted in flight and in given, and costs a packet, and by pass
 * one a credit too; the row of flight that is handed out becomes 0. The output last given is the one that was taken
 * last, for whichever slot: the pass-two turn of an input goes on from what its pass-one turn in the same tick took.
 * Answers as kivdrag_tick_direct does, for slot k + 1.
 * Refusals: 1, 2 (the clock's ports or frame), 3 (frame below ports), 4 (a run is too short), 7 (clock[2] is
 * 4,000,000,000 or more).
 */
uint32_t kivdrag_tick_pipelined(uint32_t clock[5], const uint32_t *slots, size_t slots_length,
                                const uint32_t *rates, size_t rates_length,
                                uint32_t *credits, size_t credits_length,
                                uint32_t *queues, size_t queues_length,
                                uint32_t *given, size_t given_length,
                                uint32_t *copy, size_t copy_length,
                                uint32_t *flight, size_t flight_length,
                                uint8_t outputs[32], uint32_t *first_pass);

#ifdef __cplusplus
}
#endif

#endif
