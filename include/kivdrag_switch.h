/*
 * A switch as one variable, over kivdrag.h, which says what each call does, with its ranges and refusals. Header only: there is nothing more to link
 * than for kivdrag.h.
 *
 *   #include <kivdrag_switch.h>
 *
 *   static kivdrag_direct s;
 *   kivdrag_pairs pairs;
 *   uint32_t refusal = kivdrag_direct_start(&s, 4, 10, 0, 0);    4 ports, frames of 10 slots, no rates, a plain book
 *   if (refusal == KIVDRAG_ACCEPTED) {
 *       refusal = kivdrag_direct_book(&s, 1, 2, 3);              3 slots of each frame from input 1 to output 2
 *   }
 *   if (refusal != KIVDRAG_ACCEPTED) {
 *       puts(kivdrag_refusal_text(refusal));
 *   }
 *   kivdrag_direct_arrive(&s, 1, 2, 5);                          5 packets
 *   kivdrag_direct_tick(&s, &pairs);                             kivdrag_pairs_output(&pairs, 1) is 2
 *
 * TWO FORMS, two types: kivdrag_direct and kivdrag_pipelined, each with functions of its own, so that a switch of one form is not given to a call of
 * the other. A C++ compiler refuses it; a C compiler at least warns of an incompatible pointer type, and refuses it with
 * -Werror=incompatible-pointer-types.
 *
 * MEMORY. A variable of either type is all the memory of its switch, for up to KIVDRAG_SWITCH_PORTS ports: 1 to 32, by default 32, which takes 16,532
 * bytes for a direct switch and 28,820 for a pipelined one. To have less, define it before the include or as an option of the compiler:
 *
 *   #define KIVDRAG_SWITCH_PORTS 8
 *
 * - Start first. A static variable is all 0, and until its start is accepted every other call on it is refused with 1. On any other variable a start
 *   must be accepted before another function is called.
 * - A copy of the variable is a second switch, that goes on by itself from the same point.
 * - One thread at a time uses a switch. Two switches do not know of each other.
 * - The words may be read; let nothing but these functions write them. Another start begins the switch anew; a refused one leaves it as it was.
 * - In C, files compiled with different KIVDRAG_SWITCH_PORTS may be linked together: the functions are static, so each file has those of its own size.
 *   But their types differ in size, so they must not pass each other a switch. In C++ all files of a program must have the same number, as the types
 *   have the same names.
 *
 * REFUSALS. Starts, ticks and the other calls return 0, or the number of a refusal as in kivdrag.h. A start with more ports than KIVDRAG_SWITCH_PORTS
 * is refused with 4, if not with a lower number. Readers refuse nothing: they answer 0 for what is not there.
 */
#ifndef KIVDRAG_SWITCH_H
#define KIVDRAG_SWITCH_H

#include "kivdrag.h"

#define KIVDRAG_VERSION "0.7.0"

#ifndef KIVDRAG_SWITCH_PORTS
#define KIVDRAG_SWITCH_PORTS 32
#endif

#if KIVDRAG_SWITCH_PORTS < 1 || KIVDRAG_SWITCH_PORTS > 32
#error "KIVDRAG_SWITCH_PORTS must be a number from 1 to 32"
#endif

/* The words that each form has, as kivdrag.h names them. */
#define KIVDRAG_SWITCH_PAIRS KIVDRAG_PAIR_WORDS(KIVDRAG_SWITCH_PORTS)
#define KIVDRAG_SWITCH_WORDS                                                                                                                      \
    uint32_t clock[KIVDRAG_CLOCK_WORDS];                                                                                                          \
    uint32_t slots[KIVDRAG_SWITCH_PAIRS];                                                                                                         \
    uint32_t rates[KIVDRAG_SWITCH_PAIRS];                                                                                                         \
    uint32_t credits[KIVDRAG_SWITCH_PAIRS];                                                                                                       \
    uint32_t queues[KIVDRAG_SWITCH_PAIRS];                                                                                                        \
    uint32_t given[KIVDRAG_GIVEN_WORDS(KIVDRAG_SWITCH_PORTS)];

typedef struct {
    KIVDRAG_SWITCH_WORDS
} kivdrag_direct;

typedef struct {
    KIVDRAG_SWITCH_WORDS
    uint32_t copy[KIVDRAG_SWITCH_PAIRS];
    uint32_t flight[KIVDRAG_FLIGHT_WORDS(KIVDRAG_SWITCH_PORTS)];
} kivdrag_pipelined;

/* The pairs of a slot, as a tick answers them; the two functions below read them. */
typedef struct {
    uint8_t outputs[KIVDRAG_PORTS_MAX];
    uint32_t first_pass;
} kivdrag_pairs;

/* The output that the slot gives to an input; 0 for none. */
static inline uint32_t kivdrag_pairs_output(const kivdrag_pairs *pairs, uint64_t input) {
    return input >= 1 && input <= KIVDRAG_PORTS_MAX ? pairs->outputs[input - 1] : 0u;
}

/* Whether the input has it by its booking: 1 for a booked slot, 0 for a leftover one or none. */
static inline int kivdrag_pairs_booked(const kivdrag_pairs *pairs, uint64_t input) {
    return input >= 1 && input <= KIVDRAG_PORTS_MAX && ((pairs->first_pass >> (input - 1)) & 1u) != 0;
}

/* What a number that a call returned says, in one line, without an end of line. 12 to 14 are the event program's; above 15 there is no such number. */
static inline const char *kivdrag_refusal_text(uint32_t number) {
    static const char *const texts[] = {
        "accepted",
        "a switch has 1 to 32 ports: give a number of ports in this range",
        "a frame has 1 to 10,000 slots: give a length in this range",
        "a pipelined switch needs frames of at least as many slots as it has ports: make the frame longer, or use a direct switch",
        "there is too little memory for so many ports: start with fewer ports, or have the program built for more",
        "there is no such input or output: both are numbered from 1 to the number of ports",
        "the amount is out of range: 1 slot to a whole frame, 1 to 65,535 packets, 1 kbit/s to the line rate, a line rate of 0 to 100,000,000 kbit/s",
        "the clock has run 4,000,000,000 slots, which is its end: start the switch anew and book again",
        "the input has no room for it: an input sells at most half of each frame, rounded up; book less, or release some of this input",
        "the output has no room for it: an output sells at most half of each frame, rounded up; book less, or release some of this output",
        "the pair has less booked than is to be released: release at most what it has, slots as slots and rates as rates",
        "the queue is full: a pair can have 1,000,000 packets waiting; let slots run before more arrive",
        "the record cannot be read: it has more than 64 bytes, a quote, an unknown operation or a number where 0 belongs, or comes before a start",
        "the record has not four fields: an operation, an input, an output and an amount, with commas between",
        "a number of the record is not one to ten digits: write digits alone, without blanks or signs",
        "it does not fit the frame: this pair, or another one booked on its input or its output, would not get all its slots; book less",
    };
    return number < sizeof texts / sizeof texts[0] ? texts[number] : "there is no such number: 0 is for accepted, 1 to 15 are refusals";
}

/* For the readers below, of either form: a pair's place in the runs, or KIVDRAG_SWITCH_PAIRS where the switch has no such pair. */
static inline size_t kivdrag_switch_place(const uint32_t *clock, uint64_t input, uint64_t output) {
    uint64_t ports = clock[KIVDRAG_CLOCK_PORTS];
    if (ports > KIVDRAG_SWITCH_PORTS || input < 1 || input > ports || output < 1 || output > ports) {
        return KIVDRAG_SWITCH_PAIRS;
    }
    return (size_t)((input - 1) * ports + (output - 1));
}

/* A pair's booking, of its words of slots and rates: on a switch of 1 port that is this pair, the headroom is the frame less the booking. */
static inline uint32_t kivdrag_switch_booking(const uint32_t *clock, const uint32_t *slots, const uint32_t *rates) {
    uint32_t alone[KIVDRAG_CLOCK_WORDS] = {1, clock[KIVDRAG_CLOCK_FRAME], 0, clock[KIVDRAG_CLOCK_LINE], 0};
    int64_t headroom;
    uint32_t refusal = kivdrag_headroom(alone, slots, 1, rates, 1, 1, 1, &headroom);
    return refusal == KIVDRAG_ACCEPTED ? (uint32_t)((int64_t)alone[KIVDRAG_CLOCK_FRAME] - headroom) : 0u;
}

/* The arguments that many calls of kivdrag.h begin with. */
#define KIVDRAG_SWITCH_BOOK s->clock, s->slots, KIVDRAG_SWITCH_PAIRS, s->rates, KIVDRAG_SWITCH_PAIRS

/*
 * BOOKINGS AND PACKETS, for the form direct; with pipelined in its place, for that form.
 *
 *   uint32_t kivdrag_direct_book(kivdrag_direct *s, uint64_t input, uint64_t output, uint64_t amount);
 *   uint32_t kivdrag_direct_book_rate(kivdrag_direct *s, uint64_t input, uint64_t output, uint64_t rate);
 *   uint32_t kivdrag_direct_release(kivdrag_direct *s, uint64_t input, uint64_t output, uint64_t amount);
 *   uint32_t kivdrag_direct_release_rate(kivdrag_direct *s, uint64_t input, uint64_t output, uint64_t rate);
 *   uint32_t kivdrag_direct_arrive(kivdrag_direct *s, uint64_t input, uint64_t output, uint64_t packets);
 */
#define KIVDRAG_SWITCH_OPERATION(form, operation)                                                                                                 \
    static inline uint32_t kivdrag_##form##_##operation(kivdrag_##form *s, uint64_t input, uint64_t output, uint64_t amount) {                    \
        return kivdrag_##operation(KIVDRAG_SWITCH_BOOK, input, output, amount);                                                                   \
    }

#define KIVDRAG_SWITCH_OPERATIONS(form)                                                                                                           \
    KIVDRAG_SWITCH_OPERATION(form, book)                                                                                                          \
    KIVDRAG_SWITCH_OPERATION(form, book_rate)                                                                                                     \
    KIVDRAG_SWITCH_OPERATION(form, release)                                                                                                       \
    KIVDRAG_SWITCH_OPERATION(form, release_rate)                                                                                                  \
    static inline uint32_t kivdrag_##form##_arrive(kivdrag_##form *s, uint64_t input, uint64_t output, uint64_t packets) {                        \
        return kivdrag_arrive(s->clock, s->queues, KIVDRAG_SWITCH_PAIRS, input, output, packets);                                                 \
    }

KIVDRAG_SWITCH_OPERATIONS(direct)
KIVDRAG_SWITCH_OPERATIONS(pipelined)

/*
 * HEADROOM AND PREVIEWS, for the form direct, and likewise for pipelined.
 *
 *   uint32_t kivdrag_direct_headroom(const kivdrag_direct *s, uint64_t input, uint64_t output, int64_t *headroom);
 *   uint32_t kivdrag_direct_preview_book(const kivdrag_direct *s, uint64_t input, uint64_t output, uint64_t amount,
 *                                        uint64_t *row, uint64_t *column);
 *   uint32_t kivdrag_direct_preview_book_rate(const kivdrag_direct *s, uint64_t input, uint64_t output, uint64_t rate,
 *                                             uint64_t *row, uint64_t *column);
 *   uint32_t kivdrag_direct_preview_release(const kivdrag_direct *s, uint64_t input, uint64_t output, uint64_t amount,
 *                                           uint64_t *row, uint64_t *column);
 *   uint32_t kivdrag_direct_preview_release_rate(const kivdrag_direct *s, uint64_t input, uint64_t output, uint64_t rate,
 *                                                uint64_t *row, uint64_t *column);
 */
#define KIVDRAG_SWITCH_PREVIEW(form, operation)                                                                                                   \
    static inline uint32_t kivdrag_##form##_preview_##operation(const kivdrag_##form *s, uint64_t input, uint64_t output, uint64_t amount,        \
                                                                uint64_t *row, uint64_t *column) {                                                \
        return kivdrag_preview_##operation(KIVDRAG_SWITCH_BOOK, input, output, amount, row, column);                                              \
    }

#define KIVDRAG_SWITCH_PREVIEWS(form)                                                                                                             \
    static inline uint32_t kivdrag_##form##_headroom(const kivdrag_##form *s, uint64_t input, uint64_t output, int64_t *headroom) {               \
        return kivdrag_headroom(KIVDRAG_SWITCH_BOOK, input, output, headroom);                                                                    \
    }                                                                                                                                             \
    KIVDRAG_SWITCH_PREVIEW(form, book)                                                                                                            \
    KIVDRAG_SWITCH_PREVIEW(form, book_rate)                                                                                                       \
    KIVDRAG_SWITCH_PREVIEW(form, release)                                                                                                         \
    KIVDRAG_SWITCH_PREVIEW(form, release_rate)

KIVDRAG_SWITCH_PREVIEWS(direct)
KIVDRAG_SWITCH_PREVIEWS(pipelined)

/*
 * READERS, for the form direct, and likewise for pipelined: the number of ports; the slots of a frame; the last slot run, 0 after a start; the packets
 * of a pair that no slot has been found for yet; the slots of each frame that a pair has booked, with those for the sum of its rates, rounded up.
 *
 *   uint32_t kivdrag_direct_ports(const kivdrag_direct *s);
 *   uint32_t kivdrag_direct_frame(const kivdrag_direct *s);
 *   uint32_t kivdrag_direct_last_slot(const kivdrag_direct *s);
 *   uint32_t kivdrag_direct_waiting(const kivdrag_direct *s, uint64_t input, uint64_t output);
 *   uint32_t kivdrag_direct_booking(const kivdrag_direct *s, uint64_t input, uint64_t output);
 */
#define KIVDRAG_SWITCH_CLOCK_READER(form, reader, place)                                                                                          \
    static inline uint32_t kivdrag_##form##_##reader(const kivdrag_##form *s) {                                                                   \
        return s->clock[place];                                                                                                                   \
    }

#define KIVDRAG_SWITCH_READERS(form)                                                                                                              \
    KIVDRAG_SWITCH_CLOCK_READER(form, ports, KIVDRAG_CLOCK_PORTS)                                                                                 \
    KIVDRAG_SWITCH_CLOCK_READER(form, frame, KIVDRAG_CLOCK_FRAME)                                                                                 \
    KIVDRAG_SWITCH_CLOCK_READER(form, last_slot, KIVDRAG_CLOCK_SLOT)                                                                              \
    static inline uint32_t kivdrag_##form##_waiting(const kivdrag_##form *s, uint64_t input, uint64_t output) {                                   \
        size_t place = kivdrag_switch_place(s->clock, input, output);                                                                             \
        return place < KIVDRAG_SWITCH_PAIRS ? s->queues[place] : 0u;                                                                              \
    }                                                                                                                                             \
    static inline uint32_t kivdrag_##form##_booking(const kivdrag_##form *s, uint64_t input, uint64_t output) {                                   \
        size_t place = kivdrag_switch_place(s->clock, input, output);                                                                             \
        return place < KIVDRAG_SWITCH_PAIRS ? kivdrag_switch_booking(s->clock, s->slots + place, s->rates + place) : 0u;                          \
    }

KIVDRAG_SWITCH_READERS(direct)
KIVDRAG_SWITCH_READERS(pipelined)

/* STARTS AND TICKS. The words that both forms lend to these. */
#define KIVDRAG_SWITCH_LENT                                                                                                                       \
    KIVDRAG_SWITCH_BOOK, s->credits, KIVDRAG_SWITCH_PAIRS, s->queues, KIVDRAG_SWITCH_PAIRS, s->given, KIVDRAG_GIVEN_WORDS(KIVDRAG_SWITCH_PORTS)
#define KIVDRAG_SWITCH_LENT_PIPELINED                                                                                                             \
    KIVDRAG_SWITCH_LENT, s->copy, KIVDRAG_SWITCH_PAIRS, s->flight, KIVDRAG_FLIGHT_WORDS(KIVDRAG_SWITCH_PORTS)

/* Starts a switch: line is the rate of a line in kbit/s, 0 where only slots are booked; fine is 0 for a plain book, 1 for a fine one. */
static inline uint32_t kivdrag_direct_start(kivdrag_direct *s, uint64_t ports, uint64_t frame, uint64_t line, uint32_t fine) {
    return kivdrag_start_direct(ports, frame, line, fine, KIVDRAG_SWITCH_LENT);
}

static inline uint32_t kivdrag_pipelined_start(kivdrag_pipelined *s, uint64_t ports, uint64_t frame, uint64_t line, uint32_t fine) {
    return kivdrag_start_pipelined(ports, frame, line, fine, KIVDRAG_SWITCH_LENT_PIPELINED);
}

/* Runs the next slot and answers its pairs: those of the last slot run. */
static inline uint32_t kivdrag_direct_tick(kivdrag_direct *s, kivdrag_pairs *pairs) {
    return kivdrag_tick_direct(KIVDRAG_SWITCH_LENT, pairs->outputs, &pairs->first_pass);
}

/* Runs the next tick and answers the pairs of the slot to come: that after the last slot run. */
static inline uint32_t kivdrag_pipelined_tick(kivdrag_pipelined *s, kivdrag_pairs *pairs) {
    return kivdrag_tick_pipelined(KIVDRAG_SWITCH_LENT_PIPELINED, pairs->outputs, &pairs->first_pass);
}

/* Of the macros only KIVDRAG_VERSION and KIVDRAG_SWITCH_PORTS stay. */
#undef KIVDRAG_SWITCH_PAIRS
#undef KIVDRAG_SWITCH_WORDS
#undef KIVDRAG_SWITCH_BOOK
#undef KIVDRAG_SWITCH_OPERATION
#undef KIVDRAG_SWITCH_OPERATIONS
#undef KIVDRAG_SWITCH_PREVIEW
#undef KIVDRAG_SWITCH_PREVIEWS
#undef KIVDRAG_SWITCH_CLOCK_READER
#undef KIVDRAG_SWITCH_READERS
#undef KIVDRAG_SWITCH_LENT
#undef KIVDRAG_SWITCH_LENT_PIPELINED

#endif
