/*
 * include/kivdrag.h beside the library: every function, every refusal by its macro, and after each call every lent
 * word. At the first thing that is not as the header says, it names it and ends with 1; otherwise it prints one line.
 * It is C11 and C++17. Build it at the repository's root, after `tools/proved kivdrag_c`:
 *
 *   cc -std=c11 -Wall -Wextra -Werror -Wconversion -Iinclude tests/header_test.c \
 *      target/staticlib/libkivdrag_c.a -o target/header_test
 */
#include "kivdrag.h"

#include <assert.h>
#include <stdio.h>
#include <stdlib.h>
#include <string.h>

/* THE NUMBERS of the macros */
static_assert(KIVDRAG_ACCEPTED == 0, "accepted");
static_assert(KIVDRAG_REFUSED_PORTS == 1, "ports");
static_assert(KIVDRAG_REFUSED_FRAME == 2, "frame");
static_assert(KIVDRAG_REFUSED_PIPELINE == 3, "pipeline");
static_assert(KIVDRAG_REFUSED_RUNS == 4, "runs");
static_assert(KIVDRAG_REFUSED_PAIR == 5, "pair");
static_assert(KIVDRAG_REFUSED_AMOUNT == 6, "amount");
static_assert(KIVDRAG_REFUSED_CLOCK == 7, "clock");
static_assert(KIVDRAG_REFUSED_INPUT == 8, "input");
static_assert(KIVDRAG_REFUSED_OUTPUT == 9, "output");
static_assert(KIVDRAG_REFUSED_RELEASE == 10, "release");
static_assert(KIVDRAG_REFUSED_QUEUE == 11, "queue");
static_assert(KIVDRAG_REFUSED_FINE == 15, "fine book");
static_assert(KIVDRAG_PORTS_MAX == 32, "most ports");
static_assert(KIVDRAG_CLOCK_WORDS == 5, "words of a clock");
static_assert(KIVDRAG_PAIR_WORDS(3) == 9 && KIVDRAG_PAIR_WORDS(1 + 1) == 4, "words of a run");
static_assert(KIVDRAG_GIVEN_WORDS(3) == 3 && KIVDRAG_GIVEN_WORDS(1 + 1) == 2, "words of last given outputs");
static_assert(KIVDRAG_FLIGHT_WORDS(3) == 18 && KIVDRAG_FLIGHT_WORDS(1 + 1) == 8, "words in flight");
static_assert(KIVDRAG_CLOCK_PORTS == 0 && KIVDRAG_CLOCK_FRAME == 1, "places in a clock");
static_assert(KIVDRAG_CLOCK_SLOT == 2 && KIVDRAG_CLOCK_LINE == 3, "places in a clock");
static_assert(KIVDRAG_CLOCK_FINE == 4, "places in a clock");

/* THE TYPES of the functions. Calls by position go through these pointers. */
typedef uint32_t StartDirect(uint64_t, uint64_t, uint64_t, uint32_t, uint32_t *, uint32_t *, size_t, uint32_t *, size_t,
                             uint32_t *, size_t, uint32_t *, size_t, uint32_t *, size_t);
typedef uint32_t StartPipelined(uint64_t, uint64_t, uint64_t, uint32_t, uint32_t *, uint32_t *, size_t,
                                uint32_t *, size_t, uint32_t *, size_t, uint32_t *, size_t, uint32_t *, size_t,
                                uint32_t *, size_t, uint32_t *, size_t);
typedef uint32_t OnSlots(const uint32_t *, uint32_t *, size_t, const uint32_t *, size_t, uint64_t, uint64_t, uint64_t);
typedef uint32_t OnRates(const uint32_t *, const uint32_t *, size_t, uint32_t *, size_t, uint64_t, uint64_t, uint64_t);
typedef uint32_t Headroom(const uint32_t *, const uint32_t *, size_t, const uint32_t *, size_t, uint64_t, uint64_t,
                          int64_t *);
typedef uint32_t Preview(const uint32_t *, const uint32_t *, size_t, const uint32_t *, size_t, uint64_t, uint64_t,
                         uint64_t, uint64_t *, uint64_t *);
typedef uint32_t OnQueues(const uint32_t *, uint32_t *, size_t, uint64_t, uint64_t, uint64_t);
typedef uint32_t TickDirect(uint32_t *, const uint32_t *, size_t, const uint32_t *, size_t, uint32_t *, size_t,
                            uint32_t *, size_t, uint32_t *, size_t, uint8_t *, uint32_t *);
typedef uint32_t TickPipelined(uint32_t *, const uint32_t *, size_t, const uint32_t *, size_t, uint32_t *, size_t,
                               uint32_t *, size_t, uint32_t *, size_t, uint32_t *, size_t, uint32_t *, size_t,
                               uint8_t *, uint32_t *);

static StartDirect *const p_start_direct = kivdrag_start_direct;
static StartPipelined *const p_start_pipelined = kivdrag_start_pipelined;
static OnSlots *const p_book = kivdrag_book;
static OnRates *const p_book_rate = kivdrag_book_rate;
static OnSlots *const p_release = kivdrag_release;
static OnRates *const p_release_rate = kivdrag_release_rate;
static Headroom *const p_headroom = kivdrag_headroom;
static Preview *const p_preview_book = kivdrag_preview_book;
static Preview *const p_preview_book_rate = kivdrag_preview_book_rate;
static Preview *const p_preview_release = kivdrag_preview_release;
static Preview *const p_preview_release_rate = kivdrag_preview_release_rate;
static OnQueues *const p_arrive = kivdrag_arrive;
static TickDirect *const p_tick_direct = kivdrag_tick_direct;
static TickPipelined *const p_tick_pipelined = kivdrag_tick_pipelined;

/* The functions, and the answers that the header lists for each, as bits. */
typedef enum {
    START_DIRECT,
    START_PIPELINED,
    BOOK,
    BOOK_RATE,
    RELEASE,
    RELEASE_RATE,
    HEADROOM,
    PREVIEW_BOOK,
    PREVIEW_BOOK_RATE,
    PREVIEW_RELEASE,
    PREVIEW_RELEASE_RATE,
    ARRIVE,
    TICK_DIRECT,
    TICK_PIPELINED,
    FUNCTIONS
} Function;

static_assert(BOOK_RATE - BOOK == 1 && RELEASE - BOOK == 2 && RELEASE_RATE - BOOK == 3, "operations in a row");
static_assert(PREVIEW_BOOK_RATE - PREVIEW_BOOK == 1 && PREVIEW_RELEASE - PREVIEW_BOOK == 2
              && PREVIEW_RELEASE_RATE - PREVIEW_BOOK == 3, "previews in the order of their operations");

#define BIT(number) (1u << (number))
#define ON_PAIR                                                                                                        \
    (BIT(KIVDRAG_ACCEPTED) | BIT(KIVDRAG_REFUSED_PORTS) | BIT(KIVDRAG_REFUSED_FRAME) | BIT(KIVDRAG_REFUSED_RUNS)       \
     | BIT(KIVDRAG_REFUSED_PAIR) | BIT(KIVDRAG_REFUSED_AMOUNT))
#define ON_SWITCH                                                                                                      \
    (BIT(KIVDRAG_ACCEPTED) | BIT(KIVDRAG_REFUSED_PORTS) | BIT(KIVDRAG_REFUSED_FRAME) | BIT(KIVDRAG_REFUSED_RUNS))
#define ON_BOOKING (ON_PAIR | BIT(KIVDRAG_REFUSED_INPUT) | BIT(KIVDRAG_REFUSED_OUTPUT) | BIT(KIVDRAG_REFUSED_FINE))

static const struct {
    const char *name;
    unsigned answers;
} listed[FUNCTIONS] = {
    {"kivdrag_start_direct", ON_SWITCH | BIT(KIVDRAG_REFUSED_AMOUNT)},
    {"kivdrag_start_pipelined", ON_SWITCH | BIT(KIVDRAG_REFUSED_PIPELINE) | BIT(KIVDRAG_REFUSED_AMOUNT)},
    {"kivdrag_book", ON_BOOKING},
    {"kivdrag_book_rate", ON_BOOKING},
    {"kivdrag_release", ON_PAIR | BIT(KIVDRAG_REFUSED_RELEASE)},
    {"kivdrag_release_rate", ON_PAIR | BIT(KIVDRAG_REFUSED_RELEASE)},
    {"kivdrag_headroom", ON_SWITCH | BIT(KIVDRAG_REFUSED_PAIR)},
    {"kivdrag_preview_book", ON_BOOKING},
    {"kivdrag_preview_book_rate", ON_BOOKING},
    {"kivdrag_preview_release", ON_PAIR | BIT(KIVDRAG_REFUSED_RELEASE)},
    {"kivdrag_preview_release_rate", ON_PAIR | BIT(KIVDRAG_REFUSED_RELEASE)},
    {"kivdrag_arrive", ON_PAIR | BIT(KIVDRAG_REFUSED_QUEUE)},
    {"kivdrag_tick_direct", ON_SWITCH | BIT(KIVDRAG_REFUSED_CLOCK)},
    {"kivdrag_tick_pipelined", ON_SWITCH | BIT(KIVDRAG_REFUSED_PIPELINE) | BIT(KIVDRAG_REFUSED_CLOCK)},
};

/*
 * ALL THAT A CALL CAN WRITE: what it is, and what it should be. A run has room for the most ports and a few words
 * beyond, and is lent with `lengths` words. Each word begins with a value of its own, so that a wrong place shows.
 */
#define MOST KIVDRAG_PORTS_MAX
#define BEYOND 7

typedef struct {
    uint32_t clock[KIVDRAG_CLOCK_WORDS];
    uint32_t slots[KIVDRAG_PAIR_WORDS(MOST) + BEYOND];
    uint32_t rates[KIVDRAG_PAIR_WORDS(MOST) + BEYOND];
    uint32_t credits[KIVDRAG_PAIR_WORDS(MOST) + BEYOND];
    uint32_t queues[KIVDRAG_PAIR_WORDS(MOST) + BEYOND];
    uint32_t given[KIVDRAG_GIVEN_WORDS(MOST) + BEYOND];
    uint32_t copy[KIVDRAG_PAIR_WORDS(MOST) + BEYOND];
    uint32_t flight[KIVDRAG_FLIGHT_WORDS(MOST) + BEYOND];
    uint8_t outputs[KIVDRAG_PORTS_MAX];
    uint32_t first_pass;
    int64_t headroom;
    uint64_t row, column;
} Memory;

static Memory is, should;

static struct {
    size_t slots, rates, credits, queues, given, copy, flight;
} lengths;

/* The numbers that a caller brings. */
typedef struct {
    uint64_t ports, frame, line, input, output, amount, rate, packets;
    uint32_t fine;
} Numbers;

static uint32_t by_position(Function called, const Numbers *n) {
    switch (called) {
    case START_DIRECT:
        return p_start_direct(n->ports, n->frame, n->line, n->fine, is.clock, is.slots, lengths.slots,
                              is.rates, lengths.rates, is.credits, lengths.credits, is.queues, lengths.queues,
                              is.given, lengths.given);
    case START_PIPELINED:
        return p_start_pipelined(n->ports, n->frame, n->line, n->fine, is.clock, is.slots, lengths.slots,
                                 is.rates, lengths.rates, is.credits, lengths.credits, is.queues, lengths.queues,
                                 is.given, lengths.given, is.copy, lengths.copy, is.flight, lengths.flight);
    case BOOK:
        return p_book(is.clock, is.slots, lengths.slots, is.rates, lengths.rates, n->input, n->output, n->amount);
    case BOOK_RATE:
        return p_book_rate(is.clock, is.slots, lengths.slots, is.rates, lengths.rates, n->input, n->output, n->rate);
    case RELEASE:
        return p_release(is.clock, is.slots, lengths.slots, is.rates, lengths.rates, n->input, n->output, n->amount);
    case RELEASE_RATE:
        return p_release_rate(is.clock, is.slots, lengths.slots, is.rates, lengths.rates,
                              n->input, n->output, n->rate);
    case HEADROOM:
        return p_headroom(is.clock, is.slots, lengths.slots, is.rates, lengths.rates, n->input, n->output,
                          &is.headroom);
    case PREVIEW_BOOK:
        return p_preview_book(is.clock, is.slots, lengths.slots, is.rates, lengths.rates,
                              n->input, n->output, n->amount, &is.row, &is.column);
    case PREVIEW_BOOK_RATE:
        return p_preview_book_rate(is.clock, is.slots, lengths.slots, is.rates, lengths.rates,
                                   n->input, n->output, n->rate, &is.row, &is.column);
    case PREVIEW_RELEASE:
        return p_preview_release(is.clock, is.slots, lengths.slots, is.rates, lengths.rates,
                                 n->input, n->output, n->amount, &is.row, &is.column);
    case PREVIEW_RELEASE_RATE:
        return p_preview_release_rate(is.clock, is.slots, lengths.slots, is.rates, lengths.rates,
                                      n->input, n->output, n->rate, &is.row, &is.column);
    case ARRIVE:
        return p_arrive(is.clock, is.queues, lengths.queues, n->input, n->output, n->packets);
    case TICK_DIRECT:
        return p_tick_direct(is.clock, is.slots, lengths.slots, is.rates, lengths.rates, is.credits, lengths.credits,
                             is.queues, lengths.queues, is.given, lengths.given, is.outputs, &is.first_pass);
    case TICK_PIPELINED:
        return p_tick_pipelined(is.clock, is.slots, lengths.slots, is.rates, lengths.rates,
                                is.credits, lengths.credits, is.queues, lengths.queues, is.given, lengths.given,
                                is.copy, lengths.copy, is.flight, lengths.flight, is.outputs, &is.first_pass);
    case FUNCTIONS:
        break;
    }
    return UINT32_MAX;
}

#ifndef __cplusplus
/*
 * The same call with its arguments put in order by the header's own names, which no compiler looks at otherwise. The
 * header is included once more, with its types defined away, and its prototype
 *
 *   uint32_t kivdrag_book(const uint32_t clock[5], uint32_t *slots, .., uint64_t amount);
 *
 * then reads kivdrag_book(clock[5], *slots, .., amount); which is a call on variables of these names. Where two
 * names have changed places in a prototype, the call is the wrong one. (Not in C++: extern "C" cannot stand in a
 * function.)
 */
static uint32_t by_name(Function called, const Numbers *n) {
    uint32_t refusal = UINT32_MAX, fine = n->fine;
    uint64_t ports = n->ports, frame = n->frame, line = n->line, input = n->input, output = n->output;
    uint64_t amount = n->amount, rate = n->rate, packets = n->packets;
    size_t slots_length = lengths.slots, rates_length = lengths.rates, credits_length = lengths.credits;
    size_t queues_length = lengths.queues, given_length = lengths.given, copy_length = lengths.copy;
    size_t flight_length = lengths.flight;
    /* what clock[5] and outputs[32] are, and what * is put before */
    uint32_t *clock[5 + 1] = {0};
    uint8_t *outputs[32 + 1] = {0};
    uint32_t *lent[] = {is.slots, is.rates, is.credits, is.queues, is.given, is.copy, is.flight, &is.first_pass};
    uint32_t **slots = &lent[0], **rates = &lent[1], **credits = &lent[2], **queues = &lent[3];
    uint32_t **given = &lent[4], **copy = &lent[5], **flight = &lent[6], **first_pass = &lent[7];
    int64_t *lent_headroom = &is.headroom, **headroom = &lent_headroom;
    uint64_t *lent_sums[] = {&is.row, &is.column}, **row = &lent_sums[0], **column = &lent_sums[1];
    clock[5] = is.clock;
    outputs[32] = is.outputs;

#undef KIVDRAG_H
#define uint8_t
#define uint32_t
#define uint64_t
#define int64_t
#define size_t
#define const
#define kivdrag_start_direct(...) if (called == START_DIRECT) refusal = kivdrag_start_direct(__VA_ARGS__)
#define kivdrag_start_pipelined(...) if (called == START_PIPELINED) refusal = kivdrag_start_pipelined(__VA_ARGS__)
#define kivdrag_book(...) if (called == BOOK) refusal = kivdrag_book(__VA_ARGS__)
#define kivdrag_book_rate(...) if (called == BOOK_RATE) refusal = kivdrag_book_rate(__VA_ARGS__)
#define kivdrag_release(...) if (called == RELEASE) refusal = kivdrag_release(__VA_ARGS__)
#define kivdrag_release_rate(...) if (called == RELEASE_RATE) refusal = kivdrag_release_rate(__VA_ARGS__)
#define kivdrag_headroom(...) if (called == HEADROOM) refusal = kivdrag_headroom(__VA_ARGS__)
#define kivdrag_preview_book(...) if (called == PREVIEW_BOOK) refusal = kivdrag_preview_book(__VA_ARGS__)
#define kivdrag_preview_book_rate(...)                                                                                 \
    if (called == PREVIEW_BOOK_RATE) refusal = kivdrag_preview_book_rate(__VA_ARGS__)
#define kivdrag_preview_release(...) if (called == PREVIEW_RELEASE) refusal = kivdrag_preview_release(__VA_ARGS__)
#define kivdrag_preview_release_rate(...)                                                                              \
    if (called == PREVIEW_RELEASE_RATE) refusal = kivdrag_preview_release_rate(__VA_ARGS__)
#define kivdrag_arrive(...) if (called == ARRIVE) refusal = kivdrag_arrive(__VA_ARGS__)
#define kivdrag_tick_direct(...) if (called == TICK_DIRECT) refusal = kivdrag_tick_direct(__VA_ARGS__)
#define kivdrag_tick_pipelined(...) if (called == TICK_PIPELINED) refusal = kivdrag_tick_pipelined(__VA_ARGS__)
#include "kivdrag.h"
#undef uint8_t
#undef uint32_t
#undef uint64_t
#undef int64_t
#undef size_t
#undef const

    return refusal;
}
#endif

/* HOW CALLS ARE MADE AND CHECKED */
static uint32_t (*make)(Function, const Numbers *) = by_position;
static const char *made = "by position";
static unsigned met[FUNCTIONS];
static unsigned long calls;

static void differs(int line, const char *call, const char *what, size_t place, long long value, long long wanted) {
    printf("tests/header_test.c:%d: %s, arguments %s: %s", line, call, made, what);
    if (place != SIZE_MAX) {
        printf("[%lu]", (unsigned long)place);
    }
    printf(" is %lld, should be %lld\n", value, wanted);
    exit(1);
}

static void same_words(int line, const char *call, const char *what, const uint32_t *words, const uint32_t *wanted,
                       size_t length) {
    for (size_t p = 0; p < length; p++) {
        if (words[p] != wanted[p]) {
            differs(line, call, what, p, words[p], wanted[p]);
        }
    }
}

#define SAME(run) same_words(line, call, #run, is.run, should.run, sizeof is.run / sizeof is.run[0])

/* A call, and how the checks below write it. Numbers that it does not have must not matter. */
typedef struct {
    Function function;
    Numbers numbers;
} Call;

static Call call_of(Function function, uint64_t input, uint64_t output) {
    Call c;
    memset(&c, 0xEE, sizeof c);
    c.function = function;
    c.numbers.input = input;
    c.numbers.output = output;
    return c;
}

static Call start(Function function, uint64_t ports, uint64_t frame, uint64_t line) {
    Call c = call_of(function, UINT64_MAX, UINT64_MAX);
    c.numbers.ports = ports;
    c.numbers.frame = frame;
    c.numbers.line = line;
    c.numbers.fine = 0;
    return c;
}

static Call start_direct(uint64_t ports, uint64_t frame, uint64_t line) {
    return start(START_DIRECT, ports, frame, line);
}

static Call start_pipelined(uint64_t ports, uint64_t frame, uint64_t line) {
    return start(START_PIPELINED, ports, frame, line);
}

/* A start with this number for the kind of its book; the others are with 0, and so with a plain one. */
static Call with_kind(uint32_t fine, Call c) {
    c.numbers.fine = fine;
    return c;
}

static Call book(uint64_t input, uint64_t output, uint64_t amount) {
    Call c = call_of(BOOK, input, output);
    c.numbers.amount = amount;
    return c;
}

static Call book_rate(uint64_t input, uint64_t output, uint64_t rate) {
    Call c = call_of(BOOK_RATE, input, output);
    c.numbers.rate = rate;
    return c;
}

static Call release(uint64_t input, uint64_t output, uint64_t amount) {
    Call c = call_of(RELEASE, input, output);
    c.numbers.amount = amount;
    return c;
}

static Call release_rate(uint64_t input, uint64_t output, uint64_t rate) {
    Call c = call_of(RELEASE_RATE, input, output);
    c.numbers.rate = rate;
    return c;
}

static Call headroom(uint64_t input, uint64_t output) {
    return call_of(HEADROOM, input, output);
}

/* The preview of a call that books or releases. */
static Call preview(Call c) {
    c.function = (Function)(PREVIEW_BOOK + (c.function - BOOK));
    return c;
}

static Call arrive(uint64_t input, uint64_t output, uint64_t packets) {
    Call c = call_of(ARRIVE, input, output);
    c.numbers.packets = packets;
    return c;
}

static Call tick_direct(void) {
    return call_of(TICK_DIRECT, UINT64_MAX, UINT64_MAX);
}

static Call tick_pipelined(void) {
    return call_of(TICK_PIPELINED, UINT64_MAX, UINT64_MAX);
}

/* What is in *headroom before a call that sets it, and in *row and *column. */
#define UNSET (-0x5A5A5A5A5A5A5A5B)
#define UNSET_ROW 0xA5A5A5A5A5A5A5A5u
#define UNSET_COLUMN 0xC3C3C3C3C3C3C3C3u

static int is_preview(Function called) {
    return PREVIEW_BOOK <= called && called <= PREVIEW_RELEASE_RATE;
}

/* Whether a preview shows sums beside this answer. */
static int shows_sums(uint32_t answer) {
    return answer == KIVDRAG_ACCEPTED || answer == KIVDRAG_REFUSED_INPUT || answer == KIVDRAG_REFUSED_OUTPUT
           || answer == KIVDRAG_REFUSED_FINE;
}

/* Makes a call: its answer is as given, and every word is as it should be. A refused tick answers with zeros, a refused
   headroom is 0, and so are the sums of a preview that is refused by another number than 8, 9 and 15. */
static void check(int line, const char *call, uint32_t wanted, Call c) {
    if (is_preview(c.function)) {
        is.row = UNSET_ROW;
        is.column = UNSET_COLUMN;
        if (!shows_sums(wanted)) {
            should.row = should.column = 0;
        }
    }
    if (c.function == HEADROOM) {
        is.headroom = UNSET;
        if (wanted != KIVDRAG_ACCEPTED) {
            should.headroom = 0;
        }
    }
    if (wanted != KIVDRAG_ACCEPTED && (c.function == TICK_DIRECT || c.function == TICK_PIPELINED)) {
        memset(should.outputs, 0, sizeof should.outputs);
        should.first_pass = 0;
    }
    uint32_t refusal = make(c.function, &c.numbers);
    if (refusal != wanted) {
        differs(line, call, "the answer", SIZE_MAX, refusal, wanted);
    }
    SAME(clock);
    SAME(slots);
    SAME(rates);
    SAME(credits);
    SAME(queues);
    SAME(given);
    SAME(copy);
    SAME(flight);
    for (size_t p = 0; p < sizeof is.outputs; p++) {
        if (is.outputs[p] != should.outputs[p]) {
            differs(line, call, "outputs", p, is.outputs[p], should.outputs[p]);
        }
    }
    if (is.first_pass != should.first_pass) {
        differs(line, call, "*first_pass", SIZE_MAX, is.first_pass, should.first_pass);
    }
    if (is.headroom != should.headroom) {
        differs(line, call, "*headroom", SIZE_MAX, is.headroom, should.headroom);
    }
    if (is.row != should.row) {
        differs(line, call, "*row", SIZE_MAX, (long long)is.row, (long long)should.row);
    }
    if (is.column != should.column) {
        differs(line, call, "*column", SIZE_MAX, (long long)is.column, (long long)should.column);
    }
    met[c.function] |= BIT(refusal);
    calls++;
}

#define CHECK(wanted, call) check(__LINE__, #call, (wanted), (call))

/* WHAT A CALL SHOULD DO, written into `should` */
static void should_start(uint32_t ports, uint32_t frame, uint32_t line, int pipelined) {
    size_t pairs = KIVDRAG_PAIR_WORDS(ports) * sizeof(uint32_t);
    should.clock[KIVDRAG_CLOCK_PORTS] = ports;
    should.clock[KIVDRAG_CLOCK_FRAME] = frame;
    should.clock[KIVDRAG_CLOCK_SLOT] = 0;
    should.clock[KIVDRAG_CLOCK_LINE] = line;
    should.clock[KIVDRAG_CLOCK_FINE] = 0;
    memset(should.slots, 0, pairs);
    memset(should.rates, 0, pairs);
    memset(should.credits, 0, pairs);
    memset(should.queues, 0, pairs);
    memset(should.given, 0, KIVDRAG_GIVEN_WORDS(ports) * sizeof(uint32_t));
    if (pipelined) {
        memset(should.copy, 0, pairs);
        memset(should.flight, 0, KIVDRAG_FLIGHT_WORDS(ports) * sizeof(uint32_t));
    }
}

/* the word of input i and output j, and in flight that of input i for slot s */
static size_t at(uint32_t i, uint32_t j) {
    return (size_t)(i - 1) * should.clock[KIVDRAG_CLOCK_PORTS] + (j - 1);
}

static size_t in_flight(uint32_t s, uint32_t i) {
    uint32_t ports = should.clock[KIVDRAG_CLOCK_PORTS];
    return (size_t)(s % (2 * ports)) * ports + (i - 1);
}

/* a tick that gives inputs 1 to 3 these outputs, and these inputs by pass one, as bits */
static void should_answer(uint32_t slot, uint8_t first, uint8_t second, uint8_t third, uint32_t first_pass) {
    should.clock[KIVDRAG_CLOCK_SLOT] = slot;
    memset(should.outputs, 0, sizeof should.outputs);
    should.outputs[0] = first;
    should.outputs[1] = second;
    should.outputs[2] = third;
    should.first_pass = first_pass;
}

/* a direct tick: the same, and the words of the inputs that are given an output */
static void should_give(uint32_t slot, uint8_t first, uint8_t second, uint8_t third, uint32_t first_pass) {
    should_answer(slot, first, second, third, first_pass);
    for (size_t p = 0; p < 3; p++) {
        if (should.outputs[p] != 0) {
            should.given[p] = should.outputs[p];
        }
    }
}

/* the same value where it is and where it should be, before a call */
#define SET(word, value) (is.word = should.word = (value))

static void fill(uint32_t *words, size_t length, uint32_t from) {
    for (size_t p = 0; p < length; p++) {
        words[p] = from + (uint32_t)p;
    }
}

#define FILL(run, from) fill(is.run, sizeof is.run / sizeof is.run[0], from)

/* Memory that somebody has used before. The runs are lent with a few words more than so many ports need. */
static void fresh(size_t ports) {
    FILL(clock, 4000000000u);
    FILL(slots, 1000000);
    FILL(rates, 2000000);
    FILL(credits, 3000000);
    FILL(queues, 4000000);
    FILL(given, 1); /* as if each input had been given an output of its own */
    FILL(copy, 5000000);
    FILL(flight, 6000000);
    memset(is.outputs, 0xA5, sizeof is.outputs);
    is.first_pass = 0xA5A5A5A5;
    is.headroom = UNSET;
    is.row = UNSET_ROW;
    is.column = UNSET_COLUMN;
    should = is;
    lengths.slots = KIVDRAG_PAIR_WORDS(ports) + 1;
    lengths.rates = KIVDRAG_PAIR_WORDS(ports) + 2;
    lengths.credits = KIVDRAG_PAIR_WORDS(ports) + 3;
    lengths.queues = KIVDRAG_PAIR_WORDS(ports) + 4;
    lengths.copy = KIVDRAG_PAIR_WORDS(ports) + 5;
    lengths.flight = KIVDRAG_FLIGHT_WORDS(ports) + 6;
    lengths.given = KIVDRAG_GIVEN_WORDS(ports) + 7;
}

/* THE CHECKS */

/* A call is refused with 4 where a run lacks a word, and where it has none at all. */
static void check_short(int line, const char *call, size_t *length, size_t needed, Call c) {
    size_t lent = *length;
    *length = needed - 1;
    check(line, call, KIVDRAG_REFUSED_RUNS, c);
    *length = 0;
    check(line, call, KIVDRAG_REFUSED_RUNS, c);
    *length = lent;
}

#define CHECK_SHORT(run, needed, call) check_short(__LINE__, #call, &lengths.run, (needed), (call))

/* A call on a clock whose ports or frame are out of range; of both the ports come first. */
static void check_clock(int line, const char *call, Call c) {
    uint32_t ports = is.clock[KIVDRAG_CLOCK_PORTS], frame = is.clock[KIVDRAG_CLOCK_FRAME];
    SET(clock[KIVDRAG_CLOCK_FRAME], 0);
    check(line, call, KIVDRAG_REFUSED_FRAME, c);
    SET(clock[KIVDRAG_CLOCK_FRAME], 10001);
    check(line, call, KIVDRAG_REFUSED_FRAME, c);
    SET(clock[KIVDRAG_CLOCK_PORTS], 33);
    check(line, call, KIVDRAG_REFUSED_PORTS, c);
    SET(clock[KIVDRAG_CLOCK_FRAME], frame);
    SET(clock[KIVDRAG_CLOCK_PORTS], 0);
    check(line, call, KIVDRAG_REFUSED_PORTS, c);
    SET(clock[KIVDRAG_CLOCK_PORTS], ports);
}

#define CHECK_CLOCK(call) check_clock(__LINE__, #call, (call))

/* the highest line rate */
#define TOP_LINE 100000000u

static void starts(void) {
    fresh(3);
    CHECK(KIVDRAG_REFUSED_PORTS, start_direct(0, 7, 9));
    CHECK(KIVDRAG_REFUSED_PORTS, start_direct(33, 7, 9));
    CHECK(KIVDRAG_REFUSED_PORTS, start_direct(((uint64_t)1 << 32) + 3, 7, 9));
    CHECK(KIVDRAG_REFUSED_PORTS, start_direct(0, 0, 9));
    CHECK(KIVDRAG_REFUSED_FRAME, start_direct(3, 0, 9));
    CHECK(KIVDRAG_REFUSED_FRAME, start_direct(3, 10001, 9));
    CHECK(KIVDRAG_REFUSED_FRAME, start_direct(3, ((uint64_t)1 << 32) + 7, 9));
    CHECK(KIVDRAG_REFUSED_FRAME, start_direct(4, 0, 9));
    CHECK(KIVDRAG_REFUSED_RUNS, start_direct(4, 7, 9));
    CHECK_SHORT(slots, 9, start_direct(3, 7, 9));
    CHECK_SHORT(rates, 9, start_direct(3, 7, 9));
    CHECK_SHORT(credits, 9, start_direct(3, 7, 9));
    CHECK_SHORT(queues, 9, start_direct(3, 7, 9));
    CHECK_SHORT(given, 3, start_direct(3, 7, TOP_LINE + 1)); /* 4 before 6 */
    CHECK(KIVDRAG_REFUSED_AMOUNT, start_direct(3, 7, TOP_LINE + 1));
    CHECK(KIVDRAG_REFUSED_AMOUNT, start_direct(3, 7, ((uint64_t)1 << 32) + 9));
    should_start(3, 7, 9, 0);
    CHECK(KIVDRAG_ACCEPTED, start_direct(3, 7, 9));
    should_start(2, 1, 0, 0);
    CHECK(KIVDRAG_ACCEPTED, start_direct(2, 1, 0));

    fresh(3);
    CHECK(KIVDRAG_REFUSED_PORTS, start_pipelined(0, 7, 9));
    CHECK(KIVDRAG_REFUSED_PORTS, start_pipelined(33, 7, 9));
    CHECK(KIVDRAG_REFUSED_PORTS, start_pipelined(((uint64_t)1 << 32) + 3, 7, 9));
    CHECK(KIVDRAG_REFUSED_FRAME, start_pipelined(3, 0, 9));
    CHECK(KIVDRAG_REFUSED_FRAME, start_pipelined(3, 10001, 9));
    CHECK(KIVDRAG_REFUSED_PIPELINE, start_pipelined(3, 2, 9));
    CHECK(KIVDRAG_REFUSED_PIPELINE, start_pipelined(4, 3, TOP_LINE + 1));
    CHECK(KIVDRAG_REFUSED_RUNS, start_pipelined(4, 4, 9));
    CHECK_SHORT(slots, 9, start_pipelined(3, 7, 9));
    CHECK_SHORT(rates, 9, start_pipelined(3, 7, 9));
    CHECK_SHORT(credits, 9, start_pipelined(3, 7, 9));
    CHECK_SHORT(queues, 9, start_pipelined(3, 7, 9));
    CHECK_SHORT(given, 3, start_pipelined(3, 7, 9));
    CHECK_SHORT(copy, 9, start_pipelined(3, 7, 9));
    CHECK_SHORT(flight, 18, start_pipelined(3, 7, TOP_LINE + 1)); /* 4 before 6 */
    CHECK(KIVDRAG_REFUSED_AMOUNT, start_pipelined(3, 7, TOP_LINE + 1));
    CHECK(KIVDRAG_REFUSED_AMOUNT, start_pipelined(3, 7, UINT64_MAX));
    should_start(3, 3, 0, 1);
    CHECK(KIVDRAG_ACCEPTED, start_pipelined(3, 3, 0));

    /* runs of just the length that is needed */
    fresh(3);
    lengths.slots = lengths.rates = lengths.credits = lengths.queues = lengths.copy = 9;
    lengths.given = 3;
    lengths.flight = 18;
    should_start(3, 10000, TOP_LINE, 0);
    CHECK(KIVDRAG_ACCEPTED, start_direct(3, 10000, TOP_LINE));
    should_start(3, 10000, TOP_LINE, 1);
    CHECK(KIVDRAG_ACCEPTED, start_pipelined(3, 10000, TOP_LINE));
}

static Call start_of_form(uint64_t ports, uint64_t frame, uint64_t line, int pipelined) {
    return pipelined ? start_pipelined(ports, frame, line) : start_direct(ports, frame, line);
}

/* A switch of either form, on memory that somebody has used before: with a plain book, and with a fine one. */
static void started(uint32_t ports, uint32_t frame, uint32_t line, int pipelined) {
    fresh(ports);
    should_start(ports, frame, line, pipelined);
    CHECK(KIVDRAG_ACCEPTED, start_of_form(ports, frame, line, pipelined));
}

static void started_fine(uint32_t ports, uint32_t frame, uint32_t line, int pipelined) {
    fresh(ports);
    should_start(ports, frame, line, pipelined);
    should.clock[KIVDRAG_CLOCK_FINE] = 1;
    CHECK(KIVDRAG_ACCEPTED, with_kind(1, start_of_form(ports, frame, line, pipelined)));
}

/* accepted bookings, releases and arrivals, and the word that each changes; and a headroom */
static void check_book(uint32_t i, uint32_t j, uint32_t amount) {
    should.slots[at(i, j)] += amount;
    CHECK(KIVDRAG_ACCEPTED, book(i, j, amount));
}

static void check_book_rate(uint32_t i, uint32_t j, uint32_t rate) {
    should.rates[at(i, j)] += rate;
    CHECK(KIVDRAG_ACCEPTED, book_rate(i, j, rate));
}

static void check_release(uint32_t i, uint32_t j, uint32_t amount) {
    should.slots[at(i, j)] -= amount;
    CHECK(KIVDRAG_ACCEPTED, release(i, j, amount));
}

static void check_release_rate(uint32_t i, uint32_t j, uint32_t rate) {
    should.rates[at(i, j)] -= rate;
    CHECK(KIVDRAG_ACCEPTED, release_rate(i, j, rate));
}

static void check_arrive(uint32_t i, uint32_t j, uint32_t packets) {
    should.queues[at(i, j)] += packets;
    CHECK(KIVDRAG_ACCEPTED, arrive(i, j, packets));
}

static void check_headroom(int line, const char *call, Call c, int64_t wanted) {
    should.headroom = wanted;
    check(line, call, KIVDRAG_ACCEPTED, c);
}

#define CHECK_HEADROOM(wanted, i, j) check_headroom(__LINE__, "headroom(" #i ", " #j ")", headroom(i, j), (wanted))

/* a pair's booking as the words of the book have it, and the sums of bookings of an input and of an output */
static uint64_t booking(uint32_t i, uint32_t j) {
    uint64_t frame = is.clock[KIVDRAG_CLOCK_FRAME], line = is.clock[KIVDRAG_CLOCK_LINE], all = is.slots[at(i, j)];
    if (line != 0) {
        all += (is.rates[at(i, j)] * frame + line - 1) / line;
    }
    return all < UINT32_MAX ? all : UINT32_MAX;
}

static uint64_t input_sum(uint32_t i) {
    uint64_t sum = 0;
    for (uint32_t j = 1; j <= is.clock[KIVDRAG_CLOCK_PORTS]; j++) {
        sum += booking(i, j);
    }
    return sum;
}

static uint64_t output_sum(uint32_t j) {
    uint64_t sum = 0;
    for (uint32_t i = 1; i <= is.clock[KIVDRAG_CLOCK_PORTS]; i++) {
        sum += booking(i, j);
    }
    return sum;
}

/* what an accepted booking or release does, written into `should` */
static void should_do(Call c) {
    size_t pair = at((uint32_t)c.numbers.input, (uint32_t)c.numbers.output);
    if (c.function == BOOK) {
        should.slots[pair] += (uint32_t)c.numbers.amount;
    } else if (c.function == BOOK_RATE) {
        should.rates[pair] += (uint32_t)c.numbers.rate;
    } else if (c.function == RELEASE) {
        should.slots[pair] -= (uint32_t)c.numbers.amount;
    } else {
        should.rates[pair] -= (uint32_t)c.numbers.rate;
    }
}

static const char *preview_name(Call c) {
    return listed[preview(c).function].name;
}

/* The preview of a booking or a release gives this number and these sums, and the operation after it gives the same
   number; where it is accepted, the words that it leaves have these sums. Then all memory is put back. */
static void check_preview(int line, const char *call, uint32_t wanted, uint64_t row, uint64_t column, Call c) {
    should.row = row;
    should.column = column;
    check(line, preview_name(c), wanted, preview(c));
    Memory before = is;
    if (wanted == KIVDRAG_ACCEPTED) {
        should_do(c);
    }
    check(line, call, wanted, c);
    if (wanted == KIVDRAG_ACCEPTED) {
        uint64_t input = input_sum((uint32_t)c.numbers.input), output = output_sum((uint32_t)c.numbers.output);
        if (input != row || output != column) {
            differs(line, call, input != row ? "the input's sum" : "the output's sum", SIZE_MAX,
                    (long long)(input != row ? input : output), (long long)(input != row ? row : column));
        }
    }
    is = before;
    should = before;
}

#define CHECK_PREVIEW(wanted, row, column, call) check_preview(__LINE__, #call, (wanted), (row), (column), (call))
#define CHECK_NO_SUMS(wanted, call) check_preview(__LINE__, listed[(call).function].name, (wanted), 0, 0, (call))

/* On a switch of 3 ports, frames of 7 slots, of which a line can sell 4, and lines of 7,000: a slot carries 1,000. */
static void bookings_by_slots(int pipelined) {
    started(3, 7, 7000, pipelined);
    check_book(1, 3, 2);
    CHECK_CLOCK(book(1, 3, 1));
    CHECK_SHORT(slots, 9, book(1, 3, 1));
    CHECK_SHORT(rates, 9, book(1, 4, 0));
    CHECK(KIVDRAG_REFUSED_PAIR, book(0, 3, 1));
    CHECK(KIVDRAG_REFUSED_PAIR, book(4, 3, 1));
    CHECK(KIVDRAG_REFUSED_PAIR, book(1, 0, 1));
    CHECK(KIVDRAG_REFUSED_PAIR, book(1, 4, 0));
    CHECK(KIVDRAG_REFUSED_PAIR, book(((uint64_t)1 << 32) + 1, 3, 1));
    CHECK(KIVDRAG_REFUSED_AMOUNT, book(1, 3, 0));
    CHECK(KIVDRAG_REFUSED_AMOUNT, book(1, 3, 8));
    CHECK(KIVDRAG_REFUSED_AMOUNT, book(1, 3, ((uint64_t)1 << 32) + 1));
    CHECK(KIVDRAG_REFUSED_INPUT, book(1, 1, 3));
    CHECK(KIVDRAG_REFUSED_OUTPUT, book(2, 3, 3));
    CHECK(KIVDRAG_REFUSED_INPUT, book(1, 3, 3)); /* the output's sum would be too much too */
    CHECK(KIVDRAG_REFUSED_INPUT, book(2, 1, 7));
    check_book(1, 1, 2);
    CHECK(KIVDRAG_REFUSED_INPUT, book(1, 2, 1));

    CHECK_CLOCK(release(1, 3, 1));
    CHECK_SHORT(slots, 9, release(1, 3, 1));
    CHECK_SHORT(rates, 9, release(1, 4, 0));
    CHECK(KIVDRAG_REFUSED_PAIR, release(4, 3, 1));
    CHECK(KIVDRAG_REFUSED_PAIR, release(1, 0, 0));
    CHECK(KIVDRAG_REFUSED_AMOUNT, release(1, 3, 0));
    CHECK(KIVDRAG_REFUSED_AMOUNT, release(1, 3, 8));
    CHECK(KIVDRAG_REFUSED_RELEASE, release(1, 3, 3));
    CHECK(KIVDRAG_REFUSED_RELEASE, release(3, 2, 1));
    check_release(1, 3, 1);
    check_release(1, 3, 1);
    CHECK(KIVDRAG_REFUSED_RELEASE, release(1, 3, 1));
}

static void bookings_by_rate(int pipelined) {
    started(3, 7, 7000, pipelined);
    check_book(1, 3, 2);
    check_book(1, 1, 2);
    check_book_rate(2, 3, 1001); /* 1,001 * 7 / 7,000 is a little more than 1, and so 2 slots */
    CHECK_CLOCK(book_rate(2, 1, 1000));
    CHECK_SHORT(slots, 9, book_rate(2, 1, 1000));
    CHECK_SHORT(rates, 9, book_rate(0, 1, 0));
    CHECK(KIVDRAG_REFUSED_PAIR, book_rate(0, 1, 1000));
    CHECK(KIVDRAG_REFUSED_PAIR, book_rate(2, 4, 0));
    CHECK(KIVDRAG_REFUSED_AMOUNT, book_rate(2, 1, 0));
    CHECK(KIVDRAG_REFUSED_AMOUNT, book_rate(2, 1, 7001));
    CHECK(KIVDRAG_REFUSED_AMOUNT, book_rate(2, 1, ((uint64_t)1 << 32) + 1000));
    CHECK(KIVDRAG_REFUSED_OUTPUT, book_rate(3, 3, 1));
    CHECK(KIVDRAG_REFUSED_OUTPUT, book(3, 3, 1));
    CHECK(KIVDRAG_REFUSED_INPUT, book_rate(1, 2, 1));
    CHECK(KIVDRAG_REFUSED_INPUT, book_rate(2, 1, 7000));
    CHECK(KIVDRAG_REFUSED_INPUT, book_rate(2, 1, 2001));
    check_book_rate(2, 1, 1000); /* 1 slot */
    check_book_rate(2, 1, 1);    /* 2 slots now, and input 2 has none left */
    CHECK(KIVDRAG_REFUSED_INPUT, book(2, 2, 1));
    CHECK(KIVDRAG_REFUSED_INPUT, book_rate(2, 2, 1));

    CHECK_CLOCK(release_rate(2, 3, 1));
    CHECK_SHORT(slots, 9, release_rate(2, 3, 1));
    CHECK_SHORT(rates, 9, release_rate(2, 0, 0));
    CHECK(KIVDRAG_REFUSED_PAIR, release_rate(4, 3, 1));
    CHECK(KIVDRAG_REFUSED_PAIR, release_rate(2, 0, 0));
    CHECK(KIVDRAG_REFUSED_AMOUNT, release_rate(2, 3, 0));
    CHECK(KIVDRAG_REFUSED_AMOUNT, release_rate(2, 3, 7001));
    CHECK(KIVDRAG_REFUSED_AMOUNT, release_rate(2, 3, ((uint64_t)1 << 32) + 1));
    CHECK(KIVDRAG_REFUSED_RELEASE, release_rate(2, 3, 1002));
    CHECK(KIVDRAG_REFUSED_RELEASE, release_rate(3, 2, 1));
    CHECK(KIVDRAG_REFUSED_RELEASE, release_rate(1, 3, 1)); /* its 2 slots are not seen */
    CHECK(KIVDRAG_REFUSED_RELEASE, release(2, 3, 1));      /* its rate of 2 slots is not seen */
    check_release_rate(2, 3, 1);
    check_book(3, 3, 1);
    check_release_rate(2, 3, 1000);
    CHECK(KIVDRAG_REFUSED_RELEASE, release_rate(2, 3, 1));
    check_release_rate(2, 1, 500); /* of two bookings a part */
}

/* Small streams of a pair share slots: frames of 3 slots, of which a line can sell 2, and lines of 1,000. */
static void small_streams(int pipelined) {
    started(2, 3, 1000, pipelined);
    check_book_rate(1, 1, 200); /* 1 slot */
    check_book_rate(1, 1, 200); /* 2 slots: 400 * 3 / 1,000 is more than 1 */
    check_book_rate(1, 1, 200); /* still 2: a rise of 0, where input and output have nothing left */
    CHECK(KIVDRAG_REFUSED_INPUT, book_rate(1, 1, 200));
    check_book_rate(1, 1, 66); /* 666 * 3 / 1,000 is less than 2, and 667 * 3 / 1,000 is more */
    CHECK(KIVDRAG_REFUSED_INPUT, book_rate(1, 1, 1));
    CHECK(KIVDRAG_REFUSED_INPUT, book(1, 2, 1));
    CHECK(KIVDRAG_REFUSED_OUTPUT, book(2, 1, 1));
    CHECK(KIVDRAG_REFUSED_OUTPUT, book_rate(2, 1, 1));
    check_release_rate(1, 1, 332); /* 334 is 2 slots, and 333 is 1 */
    CHECK(KIVDRAG_REFUSED_INPUT, book(1, 2, 1));
    check_release_rate(1, 1, 1);
    check_book(1, 2, 1);
    check_release(1, 2, 1);
    check_book(1, 1, 1); /* slots and rate of a pair are added */
    CHECK(KIVDRAG_REFUSED_INPUT, book_rate(1, 1, 1));
    CHECK(KIVDRAG_REFUSED_RELEASE, release(1, 1, 2));
    check_release(1, 1, 1);
    check_release_rate(1, 1, 333);

    /* above the limit, as no calls leave it, a rise of 0 is asked too */
    SET(rates[at(1, 1)], 700);
    CHECK(KIVDRAG_REFUSED_INPUT, book_rate(1, 1, 1));
    SET(rates[at(1, 1)], 500);
    SET(slots[at(2, 1)], 1);
    CHECK(KIVDRAG_REFUSED_OUTPUT, book_rate(1, 1, 1));
}

/* A line rate of 0, and one that only a clock of any contents holds. */
static void line_rates(int pipelined) {
    started(2, 3, 0, pipelined);
    SET(rates[at(1, 1)], UINT32_MAX);
    CHECK(KIVDRAG_REFUSED_AMOUNT, book_rate(1, 1, 1));
    CHECK(KIVDRAG_REFUSED_AMOUNT, book_rate(1, 1, 0));
    CHECK(KIVDRAG_REFUSED_AMOUNT, release_rate(1, 1, 1));
    CHECK(KIVDRAG_REFUSED_AMOUNT, release_rate(1, 1, 0));
    check_book(1, 1, 2); /* the rates count as 0 slots */
    check_release(1, 1, 2);

    SET(rates[at(1, 1)], TOP_LINE);
    SET(clock[KIVDRAG_CLOCK_LINE], TOP_LINE + 1);
    CHECK(KIVDRAG_REFUSED_AMOUNT, book_rate(1, 1, 1));
    CHECK(KIVDRAG_REFUSED_AMOUNT, release_rate(1, 1, 1));
    CHECK(KIVDRAG_REFUSED_INPUT, book(1, 2, 1)); /* these rates count as 3 slots */
    SET(clock[KIVDRAG_CLOCK_LINE], UINT32_MAX);
    CHECK(KIVDRAG_REFUSED_AMOUNT, book_rate(1, 1, 1));
    CHECK(KIVDRAG_REFUSED_AMOUNT, release_rate(1, 1, 1));
    check_book(1, 2, 1); /* now as 1 */
    SET(clock[KIVDRAG_CLOCK_LINE], TOP_LINE);
    check_release_rate(1, 1, TOP_LINE);
    check_book_rate(1, 1, 1);
}

/* Headroom, with frames of 3 slots and lines of 1,000: F - (row + column - a). */
static void headrooms(int pipelined) {
    started(3, 3, 1000, pipelined);
    CHECK_HEADROOM(3, 1, 1);
    CHECK_HEADROOM(3, 3, 2);
    check_book(1, 2, 2);
    CHECK_HEADROOM(1, 1, 2); /* row 2, column 2, a 2: the pair's own booking counts once */
    CHECK_HEADROOM(1, 1, 1); /* row 2, column 0 */
    CHECK_HEADROOM(1, 3, 2); /* row 0, column 2 */
    CHECK_HEADROOM(3, 2, 1);
    check_book_rate(2, 1, 333); /* 1 slot */
    CHECK_HEADROOM(0, 1, 1);    /* row 2, column 1 */
    CHECK_HEADROOM(0, 2, 2);    /* row 1, column 2 */
    CHECK_HEADROOM(2, 2, 1);
    check_book_rate(2, 1, 1); /* 2 slots */
    CHECK_HEADROOM(-1, 1, 1); /* row 2, column 2, a 0 */
    CHECK_HEADROOM(-1, 2, 2);
    CHECK_HEADROOM(1, 2, 1);
    CHECK_HEADROOM(1, 2, 3);
    CHECK_HEADROOM(1, 3, 1);
    CHECK_HEADROOM(3, 3, 3);
    check_release_rate(2, 1, 1);
    CHECK_HEADROOM(0, 1, 1);
    check_release(1, 2, 1);
    check_book(1, 1, 1);
    CHECK_HEADROOM(0, 1, 1); /* row 2, column 2, a 1 */
    check_release(1, 2, 1);
    CHECK_HEADROOM(1, 1, 1); /* row 1, column 2, a 1 */
    CHECK_HEADROOM(2, 1, 2);

    /* of several refusals the first is given */
    CHECK_CLOCK(headroom(1, 1));
    lengths.slots = lengths.rates = 8;
    CHECK_CLOCK(headroom(0, 4));
    CHECK(KIVDRAG_REFUSED_RUNS, headroom(0, 4));
    lengths.slots = lengths.rates = 9;
    CHECK_HEADROOM(1, 1, 1);
    CHECK_SHORT(slots, 9, headroom(1, 1));
    CHECK_SHORT(rates, 9, headroom(1, 1));
    CHECK_SHORT(slots, 9, headroom(0, 1));
    CHECK_SHORT(rates, 9, headroom(1, 4));
    CHECK(KIVDRAG_REFUSED_PAIR, headroom(0, 1));
    CHECK(KIVDRAG_REFUSED_PAIR, headroom(4, 1));
    CHECK(KIVDRAG_REFUSED_PAIR, headroom(1, 0));
    CHECK(KIVDRAG_REFUSED_PAIR, headroom(1, 4));
    CHECK(KIVDRAG_REFUSED_PAIR, headroom(((uint64_t)1 << 32) + 1, 1));
    CHECK(KIVDRAG_REFUSED_PAIR, headroom(1, UINT64_MAX));

    /* nothing else is asked: not the last slot run, the line rate, nor a frame below the ports */
    SET(clock[KIVDRAG_CLOCK_SLOT], UINT32_MAX);
    CHECK_HEADROOM(1, 1, 1);
    SET(clock[KIVDRAG_CLOCK_LINE], UINT32_MAX);
    CHECK_HEADROOM(1, 1, 1); /* the rate is 1 slot still */
    SET(clock[KIVDRAG_CLOCK_LINE], 0);
    CHECK_HEADROOM(2, 1, 1); /* and now none */
    SET(clock[KIVDRAG_CLOCK_FRAME], 2);
    CHECK_HEADROOM(1, 1, 1);
}

/* What the previews of an operation refuse before they look at a sum; of several refusals the first is given. */
static void refused_previews(Call (*operation)(uint64_t, uint64_t, uint64_t), uint64_t most) {
    const char *name = preview_name(operation(1, 3, 1));
    check_clock(__LINE__, name, preview(operation(1, 3, 1)));
    lengths.slots = lengths.rates = 8;
    check_clock(__LINE__, name, preview(operation(0, 4, 0)));
    CHECK_NO_SUMS(KIVDRAG_REFUSED_RUNS, operation(0, 4, 0));
    lengths.slots = lengths.rates = 9;
    check_short(__LINE__, name, &lengths.slots, 9, preview(operation(1, 3, 1)));
    check_short(__LINE__, name, &lengths.rates, 9, preview(operation(1, 3, 1)));
    check_short(__LINE__, name, &lengths.slots, 9, preview(operation(4, 3, 1)));
    check_short(__LINE__, name, &lengths.rates, 9, preview(operation(1, 3, 0)));
    CHECK_NO_SUMS(KIVDRAG_REFUSED_PAIR, operation(0, 3, 1));
    CHECK_NO_SUMS(KIVDRAG_REFUSED_PAIR, operation(4, 3, 1));
    CHECK_NO_SUMS(KIVDRAG_REFUSED_PAIR, operation(1, 0, most + 1));
    CHECK_NO_SUMS(KIVDRAG_REFUSED_PAIR, operation(1, 4, 0));
    CHECK_NO_SUMS(KIVDRAG_REFUSED_PAIR, operation(((uint64_t)1 << 32) + 1, 3, 1));
    CHECK_NO_SUMS(KIVDRAG_REFUSED_PAIR, operation(1, UINT64_MAX, 1));
    CHECK_NO_SUMS(KIVDRAG_REFUSED_AMOUNT, operation(1, 3, 0));
    CHECK_NO_SUMS(KIVDRAG_REFUSED_AMOUNT, operation(1, 3, most + 1));
    CHECK_NO_SUMS(KIVDRAG_REFUSED_AMOUNT, operation(1, 3, ((uint64_t)1 << 32) + 1));
}

/* Previews, with frames of 7 slots, of which a line can sell 4, and lines of 7,000: a slot carries 1,000. */
static void previews(int pipelined) {
    started(3, 7, 7000, pipelined);
    CHECK_PREVIEW(KIVDRAG_ACCEPTED, 4, 4, book(1, 3, 4));
    CHECK_PREVIEW(KIVDRAG_REFUSED_INPUT, 5, 5, book(1, 3, 5));
    CHECK_NO_SUMS(KIVDRAG_REFUSED_RELEASE, release(1, 3, 1));
    check_book(1, 3, 2); /* input 1 has 2 slots, and so has output 3 */
    CHECK_PREVIEW(KIVDRAG_ACCEPTED, 3, 3, book(1, 3, 1));
    CHECK_PREVIEW(KIVDRAG_ACCEPTED, 4, 2, book(1, 1, 2));
    CHECK_PREVIEW(KIVDRAG_ACCEPTED, 1, 3, book(2, 3, 1));
    CHECK_PREVIEW(KIVDRAG_ACCEPTED, 2, 2, book(2, 1, 2));
    CHECK_PREVIEW(KIVDRAG_REFUSED_INPUT, 5, 3, book(1, 1, 3)); /* the output's sum is within the limit */
    CHECK_PREVIEW(KIVDRAG_REFUSED_INPUT, 5, 5, book(1, 3, 3)); /* and here it is not */
    CHECK_PREVIEW(KIVDRAG_REFUSED_INPUT, 7, 9, book(2, 3, 7));
    CHECK_PREVIEW(KIVDRAG_REFUSED_OUTPUT, 3, 5, book(2, 3, 3));

    /* a rate counts as the rise of its pair's booking */
    CHECK_PREVIEW(KIVDRAG_ACCEPTED, 3, 3, book_rate(1, 3, 1000));
    CHECK_PREVIEW(KIVDRAG_ACCEPTED, 4, 4, book_rate(1, 3, 1001));
    CHECK_PREVIEW(KIVDRAG_REFUSED_INPUT, 5, 5, book_rate(1, 3, 2001));
    check_book_rate(2, 3, 1001);                                    /* 2 slots: output 3 has 4 */
    CHECK_PREVIEW(KIVDRAG_ACCEPTED, 2, 4, book_rate(2, 3, 999));    /* 2 slots still */
    CHECK_PREVIEW(KIVDRAG_REFUSED_OUTPUT, 3, 5, book_rate(2, 3, 1000));
    CHECK_PREVIEW(KIVDRAG_REFUSED_OUTPUT, 1, 5, book_rate(3, 3, 1));
    CHECK_PREVIEW(KIVDRAG_REFUSED_OUTPUT, 1, 5, book(3, 3, 1));
    CHECK_PREVIEW(KIVDRAG_ACCEPTED, 3, 1, book_rate(2, 1, 1));
    CHECK_PREVIEW(KIVDRAG_REFUSED_INPUT, 5, 3, book_rate(1, 1, 2001));
    CHECK_PREVIEW(KIVDRAG_REFUSED_INPUT, 9, 7, book_rate(1, 1, 7000));
    CHECK_PREVIEW(KIVDRAG_REFUSED_INPUT, 9, 11, book_rate(1, 3, 7000));

    /* a release leaves these sums; of a rate it may leave those that were */
    CHECK_PREVIEW(KIVDRAG_ACCEPTED, 1, 3, release(1, 3, 1));
    CHECK_PREVIEW(KIVDRAG_ACCEPTED, 0, 2, release(1, 3, 2));
    CHECK_NO_SUMS(KIVDRAG_REFUSED_RELEASE, release(1, 3, 3));
    CHECK_NO_SUMS(KIVDRAG_REFUSED_RELEASE, release(2, 3, 1)); /* its rate of 2 slots is not seen */
    CHECK_PREVIEW(KIVDRAG_ACCEPTED, 1, 3, release_rate(2, 3, 1));
    CHECK_PREVIEW(KIVDRAG_ACCEPTED, 0, 2, release_rate(2, 3, 1001));
    CHECK_NO_SUMS(KIVDRAG_REFUSED_RELEASE, release_rate(2, 3, 1002));
    CHECK_NO_SUMS(KIVDRAG_REFUSED_RELEASE, release_rate(1, 3, 1)); /* its 2 slots are not seen */
    check_book_rate(2, 3, 500);
    CHECK_PREVIEW(KIVDRAG_ACCEPTED, 2, 4, release_rate(2, 3, 500));

    refused_previews(book, 7);
    refused_previews(book_rate, 7000);
    refused_previews(release, 7);
    refused_previews(release_rate, 7000);

    /* nothing else is asked: not the last slot run, nor a frame below the ports; the line rate only for rates */
    SET(clock[KIVDRAG_CLOCK_SLOT], UINT32_MAX);
    CHECK_PREVIEW(KIVDRAG_ACCEPTED, 3, 1, book(1, 1, 1));
    SET(clock[KIVDRAG_CLOCK_LINE], 0); /* rates count as 0 slots */
    CHECK_PREVIEW(KIVDRAG_ACCEPTED, 1, 3, book(2, 3, 1));
    CHECK_PREVIEW(KIVDRAG_ACCEPTED, 1, 1, release(1, 3, 1));
    CHECK_NO_SUMS(KIVDRAG_REFUSED_AMOUNT, book_rate(2, 3, 1));
    CHECK_NO_SUMS(KIVDRAG_REFUSED_AMOUNT, release_rate(2, 3, 1));
    SET(clock[KIVDRAG_CLOCK_LINE], TOP_LINE + 1); /* the rate is 1 slot */
    CHECK_PREVIEW(KIVDRAG_ACCEPTED, 2, 4, book(2, 3, 1));
    CHECK_NO_SUMS(KIVDRAG_REFUSED_AMOUNT, book_rate(2, 3, 1));
    CHECK_NO_SUMS(KIVDRAG_REFUSED_AMOUNT, release_rate(2, 3, 1));
    SET(clock[KIVDRAG_CLOCK_FRAME], 2);
    CHECK_PREVIEW(KIVDRAG_ACCEPTED, 1, 1, book(3, 1, 1));
    CHECK_PREVIEW(KIVDRAG_ACCEPTED, 0, 1, release(1, 3, 2));
}

/* THE FINE BOOK */

/* The kind of book in the clock: what a start sets, and what a refused one leaves. */
static void kinds_of_book(int pipelined) {
    static const uint32_t any[] = {0, 1, 2, 7, 256, 65536, 0x80000000u, UINT32_MAX};
    for (size_t p = 0; p < sizeof any / sizeof any[0]; p++) {
        fresh(2);
        SET(clock[KIVDRAG_CLOCK_FINE], 7);
        CHECK(KIVDRAG_REFUSED_PORTS, with_kind(any[p], start_of_form(0, 3, 0, pipelined)));
        CHECK(KIVDRAG_REFUSED_FRAME, with_kind(any[p], start_of_form(2, 0, 0, pipelined)));
        CHECK(KIVDRAG_REFUSED_PIPELINE, with_kind(any[p], start_pipelined(2, 1, 0)));
        CHECK(KIVDRAG_REFUSED_RUNS, with_kind(any[p], start_of_form(3, 3, 0, pipelined)));
        CHECK(KIVDRAG_REFUSED_AMOUNT, with_kind(any[p], start_of_form(2, 3, TOP_LINE + 1, pipelined)));
        should_start(2, 3, 0, pipelined);
        should.clock[KIVDRAG_CLOCK_FINE] = any[p] != 0;
        CHECK(KIVDRAG_ACCEPTED, with_kind(any[p], start_of_form(2, 3, 0, pipelined)));
        CHECK_PREVIEW(any[p] != 0 ? KIVDRAG_ACCEPTED : KIVDRAG_REFUSED_INPUT, 3, 3, book(1, 1, 3));
    }
}

/* Any word but 0 is a fine book, and no call but a start changes it, refused or not: frames of 3 slots. */
static void words_for_fine(int pipelined) {
    static const uint32_t any[] = {1, 2, 7, 256, 65536, 0x80000000u, UINT32_MAX};
    Call tick = pipelined ? tick_pipelined() : tick_direct();
    for (size_t p = 0; p < sizeof any / sizeof any[0]; p++) {
        started_fine(2, 3, 1000, pipelined);
        SET(clock[KIVDRAG_CLOCK_FINE], any[p]);
        CHECK_PREVIEW(KIVDRAG_ACCEPTED, 3, 3, book(1, 1, 3));
        CHECK_PREVIEW(KIVDRAG_ACCEPTED, 3, 3, book_rate(1, 1, 1000));
        check_book(1, 1, 2);
        check_book_rate(1, 1, 333);
        CHECK_PREVIEW(KIVDRAG_REFUSED_FINE, 4, 1, book(1, 2, 1));
        CHECK_PREVIEW(KIVDRAG_REFUSED_FINE, 1, 4, book_rate(2, 1, 1));
        CHECK_HEADROOM(0, 1, 1);
        check_arrive(2, 2, 1);
        CHECK(KIVDRAG_REFUSED_AMOUNT, arrive(2, 2, 0));
        check_release(1, 1, 2);
        check_release_rate(1, 1, 333);
        SET(clock[KIVDRAG_CLOCK_SLOT], 4000000000u);
        CHECK(KIVDRAG_REFUSED_CLOCK, tick);
        SET(clock[KIVDRAG_CLOCK_SLOT], 1);
        SET(queues[at(2, 2)], 0);
        should_answer(2, 0, 0, 0, 0);
        CHECK(KIVDRAG_ACCEPTED, tick);
    }
    SET(clock[KIVDRAG_CLOCK_FINE], 0);
    CHECK_PREVIEW(KIVDRAG_REFUSED_INPUT, 3, 3, book(1, 1, 3));
}

/* A pair whose input and output have these sums can book this many slots, and not one more: by slots, and by rate,
   where a slot carries 1,000. */
static void check_most(int line, uint32_t most, uint32_t i, uint32_t j, uint64_t row, uint64_t column) {
    if (most > 0) {
        check_preview(line, "book", KIVDRAG_ACCEPTED, row + most, column + most, book(i, j, most));
        check_preview(line, "book_rate", KIVDRAG_ACCEPTED, row + most, column + most, book_rate(i, j, 1000 * most));
    }
    row += most + 1;
    column += most + 1;
    check_preview(line, "book", KIVDRAG_REFUSED_FINE, row, column, book(i, j, most + 1));
    check_preview(line, "book_rate", KIVDRAG_REFUSED_FINE, row, column, book_rate(i, j, 1000 * most + 1));
}

#define CHECK_MOST(most, i, j, row, column) check_most(__LINE__, (most), (i), (j), (row), (column))

/* Frames of 7 slots, and lines of 7,000: a slot carries 1,000. */
static void whole_lines(int pipelined) {
    started(3, 7, 7000, pipelined);
    CHECK_PREVIEW(KIVDRAG_REFUSED_INPUT, 7, 7, book(2, 3, 7));
    CHECK_PREVIEW(KIVDRAG_REFUSED_INPUT, 7, 7, book_rate(2, 3, 7000));
    started_fine(3, 7, 7000, pipelined);
    CHECK_PREVIEW(KIVDRAG_ACCEPTED, 7, 7, book(2, 3, 7));
    CHECK_PREVIEW(KIVDRAG_ACCEPTED, 7, 7, book_rate(2, 3, 7000));
    check_book(2, 3, 7);
    CHECK_MOST(0, 2, 3, 7, 7);
    CHECK_MOST(0, 2, 1, 7, 0);
    CHECK_MOST(0, 1, 3, 0, 7);
    check_book(1, 1, 7);
    CHECK_HEADROOM(0, 1, 1);
    CHECK_HEADROOM(-7, 1, 3); /* row 7, column 7, a 0 */
    check_book(3, 2, 7);
    CHECK_MOST(0, 3, 1, 7, 7);

    /* what is asked before, the last first */
    CHECK_NO_SUMS(KIVDRAG_REFUSED_AMOUNT, book(2, 3, 8));
    CHECK_NO_SUMS(KIVDRAG_REFUSED_AMOUNT, book(2, 3, 0));
    CHECK_NO_SUMS(KIVDRAG_REFUSED_AMOUNT, book_rate(2, 3, 7001));
    CHECK_NO_SUMS(KIVDRAG_REFUSED_PAIR, book(4, 3, 8));
    CHECK_NO_SUMS(KIVDRAG_REFUSED_PAIR, book_rate(2, 0, 1));
    CHECK_SHORT(slots, 9, book(2, 3, 1));
    CHECK_SHORT(rates, 9, book(2, 3, 1));
    CHECK_SHORT(slots, 9, book_rate(2, 3, 1));
    CHECK_SHORT(rates, 9, book_rate(2, 3, 1));
    CHECK_CLOCK(book(2, 3, 1));
    CHECK_CLOCK(book_rate(2, 3, 1));

    /* a release is not asked, even where the inequality does not hold */
    CHECK_PREVIEW(KIVDRAG_ACCEPTED, 6, 6, release(2, 3, 1));
    SET(slots[at(2, 2)], 9);
    CHECK_PREVIEW(KIVDRAG_REFUSED_FINE, 17, 8, book(2, 3, 1));
    CHECK_PREVIEW(KIVDRAG_ACCEPTED, 15, 6, release(2, 3, 1));
    CHECK_NO_SUMS(KIVDRAG_REFUSED_RELEASE, release_rate(2, 3, 1));
}

/* Each pair that shares the input or the output is asked, the pair itself too, and no other: every pair (i, j), with
   every other input x and every other output y. Frames of 7 slots, and lines of 7,000. */
static void pairs_asked(uint32_t i, uint32_t j, uint32_t x, uint32_t y) {
    /* the pair itself: 3 + 3 and its own; (i, y) and (x, j) have no more than 3 beside theirs */
    SET(slots[at(i, y)], 3);
    SET(slots[at(x, j)], 3);
    CHECK_MOST(1, i, j, 3, 3);
    SET(slots[at(x, j)], 0);
    /* the pair (i, y), of the same input: row 3, column 6, a 3, and what (i, j) books */
    SET(slots[at(x, y)], 3);
    CHECK_MOST(1, i, j, 3, 0);
    /* a booking by rate is one too, as long as the line rate is not 0 */
    SET(slots[at(i, y)], 0);
    SET(rates[at(i, y)], 2001);
    CHECK_MOST(1, i, j, 3, 0);
    SET(clock[KIVDRAG_CLOCK_LINE], 0);
    CHECK_PREVIEW(KIVDRAG_ACCEPTED, 7, 7, book(i, j, 7));
    SET(clock[KIVDRAG_CLOCK_LINE], 7000);
    SET(rates[at(i, y)], 0);
    /* without one (i, y) is not asked, whatever is in its column, nor (x, j), whatever is in its row; nor is (x, y) */
    SET(slots[at(x, y)], UINT32_MAX);
    CHECK_PREVIEW(KIVDRAG_ACCEPTED, 7, 7, book(i, j, 7));
    CHECK_PREVIEW(KIVDRAG_ACCEPTED, 7, 7, book_rate(i, j, 7000));
    /* the pair (x, j), of the same output: row 6, column 3, a 3, and what (i, j) books */
    SET(slots[at(x, y)], 3);
    SET(slots[at(x, j)], 3);
    CHECK_MOST(1, i, j, 0, 3);
    SET(slots[at(x, j)], 0);
    SET(rates[at(x, j)], 2001);
    CHECK_MOST(1, i, j, 0, 3);
    SET(rates[at(x, j)], 0);
    SET(slots[at(x, y)], 0);
}

static void sharing_pairs(int pipelined) {
    started_fine(3, 7, 7000, pipelined);
    for (uint32_t i = 1; i <= 3; i++) {
        for (uint32_t j = 1; j <= 3; j++) {
            for (uint32_t others = 0; others < 4; others++) {
                pairs_asked(i, j, (i + others % 2) % 3 + 1, (j + others / 2) % 3 + 1);
            }
        }
    }
}

/* A rate counts as the rise of its pair's booking; where that is 0, the inequality is asked too. */
static void fine_rises(int pipelined) {
    started_fine(3, 7, 7000, pipelined);
    check_book_rate(1, 1, 6001); /* 7 slots */
    CHECK_PREVIEW(KIVDRAG_ACCEPTED, 7, 7, book_rate(1, 1, 999));
    CHECK_PREVIEW(KIVDRAG_REFUSED_FINE, 8, 8, book_rate(1, 1, 1000));
    /* words such as no calls leave: of the pair itself the inequality does not hold any more */
    SET(slots[at(1, 2)], 1);
    CHECK_PREVIEW(KIVDRAG_REFUSED_FINE, 8, 7, book_rate(1, 1, 1));
    SET(slots[at(1, 2)], 0);
    SET(slots[at(2, 1)], 1);
    CHECK_PREVIEW(KIVDRAG_REFUSED_FINE, 7, 8, book_rate(1, 1, 1));
    /* of (1, 2), then of (2, 1), and then of pairs that are not asked */
    SET(rates[at(1, 1)], 500); /* 1 slot */
    SET(slots[at(2, 1)], 0);
    SET(slots[at(1, 2)], 3);
    SET(slots[at(2, 2)], 4);
    CHECK_PREVIEW(KIVDRAG_REFUSED_FINE, 4, 1, book_rate(1, 1, 500));
    SET(slots[at(1, 2)], 0);
    SET(slots[at(2, 1)], 3);
    CHECK_PREVIEW(KIVDRAG_REFUSED_FINE, 1, 4, book_rate(1, 1, 500));
    SET(slots[at(2, 1)], 0);
    SET(slots[at(2, 2)], 8);
    CHECK_PREVIEW(KIVDRAG_ACCEPTED, 1, 1, book_rate(1, 1, 500));
}

/* A fine book of 32 ports and frames of 10,000 slots, and words such as no calls leave: no sum wraps. */
static void most_fine(void) {
    const uint64_t top = UINT32_MAX;
    started_fine(32, 10000, TOP_LINE, 0);
    CHECK_PREVIEW(KIVDRAG_ACCEPTED, 10000, 10000, book_rate(32, 32, TOP_LINE));
    check_book(32, 32, 10000);
    CHECK_PREVIEW(KIVDRAG_REFUSED_FINE, 10001, 1, book(32, 1, 1));
    CHECK_PREVIEW(KIVDRAG_REFUSED_FINE, 1, 10001, book_rate(1, 32, 1));
    CHECK_PREVIEW(KIVDRAG_ACCEPTED, 10000, 10000, book(31, 31, 10000));
    check_release(32, 32, 10000);

    /* a row, then a column, of 2 to the 32nd */
    SET(slots[at(1, 1)], 0x80000000u);
    SET(slots[at(1, 2)], 0x80000000u);
    CHECK_PREVIEW(KIVDRAG_REFUSED_FINE, top + 2, 1, book(1, 3, 1));
    SET(slots[at(1, 2)], 0);
    SET(slots[at(2, 1)], 0x80000000u);
    CHECK_PREVIEW(KIVDRAG_REFUSED_FINE, 1, top + 2, book_rate(3, 1, 1));

    for (size_t p = 0; p < KIVDRAG_PAIR_WORDS(32); p++) {
        SET(slots[p], UINT32_MAX);
        SET(rates[p], UINT32_MAX);
    }
    CHECK_PREVIEW(KIVDRAG_REFUSED_FINE, 32 * top + 10000, 32 * top + 10000, book(17, 5, 10000));
    CHECK_PREVIEW(KIVDRAG_REFUSED_FINE, 32 * top, 32 * top, book_rate(17, 5, 1));
    CHECK_PREVIEW(KIVDRAG_ACCEPTED, 32 * top, 32 * top, release(17, 5, 10000)); /* the rate makes up for it */
}

/* A pair that has booked all slots of its frames is served in each, by pass one: frames of 3 slots. */
static void ticks_of_whole_line(void) {
    started_fine(2, 3, 0, 0);
    check_book(1, 1, 3);
    check_book(2, 2, 2);
    check_arrive(1, 1, 9);
    check_arrive(2, 2, 9);
    for (uint32_t slot = 1; slot <= 6; slot++) {
        uint32_t left = (6 - slot) % 3;
        should.credits[at(1, 1)] = left;
        should.credits[at(2, 2)] = left > 0 ? left - 1 : 0;
        should.queues[at(1, 1)]--;
        should.queues[at(2, 2)]--;
        should_give(slot, 1, 2, 0, left > 0 ? 3 : 1);
        CHECK(KIVDRAG_ACCEPTED, tick_direct());
    }
}

static void arrivals(int pipelined) {
    started(3, 7, 0, pipelined);
    CHECK_CLOCK(arrive(3, 1, 1));
    CHECK_SHORT(queues, 9, arrive(3, 1, 1));
    CHECK(KIVDRAG_REFUSED_PAIR, arrive(0, 1, 1));
    CHECK(KIVDRAG_REFUSED_PAIR, arrive(3, 4, 0));
    CHECK(KIVDRAG_REFUSED_AMOUNT, arrive(3, 1, 0));
    CHECK(KIVDRAG_REFUSED_AMOUNT, arrive(3, 1, 65536));
    for (unsigned times = 0; times < 15; times++) {
        check_arrive(3, 1, 65535);
    }
    CHECK(KIVDRAG_REFUSED_QUEUE, arrive(3, 1, 16976));
    check_arrive(3, 1, 16975);
    CHECK(KIVDRAG_REFUSED_QUEUE, arrive(3, 1, 1));
    check_arrive(1, 3, 1);
}

static void direct_ticks(void) {
    started(3, 7, 7000, 0);
    check_book_rate(1, 1, 1); /* 1 slot */
    check_book(1, 3, 1);
    check_book_rate(1, 3, 1000); /* 2 slots with the other one */
    check_book(2, 1, 1);
    check_arrive(1, 1, 5);
    check_arrive(1, 3, 1);
    check_arrive(2, 1, 5);
    check_arrive(3, 1, 1);
    check_arrive(3, 2, 2);

    CHECK_CLOCK(tick_direct());
    CHECK_SHORT(slots, 9, tick_direct());
    CHECK_SHORT(rates, 9, tick_direct());
    CHECK_SHORT(credits, 9, tick_direct());
    CHECK_SHORT(queues, 9, tick_direct());
    CHECK_SHORT(given, 3, tick_direct());

    /* slot 1, first of a frame: the credits become the bookings; 1 to 1 is booked, 3 to 2 left over */
    should.credits[at(1, 3)] = 2;
    should.credits[at(2, 1)] = 1;
    should.queues[at(1, 1)] = 4;
    should.queues[at(3, 2)] = 1;
    should_give(1, 1, 0, 2, 1);
    CHECK(KIVDRAG_ACCEPTED, tick_direct());
    /* slot 2: 1 to 3 and 2 to 1 are booked, 3 to 2 left over */
    should.credits[at(1, 3)] = 1;
    should.credits[at(2, 1)] = 0;
    should.queues[at(1, 3)] = 0;
    should.queues[at(2, 1)] = 4;
    should.queues[at(3, 2)] = 0;
    should_give(2, 3, 1, 2, 3);
    CHECK(KIVDRAG_ACCEPTED, tick_direct());
    /* slot 3: 1 to 1 is left over, and keeps 2 and 3 from output 1 */
    should.queues[at(1, 1)] = 3;
    should_give(3, 1, 0, 0, 0);
    CHECK(KIVDRAG_ACCEPTED, tick_direct());

    /* the last slot that runs is 4,000,000,000; with frames of 3 slots it is the first of one, and with lines of 3,000
       a slot carries 1,000 as before */
    SET(clock[KIVDRAG_CLOCK_FRAME], 3);
    SET(clock[KIVDRAG_CLOCK_LINE], 3000);
    SET(clock[KIVDRAG_CLOCK_SLOT], UINT32_MAX);
    CHECK(KIVDRAG_REFUSED_CLOCK, tick_direct());
    SET(clock[KIVDRAG_CLOCK_SLOT], 4000000000u);
    CHECK(KIVDRAG_REFUSED_CLOCK, tick_direct());
    CHECK_SHORT(queues, 9, tick_direct());
    CHECK_SHORT(given, 3, tick_direct()); /* 4 before 7 */
    SET(clock[KIVDRAG_CLOCK_SLOT], 3999999999u);
    should.credits[at(1, 3)] = 2;
    should.credits[at(2, 1)] = 1;
    should.queues[at(1, 1)] = 2;
    should_give(4000000000u, 1, 0, 0, 1);
    CHECK(KIVDRAG_ACCEPTED, tick_direct());
    CHECK(KIVDRAG_REFUSED_CLOCK, tick_direct());
}

/* A direct tick in which pass two gives input 1 this output, and no other input has a packet. */
static void check_turn(uint32_t slot, uint8_t output) {
    should.queues[at(1, output)]--;
    should_give(slot, output, 0, 0, 0);
    CHECK(KIVDRAG_ACCEPTED, tick_direct());
}

/* On a direct switch of 3 ports, frames of 7 slots. */
static void outputs_in_turn(void) {
    started(3, 7, 0, 0);
    check_arrive(1, 1, 9);
    check_arrive(1, 3, 9);
    /* two films of one input alternate; output 2, for which it has no packet, is passed over */
    check_turn(1, 1);
    check_turn(2, 3);
    check_turn(3, 1);
    check_turn(4, 3);
    /* each input goes by its own word: input 2 takes output 2, as 1 is not free, then 1, past 3 and N, and then 2 */
    check_arrive(2, 1, 9);
    check_arrive(2, 2, 9);
    should.queues[at(1, 1)]--;
    should.queues[at(2, 2)]--;
    should_give(5, 1, 2, 0, 0);
    CHECK(KIVDRAG_ACCEPTED, tick_direct());
    should.queues[at(1, 3)]--;
    should.queues[at(2, 1)]--;
    should_give(6, 3, 1, 0, 0);
    CHECK(KIVDRAG_ACCEPTED, tick_direct());
    should.queues[at(1, 1)]--;
    should.queues[at(2, 2)]--;
    should_give(7, 1, 2, 0, 0);
    CHECK(KIVDRAG_ACCEPTED, tick_direct());

    /* a start sets the words to 0, so that the search begins at 1, and not past 1 */
    should_start(3, 7, 0, 0);
    CHECK(KIVDRAG_ACCEPTED, start_direct(3, 7, 0));
    check_arrive(1, 1, 9);
    check_arrive(1, 2, 9);
    check_arrive(1, 3, 9);
    check_turn(1, 1);
    check_turn(2, 2);
    check_turn(3, 3);
    check_turn(4, 1);

    /* any words: those outside 1 to N count as never given, and each is left as it is until something is given */
    static const struct {
        uint32_t word;
        uint8_t output;
    } turns[] = {{0, 1}, {1, 2}, {2, 3}, {3, 1}, {4, 1}, {101, 1}, {0x80000001u, 1}, {UINT32_MAX, 1}};
    for (size_t p = 0; p < sizeof turns / sizeof turns[0]; p++) {
        SET(clock[KIVDRAG_CLOCK_SLOT], 1);
        SET(given[0], turns[p].word);
        SET(given[1], turns[p].word);
        check_turn(2, turns[p].output);
    }
}

/* Pass one takes its outputs in turn too, and what it gives counts for both: frames of 7 slots, of which a line can sell
   4. */
static void bookings_in_turn(void) {
    started(3, 7, 0, 0);
    check_book(1, 1, 2);
    check_book(1, 3, 2);
    for (uint8_t output = 1; output <= 3; output++) {
        check_arrive(1, output, 9);
    }
    /* slots 1 to 4 are booked: 1 and 3 alternate; 5 to 7 are left over, and go on past output 3 */
    should.credits[at(1, 1)] = should.credits[at(1, 3)] = 2;
    for (uint32_t slot = 1; slot <= 4; slot++) {
        uint8_t output = slot % 2 == 1 ? 1 : 3;
        should.credits[at(1, output)]--;
        should.queues[at(1, output)]--;
        should_give(slot, output, 0, 0, 1);
        CHECK(KIVDRAG_ACCEPTED, tick_direct());
    }
    check_turn(5, 1);
    check_turn(6, 2);
    check_turn(7, 3);
}

/* On a pipelined switch of 2 ports, frames of 4 slots. */
static void pipelined_in_turn(void) {
    started(2, 4, 0, 1);
    check_book(1, 1, 1);
    check_arrive(1, 1, 5);
    check_arrive(1, 2, 5);
    /* time 1: input 1 takes output 1 for slot 5, by pass one, and so output 2 for slot 3 */
    should.copy[at(1, 1)] = 1;
    should.flight[in_flight(5, 1)] = 101;
    should.flight[in_flight(3, 1)] = 2;
    should.queues[at(1, 1)] = 4;
    should.queues[at(1, 2)] = 4;
    should.given[0] = 2;
    should_answer(1, 0, 0, 0, 0);
    CHECK(KIVDRAG_ACCEPTED, tick_pipelined());
    /* time 2: 1 for slot 4; slot 3 is handed out */
    should.flight[in_flight(4, 1)] = 1;
    should.flight[in_flight(3, 1)] = 0;
    should.queues[at(1, 1)] = 3;
    should.given[0] = 1;
    should_answer(2, 2, 0, 0, 0);
    CHECK(KIVDRAG_ACCEPTED, tick_pipelined());
    /* time 3: it has an output for slot 5, and so takes none; what is handed out, output 1 in slot 4, is not noted */
    should.flight[in_flight(4, 1)] = 0;
    should_answer(3, 1, 0, 0, 0);
    CHECK(KIVDRAG_ACCEPTED, tick_pipelined());
    /* time 4: a word above N counts as never given, so 1 for slot 6; that of input 2, which takes nothing, stays */
    SET(given[0], 3);
    SET(given[1], UINT32_MAX);
    should.flight[in_flight(6, 1)] = 1;
    should.flight[in_flight(5, 1)] = 0;
    should.queues[at(1, 1)] = 2;
    should.given[0] = 1;
    should_answer(4, 1, 0, 0, 1);
    CHECK(KIVDRAG_ACCEPTED, tick_pipelined());
    /* time 5: slot 9 is the first of a frame, and 1 is booked there, though it was last given too; then 2 for slot 7 */
    should.flight[in_flight(9, 1)] = 101;
    should.flight[in_flight(7, 1)] = 2;
    should.flight[in_flight(6, 1)] = 0;
    should.queues[at(1, 1)] = 1;
    should.queues[at(1, 2)] = 3;
    should.given[0] = 2;
    should_answer(5, 1, 0, 0, 0);
    CHECK(KIVDRAG_ACCEPTED, tick_pipelined());

    should_start(2, 4, 0, 1);
    CHECK(KIVDRAG_ACCEPTED, start_pipelined(2, 4, 0));
}

/* The booking that the credits become, where words are such as no calls leave: rates with a line rate of 0, more than
   the largest word, and just that. */
static void large_bookings(void) {
    started(2, 3, 0, 0);
    SET(slots[at(1, 1)], UINT32_MAX - 3);
    SET(slots[at(1, 2)], UINT32_MAX - 2);
    SET(slots[at(2, 1)], UINT32_MAX);
    for (size_t p = 0; p < 4; p++) {
        SET(rates[p], UINT32_MAX);
        should.credits[p] = should.slots[p];
    }
    should_answer(1, 0, 0, 0, 0);
    CHECK(KIVDRAG_ACCEPTED, tick_direct());

    SET(clock[KIVDRAG_CLOCK_SLOT], 0);
    SET(clock[KIVDRAG_CLOCK_LINE], UINT32_MAX); /* 3 slots each */
    should.credits[at(1, 1)] = UINT32_MAX;
    should.credits[at(1, 2)] = UINT32_MAX;
    should.credits[at(2, 1)] = UINT32_MAX;
    should.credits[at(2, 2)] = 3;
    should_answer(1, 0, 0, 0, 0);
    CHECK(KIVDRAG_ACCEPTED, tick_direct());

    SET(clock[KIVDRAG_CLOCK_SLOT], 0);
    SET(clock[KIVDRAG_CLOCK_LINE], 2); /* 3 * 4,294,967,295 / 2, and so above the largest word */
    should.credits[at(2, 2)] = UINT32_MAX;
    should_answer(1, 0, 0, 0, 0);
    CHECK(KIVDRAG_ACCEPTED, tick_direct());
}

/* what the copy becomes at a reading: the bookings, 0 or 1 slot for every pair of two ports */
static void should_copy(uint32_t word_11, uint32_t word_12, uint32_t word_21, uint32_t word_22) {
    should.copy[at(1, 1)] = word_11;
    should.copy[at(1, 2)] = word_12;
    should.copy[at(2, 1)] = word_21;
    should.copy[at(2, 2)] = word_22;
}

static void pipelined_ticks(void) {
    started(2, 4, 1000, 1);
    check_book(1, 2, 1);
    check_book_rate(2, 1, 100); /* 1 slot */
    check_book_rate(2, 1, 150); /* still 1 */
    check_book(2, 2, 1);
    check_arrive(1, 2, 3);
    check_arrive(2, 1, 2);
    check_arrive(2, 2, 2);

    CHECK_CLOCK(tick_pipelined());
    SET(clock[KIVDRAG_CLOCK_FRAME], 1);
    CHECK(KIVDRAG_REFUSED_PIPELINE, tick_pipelined());
    lengths.flight--; /* 3 before 4 */
    CHECK(KIVDRAG_REFUSED_PIPELINE, tick_pipelined());
    lengths.flight++;
    SET(clock[KIVDRAG_CLOCK_FRAME], 4);
    CHECK_SHORT(slots, 4, tick_pipelined());
    CHECK_SHORT(rates, 4, tick_pipelined());
    CHECK_SHORT(credits, 4, tick_pipelined());
    CHECK_SHORT(queues, 4, tick_pipelined());
    CHECK_SHORT(given, 2, tick_pipelined());
    CHECK_SHORT(copy, 4, tick_pipelined());
    CHECK_SHORT(flight, 8, tick_pipelined());

    /* time 1: slot 5 is the first of a frame, so the copy becomes the bookings and input 1 loads its credits; it takes
       output 2 for slot 5, and for slot 3 */
    should_copy(0, 1, 1, 1);
    should.flight[in_flight(5, 1)] = 102;
    should.flight[in_flight(3, 1)] = 2;
    should.queues[at(1, 2)] = 1;
    should.given[0] = 2;
    should_answer(1, 0, 0, 0, 0);
    CHECK(KIVDRAG_ACCEPTED, tick_pipelined());
    /* what is released now still counts for the frame that has been read */
    check_release_rate(2, 1, 250);
    /* time 2: input 1 takes output 2 for slot 4; input 2 loads its credits and takes output 1 for slot 5, and for slot
       3, which is handed out */
    should.flight[in_flight(4, 1)] = 2;
    should.flight[in_flight(5, 2)] = 101;
    should.flight[in_flight(3, 1)] = 0;
    should.credits[at(2, 2)] = 1;
    should.queues[at(1, 2)] = 0;
    should.queues[at(2, 1)] = 0;
    should.given[1] = 1;
    should_answer(2, 2, 1, 0, 0);
    CHECK(KIVDRAG_ACCEPTED, tick_pipelined());
    /* time 3: input 2 takes output 2 for slot 6; for slot 4, which is handed out, that one is not free */
    should.flight[in_flight(6, 2)] = 102;
    should.flight[in_flight(4, 1)] = 0;
    should.credits[at(2, 2)] = 0;
    should.queues[at(2, 2)] = 1;
    should.given[1] = 2;
    should_answer(3, 2, 0, 0, 0);
    CHECK(KIVDRAG_ACCEPTED, tick_pipelined());
    /* time 4: slot 5 is handed out, by pass one; the words for slot 8 mean nothing, and so are none */
    SET(flight[in_flight(8, 1)], 100);
    SET(flight[in_flight(8, 2)], 103);
    should.flight[in_flight(5, 1)] = 0;
    should.flight[in_flight(5, 2)] = 0;
    should_answer(4, 2, 1, 0, 3);
    CHECK(KIVDRAG_ACCEPTED, tick_pipelined());
    /* time 5: slot 9 is the first of a frame, so the copy is renewed and input 1 loads its credits; slot 6 is handed
       out */
    should_copy(0, 1, 0, 1);
    should.credits[at(1, 2)] = 1;
    should.flight[in_flight(6, 2)] = 0;
    should_answer(5, 0, 2, 0, 2);
    CHECK(KIVDRAG_ACCEPTED, tick_pipelined());

    /* the last time is 4,000,000,000, which hands out the slot after it */
    SET(clock[KIVDRAG_CLOCK_SLOT], UINT32_MAX);
    CHECK(KIVDRAG_REFUSED_CLOCK, tick_pipelined());
    SET(clock[KIVDRAG_CLOCK_SLOT], 4000000000u);
    CHECK(KIVDRAG_REFUSED_CLOCK, tick_pipelined());
    CHECK_SHORT(flight, 8, tick_pipelined());
    SET(clock[KIVDRAG_CLOCK_SLOT], 3999999999u);
    SET(flight[in_flight(4000000001u, 1)], 101);
    SET(queues[at(2, 2)], 0);
    should.flight[in_flight(4000000001u, 1)] = 0;
    should_answer(4000000000u, 1, 0, 0, 1);
    CHECK(KIVDRAG_ACCEPTED, tick_pipelined());
    CHECK(KIVDRAG_REFUSED_CLOCK, tick_pipelined());
}

/* A switch of 32 ports and frames of 10,000 slots: the last input and output have the last place, number and bit. */
static void most_ports(void) {
    fresh(32);
    CHECK(KIVDRAG_REFUSED_PORTS, start_direct(33, 10000, TOP_LINE));
    CHECK(KIVDRAG_REFUSED_FRAME, start_direct(32, 10001, TOP_LINE));
    started(32, 10000, TOP_LINE, 0);
    CHECK(KIVDRAG_REFUSED_INPUT, book(32, 32, 5001));
    CHECK(KIVDRAG_REFUSED_INPUT, book_rate(32, 32, 50000001));
    check_book(32, 32, 2500);
    check_book_rate(32, 32, 25000000);
    CHECK(KIVDRAG_REFUSED_INPUT, book_rate(32, 32, 1));
    check_arrive(32, 32, 1);
    should.credits[1023] = 4999;
    should.queues[1023] = 0;
    should_answer(1, 0, 0, 0, 0x80000000u);
    should.outputs[31] = 32;
    should.given[31] = 32;
    CHECK(KIVDRAG_ACCEPTED, tick_direct());

    CHECK(KIVDRAG_REFUSED_PIPELINE, start_pipelined(32, 31, TOP_LINE));
    started(32, 32, TOP_LINE, 1);
    SET(flight[in_flight(2, 32)], 132);
    should.flight[in_flight(2, 32)] = 0;
    should_answer(1, 0, 0, 0, 0x80000000u);
    should.outputs[31] = 32;
    CHECK(KIVDRAG_ACCEPTED, tick_pipelined());
}

/* Headrooms of 32 ports and of words such as no calls leave, up to a row and a column of 32 times the largest word. */
static void most_headroom(void) {
    started(32, 10000, TOP_LINE, 0);
    CHECK_HEADROOM(10000, 32, 32);
    SET(slots[at(32, 32)], UINT32_MAX);
    CHECK_HEADROOM(10000 - (int64_t)UINT32_MAX, 32, 32);
    CHECK_HEADROOM(10000 - (int64_t)UINT32_MAX, 32, 1);
    CHECK_HEADROOM(10000, 31, 31);
    SET(slots[at(1, 1)], UINT32_MAX);
    CHECK_HEADROOM(10000 - 2 * (int64_t)UINT32_MAX, 32, 1);
    SET(rates[at(32, 32)], UINT32_MAX); /* a booking counts as the largest word at most */
    CHECK_HEADROOM(10000 - (int64_t)UINT32_MAX, 32, 32);

    for (size_t p = 0; p < KIVDRAG_PAIR_WORDS(32); p++) {
        SET(slots[p], UINT32_MAX);
        SET(rates[p], UINT32_MAX);
    }
    CHECK_HEADROOM(10000 - 63 * (int64_t)UINT32_MAX, 1, 1);
    CHECK_HEADROOM(10000 - 63 * (int64_t)UINT32_MAX, 17, 5);
    CHECK_HEADROOM(10000 - 63 * (int64_t)UINT32_MAX, 32, 32);
    SET(clock[KIVDRAG_CLOCK_FRAME], 1);
    CHECK_HEADROOM(1 - 63 * (int64_t)UINT32_MAX, 32, 32);
    SET(slots[at(32, 32)], 0);
    SET(rates[at(32, 32)], 0);
    CHECK_HEADROOM(1 - 62 * (int64_t)UINT32_MAX, 32, 32);
    CHECK_HEADROOM(1 - 62 * (int64_t)UINT32_MAX, 32, 1);
    CHECK_HEADROOM(1 - 63 * (int64_t)UINT32_MAX, 1, 1);
}

/* Previews of 32 ports and of words such as no calls leave: sums above the largest word, up to 32 times that. */
static void most_previewed(void) {
    const uint64_t top = UINT32_MAX;
    started(32, 10000, TOP_LINE, 0);
    CHECK_PREVIEW(KIVDRAG_ACCEPTED, 5000, 5000, book(32, 32, 5000));
    CHECK_PREVIEW(KIVDRAG_REFUSED_INPUT, 5001, 5001, book(32, 32, 5001));
    CHECK_PREVIEW(KIVDRAG_REFUSED_INPUT, 10000, 10000, book_rate(32, 32, TOP_LINE));
    SET(slots[at(32, 31)], UINT32_MAX);
    CHECK_PREVIEW(KIVDRAG_REFUSED_INPUT, top + 10000, top + 10000, book(32, 31, 10000)); /* more than a booking is */
    CHECK_PREVIEW(KIVDRAG_REFUSED_INPUT, top + 1, 1, book(32, 1, 1));
    CHECK_PREVIEW(KIVDRAG_REFUSED_OUTPUT, 1, top + 1, book(1, 31, 1));
    CHECK_PREVIEW(KIVDRAG_REFUSED_OUTPUT, 1, top + 1, book_rate(1, 31, 10000));
    CHECK_PREVIEW(KIVDRAG_REFUSED_INPUT, top, top, book_rate(32, 31, TOP_LINE)); /* the booking cannot rise */
    CHECK_PREVIEW(KIVDRAG_ACCEPTED, top - 10000, top - 10000, release(32, 31, 10000));
    CHECK_NO_SUMS(KIVDRAG_REFUSED_RELEASE, release_rate(32, 31, 1));
    SET(slots[at(32, 31)], UINT32_MAX - 3);
    CHECK_PREVIEW(KIVDRAG_REFUSED_INPUT, top, top, book_rate(32, 31, TOP_LINE)); /* it rises by 3 */
    CHECK_PREVIEW(KIVDRAG_REFUSED_INPUT, top - 1, top - 1, book_rate(32, 31, 10001));

    for (size_t p = 0; p < KIVDRAG_PAIR_WORDS(32); p++) {
        SET(slots[p], UINT32_MAX);
        SET(rates[p], UINT32_MAX);
    }
    CHECK_PREVIEW(KIVDRAG_REFUSED_INPUT, 32 * top + 10000, 32 * top + 10000, book(17, 5, 10000));
    CHECK_PREVIEW(KIVDRAG_REFUSED_INPUT, 32 * top, 32 * top, book_rate(17, 5, 1));
    CHECK_PREVIEW(KIVDRAG_ACCEPTED, 32 * top, 32 * top, release(17, 5, 10000)); /* the rate makes up for it */
    CHECK_PREVIEW(KIVDRAG_ACCEPTED, 32 * top, 32 * top, release_rate(17, 5, TOP_LINE));
    SET(rates[at(17, 5)], 0);
    SET(slots[at(1, 5)], 0); /* 429,497 slots by its rate */
    CHECK_PREVIEW(KIVDRAG_ACCEPTED, 32 * top - 10000, 31 * top + 429497 - 10000, release(17, 5, 10000));
    CHECK_NO_SUMS(KIVDRAG_REFUSED_RELEASE, release_rate(17, 5, 1));
    CHECK_PREVIEW(KIVDRAG_ACCEPTED, 31 * top + 429496, 31 * top + 429496, release_rate(1, 5, 10000));
    CHECK_NO_SUMS(KIVDRAG_REFUSED_RELEASE, release(1, 5, 1));
}

/*
 * WHAT A CALL TAKES AS CONST is not written, not even with the value that it has: here it stands in memory that cannot
 * be written, so that a store ends the program. Two ports, frames of 3 slots, of which a line can sell 2, and lines of
 * 1,000; (1, 2) and (2, 1) hold a slot by either run.
 */
static const uint32_t const_clock[KIVDRAG_CLOCK_WORDS] = {2, 3, 0, 1000, 0};
static const uint32_t const_fine[KIVDRAG_CLOCK_WORDS] = {2, 3, 0, 1000, 7};
static const uint32_t const_slots[4] = {0, 1, 1, 0}, const_rates[4] = {0, 333, 333, 0}, zeros[4] = {0, 0, 0, 0};

static void expect(int line, const char *call, uint32_t wanted, uint32_t refusal) {
    if (refusal != wanted) {
        differs(line, call, "the answer", SIZE_MAX, refusal, wanted);
    }
    calls++;
}

#define EXPECT(wanted, call) expect(__LINE__, #call, (wanted), (call))

/* on a clock with either book, which refuses what it has no room for with this number */
static void calls_on_const(const uint32_t *clock, uint32_t no_room) {
    uint32_t slots[4] = {0, 0, 0, 0}, rates[4] = {0, 0, 0, 0}, queues[4] = {0, 0, 0, 0};
    EXPECT(KIVDRAG_ACCEPTED, p_book(clock, slots, 4, const_rates, 4, 1, 1, 1));
    EXPECT(no_room, p_book(clock, slots, 4, const_rates, 4, 1, 1, 1));
    EXPECT(KIVDRAG_ACCEPTED, p_release(clock, slots, 4, const_rates, 4, 1, 1, 1));
    EXPECT(KIVDRAG_REFUSED_RELEASE, p_release(clock, slots, 4, const_rates, 4, 1, 2, 1));
    EXPECT(KIVDRAG_ACCEPTED, p_book_rate(clock, const_slots, 4, rates, 4, 1, 1, 333));
    EXPECT(no_room, p_book_rate(clock, const_slots, 4, rates, 4, 1, 1, 1));
    EXPECT(KIVDRAG_ACCEPTED, p_release_rate(clock, const_slots, 4, rates, 4, 1, 1, 333));
    EXPECT(KIVDRAG_REFUSED_RELEASE, p_release_rate(clock, const_slots, 4, rates, 4, 1, 2, 1));
    int64_t headroom = UNSET;
    EXPECT(KIVDRAG_ACCEPTED, p_headroom(clock, const_slots, 4, const_rates, 4, 1, 1, &headroom));
    EXPECT(KIVDRAG_REFUSED_PAIR, p_headroom(clock, const_slots, 4, const_rates, 4, 0, 1, &headroom));
    uint64_t row, column;
    EXPECT(KIVDRAG_ACCEPTED, p_preview_book(clock, const_slots, 4, zeros, 4, 1, 1, 1, &row, &column));
    EXPECT(no_room, p_preview_book(clock, const_slots, 4, const_rates, 4, 1, 1, 1, &row, &column));
    EXPECT(KIVDRAG_ACCEPTED, p_preview_book_rate(clock, const_slots, 4, zeros, 4, 1, 1, 333, &row, &column));
    EXPECT(no_room,
           p_preview_book_rate(clock, const_slots, 4, const_rates, 4, 1, 1, 1, &row, &column));
    EXPECT(KIVDRAG_ACCEPTED, p_preview_release(clock, const_slots, 4, const_rates, 4, 1, 2, 1, &row, &column));
    EXPECT(KIVDRAG_REFUSED_RELEASE,
           p_preview_release(clock, const_slots, 4, const_rates, 4, 1, 1, 1, &row, &column));
    EXPECT(KIVDRAG_ACCEPTED,
           p_preview_release_rate(clock, const_slots, 4, const_rates, 4, 1, 2, 333, &row, &column));
    EXPECT(KIVDRAG_REFUSED_RELEASE,
           p_preview_release_rate(clock, const_slots, 4, zeros, 4, 1, 2, 1, &row, &column));
    EXPECT(KIVDRAG_ACCEPTED, p_arrive(clock, queues, 4, 1, 1, 1));
    EXPECT(KIVDRAG_REFUSED_AMOUNT, p_arrive(clock, queues, 4, 1, 1, 0));
}

static uint32_t tick_on_const(int pipelined, uint32_t slot) {
    uint32_t clock[KIVDRAG_CLOCK_WORDS] = {2, 3, slot, 1000, 0};
    uint32_t credits[4] = {0, 0, 0, 0}, queues[4] = {0, 0, 0, 0}, given[2] = {0, 0}, copy[4] = {0, 0, 0, 0};
    uint32_t flight[8] = {0, 0, 0, 0, 0, 0, 0, 0}, first_pass;
    uint8_t outputs[32];
    if (pipelined) {
        return p_tick_pipelined(clock, const_slots, 4, const_rates, 4, credits, 4, queues, 4, given, 2, copy, 4,
                                flight, 8, outputs, &first_pass);
    }
    return p_tick_direct(clock, const_slots, 4, const_rates, 4, credits, 4, queues, 4, given, 2, outputs, &first_pass);
}

static void ticks_on_const(void) {
    EXPECT(KIVDRAG_ACCEPTED, tick_on_const(0, 0)); /* the first of a frame */
    EXPECT(KIVDRAG_ACCEPTED, tick_on_const(0, 1));
    EXPECT(KIVDRAG_REFUSED_CLOCK, tick_on_const(0, 4000000000u));
    EXPECT(KIVDRAG_ACCEPTED, tick_on_const(1, 1));
    EXPECT(KIVDRAG_ACCEPTED, tick_on_const(1, 2)); /* slot 7, 4 ahead, is the first of a frame */
    EXPECT(KIVDRAG_REFUSED_CLOCK, tick_on_const(1, 4000000000u));
}

static void all(void) {
    memset(met, 0, sizeof met);
    starts();
    for (int pipelined = 0; pipelined <= 1; pipelined++) {
        bookings_by_slots(pipelined);
        bookings_by_rate(pipelined);
        small_streams(pipelined);
        line_rates(pipelined);
        headrooms(pipelined);
        previews(pipelined);
        kinds_of_book(pipelined);
        words_for_fine(pipelined);
        whole_lines(pipelined);
        sharing_pairs(pipelined);
        fine_rises(pipelined);
        arrivals(pipelined);
    }
    direct_ticks();
    outputs_in_turn();
    bookings_in_turn();
    large_bookings();
    pipelined_ticks();
    pipelined_in_turn();
    most_ports();
    most_headroom();
    most_previewed();
    most_fine();
    ticks_of_whole_line();
    for (int f = 0; f < FUNCTIONS; f++) {
        if (met[f] != listed[f].answers) {
            differs(__LINE__, listed[f].name, "the set of answers met, as bits,", SIZE_MAX, met[f], listed[f].answers);
        }
    }
}

int main(void) {
    all();
#ifndef __cplusplus
    make = by_name;
    made = "by name";
    all();
#endif
    calls_on_const(const_clock, KIVDRAG_REFUSED_INPUT);
    calls_on_const(const_fine, KIVDRAG_REFUSED_FINE);
    ticks_on_const();
    printf("kivdrag.h: %d functions, refusals 1 to 11 and 15, %lu calls: all as it says\n", (int)FUNCTIONS, calls);
    return 0;
}
