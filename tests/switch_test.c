/*
 * include/kivdrag_switch.h beside include/kivdrag.h: random calls of each form's functions, in range and out of it, on words of any contents, and the
 * same calls of kivdrag.h on the same words. Number, answers and every word must be the same, each function must have given each number that it can
 * give, and the readers must say what the words do. It names the first thing that is not so and ends with 1; otherwise it prints one line. It is C99,
 * C11 and C++17; tests/install builds and runs it.
 */
#include <kivdrag_switch.h>

#include <stdio.h>
#include <stdlib.h>
#include <string.h>

#define PORTS KIVDRAG_SWITCH_PORTS
#define PAIRS (PORTS * PORTS)
#define STEPS 60000

enum { DIRECT, PIPELINED, FORMS };

enum {
    START, BOOK, BOOK_RATE, RELEASE, RELEASE_RATE, ARRIVE, HEADROOM, PREVIEW_BOOK, PREVIEW_BOOK_RATE, PREVIEW_RELEASE, PREVIEW_RELEASE_RATE, TICK,
    FUNCTIONS
};

/* A call: a start has ports, frame, line and fine; the calls on a pair have input, output and amount. */
typedef struct {
    int function;
    uint64_t ports, frame, line, input, output, amount;
    uint32_t fine;
} Call;

typedef struct {
    uint32_t number;
    int64_t headroom;
    uint64_t row, column;
    kivdrag_pairs pairs;
} Answer;

/* The words of kivdrag.h, for both forms. */
typedef struct {
    uint32_t clock[5], slots[PAIRS], rates[PAIRS], credits[PAIRS], queues[PAIRS], given[PORTS], copy[PAIRS], flight[2 * PAIRS];
} Words;

static void require(int holds, const char *what, int detail) {
    if (!holds) {
        printf("switch_test, %d ports: %s (%d)\n", PORTS, what, detail);
        exit(1);
    }
}

/* THE CALL by kivdrag.h */
static uint32_t start_or_tick(int form, Words *w, const Call *c, Answer *a) {
    if (form == DIRECT) {
        return c->function == START
            ? kivdrag_start_direct(c->ports, c->frame, c->line, c->fine, w->clock, w->slots, PAIRS, w->rates, PAIRS, w->credits, PAIRS,
                                   w->queues, PAIRS, w->given, PORTS)
            : kivdrag_tick_direct(w->clock, w->slots, PAIRS, w->rates, PAIRS, w->credits, PAIRS, w->queues, PAIRS, w->given, PORTS,
                                  a->pairs.outputs, &a->pairs.first_pass);
    }
    return c->function == START
        ? kivdrag_start_pipelined(c->ports, c->frame, c->line, c->fine, w->clock, w->slots, PAIRS, w->rates, PAIRS, w->credits, PAIRS,
                                  w->queues, PAIRS, w->given, PORTS, w->copy, PAIRS, w->flight, 2 * PAIRS)
        : kivdrag_tick_pipelined(w->clock, w->slots, PAIRS, w->rates, PAIRS, w->credits, PAIRS, w->queues, PAIRS, w->given, PORTS,
                                 w->copy, PAIRS, w->flight, 2 * PAIRS, a->pairs.outputs, &a->pairs.first_pass);
}

static uint32_t call_words(int form, Words *w, const Call *c, Answer *a) {
    uint64_t i = c->input, j = c->output, d = c->amount;
    switch (c->function) {
    case BOOK: return kivdrag_book(w->clock, w->slots, PAIRS, w->rates, PAIRS, i, j, d);
    case BOOK_RATE: return kivdrag_book_rate(w->clock, w->slots, PAIRS, w->rates, PAIRS, i, j, d);
    case RELEASE: return kivdrag_release(w->clock, w->slots, PAIRS, w->rates, PAIRS, i, j, d);
    case RELEASE_RATE: return kivdrag_release_rate(w->clock, w->slots, PAIRS, w->rates, PAIRS, i, j, d);
    case ARRIVE: return kivdrag_arrive(w->clock, w->queues, PAIRS, i, j, d);
    case HEADROOM: return kivdrag_headroom(w->clock, w->slots, PAIRS, w->rates, PAIRS, i, j, &a->headroom);
    case PREVIEW_BOOK: return kivdrag_preview_book(w->clock, w->slots, PAIRS, w->rates, PAIRS, i, j, d, &a->row, &a->column);
    case PREVIEW_BOOK_RATE: return kivdrag_preview_book_rate(w->clock, w->slots, PAIRS, w->rates, PAIRS, i, j, d, &a->row, &a->column);
    case PREVIEW_RELEASE: return kivdrag_preview_release(w->clock, w->slots, PAIRS, w->rates, PAIRS, i, j, d, &a->row, &a->column);
    case PREVIEW_RELEASE_RATE: return kivdrag_preview_release_rate(w->clock, w->slots, PAIRS, w->rates, PAIRS, i, j, d, &a->row, &a->column);
    default: return start_or_tick(form, w, c, a);
    }
}

/* What the booking of a pair is by docs/RULES.md; 0 where there is no such pair, or no frame that the library accepts. */
static uint32_t booking_by_rule(const Words *w, uint64_t input, uint64_t output) {
    uint64_t ports = w->clock[0], frame = w->clock[1], line = w->clock[3];
    if (ports > PORTS || input < 1 || input > ports || output < 1 || output > ports || frame < 1 || frame > 10000) {
        return 0;
    }
    uint64_t place = (input - 1) * ports + (output - 1);
    uint64_t product = w->rates[place] * frame;
    uint64_t by_rate = line == 0 ? 0 : product / line + (product % line != 0);
    uint64_t sum = w->slots[place] + by_rate;
    return sum > 4294967295u ? 4294967295u : (uint32_t)sum;
}

static uint32_t waiting_by_rule(const Words *w, uint64_t input, uint64_t output) {
    uint64_t ports = w->clock[0];
    return ports <= PORTS && input >= 1 && input <= ports && output >= 1 && output <= ports ? w->queues[(input - 1) * ports + (output - 1)] : 0;
}

/* BOTH FORMS by kivdrag_switch.h */
#define DIRECT_RUNS(each) each(clock) each(slots) each(rates) each(credits) each(queues) each(given)
#define PIPELINED_RUNS(each) DIRECT_RUNS(each) each(copy) each(flight)
#define LOAD(run) memcpy(s->run, w->run, sizeof s->run);
#define SAME(run) && sizeof s->run == sizeof w->run && memcmp(s->run, w->run, sizeof s->run) == 0
#define SIZE(run) + sizeof s->run

#define FORM(form, RUNS)                                                                                                                          \
    static uint32_t call_##form(kivdrag_##form *s, const Call *c, Answer *a) {                                                                    \
        switch (c->function) {                                                                                                                    \
        case START: return kivdrag_##form##_start(s, c->ports, c->frame, c->line, c->fine);                                                       \
        case BOOK: return kivdrag_##form##_book(s, c->input, c->output, c->amount);                                                               \
        case BOOK_RATE: return kivdrag_##form##_book_rate(s, c->input, c->output, c->amount);                                                     \
        case RELEASE: return kivdrag_##form##_release(s, c->input, c->output, c->amount);                                                         \
        case RELEASE_RATE: return kivdrag_##form##_release_rate(s, c->input, c->output, c->amount);                                               \
        case ARRIVE: return kivdrag_##form##_arrive(s, c->input, c->output, c->amount);                                                           \
        case HEADROOM: return kivdrag_##form##_headroom(s, c->input, c->output, &a->headroom);                                                    \
        case PREVIEW_BOOK: return kivdrag_##form##_preview_book(s, c->input, c->output, c->amount, &a->row, &a->column);                          \
        case PREVIEW_BOOK_RATE: return kivdrag_##form##_preview_book_rate(s, c->input, c->output, c->amount, &a->row, &a->column);                \
        case PREVIEW_RELEASE: return kivdrag_##form##_preview_release(s, c->input, c->output, c->amount, &a->row, &a->column);                    \
        case PREVIEW_RELEASE_RATE: return kivdrag_##form##_preview_release_rate(s, c->input, c->output, c->amount, &a->row, &a->column);          \
        default: return kivdrag_##form##_tick(s, &a->pairs);                                                                                      \
        }                                                                                                                                         \
    }                                                                                                                                             \
    static void load_##form(kivdrag_##form *s, const Words *w) { RUNS(LOAD) }                                                                     \
    static void compare_##form(const kivdrag_##form *s, const Words *w, const Call *c) {                                                          \
        require(sizeof *s == 0 RUNS(SIZE), #form ": a run that is not compared", 0);                                                              \
        require(1 RUNS(SAME), #form ": words after function", c->function);                                                                       \
        require(kivdrag_##form##_ports(s) == w->clock[0], #form ": ports after function", c->function);                                           \
        require(kivdrag_##form##_frame(s) == w->clock[1], #form ": frame after function", c->function);                                           \
        require(kivdrag_##form##_last_slot(s) == w->clock[2], #form ": last slot after function", c->function);                                   \
        require(kivdrag_##form##_waiting(s, c->input, c->output) == waiting_by_rule(w, c->input, c->output), #form ": waiting", c->function);     \
        require(kivdrag_##form##_booking(s, c->input, c->output) == booking_by_rule(w, c->input, c->output), #form ": booking", c->function);     \
    }

FORM(direct, DIRECT_RUNS)
FORM(pipelined, PIPELINED_RUNS)

static Words words;
static kivdrag_direct direct;
static kivdrag_pipelined pipelined;

/* RANDOM CALLS, the same at each run */
static uint64_t state = 21;

static uint64_t below(uint64_t end) {
    state = state * 6364136223846793005u + 1442695040888963407u;
    return (state >> 33) % end;
}

/* Mostly small, now and then at or beyond the end of a range. */
static uint64_t number_up_to(uint64_t most) {
    static const uint64_t odd[] = {0, 1, 32, 33, 65535, 65536, 100000001, 4294967295u, 4294967297u, 18446744073709551615u};
    if (below(12) == 0) {
        return odd[below(sizeof odd / sizeof odd[0])];
    }
    return below(8) == 0 ? most + below(2) : 1 + below(most);
}

static Call random_call(void) {
    Call c;
    uint32_t few = PORTS < 3 ? PORTS : 3;
    c.function = (int)below(FUNCTIONS + 6);
    c.function = c.function < FUNCTIONS ? c.function : TICK;
    if (c.function == START && below(4) != 0) {
        c.function = ARRIVE;
    }
    c.ports = number_up_to(below(3) == 0 ? PORTS : few);
    c.frame = number_up_to(below(3) == 0 ? 10000 : 9);
    c.line = number_up_to(below(3) == 0 ? 100000000 : 1000);
    c.fine = (uint32_t)below(3);
    c.input = number_up_to(few);
    c.output = number_up_to(few);
    c.amount = number_up_to(below(4) == 0 ? 400 : 3);
    return c;
}

/* Writes a word somewhere, most often in the clock or near the beginning of a run. */
static void disturb(void) {
    static const uint32_t odd[] = {0, 1, 2, 3, 33, 102, 10001, 999999, 3999999999u, 4000000000u, 4294967295u};
    uint32_t value = odd[below(sizeof odd / sizeof odd[0])];
    uint32_t *runs[] = {words.slots, words.rates, words.credits, words.queues, words.copy, words.flight};
    switch (below(6)) {
    case 0: words.clock[below(5)] = value; break;
    case 1: words.clock[0] = (uint32_t)below(PORTS + 2); break;
    case 2: words.given[below(PORTS)] = value; break;
    default: runs[below(6)][below(below(2) == 0 ? PAIRS : PORTS)] = value; break;
    }
}

/* The numbers that a function of a form can give, as bits. */
#define BIT(number) (1u << (number))

static unsigned numbers_of(int form, int function) {
    unsigned all = BIT(0) | BIT(1) | BIT(2) | (PORTS < 32 ? BIT(4) : 0), pair = all | BIT(5), amount = pair | BIT(6);
    unsigned pipeline = form == PIPELINED ? BIT(3) : 0;
    switch (function) {
    case START: return all | pipeline | BIT(6);
    case TICK: return all | pipeline | BIT(7);
    case HEADROOM: return pair;
    case ARRIVE: return amount | BIT(11);
    case RELEASE:
    case RELEASE_RATE:
    case PREVIEW_RELEASE:
    case PREVIEW_RELEASE_RATE: return amount | BIT(10);
    default: return amount | BIT(8) | (PORTS > 1 ? BIT(9) : 0) | BIT(15);
    }
}

static void test_form(int form) {
    unsigned seen[FUNCTIONS] = {0};
    for (int step = 0; step < STEPS; step++) {
        if (below(20) == 0) {
            disturb();
        }
        load_direct(&direct, &words);
        load_pipelined(&pipelined, &words);
        Call c = random_call();
        Answer is, should;
        memset(&is, 99, sizeof is);
        should = is;
        should.number = call_words(form, &words, &c, &should);
        is.number = form == DIRECT ? call_direct(&direct, &c, &is) : call_pipelined(&pipelined, &c, &is);
        require(is.number == should.number, "another number from function", c.function);
        require(is.headroom == should.headroom && is.row == should.row && is.column == should.column, "another answer from function", c.function);
        require(memcmp(&is.pairs, &should.pairs, sizeof is.pairs) == 0, "other pairs from function", c.function);
        if (form == DIRECT) {
            compare_direct(&direct, &words, &c);
        } else {
            compare_pipelined(&pipelined, &words, &c);
        }
        seen[c.function] |= BIT(is.number);
    }
    for (int function = 0; function < FUNCTIONS; function++) {
        require(seen[function] == numbers_of(form, function), "not all of its numbers were given, or others, by function", function);
    }
}

static void test_pairs(void) {
    kivdrag_pairs pairs;
    for (uint32_t i = 1; i <= 32; i++) {
        pairs.outputs[i - 1] = (uint8_t)(33 - i);
    }
    pairs.first_pass = 0x80000005u;
    for (uint32_t i = 1; i <= 32; i++) {
        require(kivdrag_pairs_output(&pairs, i) == 33 - i, "output of input", (int)i);
        require(kivdrag_pairs_booked(&pairs, i) == (i == 1 || i == 3 || i == 32), "booked, of input", (int)i);
    }
    static const uint64_t outside[] = {0, 33, 4294967297u, 18446744073709551615u};
    for (int k = 0; k < 4; k++) {
        require(kivdrag_pairs_output(&pairs, outside[k]) == 0 && kivdrag_pairs_booked(&pairs, outside[k]) == 0, "an input that is none", k);
    }
}

/* Each text has what it is about, is a line of its own, and is not that of another number. */
static void test_texts(void) {
    static const char *const about[] = {"accepted", "1 to 32 ports", "1 to 10,000 slots", "pipelined", "memory", "no such input or output", "amount",
                                        "4,000,000,000", "the input", "the output", "released", "1,000,000 packets", "cannot be read", "four fields",
                                        "one to ten digits", "fit the frame", "no such number"};
    for (uint32_t number = 0; number <= 16; number++) {
        const char *text = kivdrag_refusal_text(number);
        require(strstr(text, about[number]) != NULL && strchr(text, '\n') == NULL, "text of number", (int)number);
        for (uint32_t other = 0; other < number; other++) {
            require(strcmp(text, kivdrag_refusal_text(other)) != 0, "the same text as another number has", (int)number);
        }
    }
    require(strcmp(kivdrag_refusal_text(4294967295u), kivdrag_refusal_text(16)) == 0, "text of the last number", 0);
}

/* A switch of all 0 refuses; one with all its ports starts, and one with more does not; a copy goes on by itself. */
static void test_memory(void) {
    static kivdrag_direct first, second;
    kivdrag_pairs pairs;
    require(kivdrag_direct_tick(&first, &pairs) == KIVDRAG_REFUSED_PORTS, "a tick before the start", 0);
    require(kivdrag_direct_start(&first, PORTS, 10000, 0, 0) == KIVDRAG_ACCEPTED, "a start with all ports", 0);
    require(kivdrag_direct_arrive(&first, PORTS, PORTS, 3) == KIVDRAG_ACCEPTED, "an arrival", 0);
    second = first;
    require(kivdrag_direct_tick(&second, &pairs) == KIVDRAG_ACCEPTED && kivdrag_pairs_output(&pairs, PORTS) == PORTS, "a tick of the copy", 0);
    require(kivdrag_direct_last_slot(&first) == 0 && kivdrag_direct_waiting(&first, PORTS, PORTS) == 3, "the copied switch", 0);
    require(kivdrag_direct_last_slot(&second) == 1 && kivdrag_direct_waiting(&second, PORTS, PORTS) == 2, "the copy", 0);
    require(kivdrag_direct_start(&first, PORTS + 1, 10000, 0, 0) == (PORTS < 32 ? KIVDRAG_REFUSED_RUNS : KIVDRAG_REFUSED_PORTS), "too many ports", 0);
}

int main(void) {
    require(strspn(KIVDRAG_VERSION, "0123456789.") == strlen(KIVDRAG_VERSION), "a version is numbers with dots", 0);
    test_memory();
    test_form(DIRECT);
    test_form(PIPELINED);
    test_pairs();
    test_texts();
    printf("switch_test, %d ports: %d calls of each form as by kivdrag.h\n", PORTS, STEPS);
    return 0;
}
