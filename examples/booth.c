/*
 * A booth with a touch panel, a film player and an archive, scheduled through include/kivdrag_switch.h: a direct switch for a frame, one on which two
 * films take turns, one whose fine book sells a whole line, and a pipelined one for a few ticks. Build it at the repository's root, after
 * `tools/proved kivdrag_c`:
 *
 *   cc -std=c99 -Wall -Wextra -Werror -Iinclude examples/booth.c target/staticlib/libkivdrag_c.a -o target/booth
 *
 * or anywhere, after `make install`:
 *
 *   cc booth.c $(pkg-config --cflags --libs kivdrag) -o booth
 */
#define KIVDRAG_SWITCH_PORTS 4
#include <kivdrag_switch.h>

#include <stdio.h>

enum { PORTS = KIVDRAG_SWITCH_PORTS, FRAME = 8 };

/* The inputs in use, and the outputs. */
enum { PANEL = 1, PLAYER = 2, ARCHIVE = 3 };
enum { DESK = 1, WALL = 2 };

/* A line of 1 Gbit/s, in kbit/s. */
enum { LINE = 1000000 };

/* The kinds of book. */
enum { PLAIN = 0, FINE = 1 };

static void say(const char *what, uint32_t refusal) {
    if (refusal == KIVDRAG_ACCEPTED) {
        printf("%s: %s\n", what, kivdrag_refusal_text(refusal));
    } else {
        printf("%s: refused, %u\n  %s\n", what, (unsigned)refusal, kivdrag_refusal_text(refusal));
    }
}

static void print_headroom(const kivdrag_direct *s, const char *pair, unsigned input, unsigned output) {
    int64_t number;
    uint32_t refusal = kivdrag_direct_headroom(s, input, output, &number);
    if (refusal == KIVDRAG_ACCEPTED) {
        printf("headroom %s: %lld\n", pair, (long long)number);
    } else {
        say("headroom", refusal);
    }
}

/* What an installer's tablet shows before a booking is made. */
static void print_preview(const kivdrag_direct *s, const char *what, unsigned input, unsigned output, unsigned amount) {
    uint64_t row, column;
    uint32_t refusal = kivdrag_direct_preview_book(s, input, output, amount, &row, &column);
    say(what, refusal);
    if (refusal == KIVDRAG_ACCEPTED || refusal == KIVDRAG_REFUSED_INPUT || refusal == KIVDRAG_REFUSED_OUTPUT
        || refusal == KIVDRAG_REFUSED_FINE) {
        printf("  the input would have %llu slots booked, the output %llu\n", (unsigned long long)row, (unsigned long long)column);
    }
}

static void print_pairs(unsigned slot, const kivdrag_pairs *pairs) {
    unsigned count = 0;
    printf("slot %u:", slot);
    for (unsigned input = 1; input <= PORTS; input++) {
        unsigned output = kivdrag_pairs_output(pairs, input);
        if (output != 0) {
            printf("%s %u to %u (%s)", count == 0 ? "" : ",", input, output, kivdrag_pairs_booked(pairs, input) ? "booked" : "left over");
            count++;
        }
    }
    printf("%s\n", count == 0 ? " idle" : "");
}

static void run_slot(kivdrag_direct *s) {
    kivdrag_pairs pairs;
    uint32_t refusal = kivdrag_direct_tick(s, &pairs);
    if (refusal != KIVDRAG_ACCEPTED) {
        say("tick", refusal);
        return;
    }
    print_pairs(kivdrag_direct_last_slot(s), &pairs);
}

static void direct(void) {
    static kivdrag_direct s;
    say("start a direct switch of 4 ports, frames of 8 slots, lines of 1,000 Mbit/s", kivdrag_direct_start(&s, PORTS, FRAME, LINE, PLAIN));
    say("book 2 slots from the panel to the desk", kivdrag_direct_book(&s, PANEL, DESK, 2));
    /* a slot carries 125 Mbit/s: each stream alone needs one, and all three need two */
    for (unsigned stream = 1; stream <= 3; stream++) {
        say("book a stream of 80 Mbit/s from the player to the wall", kivdrag_direct_book_rate(&s, PLAYER, WALL, 80000));
        printf("  slots booked: %u\n", (unsigned)kivdrag_direct_booking(&s, PLAYER, WALL));
    }
    /* the panel has 2 slots booked, and so have the desk and the wall: 8 - (2 + 2 - 2), and 8 - (2 + 2 - 0) */
    print_headroom(&s, "from the panel to the desk", PANEL, DESK);
    print_headroom(&s, "from the panel to the wall", PANEL, WALL);
    /* with 5 slots booked the desk would be above its limit, since 2 * 5 is above 8 + 1; 4 are within it */
    print_preview(&s, "preview 3 slots from the archive to the desk", ARCHIVE, DESK, 3);
    print_preview(&s, "preview 2 slots from the archive to the desk", ARCHIVE, DESK, 2);
    say("book 2 slots from the archive to the desk", kivdrag_direct_book(&s, ARCHIVE, DESK, 2));
    say("queue 6 packets of a film from the player to the wall", kivdrag_direct_arrive(&s, PLAYER, WALL, 6));
    say("queue 9 packets of a film from the archive to the desk", kivdrag_direct_arrive(&s, ARCHIVE, DESK, 9));
    for (unsigned slot = 1; slot <= FRAME; slot++) {
        if (slot == 4) {
            say("queue a touch from the panel to the desk", kivdrag_direct_arrive(&s, PANEL, DESK, 1));
        }
        run_slot(&s);
    }
    say("release two of the streams", kivdrag_direct_release_rate(&s, PLAYER, WALL, 160000));
    printf("  slots booked: %u\n", (unsigned)kivdrag_direct_booking(&s, PLAYER, WALL));
}

/* An input takes its outputs in turn, so that no film waits until another has ended. */
static void two_films(void) {
    static kivdrag_direct s;
    say("start a direct switch of 4 ports, frames of 8 slots", kivdrag_direct_start(&s, PORTS, FRAME, LINE, PLAIN));
    say("queue 3 packets of a film from the archive to the desk", kivdrag_direct_arrive(&s, ARCHIVE, DESK, 3));
    say("queue 3 packets of a film from the archive to the wall", kivdrag_direct_arrive(&s, ARCHIVE, WALL, 3));
    for (unsigned slot = 1; slot <= 6; slot++) {
        run_slot(&s);
    }
    printf("the output that the archive was last given: %u\n", (unsigned)s.given[ARCHIVE - 1]);
}

/* A film wall may need a whole line, which a plain book does not sell; a fine one does. */
static void film_wall(void) {
    static kivdrag_direct s;
    say("start a direct switch of 4 ports, frames of 8 slots, with a plain book", kivdrag_direct_start(&s, PORTS, FRAME, LINE, PLAIN));
    print_preview(&s, "preview 8 slots from the player to the wall", PLAYER, WALL, 8);
    say("start it anew with a fine book", kivdrag_direct_start(&s, PORTS, FRAME, LINE, FINE));
    print_preview(&s, "preview 8 slots from the player to the wall", PLAYER, WALL, 8);
    say("book 8 slots from the player to the wall", kivdrag_direct_book(&s, PLAYER, WALL, 8));
    /* the player and the wall have no slot left; the other lines can still be sold whole */
    print_preview(&s, "preview 2 slots from the archive to the wall", ARCHIVE, WALL, 2);
    print_preview(&s, "preview 8 slots from the archive to the desk", ARCHIVE, DESK, 8);
    say("queue 4 packets of a film from the player to the wall", kivdrag_direct_arrive(&s, PLAYER, WALL, 4));
    say("queue 9 packets of a film from the archive to the wall", kivdrag_direct_arrive(&s, ARCHIVE, WALL, 9));
    for (unsigned slot = 1; slot <= 5; slot++) {
        run_slot(&s);
    }
}

static void pipelined(void) {
    static kivdrag_pipelined s;
    kivdrag_pairs pairs;
    say("start a pipelined switch of 4 ports, frames of 3 slots", kivdrag_pipelined_start(&s, PORTS, 3, LINE, PLAIN));
    say("start a pipelined switch of 4 ports, frames of 8 slots", kivdrag_pipelined_start(&s, PORTS, FRAME, LINE, PLAIN));
    say("book 2 slots from the panel to the desk", kivdrag_pipelined_book(&s, PANEL, DESK, 2));
    say("queue 5 touches from the panel to the desk", kivdrag_pipelined_arrive(&s, PANEL, DESK, 5));
    say("queue 9 packets of a film from the archive to the desk", kivdrag_pipelined_arrive(&s, ARCHIVE, DESK, 9));
    for (unsigned time = 1; time <= 10; time++) {
        uint32_t refusal = kivdrag_pipelined_tick(&s, &pairs);
        if (refusal != KIVDRAG_ACCEPTED) {
            say("tick", refusal);
            return;
        }
        print_pairs(kivdrag_pipelined_last_slot(&s) + 1, &pairs);
    }
}

int main(void) {
    direct();
    printf("\n");
    two_films();
    printf("\n");
    film_wall();
    printf("\n");
    pipelined();
    return 0;
}
