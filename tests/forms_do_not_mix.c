/*
 * The functions of the form CALLED, each on a switch of the form FORM. It must compile where both are direct or both are pipelined; otherwise each line
 * marked `mixed` must be refused, and no other. tests/install compiles it all four ways.
 */
#include <kivdrag_switch.h>

#define PASTED(left, form, right) left##form##right
#define TYPE(form) PASTED(kivdrag_, form, )
#define CALL(form, function) PASTED(kivdrag_, form, _##function)

void mix(TYPE(FORM) * s, kivdrag_pairs *pairs, uint64_t *sums, int64_t *headroom);

void mix(TYPE(FORM) * s, kivdrag_pairs *pairs, uint64_t *sums, int64_t *headroom) {
    CALL(CALLED, start)(s, 2, 8, 0, 0);                                 /* mixed */
    CALL(CALLED, book)(s, 1, 1, 1);                                     /* mixed */
    CALL(CALLED, book_rate)(s, 1, 1, 1);                                /* mixed */
    CALL(CALLED, release)(s, 1, 1, 1);                                  /* mixed */
    CALL(CALLED, release_rate)(s, 1, 1, 1);                             /* mixed */
    CALL(CALLED, arrive)(s, 1, 1, 1);                                   /* mixed */
    CALL(CALLED, headroom)(s, 1, 1, headroom);                          /* mixed */
    CALL(CALLED, preview_book)(s, 1, 1, 1, &sums[0], &sums[1]);         /* mixed */
    CALL(CALLED, preview_book_rate)(s, 1, 1, 1, &sums[0], &sums[1]);    /* mixed */
    CALL(CALLED, preview_release)(s, 1, 1, 1, &sums[0], &sums[1]);      /* mixed */
    CALL(CALLED, preview_release_rate)(s, 1, 1, 1, &sums[0], &sums[1]); /* mixed */
    CALL(CALLED, tick)(s, pairs);                                       /* mixed */
    CALL(CALLED, ports)(s);                                             /* mixed */
    CALL(CALLED, frame)(s);                                             /* mixed */
    CALL(CALLED, last_slot)(s);                                         /* mixed */
    CALL(CALLED, waiting)(s, 1, 1);                                     /* mixed */
    CALL(CALLED, booking)(s, 1, 1);                                     /* mixed */
}
