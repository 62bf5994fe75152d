/* The limits and lengths of pointer_desk.h, held to what an opening takes; then the number and name of each refusal, a line each. */
#include <stdio.h>

#include "pointer_desk.h"

enum { S = DESK_MAX_SITES, G = DESK_MAX_POINTERS, SLOTS = DESK_MAX_SLOTS };

/* Room for one site, one pointer and one slot more than the largest desk has. */
static uint8_t owners[G + 1], cells[DESK_CELLS(S + 1, G + 1)], pool[DESK_ORDERED_POOL_BYTES(SLOTS + 1)];
static uint64_t words[G + 1];
static uint16_t counters[DESK_CELLS(S + 1, G + 1)], to_post[DESK_PAIRS(S + 1)], to_receive[DESK_PAIRS(S + 1)];

/* The number that an opening of this size gives, and 255 where the three desks differ. */
static uint8_t opening(uint8_t s, size_t g, size_t slots) {
    desk_answer a = desk_open(s, owners, g, counters, DESK_CELLS(s, g), cells, DESK_CELLS(s, g), pool, DESK_POOL_BYTES(slots));
    desk_ordered_answer o = desk_ordered_open(s, owners, g, counters, DESK_CELLS(s, g), cells, DESK_CELLS(s, g), pool,
                                              DESK_ORDERED_POOL_BYTES(slots), to_post, DESK_PAIRS(s), to_receive, DESK_PAIRS(s));
    desk_answer w = desk_words_open(s, owners, g, counters, DESK_CELLS(s, g), words, g, pool, DESK_POOL_BYTES(slots));
    return a.number == o.number && a.number == w.number ? a.number : 255;
}

int main(void) {
    if (opening(S, G, SLOTS) != DESK_ACCEPTED || opening(1, 0, 0) != DESK_ACCEPTED) return 1;
    if (opening(S + 1, G, SLOTS) != DESK_BAD_SHAPE || opening(S, G + 1, SLOTS) != DESK_BAD_SHAPE) return 1;
    if (opening(S, G, SLOTS + 1) != DESK_BAD_SHAPE || opening(0, 0, 0) != DESK_BAD_SHAPE) return 1;
    for (unsigned n = 0; n < 256; n++) {
        printf("%u %s\n", n, desk_refusal_name((uint8_t)n));
    }
    return 0;
}
