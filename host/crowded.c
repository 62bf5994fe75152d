/* An example host that hears of a crowded pool before a copy is turned down (document 02, One). It ends with 1 where none is. */
#include <stdio.h>

#include "pointer_desk.h"

/* Site 0 owns a net and sends every other site a copy; nobody receives; four messages have room. */
enum { SITES = 6, POINTERS = 1, SLOTS = 4, NET = 0, FEW = 2 };

static uint8_t owners[POINTERS] = {0};
static uint16_t counters[SITES * POINTERS];
static uint8_t cells[SITES * POINTERS];
static uint8_t pool[SLOTS * DESK_SLOT_BYTES];

#define LENT SITES, owners, sizeof owners, counters, SITES * POINTERS, cells, sizeof cells, pool, sizeof pool

/* An accepted copy tells how many slots were empty before it took one. */
static void tell(int site, desk_answer a) {
    if (a.number != DESK_ACCEPTED) {
        printf("copy to site %d  refused: %d\n", site, a.number);
    } else {
        printf("copy to site %d  slots left: %d%s\n", site, a.empty - 1, a.empty <= FEW ? "  WARNING: the pool is nearly full" : "");
    }
}

int main(void) {
    desk_answer a = desk_open(LENT);
    for (uint8_t site = 1; site < SITES && a.number == DESK_ACCEPTED; site++) {
        a = desk_make_copy(LENT, 0, site, NET);
        tell(site, a);
    }
    return a.number != DESK_POOL_FULL;
}
