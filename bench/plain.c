/* (a): a desk as a careful C programmer writes it from document 01: plain tests, and each loop is left as soon as its answer is known. */
#define NAME(call) plain_##call
#define INLINE static
#include "calls.h"

static int all_below(const uint8_t *bytes, size_t len, size_t limit) {
    for (size_t i = 0; i < len; i++)
        if (bytes[i] >= limit) return 0;
    return 1;
}

static int slot_good(const lent *d, const uint8_t *slot) {
    if (slot[0] == EMPTY) return !slot[1] && !slot[2] && !slot[3] && !slot[4] && (!NUMBERED || (!slot[SLOT - 2] && !slot[SLOT - 1]));
    if (slot[0] > INC_DEC) return 0;
    if (slot[1] >= d->sites || slot[2] >= d->sites || slot[4] >= d->pointers) return 0;
    return slot[0] == INC_DEC ? slot[3] < d->sites : slot[3] == 0;
}

#ifdef WORDS
static int holders_good(const lent *d) {
    for (size_t p = 0; p < d->receive_len && d->sites < MOST_SITES; p++)
        if (d->receive[p] >> d->sites) return 0;
    return 1;
}
#else
static int holders_good(const lent *d) { return all_below(d->receive, d->receive_len, 2); }
#endif

static int bad_table(const lent *d) {
    if (!all_below(d->owners, d->pointers, d->sites)) return 1;
    if (!holders_good(d)) return 1;
    for (size_t slot = 0; slot < d->slots; slot++)
        if (!slot_good(d, d->pool + slot * SLOT)) return 1;
    return 0;
}

static size_t empty_slots(const lent *d) {
    size_t count = 0;
    for (size_t slot = 0; slot < d->slots; slot++) count += d->pool[slot * SLOT] == EMPTY;
    return count;
}

static unsigned front(const lent *d, int named, size_t *empty) {
    if (bad_shape(d)) return BAD_SHAPE;
    if (bad_table(d)) return BAD_TABLE;
    if (!named) return BAD_NAME;
    if (empty) *empty = empty_slots(d);
    return 0;
}

static size_t lowest_empty(const lent *d) {
    size_t slot = 0;
    while (d->pool[slot * SLOT] != EMPTY) slot++;
    return slot;
}

#ifndef IN_ORDER
static int held(const lent *d, unsigned a, unsigned b, unsigned pointer) {
    for (size_t slot = 0; slot < d->slots; slot++) {
        const uint8_t *m = d->pool + slot * SLOT;
        if (m[0] == INC_DEC && m[1] == a && m[2] == b && m[4] == pointer) return 1;
    }
    return 0;
}
#endif

static call_answer post(const lent *d, size_t slot, unsigned kind, unsigned from, unsigned to, unsigned third, unsigned pointer) {
    call_answer r = {0, (uint16_t)slot, 0, {(uint8_t)kind, (uint8_t)from, (uint8_t)to, (uint8_t)third, (uint8_t)pointer}};
    for (size_t i = 0; i < MESSAGE; i++) d->pool[slot * SLOT + i] = r.message[i];
    put_number(d, d->pool + slot * SLOT, kind, from, to);
    return r;
}

static int32_t pooled(const lent *d, unsigned site, unsigned owner, unsigned pointer) {
    int32_t sum = 0;
    for (size_t slot = 0; slot < d->slots; slot++) {
        const uint8_t *m = d->pool + slot * SLOT;
        if (m[4] != pointer) continue;
        if (m[0] == COPY && m[1] == owner && m[2] == site) sum++;
        if (m[0] == DEC && m[1] == site && m[2] == owner) sum++;
        if (m[0] == INC_DEC && m[1] == site && m[2] == owner) sum--;
    }
    return sum;
}

static void enter(const lent *d, unsigned pointer, uint32_t *sheet) {
    for (size_t slot = 0; slot < d->slots; slot++) {
        const uint8_t *m = d->pool + slot * SLOT;
        if (m[4] == pointer && m[0] != EMPTY) sheet[(m[0] - 1) * MOST_SITES + m[m[0]]]++;
    }
}
