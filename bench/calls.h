/* The calls of a C desk, in document 01's words and order: the same for both. A desk defines NAME, INLINE and the functions that are declared here. */
#include "lent.h"

/* 1, 2, 3. How many slots are empty goes to `empty` where that is not null and the number is 0. */
INLINE unsigned front(const lent *d, int named, size_t *empty);

/* The lowest empty slot, where there is one. */
INLINE size_t lowest_empty(const lent *d);

/* A message into a slot, and the accepted answer; EMPTY and zeros empty it. */
INLINE call_answer post(const lent *d, size_t slot, unsigned kind, unsigned from, unsigned to, unsigned third, unsigned pointer);

/* What the pool adds to a site's share. */
INLINE int32_t pooled(const lent *d, unsigned site, unsigned owner, unsigned pointer);

/* The pool's messages into a sheet of zeros: a COPY at its sender, a DEC at its receiver, an INC_DEC at its third site, so at slot byte 1, 2, 3 as its kind says. */
INLINE void enter(const lent *d, unsigned pointer, uint32_t *sheet);

#ifdef IN_ORDER
#define NUMBERS_PART(TO_POST, TO_RECEIVE) , TO_POST *to_post, size_t to_post_len, TO_RECEIVE *to_receive, size_t to_receive_len
#define NUMBERS_LENT , (uint16_t *)to_post, to_post_len, (uint16_t *)to_receive, to_receive_len

/* A pair's next number to post or to receive, which advances. */
INLINE uint16_t take_next(const lent *d, uint16_t *numbers, unsigned from, unsigned to) { return numbers[from * d->sites + to]++; }

/* Whether a message is not its pair's next. */
INLINE int too_early(const lent *d, const uint8_t *m) { return (m[5] << 8 | m[6]) != d->to_receive[m[1] * d->sites + m[2]]; }

/* A message from a to b is received. */
INLINE void handled(const lent *d, unsigned a, unsigned b) { take_next(d, d->to_receive, a, b); }

/* The number behind a posted message; 0 where there is none. */
INLINE void put_number(const lent *d, uint8_t *slot, unsigned kind, unsigned from, unsigned to) {
    unsigned n = kind == EMPTY ? 0 : take_next(d, d->to_post, from, to);
    slot[5] = (uint8_t)(n >> 8);
    slot[6] = (uint8_t)n;
}
#else
#define NUMBERS_PART(TO_POST, TO_RECEIVE)
#define NUMBERS_LENT

/* Whether some slot holds an INC_DEC from a to b for the pointer. */
INLINE int held(const lent *d, unsigned a, unsigned b, unsigned pointer);

INLINE int too_early(const lent *d, const uint8_t *m) { return m[0] == DEC && held(d, m[1], m[2], m[4]); }

/* Messages have no numbers here. */
#define handled(d, a, b)
#define put_number(d, slot, kind, from, to)
#endif

#define PARTS(SEND, RECEIVE, POOL, TO_POST, TO_RECEIVE) \
    uint8_t sites, const uint8_t *owners, size_t owners_len, SEND *send, size_t send_len, \
    RECEIVE *receive, size_t receive_len, POOL *pool, size_t pool_len NUMBERS_PART(TO_POST, TO_RECEIVE)
#define LENT \
    {sites, owners_len, pool_len / SLOT, owners, (uint16_t *)send, send_len, (holders *)receive, receive_len, (uint8_t *)pool, pool_len NUMBERS_LENT}

call_answer NAME(make_copy)(PARTS(uint16_t, const holders, uint8_t, uint16_t, const uint16_t), uint8_t from, uint8_t to, uint8_t pointer) {
    const lent d = LENT;
    size_t empty;
    unsigned n = front(&d, (from < sites) & (to < sites) & (pointer < owners_len), &empty);
    if (n) return refused(n);
    size_t at = place(&d, from, pointer);
    if (from == to) return refused(SAME_SITE);
    if ((from != owners[pointer]) & !is_held(receive, owners_len, from, pointer)) return refused(NOT_HELD);
    if (send[at] == 65535) return refused(COUNTER_FULL);
    if (!empty) return refused(POOL_FULL);
    send[at]++;
    return telling(empty, post(&d, lowest_empty(&d), COPY, from, to, 0, pointer));
}

INLINE call_answer receive_copy(const lent *d, size_t slot, unsigned a, unsigned b, unsigned pointer) {
    if (a == b) return refused(SAME_SITE);
    handled(d, a, b);
    if (is_held(d->receive, d->pointers, b, pointer)) return post(d, slot, DEC, b, a, 0, pointer);
    set_held(d->receive, d->pointers, b, pointer, 1);
    unsigned owner = d->owners[pointer];
    if (a == owner) return post(d, slot, EMPTY, 0, 0, 0, 0);
    return post(d, slot, INC_DEC, b, owner, a, pointer);
}

call_answer NAME(receive)(PARTS(uint16_t, holders, uint8_t, uint16_t, uint16_t), uint16_t slot) {
    const lent d = LENT;
    unsigned n = front(&d, slot < d.slots, NULL);
    if (n) return refused(n);
    const uint8_t *m = pool + slot * SLOT;
    unsigned kind = m[0], a = m[1], b = m[2], third = m[3], pointer = m[4];
    uint16_t *counter = send + place(&d, b, pointer);
    if (kind == EMPTY) return refused(EMPTY_SLOT);
    if (too_early(&d, m)) return refused(TOO_EARLY);
    if (kind == COPY) return receive_copy(&d, slot, a, b, pointer);
    if (kind == DEC) {
        if (!*counter) return refused(COUNTER_ZERO);
        handled(&d, a, b);
        --*counter;
        return post(&d, slot, EMPTY, 0, 0, 0, 0);
    }
    if (*counter == 65535) return refused(COUNTER_FULL);
    handled(&d, a, b);
    ++*counter;
    return post(&d, slot, DEC, b, third, 0, pointer);
}

call_answer NAME(delete)(PARTS(const uint16_t, holders, uint8_t, uint16_t, const uint16_t), uint8_t site, uint8_t pointer) {
    const lent d = LENT;
    size_t empty;
    unsigned n = front(&d, (site < sites) & (pointer < owners_len), &empty);
    if (n) return refused(n);
    size_t at = place(&d, site, pointer);
    unsigned owner = owners[pointer];
    if (site == owner) return refused(IS_OWNER);
    if (!is_held(receive, owners_len, site, pointer)) return refused(NOT_HELD);
    if (send[at]) return refused(STILL_COUNTED);
    if (!empty) return refused(POOL_FULL);
    set_held(receive, owners_len, site, pointer, 0);
    return telling(empty, post(&d, lowest_empty(&d), DEC, site, owner, 0, pointer));
}

call_answer NAME(ask)(PARTS(const uint16_t, const holders, const uint8_t, const uint16_t, const uint16_t), uint8_t site, uint8_t pointer) {
    const lent d = LENT;
    unsigned n = front(&d, (site < sites) & (pointer < owners_len), NULL);
    if (n) return refused(n);
    if (site != owners[pointer]) return refused(NOT_OWNER);
    return accepted(send[place(&d, site, pointer)] == 0);
}

desk_share_answer NAME(share)(PARTS(const uint16_t, const holders, const uint8_t, const uint16_t, const uint16_t), uint8_t site, uint8_t pointer) {
    const lent d = LENT;
    unsigned n = front(&d, (site < sites) & (pointer < owners_len), NULL);
    if (n) return (desk_share_answer){(uint8_t)n, 0};
    unsigned owner = owners[pointer];
    if (site == owner) return (desk_share_answer){IS_OWNER, 0};
    return (desk_share_answer){0, (int32_t)is_held(receive, owners_len, site, pointer) + pooled(&d, site, owner, pointer)};
}

uint8_t NAME(sheet)(PARTS(const uint16_t, const holders, const uint8_t, const uint16_t, const uint16_t), uint8_t pointer, uint32_t *sheet, size_t sheet_len) {
    const lent d = LENT;
    if (sheet_len != SHEET) return BAD_SHAPE;
    unsigned n = front(&d, pointer < owners_len, NULL);
    __builtin_memset(sheet, 0, SHEET * sizeof *sheet);
    if (!n) enter(&d, pointer, sheet);
    return (uint8_t)n;
}

#ifdef WORDS
call_answer NAME(count)(PARTS(const uint16_t, const holders, const uint8_t, const uint16_t, const uint16_t), uint8_t pointer) {
    const lent d = LENT;
    unsigned n = front(&d, pointer < owners_len, NULL);
    if (n) return refused(n);
    return accepted((size_t)__builtin_popcountll(receive[pointer]));
}
#endif
