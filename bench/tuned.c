/* (b): the same desk and the same tests, tuned. Each test reads its whole part in words and branches only on what all of it came to; a
   search branches on the field that seldom matches. Everything is inlined, and the loops are unrolled. */
#define NAME(call) tuned_##call
#define INLINE static inline __attribute__((always_inline))
#include "calls.h"

#define EVERY(byte) ((byte) * 0x0101010101010101u)

INLINE uint64_t load64(const uint8_t *p) { uint64_t x; __builtin_memcpy(&x, p, 8); return x; }
INLINE uint32_t load32(const uint8_t *p) { uint32_t x; __builtin_memcpy(&x, p, 4); return x; }
INLINE uint64_t load_slot(const uint8_t *p) { return load32(p) | (uint64_t)load32(p + SLOT - 4) << 8 * (SLOT - 4); }

/* Bytes below 128 that pass their limit show in the top bit once the room is added; bytes of 128 or more show by themselves. */
INLINE uint64_t with_room(uint64_t x, uint64_t room) { return x | (x + room); }

/* The or of all bytes with their room, eight at a time; the last word may overlap the one before. */
INLINE uint64_t seen_bytes(const uint8_t *b, size_t len, uint64_t room) {
    uint64_t seen = 0;
    if (len >= 8) {
        _Pragma("clang loop vectorize(enable) interleave_count(8)")
        for (size_t i = 0; i < len / 8; i++) seen |= with_room(load64(b + i * 8), room);
        return seen | with_room(load64(b + len - 8), room);
    }
    if (len >= 4) return with_room(load32(b) | (uint64_t)load32(b + len - 4) << 32, room);
    for (size_t i = 0; i < len; i++) seen |= with_room(b[i], room & 255);
    return seen;
}

/* What is seen of who holds that no good table shows; a word of 64 sites shows nothing. */
#ifdef WORDS
INLINE uint64_t bad_holders(const lent *d) {
    uint64_t seen = 0;
    if (d->sites == MOST_SITES) return 0;
    _Pragma("clang loop vectorize(enable) interleave_count(8)")
    for (size_t i = 0; i < d->receive_len; i++) seen |= d->receive[i];
    return seen >> d->sites;
}
#else
INLINE uint64_t bad_holders(const lent *d) { return seen_bytes(d->receive, d->receive_len, 0) & EVERY(0xfe); }
#endif

/* What a pass over the pool has seen: the or of all, the or of all with their room (kept apart it takes fewer steps), and how many slots were empty. */
typedef struct {
    uint64_t seen, roomed;
    size_t empty;
} pass;

/* A slot's word, of which the message is looked at, and in an empty slot its number too. */
INLINE uint64_t looked_at(uint64_t word, const uint64_t *by_kind) { return word & (NUMBERED ? by_kind[8 + (word & 3)] : 0xffffffffff); }

/* What is looked at, and what it becomes with the room of its kind; where it is counted, what its kind adds to the count. */
INLINE void see_slot(pass *so_far, uint64_t word, const uint64_t *by_kind, int counted) {
    const uint64_t x = looked_at(word, by_kind), kind = word & 3;
    so_far->seen |= x;
    so_far->roomed |= x + by_kind[kind];
    if (counted) so_far->empty += by_kind[4 + kind];
}

/* Whether every slot is good; where asked, how many are empty. By kind: the room, what may be added to each field before it reaches its top
   bit; then what the kind adds to the count; then the bits that are looked at, where messages are numbered. Counting costs one instruction a
   slot here, and a pass of its own costs two and a half. */
INLINE int slots_good(const lent *d, size_t *empty) {
    const uint64_t site = 128 - d->sites, pointer = (uint64_t)(256 - d->pointers) << 32, low = 0xffffffffff;
    const uint64_t named = pointer + 0x7f000000 + site * 0x10100, none = 0xff7f7f7f00 + (NUMBERED ? (uint64_t)0xfffe << 40 : 0);
    const uint64_t by_kind[12] = {none, named, named, pointer + site * 0x1010100, 1, 0, 0, 0, 0xffffffffffffff, low, low, low};
    pass so_far = {0, 0, 0};
    if (empty) *empty = 0;
    if (!d->slots) return 1;
    const uint8_t *p = d->pool, *last = p + d->pool_len - SLOT, *stop = p + (d->slots - 1) / 4 * (4 * SLOT);
    see_slot(&so_far, load_slot(last), by_kind, !!empty);
    for (; p != stop; p += 4 * SLOT) {
        for (int i = 0; i < 4; i++) see_slot(&so_far, load64(p + i * SLOT), by_kind, !!empty);
    }
    _Pragma("nounroll")
    for (; p != last; p += SLOT) see_slot(&so_far, load64(p), by_kind, !!empty);
    if (empty) *empty = so_far.empty;
    return ((so_far.seen | so_far.roomed) & (0x100808080fc | (uint64_t)NUMBERED << 56)) == 0;
}

INLINE unsigned front(const lent *d, int named, size_t *empty) {
    if (bad_shape(d)) return BAD_SHAPE;
    uint64_t seen = seen_bytes(d->owners, d->pointers, EVERY(128 - d->sites)) & EVERY(0x80);
    seen |= bad_holders(d);
    if (seen || !slots_good(d, empty)) return BAD_TABLE;
    return named ? 0 : BAD_NAME;
}

/* Does STEP on every slot p of the pool, eight in a row. */
#define TWO(STEP) STEP p += SLOT; STEP p += SLOT;
#define EACH_SLOT(STEP) \
    const uint8_t *p = d->pool, *end = p + d->pool_len, *stop = p + d->slots / 8 * (8 * SLOT); \
    while (p != stop) { TWO(STEP) TWO(STEP) TWO(STEP) TWO(STEP) } \
    _Pragma("nounroll") \
    while (p != end) { STEP p += SLOT; }

/* Kind, from and to as one word. */
INLINE uint32_t route(unsigned kind, unsigned from, unsigned to) { return kind | from << 8 | to << 16; }
INLINE uint32_t route_of(const uint8_t *slot) { return load32(slot) & 0xffffff; }

INLINE size_t lowest_empty(const lent *d) {
    EACH_SLOT(if (!*p) return (size_t)(p - d->pool) / SLOT;)
    return d->slots;
}

#ifndef IN_ORDER
INLINE int held(const lent *d, unsigned a, unsigned b, unsigned pointer) {
    const uint32_t inc_dec = route(INC_DEC, a, b);
    EACH_SLOT(if (p[4] == pointer && route_of(p) == inc_dec) return 1;)
    return 0;
}
#endif

INLINE call_answer post(const lent *d, size_t slot, unsigned kind, unsigned from, unsigned to, unsigned third, unsigned pointer) {
    const uint32_t word = route(kind, from, to) | third << 24;
    uint8_t *at = d->pool + slot * SLOT;
    call_answer r = {0, (uint16_t)slot, 0, {0, 0, 0, 0, (uint8_t)pointer}};
    __builtin_memcpy(r.message, &word, 4);
    __builtin_memcpy(at, &word, 4);
    at[4] = (uint8_t)pointer;
    put_number(d, at, kind, from, to);
    return r;
}

INLINE int32_t pooled(const lent *d, unsigned site, unsigned owner, unsigned pointer) {
    const uint32_t copy = route(COPY, owner, site), dec = route(DEC, site, owner), inc_dec = route(INC_DEC, site, owner);
    int32_t sum = 0;
    EACH_SLOT(if (p[4] == pointer) {
        uint32_t x = route_of(p);
        sum += (x == copy) + (x == dec) - (x == inc_dec);
    })
    return sum;
}

INLINE void enter(const lent *d, unsigned pointer, uint32_t *restrict sheet) {
    EACH_SLOT(if (p[4] == pointer && p[0]) sheet[(p[0] - 1) * MOST_SITES + p[p[0]]]++;)
}
