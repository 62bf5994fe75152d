/* What both C desks stand on: the lent parts under one name, the numbers of document 01, and the answers without a message.
   With IN_ORDER they, and all that measures them, are of the in-order desk (document 02, Three), with WORDS of the desk on words (Five). */
#ifndef BENCH_LENT_H
#define BENCH_LENT_H

#include "pointer_desk.h"

enum { EMPTY, COPY, DEC, INC_DEC };
enum { MESSAGE = 5, MOST_SITES = 64, MOST_POINTERS = 256, MOST_SLOTS = 1024, SHEET = 192 };
enum {
    BAD_SHAPE = 1, BAD_TABLE, BAD_NAME, SAME_SITE, NOT_HELD, COUNTER_FULL, POOL_FULL,
    EMPTY_SLOT, HELD, COUNTER_ZERO, IS_OWNER, STILL_COUNTED, NOT_OWNER, OUT_OF_ORDER = 21, NUMBERS
};

/* Whether messages are numbered, the bytes of a slot, the number for a message that comes too early, an answer, the library's call. */
#ifdef IN_ORDER
enum { NUMBERED = 1, SLOT = 7, TOO_EARLY = OUT_OF_ORDER };
typedef desk_ordered_answer call_answer;
#define LIBRARY(call) desk_ordered_##call
#else
enum { NUMBERED = 0, SLOT = 5, TOO_EARLY = HELD };
typedef desk_answer call_answer;
#ifdef WORDS
#define LIBRARY(call) desk_words_##call
#else
#define LIBRARY(call) desk_##call
#endif
#endif

/* Who holds: whether a bit of the pointer's word tells it, or a byte; how many there are; one read and written. */
#ifdef WORDS
enum { ON_WORDS = 1 };
typedef uint64_t holders;

static inline size_t holders_due(size_t sites, size_t pointers) { return (void)sites, pointers; }

static inline unsigned is_held(const holders *receive, size_t pointers, size_t site, size_t pointer) {
    return (void)pointers, receive[pointer] >> site & 1;
}

static inline void set_held(holders *receive, size_t pointers, size_t site, size_t pointer, unsigned held) {
    (void)pointers;
    receive[pointer] = (receive[pointer] & ~((uint64_t)1 << site)) | (uint64_t)held << site;
}
#else
enum { ON_WORDS = 0 };
typedef uint8_t holders;

static inline size_t holders_due(size_t sites, size_t pointers) { return sites * pointers; }

static inline unsigned is_held(const holders *receive, size_t pointers, size_t site, size_t pointer) { return receive[site * pointers + pointer]; }

static inline void set_held(holders *receive, size_t pointers, size_t site, size_t pointer, unsigned held) {
    receive[site * pointers + pointer] = (uint8_t)held;
}
#endif

typedef struct {
    size_t sites, pointers, slots;
    const uint8_t *owners;
    uint16_t *send;
    size_t send_len;
    holders *receive;
    size_t receive_len;
    uint8_t *pool;
    size_t pool_len;
#ifdef IN_ORDER
    uint16_t *to_post;
    size_t to_post_len;
    uint16_t *to_receive;
    size_t to_receive_len;
#endif
} lent;

/* BadShape. */
static inline int bad_shape(const lent *d) {
    if (d->sites < 1 || d->sites > MOST_SITES || d->pointers > MOST_POINTERS) return 1;
    if (d->send_len != d->sites * d->pointers || d->receive_len != holders_due(d->sites, d->pointers)) return 1;
#ifdef IN_ORDER
    size_t pairs = d->sites * d->sites;
    if (d->to_post_len != pairs || d->to_receive_len != pairs) return 1;
#endif
    return d->slots > MOST_SLOTS || d->slots * SLOT != d->pool_len;
}

/* The place of a counter. */
static inline size_t place(const lent *d, size_t site, size_t pointer) { return site * d->pointers + pointer; }

static inline call_answer refused(unsigned number) { return (call_answer){(uint8_t)number, 0, 0, {0, 0, 0, 0, 0}}; }

static inline call_answer accepted(size_t value) { return (call_answer){0, (uint16_t)value, 0, {0, 0, 0, 0, 0}}; }

/* An answer that hands the count of empty slots on (document 02, One). */
static inline call_answer telling(size_t empty, call_answer a) {
    a.empty = (uint16_t)empty;
    return a;
}

#endif
