/* Random desks, and calls on them. */
#ifndef BENCH_DESKS_H
#define BENCH_DESKS_H

#include "lent.h"

typedef struct {
    const char *name;
    size_t sites, pointers, slots;
} size;

/* What a call is told: S and the lengths. */
typedef struct {
    uint8_t sites;
    size_t pointers, send_len, receive_len, pool_len, sheet_len, to_post_len, to_receive_len;
} lengths;

/* A desk: its parts stand in one block, each at a multiple of 16 bytes, as a host's own would. */
typedef struct {
    lengths told;
    uint16_t *send, *to_post, *to_receive;
    holders *receive;
    uint8_t *pool, *owners, *block;
    size_t block_len;
} desk;

/* Only the desk on words counts holders. */
typedef enum { MAKE_COPY, RECEIVE, DELETE, ASK, SHARE, WHOLE_SHEET, COUNT_HOLDERS, CALLS = COUNT_HOLDERS + ON_WORDS } call;

/* A call: sites a and b, or a site a, or a slot. */
typedef struct {
    call call;
    uint8_t a, b, pointer;
    uint16_t slot;
} question;

/* A call, the desk as lent, and the desk that the call is made over. */
typedef struct {
    question asked;
    desk before, now;
} sample;

/* What is measured: a call, the number that it must give, and what makes a random desk one where it does. */
typedef struct {
    const char *name;
    unsigned number;
    void (*make)(sample *s);
} measured;

extern const measured CASES[];
extern const size_t CASE_COUNT;

/* A number below n, from a fixed seed. */
unsigned pick(unsigned n);

/* Two desks of a size for sample number i; what stood there is gone. All samples together have room for 2 MiB: 8 large ones, or thousands of small ones. */
void place_sample(sample *s, size_t i, const size *z);

/* Makes the second desk what the first is. */
void restore(sample *s);

/* A good desk, half full. */
void fill_desk(desk *d, const size *z);

/* Into a slot; where messages are numbered, with any number, which its pair receives next. */
void fill_slot(desk *d, size_t slot, unsigned kind, unsigned from, unsigned to, unsigned third, unsigned pointer);
void fill_random(desk *d, size_t slot);

/* A call with any arguments, on a desk that may break document 01 in one place. */
void any_call(sample *s, call c, const size *z);

#endif
