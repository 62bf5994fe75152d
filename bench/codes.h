/* The three desks, and a call that does nothing. */
#ifndef BENCH_CODES_H
#define BENCH_CODES_H

#include "desks.h"

enum { OURS, PLAIN, TUNED, NOTHING, CODES };

/* Any call's answer; what a call does not give is 0. */
typedef struct {
    unsigned number, value, empty;
    uint8_t message[MESSAGE];
    int32_t share;
} answer;

/* Where every sheet is written. */
extern uint32_t sheet[SHEET];

/* Makes the sample's call over its second desk. */
answer made(int code, sample *s);

#endif
