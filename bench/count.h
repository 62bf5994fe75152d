#ifndef BENCH_COUNT_H
#define BENCH_COUNT_H

/* The instructions of work(of), and a few of our own that are always the same. */
unsigned long steps(void (*work)(void *), void *of);

#endif
