/* The kit's compiler comes with no headers: what host/pointer_desk.h needs of this one. */
#ifndef BENCH_STDDEF_H
#define BENCH_STDDEF_H

typedef __SIZE_TYPE__ size_t;

#define NULL ((void *)0)

#endif
