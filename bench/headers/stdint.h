/* The kit's compiler comes with no headers: what host/pointer_desk.h needs of this one. */
#ifndef BENCH_STDINT_H
#define BENCH_STDINT_H

typedef __UINT8_TYPE__ uint8_t;
typedef __UINT16_TYPE__ uint16_t;
typedef __UINT32_TYPE__ uint32_t;
typedef __UINT64_TYPE__ uint64_t;
typedef __INT32_TYPE__ int32_t;

#endif
