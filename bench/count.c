/* How many instructions run between two places, by the trap flag of x86: a trap after every instruction. Compiled without a red zone. */
#include "count.h"

enum { SIGTRAP = 5 };

void (*signal(int number, void (*handler)(int)))(int);

static volatile unsigned long traps;

static void on_trap(int number) {
    (void)number;
    traps++;
}

unsigned long steps(void (*work)(void *), void *of) {
    signal(SIGTRAP, on_trap);
    traps = 0;
    __asm__ volatile("pushfq\n\torq $0x100, (%%rsp)\n\tpopfq" ::: "memory", "cc");
    work(of);
    __asm__ volatile("pushfq\n\tandq $~0x100, (%%rsp)\n\tpopfq" ::: "memory", "cc");
    return traps;
}
