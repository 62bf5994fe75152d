/* Holds the library beside two desks in C: first that all three answer alike, then instructions a call, then time a call. */
#include "codes.h"
#include "count.h"

int printf(const char *form, ...);
int memcmp(const void *a, const void *b, size_t n);
int strcmp(const char *a, const char *b);
void *memset(void *to, int byte, size_t n);
void *memcpy(void *to, const void *from, size_t n);
void qsort(void *base, size_t n, size_t width, int (*order)(const void *, const void *));
void exit(int status) __attribute__((noreturn));
int clock_gettime(int clock, long *seconds_and_nanos);

enum { ROUNDS = 101, SAMPLES = 256, CLOCK_MONOTONIC = 1 };

static const size LARGE = {"S = 64, G = 256, 1,024 slots", 64, 256, 1024}, SMALL = {"S = 3, G = 4, 16 slots", 3, 4, 16};

static sample samples[SAMPLES];

static void stop(const char *why, const char *where) {
    printf("bench: %s: %s\n", where, why);
    exit(1);
}

/* One call from the same memory each time. */
static answer made_anew(int code, sample *s) {
    restore(s);
    memset(sheet, 0xa5, sizeof sheet);
    return made(code, s);
}

/* All memory after a call, for comparing. */
static void keep(const sample *s, uint8_t *to) {
    memcpy(to, s->now.block, s->now.block_len);
    memcpy(to + s->now.block_len, sheet, sizeof sheet);
}

static int same_answer(answer a, answer b) {
    return a.number == b.number && a.value == b.value && a.empty == b.empty && a.share == b.share && !memcmp(a.message, b.message, MESSAGE);
}

/* The number that all three give, with the same answer and the same memory after. */
static unsigned agreed(sample *s, const char *where) {
    static uint8_t first[1 << 17], second[1 << 17];
    answer a = made_anew(PLAIN, s);
    keep(s, first);
    for (int code = 0; code < NOTHING; code++) {
        if (!same_answer(a, made_anew(code, s))) stop("the answers differ", where);
        keep(s, second);
        if (memcmp(first, second, s->now.block_len + sizeof sheet)) stop("the memory after differs", where);
    }
    return a.number;
}

/* Whether some call gives this number: 0 to 13, and the one that comes in 9's place. */
static int given(unsigned n) { return (n <= NOT_OWNER && n != HELD) || n == TOO_EARLY; }

/* Random calls, many of them refused: the three agree. Adds which numbers were met. */
static void agree_on_any(const size *z, size_t trials, unsigned *met) {
    place_sample(&samples[0], 0, z);
    for (size_t i = 0; i < trials; i++) {
        any_call(&samples[0], (call)(i % CALLS), z);
        unsigned n = agreed(&samples[0], "random calls");
        if (!given(n)) stop("a number that no call gives", "random calls");
        met[n]++;
    }
}

/* Every number that these calls give is met in random calls. */
static void agree(void) {
    unsigned met[NUMBERS] = {0};
    agree_on_any(&SMALL, 20000, met);
    agree_on_any(&LARGE, 4000, met);
    for (unsigned n = 0; n < NUMBERS; n++)
        if (given(n) && !met[n]) stop("a number was not met", "random calls");
}

static void make_samples(const measured *m, const size *z, size_t count) {
    for (size_t i = 0; i < count; i++) {
        place_sample(&samples[i], i, z);
        fill_desk(&samples[i].before, z);
        m->make(&samples[i]);
        if (agreed(&samples[i], m->name) != m->number) stop("not the wanted number", m->name);
    }
}

static int code_counted;

static void make_counted(void *of) { made(code_counted, of); }

static unsigned long steps_of(int code, sample *s) {
    restore(s);
    code_counted = code;
    return steps(make_counted, s);
}

/* The instructions of one call, mean of some samples. */
static unsigned long counted(int code, size_t count) {
    unsigned long sum = 0;
    for (size_t i = 0; i < count; i++) sum += steps_of(code, &samples[i]) - steps_of(NOTHING, &samples[i]);
    return (sum + count / 2) / count;
}

static double nanos(void) {
    long t[2];
    clock_gettime(CLOCK_MONOTONIC, t);
    return (double)t[0] * 1e9 + (double)t[1];
}

/* Nanoseconds a call, over all samples. */
static double timed(int code, size_t count) {
    for (size_t i = 0; i < count; i++) restore(&samples[i]);
    double start = nanos();
    for (size_t i = 0; i < count; i++) made(code, &samples[i]);
    return (nanos() - start) / (double)count;
}

static int by_value(const void *a, const void *b) {
    double x = *(const double *)a, y = *(const double *)b;
    return (x > y) - (x < y);
}

/* The value at a place, once sorted: the least at 0. */
static double sorted(double *t, size_t at) {
    qsort(t, ROUNDS, sizeof *t, by_value);
    return t[at];
}

/* Rounds of all codes in turn, less the least time of a call that does nothing: our least time, and the median of what it is to each C desk's
   in the same round. */
static void print_times(size_t count) {
    static double t[CODES][ROUNDS], to_plain[ROUNDS], to_tuned[ROUNDS];
    for (int r = 0; r < ROUNDS; r++)
        for (int k = 0; k < CODES; k++) t[(k + r) % CODES][r] = timed((k + r) % CODES, count);
    double base = sorted(t[NOTHING], 0);
    for (int r = 0; r < ROUNDS; r++) {
        to_plain[r] = (t[OURS][r] - base) / (t[PLAIN][r] - base);
        to_tuned[r] = (t[OURS][r] - base) / (t[TUNED][r] - base);
    }
    printf("|%.1f|%.3f|%.3f", sorted(t[OURS], 0) - base, sorted(to_plain, ROUNDS / 2), sorted(to_tuned, ROUNDS / 2));
}

/* One line: case, size, three counts; and with time, our nanoseconds and two ratios. */
static void measure(const measured *m, const size *z, size_t to_count, size_t to_time, int with_time) {
    make_samples(m, z, to_time);
    printf("%s|%s|%lu|%lu|%lu", m->name, z->name, counted(OURS, to_count), counted(PLAIN, to_count), counted(TUNED, to_count));
    if (with_time) print_times(to_time);
    printf("\n");
}

int main(int count, char **words) {
    int with_time = count == 2 && !strcmp(words[1], "time");
    agree();
    for (size_t i = 0; i < CASE_COUNT; i++) {
        measure(&CASES[i], &LARGE, 1, 8, with_time);
        measure(&CASES[i], &SMALL, 64, SAMPLES, with_time);
    }
    return 0;
}
