/* One call of one of the three desks: the same way to each. */
#include "codes.h"

/* One desk's calls. */
typedef struct {
    __typeof__(LIBRARY(make_copy)) *make_copy;
    __typeof__(LIBRARY(receive)) *receive;
    __typeof__(LIBRARY(delete)) *delete;
    __typeof__(LIBRARY(ask)) *ask;
    __typeof__(LIBRARY(share)) *share;
    __typeof__(LIBRARY(sheet)) *sheet;
#ifdef WORDS
    __typeof__(LIBRARY(count)) *count;
#endif
} code;

__typeof__(LIBRARY(make_copy)) plain_make_copy, tuned_make_copy;
__typeof__(LIBRARY(receive)) plain_receive, tuned_receive;
__typeof__(LIBRARY(delete)) plain_delete, tuned_delete;
__typeof__(LIBRARY(ask)) plain_ask, tuned_ask;
__typeof__(LIBRARY(share)) plain_share, tuned_share;
__typeof__(LIBRARY(sheet)) plain_sheet, tuned_sheet;
#ifdef WORDS
__typeof__(LIBRARY(count)) plain_count, tuned_count;
#define AND_COUNT(NAME) , NAME(count)
#else
#define AND_COUNT(NAME)
#endif

/* What a measurement costs by itself: taken off from all. */
__attribute__((naked)) static void nothing(void) { __asm__("ret"); }

#define PLAIN_C(call) plain_##call
#define TUNED_C(call) tuned_##call
#define NO_CODE(call) (void *)nothing
#define CODE(NAME) {NAME(make_copy), NAME(receive), NAME(delete), NAME(ask), NAME(share), NAME(sheet) AND_COUNT(NAME)}

static const volatile code TABLE[CODES] = {CODE(LIBRARY), CODE(PLAIN_C), CODE(TUNED_C), CODE(NO_CODE)};

uint32_t sheet[SHEET] __attribute__((aligned(64)));

static answer of_call(call_answer a) {
    answer r = {a.number, a.value, a.empty, {0}, 0};
    __builtin_memcpy(r.message, a.message, MESSAGE);
    return r;
}

static answer of_share(desk_share_answer a) { return (answer){a.number, 0, 0, {0}, a.share}; }

#ifdef IN_ORDER
#define NUMBERS_GIVEN , d->to_post, t->to_post_len, d->to_receive, t->to_receive_len
#else
#define NUMBERS_GIVEN
#endif
#define GIVEN t->sites, d->owners, t->pointers, d->send, t->send_len, d->receive, t->receive_len, d->pool, t->pool_len NUMBERS_GIVEN

answer made(int which, sample *s) {
    const volatile code *c = &TABLE[which];
    const desk *d = &s->now;
    const lengths *t = &d->told;
    question q = s->asked;
    switch (q.call) {
    case MAKE_COPY: return of_call(c->make_copy(GIVEN, q.a, q.b, q.pointer));
    case RECEIVE: return of_call(c->receive(GIVEN, q.slot));
    case DELETE: return of_call(c->delete(GIVEN, q.a, q.pointer));
    case ASK: return of_call(c->ask(GIVEN, q.a, q.pointer));
    case SHARE: return of_share(c->share(GIVEN, q.a, q.pointer));
#ifdef WORDS
    case COUNT_HOLDERS: return of_call(c->count(GIVEN, q.pointer));
#endif
    default: return (answer){c->sheet(GIVEN, q.pointer, sheet, t->sheet_len), 0, 0, {0}, 0};
    }
}
