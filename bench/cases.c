/* What is measured: for each call, random desks where it is answered as wanted. */
#include "desks.h"

static size_t place_of(const desk *d, unsigned site, unsigned pointer) { return site * d->told.pointers + pointer; }

static void hold(desk *d, unsigned site, unsigned pointer, unsigned held) { set_held(d->receive, d->told.pointers, site, pointer, held); }

static unsigned other_than(const desk *d, unsigned site) { return (site + 1 + pick(d->told.sites - 1u)) % d->told.sites; }

/* A site that is not the owner, and a pointer. */
static desk *name_other(sample *s, call c) {
    desk *d = &s->before;
    unsigned p = pick((unsigned)d->told.pointers);
    s->asked = (question){c, (uint8_t)other_than(d, d->owners[p]), 0, (uint8_t)p, 0};
    return d;
}

static void make_copy(sample *s) {
    desk *d = name_other(s, MAKE_COPY);
    s->asked.b = (uint8_t)other_than(d, s->asked.a);
    hold(d, s->asked.a, s->asked.pointer, 1);
}

static void make_copy_crowded(sample *s) {
    desk *d = &s->before;
    size_t last = d->told.pool_len / SLOT - 1;
    make_copy(s);
    for (size_t slot = 0; slot < last; slot++) fill_random(d, slot);
    fill_slot(d, last, EMPTY, 0, 0, 0, 0);
}

/* A word of 64 sites has no bad bit: there the first owner is bad. */
static void first_cell_bad(sample *s) {
    make_copy(s);
    if (ON_WORDS) s->before.owners[0] = s->before.told.sites;
    else s->before.receive[0] = 2;
}

static void last_slot_bad(sample *s) {
    make_copy(s);
    fill_slot(&s->before, s->before.told.pool_len / SLOT - 1, EMPTY, 0, 0, 0, 1);
}

/* A full slot to receive, and a pointer for it. */
static desk *take_slot(sample *s) {
    desk *d = &s->before;
    unsigned slots = (unsigned)d->told.pool_len / SLOT, slot = pick(slots);
    while (d->pool[slot * SLOT] == EMPTY) slot = pick(slots);
    s->asked = (question){RECEIVE, 0, 0, (uint8_t)pick((unsigned)d->told.pointers), (uint16_t)slot};
    return d;
}

/* A COPY from the owner, or from another site, to a site whose cell is set or not. */
static void receive_copy(sample *s, int from_owner, unsigned set) {
    desk *d = take_slot(s);
    unsigned p = s->asked.pointer, owner = d->owners[p], from = from_owner ? owner : other_than(d, owner), to = other_than(d, from);
    fill_slot(d, s->asked.slot, COPY, from, to, 0, p);
    hold(d, to, p, set);
}

static void receive_copy_none(sample *s) { receive_copy(s, 1, 0); }
static void receive_copy_inc_dec(sample *s) { receive_copy(s, 0, 0); }
static void receive_copy_dec(sample *s) { receive_copy(s, 0, 1); }

/* A DEC to the owner that no INC_DEC holds back. */
static void receive_dec(sample *s) {
    desk *d = take_slot(s);
    unsigned p = s->asked.pointer, owner = d->owners[p], from = other_than(d, owner);
    for (size_t slot = 0; slot < d->told.pool_len / SLOT; slot++) {
        const uint8_t *m = d->pool + slot * SLOT;
        if (m[0] == INC_DEC && m[1] == from && m[2] == owner && m[4] == p) fill_slot(d, slot, COPY, from, owner, 0, p);
    }
    fill_slot(d, s->asked.slot, DEC, from, owner, 0, p);
    d->send[place_of(d, owner, p)] = 7;
}

static void receive_inc_dec(sample *s) {
    desk *d = take_slot(s);
    unsigned p = s->asked.pointer, owner = d->owners[p], from = other_than(d, owner);
    fill_slot(d, s->asked.slot, INC_DEC, from, owner, other_than(d, from), p);
}

static void delete_held(sample *s) {
    desk *d = name_other(s, DELETE);
    hold(d, s->asked.a, s->asked.pointer, 1);
    d->send[place_of(d, s->asked.a, s->asked.pointer)] = 0;
}

static void ask_owner(sample *s) {
    desk *d = name_other(s, ASK);
    s->asked.a = d->owners[s->asked.pointer];
}

static void share_of_other(sample *s) { name_other(s, SHARE); }
static void sheet_of_pointer(sample *s) { name_other(s, WHOLE_SHEET); }
#ifdef WORDS
static void count_of_pointer(sample *s) { name_other(s, COUNT_HOLDERS); }
#endif

const measured CASES[] = {
    {"make copy", 0, make_copy},
    {"receive COPY, none posted", 0, receive_copy_none},
    {"receive COPY, INC_DEC posted", 0, receive_copy_inc_dec},
    {"receive COPY, DEC posted", 0, receive_copy_dec},
    {"receive DEC", 0, receive_dec},
    {"receive INC_DEC", 0, receive_inc_dec},
    {"delete", 0, delete_held},
    {"ask", 0, ask_owner},
    {"share", 0, share_of_other},
    {"sheet", 0, sheet_of_pointer},
    {"make copy, one slot empty", 0, make_copy_crowded},
    {ON_WORDS ? "refused, first owner bad" : "refused, first cell bad", BAD_TABLE, first_cell_bad},
    {"refused, last slot bad", BAD_TABLE, last_slot_bad},
#ifdef WORDS
    {"count of holders", 0, count_of_pointer},
#endif
};
const size_t CASE_COUNT = sizeof CASES / sizeof *CASES;
