/* Random desks from a fixed seed. */
#include "desks.h"

static uint64_t state = 0x9e3779b97f4a7c15u;

unsigned pick(unsigned n) {
    state ^= state << 13;
    state ^= state >> 7;
    state ^= state << 17;
    return (unsigned)((state >> 33) % n);
}

/* The next part of a block. */
static void *part(desk *d, size_t bytes) {
    void *at = d->block + d->block_len;
    d->block_len += (bytes + 15) / 16 * 16;
    return at;
}

/* The pairs of sites that have numbers. */
static size_t pairs(const size *z) { return NUMBERED ? z->sites * z->sites : 0; }

static void place_desk(desk *d, uint8_t *block, const size *z) {
    size_t cells = z->sites * z->pointers;
    d->block = block;
    d->block_len = 0;
    d->send = part(d, cells * sizeof *d->send);
    d->receive = part(d, holders_due(z->sites, z->pointers) * sizeof *d->receive);
    d->owners = part(d, z->pointers);
    d->pool = part(d, z->slots * SLOT);
    d->to_post = part(d, pairs(z) * sizeof *d->to_post);
    d->to_receive = part(d, pairs(z) * sizeof *d->to_receive);
}

void place_sample(sample *s, size_t i, const size *z) {
    static uint8_t room[2 << 20] __attribute__((aligned(64)));
    place_desk(&s->before, room, z);
    size_t each = s->before.block_len;
    place_desk(&s->before, room + 2 * i * each, z);
    place_desk(&s->now, room + (2 * i + 1) * each, z);
}

void restore(sample *s) {
    s->now.told = s->before.told;
    __builtin_memcpy(s->now.block, s->before.block, s->before.block_len);
}

void fill_slot(desk *d, size_t slot, unsigned kind, unsigned from, unsigned to, unsigned third, unsigned pointer) {
    const unsigned number = NUMBERED && kind != EMPTY ? pick(65536) : 0, bytes[] = {kind, from, to, third, pointer, number >> 8, number};
    for (size_t i = 0; i < SLOT; i++) d->pool[slot * SLOT + i] = (uint8_t)bytes[i];
    if (NUMBERED && kind != EMPTY) d->to_receive[from * d->told.sites + to] = (uint16_t)number;
}

void fill_random(desk *d, size_t slot) {
    unsigned sites = d->told.sites, kind = COPY + pick(3), from = pick(sites), to = pick(sites);
    fill_slot(d, slot, kind, from, to, kind == INC_DEC ? pick(sites) : 0, pick((unsigned)d->told.pointers));
}

void fill_desk(desk *d, const size *z) {
    size_t cells = z->sites * z->pointers, left = z->slots / 2;
    d->told = (lengths){(uint8_t)z->sites, z->pointers, cells, holders_due(z->sites, z->pointers), z->slots * SLOT, SHEET, pairs(z), pairs(z)};
    __builtin_memset(d->block, 0, d->block_len);
    for (size_t p = 0; p < z->pointers; p++) d->owners[p] = (uint8_t)pick(d->told.sites);
    for (size_t i = 0; i < cells; i++) {
        d->send[i] = (uint16_t)(pick(2) * (1 + pick(9)));
        set_held(d->receive, z->pointers, i / z->pointers, i % z->pointers, pick(2));
    }
    for (size_t i = 0; i < pairs(z); i++) {
        d->to_post[i] = (uint16_t)pick(65536);
        d->to_receive[i] = (uint16_t)pick(65536);
    }
    for (size_t slot = 0; slot < z->slots; slot++)
        if (pick((unsigned)(z->slots - slot)) < left) {
            fill_random(d, slot);
            left--;
        }
}

/* A byte that is neither 0 nor 1, or a bit at or above S, where a word has one. */
static void damage_holders(desk *d) {
    unsigned len = (unsigned)d->told.receive_len, sites = d->told.sites;
    if (!ON_WORDS) d->receive[pick(len)] = (uint8_t)(2 + pick(254));
    else if (sites < MOST_SITES) d->receive[pick(len)] |= (holders)((uint64_t)1 << (sites + pick(MOST_SITES - sites)));
}

/* One place of what is lent breaks document 01, or stands at an edge. */
static void damage(desk *d) {
    lengths *t = &d->told;
    unsigned at = pick((unsigned)t->pool_len), slots = (unsigned)t->pool_len / SLOT;
    switch (pick(NUMBERED ? 14 : 12)) {
    case 0: t->sites = (uint8_t)(pick(2) ? 0 : 65 + pick(191)); break;
    case 1: t->send_len--; break;
    case 2: t->receive_len--; break;
    case 3: t->pool_len -= 1 + pick(4); break;
    case 4: d->owners[pick((unsigned)t->pointers)] = (uint8_t)(t->sites + pick(256u - t->sites)); break;
    case 5: damage_holders(d); break;
    case 6: d->pool[at] = (uint8_t)pick(256); break;
    case 7: d->pool[at] = (uint8_t)(1 + pick(5)); break;
    case 8: for (size_t i = 0; i < t->send_len; i++) d->send[i] = pick(2) ? 65535 : 0; break;
    case 9: for (size_t i = 0; i < slots; i++) fill_random(d, i); break;
    case 10: t->pool_len = pick(slots) * SLOT; break;
    case 12: t->to_post_len--; break;
    case 13: t->to_receive_len--; break;
    default: t->sheet_len = pick(SHEET); break;
    }
}

void any_call(sample *s, call c, const size *z) {
    unsigned over = pick(8) ? 0 : 3, sites = (unsigned)z->sites + over;
    fill_desk(&s->before, z);
    s->asked = (question){c, (uint8_t)pick(sites), (uint8_t)pick(sites), (uint8_t)pick((unsigned)z->pointers + over), (uint16_t)pick((unsigned)z->slots + over)};
    if (pick(2)) damage(&s->before);
}
