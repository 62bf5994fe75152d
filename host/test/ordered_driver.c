/* Makes every call of the in-order variant in its standard input through the library, and compares answer and all memory after. */
#include "pointer_desk.h"

#include "lent_lines.h"

/* All that is lent: the base's tables, and the next numbers to post and to receive. */
typedef struct {
    uint8_t sites;
    part owners, send, receive, pool, to_post, to_receive;
} tables;

#define PART(p) t.p.now, t.p.len
#define LENT t.sites, PART(owners), PART(send), PART(receive), PART(pool), PART(to_post), PART(to_receive)

static tables lend_tables(void) {
    tables t;
    t.sites = (uint8_t)number();
    t.owners = lend(1);
    t.send = lend(2);
    t.receive = lend(1);
    t.pool = lend(1);
    t.to_post = lend(2);
    t.to_receive = lend(2);
    return t;
}

static int tables_hold(tables t) {
    int same = holds(t.owners);
    same &= holds(t.send);
    same &= holds(t.receive);
    same &= holds(t.pool);
    same &= holds(t.to_post);
    return same & holds(t.to_receive);
}

static void tables_back(tables t) {
    give_back(t.owners), give_back(t.send), give_back(t.receive);
    give_back(t.pool), give_back(t.to_post), give_back(t.to_receive);
}

static int is_answer(desk_ordered_answer a) { return IS_ANSWER(a); }

static int sheet_call(tables t) {
    uint8_t pointer = (uint8_t)number();
    size_t len = strtoull(word(), NULL, 10);
    uint32_t *sheet = lend_sheet(len);
    past_question();
    uint8_t n = desk_ordered_sheet(LENT, pointer, sheet, len);
    int same = n == number();
    same &= is_sheet(sheet, len);
    free(sheet);
    return same;
}

/* A call, made and compared but for the memory. */
static int ordered_call(const char *name, tables t) {
    if (!strcmp(name, "ordered_sheet")) return sheet_call(t);
    unsigned arg[3];
    arguments(arg);
    uint8_t a = (uint8_t)arg[0], b = (uint8_t)arg[1], c = (uint8_t)arg[2];
    if (!strcmp(name, "ordered_open")) return is_answer(desk_ordered_open(LENT));
    if (!strcmp(name, "ordered_copy")) return is_answer(desk_ordered_make_copy(LENT, a, b, c));
    if (!strcmp(name, "ordered_receive")) return is_answer(desk_ordered_receive(LENT, (uint16_t)arg[0]));
    if (!strcmp(name, "ordered_delete")) return is_answer(desk_ordered_delete(LENT, a, b));
    if (!strcmp(name, "ordered_ask")) return is_answer(desk_ordered_ask(LENT, a, b));
    if (!strcmp(name, "ordered_share")) return is_share(desk_ordered_share(LENT, a, b));
    stop("a call of no known name");
    return 0;
}

static int is_right(char *line) {
    split(line);
    const char *name = word();
    tables t = lend_tables();
    int same = ordered_call(name, t);
    same &= tables_hold(t);
    tables_back(t);
    if (next_word != word_count) stop("a line with words left over");
    return same;
}
