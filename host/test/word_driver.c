/* Makes every call on words in its standard input through the library, and beside it the same call on the byte desk, and compares
 * the answers and all memory after. */
#include "pointer_desk.h"

#include "lent_lines.h"

enum { ON_WORDS, ON_BYTES };

/* What a line lends to one of the two desks; its cells are the words, or the bytes that mean the same. */
typedef struct {
    uint8_t sites;
    part owners, send, cells, pool;
} tables;

#define PART(p) t.p.now, t.p.len
#define LENT t.sites, PART(owners), PART(send), PART(cells), PART(pool)

/* The words stand before the pool and the bytes behind it; each desk passes over what is lent to the other. */
static tables lend_tables(int desk) {
    tables t;
    t.sites = (uint8_t)number();
    t.owners = lend(1);
    t.send = lend(2);
    if (desk == ON_WORDS) t.cells = lend(sizeof(uint64_t));
    else word();
    t.pool = lend(1);
    if (desk == ON_BYTES) t.cells = lend(1);
    else word();
    return t;
}

static int tables_hold(tables t, int desk) {
    int same = holds(t.owners);
    same &= holds(t.send);
    if (desk == ON_WORDS) same &= holds(t.cells);
    else word();
    same &= holds(t.pool);
    if (desk == ON_BYTES) same &= holds(t.cells);
    else word();
    return same;
}

static void tables_back(tables t) { give_back(t.owners), give_back(t.send), give_back(t.cells), give_back(t.pool); }

static int is_answer(desk_answer a) { return IS_ANSWER(a); }

/* The calls that both desks have, on one of them, made and compared but for the memory. */
#define CALLS_OF(desk_)                                                                            \
    static int desk_##sheet_call(tables t) {                                                       \
        uint8_t pointer = (uint8_t)number();                                                       \
        size_t len = strtoull(word(), NULL, 10);                                                   \
        uint32_t *sheet = lend_sheet(len);                                                         \
        past_question();                                                                           \
        uint8_t n = desk_##sheet(LENT, pointer, sheet, len);                                       \
        int same = n == number();                                                                  \
        same &= is_sheet(sheet, len);                                                              \
        free(sheet);                                                                               \
        return same;                                                                               \
    }                                                                                              \
    static int desk_##call(const char *name, tables t) {                                           \
        if (!strcmp(name, "words_sheet")) return desk_##sheet_call(t);                             \
        unsigned arg[3];                                                                           \
        arguments(arg);                                                                            \
        uint8_t a = (uint8_t)arg[0], b = (uint8_t)arg[1], c = (uint8_t)arg[2];                     \
        if (!strcmp(name, "words_open")) return is_answer(desk_##open(LENT));                      \
        if (!strcmp(name, "words_copy")) return is_answer(desk_##make_copy(LENT, a, b, c));        \
        if (!strcmp(name, "words_receive")) return is_answer(desk_##receive(LENT, (uint16_t)arg[0])); \
        if (!strcmp(name, "words_delete")) return is_answer(desk_##delete(LENT, a, b));            \
        if (!strcmp(name, "words_ask")) return is_answer(desk_##ask(LENT, a, b));                  \
        if (!strcmp(name, "words_share")) return is_share(desk_##share(LENT, a, b));               \
        stop("a call of no known name");                                                           \
        return 0;                                                                                  \
    }

CALLS_OF(desk_words_)
CALLS_OF(desk_)

static int count_call(tables t) {
    uint8_t pointer = (uint8_t)number();
    past_question();
    return is_answer(desk_words_count(LENT, pointer));
}

/* The word of a pointer by its bytes: site s at bit s. */
static uint64_t word_by_bytes(const uint8_t *cells, size_t sites, size_t pointers, size_t pointer) {
    uint64_t w = 0;
    for (size_t s = 0; s < sites; s++) w |= (uint64_t)(cells[s * pointers + pointer] == 1) << s;
    return w;
}

/* Whether these words and bytes mean the same; their lengths are those of the tables. */
static int mean_same(tables w, const void *words_held, tables b, const void *bytes_held) {
    size_t pointers = w.owners.len, sites = w.sites;
    const uint64_t *of_words = words_held;
    const uint8_t *of_bytes = bytes_held;
    int same = sites <= 64 && w.cells.len == pointers && b.cells.len == sites * pointers;
    for (size_t p = 0; same && p < pointers; p++) same = of_words[p] == word_by_bytes(of_bytes, sites, pointers, p);
    for (size_t i = 0; same && i < b.cells.len; i++) same = of_bytes[i] <= 1;
    return same;
}

/* The same line on the byte desk: the same answer, and what both leave means the same. An opening may find any bytes. */
static int is_right_on_bytes(const char *name, tables w) {
    tables b = lend_tables(ON_BYTES);
    int meant = mean_same(w, w.cells.before, b, b.cells.before);
    int same = meant | !strcmp(name, "words_open");
    same &= desk_call(name, b);
    same &= tables_hold(b, ON_BYTES);
    if (meant) same &= mean_same(w, w.cells.now, b, b.cells.now);
    tables_back(b);
    return same;
}

static int table_line(const char *name) {
    int begin = next_word, counts = !strcmp(name, "words_count");
    tables w = lend_tables(ON_WORDS);
    int beside = !counts && strcmp(words[next_word - 1], "none");
    int same = counts ? count_call(w) : desk_words_call(name, w);
    same &= tables_hold(w, ON_WORDS);
    if (beside) {
        next_word = begin;
        same &= is_right_on_bytes(name, w);
    }
    tables_back(w);
    return same;
}

/* Pack and unpack: the part that is read, and the part that is written. */
static int pack_line(int unpacks) {
    uint8_t sites = (uint8_t)number();
    part from = lend(unpacks ? sizeof(uint64_t) : 1), to = lend(unpacks ? 1 : sizeof(uint64_t));
    past_question();
    uint8_t n = unpacks ? desk_words_unpack(sites, from.now, from.len, to.now, to.len)
                        : desk_words_pack(sites, from.now, from.len, to.now, to.len);
    int same = n == number();
    same &= holds(from);
    same &= holds(to);
    give_back(from), give_back(to);
    return same;
}

static int is_right(char *line) {
    split(line);
    const char *name = word();
    int packs = !strcmp(name, "words_pack"), unpacks = !strcmp(name, "words_unpack");
    int same = packs || unpacks ? pack_line(unpacks) : table_line(name);
    if (next_word != word_count) stop("a line with words left over");
    return same;
}
