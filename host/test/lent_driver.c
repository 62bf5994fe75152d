/* Makes every lent call of its standard input through the library, and compares the answer and all memory after. */
#include "pointer_desk.h"

#include "lent_lines.h"

static int is_answer(desk_answer a) { return IS_ANSWER(a); }

static int is_part(desk_part a) {
    int same = a.number == number();
    same &= a.at == strtoull(word(), NULL, 10);
    return same & (a.length == strtoull(word(), NULL, 10));
}

#define OWNERS owners.now, owners.len
#define LENT sites, OWNERS, send.now, send.len, receive.now, receive.len, pool.now, pool.len

static int sheet_call(uint8_t sites, part owners, part send, part receive, part pool) {
    uint8_t pointer = (uint8_t)number();
    size_t len = strtoull(word(), NULL, 10);
    uint32_t *sheet = lend_sheet(len);
    past_question();
    uint8_t n = desk_sheet(LENT, pointer, sheet, len);
    int same = n == number();
    same &= is_sheet(sheet, len);
    free(sheet);
    return same;
}

/* A call of the machine, made and compared but for the memory. */
static int machine_call(const char *name, uint8_t sites, part owners, part send, part receive, part pool) {
    if (!strcmp(name, "sheet")) return sheet_call(sites, owners, send, receive, pool);
    unsigned arg[3];
    arguments(arg);
    uint8_t a = (uint8_t)arg[0], b = (uint8_t)arg[1], c = (uint8_t)arg[2];
    if (!strcmp(name, "open")) return is_answer(desk_open(LENT));
    if (!strcmp(name, "copy")) return is_answer(desk_make_copy(LENT, a, b, c));
    if (!strcmp(name, "receive")) return is_answer(desk_receive(LENT, (uint16_t)arg[0]));
    if (!strcmp(name, "delete")) return is_answer(desk_delete(LENT, a, b));
    if (!strcmp(name, "ask")) return is_answer(desk_ask(LENT, a, b));
    if (!strcmp(name, "share")) return is_share(desk_share(LENT, a, b));
    stop("a call of no known name");
    return 0;
}

static int machine_line(const char *name) {
    uint8_t sites = (uint8_t)number();
    part owners = lend(1), send = lend(2), receive = lend(1), pool = lend(1);
    int same = machine_call(name, sites, owners, send, receive, pool);
    same &= holds(owners);
    same &= holds(send);
    same &= holds(receive);
    same &= holds(pool);
    give_back(owners), give_back(send), give_back(receive), give_back(pool);
    return same;
}

static int search_call(uint8_t sites, part owners, part book, part *address) {
    uint8_t owner = (uint8_t)number();
    *address = lend(1);
    past_question();
    return is_answer(desk_book_search(sites, OWNERS, book.now, book.len, owner, address->now, address->len));
}

static int address_call(uint8_t sites, part owners, part book) {
    uint8_t pointer = (uint8_t)number();
    past_question();
    return is_part(desk_book_address(sites, OWNERS, book.now, book.len, pointer));
}

static int check_call(uint8_t sites, part owners, part book) {
    past_question();
    return is_answer(desk_book_check(sites, OWNERS, book.now, book.len));
}

static int book_line(const char *name) {
    uint8_t sites = (uint8_t)number();
    part owners = lend(1), book = lend(1), address = {NULL, NULL, 0, 1};
    int search = !strcmp(name, "search"), same;
    if (search) same = search_call(sites, owners, book, &address);
    else if (!strcmp(name, "check")) same = check_call(sites, owners, book);
    else same = address_call(sites, owners, book);
    same &= holds(owners);
    same &= holds(book);
    if (search) same &= holds(address);
    give_back(owners), give_back(book), give_back(address);
    return same;
}

static int write_call(part text) {
    uint8_t code = (uint8_t)number(), a = (uint8_t)number(), b = (uint8_t)number(), c = (uint8_t)number();
    past_question();
    return is_answer(desk_line_write(code, a, b, c, text.now, text.len));
}

/* Whether a line as read is the next four words. */
static int is_line(desk_line a) {
    int same = a.number == number();
    same &= a.ended == number();
    const char *w = word();
    if (strlen(w) != 8) stop("a call of other than eight digits");
    for (int i = 0; i < 4; i++) same &= a.call[i] == number_at(w + 2 * i, 2);
    return same & (a.at == strtoull(word(), NULL, 10));
}

static int read_call(part text) {
    size_t at = strtoull(word(), NULL, 10);
    past_question();
    return is_line(desk_line_read(text.now, text.len, at));
}

static int text_line(const char *name) {
    part text = lend(1);
    int same = strcmp(name, "read") ? write_call(text) : read_call(text);
    same &= holds(text);
    give_back(text);
    return same;
}

/* One line: whether answer and memory are what it says. */
static int is_right(char *line) {
    split(line);
    const char *name = word();
    int of_book = !strcmp(name, "address") || !strcmp(name, "check") || !strcmp(name, "search");
    int of_text = !strcmp(name, "write") || !strcmp(name, "read");
    int same = of_text ? text_line(name) : of_book ? book_line(name) : machine_line(name);
    if (next_word != word_count) stop("a line with words left over");
    return same;
}
