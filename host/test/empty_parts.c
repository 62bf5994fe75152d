/* Null pointers with length 0 for every part of every call; the numbers are those of document 01. */
#include <stdio.h>
#include <string.h>

#include "pointer_desk.h"

static int passed, failed;

/* Good tables: S = 2, one pointer of owner 0, which site 1 holds; one empty slot; a book of one entry. */
static const uint8_t owners[1] = {0}, book[3] = {2, 'A', 'B'};
static uint16_t send[2];
static uint8_t receive[2], pool[5];
static uint32_t sheet[DESK_SHEET_COUNTS];

/* The same in order: one empty slot, and the numbers of four pairs. */
static uint8_t numbered[DESK_ORDERED_SLOT_BYTES];
static uint16_t to_post[4], to_receive[4];

/* On words: the word of that pointer. */
static uint64_t words[1];

static void set_tables(void) {
    memset(send, 0, sizeof send);
    memset(pool, 0, sizeof pool);
    memset(numbered, 0, sizeof numbered);
    memset(to_post, 0x11, sizeof to_post);
    memset(to_receive, 0x22, sizeof to_receive);
    receive[0] = receive[1] = 1;
    words[0] = 3;
    memset(sheet, 0xA5, sizeof sheet);
}

static int tables_kept(void) {
    static const uint8_t none[5] = {0};
    return !send[0] && !send[1] && receive[0] == 1 && receive[1] == 1 && words[0] == 3 && !memcmp(pool, none, 5);
}

static int numbers_kept(void) {
    static const uint8_t none[DESK_ORDERED_SLOT_BYTES] = {0};
    int same = !memcmp(numbered, none, sizeof none);
    for (int pair = 0; pair < 4; pair++) same &= to_post[pair] == 0x1111 && to_receive[pair] == 0x2222;
    return same;
}

static int sheet_is(uint32_t count) {
    for (size_t i = 0; i < DESK_SHEET_COUNTS; i++) {
        if (sheet[i] != count) return 0;
    }
    return 1;
}

static void expect(const char *what, int right) {
    passed += right != 0;
    failed += right == 0;
    if (!right) printf("FAILED: %s\n", what);
    set_tables();
}

/* Whether an answer, of any desk, has this number and value, tells no empty slots and has no message. */
static int fields_are(unsigned n, unsigned value, unsigned empty, const uint8_t *message, unsigned number, unsigned wanted) {
    static const uint8_t none[5] = {0};
    return n == number && value == wanted && empty == 0 && !memcmp(message, none, 5);
}

static int is(desk_answer a, unsigned number, unsigned value) {
    return fields_are(a.number, a.value, a.empty, a.message, number, value);
}

static int is_ordered(desk_ordered_answer a, unsigned number, unsigned value) {
    return fields_are(a.number, a.value, a.empty, a.message, number, value);
}

#define OWNERS owners, 1
#define SEND send, 2
#define RECEIVE receive, 2
#define WORDS words, 1
#define POOL pool, 5
#define BOOK book, 3
#define NO NULL, 0
#define ALL_NO NO, NO, NO, NO
#define REFUSED(call, number) expect(#call " gives " #number, is(call, number, 0) && tables_kept())
#define ACCEPTED(call, value) expect(#call " is accepted with " #value, is(call, 0, value))

#define NUMBERED numbered, sizeof numbered
#define TO_POST to_post, 4
#define TO_RECEIVE to_receive, 4
#define REFUSED_IN_ORDER(call, number) expect(#call " gives " #number, is_ordered(call, number, 0) && tables_kept() && numbers_kept())
#define ACCEPTED_IN_ORDER(call, value) expect(#call " is accepted with " #value, is_ordered(call, 0, value))

/* With every part null, G is 0 and there is no slot: an opening is good, and every name is too large. */
static void all_parts(void) {
    ACCEPTED(desk_open(1, ALL_NO), 0);
    ACCEPTED(desk_open(64, ALL_NO), 0);
    REFUSED(desk_open(0, ALL_NO), DESK_BAD_SHAPE);
    REFUSED(desk_open(65, ALL_NO), DESK_BAD_SHAPE);
    REFUSED(desk_make_copy(2, ALL_NO, 0, 1, 0), DESK_BAD_NAME);
    REFUSED(desk_receive(2, ALL_NO, 0), DESK_BAD_NAME);
    REFUSED(desk_delete(2, ALL_NO, 1, 0), DESK_BAD_NAME);
    REFUSED(desk_ask(2, ALL_NO, 0, 0), DESK_BAD_NAME);
    desk_share_answer a = desk_share(2, ALL_NO, 1, 0);
    expect("share of no pointer", a.number == DESK_BAD_NAME && a.share == 0);
    expect("sheet of no pointer", desk_sheet(2, ALL_NO, 0, sheet, DESK_SHEET_COUNTS) == DESK_BAD_NAME && sheet_is(0));
    expect("sheet that is null", desk_sheet(2, ALL_NO, 0, NO) == DESK_BAD_SHAPE);
    REFUSED(desk_make_copy(0, ALL_NO, 0, 1, 0), DESK_BAD_SHAPE);
}

/* One part null among good ones: its length is then no longer S x G. */
#define ONE_PART(call, ...)                                                       \
    REFUSED(call(2, NO, SEND, RECEIVE, POOL __VA_ARGS__), DESK_BAD_SHAPE);    \
    REFUSED(call(2, OWNERS, NO, RECEIVE, POOL __VA_ARGS__), DESK_BAD_SHAPE);  \
    REFUSED(call(2, OWNERS, SEND, NO, POOL __VA_ARGS__), DESK_BAD_SHAPE)

#define COMMA ,

static void one_part(void) {
    ONE_PART(desk_open, );
    ONE_PART(desk_make_copy, COMMA 0, 1, 0);
    ONE_PART(desk_receive, COMMA 0);
    ONE_PART(desk_delete, COMMA 1, 0);
    ONE_PART(desk_ask, COMMA 0, 0);
    expect("share, owners null", desk_share(2, NO, SEND, RECEIVE, POOL, 1, 0).number == DESK_BAD_SHAPE);
    expect("share, send null", desk_share(2, OWNERS, NO, RECEIVE, POOL, 1, 0).number == DESK_BAD_SHAPE);
    expect("share, receive null", desk_share(2, OWNERS, SEND, NO, POOL, 1, 0).number == DESK_BAD_SHAPE);
}

static void one_part_of_a_sheet(void) {
    const size_t all = DESK_SHEET_COUNTS;
    expect("sheet, owners null", desk_sheet(2, NO, SEND, RECEIVE, POOL, 0, sheet, all) == DESK_BAD_SHAPE && sheet_is(0));
    expect("sheet, send null", desk_sheet(2, OWNERS, NO, RECEIVE, POOL, 0, sheet, all) == DESK_BAD_SHAPE && sheet_is(0));
    expect("sheet, receive null", desk_sheet(2, OWNERS, SEND, NO, POOL, 0, sheet, all) == DESK_BAD_SHAPE && sheet_is(0));
    expect("sheet itself null", desk_sheet(2, OWNERS, SEND, RECEIVE, POOL, 0, NO) == DESK_BAD_SHAPE);
    expect("sheet, pool null", desk_sheet(2, OWNERS, SEND, RECEIVE, NO, 0, sheet, all) == DESK_ACCEPTED && sheet_is(0));
}

/* A pool of 0 slots is good: nothing can be posted, and there is no slot to receive. */
static void no_pool(void) {
    REFUSED(desk_make_copy(2, OWNERS, SEND, RECEIVE, NO, 0, 1, 0), DESK_POOL_FULL);
    REFUSED(desk_receive(2, OWNERS, SEND, RECEIVE, NO, 0), DESK_BAD_NAME);
    REFUSED(desk_delete(2, OWNERS, SEND, RECEIVE, NO, 1, 0), DESK_POOL_FULL);
    REFUSED(desk_delete(2, OWNERS, SEND, RECEIVE, NO, 0, 0), DESK_IS_OWNER);
    ACCEPTED(desk_ask(2, OWNERS, SEND, RECEIVE, NO, 0, 0), 1);
    REFUSED(desk_ask(2, OWNERS, SEND, RECEIVE, NO, 1, 0), DESK_NOT_OWNER);
    desk_share_answer a = desk_share(2, OWNERS, SEND, RECEIVE, NO, 1, 0);
    expect("share without a pool is the cell", a.number == 0 && a.share == 1);
    send[0] = 7;
    desk_answer opened = desk_open(2, OWNERS, SEND, RECEIVE, NO);
    expect("an opening without a pool", is(opened, 0, 0) && !send[0] && receive[0] == 1 && receive[1] == 0);
}

/* In order, with every part null: there are S x S numbers of a pair wherever there is a site. */
static void all_parts_in_order(void) {
    REFUSED_IN_ORDER(desk_ordered_open(0, ALL_NO, NO, NO), DESK_BAD_SHAPE);
    REFUSED_IN_ORDER(desk_ordered_open(2, ALL_NO, NO, NO), DESK_BAD_SHAPE);
    REFUSED_IN_ORDER(desk_ordered_make_copy(2, ALL_NO, NO, NO, 0, 1, 0), DESK_BAD_SHAPE);
    REFUSED_IN_ORDER(desk_ordered_receive(2, ALL_NO, NO, NO, 0), DESK_BAD_SHAPE);
    REFUSED_IN_ORDER(desk_ordered_delete(2, ALL_NO, NO, NO, 1, 0), DESK_BAD_SHAPE);
    REFUSED_IN_ORDER(desk_ordered_ask(2, ALL_NO, NO, NO, 0, 0), DESK_BAD_SHAPE);
    desk_share_answer a = desk_ordered_share(2, ALL_NO, NO, NO, 1, 0);
    expect("in order, share of nothing", a.number == DESK_BAD_SHAPE && a.share == 0);
    const size_t all = DESK_SHEET_COUNTS;
    expect("in order, sheet of nothing", desk_ordered_sheet(2, ALL_NO, NO, NO, 0, sheet, all) == DESK_BAD_SHAPE && sheet_is(0));
    expect("in order, sheet that is null", desk_ordered_sheet(2, ALL_NO, NO, NO, 0, NO) == DESK_BAD_SHAPE);
}

/* In order, every part null but the numbers: an opening is good, and every name is too large. */
static void all_parts_but_numbers(void) {
    desk_ordered_answer opened = desk_ordered_open(2, ALL_NO, TO_POST, TO_RECEIVE);
    static const uint16_t none[4] = {0};
    expect("in order, an opening of numbers alone", is_ordered(opened, 0, 0) && !memcmp(to_post, none, 8) && !memcmp(to_receive, none, 8));
    REFUSED_IN_ORDER(desk_ordered_make_copy(2, ALL_NO, TO_POST, TO_RECEIVE, 0, 1, 0), DESK_BAD_NAME);
    REFUSED_IN_ORDER(desk_ordered_receive(2, ALL_NO, TO_POST, TO_RECEIVE, 0), DESK_BAD_NAME);
    REFUSED_IN_ORDER(desk_ordered_delete(2, ALL_NO, TO_POST, TO_RECEIVE, 1, 0), DESK_BAD_NAME);
    REFUSED_IN_ORDER(desk_ordered_ask(2, ALL_NO, TO_POST, TO_RECEIVE, 0, 0), DESK_BAD_NAME);
    expect("in order, share of no pointer", desk_ordered_share(2, ALL_NO, TO_POST, TO_RECEIVE, 1, 0).number == DESK_BAD_NAME);
    uint8_t n = desk_ordered_sheet(2, ALL_NO, TO_POST, TO_RECEIVE, 0, sheet, DESK_SHEET_COUNTS);
    expect("in order, sheet of no pointer", n == DESK_BAD_NAME && sheet_is(0));
}

/* In order, one part null among good ones. ASKED: what is expected of a call and its number. */
#define ONE_PART_IN_ORDER(ASKED, call, ...)                                                            \
    ASKED(call(2, NO, SEND, RECEIVE, NUMBERED, TO_POST, TO_RECEIVE __VA_ARGS__), DESK_BAD_SHAPE);      \
    ASKED(call(2, OWNERS, NO, RECEIVE, NUMBERED, TO_POST, TO_RECEIVE __VA_ARGS__), DESK_BAD_SHAPE);    \
    ASKED(call(2, OWNERS, SEND, NO, NUMBERED, TO_POST, TO_RECEIVE __VA_ARGS__), DESK_BAD_SHAPE);       \
    ASKED(call(2, OWNERS, SEND, RECEIVE, NUMBERED, NO, TO_RECEIVE __VA_ARGS__), DESK_BAD_SHAPE);       \
    ASKED(call(2, OWNERS, SEND, RECEIVE, NUMBERED, TO_POST, NO __VA_ARGS__), DESK_BAD_SHAPE)
#define SHARE_REFUSED(call, wanted) expect(#call " gives " #wanted, call.number == wanted)
#define SHEET_REFUSED(call, wanted) expect(#call " gives " #wanted, call == wanted && sheet_is(0))

static void one_part_in_order(void) {
    ONE_PART_IN_ORDER(REFUSED_IN_ORDER, desk_ordered_open, );
    ONE_PART_IN_ORDER(REFUSED_IN_ORDER, desk_ordered_make_copy, COMMA 0, 1, 0);
    ONE_PART_IN_ORDER(REFUSED_IN_ORDER, desk_ordered_receive, COMMA 0);
    ONE_PART_IN_ORDER(REFUSED_IN_ORDER, desk_ordered_delete, COMMA 1, 0);
    ONE_PART_IN_ORDER(REFUSED_IN_ORDER, desk_ordered_ask, COMMA 0, 0);
    ONE_PART_IN_ORDER(SHARE_REFUSED, desk_ordered_share, COMMA 1, 0);
    ONE_PART_IN_ORDER(SHEET_REFUSED, desk_ordered_sheet, COMMA 0, sheet, DESK_SHEET_COUNTS);
}

/* In order, a pool of 0 slots. */
#define NO_POOL 2, OWNERS, SEND, RECEIVE, NO, TO_POST, TO_RECEIVE

static void no_pool_in_order(void) {
    REFUSED_IN_ORDER(desk_ordered_make_copy(NO_POOL, 0, 1, 0), DESK_POOL_FULL);
    REFUSED_IN_ORDER(desk_ordered_receive(NO_POOL, 0), DESK_BAD_NAME);
    REFUSED_IN_ORDER(desk_ordered_delete(NO_POOL, 1, 0), DESK_POOL_FULL);
    ACCEPTED_IN_ORDER(desk_ordered_ask(NO_POOL, 0, 0), 1);
    desk_share_answer a = desk_ordered_share(NO_POOL, 1, 0);
    expect("in order, share without a pool is the cell", a.number == 0 && a.share == 1);
    expect("in order, sheet without a pool", desk_ordered_sheet(NO_POOL, 0, sheet, DESK_SHEET_COUNTS) == 0 && sheet_is(0));
    send[0] = 7;
    desk_ordered_answer opened = desk_ordered_open(NO_POOL);
    expect("in order, an opening without a pool", is_ordered(opened, 0, 0) && !send[0] && !receive[1] && !to_post[1] && !to_receive[3]);
}

/* On words, with every part null: as the desk of document 01. */
static void all_parts_in_words(void) {
    ACCEPTED(desk_words_open(1, ALL_NO), 0);
    ACCEPTED(desk_words_open(64, ALL_NO), 0);
    REFUSED(desk_words_open(0, ALL_NO), DESK_BAD_SHAPE);
    REFUSED(desk_words_open(65, ALL_NO), DESK_BAD_SHAPE);
    REFUSED(desk_words_make_copy(2, ALL_NO, 0, 1, 0), DESK_BAD_NAME);
    REFUSED(desk_words_receive(2, ALL_NO, 0), DESK_BAD_NAME);
    REFUSED(desk_words_delete(2, ALL_NO, 1, 0), DESK_BAD_NAME);
    REFUSED(desk_words_ask(2, ALL_NO, 0, 0), DESK_BAD_NAME);
    REFUSED(desk_words_count(2, ALL_NO, 0), DESK_BAD_NAME);
    desk_share_answer a = desk_words_share(2, ALL_NO, 1, 0);
    expect("on words, share of no pointer", a.number == DESK_BAD_NAME && a.share == 0);
    expect("on words, sheet of no pointer", desk_words_sheet(2, ALL_NO, 0, sheet, DESK_SHEET_COUNTS) == DESK_BAD_NAME && sheet_is(0));
    expect("on words, sheet that is null", desk_words_sheet(2, ALL_NO, 0, NO) == DESK_BAD_SHAPE);
}

/* On words, one part null among good ones. ASKED: what is expected of a call and its number. */
#define ONE_PART_IN_WORDS(ASKED, call, ...)                                        \
    ASKED(call(2, NO, SEND, WORDS, POOL __VA_ARGS__), DESK_BAD_SHAPE);             \
    ASKED(call(2, OWNERS, NO, WORDS, POOL __VA_ARGS__), DESK_BAD_SHAPE);           \
    ASKED(call(2, OWNERS, SEND, NO, POOL __VA_ARGS__), DESK_BAD_SHAPE)

static void one_part_in_words(void) {
    ONE_PART_IN_WORDS(REFUSED, desk_words_open, );
    ONE_PART_IN_WORDS(REFUSED, desk_words_make_copy, COMMA 0, 1, 0);
    ONE_PART_IN_WORDS(REFUSED, desk_words_receive, COMMA 0);
    ONE_PART_IN_WORDS(REFUSED, desk_words_delete, COMMA 1, 0);
    ONE_PART_IN_WORDS(REFUSED, desk_words_ask, COMMA 0, 0);
    ONE_PART_IN_WORDS(REFUSED, desk_words_count, COMMA 0);
    ONE_PART_IN_WORDS(SHARE_REFUSED, desk_words_share, COMMA 1, 0);
    ONE_PART_IN_WORDS(SHEET_REFUSED, desk_words_sheet, COMMA 0, sheet, DESK_SHEET_COUNTS);
}

/* On words, a pool of 0 slots. */
#define WORDS_WITHOUT_POOL 2, OWNERS, SEND, WORDS, NO

static void no_pool_in_words(void) {
    REFUSED(desk_words_make_copy(WORDS_WITHOUT_POOL, 0, 1, 0), DESK_POOL_FULL);
    REFUSED(desk_words_receive(WORDS_WITHOUT_POOL, 0), DESK_BAD_NAME);
    REFUSED(desk_words_delete(WORDS_WITHOUT_POOL, 1, 0), DESK_POOL_FULL);
    ACCEPTED(desk_words_ask(WORDS_WITHOUT_POOL, 0, 0), 1);
    ACCEPTED(desk_words_count(WORDS_WITHOUT_POOL, 0), 2);
    desk_share_answer a = desk_words_share(WORDS_WITHOUT_POOL, 1, 0);
    expect("on words, share without a pool is the bit", a.number == 0 && a.share == 1);
    expect("on words, sheet without a pool", desk_words_sheet(WORDS_WITHOUT_POOL, 0, sheet, DESK_SHEET_COUNTS) == 0 && sheet_is(0));
    send[0] = 7;
    desk_answer opened = desk_words_open(WORDS_WITHOUT_POOL);
    expect("on words, an opening without a pool", is(opened, 0, 0) && !send[0] && words[0] == 1);
}

/* Receive bytes and words, where one of them or both are null. */
#define CONVERTED(call, number) expect(#call " gives " #number, call == number && tables_kept())

static void packs(void) {
    CONVERTED(desk_words_pack(1, NO, NO), DESK_ACCEPTED);
    CONVERTED(desk_words_pack(64, NO, NO), DESK_ACCEPTED);
    CONVERTED(desk_words_pack(0, NO, NO), DESK_BAD_SHAPE);
    CONVERTED(desk_words_pack(65, NO, NO), DESK_BAD_SHAPE);
    CONVERTED(desk_words_pack(2, NO, WORDS), DESK_BAD_SHAPE);
    CONVERTED(desk_words_pack(2, RECEIVE, NO), DESK_BAD_SHAPE);
    CONVERTED(desk_words_unpack(1, NO, NO), DESK_ACCEPTED);
    CONVERTED(desk_words_unpack(64, NO, NO), DESK_ACCEPTED);
    CONVERTED(desk_words_unpack(0, NO, NO), DESK_BAD_SHAPE);
    CONVERTED(desk_words_unpack(65, NO, NO), DESK_BAD_SHAPE);
    CONVERTED(desk_words_unpack(2, WORDS, NO), DESK_BAD_SHAPE);
    CONVERTED(desk_words_unpack(2, NO, RECEIVE), DESK_BAD_SHAPE);
}

static int no_part(desk_part p, unsigned number) { return p.number == number && p.at == 0 && p.length == 0; }

static void books(void) {
    expect("address, all null", no_part(desk_book_address(1, NO, NO, 0), DESK_BAD_NAME));
    expect("address, book null", no_part(desk_book_address(1, OWNERS, NO, 0), DESK_BAD_BOOK));
    expect("address, owners null", no_part(desk_book_address(1, NO, BOOK, 0), DESK_BAD_BOOK));
    expect("address, all null, no site", no_part(desk_book_address(0, NO, NO, 0), DESK_BAD_SHAPE));
    ACCEPTED(desk_book_check(1, NO, NO), 0);
    REFUSED(desk_book_check(1, OWNERS, NO), DESK_BAD_BOOK);
    REFUSED(desk_book_check(1, NO, BOOK), DESK_BAD_BOOK);
    REFUSED(desk_book_check(0, NO, NO), DESK_BAD_SHAPE);
    REFUSED(desk_book_search(1, NO, NO, 0, NO), DESK_NOT_LISTED);
    REFUSED(desk_book_search(1, NO, NO, 1, NO), DESK_BAD_NAME);
    REFUSED(desk_book_search(1, OWNERS, NO, 0, book + 1, 2), DESK_BAD_BOOK);
    REFUSED(desk_book_search(1, NO, BOOK, 0, book + 1, 2), DESK_BAD_BOOK);
    REFUSED(desk_book_search(1, OWNERS, BOOK, 0, NO), DESK_NOT_LISTED);
    ACCEPTED(desk_book_search(1, OWNERS, BOOK, 0, book + 1, 2), 0);
}

static void lines(void) {
    REFUSED(desk_line_write(1, 0, 1, 0, NO), DESK_BAD_SHAPE);
    REFUSED(desk_line_write(0, 0, 1, 0, NO), DESK_UNKNOWN_CODE);
    desk_line at_start = desk_line_read(NO, 0), later = desk_line_read(NO, 7);
    expect("the reader of no text has ended", at_start.ended == 1 && at_start.number == 0 && at_start.at == 0);
    expect("and stays where it stands", later.ended == 1 && later.number == 0 && later.at == 7);
}

static void runs(void) {
    static uint8_t output[DESK_RUN_ROOM];
    expect("a run of nothing", desk_run(NO, output, sizeof output) == 0 && !output[0]);
    expect("a run of nothing, to nothing", desk_run(NO, NO) == 0);
    expect("a run to nothing", desk_run((const uint8_t *)"030004\n", 7, NO) == 0);
}

int main(void) {
    set_tables();
    all_parts();
    one_part();
    one_part_of_a_sheet();
    no_pool();
    all_parts_in_order();
    all_parts_but_numbers();
    one_part_in_order();
    no_pool_in_order();
    all_parts_in_words();
    one_part_in_words();
    no_pool_in_words();
    packs();
    books();
    lines();
    runs();
    printf("%d passed, %d failed\n", passed, failed);
    return failed != 0 || passed == 0;
}
