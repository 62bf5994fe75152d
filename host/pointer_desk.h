/*
 * The desk for C. The host lends its tables with each call, and the desk keeps nothing: no memory, no state, no file.
 *
 * S sites, G pointers. What is lent (the desk of document 01):
 *   owners      G bytes: which site owns each pointer
 *   send        DESK_CELLS(S, G) counters; that of site s and pointer p at s x G + p
 *   receive     DESK_CELLS(S, G) bytes, 0 or 1, at the same places: who holds
 *   pool        DESK_POOL_BYTES(slots): the messages in flight, DESK_SLOT_BYTES each: kind (1 COPY, 2 DEC, 3 INC_DEC), from, to, third, pointer
 * The in-order desk (document 02, Three): a pool of DESK_ORDERED_POOL_BYTES(slots), and
 *   to_post, to_receive   DESK_PAIRS(S) numbers each: the next of each pair of sites, (a, b) at a x S + b
 * The desk on words (document 02, Five): in place of `receive`
 *   words       G words of 64 bits: bit s of word p is 1 where site s holds pointer p; no bit at or above S is set
 * A length counts elements: counters of `send`, numbers of `to_post` and `to_receive`, words of `words`, counts of a sheet, bytes of the others.
 * A null pointer with length 0 is an empty part; parts do not overlap.
 * Counters, numbers, words and counts are aligned, as any uint16_t, uint64_t and uint32_t object is: words at multiples of 8 bytes.
 *
 * Refusals. A call gives 0 or the first of its numbers that applies; after a refusal all lent memory holds what it held.
 *   open        1, 2 (owners)
 *   make copy   1, 2, 3, 4, 5, 6, 7
 *   receive     1, 2, 3, 8; then a COPY 4; a DEC 9, 10; an INC_DEC 6
 *   delete      1, 2, 3, 11, 5, 12, 7
 *   ask         1, 2, 3, 13
 *   share       1, 2, 3, 11
 *   sheet       1, 2, 3; 1 too where the sheet has not 192 counts
 *   in order    the same, but for
 *   receive     1, 2, 3, 8, 21; then a COPY 4; a DEC 10; an INC_DEC 6
 *   on words    the same as the desk of document 01, and
 *   count       1, 2, 3
 *   pack        1, 2; so does unpack
 *   book        address 1, 2, 18, 3; check 1, 2, 18, 19; search 1, 2, 18, 3, 20
 *   lines       write 15, 16, 14, 1; read 14, 15, 16
 *
 * Cost. A call looks at all that is lent, counters and numbers aside, so it grows with S x G (on words with G) and with the slots: some 10,000 to
 * 30,000 instructions on the largest desk, some 500 on one of 3 sites, 4 pointers and 16 slots. Nothing is allocated and nothing waits.
 * Threads. Calls on different memory may run at once. A desk that is shared needs a lock; the calls that take every part as const may share it.
 * Links with the C library alone (memcpy, memset), into programs and shared objects for x86-64 Linux.
 */
#ifndef POINTER_DESK_H
#define POINTER_DESK_H

#include <stddef.h>
#include <stdint.h>

/*
 * The second number is the request of document 02 that landed last. Structs and parameters stay while the first two numbers do.
 * Header and archive of one release belong together: the archive cannot tell which header it is called by.
 */
#define DESK_VERSION "0.5.0"
#define DESK_VERSION_NUMBER 500 /* 10,000 x the first + 100 x the second + the third */

/* The largest desk that opens; an opening needs at least one site. */
#define DESK_MAX_SITES 64
#define DESK_MAX_POINTERS 256
#define DESK_MAX_SLOTS 1024

/* How long a part is. */
#define DESK_CELLS(S, G) ((size_t)(S) * (size_t)(G))
#define DESK_PAIRS(S) ((size_t)(S) * (size_t)(S))
#define DESK_POOL_BYTES(slots) ((size_t)(slots) * DESK_SLOT_BYTES)
#define DESK_ORDERED_POOL_BYTES(slots) ((size_t)(slots) * DESK_ORDERED_SLOT_BYTES)

/* An answer that is not looked at is warned of. */
#if (defined(__cplusplus) && __cplusplus >= 201703L) || (defined(__STDC_VERSION__) && __STDC_VERSION__ >= 202311L)
#define DESK_LOOK_AT [[nodiscard]]
#elif defined(__GNUC__)
#define DESK_LOOK_AT __attribute__((warn_unused_result))
#else
#define DESK_LOOK_AT
#endif

#ifdef __cplusplus
extern "C" {
#endif

/* Why a call is turned down. */
enum {
    DESK_ACCEPTED = 0,
    DESK_BAD_SHAPE = 1,
    DESK_BAD_TABLE = 2,
    DESK_BAD_NAME = 3,
    DESK_SAME_SITE = 4,
    DESK_NOT_HELD = 5,
    DESK_COUNTER_FULL = 6,
    DESK_POOL_FULL = 7,
    DESK_EMPTY_SLOT = 8,
    DESK_HELD = 9,
    DESK_COUNTER_ZERO = 10,
    DESK_IS_OWNER = 11,
    DESK_STILL_COUNTED = 12,
    DESK_NOT_OWNER = 13,
    DESK_BAD_LINE = 14,
    DESK_UNKNOWN_CODE = 15,
    DESK_PRIVATE_CODE = 16,
    DESK_TOO_LONG = 17,
    DESK_BAD_BOOK = 18,
    DESK_TWINS = 19,
    DESK_NOT_LISTED = 20,
    DESK_OUT_OF_ORDER = 21
};

/* Its name in documents 01 and 02. */
static inline const char *desk_refusal_name(uint8_t number) {
    static const char *const names[] = {
        "Accepted", "BadShape", "BadTable", "BadName", "SameSite", "NotHeld", "CounterFull", "PoolFull",
        "EmptySlot", "Held", "CounterZero", "IsOwner", "StillCounted", "NotOwner", "BadLine", "UnknownCode",
        "PrivateCode", "TooLong", "BadBook", "Twins", "NotListed", "OutOfOrder"};
    return number < sizeof names / sizeof names[0] ? names[number] : "Unlisted";
}

/* What the host lends: the bytes of a slot. Share and sheet: the counts of a sheet. */
enum { DESK_SLOT_BYTES = 5, DESK_SHEET_COUNTS = 192 };

/* In order: the bytes of a slot (a message, then its number, high byte first), and of an answer's message, which has no number. */
enum { DESK_ORDERED_SLOT_BYTES = 7, DESK_ORDERED_MESSAGE_BYTES = 5 };

/* Lines: the bytes of a call, the characters of its line with the newline, the output of a run. */
enum { DESK_CALL_BYTES = 4, DESK_LINE_CHARACTERS = 9, DESK_RUN_ROOM = 139264 };

/*
 * The calls: a refusal number (0: accepted), a value, the empty slots and the posted message as slot bytes (all 0: none).
 * An accepted make copy or delete tells how many slots were empty before its post, so at least 1; 0 means not told.
 */
typedef struct {
    uint8_t number;
    uint16_t value;
    uint16_t empty;
    uint8_t message[DESK_SLOT_BYTES];
} desk_answer;

/* In order: the fields of desk_answer. The number of a posted message is read in slot `value` of the pool. */
typedef struct {
    uint8_t number;
    uint16_t value;
    uint16_t empty;
    uint8_t message[DESK_ORDERED_MESSAGE_BYTES];
} desk_ordered_answer;

/* Share and sheet: a refusal number, and one signed whole number. */
typedef struct {
    uint8_t number;
    int32_t share;
} desk_share_answer;

/* The address book: a refusal number, and where the address stands in the lent book. */
typedef struct {
    uint8_t number;
    size_t at;
    size_t length;
} desk_part;

/* Lines: a refusal number, 1 where the reader has ended, the call's four bytes (all 0: none), and where it stands then. */
typedef struct {
    uint8_t number;
    uint8_t ended;
    uint8_t call[DESK_CALL_BYTES];
    size_t at;
} desk_line;

/* What the host lends: an opening. */
DESK_LOOK_AT
desk_answer desk_open(uint8_t sites, const uint8_t *owners, size_t owners_len,
                      uint16_t *send, size_t send_len, uint8_t *receive, size_t receive_len,
                      uint8_t *pool, size_t pool_len);

/* The calls: make copy. */
DESK_LOOK_AT
desk_answer desk_make_copy(uint8_t sites, const uint8_t *owners, size_t owners_len,
                           uint16_t *send, size_t send_len, const uint8_t *receive, size_t receive_len,
                           uint8_t *pool, size_t pool_len, uint8_t from, uint8_t to, uint8_t pointer);

/* The calls: receive. */
DESK_LOOK_AT
desk_answer desk_receive(uint8_t sites, const uint8_t *owners, size_t owners_len,
                         uint16_t *send, size_t send_len, uint8_t *receive, size_t receive_len,
                         uint8_t *pool, size_t pool_len, uint16_t slot);

/* The calls: delete. */
DESK_LOOK_AT
desk_answer desk_delete(uint8_t sites, const uint8_t *owners, size_t owners_len,
                        const uint16_t *send, size_t send_len, uint8_t *receive, size_t receive_len,
                        uint8_t *pool, size_t pool_len, uint8_t site, uint8_t pointer);

/* The calls: ask; the value is 1 where nobody elsewhere points at it (the owner may drop it), else 0. */
DESK_LOOK_AT
desk_answer desk_ask(uint8_t sites, const uint8_t *owners, size_t owners_len,
                     const uint16_t *send, size_t send_len, const uint8_t *receive, size_t receive_len,
                     const uint8_t *pool, size_t pool_len, uint8_t site, uint8_t pointer);

/* Share and sheet: the share of a site; 0 after a refusal. */
DESK_LOOK_AT
desk_share_answer desk_share(uint8_t sites, const uint8_t *owners, size_t owners_len,
                             const uint16_t *send, size_t send_len, const uint8_t *receive, size_t receive_len,
                             const uint8_t *pool, size_t pool_len, uint8_t site, uint8_t pointer);

/* Share and sheet: 192 counts, row by row (COPY, DEC, INC_DEC), 64 columns; a message stands in the column of the site whose counter it acts on:
 * the sender of a COPY, the receiver of a DEC, the third site of an INC_DEC. All 0 after a refusal; another length gives 1, and nothing is written. */
DESK_LOOK_AT
uint8_t desk_sheet(uint8_t sites, const uint8_t *owners, size_t owners_len,
                   const uint16_t *send, size_t send_len, const uint8_t *receive, size_t receive_len,
                   const uint8_t *pool, size_t pool_len, uint8_t pointer, uint32_t *sheet, size_t sheet_len);

/*
 * The in-order desk (document 02, Three), for links that deliver in order: slots of 7 bytes, and two tables of S x S numbers,
 * next to post and next to receive, pair (a, b) at a x S + b. A message that is not its pair's next gives 21; 9 is never given.
 */

/* In order: an opening; all numbers become 0. */
DESK_LOOK_AT
desk_ordered_answer desk_ordered_open(uint8_t sites, const uint8_t *owners, size_t owners_len,
                                      uint16_t *send, size_t send_len, uint8_t *receive, size_t receive_len,
                                      uint8_t *pool, size_t pool_len, uint16_t *to_post, size_t to_post_len,
                                      uint16_t *to_receive, size_t to_receive_len);

/* In order: make copy. */
DESK_LOOK_AT
desk_ordered_answer desk_ordered_make_copy(uint8_t sites, const uint8_t *owners, size_t owners_len,
                                           uint16_t *send, size_t send_len, const uint8_t *receive, size_t receive_len,
                                           uint8_t *pool, size_t pool_len, uint16_t *to_post, size_t to_post_len,
                                           const uint16_t *to_receive, size_t to_receive_len, uint8_t from, uint8_t to, uint8_t pointer);

/* In order: receive. */
DESK_LOOK_AT
desk_ordered_answer desk_ordered_receive(uint8_t sites, const uint8_t *owners, size_t owners_len,
                                         uint16_t *send, size_t send_len, uint8_t *receive, size_t receive_len,
                                         uint8_t *pool, size_t pool_len, uint16_t *to_post, size_t to_post_len,
                                         uint16_t *to_receive, size_t to_receive_len, uint16_t slot);

/* In order: delete. */
DESK_LOOK_AT
desk_ordered_answer desk_ordered_delete(uint8_t sites, const uint8_t *owners, size_t owners_len,
                                        const uint16_t *send, size_t send_len, uint8_t *receive, size_t receive_len,
                                        uint8_t *pool, size_t pool_len, uint16_t *to_post, size_t to_post_len,
                                        const uint16_t *to_receive, size_t to_receive_len, uint8_t site, uint8_t pointer);

/* In order: ask. */
DESK_LOOK_AT
desk_ordered_answer desk_ordered_ask(uint8_t sites, const uint8_t *owners, size_t owners_len,
                                     const uint16_t *send, size_t send_len, const uint8_t *receive, size_t receive_len,
                                     const uint8_t *pool, size_t pool_len, const uint16_t *to_post, size_t to_post_len,
                                     const uint16_t *to_receive, size_t to_receive_len, uint8_t site, uint8_t pointer);

/* In order: the share of a site; 0 after a refusal. */
DESK_LOOK_AT
desk_share_answer desk_ordered_share(uint8_t sites, const uint8_t *owners, size_t owners_len,
                                     const uint16_t *send, size_t send_len, const uint8_t *receive, size_t receive_len,
                                     const uint8_t *pool, size_t pool_len, const uint16_t *to_post, size_t to_post_len,
                                     const uint16_t *to_receive, size_t to_receive_len, uint8_t site, uint8_t pointer);

/* In order: the sheet of a pointer, as desk_sheet writes it. */
DESK_LOOK_AT
uint8_t desk_ordered_sheet(uint8_t sites, const uint8_t *owners, size_t owners_len,
                           const uint16_t *send, size_t send_len, const uint8_t *receive, size_t receive_len,
                           const uint8_t *pool, size_t pool_len, const uint16_t *to_post, size_t to_post_len,
                           const uint16_t *to_receive, size_t to_receive_len, uint8_t pointer,
                           uint32_t *sheet, size_t sheet_len);

/*
 * The desk on words (document 02, Five), which answers as the desk of document 01 does: in place of the receive bytes it is lent a word for
 * each pointer, site s at bit s. Not exactly G words give 1, a set bit at or above S gives 2.
 */

/* On words: an opening; each word becomes its owner's bit. */
DESK_LOOK_AT
desk_answer desk_words_open(uint8_t sites, const uint8_t *owners, size_t owners_len,
                            uint16_t *send, size_t send_len, uint64_t *words, size_t words_len,
                            uint8_t *pool, size_t pool_len);

/* On words: make copy. */
DESK_LOOK_AT
desk_answer desk_words_make_copy(uint8_t sites, const uint8_t *owners, size_t owners_len,
                                 uint16_t *send, size_t send_len, const uint64_t *words, size_t words_len,
                                 uint8_t *pool, size_t pool_len, uint8_t from, uint8_t to, uint8_t pointer);

/* On words: receive. */
DESK_LOOK_AT
desk_answer desk_words_receive(uint8_t sites, const uint8_t *owners, size_t owners_len,
                               uint16_t *send, size_t send_len, uint64_t *words, size_t words_len,
                               uint8_t *pool, size_t pool_len, uint16_t slot);

/* On words: delete. */
DESK_LOOK_AT
desk_answer desk_words_delete(uint8_t sites, const uint8_t *owners, size_t owners_len,
                              const uint16_t *send, size_t send_len, uint64_t *words, size_t words_len,
                              uint8_t *pool, size_t pool_len, uint8_t site, uint8_t pointer);

/* On words: ask. */
DESK_LOOK_AT
desk_answer desk_words_ask(uint8_t sites, const uint8_t *owners, size_t owners_len,
                           const uint16_t *send, size_t send_len, const uint64_t *words, size_t words_len,
                           const uint8_t *pool, size_t pool_len, uint8_t site, uint8_t pointer);

/* On words: the value is how many sites hold the pointer, its owner among them; no message, and nothing changes. */
DESK_LOOK_AT
desk_answer desk_words_count(uint8_t sites, const uint8_t *owners, size_t owners_len,
                             const uint16_t *send, size_t send_len, const uint64_t *words, size_t words_len,
                             const uint8_t *pool, size_t pool_len, uint8_t pointer);

/* On words: the share of a site; 0 after a refusal. */
DESK_LOOK_AT
desk_share_answer desk_words_share(uint8_t sites, const uint8_t *owners, size_t owners_len,
                                   const uint16_t *send, size_t send_len, const uint64_t *words, size_t words_len,
                                   const uint8_t *pool, size_t pool_len, uint8_t site, uint8_t pointer);

/* On words: the sheet of a pointer, as desk_sheet writes it. */
DESK_LOOK_AT
uint8_t desk_words_sheet(uint8_t sites, const uint8_t *owners, size_t owners_len,
                         const uint16_t *send, size_t send_len, const uint64_t *words, size_t words_len,
                         const uint8_t *pool, size_t pool_len, uint8_t pointer, uint32_t *sheet, size_t sheet_len);

/*
 * On words: receive bytes as words. 1 where sites is not 1 to 64, there are more than 256 words, or not sites x words bytes; 2 where a byte
 * is above 1. After a refusal nothing is written.
 */
DESK_LOOK_AT
uint8_t desk_words_pack(uint8_t sites, const uint8_t *receive, size_t receive_len, uint64_t *words, size_t words_len);

/* On words: words as receive bytes. 1 likewise; 2 where a bit at or above sites is set. After a refusal nothing is written. */
DESK_LOOK_AT
uint8_t desk_words_unpack(uint8_t sites, const uint64_t *words, size_t words_len, uint8_t *receive, size_t receive_len);

/* The address book: the address of a pointer; at 0 with length 0 after a refusal. */
DESK_LOOK_AT
desk_part desk_book_address(uint8_t sites, const uint8_t *owners, size_t owners_len,
                            const uint8_t *book, size_t book_len, uint8_t pointer);

/* The address book: a check. */
DESK_LOOK_AT
desk_answer desk_book_check(uint8_t sites, const uint8_t *owners, size_t owners_len,
                            const uint8_t *book, size_t book_len);

/* The address book: a search by owner and whole address. */
DESK_LOOK_AT
desk_answer desk_book_search(uint8_t sites, const uint8_t *owners, size_t owners_len,
                             const uint8_t *book, size_t book_len,
                             uint8_t owner, const uint8_t *address, size_t address_len);

/*
 * Lines: the call of four bytes, as a line at the start of a text; the rest of the text stays.
 * 15, 16 or 14 where the bytes are no call, then 1 where the text is shorter than 9; then nothing is written.
 */
DESK_LOOK_AT
desk_answer desk_line_write(uint8_t code, uint8_t a, uint8_t b, uint8_t c, uint8_t *text, size_t text_len);

/* Lines: what the reader that stands at a place of a text answers; at any place from the end on it has ended, and stays. */
DESK_LOOK_AT
desk_line desk_line_read(const uint8_t *text, size_t text_len, size_t at);

/*
 * Lines: the program `desk` as a call: bytes written; nothing and 0 where the output has less than 139,264 bytes.
 * Its tables stand on the stack, about 55,000 bytes.
 */
DESK_LOOK_AT
size_t desk_run(const uint8_t *input, size_t input_len, uint8_t *output, size_t output_len);

#ifdef __cplusplus
}
#endif

#endif
