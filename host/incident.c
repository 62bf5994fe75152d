/* An example host: the late copy. It prints the story, and ends with 1 where an answer is not what the story needs. */
#include <stdio.h>
#include <stdlib.h>
#include <string.h>

#include "pointer_desk.h"

enum { SITES = 3, POINTERS = 1, SLOTS = 4, NET = 0 };

/* What this host lends: all the memory that the desk uses. */
static uint8_t owners[POINTERS] = {0};
static uint16_t counters[SITES * POINTERS];
static uint8_t cells[SITES * POINTERS];
static uint8_t pool[SLOTS * DESK_SLOT_BYTES];

#define LENT SITES, owners, sizeof owners, counters, SITES * POINTERS, cells, sizeof cells, pool, sizeof pool

/* An answer as the story needs it: the words that are printed where it is that one. */
typedef struct {
    desk_answer answer;
    const char *words;
} needed;

static const needed opened = {{0, 0, 0, {0}}, "accepted"};
static const needed at_slot_0 = {{0, 0, 0, {0}}, "accepted"};
static const needed at_slot_1 = {{0, 1, 0, {0}}, "accepted"};
static const needed copy_to_1 = {{0, 0, 4, {1, 0, 1, 0, NET}}, "accepted: COPY from 0 to 1 in slot 0"};
static const needed copy_to_2 = {{0, 1, 3, {1, 0, 2, 0, NET}}, "accepted: COPY from 0 to 2 in slot 1"};
static const needed dec_of_2 = {{0, 1, 3, {2, 2, 0, 0, NET}}, "accepted: DEC from 2 to 0 in slot 1"};
static const needed dec_of_1 = {{0, 0, 4, {2, 1, 0, 0, NET}}, "accepted: DEC from 1 to 0 in slot 0"};
static const needed not_held = {{DESK_NOT_HELD, 0, 0, {0}}, "refused: 5, NotHeld"};
static const needed no = {{0, 0, 0, {0}}, "0: no"};
static const needed yes = {{0, 1, 0, {0}}, "1: yes"};

/* One line of the story; another answer than the needed one ends it. */
static void tell(const char *what, desk_answer a, needed n) {
    int same = a.number == n.answer.number && a.value == n.answer.value && a.empty == n.answer.empty &&
               !memcmp(a.message, n.answer.message, sizeof a.message);
    printf("%-44s %s\n", what, same ? n.words : "NOT WHAT THE STORY NEEDS");
    if (!same) exit(1);
}

static void ask(needed n) { tell("  site 0 asks: may I drop the net?", desk_ask(LENT, 0, NET), n); }

int main(void) {
    puts("A motor controller's layout lies on three sites. Site 0 owns a net, and the others may point at it.\n");
    tell("the desk opens", desk_open(LENT), opened);
    tell("site 0 sends site 1 a copy, and it is late", desk_make_copy(LENT, 0, 1, NET), copy_to_1);
    tell("site 0 sends site 2 a copy", desk_make_copy(LENT, 0, 2, NET), copy_to_2);
    tell("that copy arrives", desk_receive(LENT, 1), at_slot_1);
    tell("site 2 is done and deletes its pointer", desk_delete(LENT, 2, NET), dec_of_2);
    tell("site 2 would still send site 1 a copy", desk_make_copy(LENT, 2, 1, NET), not_held);
    tell("the DEC of site 2 arrives", desk_receive(LENT, 1), at_slot_1);
    ask(no);
    puts("\nNo other site holds the pointer now. The desk of the withdrawn report said yes here,\n"
         "and the late copy made two buses into one.\n");
    tell("the late copy arrives at site 1", desk_receive(LENT, 0), at_slot_0);
    ask(no);
    tell("site 1 is done and deletes its pointer", desk_delete(LENT, 1, NET), dec_of_1);
    ask(no);
    tell("the DEC of site 1 arrives", desk_receive(LENT, 0), at_slot_0);
    ask(yes);
    return 0;
}
