/* The five answers as C lays them out: size, alignment, and the place of each field. */
#include <stdio.h>

#include "pointer_desk.h"

#define PLACE(type, field) printf(" %s %zu", #field, offsetof(type, field))
#define WHOLE(name, type) printf("%s: size %zu align %zu", name, sizeof(type), _Alignof(type))

#define ANSWER(name, type) WHOLE(name, type), PLACE(type, number), PLACE(type, value), PLACE(type, empty), PLACE(type, message)

int main(void) {
    ANSWER("answer", desk_answer);
    putchar('\n');
    ANSWER("ordered answer", desk_ordered_answer);
    putchar('\n');
    WHOLE("share", desk_share_answer), PLACE(desk_share_answer, number), PLACE(desk_share_answer, share);
    putchar('\n');
    WHOLE("part", desk_part), PLACE(desk_part, number), PLACE(desk_part, at), PLACE(desk_part, length);
    putchar('\n');
    WHOLE("line", desk_line), PLACE(desk_line, number), PLACE(desk_line, ended), PLACE(desk_line, call), PLACE(desk_line, at);
    putchar('\n');
    return 0;
}
