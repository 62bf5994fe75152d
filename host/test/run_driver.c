/*
 * The program `desk` as a call: standard input through desk_run, its bytes to standard output.
 * `short`: the output is one byte too short; `null`: an input of length 0 is a null pointer. Memory that should stay is looked at.
 */
#include <stdio.h>
#include <stdlib.h>
#include <string.h>

#include "pointer_desk.h"

enum { MOST = 1 << 20, KEPT = 0xA5, BEYOND = 64 };

static uint8_t input[MOST];
static uint8_t output[DESK_RUN_ROOM + BEYOND];

static int kept_from(size_t at) {
    for (size_t i = at; i < sizeof output; i++) {
        if (output[i] != KEPT) return 0;
    }
    return 1;
}

static int stop(const char *why) {
    fprintf(stderr, "run_driver: %s\n", why);
    return 2;
}

int main(int argc, char **argv) {
    const char *way = argc > 1 ? argv[1] : "";
    size_t room = DESK_RUN_ROOM - !strcmp(way, "short");
    size_t n = fread(input, 1, sizeof input, stdin);
    if (n == sizeof input) return stop("the input is too long for this driver");
    if (!strcmp(way, "null") && n) return stop("a null input has length 0");
    memset(output, KEPT, sizeof output);
    size_t written = desk_run(strcmp(way, "null") ? input : NULL, n, output, room);
    if (written > room) return stop("more is written than there is room");
    if (!kept_from(written)) return stop("memory past what is written has changed");
    return fwrite(output, 1, written, stdout) == written ? 0 : stop("standard output");
}
