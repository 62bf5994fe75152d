/* What the drivers of lent calls have in common: a line's words, the lent parts, and how answers and memory are compared. */
#ifndef LENT_LINES_H
#define LENT_LINES_H

#include <stdio.h>
#include <stdlib.h>
#include <string.h>
#include <sys/types.h>

#include "pointer_desk.h"

enum { MOST_WORDS = 24, SHEET = 192, BEYOND = 16 };

/* A lent part: its bytes in a block of their own, with bytes beyond that are looked at too, and a copy of what it held. */
typedef struct {
    void *now;
    void *before;
    size_t len;
    size_t width;
} part;

static char *words[MOST_WORDS];
static int word_count;
static int next_word;

static void stop(const char *why) {
    fprintf(stderr, "driver: %s\n", why);
    exit(2);
}

/* The next word of the line. */
static const char *word(void) {
    if (next_word == word_count) stop("a line with too few words");
    return words[next_word++];
}

static void split(char *line) {
    word_count = next_word = 0;
    for (char *w = strtok(line, " \n"); w; w = strtok(NULL, " \n")) {
        if (word_count == MOST_WORDS) stop("a line with too many words");
        words[word_count++] = w;
    }
}

static unsigned digit(char c) {
    if (c >= '0' && c <= '9') return (unsigned)(c - '0');
    if (c >= 'A' && c <= 'F') return (unsigned)(c - 'A') + 10;
    stop("a character that is no digit");
    return 0;
}

/* n digits, the highest first. */
static uint64_t number_at(const char *text, size_t n) {
    uint64_t v = 0;
    for (size_t i = 0; i < n; i++) v = v * 16 + digit(text[i]);
    return v;
}

static unsigned number(void) {
    const char *w = word();
    return (unsigned)number_at(w, strlen(w));
}

/* A block of that many bytes, and some beyond that nobody may write. */
static void *block(size_t bytes) {
    uint8_t *b = malloc(bytes + BEYOND);
    if (!b) stop("no memory");
    memset(b + bytes, 0xA5, BEYOND);
    return b;
}

static int is_empty(const char *w) { return !strcmp(w, "-") || !strcmp(w, "null"); }

/* The values of a word, of 2 * width digits each, into a block of width bytes each. */
static void *values(const char *w, size_t width, size_t len) {
    uint8_t *b = block(len * width);
    for (size_t i = 0; i < len; i++) {
        uint64_t v = number_at(w + i * 2 * width, 2 * width);
        uint16_t v16 = (uint16_t)v;
        if (width == 1) b[i] = (uint8_t)v;
        else memcpy(b + i * width, width == 2 ? (void *)&v16 : (void *)&v, width);
    }
    return b;
}

static size_t length_of(const char *w, size_t width) {
    if (is_empty(w)) return 0;
    if (strlen(w) % (2 * width)) stop("a part that ends within a value");
    return strlen(w) / (2 * width);
}

/* A part as written: a null pointer for `null`. */
static part lend(size_t width) {
    const char *w = word();
    part p = {NULL, NULL, length_of(w, width), width};
    p.before = values(w, width, p.len);
    if (strcmp(w, "null")) p.now = values(w, width, p.len);
    return p;
}

/* Whether the part holds what the next word says, and what is beyond it is kept. */
static int holds(part p) {
    const char *w = word();
    size_t all = p.len * p.width + BEYOND;
    if (!strcmp(w, "=")) return !p.now || !memcmp(p.now, p.before, all);
    if (length_of(w, p.width) != p.len || !p.now) return 0;
    void *wanted = values(w, p.width, p.len);
    int same = !memcmp(p.now, wanted, all);
    free(wanted);
    return same;
}

static void give_back(part p) {
    free(p.now);
    free(p.before);
}

static void past_question(void) {
    if (strcmp(word(), ">")) stop("no > behind the question");
}

/* Whether these fields of an answer are the next four words. */
static int are_fields(uint8_t n, uint16_t value, uint16_t empty, const uint8_t *message) {
    int same = n == number();
    same &= value == number();
    same &= empty == number();
    const char *w = word();
    if (strlen(w) != 10) stop("a message of other than ten digits");
    for (int i = 0; i < 5; i++) same &= message[i] == number_at(w + 2 * i, 2);
    return same;
}

#define IS_ANSWER(a) are_fields((a).number, (a).value, (a).empty, (a).message)

static int is_share(desk_share_answer a) {
    int same = a.number == number();
    return same & (a.share == strtol(word(), NULL, 10));
}

/* Whether the lent counts are what the next word says: `=` where nothing is written. */
static int is_sheet(const uint32_t *sheet, size_t len) {
    const char *w = word();
    int same = 1, kept = !strcmp(w, "=");
    if (!kept && (len != SHEET || strlen(w) != 4 * SHEET)) stop("a sheet of other than 192 counts");
    for (size_t i = 0; i < len; i++) same &= sheet[i] == (kept ? 0xA5A5A5A5u : number_at(w + 4 * i, 4));
    for (size_t i = len; i < len + BEYOND / sizeof *sheet; i++) same &= sheet[i] == 0xA5A5A5A5u;
    return same;
}

/* A sheet of that many counts, each A5A5A5A5, to be given back by free. */
static uint32_t *lend_sheet(size_t len) {
    uint32_t *sheet = block(len * sizeof *sheet);
    for (size_t i = 0; i < len; i++) sheet[i] = 0xA5A5A5A5u;
    return sheet;
}

/* The numbers before `>`, at most three; those that are not there are 0. */
static void arguments(unsigned arg[3]) {
    arg[0] = arg[1] = arg[2] = 0;
    for (int i = 0; strcmp(words[next_word], ">"); i++) {
        if (i == 3) stop("too many arguments");
        arg[i] = number();
    }
    past_question();
}

/* The driver's own: one line, whether answer and memory are what it says. */
static int is_right(char *line);

int main(void) {
    char *line = NULL;
    size_t room = 0, passed = 0, failed = 0;
    while (getline(&line, &room, stdin) > 0) {
        char *kept = strdup(line);
        if (!kept) stop("no memory");
        if (is_right(line)) passed++;
        else if (!failed++) printf("line %zu differs: %s", passed + failed, kept);
        free(kept);
    }
    free(line);
    printf("%zu passed, %zu failed\n", passed, failed);
    return failed || !passed;
}

#endif
