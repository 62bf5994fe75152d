/* A call as a line, and the reader at every place of a text; what they must give is worked out here from document 01, Lines. */
#include <stdio.h>
#include <string.h>

#include "pointer_desk.h"

enum { MOST = 24, MARK = 0xA5 };

static int passed, failed;

static void expect(const char *what, int right) {
    passed += right != 0;
    failed += right == 0;
    if (!right) printf("FAILED: %s\n", what);
}

/* Whether an answer has this number, value 0, no empty slots told and no message. */
static int is(desk_answer a, unsigned number) {
    static const uint8_t none[DESK_SLOT_BYTES] = {0};
    return a.number == number && a.value == 0 && a.empty == 0 && !memcmp(a.message, none, sizeof none);
}

static int all_marks(const uint8_t *from, size_t n) {
    for (size_t i = 0; i < n; i++) {
        if (from[i] != MARK) return 0;
    }
    return 1;
}

/* Code (15, 16), then the last byte (14), then the length of the text (1). */
static unsigned number_of(const uint8_t *call, size_t length) {
    if (call[0] == 0 || (call[0] >= 0x05 && call[0] <= 0x7F)) return DESK_UNKNOWN_CODE;
    if (call[0] >= 0x80) return DESK_PRIVATE_CODE;
    if (call[0] != 1 && call[3] != 0) return DESK_BAD_LINE;
    return length < DESK_LINE_CHARACTERS ? DESK_BAD_SHAPE : DESK_ACCEPTED;
}

/* One call into a text of this length: the line, or a text that is kept; nothing past it is touched. */
static int writes(const uint8_t *call, size_t length) {
    uint8_t text[MOST];
    char line[DESK_LINE_CHARACTERS + 1];
    memset(text, MARK, sizeof text);
    unsigned number = number_of(call, length);
    if (!is(desk_line_write(call[0], call[1], call[2], call[3], text, length), number)) return 0;
    if (number != DESK_ACCEPTED) return all_marks(text, sizeof text);
    snprintf(line, sizeof line, "%02X%02X%02X%02X\n", call[0], call[1], call[2], call[3]);
    return !memcmp(text, line, DESK_LINE_CHARACTERS) && all_marks(text + DESK_LINE_CHARACTERS, sizeof text - DESK_LINE_CHARACTERS);
}

/* Whether the reader at a place answers this call, or this refusal, and stands there then. */
static int reads(const char *text, size_t at, unsigned number, const uint8_t *call, size_t then) {
    static const uint8_t none[DESK_CALL_BYTES] = {0};
    desk_line l = desk_line_read((const uint8_t *)text, strlen(text), at);
    return l.number == number && l.ended == 0 && !memcmp(l.call, call ? call : none, DESK_CALL_BYTES) && l.at == then;
}

static int ends(const char *text, size_t at) {
    static const uint8_t none[DESK_CALL_BYTES] = {0};
    desk_line l = desk_line_read((const uint8_t *)text, strlen(text), at);
    return l.number == 0 && l.ended == 1 && !memcmp(l.call, none, DESK_CALL_BYTES) && l.at == at;
}

static void refused(const char *line, unsigned number) {
    char text[MOST];
    snprintf(text, sizeof text, "%s\n04000000\n", line);
    expect(line, reads(text, 0, number, NULL, strlen(line) + 1));
}

/* Every code with every last byte, into texts of every length up to past the line. */
static void every_code(void) {
    for (unsigned code = 0; code < 256; code++) {
        int right = 1;
        for (unsigned last = 0; last < 256; last++) {
            for (size_t length = 0; length <= MOST; length++) {
                const uint8_t call[DESK_CALL_BYTES] = {(uint8_t)code, 0x3C, 0xFF, (uint8_t)last};
                right &= writes(call, length);
            }
        }
        expect("a code, written", right);
    }
}

/* What is written is read, and the reader stands past it. */
static void there_and_back(void) {
    static const uint8_t calls[4][DESK_CALL_BYTES] = {{1, 0, 1, 0xFE}, {2, 0x03, 0xE8, 0}, {3, 0x2A, 9, 0}, {4, 0, 0xFF, 0}};
    char text[4 * DESK_LINE_CHARACTERS + 1] = {0};
    for (size_t i = 0; i < 4; i++) {
        uint8_t *from = (uint8_t *)text + i * DESK_LINE_CHARACTERS;
        const uint8_t *c = calls[i];
        expect("a call, written", is(desk_line_write(c[0], c[1], c[2], c[3], from, (4 - i) * DESK_LINE_CHARACTERS), 0));
    }
    for (size_t i = 0; i < 4; i++) {
        expect("a call, read", reads(text, i * DESK_LINE_CHARACTERS, 0, calls[i], (i + 1) * DESK_LINE_CHARACTERS));
    }
    expect("the end of the four", ends(text, sizeof text - 1));
}

static void readings(void) {
    static const uint8_t ask[DESK_CALL_BYTES] = {4, 0, 0, 0};
    refused("", DESK_BAD_LINE);
    refused("0400000", DESK_BAD_LINE);
    refused("040000000", DESK_BAD_LINE);
    refused("0400000a", DESK_BAD_LINE);
    refused("0400 000", DESK_BAD_LINE);
    refused("00000000", DESK_UNKNOWN_CODE);
    refused("05000000", DESK_UNKNOWN_CODE);
    refused("7F0000FF", DESK_UNKNOWN_CODE);
    refused("80000000", DESK_PRIVATE_CODE);
    refused("FF0000FF", DESK_PRIVATE_CODE);
    refused("02000001", DESK_BAD_LINE);
    refused("03000001", DESK_BAD_LINE);
    refused("040000FF", DESK_BAD_LINE);
    expect("a last line without newline", reads("04000000", 0, 0, ask, 8));
    expect("a last line without newline, refused", reads("\n0400", 1, DESK_BAD_LINE, NULL, 5));
    expect("from the middle of a line", reads("0404000000\n", 2, 0, ask, 11));
    expect("at a newline", reads("04000000\n04000000\n", 8, DESK_BAD_LINE, NULL, 9));
    expect("at the end", ends("04000000\n", 9));
    expect("past the end", ends("04000000\n", 10));
    expect("as far as a place goes", ends("04000000\n", SIZE_MAX));
    expect("in no text", ends("", 0));
}

int main(void) {
    every_code();
    there_and_back();
    readings();
    printf("%d passed, %d failed\n", passed, failed);
    return failed != 0 || passed == 0;
}
