/* What only C can do: zeroed operations, words and places of any kind; the largest image and its names as numbers; and where in a line a
 * recovery is refused. Prints each check that fails; its status is 0 where none does. */
#include "heidrunok.h"
#include <stdio.h>
#include <string.h>

#define WORDS HEIDRUNOK_WORDS(2, 4)
#define CHECK(fact) ((fact) ? (void)0 : (failed++, (void)printf("edges.c:%d: %s\n", __LINE__, #fact)))

static int failed;
static uint32_t img[WORDS], was[WORDS];
static uint8_t log_buffer[200], log_was[200];

static void keep(void) {
    memcpy(was, img, sizeof img);
    memcpy(log_was, log_buffer, sizeof log_buffer);
}

static bool kept(void) {
    return memcmp(was, img, sizeof img) == 0 && memcmp(log_was, log_buffer, sizeof log_buffer) == 0;
}

/* A refused commit of these operations: its number and its extra answer, nothing changed, no length. */
static bool refuses(const heidrunok_operation *ops, size_t n, uint32_t number, size_t position) {
    size_t length = 99, extra = 99;
    keep();
    return heidrunok_commit(img, WORDS, ops, n, log_buffer, sizeof log_buffer, 11, &length, &extra) == number && extra == position && length == 0 && kept();
}

static void operations(void) {
    heidrunok_operation ops[2] = {heidrunok_new(0, 0, 1), heidrunok_new(0, 1, 2)};
    CHECK(refuses(ops, 0, 6, 0));
    memset(&ops[1], 0, sizeof ops[1]);
    CHECK(refuses(ops, 2, 7, 2));
    ops[0].kind = 7;
    CHECK(refuses(ops, 1, 7, 1));
    ops[0].kind = UINT32_MAX;
    CHECK(refuses(ops, 1, 7, 1));
    ops[0] = heidrunok_new(0, 0, 1);
    ops[1] = heidrunok_root(UINT32_MAX, UINT32_MAX, UINT32_MAX);
    CHECK(refuses(ops, 2, 7, 2));
}

static void places(void) {
    size_t length = 99, extra = 99, ats[] = {sizeof log_buffer, sizeof log_buffer + 1, SIZE_MAX};
    heidrunok_operation op = heidrunok_new(0, 0, 1);
    for (size_t i = 0; i < sizeof ats / sizeof *ats; i++) {
        keep();
        CHECK(heidrunok_commit(img, WORDS, &op, 1, log_buffer, sizeof log_buffer, ats[i], &length, &extra) == 17 && length == 0 && kept());
    }
    CHECK(heidrunok_hold(img, WORDS, 0, 0, 0, log_buffer, sizeof log_buffer, SIZE_MAX, &length, &extra) == 9 && length == 0 && kept());
    CHECK(heidrunok_drop(img, WORDS, 0, log_buffer, sizeof log_buffer, SIZE_MAX, &length, &extra) == 17 && length == 0 && kept());
    CHECK(heidrunok_commit(img, WORDS - 1, &op, 1, log_buffer, sizeof log_buffer, 11, &length, &extra) == 1);
    CHECK(heidrunok_format(img, WORDS - 1, 2, 4, log_buffer, sizeof log_buffer, 11, &length, &extra) == 2 && kept());
}

/* Handles are numbers in C: one too large is refused, and an object that is not there. Nothing changes. */
static void handles(void) {
    size_t length = 99, extra = 99;
    const uint32_t large[] = {HEIDRUNOK_HANDLES, UINT32_MAX};
    keep();
    for (size_t i = 0; i < sizeof large / sizeof *large; i++) {
        CHECK(heidrunok_hold(img, WORDS, large[i], 0, 0, log_buffer, sizeof log_buffer, 11, &length, &extra) == 7 && length == 0 && extra == 0);
        CHECK(heidrunok_drop(img, WORDS, large[i], log_buffer, sizeof log_buffer, 11, &length, &extra) == 7 && length == 0 && extra == 0);
    }
    CHECK(heidrunok_hold(img, WORDS, 0, UINT32_MAX, 0, log_buffer, sizeof log_buffer, 11, &length, &extra) == 7 && length == 0);
    CHECK(heidrunok_hold(img, WORDS, 0, 0, 4, log_buffer, sizeof log_buffer, 11, &length, &extra) == 7 && length == 0);
    CHECK(heidrunok_hold(img, WORDS, 0, 0, 0, log_buffer, sizeof log_buffer, 11, &length, &extra) == 9 && length == 0);
    CHECK(kept());
    CHECK(heidrunok_drop(img, WORDS, HEIDRUNOK_HANDLES - 1, log_buffer, sizeof log_buffer, 11, &length, &extra) == 0 && length == 8);
    CHECK(memcmp(log_buffer + 11, "drop\t31\n", 8) == 0 && memcmp(was, img, sizeof img) == 0);
}

/* A refused recovery of this text: its number, line and byte, nothing kept, and zeros in the image. */
static bool fails(const char *text, uint32_t number, size_t line, size_t byte) {
    size_t length = 99, at_line = 99, at_byte = 99;
    memcpy(log_was, log_buffer, sizeof log_buffer);
    memset(was, 0, sizeof was);
    return heidrunok_recover(img, WORDS, (const uint8_t *)text, strlen(text), &length, &at_line, &at_byte) == number && length == 0 && at_line == line &&
           at_byte == byte && kept();
}

/* Where in the line: 3 asks for a heading, 4 for any line, or for any other than a heading where the line is the last and has no end. */
static void faults(void) {
    size_t length = 99, line = 99, byte = 99;
    static const char accepted[] = "heap\t4\t2\t4\nunroot\t0\nend\t1\nnew\t15\t127\t4294967295";
    CHECK(fails("", 3, 1, 0));
    CHECK(fails("\n", 3, 1, 0));
    CHECK(fails("heap\t3\t2\t4", 3, 1, 10));
    CHECK(fails("heap\t5\t2\t4\n", 3, 1, 5));
    CHECK(fails("heap\t3\t4294967295\t123\n", 3, 1, 20));
    CHECK(fails("heap\t4\t4294967295\t1234\n", 3, 1, 21));
    CHECK(fails("hold\t0\t0\t0\n", 3, 1, 1));
    CHECK(fails("heap\t3\t2\t4\nset\t0\t0\t0\t4294967295\t0\n", 4, 2, 18));
    CHECK(fails("heap\t3\t2\t4\nnew\t15\t127\t4294967295\n", 4, 2, 20));
    CHECK(fails("heap\t4\t2\t4\nnew\t15\t1270\t4294967295\n", 4, 2, 21));
    CHECK(fails("heap\t3\t2\t4\nend\t01\n", 4, 2, 5));
    CHECK(fails("heap\t3\t2\t4\nend\t4294967296\n", 4, 2, 13));
    CHECK(fails("heap\t3\t2\t4\nhe\n", 4, 2, 2));
    CHECK(fails("heap\t3\t2\t4\nhe", 4, 2, 1));
    CHECK(fails("heap\t3\t0\t4\nxyz\n", 2, 1, 0));
    CHECK(fails("heap\t3\t2\t4\nend\t1\n", 5, 2, 0));
    CHECK(fails("heap\t3\t2\t4\nhold\t0\t0\t0\nxyz", 9, 2, 0));
    CHECK(heidrunok_recover(img, WORDS, (const uint8_t *)accepted, sizeof accepted - 1, &length, &line, &byte) == 0);
    CHECK(length == 26 && line == 0 && byte == 0);
}

/* The largest image: its last object as a number, in a field and in an outlist; a slot more is too many, in a log of edition 3 the 65th. */
static void largest(void) {
    static uint32_t words[HEIDRUNOK_WORDS(16, 128)];
    size_t length = 99, extra = 99, held = 99, line = 99, byte = 99;
    uint32_t payload = 99, fields[4], names[HEIDRUNOK_NAMES];
    const size_t n = sizeof words / sizeof *words;
    const heidrunok_operation ops[] = {heidrunok_new(0, 0, 1), heidrunok_new(15, 127, UINT32_MAX), heidrunok_set(0, 0, 3, 15, 127)};
    const uint8_t older[] = "heap\t3\t16\t128\n";
    CHECK(n == 14405);
    CHECK(heidrunok_format(words, n, 16, 129, log_buffer, sizeof log_buffer, 0, &length, &extra) == 2 && length == 0);
    CHECK(heidrunok_format(words, n, 16, 128, log_buffer, sizeof log_buffer, 0, &length, &extra) == 0 && length == 14);
    CHECK(heidrunok_commit(words, n, ops, 3, log_buffer, sizeof log_buffer, 14, &length, &extra) == 0 && length == 55);
    CHECK(memcmp(log_buffer, "heap\t4\t16\t128\n", 14) == 0 && memcmp(log_buffer + 24, "new\t15\t127\t4294967295\n", 22) == 0);
    CHECK(heidrunok_read(words, n, 0, 0, &payload, fields) == 0 && payload == 1 && fields[3] == 15 * HEIDRUNOK_RADIX + 127 + 1);
    CHECK(heidrunok_outlist(words, n, 0, &held, names) == 0 && held == 1 && names[0] == fields[3] && names[1] == 0);
    CHECK(heidrunok_recover(words, n, log_buffer, 69, &length, &line, &byte) == 0 && length == 69 && words[1] == 128);
    CHECK(heidrunok_recover(words, n, older, sizeof older - 1, &length, &line, &byte) == 2 && length == 0 && line == 1 && byte == 0);
}

/* Words of no sound image: every call but format and recover says 1, and the questions answer zeros. */
static void unsound(void) {
    size_t length = 99, extra = 99, freed = 99, held = 99;
    uint32_t traces = 99, payload = 99, fields[4] = {9, 9, 9, 9}, names[HEIDRUNOK_NAMES + 1];
    const uint32_t zeros[HEIDRUNOK_NAMES] = {0};
    bool yes = true;
    heidrunok_operation op = heidrunok_new(0, 0, 1);
    memset(img, 0xff, sizeof img);
    memset(names, 0xff, sizeof names);
    CHECK(refuses(&op, 1, 1, 0));
    CHECK(heidrunok_open(img, WORDS, log_buffer, sizeof log_buffer, 11, &length, &extra) == 1 && length == 0 && extra == 0);
    CHECK(heidrunok_trace(img, WORDS, 0, log_buffer, sizeof log_buffer, 11, &length, &extra) == 1 && length == 0 && extra == 0);
    CHECK(heidrunok_close(img, WORDS, log_buffer, sizeof log_buffer, 11, &length, &traces, &freed, &extra) == 1 && traces == 0 && freed == 0);
    freed = 99;
    CHECK(heidrunok_local(img, WORDS, 0, log_buffer, sizeof log_buffer, 11, &length, &freed, &extra) == 1 && length == 0 && freed == 0);
    length = 99;
    CHECK(heidrunok_hold(img, WORDS, 0, 0, 0, log_buffer, sizeof log_buffer, 11, &length, &extra) == 1 && length == 0 && extra == 0);
    length = 99;
    CHECK(heidrunok_drop(img, WORDS, 0, log_buffer, sizeof log_buffer, 11, &length, &extra) == 1 && length == 0 && extra == 0);
    CHECK(heidrunok_read(img, WORDS, 0, 0, &payload, fields) == 1 && payload == 0 && memcmp(fields, zeros, sizeof fields) == 0);
    CHECK(heidrunok_ask(img, WORDS, 0, 0, &yes) == 1 && !yes);
    CHECK(heidrunok_outlist(img, WORDS, 0, &held, names) == 1 && held == 0 && memcmp(names, zeros, sizeof zeros) == 0);
    CHECK(names[HEIDRUNOK_NAMES] == UINT32_MAX);
    CHECK(kept());
    CHECK(fails("", 3, 1, 0));
}

int main(void) {
    size_t length, extra;
    CHECK(sizeof(heidrunok_operation) == 6 * sizeof(uint32_t));
    CHECK(heidrunok_format(img, WORDS, 2, 4, log_buffer, sizeof log_buffer, 0, &length, &extra) == 0 && length == 11);
    operations();
    places();
    handles();
    faults();
    unsound();
    largest();
    return failed != 0;
}
