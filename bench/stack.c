/* The stack that each call of the archive needs (bench/run stack): the call runs on a stack filled with a pattern, and the deepest byte that
 * it changes is looked for. What a function that does nothing changes is taken off; what passing the arguments takes is not.
 * The heap has 16 partitions of as many slots as the program is told. */
#include "heidrunok.h"
#include <stdio.h>
#include <stdlib.h>
#include <string.h>
#include <ucontext.h>

/* archives before W7 have none */
extern __typeof__(heidrunok_why) heidrunok_why __attribute__((weak));

#define ROOM (1 << 20)
#define PATTERN 0xa5

static uint8_t stack[ROOM], logged[1 << 16];
static uint32_t img[HEIDRUNOK_WORDS(16, 128)], slots, p, answer, payload, traces, fields[4], names[HEIDRUNOK_NAMES], chain[31], start;
static size_t words, at, length, extra, freed, held, kept, line, byte, references;
static heidrunok_operation ops[HEIDRUNOK_OPERATIONS];
static bool yes, handle;

struct call {
    const char *name;
    void (*make)(void);
    size_t stack;
};

#define CALL(name, ...)                                     \
    static void make_##name(void) {                         \
        answer = heidrunok_##name(img, words, __VA_ARGS__); \
    }                                                       \
    static struct call call_##name = {#name, make_##name, 0};
#define LOG logged, sizeof logged, at, &length

CALL(format, 16, slots, LOG, &extra)
CALL(commit, ops, HEIDRUNOK_OPERATIONS, LOG, &extra)
CALL(open, LOG, &extra)
CALL(trace, p, LOG, &extra)
CALL(close, LOG, &traces, &freed, &extra)
CALL(local, p, LOG, &freed, &extra)
CALL(hold, 31, 15, slots - 1, LOG, &extra)
CALL(drop, 31, LOG, &extra)
CALL(recover, logged, at, &kept, &line, &byte)
CALL(read, 15, slots - 1, &payload, fields)
CALL(ask, 15, slots - 1, &yes)
CALL(outlist, p, &held, names)
CALL(why, 14, slots - 9, chain, 31, &handle, &start, &references)

static void nothing(void) {}

/* how deep a function changes the stack that it runs on */
static size_t depth(void (*f)(void)) {
    ucontext_t here, there;
    size_t untouched = 0;
    memset(stack, PATTERN, ROOM);
    getcontext(&there);
    there.uc_stack.ss_sp = stack;
    there.uc_stack.ss_size = ROOM;
    there.uc_link = &here;
    makecontext(&there, f, 0);
    swapcontext(&here, &there);
    while (stack[untouched] == PATTERN) untouched++;
    return ROOM - untouched;
}

/* makes a call, which is accepted; of several the deepest counts */
static void make(struct call *c) {
    length = 0;
    size_t bytes = depth(c->make) - depth(nothing);
    if (answer != 0) {
        fprintf(stderr, "%s is refused with %u\n", c->name, answer);
        exit(1);
    }
    if (bytes > c->stack) c->stack = bytes;
    at += length;
}

/* a commit: 16 new objects in the last two partitions, a chain across both from the slot `top` down, and a root to its end */
static void commit_chain(uint32_t top) {
    for (uint32_t i = 0; i < 16; i++) ops[i] = heidrunok_new(14 + i % 2, top - i / 2, UINT32_MAX);
    for (uint32_t i = 1; i < 16; i++) ops[15 + i] = heidrunok_set(14 + i % 2, top - i / 2, 3, 15 - i % 2, top - (i - 1) / 2);
    ops[31] = heidrunok_root(15, 15, top - 7);
    make(&call_commit);
}

/* the lowest partition that is not clean, or 16 */
static uint32_t unclean(void) {
    uint32_t q = 0;
    while (q < 16 && img[21 + q] != 0) q++;
    return q;
}

int main(int n, char **args) {
    slots = n > 1 ? (uint32_t)atoi(args[1]) : 128;
    words = HEIDRUNOK_WORDS(16, slots);
    make(&call_format);
    commit_chain(slots - 1);
    make(&call_hold);
    for (p = 0; p < 16; p++) make(&call_local);
    make(&call_open);
    commit_chain(slots - 9);
    make(&call_hold);
    while ((p = unclean()) < 16) make(&call_trace);
    make(&call_close);
    for (p = 0; p < 16; p++) make(&call_outlist);
    make(&call_read);
    make(&call_ask);
    if (heidrunok_why) make(&call_why);
    make(&call_drop);
    make(&call_recover);
    struct call *all[] = {&call_format, &call_commit, &call_open, &call_trace, &call_close, &call_local, &call_hold,
                          &call_drop, &call_recover, &call_read, &call_ask, &call_outlist, &call_why};
    for (size_t k = 0; k < sizeof all / sizeof *all; k++) {
        printf("%s\t", all[k]->name);
        if (all[k]->stack > 0) printf("%zu", all[k]->stack);
        puts("");
    }
    return 0;
}
