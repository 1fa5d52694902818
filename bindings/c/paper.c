/* The paper's example from C: three objects in a chain, a phase of the collector, a partition freed on its own, a restore session, a crash.
 * Prints bindings/paper.txt. */
#include "heidrunok.h"
#include <stdio.h>
#include <string.h>

#define WORDS HEIDRUNOK_WORDS(2, 4)

static uint32_t img[WORDS];
static uint8_t log_buffer[400];
static size_t end; /* where the next record goes */
static size_t length, extra;

static void refused(const char *what, uint32_t number, const char *place) {
    if (*place != '\0') {
        printf("%s: refused %u, %s %zu: %s\n", what, (unsigned)number, place, extra, heidrunok_refusal(number));
    } else {
        printf("%s: refused %u: %s\n", what, (unsigned)number, heidrunok_refusal(number));
    }
}

/* A console stores the record's bytes here, and syncs. */
static void logged(const char *what, uint32_t number, const char *place) {
    if (number != 0) {
        refused(what, number, place);
        return;
    }
    end += length;
    printf("%s: %zu bytes, the log has %zu\n", what, length, end);
}

static void commit(const char *what, const heidrunok_operation *ops, size_t n) {
    uint32_t number = heidrunok_commit(img, WORDS, ops, n, log_buffer, sizeof log_buffer, end, &length, &extra);
    logged(what, number, extra != 0 ? "operation" : "");
}

static void trace(const char *what, uint32_t partition) {
    logged(what, heidrunok_trace(img, WORDS, partition, log_buffer, sizeof log_buffer, end, &length, &extra), "");
}

static void close_phase(void) {
    uint32_t traces;
    size_t freed;
    uint32_t number = heidrunok_close(img, WORDS, log_buffer, sizeof log_buffer, end, &length, &traces, &freed, &extra);
    logged("close", number, number == 14 ? "partition" : "");
    if (number == 0) {
        printf("close: %u traces, %zu freed\n", (unsigned)traces, freed);
    }
}

static void local(const char *what, uint32_t partition) {
    size_t freed;
    uint32_t number = heidrunok_local(img, WORDS, partition, log_buffer, sizeof log_buffer, end, &length, &freed, &extra);
    logged(what, number, "");
    if (number == 0) {
        printf("%s: %zu freed\n", what, freed);
    }
}

static void hold(const char *what, uint32_t handle, uint32_t p, uint32_t s) {
    logged(what, heidrunok_hold(img, WORDS, handle, p, s, log_buffer, sizeof log_buffer, end, &length, &extra), "");
}

static void drop(const char *what, uint32_t handle) {
    logged(what, heidrunok_drop(img, WORDS, handle, log_buffer, sizeof log_buffer, end, &length, &extra), "");
}

static void ask(const char *what, uint32_t p, uint32_t s) {
    bool yes;
    uint32_t number = heidrunok_ask(img, WORDS, p, s, &yes);
    if (number != 0) {
        refused(what, number, "");
    } else {
        printf("%s: %s\n", what, yes ? "yes" : "no");
    }
}

static void print_name(uint32_t name) {
    if (name == 0) {
        printf(" -");
    } else {
        printf(" %u.%u", (unsigned)((name - 1) / HEIDRUNOK_RADIX), (unsigned)((name - 1) % HEIDRUNOK_RADIX));
    }
}

static void read_first(void) {
    uint32_t payload, fields[4];
    uint32_t number = heidrunok_read(img, WORDS, 0, 0, &payload, fields);
    if (number != 0) {
        refused("read 0.0", number, "");
        return;
    }
    printf("read 0.0: payload %u, fields", (unsigned)payload);
    for (int k = 0; k < 4; k++) {
        print_name(fields[k]);
    }
    printf("\n");
}

static void outlist(const char *what, uint32_t partition) {
    size_t held;
    uint32_t names[HEIDRUNOK_NAMES];
    uint32_t number = heidrunok_outlist(img, WORDS, partition, &held, names);
    if (number != 0) {
        refused(what, number, "");
        return;
    }
    printf("%s: %zu held", what, held);
    for (size_t i = 0; i < held; i++) {
        print_name(names[i]);
    }
    printf("\n");
}

static uint32_t again[WORDS];

static void recover(const char *what, size_t bytes) {
    size_t byte;
    uint32_t number = heidrunok_recover(again, WORDS, log_buffer, bytes, &length, &extra, &byte);
    if (number == 3 || number == 4) {
        printf("%s: refused %u, line %zu, byte %zu: %s\n", what, (unsigned)number, extra, byte, heidrunok_refusal(number));
    } else if (number != 0) {
        refused(what, number, "line");
    } else {
        printf("%s: kept %zu\n", what, length);
    }
}

int main(void) {
    const heidrunok_operation chain[] = {
        heidrunok_new(0, 0, 10),      heidrunok_new(1, 0, 20),      heidrunok_new(0, 1, 30),
        heidrunok_set(0, 0, 0, 1, 0), heidrunok_set(1, 0, 0, 0, 1), heidrunok_root(0, 0, 0),
    };
    const heidrunok_operation stray[] = {heidrunok_new(1, 1, 40)};
    const heidrunok_operation cycle[] = {
        heidrunok_new(0, 2, 50),
        heidrunok_new(0, 3, 60),
        heidrunok_set(0, 2, 0, 0, 3),
        heidrunok_set(0, 3, 0, 0, 2),
    };
    const heidrunok_operation expiry[] = {heidrunok_new(1, 2, 70), heidrunok_root(1, 1, 2), heidrunok_unroot(0)};
    const heidrunok_operation too_large[] = {heidrunok_unroot(16)};
    heidrunok_operation many[HEIDRUNOK_OPERATIONS + 1];
    for (size_t i = 0; i <= HEIDRUNOK_OPERATIONS; i++) {
        many[i] = stray[0];
    }

    logged("format", heidrunok_format(img, WORDS, 2, 4, log_buffer, sizeof log_buffer, end, &length, &extra), "");
    commit("commit of the chain", chain, 6);
    commit("commit of a stray", stray, 1);
    commit("the same again", stray, 1);
    commit("a root too large", too_large, 1);
    commit("33 operations", many, 33);
    read_first();
    ask("ask 0.1", 0, 1);
    ask("ask 1.1", 1, 1);
    outlist("outlist 1", 1);
    outlist("outlist 2", 2);
    logged("open", heidrunok_open(img, WORDS, log_buffer, sizeof log_buffer, end, &length, &extra), "");
    close_phase();
    trace("trace 1", 1);
    trace("trace 0", 0);
    trace("trace 0", 0);
    trace("trace 1", 1);
    trace("trace 0", 0);
    close_phase();
    ask("ask 1.1", 1, 1);
    commit("commit of a cycle", cycle, 4);
    local("local 0", 0);
    local("local 0", 0);
    local("local 2", 2);
    hold("hold of 1.0", 0, 1, 0);
    hold("hold of 1.1", 1, 1, 1);
    hold("a handle too large", 32, 1, 0);
    commit("the root expires", expiry, 3);
    local("local 0", 0);
    local("local 1", 1);
    ask("ask 0.1", 0, 1);
    drop("drop", 0);
    local("local 1", 1);
    ask("ask 0.1", 0, 1);
    recover("recovery of 5 bytes", 5);
    recover("recovery of 100 bytes", 100);
    recover("recovery of all", end);
    printf("every word as before: %s\n", memcmp(img, again, sizeof img) == 0 ? "yes" : "no");
    return 0;
}
