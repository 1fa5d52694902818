/* The proved backup catalogue, for C99 and C++: link libheidrunok.a (`rt lib` in crates/heidrunok; bindings/README.md).
 *
 * Every call returns 0 where it is accepted, else the number of the refusal (1 to 17; heidrunok_refusal says it in words), and writes what it
 * answers through its last pointers. Refused, it writes zeros there, but for *extra: the position of the operation, counted from 1 (commit: 7,
 * 8, 9), or the lowest partition that is not clean (close: 14), else 0; recovery says the line, and the byte within it. A refused call leaves
 * image and log as they were; a refused recovery leaves zeros in the image.
 *
 * A call that is logged writes its record into the log buffer from byte `at` on and answers the record's length: store these bytes, and make
 * the next such call at at + length.
 *
 * What the caller owes, since C can't say it: no pointer is NULL, also with length 0; img has `words` words, log `bytes` bytes and ops n
 * operations; what the pointers of one call name does not overlap; no other thread touches it during the call. Nothing else: any words, any
 * bytes, any numbers.
 */
#ifndef HEIDRUNOK_H
#define HEIDRUNOK_H
#include <stdbool.h>
#include <stddef.h>
#include <stdint.h>

#ifdef __cplusplus
extern "C" {
#endif

/* How many words an image of P partitions (1 to 16) of S slots (1 to 128) has. */
#define HEIDRUNOK_WORDS(P, S) (69 + 7 * (size_t)(P) * (size_t)(S))
/* The most operations of one commit. */
#define HEIDRUNOK_OPERATIONS 32
/* The most names of an outlist. */
#define HEIDRUNOK_NAMES 512
/* A name is the number HEIDRUNOK_RADIX * q + t + 1 of the object (q, t), and 0 for nothing. */
#define HEIDRUNOK_RADIX 128
/* How many session handles there are: 0 to 31. */
#define HEIDRUNOK_HANDLES 32

/* Made by the six functions below. Zeroed memory is no operation, and is refused with 7. */
typedef struct {
    uint32_t kind, a, b, c, d, e;
} heidrunok_operation;

static inline heidrunok_operation heidrunok_new(uint32_t p, uint32_t s, uint32_t payload) {
    heidrunok_operation o = {1, p, s, payload, 0, 0};
    return o;
}
/* field f of the object (p, s) refers to the object (q, t) */
static inline heidrunok_operation heidrunok_set(uint32_t p, uint32_t s, uint32_t f, uint32_t q, uint32_t t) {
    heidrunok_operation o = {2, p, s, f, q, t};
    return o;
}
static inline heidrunok_operation heidrunok_clr(uint32_t p, uint32_t s, uint32_t f) {
    heidrunok_operation o = {3, p, s, f, 0, 0};
    return o;
}
static inline heidrunok_operation heidrunok_val(uint32_t p, uint32_t s, uint32_t payload) {
    heidrunok_operation o = {4, p, s, payload, 0, 0};
    return o;
}
/* root r names the object (q, t) */
static inline heidrunok_operation heidrunok_root(uint32_t r, uint32_t q, uint32_t t) {
    heidrunok_operation o = {5, r, q, t, 0, 0};
    return o;
}
static inline heidrunok_operation heidrunok_unroot(uint32_t r) {
    heidrunok_operation o = {6, r, 0, 0, 0, 0};
    return o;
}

uint32_t heidrunok_format(uint32_t *img, size_t words, uint32_t partitions, uint32_t slots, uint8_t *log, size_t bytes, size_t at,
                          size_t *length, size_t *extra);
uint32_t heidrunok_commit(uint32_t *img, size_t words, const heidrunok_operation *ops, size_t n, uint8_t *log, size_t bytes, size_t at,
                          size_t *length, size_t *extra);
uint32_t heidrunok_open(uint32_t *img, size_t words, uint8_t *log, size_t bytes, size_t at, size_t *length, size_t *extra);
uint32_t heidrunok_trace(uint32_t *img, size_t words, uint32_t partition, uint8_t *log, size_t bytes, size_t at, size_t *length,
                         size_t *extra);
/* also answers the traces counted and the number of objects freed */
uint32_t heidrunok_close(uint32_t *img, size_t words, uint8_t *log, size_t bytes, size_t at, size_t *length, uint32_t *traces,
                         size_t *freed, size_t *extra);
/* frees the objects of one partition that neither a root or handle, nor a field of an object in another partition, nor a chain inside it from
 * either of these leads to; also answers their number */
uint32_t heidrunok_local(uint32_t *img, size_t words, uint32_t partition, uint8_t *log, size_t bytes, size_t at, size_t *length,
                         size_t *freed, size_t *extra);
/* the handle takes the object (p, s), whatever it held: that object, and all that it leads to, is freed by no close and no local collection
 * until the handle is dropped or takes another */
uint32_t heidrunok_hold(uint32_t *img, size_t words, uint32_t handle, uint32_t p, uint32_t s, uint8_t *log, size_t bytes, size_t at,
                        size_t *length, size_t *extra);
/* the handle holds nothing from now on, also where it held nothing before; frees nothing itself */
uint32_t heidrunok_drop(uint32_t *img, size_t words, uint32_t handle, uint8_t *log, size_t bytes, size_t at, size_t *length,
                        size_t *extra);
/* the kept length, where the log is to be cut and the next record goes; refused, the line, counted from 1, and with 3 and 4 the byte: the place
 * within that line, counted from 0, of the first byte that no line with a shape and the same start has there, or the line's length where it is
 * only too short or not ended (at most 20, under a heading of edition 4 at most 21; with any other number 0). With 3 the line is to be a
 * heading; an end that is torn is to be any other line, a complete line any at all */
uint32_t heidrunok_recover(uint32_t *img, size_t words, const uint8_t *log, size_t bytes, size_t *kept, size_t *line, size_t *byte);
/* the payload, and the names of what the fields refer to */
uint32_t heidrunok_read(const uint32_t *img, size_t words, uint32_t p, uint32_t s, uint32_t *payload, uint32_t fields[4]);
/* whether a root or handle leads to the object (p, s) */
uint32_t heidrunok_ask(const uint32_t *img, size_t words, uint32_t p, uint32_t s, bool *yes);
/* the objects of other partitions that fields of the partition's objects name: how many, and their names in order, unused ones 0 */
uint32_t heidrunok_outlist(const uint32_t *img, size_t words, uint32_t partition, size_t *held, uint32_t names[HEIDRUNOK_NAMES]);

static inline const char *heidrunok_refusal(uint32_t number) {
    static const char *const words[] = {
        "accepted",
        "the image is not sound",
        "partitions or slots out of range, or the image's length is not 69 + 7 P S",
        "the first line is not a heading of edition 1, 2, 3 or 4, or there is none",
        "a line without a shape, or a tail that begins none",
        "a heading again, a collector or session line within a transaction, or an end without operations",
        "no operation or more than 32, or the end's number is wrong",
        "a partition, slot, field, root or handle number is too large",
        "the slot is in use",
        "the object is not in use",
        "no phase is open",
        "a phase is open already",
        "no root is in use",
        "the partition is clean",
        "a partition is not clean",
        "the traces equal the allowance",
        "a root, a handle or a marked object refers to an unmarked one",
        "the record does not fit from that place",
    };
    return number < sizeof words / sizeof *words ? words[number] : "no such refusal";
}

#ifdef __cplusplus
}
#endif
#endif
