/*
 * What the tests of the C interface share: counting what differs, looking whether bytes stayed or whether two
 * equal answers are equal by memcmp, and making a plan. Compiles as C99 and as C++.
 */
#ifndef CHECK_H
#define CHECK_H

#include "eif.h"

#include <stdio.h>
#include <string.h>

/* The value that the bytes of an output buffer have before a call. */
enum { STAYS = 0xaa };

static int failures = 0;

static inline void check(int holds, const char *what) {
    if (!holds) {
        printf("differs: %s\n", what);
        failures++;
    }
}

/* Ends a test: prints its line where nothing differs. */
static inline int ended(const char *line) {
    if (failures != 0) {
        return 1;
    }
    printf("%s\n", line);
    return 0;
}

static inline int all_are(const uint8_t *bytes, size_t length, uint8_t value) {
    for (size_t i = 0; i < length; i++) {
        if (bytes[i] != value) {
            return 0;
        }
    }
    return 1;
}

static inline int zero(const uint8_t *bytes, size_t length) { return all_are(bytes, length, 0); }

/* All bytes from begin up to end still have their first value. */
static inline int stays(const uint8_t *bytes, size_t begin, size_t end) {
    return end <= begin || all_are(bytes + begin, end - begin, STAYS);
}

/* An answer that is about no place in a file: index, position and reserved fields are 0. */
static inline int is(eif_answer answer, unsigned number, uint64_t length) {
    return answer.number == number && answer.index == 0 && answer.position == 0 &&
           answer.length == length && zero(answer.reserved, sizeof answer.reserved);
}

/* SHA-384 of bytes, or zeros where they are too many. */
static inline eif_digest sha384_of(const uint8_t *bytes, size_t length) {
    static const eif_digest none = {{0}};
    eif_sha384_fed fed = eif_sha384_update(eif_sha384_begin(), bytes, length);
    return fed.number == EIF_ACCEPTED ? eif_sha384_finish(fed.state) : none;
}

/* A plan of so many sections, before their types and lengths are put. */
static inline eif_plan begin_plan(uint16_t version, uint16_t flags, uint16_t count) {
    eif_plan plan;
    memset(&plan, 0, sizeof plan);
    plan.version = version;
    plan.flags = flags;
    plan.count = count;
    return plan;
}

static inline void put_place(eif_plan *plan, unsigned i, uint16_t type, uint64_t length) {
    plan->places[i].type = type;
    plan->places[i].length.value = length;
}

/* A plan of as many sections as there can be: kernel, command line and ramdisks, each of so many bytes. */
static inline eif_plan full_plan(uint16_t version, uint64_t length) {
    eif_plan plan = begin_plan(version, 0, EIF_MAX_SECTIONS);
    put_place(&plan, 0, EIF_KERNEL, length);
    put_place(&plan, 1, EIF_COMMAND_LINE, length);
    for (unsigned i = 2; i < EIF_MAX_SECTIONS; i++) {
        put_place(&plan, i, EIF_RAMDISK, length);
    }
    return plan;
}

static inline eif_stream_position at(uint64_t value) {
    eif_stream_position position;
    position.value = value;
    return position;
}

/* Leaves bytes on the stack, where the next call's answer is made. */
static inline unsigned soil(unsigned char byte) {
    volatile unsigned char bytes[16384];
    unsigned sum = 0;
    for (size_t i = 0; i < sizeof bytes; i++) {
        bytes[i] = byte;
    }
    for (size_t i = 0; i < sizeof bytes; i++) {
        sum += bytes[i];
    }
    return sum;
}

/* Makes a call twice, over other bytes of the stack and of the answer each time: both answers are equal by memcmp. */
#define CHECK_TWICE(one, other, call, what)                                   \
    do {                                                                      \
        memset(&(one), 0x55, sizeof(one));                                    \
        memset(&(other), 0xaa, sizeof(other));                                \
        soil(0x11);                                                           \
        (one) = (call);                                                       \
        soil(0xee);                                                           \
        (other) = (call);                                                     \
        check(memcmp(&(one), &(other), sizeof(one)) == 0, what);              \
    } while (0)

#endif
