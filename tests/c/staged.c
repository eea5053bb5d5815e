/*
 * One section replaced, through the C interface: where each section's data lies; roll, registers and fingerprint of the
 * image written afresh; refusals in their order; layout, null pointers with length 0, answers without
 * padding. Compiles as C99 and as C++.
 * Prints one line and ends with status 0, or says what differs and ends with status 1.
 */
#include "check.h"

enum {
    COUNT = 4,
    BASE_LENGTH = EIF_HEADER_LENGTH + COUNT * EIF_SECTION_HEADER_LENGTH + 6 + 5 + 3 + 5,
    ROOM = 1024
};

/* The layout, as the Rust interface has it. A wrong size is a negative array length. */
typedef char layout_of_part[sizeof(eif_staged_part_answer) == 40 ? 1 : -1];
typedef char layout_of_index[offsetof(eif_staged_part_answer, index) == 8 ? 1 : -1];
typedef char layout_of_start[offsetof(eif_staged_part_answer, start) == 24 ? 1 : -1];
typedef char layout_of_length[offsetof(eif_staged_part_answer, length) == 32 ? 1 : -1];

static const char mended[] = "the mended ramdisk";
enum { MENDED = sizeof mended - 1 };

static uint8_t base[BASE_LENGTH], afresh[ROOM];
static size_t afresh_length;
static const uint8_t *bytes_of(const char *text) { return (const uint8_t *)text; }

/* Kernel, command line and two ramdisks, of which the first has so many bytes. */
static eif_plan plan_of(uint64_t ramdisk) {
    static const uint16_t types[COUNT] = {EIF_KERNEL, EIF_COMMAND_LINE, EIF_RAMDISK, EIF_RAMDISK};
    static const uint64_t lengths[COUNT] = {6, 5, 0, 5};
    eif_plan plan = begin_plan(2, 1, COUNT);
    for (unsigned i = 0; i < COUNT; i++) {
        put_place(&plan, i, types[i], i == 2 ? ramdisk : lengths[i]);
    }
    return plan;
}

static void prepare(void) {
    eif_answer answer = eif_write(plan_of(3), bytes_of("kernelquietoldother"), 19, base, sizeof base);
    check(is(answer, EIF_ACCEPTED, BASE_LENGTH), "base");
    answer = eif_write(plan_of(MENDED), bytes_of("kernelquietthe mended ramdiskother"), 16 + MENDED,
                       afresh, sizeof afresh);
    check(is(answer, EIF_ACCEPTED, BASE_LENGTH - 3 + MENDED), "the image written afresh");
    afresh_length = (size_t)answer.length;
}

/* Each section's data is that of the image written afresh, and lies in one of the two slices. */
static void try_parts(void) {
    eif_reading reading = eif_read(afresh, afresh_length);
    for (unsigned shown = 0; shown < COUNT; shown++) {
        eif_staged_part_answer part = eif_staged_part(base, sizeof base, MENDED, 2, shown);
        const uint8_t *held = part.in_replacement ? bytes_of(mended) : base;
        eif_section section = reading.sections[shown];
        check(part.number == EIF_ACCEPTED && part.index == 0 && part.position == 0, "part");
        check(part.in_replacement == (shown == 2), "which of the two");
        check(part.length.value == section.length.value, "length of a part");
        check(memcmp(held + part.start, afresh + section.position.value,
                     (size_t)part.length.value) == 0, "data of a part");
    }
}

static void try_roll(void) {
    static uint8_t expected[ROOM], out[ROOM];
    eif_answer roll = eif_roll_write(afresh, afresh_length, expected, sizeof expected);
    size_t length = (size_t)roll.length;
    check(is(eif_staged_roll_length(base, sizeof base, bytes_of(mended), MENDED, 2), EIF_ACCEPTED,
             length), "roll's length");
    memset(out, STAYS, sizeof out);
    check(is(eif_staged_roll_write(base, sizeof base, bytes_of(mended), MENDED, 2, out, length - 1),
             EIF_OUTPUT_TOO_SHORT, 0), "a byte too little room");
    check(is(eif_staged_roll_write(base, sizeof base, bytes_of(mended), MENDED, COUNT, out, 0),
             EIF_NO_SUCH_SECTION, 0), "no such section, before a short output");
    check(stays(out, 0, sizeof out), "output of a refused roll");
    check(is(eif_staged_roll_write(base, sizeof base, bytes_of(mended), MENDED, 2, out, sizeof out),
             EIF_ACCEPTED, length), "roll");
    check(memcmp(out, expected, length) == 0, "the roll's bytes");
    check(stays(out, length, sizeof out), "output past the roll");
}

static void try_registers(void) {
    eif_registers_answer expected = eif_registers(afresh, afresh_length);
    eif_registers_answer found = eif_staged_registers(base, sizeof base, bytes_of(mended), MENDED, 2);
    check(memcmp(&found, &expected, sizeof found) == 0, "registers");
    expected = eif_registers(base, sizeof base);
    found = eif_staged_registers(base, sizeof base, bytes_of("old"), 3, 2);
    check(memcmp(&found, &expected, sizeof found) == 0, "registers with its own data");
}

static void try_fingerprint(void) {
    eif_fingerprint expected = eif_image_fingerprint(afresh, afresh_length);
    eif_fingerprint found = eif_staged_fingerprint(base, sizeof base, bytes_of(mended), MENDED, 2);
    check(found.number == EIF_ACCEPTED, "fingerprint accepted");
    check(memcmp(&found, &expected, sizeof found) == 0, "fingerprint");
    expected = eif_image_fingerprint(base, sizeof base);
    found = eif_staged_fingerprint(base, sizeof base, bytes_of("old"), 3, 2);
    check(memcmp(&found, &expected, sizeof found) == 0, "fingerprint with its own data");
    memset(&expected, 0, sizeof expected);
    expected.number = EIF_NO_SUCH_SECTION;
    found = eif_staged_fingerprint(base, sizeof base, bytes_of(mended), MENDED, COUNT);
    check(memcmp(&found, &expected, sizeof found) == 0, "fingerprint with no such section");
}

/* The worked example (FORMAT.md, Staging) with section 2, the empty ramdisk, replaced by 72 73: the fingerprint is
 * the SHA-384 of the roll. */
static void try_worked(void) {
    static const uint16_t types[] = {EIF_KERNEL, EIF_COMMAND_LINE, EIF_RAMDISK};
    enum { WORKED = 586, ROLL = 56 };
    static uint8_t worked[WORKED], roll[ROLL];
    eif_plan plan = begin_plan(2, 0, 3);
    for (unsigned i = 0; i < 3; i++) {
        put_place(&plan, i, types[i], i < 2);
    }
    check(is(eif_write(plan, bytes_of("Ka"), 2, worked, sizeof worked), EIF_ACCEPTED, WORKED), "worked base");
    check(is(eif_staged_roll_write(worked, sizeof worked, bytes_of("rs"), 2, 2, roll, sizeof roll), EIF_ACCEPTED,
             ROLL), "roll of the worked base");
    eif_sha384_fed fed = eif_sha384_update(eif_sha384_begin(), roll, sizeof roll);
    eif_digest digest = eif_sha384_finish(fed.state);
    eif_fingerprint found = eif_staged_fingerprint(worked, sizeof worked, bytes_of("rs"), 2, 2);
    check(fed.number == EIF_ACCEPTED && found.number == EIF_ACCEPTED, "fingerprint of the worked base accepted");
    check(memcmp(&found.digest, &digest, sizeof digest) == 0, "fingerprint of the worked base");
}

/* Beside a refusal all else is 0. */
static void try_refused(size_t base_length, uint64_t size, uint64_t replaced, uint64_t shown,
                        unsigned number, uint64_t index, uint64_t position, const char *what) {
    eif_staged_part_answer blank, part = eif_staged_part(base, base_length, size, replaced, shown);
    memset(&blank, 0, sizeof blank);
    blank.number = (uint8_t)number;
    blank.index = index;
    blank.position = position;
    check(memcmp(&part, &blank, sizeof part) == 0, what);
}

static void try_order(void) {
    uint64_t most = EIF_MAX_IMAGE_LENGTH - (BASE_LENGTH - 3);
    try_refused(EIF_HEADER_LENGTH - 1, UINT64_MAX, 9, 9, EIF_IMAGE_TOO_SHORT, 0, 0, "a base that is no image");
    try_refused(BASE_LENGTH - 1, UINT64_MAX, 9, 9, EIF_ENDS_LATE, 3, 52, "a base that is cut");
    try_refused(BASE_LENGTH, UINT64_MAX, COUNT, 0, EIF_NO_SUCH_SECTION, 0, 0, "replaced, the count");
    try_refused(BASE_LENGTH, UINT64_MAX, 0, COUNT, EIF_NO_SUCH_SECTION, 0, 0, "shown, the count");
    try_refused(BASE_LENGTH, 3, UINT64_MAX, 0, EIF_NO_SUCH_SECTION, 0, 0, "replaced, the most");
    try_refused(BASE_LENGTH, most + 1, 2, 0, EIF_IMAGE_TOO_LONG, 0, 0, "a byte more than the longest");
    try_refused(BASE_LENGTH, UINT64_MAX, 2, 2, EIF_IMAGE_TOO_LONG, 0, 0, "the most bytes");
    check(eif_staged_part(base, sizeof base, most, 2, 2).length.value == most, "the longest image");
}

static void try_null(void) {
    check(eif_staged_part(NULL, 0, 0, 0, 0).number == EIF_IMAGE_TOO_SHORT, "no base");
    check(eif_staged_roll_length(base, sizeof base, NULL, 0, 2).number == EIF_ACCEPTED, "no bytes");
    check(eif_staged_registers(base, sizeof base, NULL, 0, 2).number == EIF_ACCEPTED, "no bytes");
    check(eif_staged_fingerprint(base, sizeof base, NULL, 0, 2).number == EIF_ACCEPTED, "no bytes");
    check(eif_staged_roll_write(base, sizeof base, NULL, 0, 2, NULL, 0).number ==
          EIF_OUTPUT_TOO_SHORT, "no room");
}

static void try_equal(uint64_t shown) {
    static eif_staged_part_answer one, other;
    CHECK_TWICE(one, other, eif_staged_part(base, sizeof base, MENDED, 2, shown), "equal parts by memcmp");
    check(zero(one.reserved, sizeof one.reserved), "reserved of a part");
}

int main(void) {
    prepare();
    try_parts();
    try_roll();
    try_registers();
    try_fingerprint();
    try_worked();
    try_order();
    try_null();
    try_equal(0);
    try_equal(2);
    try_equal(COUNT);
    return ended("staged: as the image written afresh");
}
