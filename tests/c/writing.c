/*
 * Writing in pieces, through the C interface: however data and buffers are cut, the image is that of eif_write, or the
 * staged image written afresh; refusals; data past the sum; layout, null pointers with length 0. Compiles as C99 and as
 * C++.
 * Prints one line and ends with status 0, or says what differs and ends with status 1.
 */
#include "check.h"

/* The layout, as the Rust interface has it. A wrong size is a negative array length. */
typedef char layout_of_writing[sizeof(eif_writing) == 1104 ? 1 : -1];
typedef char layout_of_places[offsetof(eif_writing, places) == 40 ? 1 : -1];
typedef char layout_of_header[offsetof(eif_writing, header) == 552 ? 1 : -1];
typedef char layout_of_checksum[offsetof(eif_writing, checksum) == 1100 ? 1 : -1];
typedef char layout_of_begun[sizeof(eif_writing_begun) == 1136 ? 1 : -1];
typedef char layout_of_begun_answer[offsetof(eif_writing_begun, answer) == 1104 ? 1 : -1];
typedef char layout_of_stepped[sizeof(eif_writing_stepped) == 1120 ? 1 : -1];
typedef char layout_of_taken[offsetof(eif_writing_stepped, taken) == 1104 ? 1 : -1];
typedef char layout_of_written[offsetof(eif_writing_stepped, written) == 1112 ? 1 : -1];
typedef char layout_of_staged[sizeof(eif_staged_writing) == 1112 ? 1 : -1];
typedef char layout_of_staged_replaced[offsetof(eif_staged_writing, replaced) == 1104 ? 1 : -1];
typedef char layout_of_staged_begun[sizeof(eif_staged_writing_begun) == 1144 ? 1 : -1];
typedef char layout_of_staged_answer[offsetof(eif_staged_writing_begun, answer) == 1112 ? 1 : -1];
typedef char layout_of_staged_stepped[sizeof(eif_staged_writing_stepped) == 1120 ? 1 : -1];
typedef char layout_of_staged_written[offsetof(eif_staged_writing_stepped, written) == 1112 ? 1 : -1];

enum { ROOM = 1024, DATA = 9, COUNT = 4, LENGTH = EIF_HEADER_LENGTH + COUNT * EIF_SECTION_HEADER_LENGTH + DATA };

static uint8_t expected[ROOM], image[ROOM];
static size_t image_length;
static const char data[] = "kernquiet";
static const uint8_t *const bytes = (const uint8_t *)data;

/* A kernel, an empty ramdisk, a command line and an empty ramdisk. */
static eif_plan plan_of(void) {
    eif_plan plan = begin_plan(2, 7, COUNT);
    put_place(&plan, 0, EIF_KERNEL, 4);
    put_place(&plan, 1, EIF_RAMDISK, 0);
    put_place(&plan, 2, EIF_COMMAND_LINE, 5);
    put_place(&plan, 3, EIF_RAMDISK, 0);
    return plan;
}

static void put_checksum(uint64_t checksum) {
    for (unsigned i = 0; i < 4; i++) {
        image[EIF_CHECKSUM_POSITION + i] = (uint8_t)(checksum >> (24 - 8 * i));
    }
}

/* Adds the first bytes of a step's output to the image. */
static void add(const uint8_t *out, uint64_t written, size_t room) {
    check(written <= room && image_length + written <= sizeof image, "a step stays in its buffer");
    check(stays(out, (size_t)written, ROOM), "later bytes stay");
    memcpy(image + image_length, out, (size_t)written);
    image_length += (size_t)written;
}

/* Writes the image with pieces of `piece` bytes and buffers of `room` bytes. Answers the checksum, and how many bytes of data
 * were taken of one more than there are. */
static uint64_t write_by(uint32_t checksum, size_t piece, size_t room, size_t *taken) {
    uint8_t out[ROOM];
    eif_writing_begun begun = eif_writing_begin(plan_of(), checksum);
    eif_writing state = begun.state;
    check(is(begun.answer, EIF_ACCEPTED, LENGTH), "the length");
    image_length = *taken = 0;
    for (unsigned steps = 0; steps < 4 * LENGTH && image_length < LENGTH; steps++) {
        /* The byte after the data is lent too. */
        size_t left = sizeof data - *taken;
        eif_writing_stepped done;
        memset(out, STAYS, sizeof out);
        done = eif_writing_step(state, bytes + *taken, left < piece ? left : piece, out, room);
        add(out, done.written, room);
        *taken += (size_t)done.taken;
        state = done.state;
        check(eif_writing_finish(state).number == (*taken == DATA ? EIF_ACCEPTED : EIF_DATA_LENGTH_DIFFERS),
              "data is missing, or is not");
    }
    check(image_length == LENGTH && state.data_left == 0, "the image is complete");
    check(eif_writing_step(state, bytes, sizeof data, out, sizeof out).written == 0, "nothing after the end");
    return eif_writing_finish(state).length;
}

static void try_cuts(void) {
    static const size_t rooms[] = {12, 13, 50, 547, 548, 549, ROOM};
    uint64_t checksum;
    size_t taken;
    check(is(eif_write(plan_of(), bytes, DATA, expected, sizeof expected), EIF_ACCEPTED, LENGTH), "the whole image");
    for (size_t piece = 1; piece <= sizeof data; piece++) {
        for (size_t i = 0; i < sizeof rooms / sizeof rooms[0]; i++) {
            checksum = write_by(0, piece, rooms[i], &taken);
            check(taken == DATA, "data past the sum is not taken");
            check(zero(image + EIF_CHECKSUM_POSITION, 4), "0 in the checksum field");
            put_checksum(checksum);
            check(memcmp(image, expected, LENGTH) == 0, "the image, its checksum put afterwards");
            check(write_by((uint32_t)checksum, piece, rooms[i], &taken) == checksum, "the checksum again");
            check(memcmp(image, expected, LENGTH) == 0, "the image, begun with its checksum");
        }
    }
}

/* A buffer of 11 bytes takes the image's header and data, and no section's own header. */
static void try_room(void) {
    uint8_t out[ROOM];
    eif_writing state = eif_writing_begin(plan_of(), 0).state;
    uint64_t written = 0;
    for (unsigned steps = 0; steps < EIF_HEADER_LENGTH; steps++) {
        eif_writing_stepped done = eif_writing_step(state, bytes, DATA, out, EIF_SECTION_HEADER_LENGTH - 1);
        written += done.written;
        check(done.taken == 0, "no data before a section's own header");
        state = done.state;
    }
    check(written == EIF_HEADER_LENGTH && state.sections_begun == 0, "no room for a section's own header");
}

static void try_refused(eif_plan plan, unsigned number, uint64_t index) {
    uint8_t out[ROOM];
    eif_writing_begun begun = eif_writing_begin(plan, 7);
    eif_writing_stepped done;
    memset(out, STAYS, sizeof out);
    check(begun.answer.number == number && begun.answer.index == index && begun.answer.length == 0, "refused plan");
    check(begun.state.header_written == EIF_HEADER_LENGTH && begun.state.count == 0 && begun.state.data_left == 0 &&
              begun.state.checksum == 0 && zero(begun.state.header, sizeof begun.state.header),
          "the state of a refused plan");
    done = eif_writing_step(begun.state, bytes, DATA, out, sizeof out);
    check(done.taken == 0 && done.written == 0 && stays(out, 0, sizeof out), "a refused plan writes nothing");
    check(is(eif_writing_finish(begun.state), EIF_DATA_LENGTH_DIFFERS, 0), "a refused plan has no checksum");
}

static void try_order(void) {
    eif_plan plan = plan_of();
    plan.places[3].length.value = EIF_MAX_IMAGE_LENGTH - LENGTH;
    check(is(eif_writing_begin(plan, 0).answer, EIF_ACCEPTED, EIF_MAX_IMAGE_LENGTH), "the longest image");
    plan.places[3].length.value++;
    try_refused(plan, EIF_IMAGE_TOO_LONG, 0);
    plan.places[0].type = EIF_RAMDISK;
    try_refused(plan, EIF_RAMDISK_BEFORE_KERNEL, 0);
    plan.places[3].type = 9;
    try_refused(plan, EIF_RAMDISK_BEFORE_KERNEL, 0);
    plan.count = 33;
    try_refused(plan, EIF_WRONG_COUNT, 0);
    plan.version = 5;
    try_refused(plan, EIF_WRONG_VERSION, 0);
}

/* The command line replaced, with buffers of `room` bytes. */
static void try_staged(const char *replacement, size_t room) {
    static uint8_t afresh[ROOM];
    const uint8_t *part = (const uint8_t *)replacement;
    size_t part_length = strlen(replacement), length = LENGTH - 5 + part_length;
    eif_staged_writing_begun begun = eif_staged_writing_begin(expected, LENGTH, part, part_length, 2, 0);
    eif_staged_writing state = begun.state;
    eif_plan plan = plan_of();
    uint8_t out[ROOM], joined[ROOM];
    check(is(begun.answer, EIF_ACCEPTED, length), "the length of the image written afresh");
    check(state.replaced == 2, "the replaced section's number");
    memcpy(joined, data, 4);
    memcpy(joined + 4, part, part_length);
    put_place(&plan, 2, EIF_COMMAND_LINE, part_length);
    check(eif_write(plan, joined, 4 + part_length, afresh, sizeof afresh).length == length, "the image afresh");
    image_length = 0;
    for (unsigned steps = 0; steps < 4 * ROOM && image_length < length; steps++) {
        eif_staged_writing_stepped done;
        memset(out, STAYS, sizeof out);
        done = eif_staged_writing_step(state, expected, LENGTH, part, part_length, out, room);
        add(out, done.written, room);
        state = done.state;
    }
    check(eif_staged_writing_finish(state).number == EIF_ACCEPTED, "the staged image is complete");
    put_checksum(eif_staged_writing_finish(state).length);
    check(image_length == length && memcmp(image, afresh, length) == 0, "the staged image");
    check(eif_staged_writing_step(state, expected, LENGTH, part, part_length, out, ROOM).written == 0,
          "nothing after the end of a staged image");
}

static void try_staged_refused(size_t base_length, uint64_t replaced, unsigned number) {
    eif_staged_writing_begun begun = eif_staged_writing_begin(expected, base_length, bytes, DATA, replaced, 7);
    uint8_t out[ROOM];
    check(begun.answer.number == number && begun.answer.length == 0, "refused base");
    check(begun.state.writing.header_written == EIF_HEADER_LENGTH && begun.state.writing.count == 0 &&
              begun.state.replaced == 0,
          "the state of a refused base");
    check(eif_staged_writing_step(begun.state, expected, LENGTH, bytes, DATA, out, ROOM).written == 0,
          "a refused base writes nothing");
    check(is(eif_staged_writing_finish(begun.state), EIF_DATA_LENGTH_DIFFERS, 0), "a refused base has no checksum");
}

/* A state that no run reaches: `begun` sections begun, `replaced` replaced, and a base of `base_length` bytes.
 * Its step writes data alone. */
static void try_staged_any(uint64_t begun, uint64_t replaced, size_t base_length, const char *written) {
    eif_staged_writing state = eif_staged_writing_begin(expected, LENGTH, bytes, DATA, 2, 0).state;
    eif_staged_writing_stepped done;
    uint8_t out[ROOM];
    size_t length = strlen(written);
    state.writing.header_written = EIF_HEADER_LENGTH;
    state.writing.sections_begun = begun;
    state.writing.section_left = 3;
    state.replaced = replaced;
    memset(out, STAYS, sizeof out);
    done = eif_staged_writing_step(state, expected, base_length, bytes, DATA, out, ROOM);
    check(done.written == length && memcmp(out, written, length) == 0 && stays(out, length, ROOM),
          "the data of any state");
    check(done.state.replaced == replaced && done.state.writing.section_left == 3 - length, "any state after a step");
}

/* The kernel's data is "kern", at the offset 548 of the base's table; the replacement is "kernquiet". */
static void try_staged_states(void) {
    enum { KERNEL_DATA = EIF_HEADER_LENGTH + EIF_SECTION_HEADER_LENGTH, TABLE = 28 };
    try_staged_any(0, 2, LENGTH, "ern");
    try_staged_any(1, 2, LENGTH, "ern");
    try_staged_any(1, UINT64_MAX, LENGTH, "ern");
    try_staged_any(0, 0, LENGTH, "iet");
    try_staged_any(1, 0, 0, "iet");
    try_staged_any(33, 32, LENGTH, "iet");
    try_staged_any(UINT64_MAX, UINT64_MAX - 1, LENGTH, "iet");
    try_staged_any(33, 2, LENGTH, "");
    try_staged_any(UINT64_MAX, UINT64_MAX, LENGTH, "");
    try_staged_any(32, 2, LENGTH, "");
    try_staged_any(1, 2, KERNEL_DATA + 2, "ke");
    try_staged_any(1, 2, KERNEL_DATA, "");
    try_staged_any(1, 2, TABLE + 8, "");
    try_staged_any(1, 2, 0, "");
}

static void try_null(void) {
    eif_writing_begun begun = eif_writing_begin(plan_of(), 0);
    eif_staged_writing state = eif_staged_writing_begin(expected, LENGTH, NULL, 0, 2, 0).state;
    check(eif_writing_step(begun.state, NULL, 0, NULL, 0).written == 0, "a step with nothing");
    check(eif_staged_writing_begin(NULL, 0, NULL, 0, 0, 0).answer.number == EIF_IMAGE_TOO_SHORT, "no base");
    check(eif_staged_writing_step(state, NULL, 0, NULL, 0, NULL, 0).written == 0, "a staged step with nothing");
}

int main(void) {
    try_cuts();
    try_room();
    try_order();
    try_staged("quieter", 12);
    try_staged("quieter", 100);
    try_staged("", 13);
    try_staged("quiet", ROOM);
    try_staged_refused(LENGTH - 1, 0, EIF_ENDS_LATE);
    try_staged_refused(LENGTH, COUNT, EIF_NO_SUCH_SECTION);
    try_staged_states();
    try_null();
    return ended("writing: in pieces, as whole");
}
