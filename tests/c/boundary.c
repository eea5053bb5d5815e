/*
 * What eif.h promises of the boundary itself: layouts, null pointers with length 0, answers without
 * padding, words. Compiles as C99 and as C++.
 * Prints one line and ends with status 0, or says what differs and ends with status 1.
 */
#include "check.h"

/* The layout of each struct, as the Rust interface has it. A wrong size is a negative array length. */
typedef char layout_of_json[sizeof(eif_json_answer) == 16 ? 1 : -1];
typedef char layout_of_json_place[offsetof(eif_json_answer, place) == 8 ? 1 : -1];
typedef char layout_of_section[sizeof(eif_section) == 24 ? 1 : -1];
typedef char layout_of_place[sizeof(eif_place) == 16 ? 1 : -1];
typedef char layout_of_plan[sizeof(eif_plan) == 544 ? 1 : -1];
typedef char layout_of_plan_places[offsetof(eif_plan, places) == 32 ? 1 : -1];
typedef char layout_of_reading[sizeof(eif_reading) == 56 + 32 * 24 ? 1 : -1];
typedef char layout_of_reading_position[offsetof(eif_reading, position) == 16 ? 1 : -1];
typedef char layout_of_reading_architecture[offsetof(eif_reading, architecture) == 52 ? 1 : -1];
typedef char layout_of_reading_sections[offsetof(eif_reading, sections) == 56 ? 1 : -1];
typedef char layout_of_arriving[sizeof(eif_arriving) == 8 + 548 + 384 + 4 + 8 ? 1 : -1];
typedef char layout_of_arriving_header[offsetof(eif_arriving, header) == 8 ? 1 : -1];
typedef char layout_of_arriving_sections[offsetof(eif_arriving, section_headers) == 556 ? 1 : -1];
typedef char layout_of_arriving_checksum[offsetof(eif_arriving, checksum) == 940 ? 1 : -1];
typedef char layout_of_arriving_ended[offsetof(eif_arriving, ended) == 944 ? 1 : -1];
typedef char layout_of_arriving_fed[sizeof(eif_arriving_fed) == 960 ? 1 : -1];
typedef char layout_of_arriving_count[offsetof(eif_arriving_fed, count) == 952 ? 1 : -1];
typedef char layout_of_arriving_finished[sizeof(eif_arriving_finished) == 952 + 824 ? 1 : -1];
typedef char layout_of_arriving_reading[offsetof(eif_arriving_finished, reading) == 952 ? 1 : -1];
typedef char layout_of_span[sizeof(eif_span) == 24 ? 1 : -1];
typedef char layout_of_span_begun[offsetof(eif_span, begun) == 16 ? 1 : -1];
typedef char layout_of_answer[sizeof(eif_answer) == 32 ? 1 : -1];
typedef char layout_of_answer_position[offsetof(eif_answer, position) == 16 ? 1 : -1];
typedef char layout_of_stream_sections[sizeof(eif_stream_sections) == 8 + 32 * 24 ? 1 : -1];
typedef char layout_of_stream_list[offsetof(eif_stream_sections, sections) == 8 ? 1 : -1];
typedef char layout_of_sha384[sizeof(eif_sha384) == 200 ? 1 : -1];
typedef char layout_of_sha384_block[offsetof(eif_sha384, block) == 64 ? 1 : -1];
typedef char layout_of_sha384_total[offsetof(eif_sha384, total) == 192 ? 1 : -1];
typedef char layout_of_sha384_fed[sizeof(eif_sha384_fed) == 224 ? 1 : -1];
typedef char layout_of_sha384_fed_state[offsetof(eif_sha384_fed, state) == 24 ? 1 : -1];
typedef char layout_of_digest[sizeof(eif_digest) == 48 ? 1 : -1];
typedef char layout_of_registers[sizeof(eif_registers_answer) == 168 ? 1 : -1];
typedef char layout_of_registers_values[offsetof(eif_registers_answer, registers) == 24 ? 1 : -1];
typedef char layout_of_measuring[sizeof(eif_measuring) == 952 + 3 * 200 ? 1 : -1];
typedef char layout_of_measuring_whole[offsetof(eif_measuring, whole) == 952 ? 1 : -1];
typedef char layout_of_measuring_app[offsetof(eif_measuring, app) == 1352 ? 1 : -1];
typedef char layout_of_measuring_fed[sizeof(eif_measuring_fed) == 1560 ? 1 : -1];
typedef char layout_of_measuring_count[offsetof(eif_measuring_fed, count) == 1552 ? 1 : -1];
typedef char layout_of_measuring_finished[sizeof(eif_measuring_finished) == 1552 + 824 + 144 ? 1 : -1];
typedef char layout_of_measuring_reading[offsetof(eif_measuring_finished, reading) == 1552 ? 1 : -1];
typedef char layout_of_measuring_registers[offsetof(eif_measuring_finished, registers) == 2376 ? 1 : -1];
typedef char layout_of_fingerprinting[sizeof(eif_fingerprinting) == 952 + 200 ? 1 : -1];
typedef char layout_of_fingerprinting_roll[offsetof(eif_fingerprinting, roll) == 952 ? 1 : -1];
typedef char layout_of_fingerprinting_fed[sizeof(eif_fingerprinting_fed) == 1160 ? 1 : -1];
typedef char layout_of_fingerprinting_count[offsetof(eif_fingerprinting_fed, count) == 1152 ? 1 : -1];
typedef char layout_of_fingerprinting_finished[sizeof(eif_fingerprinting_finished) == 1152 + 824 + 48 ? 1 : -1];
typedef char layout_of_fingerprinting_reading[offsetof(eif_fingerprinting_finished, reading) == 1152 ? 1 : -1];
typedef char layout_of_fingerprinting_digest[offsetof(eif_fingerprinting_finished, digest) == 1976 ? 1 : -1];
typedef char layout_of_fingerprint[sizeof(eif_fingerprint) == 24 + 48 ? 1 : -1];
typedef char layout_of_fingerprint_digest[offsetof(eif_fingerprint, digest) == 24 ? 1 : -1];
typedef char layout_of_roll_record[sizeof(eif_roll_record) == 24 ? 1 : -1];
typedef char layout_of_roll_reading[sizeof(eif_roll_reading) == 32 + 32 * 24 ? 1 : -1];
typedef char layout_of_roll_flags[offsetof(eif_roll_reading, flags) == 2 ? 1 : -1];
typedef char layout_of_roll_records[offsetof(eif_roll_reading, records) == 32 ? 1 : -1];

/* The image and its roll, and the image's beginning that is a byte too short for a header. */
enum { IMAGE_LENGTH = 585, ROLL_LENGTH = 53, CUT_LENGTH = EIF_HEADER_LENGTH - 1 };

/* A kernel of one byte, an empty command line and an empty ramdisk, then the plan's count. */
static eif_plan plan_of(uint16_t count) {
    eif_plan plan = begin_plan(2, 0, count);
    put_place(&plan, 0, EIF_KERNEL, 1);
    put_place(&plan, 1, EIF_COMMAND_LINE, 0);
    put_place(&plan, 2, EIF_RAMDISK, 0);
    return plan;
}

/* What an empty C++ vector's data() may be. */
static void try_null(const uint8_t *image) {
    eif_stream_sections whole = eif_whole_sections(eif_read(image, IMAGE_LENGTH));
    eif_plan empty = plan_of(2);
    empty.places[0].length.value = 0;
    check(eif_read(NULL, 0).number == EIF_IMAGE_TOO_SHORT, "read of null");
    check(eif_read_strict(NULL, 0).number == EIF_IMAGE_TOO_SHORT, "strict read of null");
    check(eif_json_check(NULL, 0).is_text == 0 && eif_json_check(NULL, 0).place == 0, "text of null");
    check(eif_whole_length(NULL, 0).number == EIF_IMAGE_TOO_SHORT, "whole length of null");
    check(eif_boot_length(NULL, 0).number == EIF_IMAGE_TOO_SHORT, "boot length of null");
    check(eif_app_length(NULL, 0).number == EIF_IMAGE_TOO_SHORT, "app length of null");
    check(eif_roll_length(NULL, 0).number == EIF_IMAGE_TOO_SHORT, "roll length of null");
    check(eif_copy_whole(NULL, 0, at(0), NULL, 0).number == EIF_IMAGE_TOO_SHORT, "whole of null");
    check(eif_copy_boot(NULL, 0, at(0), NULL, 0).number == EIF_IMAGE_TOO_SHORT, "boot of null");
    check(eif_copy_app(NULL, 0, at(0), NULL, 0).number == EIF_IMAGE_TOO_SHORT, "app of null");
    check(eif_copy_sections(NULL, 0, whole, at(0), NULL, 0).number == EIF_ACCEPTED, "sections of null");
    check(eif_roll_write(NULL, 0, NULL, 0).number == EIF_IMAGE_TOO_SHORT, "roll of null");
    check(eif_roll_read(NULL, 0).number == EIF_RECORD_CUT, "roll read of null");
    check(eif_registers(NULL, 0).number == EIF_IMAGE_TOO_SHORT, "registers of null");
    check(eif_image_fingerprint(NULL, 0).number == EIF_IMAGE_TOO_SHORT, "fingerprint of null");
    check(eif_sha384_update(eif_sha384_begin(), NULL, 0).number == EIF_ACCEPTED, "a piece of null");
    check(eif_arriving_feed(eif_arriving_begin(), NULL, 0, UINT64_MAX).count == 0, "null arrives");
    check(eif_measuring_feed(eif_measuring_begin(), NULL, 0, UINT64_MAX).count == 0, "null is measured");
    check(eif_fingerprinting_feed(eif_fingerprinting_begin(), NULL, 0, UINT64_MAX).count == 0,
          "null is fingerprinted");
    check(eif_write(empty, NULL, 0, NULL, 0).number == EIF_OUTPUT_TOO_SHORT, "write to null");

    check(eif_copy_whole(image, IMAGE_LENGTH, at(0), NULL, 0).number == EIF_ACCEPTED, "whole to null");
    check(eif_copy_boot(image, IMAGE_LENGTH, at(0), NULL, 0).number == EIF_ACCEPTED, "boot to null");
    check(eif_copy_app(image, IMAGE_LENGTH, at(0), NULL, 0).number == EIF_ACCEPTED, "app to null");
    check(eif_copy_sections(image, IMAGE_LENGTH, whole, at(0), NULL, 0).number == EIF_ACCEPTED,
          "sections to null");
    check(eif_roll_write(image, IMAGE_LENGTH, NULL, 0).number == EIF_OUTPUT_TOO_SHORT, "roll to null");
}

/* An accepted image or, with a shorter length, a refused one. */
static void try_reading(const uint8_t *image, size_t length,
                        eif_reading (*read)(const uint8_t *, size_t)) {
    static eif_reading one, other;
    CHECK_TWICE(one, other, read(image, length), "equal readings by memcmp");
    check(one.reserved == 0 && one.reserved_after == 0, "reserved of a reading");
    for (unsigned i = 0; i < EIF_MAX_SECTIONS; i++) {
        check(one.sections[i].reserved == 0, "reserved of a section");
    }
}

/* Bytes that are a JSON text, or are none. */
static void try_json(const char *text) {
    static eif_json_answer one, other;
    const uint8_t *bytes = (const uint8_t *)text;
    CHECK_TWICE(one, other, eif_json_check(bytes, strlen(text)), "equal JSON answers by memcmp");
    check(zero(one.reserved, sizeof one.reserved), "reserved of a JSON answer");
}

static void try_stream_sections(const uint8_t *image, size_t length,
                                eif_stream_sections (*sections)(eif_reading)) {
    static eif_stream_sections one, other;
    eif_reading reading = eif_read(image, length);
    memset(&one, 0x55, sizeof one);
    memset(&other, 0xaa, sizeof other);
    soil(0x11);
    one = sections(reading);
    for (unsigned i = 0; i < EIF_MAX_SECTIONS; i++) {
        reading.sections[i].reserved = 7;
    }
    soil(0xee);
    other = sections(reading);
    check(memcmp(&one, &other, sizeof one) == 0, "equal stream sections by memcmp");
    for (unsigned i = 0; i < EIF_MAX_SECTIONS; i++) {
        check(one.sections[i].reserved == 0, "reserved of a stream's section");
    }
}

static void try_roll_reading(const uint8_t *roll, size_t length) {
    static eif_roll_reading one, other;
    CHECK_TWICE(one, other, eif_roll_read(roll, length), "equal roll readings by memcmp");
    check(one.reserved == 0 && one.reserved_after == 0, "reserved of a roll reading");
    for (unsigned i = 0; i < EIF_MAX_SECTIONS; i++) {
        check(one.records[i].reserved == 0, "reserved of a record");
        check(one.records[i].reserved_after == 0, "reserved after a record");
    }
}

static void try_answer(const uint8_t *image, size_t length, uint8_t *out, size_t out_length) {
    static eif_answer one, other;
    CHECK_TWICE(one, other, eif_roll_write(image, length, out, out_length), "equal answers by memcmp");
    check(zero(one.reserved, sizeof one.reserved), "reserved of an answer");
}

static void try_registers(const uint8_t *image, size_t length) {
    static eif_registers_answer one, other;
    CHECK_TWICE(one, other, eif_registers(image, length), "equal registers by memcmp");
    check(zero(one.reserved, sizeof one.reserved), "reserved of registers");
}

static void try_fingerprint(const uint8_t *image, size_t length) {
    static eif_fingerprint one, other;
    CHECK_TWICE(one, other, eif_image_fingerprint(image, length), "equal fingerprints by memcmp");
    check(zero(one.reserved, sizeof one.reserved), "reserved of a fingerprint");
}

/* The calls over the reading that eif_read answers: byte for byte what the calls that read the image answer. */
static void try_own_reading(const uint8_t *image, size_t length) {
    static eif_fingerprint fingerprint, read_fingerprint;
    static eif_answer roll, read_roll;
    static eif_staged_part_answer part, read_part;
    static uint8_t out[ROLL_LENGTH], read_out[ROLL_LENGTH];
    eif_reading reading = eif_read(image, length);
    fingerprint = eif_image_fingerprint(image, length);
    read_fingerprint = eif_read_fingerprint(image, length, reading);
    check(memcmp(&fingerprint, &read_fingerprint, sizeof fingerprint) == 0, "fingerprint from a reading");
    roll = eif_roll_length(image, length);
    read_roll = eif_read_roll_length(image, length, reading);
    check(memcmp(&roll, &read_roll, sizeof roll) == 0, "roll length from a reading");
    for (size_t room = ROLL_LENGTH - 1; room <= ROLL_LENGTH; room++) {
        roll = eif_roll_write(image, length, out, room);
        read_roll = eif_read_roll_write(image, length, reading, read_out, room);
        check(memcmp(&roll, &read_roll, sizeof roll) == 0 && memcmp(out, read_out, sizeof out) == 0,
              "roll from a reading");
    }
    for (uint64_t shown = 0; shown < 4; shown++) {
        part = eif_staged_part(image, length, 7, 2, shown);
        read_part = eif_read_staged_part(reading, length, 7, 2, shown);
        check(memcmp(&part, &read_part, sizeof part) == 0, "staged part from a reading");
    }
}

/* Readings that no image has. */
static void try_other_readings(const uint8_t *image) {
    uint8_t out[ROLL_LENGTH];
    eif_reading reading = eif_read(image, IMAGE_LENGTH);
    reading.number = EIF_CHECKSUM_DIFFERS;
    reading.position = UINT64_MAX;
    check(eif_read_fingerprint(image, IMAGE_LENGTH, reading).position == UINT64_MAX, "refused fingerprint");
    check(eif_read_roll_write(image, IMAGE_LENGTH, reading, out, sizeof out).length == 0, "refused roll");
    reading.number = EIF_ACCEPTED;
    reading.count = EIF_MAX_SECTIONS + 1;
    check(eif_read_staged_part(reading, IMAGE_LENGTH, 1, 0, 0).number == EIF_WRONG_COUNT, "33 sections");
    reading.count = 3;
    reading.sections[0].position.value = UINT64_MAX;
    check(eif_read_staged_part(reading, IMAGE_LENGTH, 1, 1, 0).start == IMAGE_LENGTH, "a part past the end");
    reading.sections[0].length.value = UINT64_MAX;
    check(eif_read_roll_length(image, IMAGE_LENGTH, reading).length == ROLL_LENGTH - 1, "a section past the end");
    check(eif_read_staged_part(reading, IMAGE_LENGTH, 1, 1, 0).number == EIF_IMAGE_TOO_LONG, "a length near 2 to the 64");
    check(eif_read_fingerprint(NULL, 0, reading).number == EIF_ACCEPTED, "fingerprint of null by a reading");
    check(eif_read_roll_write(NULL, 0, reading, NULL, 0).number == EIF_OUTPUT_TOO_SHORT, "roll of null by a reading");
}

static void try_arriving(const uint8_t *image, size_t length) {
    static eif_arriving_fed one, other;
    static eif_arriving_finished end, other_end;
    static eif_span span, other_span;
    eif_arriving state = eif_arriving_begin();
    CHECK_TWICE(one, other, eif_arriving_feed(state, image, length, UINT64_MAX), "equal arriving states by memcmp");
    CHECK_TWICE(span, other_span, eif_arriving_next(one.state, length), "equal spans by memcmp");
    CHECK_TWICE(end, other_end, eif_arriving_finish(one.state), "equal ends by memcmp");
}

static void try_measuring(const uint8_t *image, size_t length) {
    static eif_measuring_fed one, other;
    static eif_measuring_finished end, other_end;
    eif_measuring state = eif_measuring_begin();
    CHECK_TWICE(one, other, eif_measuring_feed(state, image, length, UINT64_MAX), "equal measuring states by memcmp");
    CHECK_TWICE(end, other_end, eif_measuring_finish(one.state), "equal measured ends by memcmp");
}

static void try_fingerprinting(const uint8_t *image, size_t length) {
    static eif_fingerprinting_fed one, other;
    static eif_fingerprinting_finished end, other_end;
    eif_fingerprinting state = eif_fingerprinting_begin();
    CHECK_TWICE(one, other, eif_fingerprinting_feed(state, image, length, UINT64_MAX),
                "equal fingerprinting states by memcmp");
    CHECK_TWICE(end, other_end, eif_fingerprinting_finish(one.state), "equal fingerprinted ends by memcmp");
}

/* A piece that is taken or, with a larger total, one that is refused. */
static void try_sha384(uint64_t total) {
    static const uint8_t piece[3] = {1, 2, 3};
    static eif_sha384_fed one, other;
    eif_sha384 state = eif_sha384_begin();
    state.total = total;
    CHECK_TWICE(one, other, eif_sha384_update(state, piece, sizeof piece), "equal states by memcmp");
    check(zero(one.reserved, sizeof one.reserved), "reserved of a state");
}

static void try_words(void) {
    check(strcmp(eif_meaning(EIF_ACCEPTED), "accepted") == 0, "meaning of 0");
    check(strcmp(eif_meaning(13), "checksum differs") == 0, "meaning of 13");
    check(strcmp(eif_meaning(20), "section not packed, or bytes after the last section") == 0,
          "meaning of 20");
    check(strcmp(eif_meaning(21), "metadata is not one JSON text") == 0, "meaning of 21");
    check(strcmp(eif_meaning(255), "unknown number") == 0, "meaning of 255");
    check(strcmp(eif_section_name(EIF_COMMAND_LINE), "command line") == 0, "name of 2");
    check(strcmp(eif_section_name(0), "unknown type") == 0, "name of 0");
    check(strcmp(eif_architecture_name(EIF_AARCH64), "aarch64") == 0, "name of an architecture");
    check(strcmp(EIF_VERSION, "") != 0, "version");
}

int main(void) {
    static const uint8_t data[1] = {0x4b};
    uint8_t image[IMAGE_LENGTH], roll[ROLL_LENGTH];
    eif_plan plan = plan_of(3);
    check(eif_plan_length(plan).length == IMAGE_LENGTH, "plan's length");
    check(eif_write(plan, data, sizeof data, image, sizeof image).number == EIF_ACCEPTED, "write");
    check(eif_roll_write(image, sizeof image, roll, sizeof roll).number == EIF_ACCEPTED, "roll");
    try_null(image);
    try_reading(image, IMAGE_LENGTH, eif_read);
    try_reading(image, CUT_LENGTH, eif_read);
    try_reading(image, IMAGE_LENGTH, eif_read_strict);
    try_reading(image, CUT_LENGTH, eif_read_strict);
    try_json("{}");
    try_json("{]");
    try_json("{");
    try_stream_sections(image, IMAGE_LENGTH, eif_whole_sections);
    try_stream_sections(image, IMAGE_LENGTH, eif_boot_sections);
    try_stream_sections(image, IMAGE_LENGTH, eif_app_sections);
    try_stream_sections(image, CUT_LENGTH, eif_whole_sections);
    try_roll_reading(roll, ROLL_LENGTH);
    try_roll_reading(roll, 9);
    try_answer(image, IMAGE_LENGTH, roll, ROLL_LENGTH);
    try_answer(image, IMAGE_LENGTH, roll, ROLL_LENGTH - 1);
    try_registers(image, IMAGE_LENGTH);
    try_registers(image, CUT_LENGTH);
    try_fingerprint(image, IMAGE_LENGTH);
    try_fingerprint(image, CUT_LENGTH);
    try_own_reading(image, IMAGE_LENGTH);
    try_own_reading(image, CUT_LENGTH);
    try_other_readings(image);
    try_arriving(image, IMAGE_LENGTH);
    try_arriving(image, CUT_LENGTH);
    try_measuring(image, IMAGE_LENGTH);
    try_measuring(image, CUT_LENGTH);
    try_fingerprinting(image, IMAGE_LENGTH);
    try_fingerprinting(image, CUT_LENGTH);
    try_sha384(0);
    try_sha384(EIF_MAX_MESSAGE_LENGTH);
    try_words();
    return ended("boundary: as promised");
}
