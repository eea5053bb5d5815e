/*
 * The worked example of docs/FORMAT.md through the C interface. Compiles as C99 and as C++.
 * Prints one line and ends with status 0, or says what differs and ends with status 1.
 */
#include "check.h"

/* The image and its roll, and the image's beginning that is a byte too short for a header. */
enum { IMAGE_LENGTH = 586, ROLL_LENGTH = 54, CUT_LENGTH = EIF_HEADER_LENGTH - 1 };

static const uint8_t expected_roll[ROLL_LENGTH] = {
    0x02, 0, 0, 0, 0, 0, 0, 0, 0x00, 1, 0x00, 0,
    0x01, 0, 0, 0, 0, 0, 0, 0, 0x01, 0, 0x4b,
    0x01, 0, 0, 0, 0, 0, 0, 0, 0x02, 0, 0x61,
    0x00, 0, 0, 0, 0, 0, 0, 0, 0x03, 0,
    0x00, 0, 0, 0, 0, 0, 0, 0, 0x00, 0};

static int refused(eif_reading reading, unsigned number, uint64_t index, uint64_t position) {
    return reading.number == number && reading.index == index && reading.position == position;
}

/* The 586 bytes, each field at its place; the checksum is that of an independent implementation. */
static void expect_image(uint8_t *image) {
    static const uint8_t checksum[4] = {0x86, 0xc2, 0x27, 0x31};
    memset(image, 0, IMAGE_LENGTH);
    memcpy(image, ".eif", 4);
    image[5] = 2;  /* version */
    image[27] = 3; /* num_sections */
    image[34] = 548 / 256;
    image[35] = 548 % 256;
    image[42] = 561 / 256;
    image[43] = 561 % 256;
    image[50] = 574 / 256;
    image[51] = 574 % 256;
    image[291] = 1; /* sizes */
    image[299] = 1;
    memcpy(image + 544, checksum, 4);
    image[549] = 1; /* kernel */
    image[559] = 1;
    image[560] = 0x4b;
    image[562] = 2; /* command line */
    image[572] = 1;
    image[573] = 0x61;
    image[575] = 3; /* ramdisk */
}

/* A kernel and a command line of one byte each, and an empty section of a type. */
static eif_plan plan_with(uint16_t version, uint16_t type) {
    eif_plan plan = begin_plan(version, 0, 3);
    put_place(&plan, 0, EIF_KERNEL, 1);
    put_place(&plan, 1, EIF_COMMAND_LINE, 1);
    put_place(&plan, 2, type, 0);
    return plan;
}

static void try_write(const uint8_t *image) {
    static const uint8_t data[3] = {0x4b, 0x61, 0x00};
    uint8_t out[600];
    eif_plan plan = plan_with(2, EIF_RAMDISK);

    check(is(eif_plan_length(plan), EIF_ACCEPTED, IMAGE_LENGTH), "plan's length");
    memset(out, STAYS, sizeof out);
    check(is(eif_write(plan, data, 2, out, IMAGE_LENGTH - 1), EIF_OUTPUT_TOO_SHORT, 0), "write, 585");
    check(is(eif_write(plan, data, 3, out, sizeof out), EIF_DATA_LENGTH_DIFFERS, 0), "write, data");
    check(stays(out, 0, sizeof out), "output of a refused write");
    check(is(eif_write(plan, data, 2, out, sizeof out), EIF_ACCEPTED, IMAGE_LENGTH), "write");
    check(memcmp(out, image, IMAGE_LENGTH) == 0, "image written");
    check(stays(out, IMAGE_LENGTH, sizeof out), "output past the image");

    put_place(&plan, 0, EIF_KERNEL, EIF_MAX_IMAGE_LENGTH - IMAGE_LENGTH + 1);
    check(is(eif_plan_length(plan), EIF_ACCEPTED, EIF_MAX_IMAGE_LENGTH), "the longest image");
    put_place(&plan, 2, EIF_RAMDISK, 1);
    check(is(eif_plan_length(plan), EIF_IMAGE_TOO_LONG, 0), "a byte more than the longest");
}

static void try_read(const uint8_t *image) {
    static const uint64_t offsets[3] = {548, 561, 574};
    static const uint64_t lengths[3] = {1, 1, 0};
    eif_reading reading = eif_read(image, IMAGE_LENGTH);
    check(refused(reading, EIF_ACCEPTED, 0, 0), "read");
    check(reading.version == 2 && reading.flags == 0, "version and flags");
    check(reading.architecture == EIF_X86_64, "architecture");
    check(reading.default_mem == 0 && reading.default_cpus == 0, "default_mem and default_cpus");
    check(reading.count == 3, "count");
    check(reading.ramdisk_mark == 4 && reading.ramdisk_count == 1, "ramdisk mark and count");
    check(reading.first_ramdisk == 2, "first ramdisk");
    for (unsigned i = 0; i < EIF_MAX_SECTIONS; i++) {
        eif_section section = reading.sections[i];
        check(section.type == (i < 3 ? i + 1 : 0), "type of a section");
        check(section.flags == 0, "flags of a section");
        check(section.position.value == (i < 3 ? offsets[i] + EIF_SECTION_HEADER_LENGTH : 0), "position of a section");
        check(section.length.value == (i < 3 ? lengths[i] : 0), "length of a section");
    }

    eif_reading cut = eif_read(image, CUT_LENGTH);
    check(refused(cut, EIF_IMAGE_TOO_SHORT, 0, 0), "read, 547 bytes");
    check(cut.version == 0 && cut.count == 0, "fields beside a refusal");
    check(cut.ramdisk_mark == 0 && cut.ramdisk_count == 0, "ramdisks beside a refusal");
    check(cut.first_ramdisk == EIF_NO_RAMDISK, "first ramdisk beside a refusal");
}

/* A byte of the image changed: where the refusal says that it stands. */
static void try_position(const uint8_t *image, size_t place, uint8_t value, unsigned number,
                         uint64_t index, uint64_t position) {
    uint8_t changed[IMAGE_LENGTH];
    memcpy(changed, image, IMAGE_LENGTH);
    changed[place] = value;
    eif_reading reading = eif_read(changed, IMAGE_LENGTH);
    check(refused(reading, number, index, position), "position of a refusal");
    eif_arriving state = eif_arriving_begin();
    state = eif_arriving_feed(state, changed, IMAGE_LENGTH, UINT64_MAX).state;
    eif_arriving_finished end = eif_arriving_finish(state);
    check(refused(end.reading, number, index, position), "position, arriving");
    eif_answer roll = eif_roll_length(changed, IMAGE_LENGTH);
    check(roll.number == number && roll.index == index && roll.position == position &&
              roll.length == 0,
          "position, handed on by a roll");
    eif_answer copied = eif_copy_boot(changed, IMAGE_LENGTH, at(UINT64_MAX), NULL, 0);
    check(copied.number == number && copied.position == position, "position, handed on by a stream");
    eif_registers_answer registers = eif_registers(changed, IMAGE_LENGTH);
    check(registers.number == number && registers.index == index &&
              registers.position == position,
          "position, handed on by registers");
    eif_fingerprint fingerprint = eif_image_fingerprint(changed, IMAGE_LENGTH);
    check(fingerprint.number == number && fingerprint.index == index && fingerprint.position == position,
          "position, handed on by a fingerprint");
}

/* The checksum is never mended: every rule here but 13 is judged before it. */
static void try_positions(const uint8_t *image) {
    try_position(image, 3, 'x', EIF_WRONG_MAGIC, 0, 0);
    try_position(image, 5, 9, EIF_WRONG_VERSION, 0, 4);
    try_position(image, 27, 1, EIF_WRONG_COUNT, 0, 26);
    try_position(image, 43, 0, EIF_STARTS_EARLY, 1, 36);
    try_position(image, 51, 255, EIF_NOT_PACKED, 2, 44);
    try_position(image, 307, 9, EIF_ENDS_LATE, 2, 44);
    try_position(image, 572, 9, EIF_SIZES_DIFFER, 1, 561);
    try_position(image, 575, 9, EIF_TYPE_NOT_ALLOWED, 2, 574);
    try_position(image, 549, 3, EIF_RAMDISK_BEFORE_KERNEL, 0, 548);
    try_position(image, 575, 2, EIF_TYPE_REPEATED, 2, 574);
    try_position(image, 562, 3, EIF_SECTION_MISSING, 0, 26);
    try_position(image, 560, 0, EIF_CHECKSUM_DIFFERS, 0, 544);
}

/* A byte after the last section, and a gap of one byte before it. Checksums are not mended: 20 is judged
 * before 13. */
static void try_padded(const uint8_t *image) {
    uint8_t padded[IMAGE_LENGTH + 1] = {0};
    memcpy(padded, image, IMAGE_LENGTH);
    eif_reading tail = eif_read(padded, IMAGE_LENGTH + 1);
    check(refused(tail, EIF_NOT_PACKED, 0, IMAGE_LENGTH), "read, a byte after the last section");
    memcpy(padded + 575, image + 574, IMAGE_LENGTH - 574);
    padded[51] = 575 % 256;
    eif_reading gap = eif_read(padded, IMAGE_LENGTH + 1);
    check(refused(gap, EIF_NOT_PACKED, 2, 44), "read, a gap before section 2");
}

/* What is no JSON text, and where. */
static void try_json(void) {
    static const struct {
        const char *text;
        uint8_t is_text;
        uint64_t place;
    } rows[] = {
        {"{\"name\": [1, -0.5e+3, \"\\u00e9\"]}", 1, 0},
        {"{\"a\": 1,, 2}", 0, 8},
        {"{\"a\": [1, 2", 0, 11},
        {"\xef\xbb\xbf{}", 0, 0},
        {"\"\xed\xa0\x80\"", 0, 2},
        {"", 0, 0}};
    for (unsigned i = 0; i < sizeof rows / sizeof rows[0]; i++) {
        eif_json_answer answer = eif_json_check((const uint8_t *)rows[i].text, strlen(rows[i].text));
        check(answer.is_text == rows[i].is_text && answer.place == rows[i].place, rows[i].text);
    }
    uint8_t deep[2 * EIF_MAX_JSON_DEPTH + 2];
    size_t half = sizeof deep / 2;
    memset(deep, '[', half);
    memset(deep + half, ']', half);
    check(eif_json_check(deep, sizeof deep).place == EIF_MAX_JSON_DEPTH, "one open too many");
    check(eif_json_check(deep + 1, sizeof deep - 2).is_text == 1, "as many open as may be");
}

/* Metadata that is JSON, and metadata that was cut before it was packed: the file is whole. */
static void try_strict(const uint8_t *worked) {
    static const uint8_t data[9] = {'k', 'c', '{', '"', 'a', '"', ':', '1', '}'};
    uint8_t image[600];
    eif_plan plan = plan_with(4, EIF_METADATA);
    for (size_t length = 0; length <= 7; length++) {
        put_place(&plan, 2, EIF_METADATA, length);
        eif_answer written = eif_write(plan, data, 2 + length, image, sizeof image);
        size_t image_length = (size_t)written.length;
        eif_reading ordinary = eif_read(image, image_length);
        eif_reading strict = eif_read_strict(image, image_length);
        check(ordinary.number == EIF_ACCEPTED, "read, metadata of any bytes");
        if (length == 7) {
            check(memcmp(&strict, &ordinary, sizeof strict) == 0, "strict reading");
            continue;
        }
        check(strict.number == EIF_METADATA_NOT_JSON && strict.index == 2, "metadata cut");
        check(strict.position == 586, "where the metadata stands");
        check(strict.count == 0 && strict.first_ramdisk == EIF_NO_RAMDISK, "beside 21");
        image[560] ^= 1;
        check(eif_read_strict(image, image_length).number == EIF_CHECKSUM_DIFFERS, "13 before 21");
    }
    eif_reading strict = eif_read_strict(worked, IMAGE_LENGTH);
    eif_reading ordinary = eif_read(worked, IMAGE_LENGTH);
    check(memcmp(&strict, &ordinary, sizeof strict) == 0, "strict reading, no metadata");
}

static int same_reading(const eif_reading *a, const eif_reading *b) {
    return memcmp(a, b, sizeof *a) == 0;
}

/* The image in pieces of every length, with an allowance smaller than the pieces. */
static void try_arriving(const uint8_t *image) {
    eif_reading whole = eif_read(image, IMAGE_LENGTH);
    for (size_t length = 1; length <= IMAGE_LENGTH; length++) {
        uint64_t allowance = 1 + length / 2;
        eif_arriving state = eif_arriving_begin();
        for (size_t at = 0; at < IMAGE_LENGTH;) {
            size_t piece = IMAGE_LENGTH - at < length ? IMAGE_LENGTH - at : length;
            eif_arriving_fed fed = eif_arriving_feed(state, image + at, piece, allowance);
            check(fed.count == (piece < allowance ? piece : allowance), "bytes taken of a piece");
            at += (size_t)fed.count;
            check(fed.state.taken == at, "bytes taken in all");
            state = fed.state;
        }
        eif_arriving_finished end = eif_arriving_finish(state);
        check(same_reading(&end.reading, &whole), "reading of what arrived");
    }
}

static void try_arriving_end(const uint8_t *image) {
    eif_arriving state = eif_arriving_begin();
    eif_arriving_fed fed = eif_arriving_feed(state, image, CUT_LENGTH, UINT64_MAX);
    eif_arriving_fed none = eif_arriving_feed(fed.state, image, IMAGE_LENGTH, 0);
    check(none.count == 0 && memcmp(&none.state, &fed.state, sizeof state) == 0, "allowance 0");
    eif_arriving_finished end = eif_arriving_finish(fed.state);
    eif_reading whole = eif_read(image, CUT_LENGTH);
    check(same_reading(&end.reading, &whole), "547 bytes arrived");
    check(end.state.ended == 1 && end.state.taken == CUT_LENGTH, "end told");
    fed = eif_arriving_feed(end.state, image + CUT_LENGTH, IMAGE_LENGTH - CUT_LENGTH, UINT64_MAX);
    check(fed.count == 0 && memcmp(&fed.state, &end.state, sizeof state) == 0, "after the end");
    eif_arriving_finished again = eif_arriving_finish(fed.state);
    check(memcmp(&again, &end, sizeof end) == 0, "end told again");
}

static int is_span(eif_span span, uint64_t place, uint64_t length, uint64_t begun) {
    return span.place == place && span.length == length && span.begun == begun;
}

/* The spans that FORMAT.md lists, of the next thousand bytes. */
static void try_next(const uint8_t *image) {
    static const struct {
        uint64_t taken, place, length, begun;
    } rows[] = {
        {0, EIF_NO_SECTION, 548, 0},  {547, EIF_NO_SECTION, 1, 0},  {548, EIF_NO_SECTION, 12, 0},
        {560, 0, 1, 1},               {561, EIF_NO_SECTION, 12, 1}, {573, 1, 1, 2},
        {574, EIF_NO_SECTION, 12, 2}, {586, EIF_NO_SECTION, 1000, 3}};
    eif_arriving begun = eif_arriving_begin();
    for (unsigned i = 0; i < sizeof rows / sizeof rows[0]; i++) {
        eif_arriving state = eif_arriving_feed(begun, image, (size_t)rows[i].taken, UINT64_MAX).state;
        eif_span span = eif_arriving_next(state, 1000);
        check(is_span(span, rows[i].place, rows[i].length, rows[i].begun), "span of the next bytes");
        check(is_span(eif_arriving_next(state, 0), rows[i].place, 0, rows[i].begun), "span of no bytes");
    }
}

/* Tables that no accepted image has: a size near 2^64, an offset too small by one, a count above 32. */
static void try_hostile_next(const uint8_t *image) {
    eif_arriving state = eif_arriving_feed(eif_arriving_begin(), image, IMAGE_LENGTH, UINT64_MAX).state;
    eif_arriving hostile = state;
    hostile.taken = 560;
    memset(hostile.header + 284, 0xff, 8);
    check(is_span(eif_arriving_next(hostile, 100), EIF_NO_SECTION, 100, 0), "a size near 2^64");
    hostile = state;
    hostile.taken = 573;
    hostile.header[43]--;
    check(is_span(eif_arriving_next(hostile, 100), EIF_NO_SECTION, 100, 1), "an offset too small");
    hostile = state;
    hostile.taken = 573;
    memset(hostile.header + 26, 0xff, 2);
    check(is_span(eif_arriving_next(hostile, 100), 1, 1, 2), "a count above 32");
    hostile.taken = UINT64_MAX;
    check(is_span(eif_arriving_next(hostile, UINT64_MAX), EIF_NO_SECTION, UINT64_MAX, 3), "past any image");
}

static void try_streams(const uint8_t *image) {
    uint8_t out[4];
    memset(out, STAYS, sizeof out);
    check(is(eif_whole_length(image, IMAGE_LENGTH), EIF_ACCEPTED, 2), "whole, length");
    check(is(eif_boot_length(image, IMAGE_LENGTH), EIF_ACCEPTED, 2), "boot, length");
    check(is(eif_app_length(image, IMAGE_LENGTH), EIF_ACCEPTED, 0), "app, length");
    check(is(eif_app_length(image, 0), EIF_IMAGE_TOO_SHORT, 0), "app, length, no image");

    check(is(eif_copy_app(image, IMAGE_LENGTH, at(0), out, 4), EIF_ACCEPTED, 0), "app");
    check(is(eif_copy_whole(image, IMAGE_LENGTH, at(2), out, 4), EIF_ACCEPTED, 0), "whole from 2");
    check(is(eif_copy_whole(image, IMAGE_LENGTH, at(3), out, 4), EIF_PAST_STREAM_END, 0), "whole from 3");
    check(stays(out, 0, 4), "output where nothing is copied");
    check(is(eif_copy_boot(image, IMAGE_LENGTH, at(1), out, 4), EIF_ACCEPTED, 1), "boot from 1");
    check(out[0] == 0x61 && stays(out, 1, 4), "boot from 1, bytes");
    check(is(eif_copy_whole(image, IMAGE_LENGTH, at(0), out, 4), EIF_ACCEPTED, 2), "whole");
    check(out[0] == 0x4b && out[1] == 0x61 && stays(out, 2, 4), "whole, bytes");
}

/* The streams of an image that was read, without reading it again. */
static void try_sections(const uint8_t *image) {
    static const eif_stream_sections none = {0, {{0, 0, 0, {0}, {0}}}};
    uint8_t out[4];
    eif_reading reading = eif_read(image, IMAGE_LENGTH);
    eif_stream_sections whole = eif_whole_sections(reading);
    eif_stream_sections boot = eif_boot_sections(reading);
    eif_stream_sections app = eif_app_sections(reading);
    check(whole.count == 3 && memcmp(&whole, &boot, sizeof whole) == 0, "sections of whole and boot");
    check(memcmp(whole.sections, reading.sections, sizeof whole.sections) == 0, "sections of whole");
    check(memcmp(&app, &none, sizeof app) == 0, "sections of app");

    memset(out, STAYS, sizeof out);
    check(is(eif_copy_sections(image, IMAGE_LENGTH, app, at(0), out, 4), EIF_ACCEPTED, 0), "no section");
    check(is(eif_copy_sections(image, IMAGE_LENGTH, whole, at(3), out, 4), EIF_PAST_STREAM_END, 0),
          "sections from 3");
    check(stays(out, 0, 4), "output where nothing is copied of sections");
    check(is(eif_copy_sections(image, IMAGE_LENGTH, whole, at(1), out, 4), EIF_ACCEPTED, 1),
          "sections from 1");
    check(out[0] == 0x61 && stays(out, 1, 4), "sections from 1, bytes");

    /* Any list will do: here one with too large a count, and a section that runs past the image. */
    whole.count = UINT64_MAX;
    whole.sections[31].position.value = IMAGE_LENGTH - 11;
    whole.sections[31].length.value = UINT64_MAX;
    check(is(eif_copy_sections(image, IMAGE_LENGTH, whole, at(0), out, 4), EIF_ACCEPTED, 4), "any list");
    check(out[0] == 0x4b && out[1] == 0x61 && out[2] == 3 && out[3] == 0, "any list, bytes");
    check(is(eif_copy_sections(image, IMAGE_LENGTH, whole, at(13), out, 4), EIF_ACCEPTED, 0), "its end");
    check(is(eif_copy_sections(image, IMAGE_LENGTH, whole, at(14), out, 4), EIF_PAST_STREAM_END, 0),
          "past its end");
}

/* Command line, kernel, ramdisk, ramdisk: the streams are in file order. */
static void try_file_order(void) {
    static const uint8_t data[4] = {'c', 'k', 'f', 's'};
    static const uint16_t types[4] = {EIF_COMMAND_LINE, EIF_KERNEL, EIF_RAMDISK, EIF_RAMDISK};
    uint8_t image[600], out[4];
    eif_plan plan = begin_plan(2, 0, 4);
    for (unsigned i = 0; i < 4; i++) {
        put_place(&plan, i, types[i], 1);
    }
    eif_answer written = eif_write(plan, data, 4, image, sizeof image);
    check(is(written, EIF_ACCEPTED, 600), "command line first");
    check(is(eif_copy_whole(image, 600, at(0), out, 4), EIF_ACCEPTED, 4), "whole in file order");
    check(memcmp(out, "ckfs", 4) == 0, "whole in file order, bytes");
    memset(out, STAYS, sizeof out);
    check(is(eif_copy_boot(image, 600, at(0), out, 4), EIF_ACCEPTED, 3), "boot in file order");
    check(memcmp(out, "ckf", 3) == 0 && stays(out, 3, 4), "boot in file order, bytes");
    eif_stream_sections app = eif_app_sections(eif_read(image, 600));
    check(app.count == 1 && app.sections[0].position.value == 599, "app in file order");
}

static void try_roll(const uint8_t *image) {
    static const uint64_t positions[3] = {22, 33, 44};
    uint8_t out[62];
    check(is(eif_roll_length(image, IMAGE_LENGTH), EIF_ACCEPTED, ROLL_LENGTH), "roll's length");
    check(is(eif_roll_length(image, CUT_LENGTH), EIF_IMAGE_TOO_SHORT, 0), "roll's length, 547 bytes");
    memset(out, STAYS, sizeof out);
    check(is(eif_roll_write(image, IMAGE_LENGTH, out, 53), EIF_OUTPUT_TOO_SHORT, 0), "roll, 53");
    check(stays(out, 0, sizeof out), "output of a refused roll");
    check(is(eif_roll_write(image, IMAGE_LENGTH, out, sizeof out), EIF_ACCEPTED, ROLL_LENGTH),
          "roll");
    check(memcmp(out, expected_roll, ROLL_LENGTH) == 0, "roll, bytes");
    check(stays(out, ROLL_LENGTH, sizeof out), "output past the roll");

    eif_roll_reading reading = eif_roll_read(expected_roll, ROLL_LENGTH);
    check(reading.number == EIF_ACCEPTED && reading.index == 0 && reading.position == 0, "roll read");
    check(reading.flags == 0 && reading.count == 3, "roll's flags and count");
    for (unsigned i = 0; i < EIF_MAX_SECTIONS; i++) {
        eif_roll_record record = reading.records[i];
        check(record.type == (i < 3 ? i + 1 : 0), "type of a record");
        check(record.position.value == (i < 3 ? positions[i] : 0), "position of a record");
        check(record.length.value == (i < 2 ? 1u : 0u), "length of a record");
    }

    eif_roll_reading cut = eif_roll_read(expected_roll, ROLL_LENGTH - 1);
    check(cut.number == EIF_RECORD_CUT && cut.index == 4 && cut.position == 44 && cut.count == 0,
          "roll cut");
    eif_roll_reading old = eif_roll_read(expected_roll + EIF_FLAGS_RECORD_LENGTH,
                                         ROLL_LENGTH - EIF_FLAGS_RECORD_LENGTH);
    check(old.number == EIF_RECORD_TYPE_WRONG && old.index == 0 && old.position == 0,
          "roll without its flags record");
}

/* Flags join the roll, and their lowest bit is the architecture. */
static void try_flags(void) {
    static const uint8_t data[1] = {'k'};
    static const uint8_t record[EIF_FLAGS_RECORD_LENGTH] = {2, 0, 0, 0, 0, 0, 0, 0, 0, 1, 0x03, 0x12};
    uint8_t image[573], roll[64];
    eif_plan plan = begin_plan(2, 0x1203, 2);
    put_place(&plan, 0, EIF_KERNEL, 1);
    put_place(&plan, 1, EIF_COMMAND_LINE, 0);
    check(is(eif_write(plan, data, 1, image, sizeof image), EIF_ACCEPTED, 573), "image with flags");
    eif_reading reading = eif_read(image, sizeof image);
    check(reading.flags == 0x1203 && reading.architecture == EIF_AARCH64, "flags of an image");
    eif_answer written = eif_roll_write(image, sizeof image, roll, sizeof roll);
    check(is(written, EIF_ACCEPTED, 43), "roll with flags");
    check(memcmp(roll, record, sizeof record) == 0, "flags record");
    check(eif_roll_read(roll, 43).flags == 0x1203, "flags of a roll");
}

/* Whether a digest begins with these 8 bytes. */
static int begins(eif_digest digest, uint64_t first) {
    uint64_t value = 0;
    for (unsigned i = 0; i < 8; i++) {
        value = value << 8 | digest.bytes[i];
    }
    return value == first;
}

static void try_registers(const uint8_t *image) {
    static const eif_digest zeros = {{0}};
    eif_registers_answer answer = eif_registers(image, IMAGE_LENGTH);
    check(answer.number == EIF_ACCEPTED && answer.index == 0, "registers");
    check(begins(answer.registers[0], UINT64_C(0x9e7c220976a9e4a0)), "register 0");
    check(begins(answer.registers[1], UINT64_C(0x9e7c220976a9e4a0)), "register 1");
    check(begins(answer.registers[2], UINT64_C(0x21b9efbc18480766)), "register 2");

    eif_registers_answer cut = eif_registers(image, CUT_LENGTH);
    check(cut.number == EIF_IMAGE_TOO_SHORT && cut.index == 0, "registers, 547 bytes");
    for (unsigned i = 0; i < EIF_REGISTERS; i++) {
        check(memcmp(&cut.registers[i], &zeros, sizeof zeros) == 0, "registers beside a refusal");
    }
}

/* The image measured in pieces of every length: its registers, its reading, and nothing after the end. */
static void try_measuring(const uint8_t *image) {
    eif_registers_answer whole = eif_registers(image, IMAGE_LENGTH);
    eif_reading reading = eif_read(image, IMAGE_LENGTH);
    for (size_t length = 1; length <= IMAGE_LENGTH; length++) {
        uint64_t allowance = 1 + length / 2;
        eif_measuring state = eif_measuring_begin();
        for (size_t at = 0; at < IMAGE_LENGTH;) {
            size_t piece = IMAGE_LENGTH - at < length ? IMAGE_LENGTH - at : length;
            eif_measuring_fed fed = eif_measuring_feed(state, image + at, piece, allowance);
            check(fed.count == (piece < allowance ? piece : allowance), "bytes taken of a measured piece");
            at += (size_t)fed.count;
            state = fed.state;
        }
        eif_measuring_finished end = eif_measuring_finish(state);
        check(same_reading(&end.reading, &reading), "reading of what was measured");
        check(memcmp(end.registers, whole.registers, sizeof whole.registers) == 0, "registers of what arrived");
        eif_measuring_fed after = eif_measuring_feed(end.state, image, IMAGE_LENGTH, UINT64_MAX);
        check(after.count == 0 && memcmp(&after.state, &end.state, sizeof end.state) == 0, "measured after the end");
        eif_measuring_finished again = eif_measuring_finish(after.state);
        check(memcmp(&again, &end, sizeof end) == 0, "measured end again");
    }
    eif_measuring state = eif_measuring_begin();
    eif_measuring_finished cut = eif_measuring_finish(eif_measuring_feed(state, image, CUT_LENGTH, UINT64_MAX).state);
    check(refused(cut.reading, EIF_IMAGE_TOO_SHORT, 0, 0), "547 bytes measured");
    check(zero(cut.registers[0].bytes, sizeof cut.registers), "registers of 547 bytes");
}

static void try_fingerprint(const uint8_t *image) {
    eif_digest digest = sha384_of(expected_roll, ROLL_LENGTH);
    eif_fingerprint whole = eif_image_fingerprint(image, IMAGE_LENGTH);
    check(whole.number == EIF_ACCEPTED && whole.index == 0 && whole.position == 0, "fingerprint");
    check(begins(whole.digest, UINT64_C(0x83f9e4fb2210b884)), "fingerprint, first bytes");
    check(memcmp(&whole.digest, &digest, sizeof digest) == 0, "SHA-384 of the roll");
    eif_fingerprint cut = eif_image_fingerprint(image, CUT_LENGTH);
    check(cut.number == EIF_IMAGE_TOO_SHORT && cut.index == 0 && zero(cut.digest.bytes, sizeof cut.digest),
          "fingerprint, 547 bytes");
}

/* The image fingerprinted in pieces of every length: its fingerprint, and nothing after the end. */
static void try_fingerprinting(const uint8_t *image) {
    eif_digest digest = eif_image_fingerprint(image, IMAGE_LENGTH).digest;
    eif_reading reading = eif_read(image, IMAGE_LENGTH);
    for (size_t length = 1; length <= IMAGE_LENGTH; length++) {
        uint64_t allowance = 1 + length / 2;
        eif_fingerprinting state = eif_fingerprinting_begin();
        for (size_t at = 0; at < IMAGE_LENGTH;) {
            size_t piece = IMAGE_LENGTH - at < length ? IMAGE_LENGTH - at : length;
            eif_fingerprinting_fed fed = eif_fingerprinting_feed(state, image + at, piece, allowance);
            check(fed.count == (piece < allowance ? piece : allowance), "bytes taken of a fingerprinted piece");
            at += (size_t)fed.count;
            state = fed.state;
        }
        eif_fingerprinting_finished end = eif_fingerprinting_finish(state);
        check(same_reading(&end.reading, &reading), "reading of what was fingerprinted");
        check(memcmp(&end.digest, &digest, sizeof digest) == 0, "fingerprint of what arrived");
        eif_fingerprinting_fed after = eif_fingerprinting_feed(end.state, image, IMAGE_LENGTH, UINT64_MAX);
        check(after.count == 0 && memcmp(&after.state, &end.state, sizeof end.state) == 0, "fingerprinted after the end");
        eif_fingerprinting_finished again = eif_fingerprinting_finish(after.state);
        check(memcmp(&again, &end, sizeof end) == 0, "fingerprinted end again");
    }
    eif_fingerprinting_fed fed = eif_fingerprinting_feed(eif_fingerprinting_begin(), image, CUT_LENGTH, UINT64_MAX);
    eif_fingerprinting_finished cut = eif_fingerprinting_finish(fed.state);
    check(refused(cut.reading, EIF_IMAGE_TOO_SHORT, 0, 0), "547 bytes fingerprinted");
    check(zero(cut.digest.bytes, sizeof cut.digest), "fingerprint of 547 bytes");
}

/* SHA-384 of "abc", the standard's first example, in two pieces. */
static void try_sha384(void) {
    static const uint8_t expected[EIF_DIGEST_LENGTH] = {
        0xcb, 0x00, 0x75, 0x3f, 0x45, 0xa3, 0x5e, 0x8b, 0xb5, 0xa0, 0x3d, 0x69,
        0x9a, 0xc6, 0x50, 0x07, 0x27, 0x2c, 0x32, 0xab, 0x0e, 0xde, 0xd1, 0x63,
        0x1a, 0x8b, 0x60, 0x5a, 0x43, 0xff, 0x5b, 0xed, 0x80, 0x86, 0x07, 0x2b,
        0xa1, 0xe7, 0xcc, 0x23, 0x58, 0xba, 0xec, 0xa1, 0x34, 0xc8, 0x25, 0xa7};
    static const uint8_t abc[3] = {'a', 'b', 'c'};
    eif_sha384 begun = eif_sha384_begin();
    eif_sha384_fed first = eif_sha384_update(begun, abc, 1);
    check(first.number == EIF_ACCEPTED && first.state.total == 1, "first piece");
    eif_sha384_fed second = eif_sha384_update(first.state, abc + 1, 2);
    check(second.number == EIF_ACCEPTED && second.state.total == 3, "second piece");
    eif_digest digest = eif_sha384_finish(second.state);
    check(memcmp(digest.bytes, expected, EIF_DIGEST_LENGTH) == 0, "digest of abc");
    check(begins(eif_sha384_finish(begun), UINT64_C(0x38b060a751ac9638)), "digest of nothing");

    eif_sha384 full = first.state;
    full.total = EIF_MAX_MESSAGE_LENGTH - 2;
    check(eif_sha384_update(full, abc, 2).number == EIF_ACCEPTED, "a piece up to the limit");
    eif_sha384_fed past = eif_sha384_update(full, abc, 3);
    check(past.number == EIF_MESSAGE_TOO_LONG && past.index == 0 && past.position == 0,
          "a piece past the limit");
    check(memcmp(&past.state, &full, sizeof full) == 0, "state beside a refusal");
}

int main(void) {
    uint8_t image[IMAGE_LENGTH];
    expect_image(image);
    try_write(image);
    try_read(image);
    try_positions(image);
    try_padded(image);
    try_json();
    try_strict(image);
    try_arriving(image);
    try_arriving_end(image);
    try_next(image);
    try_hostile_next(image);
    try_streams(image);
    try_sections(image);
    try_file_order();
    try_registers(image);
    try_measuring(image);
    try_fingerprint(image);
    try_fingerprinting(image);
    try_sha384();
    try_roll(image);
    try_flags();
    return ended("worked example: all equal");
}
