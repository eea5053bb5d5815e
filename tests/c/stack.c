/*
 * How much stack each call takes: on an image of EIF_SHORT_LENGTH bytes at most held to EIF_SHORT_STACK_KIB, on
 * longer ones to LONG_STACK_KIB and EIF_STACK_KIB. Each call runs on a stack of its own.
 * Prints a line for each call and ends with status 0, or says which takes more and ends with status 1.
 */
#include "stack.h"

enum { STACK_LENGTH = 1 << 18, SECTIONS = EIF_MAX_SECTIONS, METADATA = 2 };
enum { TEXT_LENGTH = 2 * EIF_MAX_JSON_DEPTH };
/* Lengths of sections, for an image of EIF_SHORT_LENGTH bytes at most and one on each side of LONGER bytes and of PARTED. */
enum { SHORT_SECTION = 98, LONG_SECTION = 4000, LONGER_SECTION = 9000, LONGEST_SECTION = 542000 };
/* From LONGER bytes on the checksum takes its large window, from PARTED on two parts. What is shorter is held to LONG_STACK_KIB. */
enum { LONGER = 1 << 18, PARTED = 1 << 24, LONG_STACK_KIB = 16 };
enum { DATA_LENGTH = SECTIONS * LONGEST_SECTION, ROOM = 2 * DATA_LENGTH };
/* Where the data of the first section, the kernel, starts. */
enum { KERNEL_DATA = EIF_HEADER_LENGTH + EIF_SECTION_HEADER_LENGTH };

static uint8_t stack[STACK_LENGTH];

static eif_plan plan;
static uint8_t data[DATA_LENGTH], text[TEXT_LENGTH];
static uint8_t image[ROOM], out[ROOM], roll[ROOM];
static size_t data_length, image_length, roll_length;
static eif_stream_position start;

/* Answers stand here, so that only the call's own stack counts. */
static eif_reading reading;
static eif_roll_reading roll_reading;
static eif_answer answer;
static eif_json_answer json;
static eif_arriving arriving;
static eif_arriving_fed arriving_fed;
static eif_arriving_finished arrived;
static eif_span span;
static eif_stream_sections sections;
static eif_registers_answer registers;
static eif_measuring measuring;
static eif_measuring_fed measuring_fed, short_fed;
static eif_measuring_finished measured;
static eif_fingerprinting fingerprinting;
static eif_fingerprinting_fed fingerprinting_fed, short_fingerprinting;
static eif_fingerprinting_finished fingerprinted;
static eif_fingerprint fingerprint;
static eif_sha384 begun;
static eif_sha384_fed fed;
static eif_digest digest;
static eif_sign1_claim claim;
static eif_sign1_reading sign1_reading;
static uint8_t sign1[EIF_MAX_SIGN1_LENGTH];
static eif_staged_part_answer staged_part;
static eif_registers_answer staged_registers;
static eif_fingerprint staged_fingerprint;
static eif_writing_begun writing_begun;
static eif_writing_stepped writing_stepped, short_written;
static eif_answer writing_sum;
static eif_staged_writing_begun staged_begun;
static eif_staged_writing_stepped staged_stepped, base_stepped;
static eif_answer staged_sum;
static eif_assembler assembler;
static eif_assembler_stepped stepped;
/* An open record for an image of two pieces, the first of them, and room for both. */
static const uint8_t open_record[EIF_RECORD_HEAD_LENGTH + 8] = {8, 0, 0, 0, 0, 0, 0, 0, EIF_OPEN_RECORD, 0, 1, 16};
static uint8_t piece_record[EIF_MAX_TRANSFER_RECORD_LENGTH] = {8, 16, 0, 0, 0, 0, 0, 0, EIF_PIECE_RECORD};
static uint8_t assembled[2 * EIF_PIECE_LENGTH], marks[2];

static void nothing(void) {}
static void call_read(void) { reading = eif_read(image, image_length); }
static void call_read_strict(void) { reading = eif_read_strict(image, image_length); }
static void call_json_check(void) { json = eif_json_check(text, sizeof text); }
static void call_arriving_begin(void) { arriving = eif_arriving_begin(); }
static void call_arriving_feed(void) {
    arriving_fed = eif_arriving_feed(arriving, image, image_length, UINT64_MAX);
}
static void call_arriving_next(void) { span = eif_arriving_next(arriving_fed.state, image_length); }
static void call_arriving_finish(void) { arrived = eif_arriving_finish(arriving_fed.state); }
static void call_plan_length(void) { answer = eif_plan_length(plan); }
static void call_write(void) { answer = eif_write(plan, data, data_length, out, sizeof out); }
static void call_whole_length(void) { answer = eif_whole_length(image, image_length); }
static void call_boot_length(void) { answer = eif_boot_length(image, image_length); }
static void call_app_length(void) { answer = eif_app_length(image, image_length); }
static void call_copy_whole(void) {
    answer = eif_copy_whole(image, image_length, start, out, sizeof out);
}
static void call_copy_boot(void) {
    answer = eif_copy_boot(image, image_length, start, out, sizeof out);
}
static void call_copy_app(void) {
    answer = eif_copy_app(image, image_length, start, out, sizeof out);
}
static void call_whole_sections(void) { sections = eif_whole_sections(reading); }
static void call_boot_sections(void) { sections = eif_boot_sections(reading); }
static void call_app_sections(void) { sections = eif_app_sections(reading); }
static void call_copy_sections(void) {
    answer = eif_copy_sections(image, image_length, sections, start, out, sizeof out);
}
static void call_registers(void) { registers = eif_registers(image, image_length); }
static void call_measuring_begin(void) { measuring = eif_measuring_begin(); }
static void call_measuring_feed(void) {
    measuring_fed = eif_measuring_feed(measuring, image, image_length, UINT64_MAX);
}
/* EIF_SHORT_LENGTH bytes of the kernel's data, where the image has as many. */
static void call_measuring_short(void) {
    short_fed = eif_measuring_feed(short_fed.state, image + KERNEL_DATA, EIF_SHORT_LENGTH, UINT64_MAX);
}
static void call_measuring_finish(void) { measured = eif_measuring_finish(measuring_fed.state); }
static void call_fingerprinting_begin(void) { fingerprinting = eif_fingerprinting_begin(); }
static void call_fingerprinting_feed(void) {
    fingerprinting_fed = eif_fingerprinting_feed(fingerprinting, image, image_length, UINT64_MAX);
}
static void call_fingerprinting_short(void) {
    short_fingerprinting =
        eif_fingerprinting_feed(short_fingerprinting.state, image + KERNEL_DATA, EIF_SHORT_LENGTH, UINT64_MAX);
}
static void call_fingerprinting_finish(void) {
    fingerprinted = eif_fingerprinting_finish(fingerprinting_fed.state);
}
static void call_image_fingerprint(void) { fingerprint = eif_image_fingerprint(image, image_length); }
static void call_read_fingerprint(void) { fingerprint = eif_read_fingerprint(image, image_length, reading); }
static void call_sha384_begin(void) { begun = eif_sha384_begin(); }
static void call_sha384_update(void) { fed = eif_sha384_update(begun, image, image_length); }
static void call_sha384_finish(void) { digest = eif_sha384_finish(fed.state); }
static void call_roll_length(void) { answer = eif_roll_length(image, image_length); }
static void call_roll_write(void) {
    answer = eif_roll_write(image, image_length, out, sizeof out);
}
static void call_read_roll_length(void) { answer = eif_read_roll_length(image, image_length, reading); }
static void call_read_roll_write(void) {
    answer = eif_read_roll_write(image, image_length, reading, out, sizeof out);
}
static void call_roll_read(void) { roll_reading = eif_roll_read(roll, roll_length); }
/* The longest, which is 281 bytes. */
static void call_sign1_write(void) {
    answer = eif_sign1_write(claim, data, 132, sign1, sizeof sign1);
}
static void call_sign1_read(void) { sign1_reading = eif_sign1_read(sign1, sizeof sign1); }
/* Its last ramdisk replaced, which is shown. */
static void call_staged_part(void) {
    staged_part = eif_staged_part(image, image_length, data_length, SECTIONS - 1, SECTIONS - 1);
}
static void call_read_staged_part(void) {
    staged_part = eif_read_staged_part(reading, image_length, data_length, SECTIONS - 1, SECTIONS - 1);
}
static void call_staged_roll_length(void) {
    answer = eif_staged_roll_length(image, image_length, data, data_length, SECTIONS - 1);
}
static void call_staged_roll_write(void) {
    answer = eif_staged_roll_write(image, image_length, data, data_length, SECTIONS - 1, out, sizeof out);
}
static void call_staged_registers(void) {
    staged_registers = eif_staged_registers(image, image_length, data, data_length, SECTIONS - 1);
}
static void call_staged_fingerprint(void) {
    staged_fingerprint = eif_staged_fingerprint(image, image_length, data, data_length, SECTIONS - 1);
}

static void call_writing_begin(void) { writing_begun = eif_writing_begin(plan, 0); }
/* The image's header, the own header of one section that has all the data, and its data. */
static void call_writing_step(void) {
    writing_stepped = eif_writing_step(writing_stepped.state, data, data_length, out, sizeof out);
}
/* EIF_SHORT_LENGTH bytes of data of a longer section. */
static void call_writing_short(void) {
    short_written = eif_writing_step(short_written.state, data, EIF_SHORT_LENGTH, out, EIF_SHORT_LENGTH);
}
/* No section is begun, and no data is missing. */
static void call_writing_finish(void) {
    writing_begun.state.data_left = 0;
    writing_sum = eif_writing_finish(writing_begun.state);
}
static void call_staged_writing_begin(void) {
    staged_begun = eif_staged_writing_begin(image, image_length, data, data_length, SECTIONS - 1, 0);
}
/* The image's header, then the replaced section, which is the last, with its own header and its data. */
static void call_staged_writing_step(void) {
    staged_stepped =
        eif_staged_writing_step(staged_stepped.state, image, image_length, data, data_length, out, sizeof out);
}
/* Data of the kernel, which lies in the base. */
static void call_staged_writing_base(void) {
    base_stepped =
        eif_staged_writing_step(base_stepped.state, image, image_length, data, data_length, out, sizeof out);
}
static void call_staged_writing_finish(void) {
    staged_begun.state.writing.data_left = 0;
    staged_sum = eif_staged_writing_finish(staged_begun.state);
}

static void call_assembler_new(void) { assembler = eif_assembler_new(); }
static void call_assembler_open(void) {
    stepped = eif_assembler_step(assembler, open_record, sizeof open_record, assembled,
                                 sizeof assembled, marks, sizeof marks);
}
static void call_assembler_piece(void) {
    stepped = eif_assembler_step(stepped.state, piece_record, sizeof piece_record, assembled,
                                 sizeof assembled, marks, sizeof marks);
}

/* States before the steps that are tried: of one section with all the data, and of the replaced section. */
static int prepare_writing(void) {
    eif_plan one = begin_plan(2, 0, 2);
    put_place(&one, 0, EIF_KERNEL, data_length);
    put_place(&one, 1, EIF_COMMAND_LINE, 0);
    writing_begun = eif_writing_begin(one, 0);
    writing_stepped.state = writing_begun.state;
    staged_begun = eif_staged_writing_begin(image, image_length, data, data_length, SECTIONS - 1, 0);
    staged_stepped.state = staged_begun.state;
    staged_stepped.state.writing.sections_begun = SECTIONS - 1;
    base_stepped.state = staged_begun.state;
    base_stepped.state.writing.header_written = EIF_HEADER_LENGTH;
    base_stepped.state.writing.sections_begun = 1;
    base_stepped.state.writing.section_left = plan.places[0].length.value;
    return writing_begun.answer.number == EIF_ACCEPTED && staged_begun.answer.number == EIF_ACCEPTED;
}

/* An image of as many sections as one can have: kernel, command line, metadata and ramdisks, each of so many
 * bytes but the metadata, which is the deepest JSON text. */
static int prepare(size_t section) {
    memset(text, '[', TEXT_LENGTH / 2);
    memset(text + TEXT_LENGTH / 2, ']', TEXT_LENGTH / 2);
    memset(data, 0x5a, sizeof data);
    memcpy(data + METADATA * section, text, TEXT_LENGTH);
    data_length = (SECTIONS - 1) * section + TEXT_LENGTH;
    memset(&claim, 0xff, sizeof claim);
    claim.algorithm = EIF_ES512;
    plan = full_plan(4, section);
    put_place(&plan, METADATA, EIF_METADATA, TEXT_LENGTH);
    answer = eif_write(plan, data, data_length, image, sizeof image);
    image_length = (size_t)answer.length;
    if (answer.number != EIF_ACCEPTED) {
        return 0;
    }
    answer = eif_roll_write(image, image_length, roll, sizeof roll);
    roll_length = (size_t)answer.length;
    return answer.number == EIF_ACCEPTED && prepare_writing();
}

static const struct {
    const char *name;
    void (*function)(void);
} calls[] = {
    {"eif_read", call_read},
    {"eif_read_strict", call_read_strict},
    {"eif_json_check", call_json_check},
    {"eif_arriving_begin", call_arriving_begin},
    {"eif_arriving_feed", call_arriving_feed},
    {"eif_arriving_next", call_arriving_next},
    {"eif_arriving_finish", call_arriving_finish},
    {"eif_plan_length", call_plan_length},
    {"eif_write", call_write},
    {"eif_whole_length", call_whole_length},
    {"eif_boot_length", call_boot_length},
    {"eif_app_length", call_app_length},
    {"eif_copy_whole", call_copy_whole},
    {"eif_copy_boot", call_copy_boot},
    {"eif_copy_app", call_copy_app},
    {"eif_app_sections", call_app_sections},
    {"eif_boot_sections", call_boot_sections},
    {"eif_whole_sections", call_whole_sections},
    {"eif_copy_sections", call_copy_sections},
    {"eif_registers", call_registers},
    {"eif_measuring_begin", call_measuring_begin},
    {"eif_measuring_feed", call_measuring_feed},
    {"eif_measuring_finish", call_measuring_finish},
    {"eif_fingerprinting_begin", call_fingerprinting_begin},
    {"eif_fingerprinting_feed", call_fingerprinting_feed},
    {"eif_fingerprinting_finish", call_fingerprinting_finish},
    {"eif_image_fingerprint", call_image_fingerprint},
    {"eif_read_fingerprint", call_read_fingerprint},
    {"eif_sha384_begin", call_sha384_begin},
    {"eif_sha384_update", call_sha384_update},
    {"eif_sha384_finish", call_sha384_finish},
    {"eif_roll_length", call_roll_length},
    {"eif_read_roll_length", call_read_roll_length},
    {"eif_roll_write", call_roll_write},
    {"eif_read_roll_write", call_read_roll_write},
    {"eif_roll_read", call_roll_read},
    {"eif_sign1_write", call_sign1_write},
    {"eif_sign1_read", call_sign1_read},
    {"eif_staged_part", call_staged_part},
    {"eif_read_staged_part", call_read_staged_part},
    {"eif_staged_roll_length", call_staged_roll_length},
    {"eif_staged_roll_write", call_staged_roll_write},
    {"eif_staged_registers", call_staged_registers},
    {"eif_staged_fingerprint", call_staged_fingerprint},
    {"eif_writing_begin", call_writing_begin},
    {"eif_writing_step header", call_writing_step},
    {"eif_writing_step section", call_writing_step},
    {"eif_writing_step data", call_writing_step},
    {"eif_writing_finish", call_writing_finish},
    {"eif_staged_writing_begin", call_staged_writing_begin},
    {"eif_staged_writing_step 1", call_staged_writing_step},
    {"eif_staged_writing_step 2", call_staged_writing_step},
    {"eif_staged_writing_step 3", call_staged_writing_step},
    {"eif_staged_writing_step 4", call_staged_writing_base},
    {"eif_staged_writing_finish", call_staged_writing_finish},
    {"eif_assembler_new", call_assembler_new},
    {"eif_assembler_step 1", call_assembler_open},
    {"eif_assembler_step 2", call_assembler_piece},
    {"eif_assembler_step 2", call_assembler_piece},
};

/* Each call on an image of sections of so many bytes, within so many KiB. */
static void try_calls(size_t section, size_t kib) {
    size_t least = stack_used(stack, sizeof stack, nothing);
    check(prepare(section), "an image to try");
    printf("stack: an image of %zu bytes\n", image_length);
    for (size_t i = 0; i < sizeof calls / sizeof calls[0]; i++) {
        size_t bytes = stack_used(stack, sizeof stack, calls[i].function) - least;
        int fits = bytes <= kib * 1024;
        printf("stack: %-26s %6zu bytes%s\n", calls[i].name, bytes, fits ? "" : ": too many");
        failures += !fits || reading.number != 0 || arrived.reading.number != 0 || measured.reading.number != 0 ||
                    roll_reading.number != 0 || answer.number != 0 || registers.number != 0 ||
                    fed.number != 0 || sign1_reading.number != 0 ||
                    staged_part.number != 0 || staged_registers.number != 0 || staged_fingerprint.number != 0 ||
                    stepped.number != 0;
    }
    check(memcmp(measured.registers, registers.registers, sizeof registers.registers) == 0, "the registers");
    check(fingerprint.number == 0 && memcmp(&fingerprinted.digest, &fingerprint.digest, sizeof fingerprint.digest) == 0,
          "the fingerprint");
    check(span.place == EIF_NO_SECTION && span.begun == SECTIONS, "the span after the last section");
    check(writing_stepped.taken == data_length && staged_stepped.written == data_length, "data is written");
    check(base_stepped.written == plan.places[0].length.value, "data of the base is written");
    check(writing_sum.number == EIF_ACCEPTED && staged_sum.number == EIF_ACCEPTED, "the checksums");
    check(json.is_text == 1 && marks[0] == 1 && marks[1] == 0, "the text and the marks");
}

/* Short pieces inside the data of a longer section. */
static void try_short(const char *name, void (*function)(void)) {
    size_t bytes = stack_used(stack, sizeof stack, function) - stack_used(stack, sizeof stack, nothing);
    printf("stack: %-26s %6zu bytes, a short piece\n", name, bytes);
    check(bytes <= EIF_SHORT_STACK_KIB * 1024, name);
}

static void try_short_pieces(void) {
    short_fed = eif_measuring_feed(eif_measuring_begin(), image, KERNEL_DATA, UINT64_MAX);
    try_short("eif_measuring_feed", call_measuring_short);
    short_fingerprinting = eif_fingerprinting_feed(eif_fingerprinting_begin(), image, KERNEL_DATA, UINT64_MAX);
    try_short("eif_fingerprinting_feed", call_fingerprinting_short);
    check(short_fed.count == EIF_SHORT_LENGTH && short_fingerprinting.count == EIF_SHORT_LENGTH,
          "a short piece is taken");
    short_written.state = writing_stepped.state;
    short_written.state.section_left = EIF_SHORT_LENGTH + 1;
    try_short("eif_writing_step", call_writing_short);
    check(short_written.taken == EIF_SHORT_LENGTH, "short data is taken");
}

int main(void) {
    try_calls(SHORT_SECTION, EIF_SHORT_STACK_KIB);
    check(image_length <= EIF_SHORT_LENGTH, "the length of the first image");
    try_calls(LONG_SECTION, LONG_STACK_KIB);
    check(image_length < LONGER, "the length of the second image");
    try_calls(LONGER_SECTION, EIF_STACK_KIB);
    check(image_length >= EIF_HEADER_LENGTH + LONGER && image_length < PARTED, "the length of the third image");
    try_short_pieces();
    try_calls(LONGEST_SECTION, EIF_STACK_KIB);
    check(image_length >= EIF_HEADER_LENGTH + PARTED, "the length of the fourth image");
    return failures != 0;
}
