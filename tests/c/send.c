/*
 * A sender with 64 KiB: writes an image from parts that lie in its storage, once to the storage and once to the radio,
 * and sends an image with one section replaced from the old image and the new part. It has no room for an image. All
 * runs on a stack of that size, which also holds the states and the buffers. Below the stack lies a page that cannot
 * be touched.
 * Prints how much was used and ends with status 0, or says what differs and ends with status 1.
 */
#include "stack.h"

#include <sys/mman.h>

enum { MEMORY = 65536, PAGE = 4096, PIECE = 4096 };
enum { SECTION_LENGTH = 50000, DATA_LENGTH = EIF_MAX_SECTIONS * SECTION_LENGTH, IMAGE_ROOM = 2000000 };
enum { REPLACED = 2, REPLACEMENT_LENGTH = 70001 };

/* The sender's storage: the sections' data, the image that is written there, and the new part. */
static uint8_t data[DATA_LENGTH], image[IMAGE_ROOM], replacement[REPLACEMENT_LENGTH];
static size_t image_length;

/* What the radio has sent. */
static uint8_t sent[IMAGE_ROOM];
static size_t sent_length;

/* Whether the sender has succeeded. */
static int done;

/* ---- storage and radio */

/* Reads a piece of the data from the storage. */
static size_t read_data(size_t from, uint8_t *piece, size_t room) {
    size_t length = sizeof data - from < room ? sizeof data - from : room;
    memcpy(piece, data + from, length);
    return length;
}

/* Where the bytes of an image go. Answers 0 if they cannot go there. */
typedef int (*destination)(const uint8_t *bytes, size_t length);

static int to_storage(const uint8_t *bytes, size_t length) {
    if (sizeof image - image_length < length) {
        return 0;
    }
    memcpy(image + image_length, bytes, length);
    image_length += length;
    return 1;
}

static int to_radio(const uint8_t *bytes, size_t length) {
    if (sizeof sent - sent_length < length) {
        return 0;
    }
    memcpy(sent + sent_length, bytes, length);
    sent_length += length;
    return 1;
}

/* For the run that only computes the checksum. */
static int to_nowhere(const uint8_t *bytes, size_t length) {
    (void)bytes;
    (void)length;
    return 1;
}

/* ---- an image from its parts */

/* Writes the image of a plan, piece by piece, and puts its checksum in *checksum. Answers whether all of it was
 * written: it is not if the plan is refused, the data ends too early, or the bytes cannot go on. */
static int write_image(eif_plan plan, uint32_t field, destination put, uint32_t *checksum) {
    uint8_t piece[PIECE], out[PIECE];
    eif_writing_begun begun = eif_writing_begin(plan, field);
    eif_writing state = begun.state;
    uint64_t left = begun.answer.length;
    size_t read = 0, used = 0, length = 0;
    eif_answer sum;
    if (begun.answer.number != EIF_ACCEPTED) {
        return 0;
    }
    while (left > 0) {
        eif_writing_stepped next;
        if (used == length) {
            length = read_data(read, piece, sizeof piece);
            read += length;
            used = 0;
        }
        next = eif_writing_step(state, piece + used, length - used, out, sizeof out);
        if (next.written == 0 || !put(out, (size_t)next.written)) {
            return 0;
        }
        state = next.state;
        used += (size_t)next.taken;
        left -= next.written;
    }
    sum = eif_writing_finish(state);
    *checksum = (uint32_t)sum.length;
    return sum.number == EIF_ACCEPTED;
}

/* To the storage: the image is written once, and the checksum is put in its place afterwards. */
static int store_image(eif_plan plan) {
    uint32_t checksum = 0;
    if (!write_image(plan, 0, to_storage, &checksum)) {
        return 0;
    }
    for (unsigned i = 0; i < 4; i++) {
        image[EIF_CHECKSUM_POSITION + i] = (uint8_t)(checksum >> (24 - 8 * i));
    }
    return 1;
}

/* To the radio, where nothing can be put afterwards: the data is passed twice. If it differs the second time, so does
 * the checksum. */
static int send_image(eif_plan plan) {
    uint32_t first = 0, second = 0;
    return write_image(plan, 0, to_nowhere, &first) && write_image(plan, first, to_radio, &second) && first == second;
}

static void sender(void) {
    eif_plan plan = full_plan(2, SECTION_LENGTH);
    done = store_image(plan) && send_image(plan);
}

/* ---- an image with one section replaced */

/* Writes the stored image with one section replaced, and puts its checksum in *checksum. Answers whether all of it was
 * written. */
static int write_replaced(uint32_t field, destination put, uint32_t *checksum) {
    uint8_t out[PIECE];
    eif_staged_writing_begun begun =
        eif_staged_writing_begin(image, image_length, replacement, sizeof replacement, REPLACED, field);
    eif_staged_writing state = begun.state;
    uint64_t left = begun.answer.length;
    eif_answer sum;
    if (begun.answer.number != EIF_ACCEPTED) {
        return 0;
    }
    while (left > 0) {
        eif_staged_writing_stepped next =
            eif_staged_writing_step(state, image, image_length, replacement, sizeof replacement, out, sizeof out);
        if (next.written == 0 || !put(out, (size_t)next.written)) {
            return 0;
        }
        state = next.state;
        left -= next.written;
    }
    sum = eif_staged_writing_finish(state);
    *checksum = (uint32_t)sum.length;
    return sum.number == EIF_ACCEPTED;
}

static void replaced_sender(void) {
    uint32_t first = 0, second = 0;
    done = write_replaced(0, to_nowhere, &first) && write_replaced(first, to_radio, &second) && first == second;
}

/* ---- the test */

/* The bytes of the stack that a function used, or 0 where there is no stack to try it on. */
static size_t used_by(void (*function)(void)) {
    uint8_t *memory = (uint8_t *)mmap(NULL, PAGE + MEMORY, PROT_READ | PROT_WRITE,
                                      MAP_PRIVATE | MAP_ANONYMOUS, -1, 0);
    if (memory == MAP_FAILED || mprotect(memory, PAGE, PROT_NONE) != 0) {
        return 0;
    }
    done = 0;
    sent_length = 0;
    return stack_used(memory + PAGE, MEMORY, function);
}

/* What was sent is accepted, and section i has these bytes. */
static void check_sent(unsigned i, const uint8_t *bytes, size_t length) {
    eif_reading reading = eif_read(sent, sent_length);
    check(done == 1, "the sender has succeeded");
    check(reading.number == EIF_ACCEPTED && reading.count == EIF_MAX_SECTIONS, "what was sent is accepted");
    check(reading.sections[i].length.value == length &&
              memcmp(sent + reading.sections[i].position.value, bytes, length) == 0,
          "the section that was sent");
}

static size_t check_image(void) {
    size_t bytes = used_by(sender), last = EIF_MAX_SECTIONS - 1;
    check(bytes != 0, "a stack to try");
    check_sent((unsigned)last, data + last * SECTION_LENGTH, SECTION_LENGTH);
    check(sent_length == image_length && memcmp(sent, image, sent_length) == 0, "stored and sent are the same");
    return bytes;
}

static size_t check_replaced(void) {
    size_t bytes = used_by(replaced_sender);
    eif_fingerprint one, other;
    check(bytes != 0, "a stack to try");
    check_sent(REPLACED, replacement, sizeof replacement);
    one = eif_image_fingerprint(sent, sent_length);
    other = eif_staged_fingerprint(image, image_length, replacement, sizeof replacement, REPLACED);
    check(one.number == EIF_ACCEPTED && memcmp(&one, &other, sizeof one) == 0, "the fingerprint of what was sent");
    return bytes;
}

int main(void) {
    size_t whole, replaced;
    for (size_t i = 0; i < sizeof data; i++) {
        data[i] = (uint8_t)(i % 251 + i / SECTION_LENGTH);
    }
    memset(replacement, 0x5a, sizeof replacement);
    whole = check_image();
    replaced = check_replaced();
    if (failures == 0) {
        printf("send: an image of %zu bytes by %d: %zu of %d bytes used, stack, states and buffers\n",
               image_length, PIECE, whole, MEMORY);
        printf("send: with a section replaced, %zu bytes: %zu of %d bytes used\n", sent_length, replaced, MEMORY);
    }
    return failures != 0;
}
