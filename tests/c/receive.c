/*
 * A receiver with 64 KiB: takes a file that arrives in pieces of 4 KiB, stores the data of its ramdisks as it arrives,
 * and computes its registers and its fingerprint, on a stack of that size, which also holds the states and the piece.
 * Below the stack lies a page that cannot be touched.
 * Prints how much was used and ends with status 0, or says what differs and ends with status 1.
 */
#include "stack.h"

#include <sys/mman.h>

enum { MEMORY = 65536, PAGE = 4096, PIECE = 4096 };
enum { SECTION_LENGTH = 50000, DATA_LENGTH = EIF_MAX_SECTIONS * SECTION_LENGTH, IMAGE_ROOM = 2000000 };

/* What is sent. The receiver has no room for it in its memory. */
static uint8_t data[DATA_LENGTH], image[IMAGE_ROOM];
static size_t image_length, sent;

/* The storage of the ramdisks, which is not in the receiver's memory. */
static uint8_t storage[DATA_LENGTH];
static size_t storage_room, stored;

/* What the receiver found. With `full` set, the storage had no room for a ramdisk: nothing else is known, and what was
 * stored must not be used. */
static int full;
static uint8_t number;
static uint16_t count;
static eif_digest registers[EIF_REGISTERS], fingerprint;

/* The radio: the next bytes of the file, as many as there is room for. */
static size_t receive(uint8_t *piece, size_t room) {
    size_t length = image_length - sent < room ? image_length - sent : room;
    memcpy(piece, image + sent, length);
    sent += length;
    return length;
}

/* Stores bytes of a section if it is a ramdisk; its own header has arrived before its data. Answers 0 if the storage
 * has no room for them. */
static int store(const eif_arriving *state, uint64_t place, const uint8_t *bytes, size_t length) {
    const uint8_t *header;
    if (place == EIF_NO_SECTION) {
        return 1;
    }
    header = state->section_headers + EIF_SECTION_HEADER_LENGTH * place;
    if (header[0] != 0 || header[1] != EIF_RAMDISK) {
        return 1;
    }
    if (storage_room - stored < length) {
        return 0;
    }
    memcpy(storage + stored, bytes, length);
    stored += length;
    return 1;
}

/* Takes one piece of the file: stores, measures and fingerprints each part of it. Answers 0 if not all of it was taken,
 * since the storage is full. */
static int take(eif_measuring *measuring, eif_fingerprinting *fingerprinting, const uint8_t *piece, size_t length) {
    while (length > 0) {
        eif_span span = eif_arriving_next(measuring->arriving, length);
        eif_measuring_fed fed = eif_measuring_feed(*measuring, piece, length, span.length);
        size_t taken = (size_t)fed.count;
        /* The state before these bytes tells their section's type. */
        if (taken == 0 || !store(&measuring->arriving, span.place, piece, taken)) {
            return 0;
        }
        *measuring = fed.state;
        *fingerprinting = eif_fingerprinting_feed(*fingerprinting, piece, taken, UINT64_MAX).state;
        piece += taken;
        length -= taken;
    }
    return 1;
}

static void receiver(void) {
    uint8_t piece[PIECE];
    eif_measuring measuring = eif_measuring_begin();
    eif_fingerprinting fingerprinting = eif_fingerprinting_begin();
    eif_measuring_finished end;
    size_t length;
    while ((length = receive(piece, sizeof piece)) != 0) {
        if (!take(&measuring, &fingerprinting, piece, length)) {
            full = 1;
            return;
        }
    }
    end = eif_measuring_finish(measuring);
    number = end.reading.number;
    count = end.reading.count;
    memcpy(registers, end.registers, sizeof registers);
    fingerprint = eif_fingerprinting_finish(fingerprinting).digest;
}

/* An image with the largest number of sections, and more bytes than the receiver has. No two sections have the same data. */
static int prepare(void) {
    eif_answer answer;
    for (size_t i = 0; i < sizeof data; i++) {
        data[i] = (uint8_t)(i % 251 + i / SECTION_LENGTH);
    }
    answer = eif_write(full_plan(2, SECTION_LENGTH), data, sizeof data, image, sizeof image);
    image_length = (size_t)answer.length;
    return answer.number == EIF_ACCEPTED;
}

/* The bytes of the stack that the receiver used, or 0 where there is no stack to try it on. */
static size_t used(void) {
    uint8_t *memory = (uint8_t *)mmap(NULL, PAGE + MEMORY, PROT_READ | PROT_WRITE,
                                      MAP_PRIVATE | MAP_ANONYMOUS, -1, 0);
    if (memory == MAP_FAILED || mprotect(memory, PAGE, PROT_NONE) != 0) {
        return 0;
    }
    return stack_used(memory + PAGE, MEMORY, receiver);
}

/* A file whose ramdisks do not fit is given up, and the receiver says so. */
static void check_full_storage(void) {
    storage_room = SECTION_LENGTH + 1;
    sent = stored = 0;
    number = 0xff;
    check(used() != 0, "a stack to try");
    check(full == 1 && number == 0xff, "a full storage is told");
    check(stored <= storage_room, "nothing is stored past the room");
}

static size_t check_file(void) {
    size_t bytes, ramdisks = 2 * SECTION_LENGTH;
    eif_registers_answer whole;
    eif_fingerprint expected;
    storage_room = sizeof storage;
    bytes = used();
    check(bytes != 0, "a stack to try");
    check(full == 0 && number == EIF_ACCEPTED && count == EIF_MAX_SECTIONS && sent == image_length,
          "the image is accepted");
    check(stored == sizeof data - ramdisks && memcmp(storage, data + ramdisks, stored) == 0, "the ramdisks are stored");
    whole = eif_registers(image, image_length);
    check(memcmp(registers, whole.registers, sizeof registers) == 0, "the registers are those of the whole image");
    expected = eif_image_fingerprint(image, image_length);
    check(expected.number == EIF_ACCEPTED && memcmp(&fingerprint, &expected.digest, sizeof fingerprint) == 0,
          "the fingerprint is that of the whole image");
    return bytes;
}

int main(void) {
    size_t bytes;
    if (!prepare()) {
        printf("receive: no image to try\n");
        return 1;
    }
    bytes = check_file();
    check_full_storage();
    if (failures == 0) {
        printf("receive: a file of %zu bytes by %d: %zu of %d bytes used, stack, states and piece\n",
               image_length, PIECE, bytes, MEMORY);
    }
    return failures != 0;
}
