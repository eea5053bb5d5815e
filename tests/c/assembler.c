/*
 * A transfer through the C interface: pieces out of order and twice, every refusal, both buffers to the byte;
 * layouts, null pointers with length 0, answers without padding. Compiles as C99 and as C++.
 * Prints one line and ends with status 0, or says what differs and ends with status 1.
 */
#include "check.h"

enum { LENGTH = 2 * EIF_PIECE_LENGTH + 3, ROOM = LENGTH + 5, PLACES = 4 };
/* The bytes of a number: of a record's length, with which its head begins, and of the one after the head. */
enum { NUMBER = 8, DATA_AT = EIF_RECORD_HEAD_LENGTH + NUMBER };

/* The layout of each struct, as the Rust interface has it. A wrong size is a negative array length. */
typedef char layout_of_state[sizeof(eif_assembler) == 32 ? 1 : -1];
typedef char layout_of_state_room[offsetof(eif_assembler, room) == 16 ? 1 : -1];
typedef char layout_of_stepped[sizeof(eif_assembler_stepped) == 64 ? 1 : -1];
typedef char layout_of_stepped_state[offsetof(eif_assembler_stepped, state) == 24 ? 1 : -1];
typedef char layout_of_stepped_length[offsetof(eif_assembler_stepped, length) == 56 ? 1 : -1];

/* What is sent, and what the station has. */
static uint8_t content[LENGTH];
static eif_assembler state;
static uint8_t image[ROOM], marks[PLACES];

static void put_number(uint8_t *bytes, uint64_t number) {
    for (unsigned i = 0; i < NUMBER; i++) {
        bytes[i] = (uint8_t)(number >> (8 * i));
    }
}

/* Hands over a record of this kind: a number after the head where the kind has one, and data. */
static eif_assembler_stepped hand_over(unsigned kind, uint64_t number, const uint8_t *data,
                                       size_t data_length, size_t room, size_t places) {
    static uint8_t sent[EIF_MAX_TRANSFER_RECORD_LENGTH];
    size_t rest = kind == EIF_CLOSE_RECORD ? 0 : NUMBER + data_length;
    put_number(sent, rest);
    sent[NUMBER] = (uint8_t)kind;
    sent[NUMBER + 1] = 0;
    put_number(sent + EIF_RECORD_HEAD_LENGTH, number);
    if (data_length != 0) {
        memcpy(sent + DATA_AT, data, data_length);
    }
    return eif_assembler_step(state, sent, EIF_RECORD_HEAD_LENGTH + rest, image, room, marks, places);
}

static eif_assembler_stepped open_for(uint64_t length) {
    return hand_over(EIF_OPEN_RECORD, length, NULL, 0, ROOM, PLACES);
}

static eif_assembler_stepped piece(const uint8_t *from, unsigned place) {
    size_t start = (size_t)place * EIF_PIECE_LENGTH;
    size_t length = LENGTH - start < EIF_PIECE_LENGTH ? LENGTH - start : EIF_PIECE_LENGTH;
    return hand_over(EIF_PIECE_RECORD, start, from + start, length, ROOM, PLACES);
}

static eif_assembler_stepped close_it(void) {
    return hand_over(EIF_CLOSE_RECORD, 0, NULL, 0, ROOM, PLACES);
}

/* An answer with this number, and a state as it was where that is a refusal. */
static void expect(eif_assembler_stepped done, unsigned number, const char *what) {
    int same = memcmp(&done.state, &state, sizeof state) == 0;
    check(done.number == number && done.index == 0 && done.position == 0 &&
              zero(done.reserved, sizeof done.reserved) && (number == 0 || same) &&
              (number == 0 || done.length == 0),
          what);
    state = done.state;
}

static int marks_are(uint8_t a, uint8_t b, uint8_t c) {
    return marks[0] == a && marks[1] == b && marks[2] == c && marks[3] == STAYS;
}

static void try_transfer(void) {
    static uint8_t other[LENGTH];
    eif_assembler_stepped done;
    memcpy(other, content, LENGTH);
    other[EIF_PIECE_LENGTH] ^= 1;
    expect(close_it(), EIF_PIECE_OUT_OF_TURN, "a close while none is open");
    expect(open_for((uint64_t)EIF_MAX_IMAGE_LENGTH + 1), EIF_IMAGE_TOO_LONG, "too long");
    expect(open_for(ROOM + 1), EIF_BUFFER_TOO_SHORT, "longer than the buffer");
    check(marks[0] == STAYS, "marks before an open");
    expect(open_for(LENGTH), EIF_ACCEPTED, "the open");
    check(state.opened == 1 && state.length == LENGTH && state.room == ROOM &&
              state.places == PLACES,
          "the state after an open");
    check(marks_are(0, 0, 0), "marks after an open");
    expect(open_for(LENGTH), EIF_PIECE_OUT_OF_TURN, "a second open");
    expect(piece(content, 2), EIF_ACCEPTED, "the last piece first");
    expect(close_it(), EIF_PIECE_MISSING, "a close too early");
    expect(piece(content, 1), EIF_ACCEPTED, "the second piece");
    expect(piece(other, 1), EIF_PIECE_DIFFERS, "the second piece with other bytes");
    expect(piece(content, 1), EIF_ACCEPTED, "the second piece again");
    expect(hand_over(EIF_PIECE_RECORD, 1, content, EIF_PIECE_LENGTH, ROOM, PLACES),
           EIF_PIECE_RECORD_WRONG, "off the grid");
    expect(hand_over(EIF_PIECE_RECORD, 0, content, EIF_PIECE_LENGTH, ROOM - 1, PLACES),
           EIF_BUFFER_TOO_SHORT, "a buffer shorter than at open");
    check(marks_are(0, 1, 1), "marks before the first piece");
    check(image[0] == STAYS, "the image before the first piece");
    expect(piece(content, 0), EIF_ACCEPTED, "the first piece");
    done = close_it();
    expect(done, EIF_ACCEPTED, "the close");
    check(done.length == LENGTH && state.opened == 0 && state.length == 0, "what a close answers");
    check(memcmp(image, content, LENGTH) == 0 && marks_are(1, 1, 1), "the image");
    check(stays(image, LENGTH, ROOM), "bytes after the image");
    expect(piece(content, 0), EIF_PIECE_OUT_OF_TURN, "a piece after the close");
}

/* A length of 0 may come with a null pointer. */
static void try_null(void) {
    static const uint8_t open_record[DATA_AT] = {NUMBER, 0, 0, 0, 0, 0, 0, 0, EIF_OPEN_RECORD};
    eif_assembler_stepped done =
        eif_assembler_step(eif_assembler_new(), open_record, sizeof open_record, NULL, 0, NULL, 0);
    check(done.number == EIF_ACCEPTED && done.state.opened == 1, "an image of no bytes");
    done = eif_assembler_step(done.state, NULL, 0, NULL, 0, NULL, 0);
    check(done.number == EIF_PIECE_RECORD_WRONG && done.state.opened == 1, "no record");
}

static void try_padding(void) {
    eif_assembler_stepped one, other;
    CHECK_TWICE(one, other, close_it(), "equal answers by memcmp");
}

int main(void) {
    for (size_t i = 0; i < LENGTH; i++) {
        content[i] = (uint8_t)(i % 251);
    }
    memset(image, STAYS, sizeof image);
    memset(marks, STAYS, sizeof marks);
    state = eif_assembler_new();
    check(state.opened == 0 && state.length == 0 && state.room == 0 && state.places == 0, "new");
    try_transfer();
    try_null();
    try_padding();
    return ended("assembler: as promised");
}
