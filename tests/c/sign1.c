/*
 * One COSE_Sign1 through the C interface: written, read back, refused; layouts, null pointers with length 0,
 * answers without padding. Compiles as C99 and as C++.
 * Prints one line and ends with status 0, or says what differs and ends with status 1.
 */
#include "check.h"

enum { LENGTH = 213, SIGNATURE_LENGTH = 96 };

/* The layout of each struct, as the Rust interface has it. A wrong size is a negative array length. */
typedef char layout_of_claim[sizeof(eif_sign1_claim) == 64 ? 1 : -1];
typedef char layout_of_claim_value[offsetof(eif_sign1_claim, register_value) == 16 ? 1 : -1];
typedef char layout_of_reading[sizeof(eif_sign1_reading) == 24 + 64 + 16 ? 1 : -1];
typedef char layout_of_reading_claim[offsetof(eif_sign1_reading, claim) == 24 ? 1 : -1];

/* ES384, register 0, of the value 0, 1, 2 and so on. */
static eif_sign1_claim claim_of(uint64_t algorithm) {
    eif_sign1_claim claim;
    claim.algorithm = algorithm;
    claim.register_index = 0;
    for (unsigned i = 0; i < EIF_DIGEST_LENGTH; i++) {
        claim.register_value.bytes[i] = (uint8_t)i;
    }
    return claim;
}

static size_t put(uint8_t *bytes, size_t at, const void *from, size_t length) {
    memcpy(bytes + at, from, length);
    return at + length;
}

/* The 213 bytes, part by part. */
static void expect_bytes(uint8_t *bytes, const uint8_t *signature) {
    static const uint8_t opening[9] = {0x84, 0x44, 0xa1, 0x01, 0x38, 0x22, 0xa0, 0x58, 0x6a};
    size_t at = put(bytes, 0, opening, sizeof opening);
    at = put(bytes, at, "\xa2\x6eregister_index\x00", 17);
    at = put(bytes, at, "\x6eregister_value\x98\x30", 17);
    for (unsigned i = 0; i < EIF_DIGEST_LENGTH; i++) {
        if (i >= 24) {
            bytes[at++] = 0x18;
        }
        bytes[at++] = (uint8_t)i;
    }
    at = put(bytes, at, "\x58\x60", 2);
    at = put(bytes, at, signature, SIGNATURE_LENGTH);
    check(at == LENGTH, "length expected");
}

static void try_write(const uint8_t *expected, const uint8_t *signature) {
    uint8_t out[EIF_MAX_SIGN1_LENGTH + 1];
    eif_sign1_claim claim = claim_of(EIF_ES384);
    memset(out, STAYS, sizeof out);
    check(is(eif_sign1_write(claim, signature, SIGNATURE_LENGTH - 1, out, 0), EIF_NOT_SIGN1, 0),
          "a signature of 95 bytes, before a short output");
    check(is(eif_sign1_write(claim_of(EIF_ES512), signature, SIGNATURE_LENGTH, out, sizeof out),
             EIF_NOT_SIGN1, 0), "a signature of 96 bytes for ES512");
    check(is(eif_sign1_write(claim_of(0), signature, 0, out, sizeof out), EIF_NOT_SIGN1, 0),
          "algorithm 0");
    check(is(eif_sign1_write(claim_of(256 + EIF_ES384), signature, SIGNATURE_LENGTH, out, sizeof out),
             EIF_NOT_SIGN1, 0), "algorithm 291");
    check(is(eif_sign1_write(claim, signature, SIGNATURE_LENGTH, out, LENGTH - 1),
             EIF_OUTPUT_TOO_SHORT, 0), "write, 212");
    check(stays(out, 0, sizeof out), "output of a refused write");
    check(is(eif_sign1_write(claim, signature, SIGNATURE_LENGTH, out, sizeof out), EIF_ACCEPTED,
             LENGTH), "write");
    check(memcmp(out, expected, LENGTH) == 0, "bytes written");
    check(stays(out, LENGTH, sizeof out), "output past what is written");
}

/* The longest there is: every number as wide as it can be. */
static void try_longest(void) {
    static const uint8_t signature[132] = {0};
    uint8_t out[EIF_MAX_SIGN1_LENGTH];
    eif_sign1_claim claim;
    memset(&claim, 0xff, sizeof claim);
    claim.algorithm = EIF_ES512;
    check(is(eif_sign1_write(claim, signature, sizeof signature, out, sizeof out), EIF_ACCEPTED,
             EIF_MAX_SIGN1_LENGTH), "the longest");
    eif_sign1_reading reading = eif_sign1_read(out, sizeof out);
    check(reading.number == EIF_ACCEPTED && reading.signature_position.value == 149, "the longest, read");
    check(memcmp(&reading.claim, &claim, sizeof claim) == 0, "the longest, its claim");
}

static void try_read(const uint8_t *bytes) {
    eif_sign1_claim claim = claim_of(EIF_ES384);
    eif_sign1_reading reading = eif_sign1_read(bytes, LENGTH);
    check(reading.number == EIF_ACCEPTED && reading.index == 0, "read");
    check(memcmp(&reading.claim, &claim, sizeof claim) == 0, "claim");
    check(reading.signature_position.value == LENGTH - SIGNATURE_LENGTH, "signature's position");
    check(reading.signature_length.value == SIGNATURE_LENGTH, "signature's length");
}

/* Beside a refusal all else is 0. */
static void try_refused(const uint8_t *bytes, size_t length, const char *what) {
    eif_sign1_reading blank, refused = eif_sign1_read(bytes, length);
    memset(&blank, 0, sizeof blank);
    blank.number = EIF_NOT_SIGN1;
    check(memcmp(&refused, &blank, sizeof blank) == 0, what);
}

static void try_each_byte(const uint8_t *expected) {
    uint8_t bytes[LENGTH + 1] = {0};
    memcpy(bytes, expected, LENGTH);
    for (size_t length = 0; length < LENGTH; length++) {
        try_refused(bytes, length, "cut");
    }
    try_refused(bytes, LENGTH + 1, "a byte after the end");
    /* The protected header, the empty map, the payload's head and its names allow no other byte. */
    for (size_t at = 0; at < 25; at++) {
        bytes[at] ^= 1;
        /* -36 for -35, whose signatures are longer, is refused too. */
        try_refused(bytes, LENGTH, "a byte changed");
        bytes[at] ^= 1;
    }
    try_read(bytes);
}

static void try_null(void) {
    try_refused(NULL, 0, "read of null");
    check(is(eif_sign1_write(claim_of(EIF_ES384), NULL, 0, NULL, 0), EIF_NOT_SIGN1, 0),
          "no signature, no output");
}

static void try_equal(const uint8_t *bytes, size_t length) {
    static eif_sign1_reading one, other;
    CHECK_TWICE(one, other, eif_sign1_read(bytes, length), "equal readings by memcmp");
    check(zero(one.reserved, sizeof one.reserved), "reserved of a reading");
}

int main(void) {
    uint8_t signature[SIGNATURE_LENGTH], expected[LENGTH];
    for (unsigned i = 0; i < SIGNATURE_LENGTH; i++) {
        signature[i] = (uint8_t)(0xa5 + i);
    }
    expect_bytes(expected, signature);
    try_write(expected, signature);
    try_longest();
    try_read(expected);
    try_each_byte(expected);
    try_null();
    try_equal(expected, LENGTH);
    try_equal(expected, LENGTH - 1);
    return ended("COSE_Sign1: as promised");
}
