/* SPDX-License-Identifier: Apache-2.0 */
/*
 * Enclave image files (EIF): reading them, whole or as they arrive, and writing them, whole or in pieces; measured
 * streams, registers, boot rolls and fingerprints; assembling an image from pieces in any order; staging one with a
 * section replaced; what signatures claim; JSON texts, as metadata should be.
 *
 * The C interface to a library whose every function is proved to meet the rules of FORMAT.md, which is cited below by
 * section and is installed in share/doc/eif. Link the archive, libeif_c.a, or the shared library, libeif.so; both are
 * for x86-64 programs. Of other libraries it needs memcpy and memset alone.
 *
 * Every function takes any bytes and any numbers, returns, and keeps nothing between calls. Calls
 * from several threads do not disturb each other. A call takes at most EIF_STACK_KIB of stack, and no
 * more than EIF_SHORT_STACK_KIB where it is handed EIF_SHORT_LENGTH bytes at most, and no heap.
 *
 * What a caller owes is what C cannot say in a type:
 *   - a pointer and its length describe bytes that stay as they are during the call, but for those
 *     that the call itself writes. Where the length is 0, any pointer will do, null too;
 *   - the output buffer overlaps no input; of eif_assembler_step, neither buffer overlaps the record or
 *     the other.
 *
 * The answer of a call that can refuse begins with a number. (Where an image arrives in pieces, the number is in the
 * reading of the finish call's answer; a call that begins to write has it in its member answer.) It is 0 where the
 * call is accepted, and otherwise the first of the numbers below that applies, in the order that FORMAT.md gives for
 * the call. Beside a refusal
 *   - no byte of the output buffer has changed, nor of an assembler's two buffers;
 *   - index is the index of the section or record for 6 to 11, 16, 17, 21 and, where a section is
 *     not packed, 20; and 0 for the others;
 *   - position is where what is at fault stands (FORMAT.md, Positions), counted from the start of the
 *     image or, where a roll was read, of the roll: a header field, the table's offset entry of the
 *     section, its own header, its data for 21, the record's start, or the first byte too many; and 0
 *     for the numbers that have no place there, and for every refusal of a plan;
 *   - all else in the answer is 0, but first_ramdisk, which is EIF_NO_RAMDISK, header_written of an
 *     eif_writing, which is EIF_HEADER_LENGTH, and the states that eif_sha384_update, eif_assembler_step and the
 *     finish calls of an arriving image answer: eif_arriving_finish, eif_measuring_finish, eif_fingerprinting_finish.
 * A call that reads an image first hands that refusal on as it is, position too.
 *
 * Answers have no padding, and their reserved fields are 0: equal answers are equal by memcmp. The exceptions are
 * eif_writing and eif_staged_writing, whose places have padding as the places of a plan do, and answers that contain
 * one of these states.
 *
 * Each stream, register, roll or fingerprint call on an image reads the whole image again, checksum included. To
 * copy a stream in pieces, read the image once and take eif_copy_sections, which reads only what it
 * copies.
 */
#ifndef EIF_H
#define EIF_H

#if !defined(__x86_64__) && !defined(_M_X64)
#error "libeif_c.a is for x86-64"
#endif

#include <stddef.h>
#include <stdint.h>

#ifdef __cplusplus
extern "C" {
#endif

/* The version of this header and of its archive. */
#define EIF_VERSION_MAJOR 0
#define EIF_VERSION_MINOR 1
#define EIF_VERSION_PATCH 0
#define EIF_VERSION "0.1.0"

/* An answer that is not looked at is a mistake, and a compiler that can says so. */
#if defined(__GNUC__) || defined(__clang__)
#define EIF_MUST_USE __attribute__((warn_unused_result))
#else
#define EIF_MUST_USE
#endif

/* The longest image in bytes. A buffer of this length takes any image, roll or stream. */
#define EIF_MAX_IMAGE_LENGTH 1073741824

/* Length of the image's header. A plain image has EIF_HEADER_LENGTH bytes and, for each section,
 * EIF_SECTION_HEADER_LENGTH bytes and its data. */
#define EIF_HEADER_LENGTH 548
#define EIF_SECTION_HEADER_LENGTH 12

/* Where the checksum stands in the header: four bytes, big-endian. */
#define EIF_CHECKSUM_POSITION 544

/* Length of a roll record's head, which stands before its data, and of the flags record, a roll's first.
 * A roll has the flags record, a head and the data for each section of type 1, 2 or 3, and one head more,
 * its end record. */
#define EIF_RECORD_HEAD_LENGTH 10
#define EIF_FLAGS_RECORD_LENGTH 12

/* The most sections of an image, and the most records of a roll beside its flags record and its end
 * record. */
#define EIF_MAX_SECTIONS 32

/* How many registers an image has. */
#define EIF_REGISTERS 3

/* SHA-384: length of a digest and of a block, and the most bytes that one digest is of. */
#define EIF_DIGEST_LENGTH 48
#define EIF_SHA384_BLOCK_LENGTH 128
#define EIF_MAX_MESSAGE_LENGTH UINT64_C(2305843009213693951)

/* The most arrays or objects that a JSON text may have open at once. */
#define EIF_MAX_JSON_DEPTH 32

/* The longest COSE_Sign1. A buffer of this length takes any. */
#define EIF_MAX_SIGN1_LENGTH 281

/* The bytes of every piece of a transfer but the last, and the longest record: its head, a piece's start and
 * its data. An image of n bytes has (n + EIF_PIECE_LENGTH - 1) / EIF_PIECE_LENGTH pieces, and as many
 * marks. */
#define EIF_PIECE_LENGTH 4096
#define EIF_MAX_TRANSFER_RECORD_LENGTH 4114

/* What first_ramdisk is where there is no ramdisk, and beside a refusal. */
#define EIF_NO_RAMDISK 32

/* The place of an eif_span whose bytes are no section's data. */
#define EIF_NO_SECTION 32

/* The most stack that a call takes, in KiB (1,024 bytes), and the most that it takes where no slice that it is
 * handed is longer than EIF_SHORT_LENGTH bytes: measured, not proved, and without what the loader may take to
 * find memcpy and memset at a first call. */
#define EIF_STACK_KIB 24
#define EIF_SHORT_STACK_KIB 12
#define EIF_SHORT_LENGTH 4096

/* Answer numbers (FORMAT.md, Answer numbers). eif_meaning gives their words. */
enum eif_number {
    EIF_ACCEPTED = 0,
    EIF_IMAGE_TOO_LONG = 1, /* also of the image that a plan, a roll or a staged base stands for */
    EIF_IMAGE_TOO_SHORT = 2,
    EIF_WRONG_MAGIC = 3,
    EIF_WRONG_VERSION = 4,
    EIF_WRONG_COUNT = 5, /* also of a roll with a 33rd record */
    EIF_STARTS_EARLY = 6,
    EIF_ENDS_LATE = 7,
    EIF_SIZES_DIFFER = 8,
    EIF_TYPE_NOT_ALLOWED = 9,
    EIF_RAMDISK_BEFORE_KERNEL = 10,
    EIF_TYPE_REPEATED = 11,
    EIF_SECTION_MISSING = 12,
    EIF_CHECKSUM_DIFFERS = 13,
    EIF_OUTPUT_TOO_SHORT = 14,
    EIF_DATA_LENGTH_DIFFERS = 15,
    EIF_RECORD_CUT = 16,
    EIF_RECORD_TYPE_WRONG = 17,
    EIF_BYTES_AFTER_END = 18,
    EIF_PAST_STREAM_END = 19,
    EIF_NOT_PACKED = 20, /* index: of the section, or 0 for bytes after the last */
    EIF_METADATA_NOT_JSON = 21, /* of eif_read_strict alone */
    EIF_PIECE_RECORD_WRONG = 22, /* 22 to 26 are of eif_assembler_step alone */
    EIF_PIECE_OUT_OF_TURN = 23,
    EIF_BUFFER_TOO_SHORT = 24,
    EIF_PIECE_DIFFERS = 25,
    EIF_PIECE_MISSING = 26,
    EIF_NO_SUCH_SECTION = 27, /* of the section to be replaced, or of the one to be shown */
    EIF_NOT_SIGN1 = 28, /* also of a claim or a signature that cannot be written */
    EIF_MESSAGE_TOO_LONG = 29
};

/* What an answer number means, in words. */
static inline const char *eif_meaning(uint8_t number) {
    switch (number) {
    case EIF_ACCEPTED: return "accepted";
    case EIF_IMAGE_TOO_LONG: return "image longer than 1,073,741,824 bytes";
    case EIF_IMAGE_TOO_SHORT: return "image shorter than 548 bytes";
    case EIF_WRONG_MAGIC: return "wrong magic";
    case EIF_WRONG_VERSION: return "version not 2, 3 or 4";
    case EIF_WRONG_COUNT: return "number of sections not 2 to 32";
    case EIF_STARTS_EARLY:
        return "section starts before the end of the one before it (548 for the first)";
    case EIF_ENDS_LATE: return "offset + 12 + size is more than the file length";
    case EIF_SIZES_DIFFER: return "size in the section header differs from the table";
    case EIF_TYPE_NOT_ALLOWED: return "type not allowed in this version";
    case EIF_RAMDISK_BEFORE_KERNEL: return "ramdisk with no kernel earlier in the file";
    case EIF_TYPE_REPEATED: return "second kernel, command line, signature or metadata";
    case EIF_SECTION_MISSING: return "kernel or command line missing, or metadata missing in version 4";
    case EIF_CHECKSUM_DIFFERS: return "checksum differs";
    case EIF_OUTPUT_TOO_SHORT: return "output buffer too short";
    case EIF_DATA_LENGTH_DIFFERS: return "data length differs from the plan's sum of lengths";
    case EIF_RECORD_CUT: return "roll ends inside a record, or before its end record";
    case EIF_RECORD_TYPE_WRONG:
        return "roll does not begin with its flags, or record of type above 3, or type 0 with a length not 0";
    case EIF_BYTES_AFTER_END: return "bytes after the end record";
    case EIF_PAST_STREAM_END: return "stream position past the stream's end";
    case EIF_NOT_PACKED: return "section not packed, or bytes after the last section";
    case EIF_METADATA_NOT_JSON: return "metadata is not one JSON text";
    case EIF_PIECE_RECORD_WRONG:
        return "record not of a transfer's form, or a piece that the image does not have";
    case EIF_PIECE_OUT_OF_TURN:
        return "open record while a transfer is open, or another record while none is";
    case EIF_BUFFER_TOO_SHORT:
        return "buffer too short for the image or its marks, or shorter than at open";
    case EIF_PIECE_DIFFERS: return "piece already held with other bytes";
    case EIF_PIECE_MISSING: return "close record with a piece missing";
    case EIF_NO_SUCH_SECTION: return "section number at or past the number of sections";
    case EIF_NOT_SIGN1: return "not one COSE_Sign1 of the accepted form";
    case EIF_MESSAGE_TOO_LONG: return "message longer than 2,305,843,009,213,693,951 bytes";
    default: return "unknown number";
    }
}

/* Section types (FORMAT.md, Sections). */
enum eif_section_type {
    EIF_KERNEL = 1,       /* exactly one */
    EIF_COMMAND_LINE = 2, /* exactly one */
    EIF_RAMDISK = 3,      /* any number, each after the kernel */
    EIF_SIGNATURE = 4,    /* at most one, from version 3 */
    EIF_METADATA = 5      /* exactly one in version 4, none before */
};

/* The name of a section type. */
static inline const char *eif_section_name(uint16_t type) {
    switch (type) {
    case EIF_KERNEL: return "kernel";
    case EIF_COMMAND_LINE: return "command line";
    case EIF_RAMDISK: return "ramdisk";
    case EIF_SIGNATURE: return "signature";
    case EIF_METADATA: return "metadata";
    default: return "unknown type";
    }
}

/* The processor that an image is for, the lowest bit of its header's flags (FORMAT.md, The header). */
enum eif_architecture {
    EIF_X86_64 = 0,
    EIF_AARCH64 = 1
};

/* The name of an architecture. */
static inline const char *eif_architecture_name(uint16_t architecture) {
    switch (architecture) {
    case EIF_X86_64: return "x86_64";
    case EIF_AARCH64: return "aarch64";
    default: return "unknown architecture";
    }
}

/* Numbers that must not be mixed up, each a struct of its own, so that a compiler refuses one in
 * the place of another. */

/* A position in an image file. */
typedef struct eif_file_position {
    uint64_t value;
} eif_file_position;

/* A position in a measured stream. */
typedef struct eif_stream_position {
    uint64_t value;
} eif_stream_position;

/* A position in a boot roll, from the roll's start. */
typedef struct eif_roll_position {
    uint64_t value;
} eif_roll_position;

/* A number of data bytes. */
typedef struct eif_data_length {
    uint64_t value;
} eif_data_length;

/* A section of an accepted image. */
typedef struct eif_section {
    uint16_t type;
    uint16_t flags;
    uint32_t reserved;
    eif_file_position position; /* of the data; the section's header stands in the 12 bytes before */
    eif_data_length length;
} eif_section;

/* A section to be written. */
typedef struct eif_place {
    uint16_t type;
    uint16_t flags;
    eif_data_length length;
} eif_place;

/* An image to be written. Places past the count are ignored. version is 2, 3 or 4; version 4 needs a metadata section,
 * and a signature needs version 3 or 4. The lowest bit of flags is the architecture: 0 is x86-64, 1 is aarch64.
 * default_mem and default_cpus are written as they are, and may be 0. */
typedef struct eif_plan {
    uint16_t version;
    uint16_t flags;
    uint64_t default_mem;
    uint64_t default_cpus;
    uint16_t count;
    eif_place places[EIF_MAX_SECTIONS];
} eif_plan;

/* What an image holds. */
typedef struct eif_reading {
    uint8_t number; /* EIF_ACCEPTED, or one of 1 to 13 and 20; of eif_read_strict also 21 */
    uint8_t reserved;
    uint16_t version;
    uint16_t flags;
    uint16_t count;
    uint64_t index;
    uint64_t position; /* in the image, of what is at fault */
    uint64_t default_mem;
    uint64_t default_cpus;
    uint32_t ramdisk_mark;  /* bit i is one exactly when section i is a ramdisk */
    uint32_t ramdisk_count; /* the number of ones in the mark */
    uint32_t first_ramdisk; /* the lowest one in the mark; EIF_NO_RAMDISK where there is none, so also
                             * beside a refusal, where the mark is 0 */
    uint16_t architecture;  /* the lowest bit of flags: EIF_X86_64 or EIF_AARCH64; 0 beside a refusal */
    uint16_t reserved_after;
    eif_section sections[EIF_MAX_SECTIONS]; /* in file order, then zeros */
} eif_reading;

/* Whether bytes are one JSON text, or where they stop being one. */
typedef struct eif_json_answer {
    uint8_t is_text; /* 1 where they are, and otherwise 0 */
    uint8_t reserved[7];
    uint64_t place; /* where is_text is 0: of the first byte that no JSON text can have after the bytes
                     * before it, counted from the start, or text_length where there is none */
} eif_json_answer;

/* An image that arrives in pieces, a value that can be kept, copied and gone on from. Any value whatever is
 * one; a fresh one comes from eif_arriving_begin. */
typedef struct eif_arriving {
    uint64_t taken;                    /* how many bytes were taken; it stays at 2^64 - 1 once there */
    uint8_t header[EIF_HEADER_LENGTH]; /* the file's first bytes, 0 where they have not come */
    uint8_t section_headers[EIF_MAX_SECTIONS * EIF_SECTION_HEADER_LENGTH]; /* the sections' own headers,
                                        * 12 bytes for each, 0 where they have not come */
    uint32_t checksum; /* CRC-32 of the checked bytes so far, before the last inversion */
    uint64_t ended;    /* 0 until the end is told, then 1; any other value counts as told */
} eif_arriving;

/* What a piece makes of an image that arrives. */
typedef struct eif_arriving_fed {
    eif_arriving state; /* after the call */
    uint64_t count;     /* how many bytes of the piece were taken */
} eif_arriving_fed;

/* What telling the end makes of it. */
typedef struct eif_arriving_finished {
    eif_arriving state;  /* as it was, its end told */
    eif_reading reading; /* what eif_read answers on the bytes taken */
} eif_arriving_finished;

/* The first of the next bytes of an arriving image: those that belong together. */
typedef struct eif_span {
    uint64_t place;  /* the section whose data they are, or EIF_NO_SECTION */
    uint64_t length; /* how many they are */
    uint64_t begun;  /* how many sections in order have begun before them: their own headers have arrived whole */
} eif_span;

/* The kinds of a transfer's records. */
enum eif_transfer_record {
    EIF_OPEN_RECORD = 1,
    EIF_PIECE_RECORD = 2,
    EIF_CLOSE_RECORD = 3
};

/* A transfer whose pieces come in any order, a value that is kept beside its two buffers. Any value whatever
 * is one; a fresh one comes from eif_assembler_new. */
typedef struct eif_assembler {
    uint64_t opened; /* 0: no transfer is open; a call makes it 1; any other value counts as open */
    uint64_t length; /* the image length that the open record announced, else 0 */
    uint64_t room;   /* the image buffer's length at open, else 0 */
    uint64_t places; /* the mark buffer's length at open, else 0 */
} eif_assembler;

/* What a record makes of a transfer. */
typedef struct eif_assembler_stepped {
    uint8_t number; /* EIF_ACCEPTED, or one of 1 and 22 to 26 */
    uint8_t reserved[7];
    uint64_t index;      /* always 0 */
    uint64_t position;   /* always 0 */
    eif_assembler state; /* after the record; beside a refusal as it was */
    uint64_t length;     /* the image length where a close record is accepted, else 0 */
} eif_assembler_stepped;

/* A length, or a refusal. */
typedef struct eif_answer {
    uint8_t number;
    uint8_t reserved[7];
    uint64_t index;
    uint64_t position; /* in the image, of what is at fault */
    uint64_t length;   /* 0 beside a refusal */
} eif_answer;

/* An image that is written in pieces: a value that can be kept and copied. Any value is a state; a fresh one comes from
 * eif_writing_begin. It has 1,104 bytes. */
typedef struct eif_writing {
    uint64_t header_written; /* how many bytes of the image's header were written */
    uint64_t sections_begun; /* how many sections' own headers were written */
    uint64_t section_left;   /* how many bytes of data the section begun last still needs */
    uint64_t data_left;      /* how many bytes of data all sections together still need */
    uint64_t count;          /* that of the plan; more than EIF_MAX_SECTIONS counts as EIF_MAX_SECTIONS */
    eif_place places[EIF_MAX_SECTIONS]; /* those of the plan */
    uint8_t header[EIF_HEADER_LENGTH];  /* the image's header, with the given number as its checksum */
    uint32_t checksum; /* CRC-32 of the header's first 544 bytes and of all bytes written after the header, before the
                        * last inversion */
} eif_writing;

/* The answer to a plan that is to be written in pieces. */
typedef struct eif_writing_begun {
    eif_writing state; /* before the first byte; beside a refusal one that writes nothing */
    eif_answer answer; /* its length is the image's */
} eif_writing_begun;

/* The answer to a step of writing. */
typedef struct eif_writing_stepped {
    eif_writing state; /* after the step */
    uint64_t taken;    /* how many bytes of the data were taken */
    uint64_t written;  /* how many bytes were written over the start of out */
} eif_writing_stepped;

/* An image with one section replaced that is written in pieces: a value that can be kept and copied. Any value is a
 * state; a fresh one comes from eif_staged_writing_begin. It has 1,112 bytes. */
typedef struct eif_staged_writing {
    eif_writing writing; /* what is still to be written */
    uint64_t replaced;   /* the replaced section's number; 0 beside a refusal */
} eif_staged_writing;

/* The answer to a base and a replacement whose image is to be written in pieces. */
typedef struct eif_staged_writing_begun {
    eif_staged_writing state; /* before the first byte; beside a refusal one that writes nothing */
    eif_answer answer;        /* its length is that of the image written afresh */
} eif_staged_writing_begun;

/* The answer to a step of writing from base and replacement. */
typedef struct eif_staged_writing_stepped {
    eif_staged_writing state; /* after the step */
    uint64_t written;         /* how many bytes were written over the start of out */
} eif_staged_writing_stepped;

/* The sections of a stream, in its order. */
typedef struct eif_stream_sections {
    uint64_t count;                         /* above EIF_MAX_SECTIONS it stands for that */
    eif_section sections[EIF_MAX_SECTIONS]; /* then zeros */
} eif_stream_sections;

/* A SHA-384 digest, or a register. */
typedef struct eif_digest {
    uint8_t bytes[EIF_DIGEST_LENGTH];
} eif_digest;

/* The registers of an image. */
typedef struct eif_registers_answer {
    uint8_t number; /* EIF_ACCEPTED, or one of 1 to 13 and 20 */
    uint8_t reserved[7];
    uint64_t index;
    uint64_t position; /* in the image, of what is at fault */
    eif_digest registers[EIF_REGISTERS]; /* all 0 beside a refusal */
} eif_registers_answer;

/* A SHA-384 digest in progress, a value that can be kept, copied and gone on from. Any value whatever is
 * one; a fresh one comes from eif_sha384_begin. */
typedef struct eif_sha384 {
    uint64_t words[8];                      /* the hash value after the whole blocks */
    uint8_t block[EIF_SHA384_BLOCK_LENGTH]; /* the bytes of the block being filled, the others 0 */
    uint64_t total;                         /* how many bytes were taken in all */
} eif_sha384;

/* What a piece makes of a digest in progress. */
typedef struct eif_sha384_fed {
    uint8_t number; /* EIF_ACCEPTED, or EIF_MESSAGE_TOO_LONG */
    uint8_t reserved[7];
    uint64_t index;
    uint64_t position; /* always 0 */
    eif_sha384 state;  /* after the piece; beside a refusal as it was */
} eif_sha384_fed;

/* An image that arrives in pieces and is measured: a value that can be kept and copied. Any value is a state; a
 * fresh one comes from eif_measuring_begin. It has 1,552 bytes. */
typedef struct eif_measuring {
    eif_arriving arriving; /* what is kept of the bytes taken */
    eif_sha384 whole;      /* the digests of the three streams so far */
    eif_sha384 boot;
    eif_sha384 app;
} eif_measuring;

/* The answer to a piece of an image that is measured while it arrives. */
typedef struct eif_measuring_fed {
    eif_measuring state; /* after the call */
    uint64_t count;      /* how many bytes of the piece were taken */
} eif_measuring_fed;

/* The answer to the end of an image that is measured while it arrives. */
typedef struct eif_measuring_finished {
    eif_measuring state;                 /* as it was, its end announced */
    eif_reading reading;                 /* what eif_read answers on the bytes taken */
    eif_digest registers[EIF_REGISTERS]; /* what eif_registers answers on them; all 0 beside a refusal */
} eif_measuring_finished;

/* An image that arrives in pieces and is fingerprinted: a value that can be kept and copied. Any value is a state; a
 * fresh one comes from eif_fingerprinting_begin. It has 1,152 bytes. */
typedef struct eif_fingerprinting {
    eif_arriving arriving; /* what is kept of the bytes taken */
    eif_sha384 roll;       /* the digest of the boot roll so far */
} eif_fingerprinting;

/* The answer to a piece of an image that is fingerprinted while it arrives. */
typedef struct eif_fingerprinting_fed {
    eif_fingerprinting state; /* after the call */
    uint64_t count;           /* how many bytes of the piece were taken */
} eif_fingerprinting_fed;

/* The answer to the end of an image that is fingerprinted while it arrives. */
typedef struct eif_fingerprinting_finished {
    eif_fingerprinting state; /* as it was, its end announced */
    eif_reading reading;      /* what eif_read answers on the bytes taken */
    eif_digest digest;        /* what eif_image_fingerprint answers on them; all 0 beside a refusal */
} eif_fingerprinting_finished;

/* The fingerprint of an image. */
typedef struct eif_fingerprint {
    uint8_t number; /* EIF_ACCEPTED, or one of 1 to 13 and 20; of eif_staged_fingerprint also 27 */
    uint8_t reserved[7];
    uint64_t index;
    uint64_t position; /* in the image, of what is at fault */
    eif_digest digest; /* all 0 beside a refusal */
} eif_fingerprint;

/* A record of an accepted roll. */
typedef struct eif_roll_record {
    uint16_t type;
    uint16_t reserved;
    uint32_t reserved_after;
    eif_roll_position position; /* of the data */
    eif_data_length length;
} eif_roll_record;

/* What a roll holds. Flags record and end record are not listed. */
typedef struct eif_roll_reading {
    uint8_t number; /* EIF_ACCEPTED, or one of 1, 5, 10 to 12 and 16 to 18 */
    uint8_t reserved;
    uint16_t flags; /* of the image's header; their lowest bit is an enum eif_architecture */
    uint32_t reserved_after;
    uint64_t index; /* the flags record is record 0 */
    uint64_t position; /* in the roll, of what is at fault */
    uint64_t count;
    eif_roll_record records[EIF_MAX_SECTIONS]; /* in order, then zeros */
} eif_roll_reading;

/* The algorithms that may sign, each by its number in the COSE registry with its sign left off, with the
 * length of its signatures. */
enum eif_sign1_algorithm {
    EIF_ES256 = 7,  /* 64 bytes */
    EIF_ES384 = 35, /* 96 bytes */
    EIF_ES512 = 36  /* 132 bytes */
};

/* A position in a COSE_Sign1, from its first byte. */
typedef struct eif_sign1_position {
    uint64_t value;
} eif_sign1_position;

/* What a COSE_Sign1 claims: that a register has a value. */
typedef struct eif_sign1_claim {
    uint64_t algorithm;      /* of enum eif_sign1_algorithm */
    uint64_t register_index; /* any number */
    eif_digest register_value;
} eif_sign1_claim;

/* What one COSE_Sign1 holds. Its signature is not verified. */
typedef struct eif_sign1_reading {
    uint8_t number; /* EIF_ACCEPTED, or EIF_NOT_SIGN1 */
    uint8_t reserved[7];
    uint64_t index;
    uint64_t position;
    eif_sign1_claim claim;
    eif_sign1_position signature_position; /* where the signature's own bytes begin */
    eif_data_length signature_length;
} eif_sign1_reading;

/* Where the data of a section lies, of a base with one section replaced. */
typedef struct eif_staged_part_answer {
    uint8_t number;         /* EIF_ACCEPTED, or one of 1 to 13, 20 and 27 */
    uint8_t in_replacement; /* 1 where the data is the replacement, whole; 0 where it is a part of the base */
    uint8_t reserved[6];
    uint64_t index;
    uint64_t position; /* in the base, of what is at fault */
    uint64_t start;    /* where the data begins, in the base or, as 0, in the replacement */
    eif_data_length length;
} eif_staged_part_answer;

/* Reads an image (FORMAT.md, Reading an image). Refusals: 1 to 13 and 20. */
EIF_MUST_USE eif_reading eif_read(const uint8_t *image, size_t image_length);

/* Reads an image as eif_read does, and then refuses by 21 a metadata section that is not one JSON text
 * (FORMAT.md, Stricter reading). Refusals: those of eif_read, then 21. */
EIF_MUST_USE eif_reading eif_read_strict(const uint8_t *image, size_t image_length);

/* Whether bytes are exactly one JSON text (RFC 8259) in UTF-8, with at most EIF_MAX_JSON_DEPTH arrays or
 * objects open at once, and where not (FORMAT.md, JSON texts). Nothing is refused. */
EIF_MUST_USE eif_json_answer eif_json_check(const uint8_t *text, size_t text_length);

/* Reads an image that arrives in pieces of any size, with no room for its bytes (FORMAT.md, Check while
 * it arrives):
 *
 *     eif_arriving state = eif_arriving_begin();
 *     eif_arriving_fed fed = eif_arriving_feed(state, piece, piece_length, allowance);
 *     ... go on with fed.state and what was not taken of the piece, then with the next piece ...
 *     eif_reading reading = eif_arriving_finish(fed.state).reading;
 *
 * However the file was cut, the reading is that of eif_read on the bytes taken. A call takes bytes from
 * the piece's start and answers their count: until the end is told, the lesser of allowance and
 * piece_length; after it 0. Nothing is refused before the end is told, because the file's length can
 * change the answer until then. Telling the end again gives the same reading. */
EIF_MUST_USE eif_arriving eif_arriving_begin(void);
EIF_MUST_USE eif_arriving_fed eif_arriving_feed(eif_arriving state, const uint8_t *piece,
                                                size_t piece_length, uint64_t allowance);
EIF_MUST_USE eif_arriving_finished eif_arriving_finish(eif_arriving state);

/* Tells which section the next bytes of an arriving image belong to (FORMAT.md, Check while it arrives), so
 * that a caller can store or hash a section's data as it arrives:
 *
 *     eif_span span = eif_arriving_next(state, piece_length);
 *     ... the first span.length bytes of the piece are data of section span.place, or of no section where it is
 *         EIF_NO_SECTION; use them ...
 *     eif_arriving_fed fed = eif_arriving_feed(state, piece, piece_length, span.length);
 *     ... continue with fed.state and with the piece after its first fed.count bytes ...
 *
 * span.length is at most length, and at least 1 if length is not 0. After eif_arriving_finish the answer is the same, but
 * eif_arriving_feed takes nothing. A section with no data has no bytes here; the reading at the end lists it. The type
 * of section i, if i is less than span.begun, is the big-endian number in state.section_headers[12 * i] and
 * [12 * i + 1]. If the file is accepted at its end, the bytes of place i, joined, are the data of section i, however
 * the file was cut. Until then no rule is checked, so what was stored must not be used before eif_arriving_finish
 * accepts the file. The call takes any state and any length. */
EIF_MUST_USE eif_span eif_arriving_next(eif_arriving state, uint64_t length);

/* The length of a plan's image. Refusals, in this order: 4, 5, 9 to 11 for each section, 12, 1. */
EIF_MUST_USE eif_answer eif_plan_length(eif_plan plan);

/* Writes the plain image of a plan over the start of out and answers the image's length (FORMAT.md,
 * Writing an image). data is the sections' data joined in the plan's order. Bytes of out past the
 * image stay. Refusals: those of eif_plan_length, then 15, 14. */
EIF_MUST_USE eif_answer eif_write(eif_plan plan, const uint8_t *data, size_t data_length,
                                  uint8_t *out, size_t out_length);

/* Writes the plain image of a plan in pieces, with no room for the image or its data (FORMAT.md, Writing in pieces):
 *
 *     eif_writing_begun begun = eif_writing_begin(plan, 0);
 *     ... refused where begun.answer.number is not 0; else the image has begun.answer.length bytes ...
 *     eif_writing state = begun.state;
 *     ... until begun.answer.length bytes were written: have data, if any is left, and a buffer out ...
 *         eif_writing_stepped done = eif_writing_step(state, data, data_length, out, out_length);
 *         state = done.state;
 *         ... the first done.written bytes of out are the image's next; data begins done.taken bytes further on ...
 *     eif_answer sum = eif_writing_finish(state);
 *     ... where sum.number is 0, sum.length is the checksum: put it, big-endian, at EIF_CHECKSUM_POSITION of the file ...
 *
 * data is the sections' data joined in the plan's order, cut as the caller likes; a step takes data of one section at
 * most, and data past the plan's sum of lengths is never taken. No call refuses that: where there may be too much
 * data, see that none is left when the image is complete. Bytes of out past those written stay. A section's own header
 * is written whole or not at all, so out must have room for EIF_SECTION_HEADER_LENGTH bytes: then a step writes
 * something until the image is complete, except where data is needed and data_length is 0. All calls take any state.
 *
 * checksum is the number for the checksum field. Where nothing can be put afterwards, as on a radio, pass the data
 * twice: begin with 0 and throw away what is written to out; then begin with the checksum that eif_writing_finish
 * answered. If the second run's eif_writing_finish answers another checksum, the data was not the same, and readers
 * refuse the image by 13.
 *
 * Refusals of eif_writing_begin: those of eif_plan_length. Refusal of eif_writing_finish: 15 where data is missing, and
 * where the plan was refused. */
EIF_MUST_USE eif_writing_begun eif_writing_begin(eif_plan plan, uint32_t checksum);
EIF_MUST_USE eif_writing_stepped eif_writing_step(eif_writing state, const uint8_t *data, size_t data_length,
                                                  uint8_t *out, size_t out_length);
EIF_MUST_USE eif_answer eif_writing_finish(eif_writing state);

/* The number of bytes of a measured stream (FORMAT.md, Measured streams): the data of these sections,
 * joined in file order. Refusals: the image's own.
 *   whole  kernel, command line and every ramdisk
 *   boot   kernel, command line and the first ramdisk if there is one
 *   app    the ramdisks but the first */
EIF_MUST_USE eif_answer eif_whole_length(const uint8_t *image, size_t image_length);
EIF_MUST_USE eif_answer eif_boot_length(const uint8_t *image, size_t image_length);
EIF_MUST_USE eif_answer eif_app_length(const uint8_t *image, size_t image_length);

/* Copies a measured stream, from stream position from on, to the start of out, and answers how many
 * bytes were copied: as many as both out and the rest of the stream have. Later bytes of out stay.
 * Each call reads the whole image. Refusals: the image's own, then 19. */
EIF_MUST_USE eif_answer eif_copy_whole(const uint8_t *image, size_t image_length,
                                       eif_stream_position from, uint8_t *out, size_t out_length);
EIF_MUST_USE eif_answer eif_copy_boot(const uint8_t *image, size_t image_length,
                                      eif_stream_position from, uint8_t *out, size_t out_length);
EIF_MUST_USE eif_answer eif_copy_app(const uint8_t *image, size_t image_length,
                                     eif_stream_position from, uint8_t *out, size_t out_length);

/* The sections of a measured stream, of an image that was read:
 *
 *     eif_reading reading = eif_read(image, image_length);
 *     ... refused where reading.number is not 0 ...
 *     eif_stream_sections list = eif_whole_sections(reading);
 *     eif_answer copied = eif_copy_sections(image, image_length, list, from, out, out_length);
 *     ... go on from copied.length bytes further on, until it is 0 ...
 *
 * Any value whatever is a reading: its 32 places are looked at by their types, and nothing else of it.
 * So a refused one, which eif_read fills with zeros, has no sections. */
EIF_MUST_USE eif_stream_sections eif_whole_sections(eif_reading reading);
EIF_MUST_USE eif_stream_sections eif_boot_sections(eif_reading reading);
EIF_MUST_USE eif_stream_sections eif_app_sections(eif_reading reading);

/* Copies the data of sections that were found, joined, as eif_copy_whole copies a stream, and without
 * reading the image again. A list of the same image, unchanged since it was read, gives its stream.
 * Any value whatever is a list, whatever the image: of each section that part is taken that lies in the
 * image, and types, flags and reserved fields are not looked at. Refusal: 19. */
EIF_MUST_USE eif_answer eif_copy_sections(const uint8_t *image, size_t image_length,
                                          eif_stream_sections list, eif_stream_position from,
                                          uint8_t *out, size_t out_length);

/* The registers 0, 1 and 2 of an image (FORMAT.md, Registers): of the streams whole, boot and app,
 * SHA-384 of 48 zero bytes followed by the SHA-384 of the stream. Refusals: the image's own. */
EIF_MUST_USE eif_registers_answer eif_registers(const uint8_t *image, size_t image_length);

/* Computes the registers of an image that arrives in pieces of any size, with no room for its bytes (FORMAT.md,
 * Registers):
 *
 *     eif_measuring state = eif_measuring_begin();
 *     eif_measuring_fed fed = eif_measuring_feed(state, piece, piece_length, allowance);
 *     ... continue with fed.state and with what was not taken of the piece, then with the next piece ...
 *     eif_measuring_finished end = eif_measuring_finish(fed.state);
 *
 * Each byte is hashed when it arrives. Bytes are taken and counted as by eif_arriving_feed, so fed.state.arriving is
 * what eif_arriving_feed makes of the same pieces, and eif_arriving_next can be asked with it. However the file was
 * cut, the answer is that of eif_read and of eif_registers on the bytes taken. Finishing again gives the same. */
EIF_MUST_USE eif_measuring eif_measuring_begin(void);
EIF_MUST_USE eif_measuring_fed eif_measuring_feed(eif_measuring state, const uint8_t *piece,
                                                  size_t piece_length, uint64_t allowance);
EIF_MUST_USE eif_measuring_finished eif_measuring_finish(eif_measuring state);

/* SHA-384 (FIPS 180-4) of bytes that come in pieces of any size:
 *
 *     eif_sha384 state = eif_sha384_begin();
 *     eif_sha384_fed fed = eif_sha384_update(state, piece, piece_length);
 *     ... refused where fed.number is not 0; else go on with fed.state, piece by piece ...
 *     eif_digest digest = eif_sha384_finish(fed.state);
 *
 * A piece is refused by 29 exactly where state.total + piece_length, not wrapped, is more than
 * EIF_MAX_MESSAGE_LENGTH. */
EIF_MUST_USE eif_sha384 eif_sha384_begin(void);
EIF_MUST_USE eif_sha384_fed eif_sha384_update(eif_sha384 state, const uint8_t *piece,
                                              size_t piece_length);
EIF_MUST_USE eif_digest eif_sha384_finish(eif_sha384 state);

/* The length of an image's boot roll, which is less than the image's. Refusals: the image's own. */
EIF_MUST_USE eif_answer eif_roll_length(const uint8_t *image, size_t image_length);

/* Writes the boot roll of an image over the start of out and answers the roll's length (FORMAT.md, The
 * boot roll). Bytes of out past the roll stay. Refusals: the image's own, then 14. */
EIF_MUST_USE eif_answer eif_roll_write(const uint8_t *image, size_t image_length, uint8_t *out,
                                       size_t out_length);

/* The same from a reading that the caller already has, with no second checksum:
 *
 *     eif_reading reading = eif_read(image, image_length);
 *     eif_fingerprint fingerprint = eif_read_fingerprint(image, image_length, reading);
 *     eif_answer roll = eif_read_roll_write(image, image_length, reading, out, out_length);
 *
 * With the reading that eif_read answered for the same bytes, accepted or refused, these answer what eif_roll_length and
 * eif_roll_write answer; so do eif_read_fingerprint and eif_read_staged_part for eif_image_fingerprint and
 * eif_staged_part. Every value is a reading to these calls, whatever the image: a number other than 0 is a refusal, which
 * is answered with its index and position. If the number is 0, the 32 places are used, and of each section only the bytes
 * inside the image. Reserved fields, ramdisk_count and first_ramdisk are not looked at.
 *
 * A record has the data that lies in the image, and its head the length of that data. Sections of a reading that no image
 * has can overlap: a length that does not fit is answered as UINT64_MAX. Refusals: the reading's own; then, of
 * eif_read_roll_write, 14. */
EIF_MUST_USE eif_answer eif_read_roll_length(const uint8_t *image, size_t image_length, eif_reading reading);
EIF_MUST_USE eif_answer eif_read_roll_write(const uint8_t *image, size_t image_length, eif_reading reading,
                                            uint8_t *out, size_t out_length);

/* Reads a boot roll, which is accepted exactly when it is the roll of some accepted image.
 * Refusals: for the flags record 16 (head cut), 17, 16 (data cut); for each record after it 16 (head
 * cut), 17, 5, 16 (data cut), 10, 11; then 18, 12, 1. A roll that was written before rolls had flags is
 * refused by 17 at 0. */
EIF_MUST_USE eif_roll_reading eif_roll_read(const uint8_t *roll, size_t roll_length);

/* The fingerprint of an image: the SHA-384 of its boot roll (FORMAT.md, The boot roll). The roll is not built: each
 * section is hashed where it lies. Refusals: the image's own. */
EIF_MUST_USE eif_fingerprint eif_image_fingerprint(const uint8_t *image, size_t image_length);

/* The same from a reading that the caller already has, as eif_read_roll_write takes it. Refusals: the reading's own. */
EIF_MUST_USE eif_fingerprint eif_read_fingerprint(const uint8_t *image, size_t image_length,
                                                  eif_reading reading);

/* Computes the fingerprint of an image that arrives in pieces of any size, with no room for its bytes
 * (FORMAT.md, The boot roll):
 *
 *     eif_fingerprinting state = eif_fingerprinting_begin();
 *     eif_fingerprinting_fed fed = eif_fingerprinting_feed(state, piece, piece_length, allowance);
 *     ... continue with fed.state and with what was not taken of the piece, then with the next piece ...
 *     eif_fingerprinting_finished end = eif_fingerprinting_finish(fed.state);
 *
 * Bytes are taken and counted as by eif_arriving_feed, so fed.state.arriving is what eif_arriving_feed makes of the
 * same pieces. To store sections or compute registers in the same pass, ask eif_arriving_next with state.arriving, and
 * hand the same bytes to eif_measuring_feed too. However the file was cut, the answer is that of eif_read and of
 * eif_image_fingerprint on the bytes taken. Finishing again gives the same. */
EIF_MUST_USE eif_fingerprinting eif_fingerprinting_begin(void);
EIF_MUST_USE eif_fingerprinting_fed eif_fingerprinting_feed(eif_fingerprinting state, const uint8_t *piece,
                                                            size_t piece_length, uint64_t allowance);
EIF_MUST_USE eif_fingerprinting_finished eif_fingerprinting_finish(eif_fingerprinting state);

/* Reads one COSE_Sign1 and nothing after it (FORMAT.md, Signatures), as the signature section of an image
 * holds it. The signature is not verified: whoever writes an image can claim what they like.
 * Refusal: 28. */
EIF_MUST_USE eif_sign1_reading eif_sign1_read(const uint8_t *bytes, size_t bytes_length);

/* Writes the COSE_Sign1 of a claim and its signature over the start of out and answers its length. Bytes
 * of out past it stay. Refusals: 28 where the algorithm is none of the three or the signature is not of its
 * length; then 14. */
EIF_MUST_USE eif_answer eif_sign1_write(eif_sign1_claim claim, const uint8_t *signature,
                                        size_t signature_length, uint8_t *out, size_t out_length);

/* One section of an accepted base replaced, with no room for a second image (FORMAT.md, Staging). replaced
 * is the number of the section that the replacement stands for. What each call answers is that of the image
 * written afresh: the plain image of the base's reading with the replacement in the section's place.
 * Refusals of all: the base's own; 27 where replaced, or shown, is at or past the number of sections; 1
 * where the image written afresh would be longer than EIF_MAX_IMAGE_LENGTH.
 *
 * Where the data of section shown lies: in the replacement, whole, or from start on in the base. Nothing is
 * copied. Of the replacement only its size is asked, which can be any number. */
EIF_MUST_USE eif_staged_part_answer eif_staged_part(const uint8_t *base, size_t base_length,
                                                    uint64_t replacement_length,
                                                    uint64_t replaced, uint64_t shown);

/* The same from a reading of the base that the caller already has, as eif_read_roll_write takes it. The part lies within
 * base_length bytes, or is the replacement. Refusals: the reading's own; 5 where it has more than 32 sections; 27; 1. */
EIF_MUST_USE eif_staged_part_answer eif_read_staged_part(eif_reading reading, uint64_t base_length,
                                                         uint64_t replacement_length,
                                                         uint64_t replaced, uint64_t shown);

/* The roll of the image written afresh, over the start of out, as eif_roll_write writes it, and its length.
 * A short out is refused by 14, after the others. */
EIF_MUST_USE eif_answer eif_staged_roll_write(const uint8_t *base, size_t base_length,
                                              const uint8_t *replacement,
                                              size_t replacement_length, uint64_t replaced,
                                              uint8_t *out, size_t out_length);
EIF_MUST_USE eif_answer eif_staged_roll_length(const uint8_t *base, size_t base_length,
                                               const uint8_t *replacement,
                                               size_t replacement_length, uint64_t replaced);

/* The registers of the image written afresh. */
EIF_MUST_USE eif_registers_answer eif_staged_registers(const uint8_t *base, size_t base_length,
                                                       const uint8_t *replacement,
                                                       size_t replacement_length,
                                                       uint64_t replaced);

/* The fingerprint of the image written afresh. Neither that image nor its roll is built: each section is hashed
 * where it lies, in the base or in the replacement. */
EIF_MUST_USE eif_fingerprint eif_staged_fingerprint(const uint8_t *base, size_t base_length,
                                                    const uint8_t *replacement,
                                                    size_t replacement_length,
                                                    uint64_t replaced);

/* Writes in pieces the image of the base with the section replaced, from base and replacement, with no room for the
 * image (FORMAT.md, Writing in pieces):
 *
 *     eif_staged_writing_begun begun =
 *         eif_staged_writing_begin(base, base_length, replacement, replacement_length, replaced, checksum);
 *     ... refused where begun.answer.number is not 0 ...
 *     eif_staged_writing state = begun.state;
 *     ... until begun.answer.length bytes were written ...
 *         eif_staged_writing_stepped done =
 *             eif_staged_writing_step(state, base, base_length, replacement, replacement_length, out, out_length);
 *         state = done.state;
 *         ... the first done.written bytes of out are the image's next ...
 *     eif_answer sum = eif_staged_writing_finish(state);
 *     ... sum.length is the checksum, as for eif_writing_finish ...
 *
 * out and checksum are as for eif_writing_step and eif_writing_begin. Only eif_staged_writing_begin checks the base; the
 * steps copy from it. Base and replacement must stay the same until the image is complete, or the image is another one.
 * Refusals of eif_staged_writing_begin: the base's own, 27, 1, as of the other calls on a replaced section. Refusal of
 * eif_staged_writing_finish: 15, as of eif_writing_finish. */
EIF_MUST_USE eif_staged_writing_begun eif_staged_writing_begin(const uint8_t *base, size_t base_length,
                                                               const uint8_t *replacement,
                                                               size_t replacement_length, uint64_t replaced,
                                                               uint32_t checksum);
EIF_MUST_USE eif_staged_writing_stepped eif_staged_writing_step(eif_staged_writing state, const uint8_t *base,
                                                                size_t base_length, const uint8_t *replacement,
                                                                size_t replacement_length, uint8_t *out,
                                                                size_t out_length);
EIF_MUST_USE eif_answer eif_staged_writing_finish(eif_staged_writing state);

/* Puts an image together from pieces that come in any order, some of them twice (FORMAT.md, Pieces out of
 * order). Records are handed over one a call, each exactly its bytes, with the image buffer and the mark
 * buffer as the last call left them:
 *
 *     eif_assembler state = eif_assembler_new();
 *     eif_assembler_stepped done =
 *         eif_assembler_step(state, sent, sent_length, image, image_length, marks, marks_length);
 *     state = done.state;
 *     ... refused where done.number is not 0: nothing has changed, and the next record can be taken;
 *         else, where state.opened is 0, that was a close record: the image is the first done.length bytes
 *         of image. It is not read yet: eif_read says whether it is accepted ...
 *
 * A record is an 8-byte length of what follows its head and a 2-byte kind, both little-endian, and then: for
 * EIF_OPEN_RECORD the image's length in 8 bytes; for EIF_PIECE_RECORD the piece's start in 8 bytes, a multiple
 * of EIF_PIECE_LENGTH, and its data, EIF_PIECE_LENGTH bytes or, of the last piece, the rest; for
 * EIF_CLOSE_RECORD nothing. An open record sets the marks of the image's pieces to 0; a piece that is not
 * held yet has its data and its mark, 1, written; no other byte of either buffer ever changes. A mark other
 * than 0 says that the piece is held.
 * Refusals: 22 (form), 23, 22 (start and length of a piece), 1, 24, 25, 26. */
EIF_MUST_USE eif_assembler eif_assembler_new(void);
EIF_MUST_USE eif_assembler_stepped eif_assembler_step(eif_assembler state, const uint8_t *sent,
                                                      size_t sent_length, uint8_t *image,
                                                      size_t image_length, uint8_t *marks,
                                                      size_t marks_length);

#ifdef __cplusplus
}
#endif

#endif
