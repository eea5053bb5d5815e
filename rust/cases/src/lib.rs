//! The examples of docs/FORMAT.md, the published ones of SHA-384, texts for each rule of RFC 8259 and COSE_Sign1
//! byte strings as data, for the tests of the library and of the twin.
//!
//! What builds the examples judges nothing and has a checksum of its own, bit by bit, so a test
//! never trusts what it tests.
//!
//! ```
//! let image = eif_cases::worked_image();
//! assert_eq!(image.len(), 586);
//! assert_eq!(eif_cases::crc32(&[b"123456789"]), 0xCBF4_3926);
//! assert_eq!(eif_cases::crc32_then_zeros(0xCBF4_3926, 9), eif_cases::crc32(&[b"123456789", &[0; 9]]));
//! ```
#![forbid(unsafe_code)]
#![deny(missing_docs)]

pub mod cbor;
mod digests;
mod images;
mod layout;
mod orders;
mod positions;
mod rolls;
mod sign1;
mod streams;
mod strict;
mod texts;

pub use digests::{digest_cases, hex, register_cases, DigestCase};
pub use images::{
    image_cases, image_of_length, two_sections, worked_image, zero_image, zero_image_start, Answer,
    ImageCase, ACCEPTED, WORKED_LENGTH, WORKED_OFFSETS,
};
pub use layout::{
    checksum_of, crc32, crc32_then_zeros, offset_entry, put, put_checksum, put_number, section_end,
    size_entry, Layout, Section, CHECKSUM_AT, COUNT_AT, ENTRY, HEADER, MAX_SECTIONS, OFFSETS_AT,
    OWN_SIZE_AT, RESERVED_AFTER_AT, RESERVED_AT, SECTION_HEADER, SHORTEST, SIZES_AT, VERSION_AT,
};
pub use orders::{
    image_orders, long_image_orders, long_roll_orders, orders, plan_orders, roll_orders,
    short_buffers, sign1_orders, staged_roll_orders, staged_view_orders, transfer_orders, Order,
    OrderCase, Replacement, Rule, Sign1Input, TransferInput,
};
pub use positions::{located_images, located_plans, located_rolls, PlanCase};
pub use rolls::{
    flags_record, record, roll_cases, roll_of, RollCase, Row, FLAGS_RECORD, KIND_AT,
    NUMBERED_HEADER, RECORD_HEAD, WORKED_ROLL,
};
pub use sign1::{sign1_cases, sign1_example, Sign1Case, Sign1Parts, SIGN1_ALGORITHMS};
pub use streams::{command_line_first, copy_cases, stream_cases, CopyCase, StreamCase};
pub use strict::strict_cases;
pub use texts::{nested, text_cases, TextCase};
