//! Enclave image files in ordinary Rust.
//!
//! Written from the rules alone (docs/FORMAT.md), to be compared with the proved library: it gives the
//! same answers and shares no code with it. It is also what the library's speed is measured against.
//! [`Sha384`] is written from FIPS 180-4, and [`check_json`] from RFC 8259 and RFC 3629, [`read_sign1`] and [`write_sign1`] from RFC 8949 and RFC 9052.
//!
//! ```
//! use eif_twin::{read_roll, Refusal};
//!
//! // Ten zero bytes are an end record with nothing before it: the flags record is missing.
//! let refusal = Refusal { number: 17, index: 0, position: 0 };
//! assert_eq!(read_roll(&[0; 10]), Err(refusal));
//! ```
#![forbid(unsafe_code)]
#![deny(missing_docs)]

mod arriving;
mod assembler;
mod crc32;
mod fingerprint;
mod image;
mod json;
mod measuring;
mod plan;
mod registers;
mod roll;
mod rules;
mod sha384;
mod sign1;
mod staged;
mod staged_writing;
mod stream;
mod strict;
mod writing;

pub use arriving::{Arriving, Span};
pub use assembler::Transfer;
pub use crc32::Crc32;
pub use fingerprint::{fingerprint, Fingerprinting};
pub use image::{read, Reading, Section};
pub use json::check_json;
pub use measuring::Measuring;
pub use plan::{plan_length, write, Place, Plan};
pub use registers::registers;
pub use roll::{read_roll, roll_length, write_roll, Record, Roll};
pub use rules::{Refusal, MAX_IMAGE};
pub use sha384::Sha384;
pub use sign1::{read_sign1, write_sign1, Claim, Sign1};
pub use staged::{
    staged_fingerprint, staged_image, staged_part, staged_registers, write_staged_roll, StagedPart,
};
pub use staged_writing::StagedWriting;
pub use stream::{copy_sections, copy_stream, stream_length, stream_sections, Stream};
pub use strict::read_strict;
pub use writing::{Step, Writing};
