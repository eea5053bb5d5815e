//! Reader, writer, registers and boot rolls of enclave image files (EIF).
//!
//! This crate is the safe Rust interface to a static library whose every function is proved to meet
//! the rules of docs/FORMAT.md, which is cited by section. Nothing is judged here: bytes and numbers go
//! to the library as they are, and its answer comes back as a [`Result`].
//!
//! | call | what it does |
//! |---|---|
//! | [`read`] | accepts or refuses an image and lists its sections |
//! | [`Arriving`] | the same of an image that arrives in pieces, with no memory for its bytes |
//! | [`Arriving::next`], [`Arriving::parts`] | which section the bytes that arrive belong to |
//! | [`read_strict`], [`json::check`] | reads an image whose metadata must be JSON; says whether bytes are one JSON text |
//! | [`write()`], [`plan_length`], [`write_to_vec`] | the plain image of a [`Plan`] |
//! | [`ImageWriter`], [`Writing`] | the same in pieces, with no memory for the image or its data |
//! | [`copy_stream`], [`stream_length`], [`stream_to_vec`] | the three measured streams |
//! | [`Image::stream_sections`], [`Image::stream_reader`], [`Image::copy_stream`] | the same of an image that was read, without reading it again |
//! | [`registers()`] | registers 0, 1 and 2, as the platform measures the image |
//! | [`ArrivingRegisters`] | the same of an image that arrives in pieces, with no memory for its bytes |
//! | [`Sha384`] | SHA-384, fed in pieces |
//! | [`write_roll`], [`roll_length`], [`roll_to_vec`], [`read_roll`] | the boot roll |
//! | [`fingerprint()`], [`Image::fingerprint`] | the fingerprint, which is the SHA-384 of the boot roll |
//! | [`ArrivingFingerprint`] | the same of an image that arrives in pieces, with no memory for its bytes |
//! | [`Assembler`], [`assembler::records`] | an image from pieces that come in any order, some of them twice; its records |
//! | [`sign1::read`], [`sign1::write`], [`sign1::to_vec`] | what a signature claims, not verified |
//! | [`staged::section`], [`staged::roll_to_vec`], [`staged::registers`], [`staged::fingerprint`] | an image with one section replaced, and no second image: a section's data, the boot roll, the registers, the fingerprint |
//! | [`staged::Reader`], [`staged::Writing`] | the bytes of that image, in pieces |
//!
//! Every call takes any bytes and any numbers, and none panics. A [`Refusal`] has the first answer number that
//! applies, in the order that FORMAT.md gives for the call, and says where; then no byte of an output buffer has
//! changed. An accepted call changes only the bytes that it reports. A call that looks up a section or a record by
//! its number returns `None` if there is none.
//!
//! # Example
//!
//! The worked example of FORMAT.md: kernel `4b`, command line `61` and one empty ramdisk.
//!
//! ```
//! use eif::{DataLength, Place, Plan, SectionType, Stream, StreamPosition};
//!
//! let plan = Plan {
//!     version: 2,
//!     places: vec![
//!         Place::new(SectionType::KERNEL, DataLength(1)),
//!         Place::new(SectionType::COMMAND_LINE, DataLength(1)),
//!         Place::new(SectionType::RAMDISK, DataLength(0)),
//!     ],
//!     ..Plan::default()
//! };
//! let mut bytes = [0; 586];
//! assert_eq!(eif::write(&plan, &[0x4b, 0x61], &mut bytes)?, 586);
//!
//! let image = eif::read(&bytes)?;
//! assert_eq!(image.version(), 2);
//! assert_eq!(image.sections().len(), 3);
//! assert_eq!(image.kernel(), [0x4b]);
//! assert_eq!(image.command_line(), [0x61]);
//! assert_eq!(image.ramdisks().collect::<Vec<_>>(), [[]]);
//! for (section, data) in image.iter() {
//!     assert_eq!(section.length.0, data.len() as u64);
//! }
//!
//! let mut roll = [0; 54];
//! assert_eq!(eif::write_roll(&bytes, &mut roll)?, 54);
//! let roll = eif::read_roll(&roll)?;
//! assert_eq!(roll.flags(), image.flags());
//! assert_eq!(roll.records().len(), 3);
//! assert_eq!(roll.record_data(0), Some(&[0x4b][..]));
//! assert_eq!(roll.record_data(3), None);
//!
//! let mut measured = [0; 8];
//! let copied = eif::copy_stream(&bytes, Stream::Whole, StreamPosition(0), &mut measured)?;
//! assert_eq!(measured[..copied], [0x4b, 0x61]);
//!
//! // In pieces, from the image that was read; nothing is read or checked again.
//! let mut reader = image.stream_reader(Stream::Whole);
//! let mut piece = [0; 1];
//! std::io::Read::read_exact(&mut reader, &mut piece)?;
//! assert_eq!(piece, [0x4b]);
//! assert_eq!(image.copy_stream(Stream::Whole, StreamPosition(1), &mut piece)?, 1);
//! assert_eq!(piece, [0x61]);
//!
//! // A damaged image is refused.
//! bytes[560] ^= 1;
//! let refusal = eif::read(&bytes).unwrap_err();
//! assert_eq!((refusal.number(), refusal.position()), (13, 544));
//! assert_eq!(refusal.to_string(), "refused 13 at 0 byte 544: checksum differs");
//! # Ok::<(), Box<dyn std::error::Error>>(())
//! ```
//!
//! # The archive
//!
//! The crate links `libeif_c.a`, which `make staticlib` writes. It is looked for in the folder that
//! the environment variable `EIF_LIB_DIR` names, or else in `target/staticlib` of the repository. It
//! links into x86-64 programs only.
#![deny(missing_docs)]
// What could panic is an error of `make rust-lint`: indices and slices, unwrapping, and arithmetic that can overflow.
#![cfg_attr(
    not(test),
    deny(
        clippy::arithmetic_side_effects,
        clippy::expect_used,
        clippy::indexing_slicing,
        clippy::panic,
        clippy::string_slice,
        clippy::todo,
        clippy::unimplemented,
        clippy::unreachable,
        clippy::unwrap_used
    )
)]

mod arriving;
pub mod assembler;
mod fingerprint;
mod image;
pub mod json;
mod measuring;
mod numbers;
mod place;
mod plan;
pub mod raw;
mod refusal;
mod registers;
mod roll;
mod sha384;
pub mod sign1;
pub mod staged;
mod staged_writing;
mod state;
mod stream;
mod writing;

pub use arriving::{Arriving, Parts, Span};
pub use assembler::Assembler;
pub use fingerprint::{fingerprint, ArrivingFingerprint, Fingerprint, NotFingerprint};
pub use image::{read, read_strict, Image, Reading};
pub use measuring::ArrivingRegisters;
pub use numbers::{
    Architecture, DataLength, FilePosition, RollPosition, SectionType, StreamPosition, UnknownName,
};
pub use plan::{plan_length, write, write_to_vec, Place, Plan};
pub use raw::Section;
pub use refusal::{Reason, Refusal};
pub use registers::{registers, Registers};
pub use roll::{read_roll, roll_length, roll_to_vec, write_roll, Roll, RollRecord};
pub use sha384::{Digest, Sha384};
pub use stream::{copy_stream, stream_length, stream_to_vec, Stream, StreamReader, StreamSections};
pub use writing::{ImageWriter, Step, Writing};

/// The longest image, in bytes. A buffer of this length takes any image, roll or stream.
pub const MAX_IMAGE_LENGTH: usize = 1_073_741_824;

/// The most sections that an image can have, and the most records that a roll can have beside its flags
/// record and its end record.
pub const MAX_SECTIONS: usize = 32;

/// The length of an image's header.
pub const HEADER_LENGTH: usize = 548;

/// Where the checksum stands in the header: four bytes, big-endian.
pub const CHECKSUM_POSITION: usize = 544;

/// The length of a section's header, which stands before its data.
pub const SECTION_HEADER_LENGTH: usize = 12;

/// The length of a roll record's head, which stands before its data.
pub const RECORD_HEAD_LENGTH: usize = 10;

/// The length of a roll's flags record, which is its first: a head and two bytes of data.
pub const FLAGS_RECORD_LENGTH: usize = RECORD_HEAD_LENGTH + 2;

/// The length of a SHA-384 digest, and of a register.
pub const DIGEST_LENGTH: usize = 48;

/// The length of a SHA-384 block.
pub const SHA384_BLOCK_LENGTH: usize = 128;

/// The most bytes that one SHA-384 digest is of.
pub const MAX_MESSAGE_LENGTH: u64 = (1 << 61) - 1;

/// How many registers an image has.
pub const REGISTERS: usize = 3;
