//! Assembling an image from pieces that come in any order, some of them twice (FORMAT.md, Pieces out of
//! order).
//!
//! A transfer is a sequence of records: an open record, which announces the image's length, the pieces, and a
//! close record. [`records`] makes those of an image; an [`Assembler`] takes them, one at a time, over two
//! buffers that its caller keeps: one for the image, and one with a mark for each piece.
//!
//! ```
//! use eif::{assembler, Assembler};
//!
//! let sent = vec![7; 10_000];
//! let mut image = vec![0; 10_000];
//! let mut marks = vec![0; assembler::pieces(10_000)];
//! let mut station = Assembler::new();
//!
//! let records: Vec<Vec<u8>> = assembler::records(&sent).collect();
//! let [open, first, second, third, close] = &records[..] else {
//!     unreachable!();
//! };
//! // Out of order, and one of them twice; a close that comes too early loses nothing.
//! for record in [open, third, first, first] {
//!     assert_eq!(station.step(record, &mut image, &mut marks)?, None);
//! }
//! let early = station.step(close, &mut image, &mut marks).unwrap_err();
//! assert_eq!(early.number(), 26);
//! assert_eq!(marks, [1, 0, 1]);
//! assert_eq!(station.step(second, &mut image, &mut marks)?, None);
//! assert_eq!(station.step(close, &mut image, &mut marks)?, Some(10_000));
//! assert_eq!(image, sent);
//! # Ok::<(), eif::Refusal>(())
//! ```
//!
//! That all pieces came does not say that they are an image, or the right one: [`read`](crate::read) does, and
//! its checksum tells of damage that the records do not show.

use crate::raw::assembler as raw;
use crate::state::over_state;
use crate::{Refusal, RECORD_HEAD_LENGTH};

/// The bytes of every piece but the last.
pub const PIECE_LENGTH: usize = 4096;

/// The bytes of the number that an open record or a piece has after its head.
const NUMBER_LENGTH: usize = 8;

/// The length of the longest record of a transfer: a piece's head, start and data.
pub const MAX_RECORD_LENGTH: usize = RECORD_HEAD_LENGTH + NUMBER_LENGTH + PIECE_LENGTH;

// The kinds of records.
const OPEN: u16 = 1;
const PIECE: u16 = 2;
const CLOSE: u16 = 3;

/// A transfer: the state that goes with an image buffer and a mark buffer. Both are lent to each call, which
/// expects them as the last one left them; it is a value that can be kept, with them, and gone on from.
#[derive(Clone, Copy, Debug, PartialEq, Eq)]
pub struct Assembler(raw::State);

impl Assembler {
    /// No transfer is open.
    pub fn new() -> Self {
        Assembler(raw::assembler_new())
    }

    /// Takes one record, which is the whole of `record`. Where it is the close record, the transfer is over, and
    /// the answer is the image's length: the image is that many bytes from the buffer's start. Otherwise it
    /// is none.
    ///
    /// An open record sets the marks of the image's pieces to 0. A piece that is not held yet is written to its
    /// place, and its mark becomes 1; a repeat with the same bytes changes nothing. No other byte of either
    /// buffer changes. A mark other than 0 says that a piece is held.
    ///
    /// # Errors
    ///
    /// The first of 22 (form), 23, 22 (start and length of a piece), 1, 24, 25 and 26 that applies. Both buffers and the
    /// transfer are then unchanged, and the next record can be taken.
    pub fn step(
        &mut self,
        record: &[u8],
        image: &mut [u8],
        marks: &mut [u8],
    ) -> Result<Option<usize>, Refusal> {
        let stepped = raw::assembler_step(self.0, record, image, marks);
        Refusal::check(stepped.number, stepped.index, stepped.position)?;
        self.0 = stepped.state;
        // No more than the image buffer's length.
        Ok((!self.is_open()).then_some(stepped.length as usize))
    }

    /// Whether a transfer is open.
    pub fn is_open(&self) -> bool {
        self.0.opened != 0
    }

    /// The image's length as the open record announced it; 0 where no transfer is open.
    pub fn image_length(&self) -> u64 {
        self.0.length
    }
}

over_state!(Assembler, raw::State);

/// How many pieces an image of this length has, and so how many marks.
pub fn pieces(image_length: usize) -> usize {
    image_length.div_ceil(PIECE_LENGTH)
}

/// The records of an image: the open record, its pieces in the order of their starts, and the close record. Whether
/// the bytes are an accepted image is not looked at.
pub fn records(image: &[u8]) -> impl Iterator<Item = Vec<u8>> + '_ {
    let open = open_record(image.len() as u64);
    let starts = (0..).step_by(PIECE_LENGTH);
    let pieces = starts
        .zip(image.chunks(PIECE_LENGTH))
        .map(|(start, data)| piece_record(start, data));
    let ends = [open, close_record()];
    let [open, close] = ends.map(std::iter::once);
    open.chain(pieces).chain(close)
}

/// The record that opens a transfer of an image of this length.
pub fn open_record(image_length: u64) -> Vec<u8> {
    record(OPEN, &[&image_length.to_le_bytes()])
}

/// The record of a piece: where it starts in the image, and its bytes.
pub fn piece_record(start: u64, data: &[u8]) -> Vec<u8> {
    record(PIECE, &[&start.to_le_bytes(), data])
}

/// The record that closes a transfer.
pub fn close_record() -> Vec<u8> {
    record(CLOSE, &[])
}

fn record(kind: u16, parts: &[&[u8]]) -> Vec<u8> {
    let length: usize = parts.iter().map(|part| part.len()).sum();
    let head = [&(length as u64).to_le_bytes()[..], &kind.to_le_bytes()[..]];
    [&head[..], parts].concat().concat()
}

/// The image length that an open record announces, for whoever has to make room for it. Nothing is judged
/// here: of a record that is not an open record there is none, and [`Assembler::step`] says why.
pub fn announced(record: &[u8]) -> Option<u64> {
    let (head, rest) = record.split_first_chunk::<RECORD_HEAD_LENGTH>()?;
    let number: [u8; NUMBER_LENGTH] = rest.try_into().ok()?;
    let is_open = open_record(0).starts_with(head);
    is_open.then_some(u64::from_le_bytes(number))
}

/// How many bytes follow a record's head, as its first bytes say, for whoever takes records from a stream.
pub fn length_after_head(head: &[u8; RECORD_HEAD_LENGTH]) -> u64 {
    let [length @ .., _, _] = *head;
    u64::from_le_bytes(length)
}
