//! An image from pieces that come in any order, some of them twice.

use crate::rules::{refuse, Refusal, MAX_IMAGE};

const PIECE: u64 = 4096;
const HEAD: usize = 10;

/// A transfer. Any value is one.
#[derive(Clone, Copy, Debug, Default, PartialEq, Eq)]
pub struct Transfer {
    /// 0 where none is open.
    pub opened: u64,
    /// The image length that its open announced.
    pub length: u64,
    /// The length of the image buffer at open.
    pub room: u64,
    /// The length of the mark buffer at open.
    pub places: u64,
}

/// A record that is of the form.
enum Record<'a> {
    Open { length: u64 },
    Piece { start: u64, data: &'a [u8] },
    Close,
}

/// Takes a record apart: 8-byte length of what follows the head, 2-byte kind, little-endian.
fn parse(bytes: &[u8]) -> Option<Record<'_>> {
    if bytes.len() < HEAD {
        return None;
    }
    let (head, rest) = bytes.split_at(HEAD);
    let length = u64::from_le_bytes(head[..8].try_into().ok()?);
    if length != rest.len() as u64 {
        return None;
    }
    let number = |bytes: &[u8]| bytes.try_into().map(u64::from_le_bytes).ok();
    match (u16::from_le_bytes([head[8], head[9]]), rest.len()) {
        (1, 8) => number(rest).map(|length| Record::Open { length }),
        (2, 8..) => {
            let (start, data) = rest.split_at(8);
            number(start).map(|start| Record::Piece { start, data })
        }
        (3, 0) => Some(Record::Close),
        _ => None,
    }
}

/// How many pieces an image has.
fn count(length: u64) -> u64 {
    length / PIECE + u64::from(length % PIECE != 0)
}

impl Transfer {
    /// Takes a record. Answers the image's length at a close, and otherwise 0. Beside a refusal transfer and
    /// buffers are as they were.
    pub fn take(
        &mut self,
        record: &[u8],
        image: &mut [u8],
        marks: &mut [u8],
    ) -> Result<u64, Refusal> {
        let Some(record) = parse(record) else {
            return refuse(22, 0);
        };
        let is_open = matches!(record, Record::Open { .. });
        if is_open == (self.opened != 0) {
            return refuse(23, 0);
        }
        match record {
            Record::Open { length } => self.open(length, image, marks),
            Record::Piece { start, data } => self.piece(start, data, image, marks),
            Record::Close => self.close(image, marks),
        }
    }

    fn open(&mut self, length: u64, image: &[u8], marks: &mut [u8]) -> Result<u64, Refusal> {
        if length > MAX_IMAGE as u64 {
            return refuse(1, 0);
        }
        let (room, places) = (image.len() as u64, marks.len() as u64);
        if room < length || places < count(length) {
            return refuse(24, 0);
        }
        marks[..count(length) as usize].fill(0);
        *self = Transfer {
            opened: 1,
            length,
            room,
            places,
        };
        Ok(0)
    }

    /// Refuses by 24 a buffer that is too short for the image or its marks, or shorter than at open.
    fn check_buffers(&self, image: &[u8], marks: &[u8]) -> Result<(), Refusal> {
        let short = (image.len() as u64) < self.length.max(self.room);
        if short || (marks.len() as u64) < count(self.length).max(self.places) {
            return refuse(24, 0);
        }
        Ok(())
    }

    fn piece(
        &self,
        start: u64,
        data: &[u8],
        image: &mut [u8],
        marks: &mut [u8],
    ) -> Result<u64, Refusal> {
        if start >= self.length || start % PIECE != 0 {
            return refuse(22, 0);
        }
        if data.len() as u64 != PIECE.min(self.length - start) {
            return refuse(22, 0);
        }
        self.check_buffers(image, marks)?;
        let there = &mut image[start as usize..][..data.len()];
        let mark = &mut marks[(start / PIECE) as usize];
        if *mark == 0 {
            there.copy_from_slice(data);
            *mark = 1;
        } else if there != data {
            return refuse(25, 0);
        }
        Ok(0)
    }

    fn close(&mut self, image: &[u8], marks: &[u8]) -> Result<u64, Refusal> {
        self.check_buffers(image, marks)?;
        if marks[..count(self.length) as usize].contains(&0) {
            return refuse(26, 0);
        }
        let length = self.length;
        *self = Transfer::default();
        Ok(length)
    }
}
