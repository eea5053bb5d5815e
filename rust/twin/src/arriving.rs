//! An image that arrives in pieces: its state byte by byte, and which section the next bytes belong to.

use crate::crc32::Crc32;
use crate::image::{u16_at, u64_at};
use crate::rules::*;

/// The state of an image that arrives. Any value is one.
#[derive(Clone, Copy, Debug, PartialEq, Eq)]
pub struct Arriving {
    /// How many bytes were taken. It stops at the largest number.
    pub taken: u64,
    /// The file's first bytes, 0 where they have not come.
    pub header: [u8; HEADER],
    /// The sections' own headers, 12 bytes for each place, 0 where they have not come.
    pub section_headers: [u8; MAX_SECTIONS * SECTION_HEADER],
    /// The checksum over the bytes so far, before the final inversion.
    pub remainder: u32,
    /// 0 until the end was announced.
    pub ended: u64,
}

/// Bytes at the start of the next ones that belong together.
#[derive(Clone, Copy, Debug, PartialEq, Eq)]
pub struct Span {
    /// The section whose data they are, or 32.
    pub place: u64,
    /// How many they are.
    pub length: u64,
    /// How many sections have begun before them.
    pub begun: u64,
}

impl Arriving {
    /// The state of no bytes.
    pub fn new() -> Self {
        Arriving {
            taken: 0,
            header: [0; HEADER],
            section_headers: [0; MAX_SECTIONS * SECTION_HEADER],
            remainder: !0,
            ended: 0,
        }
    }

    /// How many bytes of a piece of this length a call with this allowance takes.
    pub fn count(&self, length: usize, allowance: u64) -> usize {
        match self.ended {
            0 => allowance.min(length as u64) as usize,
            _ => 0,
        }
    }

    /// Takes bytes one by one.
    pub fn take(&mut self, bytes: &[u8]) {
        for &byte in bytes {
            self.take_byte(byte);
        }
    }

    fn take_byte(&mut self, byte: u8) {
        let at = self.taken;
        if at == u64::MAX {
            return;
        }
        if at < HEADER as u64 {
            self.header[at as usize] = byte;
        }
        if !(CHECKSUM_AT as u64..HEADER as u64).contains(&at) {
            self.remainder = Crc32::of_remainder(self.remainder)
                .update(&[byte])
                .remainder();
        }
        for place in 0..MAX_SECTIONS {
            let from = self.offset(place).max(HEADER as u64);
            if at >= from && at - from < SECTION_HEADER as u64 {
                self.section_headers[SECTION_HEADER * place + (at - from) as usize] = byte;
            }
        }
        self.taken += 1;
    }

    fn offset(&self, place: usize) -> u64 {
        u64_at(&self.header, OFFSETS_AT + 8 * place)
    }

    /// Of the next `length` bytes, those at the start that belong together.
    pub fn span(&self, length: u64) -> Span {
        let none = |begun, most: u64| Span {
            place: MAX_SECTIONS as u64,
            length: length.min(most),
            begun,
        };
        if self.taken < HEADER as u64 {
            return none(0, HEADER as u64 - self.taken);
        }
        let used = usize::from(u16_at(&self.header, COUNT_AT)).min(MAX_SECTIONS);
        let mut packed = HEADER as u64;
        for place in 0..used {
            let begun = place as u64;
            let size = u64_at(&self.header, SIZES_AT + 8 * place);
            let start = packed + SECTION_HEADER as u64;
            let end = u128::from(start) + u128::from(size);
            if self.offset(place) != packed || end > MAX_IMAGE as u128 {
                return none(begun, u64::MAX);
            }
            let end = end as u64;
            if self.taken < start {
                return none(begun, start - self.taken);
            }
            if self.taken < end {
                return Span {
                    place: begun,
                    length: length.min(end - self.taken),
                    begun: begun + 1,
                };
            }
            packed = end;
        }
        none(used as u64, u64::MAX)
    }
}

impl Default for Arriving {
    fn default() -> Self {
        Self::new()
    }
}
