//! The fingerprint of an image, whole and while it arrives: the SHA-384 of its boot roll.

use crate::arriving::Arriving;
use crate::image::{u16_at, u64_at};
use crate::measuring::hash;
use crate::roll::{roll_length, write_roll, FLAGS};
use crate::rules::*;
use crate::sha384::Sha384;

/// The fingerprint of `image`.
pub fn fingerprint(image: &[u8]) -> Result<[u8; 48], Refusal> {
    let mut roll = vec![0; roll_length(image)?];
    write_roll(image, &mut roll)?;
    let mut digest = Sha384::new();
    digest.update(&roll)?;
    Ok(digest.finish())
}

/// The state of an image that arrives and is fingerprinted. Any value is one.
#[derive(Clone, Copy, Debug, PartialEq, Eq)]
pub struct Fingerprinting {
    /// The state of the bytes taken.
    pub arriving: Arriving,
    /// The digest of the roll so far.
    pub roll: Sha384,
}

/// The head of a roll's record.
fn head(length: u64, kind: u16) -> Vec<u8> {
    [&length.to_le_bytes()[..], &kind.to_le_bytes()].concat()
}

impl Fingerprinting {
    /// No byte taken yet.
    pub fn new() -> Self {
        Fingerprinting {
            arriving: Arriving::new(),
            roll: Sha384::new(),
        }
    }

    /// Takes at most `allowance` bytes of a piece. Answers how many.
    pub fn feed(&mut self, piece: &[u8], allowance: u64) -> u64 {
        let count = self.arriving.count(piece.len(), allowance);
        let mut rest = &piece[..count];
        while !rest.is_empty() {
            let (place, part) = self.arriving.first_part(rest);
            self.take_part(place, part);
            rest = &rest[part.len()..];
        }
        count as u64
    }

    /// Takes a part: data of the section at a place, or of no section.
    fn take_part(&mut self, place: Option<usize>, part: &[u8]) {
        let before = self.arriving;
        self.arriving.take(part);
        let after = &self.arriving;
        let has_header = |state: &Arriving| state.taken >= HEADER as u64;
        if !has_header(&before) && has_header(after) {
            let flags = u16_at(&after.header, FLAGS_AT);
            let record = [head(2, FLAGS), flags.to_le_bytes().to_vec()].concat();
            hash(&mut self.roll, &record);
        }
        if let Some(place) = place {
            if in_roll(after.kind(place)) {
                hash(&mut self.roll, part);
            }
        }
        let begun = before.span(0).begun;
        if begun < after.span(0).begun {
            let (place, kind) = (begun as usize, after.kind(begun as usize));
            if in_roll(kind) {
                let size = u64_at(&after.header, SIZES_AT + 8 * place);
                hash(&mut self.roll, &head(size, kind));
            }
        }
    }

    /// The SHA-384 of the roll so far and the end record.
    pub fn fingerprint(&self) -> [u8; 48] {
        let mut roll = self.roll;
        hash(&mut roll, &head(0, 0));
        roll.finish()
    }
}

/// Whether a roll has a record for sections of this type.
fn in_roll(kind: u16) -> bool {
    (KERNEL..=RAMDISK).contains(&kind)
}

impl Default for Fingerprinting {
    fn default() -> Self {
        Self::new()
    }
}
