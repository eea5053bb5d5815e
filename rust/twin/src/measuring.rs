//! The registers of an image that arrives in pieces.

use crate::arriving::Arriving;
use crate::image::u16_at;
use crate::registers::register;
use crate::rules::*;
use crate::sha384::Sha384;

/// The state of an image that arrives and is measured. Any value is one.
#[derive(Clone, Copy, Debug, PartialEq, Eq)]
pub struct Measuring {
    /// The state of the bytes taken.
    pub arriving: Arriving,
    /// The digest of the stream Whole so far.
    pub whole: Sha384,
    /// The digest of the stream Boot so far.
    pub boot: Sha384,
    /// The digest of the stream App so far.
    pub app: Sha384,
}

impl Arriving {
    /// The type in the own header that is kept for a place.
    pub(crate) fn kind(&self, place: usize) -> u16 {
        u16_at(&self.section_headers, SECTION_HEADER * place)
    }

    /// The first bytes of a piece that belong together, with the place whose data they are, if it is one of a section.
    pub(crate) fn first_part<'a>(&self, piece: &'a [u8]) -> (Option<usize>, &'a [u8]) {
        let span = self.span(piece.len() as u64);
        let place = Some(span.place as usize).filter(|&place| place < MAX_SECTIONS);
        (place, &piece[..span.length as usize])
    }
}

/// Hashes bytes, or leaves the digest as it is where it refuses them.
pub(crate) fn hash(digest: &mut Sha384, bytes: &[u8]) {
    // A refused piece changes nothing.
    let _ = digest.update(bytes);
}

impl Measuring {
    /// No byte taken yet.
    pub fn new() -> Self {
        let [whole, boot, app] = [Sha384::new(); 3];
        Measuring {
            arriving: Arriving::new(),
            whole,
            boot,
            app,
        }
    }

    /// Takes at most `allowance` bytes of a piece. Answers how many.
    pub fn feed(&mut self, piece: &[u8], allowance: u64) -> u64 {
        let count = self.arriving.count(piece.len(), allowance);
        let mut rest = &piece[..count];
        while !rest.is_empty() {
            let (place, part) = self.arriving.first_part(rest);
            if let Some(place) = place {
                self.measure(place, part);
            }
            self.arriving.take(part);
            rest = &rest[part.len()..];
        }
        count as u64
    }

    /// Hashes data of the section at a place.
    fn measure(&mut self, place: usize, bytes: &[u8]) {
        let kind = self.arriving.kind(place);
        let earlier = (0..place).filter(|&place| self.arriving.kind(place) == RAMDISK);
        let ramdisks = earlier.count();
        if !(KERNEL..=RAMDISK).contains(&kind) {
            return;
        }
        hash(&mut self.whole, bytes);
        if kind == RAMDISK && ramdisks > 0 {
            hash(&mut self.app, bytes);
        } else if ramdisks < 2 {
            self.boot = self.whole;
        } else {
            hash(&mut self.boot, bytes);
        }
    }

    /// The registers of the three digests.
    pub fn registers(&self) -> [[u8; 48]; 3] {
        [self.whole, self.boot, self.app].map(register)
    }
}

impl Default for Measuring {
    fn default() -> Self {
        Self::new()
    }
}
