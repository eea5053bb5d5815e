//! Writing in pieces the image that is written afresh with one section replaced.

use crate::rules::*;
use crate::staged::staged_plan;
use crate::writing::Writing;

/// The state of an image written afresh that is written in pieces. Any value is one.
#[derive(Clone, Copy, Debug, PartialEq, Eq)]
pub struct StagedWriting {
    /// The state of writing.
    pub writing: Writing,
    /// The replaced section's number; 0 if the view was refused.
    pub replaced: u64,
}

impl StagedWriting {
    /// The state before the first step, with `checksum` in the checksum field, and the length of the image written
    /// afresh.
    pub fn begin(
        base: &[u8],
        replacement: &[u8],
        replaced: u64,
        checksum: u32,
    ) -> (Self, Result<usize, Refusal>) {
        let size = replacement.len() as u64;
        let (replaced, (writing, answer)) = match staged_plan(base, size, replaced, replaced) {
            Ok((_, plan)) => (replaced, Writing::begin(&plan, checksum)),
            Err(refusal) => (0, (Writing::refused(), Err(refusal))),
        };
        (StagedWriting { writing, replaced }, answer)
    }

    /// Writes over the start of `out`. Answers how many bytes.
    pub fn step(&mut self, base: &[u8], replacement: &[u8], out: &mut [u8]) -> u64 {
        let data = self.last_data(base, replacement);
        let left = first(data, self.writing.section_left).len();
        let lent = &data[data.len() - left..];
        self.writing.step(lent, out).written
    }

    /// The data of the section begun last, or of the first if none is begun. At a place past 31 it has none, unless
    /// that is the replaced one.
    fn last_data<'a>(&self, base: &'a [u8], replacement: &'a [u8]) -> &'a [u8] {
        let place = self.writing.sections_begun.saturating_sub(1);
        if place == self.replaced {
            return replacement;
        }
        if place >= MAX_SECTIONS as u64 {
            return &[];
        }
        let place = place as usize;
        let own_header = after(base, table_offset(base, place));
        let rest = after(own_header, SECTION_HEADER as u64);
        first(rest, self.writing.places[place].length)
    }

    /// The checksum of the image written afresh, or 15 where data is missing.
    pub fn finish(&self) -> Result<u32, Refusal> {
        self.writing.finish()
    }
}

/// The offset that the base's table has for a place: the number of those of its 8 bytes that are there.
fn table_offset(base: &[u8], place: usize) -> u64 {
    let entry = base.iter().skip(OFFSETS_AT + 8 * place).take(8);
    entry.fold(0, |offset, &byte| offset << 8 | u64::from(byte))
}

/// The first `count` bytes, or all if there are fewer.
fn first(bytes: &[u8], count: u64) -> &[u8] {
    let count = count.min(bytes.len() as u64);
    &bytes[..count as usize]
}

/// What follows the first `count` bytes.
fn after(bytes: &[u8], count: u64) -> &[u8] {
    &bytes[first(bytes, count).len()..]
}
