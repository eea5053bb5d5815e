//! Writing an image with one section replaced in pieces.

use crate::raw::staged_writing as raw;
use crate::state::kept_state;
use crate::{Refusal, SECTION_HEADER_LENGTH};
use std::io::{self, Read};
use std::ops::Range;

/// The image written afresh that is written in pieces, from base and replacement (FORMAT.md, Writing in pieces). It
/// keeps 1,112 bytes, however long the image is, and can be kept and copied. [`Reader`] does the same as a [`Read`].
///
/// ```
/// use eif::{staged, DataLength, Place, Plan, SectionType};
///
/// let places = vec![
///     Place::new(SectionType::KERNEL, DataLength(4)),
///     Place::new(SectionType::COMMAND_LINE, DataLength(5)),
/// ];
/// let plan = Plan { version: 2, places, ..Plan::default() };
/// let base = eif::write_to_vec(&plan, b"kernquiet")?;
/// let mended = b"kernel";
///
/// let (mut writing, length) = staged::Writing::begin(&base, mended, 0, 0)?;
/// let mut image = vec![0; length];
/// let mut written = 0;
/// while written < length {
///     written += writing.step(&base, mended, &mut image[written..]);
/// }
/// let checksum = writing.finish()?;
/// image[eif::CHECKSUM_POSITION..eif::HEADER_LENGTH].copy_from_slice(&checksum.to_be_bytes());
/// assert_eq!(image, staged::write_to_vec(&base, mended, 0)?);
/// # Ok::<(), eif::Refusal>(())
/// ```
#[derive(Clone, Debug, PartialEq, Eq)]
pub struct Writing(raw::StagedWriting);

impl Writing {
    /// Begins the image that is `base` with section `replaced` replaced, with `checksum` as the number in its checksum
    /// field: 0 if it is not known yet. The base is read. The second answer is the image's length.
    ///
    /// # Errors
    ///
    /// The base's own refusal, then 27, then 1.
    pub fn begin(
        base: &[u8],
        replacement: &[u8],
        replaced: usize,
        checksum: u32,
    ) -> Result<(Self, usize), Refusal> {
        let begun = raw::staged_writing_begin(base, replacement, replaced as u64, checksum);
        let length = begun.answer.accepted_part()?;
        Ok((Writing(begun.state), length))
    }

    /// Writes the image's next bytes over the start of `out` and answers how many. Later bytes of `out` stay. Base and
    /// replacement must be those that [`begin`](Writing::begin) was handed, or the image is another one.
    ///
    /// With room for [`SECTION_HEADER_LENGTH`] bytes, a step writes a byte or more until the image is complete.
    pub fn step(&mut self, base: &[u8], replacement: &[u8], out: &mut [u8]) -> usize {
        let stepped = raw::staged_writing_step(self.0, base, replacement, out);
        self.0 = stepped.state;
        // No more than the length of `out`.
        stepped.written as usize
    }

    /// The checksum of the image. It is known when the data of all sections was written.
    ///
    /// # Errors
    ///
    /// 15 where data is still to be written.
    pub fn finish(&self) -> Result<u32, Refusal> {
        // A checksum has 32 bits.
        let sum = raw::staged_writing_finish(self.0).accepted()?;
        Ok(sum as u32)
    }
}

kept_state!(Writing, raw::StagedWriting);

/// The bytes of the image written afresh, from base and replacement, with no second image (FORMAT.md, Writing in
/// pieces). Reading it never fails.
///
/// ```
/// use eif::{staged, DataLength, Place, Plan, SectionType};
///
/// let places = vec![
///     Place::new(SectionType::KERNEL, DataLength(4)),
///     Place::new(SectionType::COMMAND_LINE, DataLength(5)),
/// ];
/// let plan = Plan { version: 2, places, ..Plan::default() };
/// let base = eif::write_to_vec(&plan, b"kernquiet")?;
///
/// let mut reader = staged::Reader::new(&base, b"kernel", 0)?;
/// let mut sent = Vec::new();
/// std::io::copy(&mut reader, &mut sent)?;
/// assert_eq!(sent.len(), reader.length());
/// assert_eq!(eif::read(&sent)?.kernel(), b"kernel");
/// # Ok::<(), Box<dyn std::error::Error>>(())
/// ```
#[derive(Clone, Debug)]
pub struct Reader<'a> {
    writing: Writing,
    length: usize,
    base: &'a [u8],
    replacement: &'a [u8],
    /// A section's own header, for a caller whose buffer has no room for it.
    header: [u8; SECTION_HEADER_LENGTH],
    /// The part of it that is still to be handed out.
    held: Range<usize>,
}

/// How many bytes a step writes while the checksum is computed.
const PASS_LENGTH: usize = 4096;

impl<'a> Reader<'a> {
    /// The image that is `base` with section `replaced` replaced, from its first byte. All its bytes are computed once
    /// here, for their checksum, and once more when they are read. The base is read twice.
    ///
    /// # Errors
    ///
    /// The base's own refusal, then 27, then 1.
    pub fn new(base: &'a [u8], replacement: &'a [u8], replaced: usize) -> Result<Self, Refusal> {
        let (mut first, _) = Writing::begin(base, replacement, replaced, 0)?;
        let mut out = [0; PASS_LENGTH];
        while first.step(base, replacement, &mut out) > 0 {}
        let (writing, length) = Writing::begin(base, replacement, replaced, first.finish()?)?;
        Ok(Reader {
            writing,
            length,
            base,
            replacement,
            header: [0; SECTION_HEADER_LENGTH],
            held: 0..0,
        })
    }

    /// The length of the image.
    pub fn length(&self) -> usize {
        self.length
    }

    /// Hands out what is held.
    fn read_held(&mut self, out: &mut [u8]) -> io::Result<usize> {
        let mut held = self.header.get(self.held.clone()).unwrap_or_default();
        let count = held.read(out)?;
        self.held.start = self.held.start.saturating_add(count);
        Ok(count)
    }
}

impl Read for Reader<'_> {
    fn read(&mut self, out: &mut [u8]) -> io::Result<usize> {
        let mut filled = self.read_held(out)?;
        loop {
            let room = out.get_mut(filled..).unwrap_or_default();
            match self.writing.step(self.base, self.replacement, room) {
                0 => break,
                written => filled = filled.saturating_add(written),
            }
        }
        if filled == 0 && !out.is_empty() {
            // The image has ended, or a section's own header is next and has no room.
            let end = self
                .writing
                .step(self.base, self.replacement, &mut self.header);
            self.held = 0..end;
            filled = self.read_held(out)?;
        }
        Ok(filled)
    }
}
