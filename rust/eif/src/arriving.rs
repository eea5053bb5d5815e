//! Checking an image while it arrives.

use crate::state::over_state;
use crate::{raw, Reading, Refusal, SectionType, SECTION_HEADER_LENGTH};
use std::io;

/// The first of the next bytes of an arriving image: those that belong together.
#[derive(Clone, Copy, Debug, PartialEq, Eq)]
pub struct Span {
    /// The section whose data they are. None if they are no section's data.
    pub section: Option<usize>,
    /// How many they are.
    pub length: u64,
    /// How many sections have begun before them: their own headers have arrived whole.
    pub begun: usize,
}

impl From<raw::Span> for Span {
    fn from(span: raw::Span) -> Self {
        Span {
            section: (span.place != raw::NO_SECTION).then_some(span.place as usize),
            length: span.length,
            begun: span.begun as usize,
        }
    }
}

/// An image that is checked while it arrives in pieces of any size (FORMAT.md, Check while it arrives). It
/// keeps less than 1,000 bytes, however long the file is, and answers when told that the file has ended.
///
/// ```
/// use eif::{Arriving, DataLength, Place, Plan, SectionType};
///
/// let places = vec![
///     Place::new(SectionType::KERNEL, DataLength(4)),
///     Place::new(SectionType::COMMAND_LINE, DataLength(5)),
/// ];
/// let plan = Plan { version: 2, places, ..Plan::default() };
/// let image = eif::write_to_vec(&plan, b"kernquiet")?;
///
/// let mut arriving = Arriving::new();
/// for piece in image.chunks(100) {
///     assert_eq!(arriving.feed(piece), piece.len());
/// }
/// let reading = arriving.finish()?;
/// assert_eq!(reading.sections()[1].length, DataLength(5));
///
/// // What comes after the end is not taken, and the answer stays.
/// assert_eq!(arriving.feed(b"more"), 0);
/// assert_eq!(arriving.finish()?, reading);
/// # Ok::<(), eif::Refusal>(())
/// ```
///
/// It is a [`Write`](io::Write), so a file can be copied into it:
///
/// ```
/// let mut arriving = eif::Arriving::new();
/// std::io::copy(&mut &b"no image"[..], &mut arriving)?;
/// assert_eq!(arriving.finish().unwrap_err().number(), 2);
/// # Ok::<(), std::io::Error>(())
/// ```
#[derive(Clone, Debug, PartialEq, Eq)]
pub struct Arriving(raw::Arriving);

impl Arriving {
    /// No byte taken yet.
    pub fn new() -> Self {
        Arriving(raw::arriving_begin())
    }

    /// Takes a piece and answers how many of its bytes were taken: all until the end is told, and none
    /// after it.
    pub fn feed(&mut self, piece: &[u8]) -> usize {
        self.feed_at_most(piece, u64::MAX)
    }

    /// Takes at most `allowance` bytes from the start of a piece and answers how many were taken: the
    /// lesser of the allowance and the piece's length until the end is told, and 0 after it.
    pub fn feed_at_most(&mut self, piece: &[u8], allowance: u64) -> usize {
        let fed = raw::arriving_feed(self.0, piece, allowance);
        self.0 = fed.state;
        // No more than the piece's length.
        fed.count as usize
    }

    /// How many bytes were taken so far.
    pub fn taken(&self) -> u64 {
        self.0.taken
    }

    /// Of the next `length` bytes, those at the start that belong together: to the data of one section, or to
    /// none (FORMAT.md, Check while it arrives). The answer's length is at least 1 if `length` is. After
    /// [`finish`](Arriving::finish) that is still so, but [`feed`](Arriving::feed) takes nothing: a loop that goes on
    /// until a piece is used up must end when `feed` answers 0. [`parts`](Arriving::parts) does so.
    ///
    /// ```
    /// let mut arriving = eif::Arriving::new();
    /// // The file's header comes first.
    /// let span = arriving.next(600);
    /// assert_eq!((span.section, span.length, span.begun), (None, 548, 0));
    /// ```
    pub fn next(&self, length: u64) -> Span {
        raw::arriving_next(self.0, length).into()
    }

    /// The type in the own header of section `index`, as it arrived: no rule has judged it yet. None if that header
    /// has not arrived whole.
    pub fn section_type(&self, index: usize) -> Option<SectionType> {
        let has_begun = index < self.next(0).begun;
        let mut headers = self.0.section_headers.chunks_exact(SECTION_HEADER_LENGTH);
        let header = headers.nth(index).filter(|_| has_begun)?;
        let kind = header.first_chunk::<2>()?;
        Some(SectionType(u16::from_be_bytes(*kind)))
    }

    /// Takes a piece part by part, and hands out each part with the section whose data it is, or None where it is
    /// no section's data. A part is taken when it is handed out. Parts that are not asked for are not taken, so
    /// that a caller who stops can continue with the rest of the piece. After the end there are none.
    ///
    /// A section with no data has no part. [`finish`](Arriving::finish) lists it in the reading, as every section.
    ///
    /// If [`finish`](Arriving::finish) accepts the file, the parts of section i, joined, are its data. Before that
    /// nothing is judged, so what was stored must not be used yet.
    ///
    /// ```
    /// use eif::{Arriving, DataLength, Place, Plan, SectionType};
    ///
    /// let places = vec![
    ///     Place::new(SectionType::KERNEL, DataLength(4)),
    ///     Place::new(SectionType::COMMAND_LINE, DataLength(5)),
    ///     Place::new(SectionType::RAMDISK, DataLength(5)),
    /// ];
    /// let plan = Plan { version: 2, places, ..Plan::default() };
    /// let image = eif::write_to_vec(&plan, b"kernquietfiles")?;
    ///
    /// let mut arriving = Arriving::new();
    /// let mut stored: [Vec<u8>; 3] = Default::default();
    /// for piece in image.chunks(7) {
    ///     for (section, bytes) in arriving.parts(piece) {
    ///         if let Some(index) = section {
    ///             stored[index].extend_from_slice(bytes);
    ///         }
    ///     }
    /// }
    /// assert_eq!(arriving.section_type(2), Some(SectionType::RAMDISK));
    /// arriving.finish()?;
    /// assert_eq!(stored[2], b"files");
    /// # Ok::<(), eif::Refusal>(())
    /// ```
    pub fn parts<'a, 'p>(&'a mut self, piece: &'p [u8]) -> Parts<'a, 'p> {
        Parts {
            arriving: self,
            rest: piece,
        }
    }

    /// Tells that the file has ended. The answer is that of [`read`](crate::read) on the bytes taken. Told
    /// again, it is the same.
    ///
    /// # Errors
    ///
    /// The first of 1 to 13 and 20 that applies, in the order of reading.
    pub fn finish(&mut self) -> Result<Reading, Refusal> {
        let finished = raw::arriving_finish(self.0);
        self.0 = finished.state;
        Reading::accepted(finished.reading)
    }
}

over_state!(Arriving, raw::Arriving);

/// What is written is fed. After the end is told nothing is taken, so that nothing more can be written.
impl io::Write for Arriving {
    fn write(&mut self, piece: &[u8]) -> io::Result<usize> {
        Ok(self.feed(piece))
    }

    fn flush(&mut self) -> io::Result<()> {
        Ok(())
    }
}

/// The parts of a piece, each with the section whose data it is: [`Arriving::parts`].
#[derive(Debug)]
#[must_use = "a part is taken when it is asked for"]
pub struct Parts<'a, 'p> {
    arriving: &'a mut Arriving,
    rest: &'p [u8],
}

impl<'p> Iterator for Parts<'_, 'p> {
    type Item = (Option<usize>, &'p [u8]);

    fn next(&mut self) -> Option<Self::Item> {
        let span = self.arriving.next(self.rest.len() as u64);
        // None is taken after the end, or where nothing is left.
        let count = self.arriving.feed_at_most(self.rest, span.length);
        let part = self.rest.get(..count).filter(|part| !part.is_empty())?;
        self.rest = self.rest.get(count..).unwrap_or_default();
        Some((span.section, part))
    }
}
