//! Writing an image in pieces.

use crate::raw::writing as raw;
use crate::state::kept_state;
use crate::{Plan, Refusal, CHECKSUM_POSITION, SECTION_HEADER_LENGTH};
use std::io::{self, Seek, SeekFrom, Write};
use std::ops::Range;

/// What a step of [`Writing`] did.
#[derive(Clone, Copy, Debug, Default, PartialEq, Eq)]
pub struct Step {
    /// How many bytes of the data it took, from their start.
    pub taken: usize,
    /// How many bytes it wrote over the start of the output.
    pub written: usize,
}

/// The plain image of a plan that is written in pieces (FORMAT.md, Writing in pieces). It keeps 1,104 bytes, however
/// long the image is, and can be kept and copied. [`ImageWriter`] does the same over a [`Write`].
///
/// ```
/// use eif::{DataLength, Place, Plan, SectionType, Writing};
///
/// let places = vec![
///     Place::new(SectionType::KERNEL, DataLength(4)),
///     Place::new(SectionType::COMMAND_LINE, DataLength(5)),
/// ];
/// let plan = Plan { version: 2, places, ..Plan::default() };
///
/// let (mut writing, length) = Writing::begin(&plan, 0)?;
/// let mut data = &b"kernquiet"[..];
/// let mut image = Vec::new();
/// while image.len() < length {
///     let mut out = [0; 100];
///     let step = writing.step(data, &mut out);
///     data = &data[step.taken..];
///     image.extend_from_slice(&out[..step.written]);
/// }
/// let checksum = writing.finish()?;
/// image[eif::CHECKSUM_POSITION..eif::HEADER_LENGTH].copy_from_slice(&checksum.to_be_bytes());
/// assert_eq!(image, eif::write_to_vec(&plan, b"kernquiet")?);
/// # Ok::<(), eif::Refusal>(())
/// ```
#[derive(Clone, Debug, PartialEq, Eq)]
pub struct Writing(raw::Writing);

impl Writing {
    /// Begins the image of `plan`, with `checksum` as the number in its checksum field: 0 if it is not known yet. The
    /// second answer is the image's length.
    ///
    /// # Errors
    ///
    /// The first of 4, 5, 9 to 12 and 1 that applies, in the order of writing.
    pub fn begin(plan: &Plan, checksum: u32) -> Result<(Self, usize), Refusal> {
        let begun = raw::writing_begin(plan.to_raw(), checksum);
        let length = begun.answer.accepted_part()?;
        Ok((Writing(begun.state), length))
    }

    /// Writes the image's next bytes over the start of `out`. Later bytes of `out` stay. `data` is the next of the
    /// sections' data, joined in the plan's order; a step takes data of one section at most.
    ///
    /// With room for [`SECTION_HEADER_LENGTH`] bytes, a step writes a byte or more until the image is complete, unless
    /// data is needed and `data` is empty. Data past the plan's sum of lengths is never taken.
    pub fn step(&mut self, data: &[u8], out: &mut [u8]) -> Step {
        let stepped = raw::writing_step(self.0, data, out);
        self.0 = stepped.state;
        // No more than the lengths of the slices.
        Step {
            taken: stepped.taken as usize,
            written: stepped.written as usize,
        }
    }

    /// How many bytes of data are still needed.
    pub fn data_left(&self) -> u64 {
        self.0.data_left
    }

    /// The checksum of the image. It is known when all data was taken, even if bytes are still to be written.
    ///
    /// # Errors
    ///
    /// 15 where data is missing.
    pub fn finish(&self) -> Result<u32, Refusal> {
        // A checksum has 32 bits.
        raw::writing_finish(self.0).accepted().map(|sum| sum as u32)
    }
}

kept_state!(Writing, raw::Writing);

/// How many bytes an [`ImageWriter`] holds before it hands them on.
const BUFFER_LENGTH: usize = 8192;

/// Writes the plain image of a plan to a [`Write`], from data that is written to it in pieces of any size (FORMAT.md,
/// Writing in pieces). It keeps 8,192 bytes and a [`Writing`], however long the image is.
///
/// The data of the sections comes joined in the plan's order, and the checksum is known after the last of it. To a file
/// the image is written once, and [`finish_in_place`](ImageWriter::finish_in_place) puts the checksum in its place:
///
/// ```
/// use eif::{DataLength, ImageWriter, Place, Plan, SectionType};
/// use std::io::{Cursor, Write};
///
/// let places = vec![
///     Place::new(SectionType::KERNEL, DataLength(4)),
///     Place::new(SectionType::COMMAND_LINE, DataLength(5)),
/// ];
/// let plan = Plan { version: 2, places, ..Plan::default() };
///
/// let mut writer = ImageWriter::new(Cursor::new(Vec::new()), &plan)?;
/// writer.write_all(b"kern")?;
/// writer.write_all(b"quiet")?;
/// writer.finish_in_place()?;
/// let image = writer.into_inner().into_inner();
/// assert_eq!(eif::read(&image)?.command_line(), b"quiet");
/// # Ok::<(), Box<dyn std::error::Error>>(())
/// ```
///
/// On a pipe nothing can be put afterwards, so the data is passed twice. The first run gives the checksum, with which the
/// second begins:
///
/// ```
/// use std::io;
/// # use eif::{DataLength, ImageWriter, Place, Plan, SectionType};
/// # let places = vec![
/// #     Place::new(SectionType::KERNEL, DataLength(4)),
/// #     Place::new(SectionType::COMMAND_LINE, DataLength(5)),
/// # ];
/// # let plan = Plan { version: 2, places, ..Plan::default() };
/// # let data = || &b"kernquiet"[..];
///
/// let mut first = ImageWriter::new(io::sink(), &plan)?;
/// io::copy(&mut data(), &mut first)?;
/// let checksum = first.finish()?;
///
/// let mut pipe = Vec::new();
/// let mut second = ImageWriter::with_checksum(&mut pipe, &plan, checksum)?;
/// io::copy(&mut data(), &mut second)?;
/// // Another checksum would mean that the data was not the same, and that readers will refuse the image by 13.
/// assert_eq!(second.finish()?, checksum);
/// assert_eq!(pipe, eif::write_to_vec(&plan, b"kernquiet")?);
/// # Ok::<(), Box<dyn std::error::Error>>(())
/// ```
///
/// Data past the plan's sum of lengths is not taken, so that writing it fails with
/// [`WriteZero`](io::ErrorKind::WriteZero). The image is complete then, and finishing the writer still succeeds. A writer that is dropped before it is finished leaves an image that is not
/// complete.
#[derive(Debug)]
pub struct ImageWriter<W> {
    writing: Writing,
    length: usize,
    inner: W,
    buffer: Box<[u8; BUFFER_LENGTH]>,
    /// The part of the buffer that is still to be handed on.
    held: Range<usize>,
}

impl<W: Write> ImageWriter<W> {
    /// Begins the image of `plan`, with 0 in its checksum field. Nothing is written to `inner` yet.
    ///
    /// # Errors
    ///
    /// The first of 4, 5, 9 to 12 and 1 that applies, in the order of writing.
    pub fn new(inner: W, plan: &Plan) -> Result<Self, Refusal> {
        ImageWriter::with_checksum(inner, plan, 0)
    }

    /// Begins the image of `plan`, with this number in its checksum field.
    ///
    /// # Errors
    ///
    /// The first of 4, 5, 9 to 12 and 1 that applies, in the order of writing.
    pub fn with_checksum(inner: W, plan: &Plan, checksum: u32) -> Result<Self, Refusal> {
        let (writing, length) = Writing::begin(plan, checksum)?;
        Ok(ImageWriter {
            writing,
            length,
            inner,
            buffer: Box::new([0; BUFFER_LENGTH]),
            held: 0..0,
        })
    }

    /// The length of the image.
    pub fn length(&self) -> usize {
        self.length
    }

    /// How many bytes of data are still needed.
    pub fn data_left(&self) -> u64 {
        self.writing.data_left()
    }

    /// Writes the rest of the image and answers its checksum. It changes nothing that was written: see
    /// [`finish_in_place`](ImageWriter::finish_in_place), and the way for a pipe above. Called again, it answers the
    /// same.
    ///
    /// # Errors
    ///
    /// The [`Refusal`] 15, in an [`io::Error`], where data is missing; the data can then still be written. Otherwise an
    /// error of `inner`.
    pub fn finish(&mut self) -> io::Result<u32> {
        let checksum = self.writing.finish()?;
        loop {
            self.make_room()?;
            if self.step(&[]).written == 0 {
                break;
            }
        }
        self.flush()?;
        Ok(checksum)
    }

    /// What the image was written to. What is still held of the image is lost, unless it was finished.
    pub fn into_inner(self) -> W {
        self.inner
    }

    /// A step into the rest of the buffer.
    fn step(&mut self, data: &[u8]) -> Step {
        let room = self.buffer.get_mut(self.held.end..).unwrap_or_default();
        let step = self.writing.step(data, room);
        self.held.end = self.held.end.saturating_add(step.written);
        step
    }

    /// Sees to it that a step can write a section's own header.
    fn make_room(&mut self) -> io::Result<()> {
        if BUFFER_LENGTH.saturating_sub(self.held.end) < SECTION_HEADER_LENGTH {
            self.hand_on()?;
        }
        Ok(())
    }

    /// Hands on what is held. After an error, what `inner` has not taken is still held.
    fn hand_on(&mut self) -> io::Result<()> {
        while !self.held.is_empty() {
            let held = self.buffer.get(self.held.clone()).unwrap_or_default();
            match self.inner.write(held) {
                Ok(0) => return Err(io::ErrorKind::WriteZero.into()),
                Ok(count) => self.held.start = self.held.start.saturating_add(count),
                Err(error) if error.kind() == io::ErrorKind::Interrupted => {}
                Err(error) => return Err(error),
            }
        }
        self.held = 0..0;
        Ok(())
    }
}

impl<W: Write + Seek> ImageWriter<W> {
    /// Writes the rest of the image, puts its checksum in its place, and answers the checksum. `inner` is then at the
    /// image's end. A file must not be open for appending, since then nothing can be put before its end.
    ///
    /// # Errors
    ///
    /// Those of [`finish`](ImageWriter::finish). After an error of `inner`, the image is not complete.
    pub fn finish_in_place(&mut self) -> io::Result<u32> {
        let checksum = self.finish()?;
        let end = self.inner.stream_position()?;
        let back = self.length.saturating_sub(CHECKSUM_POSITION) as u64;
        // Less than the image's length only if `inner` was moved by another hand.
        let place = end.checked_sub(back).ok_or(io::ErrorKind::InvalidInput)?;
        self.inner.seek(SeekFrom::Start(place))?;
        self.inner.write_all(&checksum.to_be_bytes())?;
        self.inner.seek(SeekFrom::Start(end))?;
        self.inner.flush()?;
        Ok(checksum)
    }
}

/// What is written is the sections' data, joined in the plan's order.
impl<W: Write> Write for ImageWriter<W> {
    fn write(&mut self, data: &[u8]) -> io::Result<usize> {
        loop {
            self.make_room()?;
            let step = self.step(data);
            if step.taken > 0 || step.written == 0 {
                return Ok(step.taken);
            }
        }
    }

    /// Hands on all bytes of the image that are known so far.
    fn flush(&mut self) -> io::Result<()> {
        self.hand_on()?;
        self.inner.flush()
    }
}
