//! The three measured streams.

use crate::image::{data_at, read, Image};
use crate::{raw, DataLength, Refusal, StreamPosition, UnknownName, MAX_SECTIONS};
use std::io::{self, BufRead, Read};
use std::iter::{FusedIterator, Take};
use std::str::FromStr;
use std::{array, fmt};

/// A measured stream of an image (FORMAT.md, Measured streams): the data of these sections, joined in file
/// order.
///
/// ```
/// use eif::Stream;
///
/// assert_eq!(Stream::Boot.to_string(), "boot");
/// assert_eq!("app".parse(), Ok(Stream::App));
/// ```
#[derive(Clone, Copy, Debug, PartialEq, Eq, Hash)]
pub enum Stream {
    /// Kernel, command line and every ramdisk.
    Whole,
    /// Kernel, command line and the first ramdisk if there is one.
    Boot,
    /// The ramdisks but the first.
    App,
}

impl Stream {
    /// The three streams.
    pub const ALL: [Stream; 3] = [Stream::Whole, Stream::Boot, Stream::App];

    /// Its name.
    pub fn name(self) -> &'static str {
        match self {
            Stream::Whole => "whole",
            Stream::Boot => "boot",
            Stream::App => "app",
        }
    }
}

impl fmt::Display for Stream {
    fn fmt(&self, f: &mut fmt::Formatter<'_>) -> fmt::Result {
        f.pad(self.name())
    }
}

/// The names that can be parsed are those of [`Stream::ALL`].
impl FromStr for Stream {
    type Err = UnknownName;

    fn from_str(name: &str) -> Result<Self, UnknownName> {
        let mut known = Stream::ALL.into_iter();
        known.find(|known| known.name() == name).ok_or(UnknownName)
    }
}

/// Streams of an image that was read. None of these reads the image again.
impl<'a> Image<'a> {
    /// The data of a stream's sections in its order, borrowed from the image. Joined they are the stream.
    pub fn stream_sections(&self, stream: Stream) -> StreamSections<'a> {
        let list = raw::stream_sections(self.answer(), stream);
        StreamSections {
            image: self.bytes(),
            sections: list.sections.into_iter().take(list.count as usize),
        }
    }

    /// A stream to be read from its start.
    pub fn stream_reader(&self, stream: Stream) -> StreamReader<'a> {
        StreamReader {
            sections: self.stream_sections(stream),
            rest: &[],
        }
    }

    /// Copies a stream, from position `from` on, to the start of `out`, and answers how many bytes were
    /// copied: as many as both `out` and the rest of the stream have. Later bytes of `out` stay.
    ///
    /// # Errors
    ///
    /// 19 where `from` is past the stream's end. `out` is then unchanged.
    pub fn copy_stream(
        &self,
        stream: Stream,
        from: StreamPosition,
        out: &mut [u8],
    ) -> Result<usize, Refusal> {
        let list = raw::stream_sections(self.answer(), stream);
        raw::copy_sections(self.bytes(), list, from, out).accepted_part()
    }
}

/// The data of a stream's sections, what [`Image::stream_sections`] gives.
#[derive(Clone, Debug)]
pub struct StreamSections<'a> {
    image: &'a [u8],
    sections: Take<array::IntoIter<raw::Section, MAX_SECTIONS>>,
}

impl<'a> Iterator for StreamSections<'a> {
    type Item = &'a [u8];

    fn next(&mut self) -> Option<&'a [u8]> {
        let section = self.sections.next()?;
        Some(data_at(self.image, section.position, section.length))
    }

    fn size_hint(&self) -> (usize, Option<usize>) {
        self.sections.size_hint()
    }
}

impl ExactSizeIterator for StreamSections<'_> {}
impl FusedIterator for StreamSections<'_> {}

/// A stream that is being read, what [`Image::stream_reader`] gives. Reading it never fails; what
/// [`fill_buf`](BufRead::fill_buf) gives is borrowed from the image.
#[derive(Clone, Debug)]
pub struct StreamReader<'a> {
    sections: StreamSections<'a>,
    /// What is left of the section before them.
    rest: &'a [u8],
}

impl BufRead for StreamReader<'_> {
    fn fill_buf(&mut self) -> io::Result<&[u8]> {
        while self.rest.is_empty() {
            match self.sections.next() {
                Some(data) => self.rest = data,
                None => break,
            }
        }
        Ok(self.rest)
    }

    /// Consumes `amount` bytes of what [`fill_buf`](BufRead::fill_buf) gives, or all of them if there are fewer.
    fn consume(&mut self, amount: usize) {
        self.rest = self.rest.get(amount..).unwrap_or_default();
    }
}

impl Read for StreamReader<'_> {
    fn read(&mut self, out: &mut [u8]) -> io::Result<usize> {
        let copied = self.fill_buf()?.read(out)?;
        self.consume(copied);
        Ok(copied)
    }
}

/// How many bytes a stream of `image` has.
///
/// # Errors
///
/// The image's own refusal.
pub fn stream_length(image: &[u8], stream: Stream) -> Result<DataLength, Refusal> {
    raw::stream_length(image, stream).accepted().map(DataLength)
}

/// Copies a stream of `image`, from position `from` on, to the start of `out`, and answers how many
/// bytes were copied: as many as both `out` and the rest of the stream have. Later bytes of `out` stay.
///
/// Each call reads the whole image, checksum included. To copy in pieces, [`read`] it once and take
/// [`Image::copy_stream`] or [`Image::stream_reader`].
///
/// # Errors
///
/// The image's own refusal, then 19 where `from` is past the stream's end. `out` is then unchanged.
pub fn copy_stream(
    image: &[u8],
    stream: Stream,
    from: StreamPosition,
    out: &mut [u8],
) -> Result<usize, Refusal> {
    raw::copy_stream(image, stream, from, out).accepted_part()
}

/// A stream of `image`, whole. The image is read once.
///
/// # Errors
///
/// The image's own refusal.
pub fn stream_to_vec(image: &[u8], stream: Stream) -> Result<Vec<u8>, Refusal> {
    let sections: Vec<&[u8]> = read(image)?.stream_sections(stream).collect();
    Ok(sections.concat())
}
