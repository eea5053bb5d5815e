//! Images, their measured streams, and copies from them.

use crate::{Layout, Section};

/// An image and its streams.
pub struct StreamCase {
    /// Where the command line stands.
    pub name: &'static str,
    /// The image's bytes.
    pub image: Vec<u8>,
    /// Whole, Boot and App.
    pub streams: [&'static [u8]; 3],
}

/// An image with sections of these types: `aa` is the first one's data, `bb` the second one's, and so
/// on.
fn lettered(version: u16, types: &[u16]) -> Vec<u8> {
    let sections = types.iter().zip(b'a'..);
    let sections = sections.map(|(&kind, byte)| Section::new(kind, &[byte, byte]));
    Layout::new(version, sections.collect()).image()
}

/// The command line before the kernel, and metadata among three ramdisks.
const COMMAND_LINE_FIRST: &[u16] = &[2, 1, 3, 5, 3, 3];

/// An image of version 4 with its sections in that order.
pub fn command_line_first() -> Vec<u8> {
    lettered(4, COMMAND_LINE_FIRST)
}

/// A name, a version, the types of the sections, and the three streams of the image that is lettered so.
type StreamRow = (&'static str, u16, &'static [u16], [&'static [u8]; 3]);

const STREAM_ROWS: [StreamRow; 7] = [
    (
        "after the kernel",
        2,
        &[1, 2, 3, 3],
        [b"aabbccdd", b"aabbcc", b"dd"],
    ),
    (
        "before the kernel",
        4,
        COMMAND_LINE_FIRST,
        [b"aabbcceeff", b"aabbcc", b"eeff"],
    ),
    (
        "between two ramdisks",
        2,
        &[1, 3, 2, 3],
        [b"aabbccdd", b"aabbcc", b"dd"],
    ),
    (
        "after two ramdisks",
        2,
        &[1, 3, 3, 2],
        [b"aabbccdd", b"aabbdd", b"cc"],
    ),
    (
        "between the second and the third ramdisk",
        3,
        &[1, 3, 4, 3, 2, 3],
        [b"aabbddeeff", b"aabbee", b"ddff"],
    ),
    (
        "after the kernel, no ramdisk",
        2,
        &[1, 2],
        [b"aabb", b"aabb", b""],
    ),
    (
        "before the kernel, no ramdisk",
        2,
        &[2, 1],
        [b"aabb", b"aabb", b""],
    ),
];

/// Streams are in file order, wherever the command line stands.
pub fn stream_cases() -> Vec<StreamCase> {
    let case = |(name, version, types, streams)| StreamCase {
        name,
        image: lettered(version, types),
        streams,
    };
    Vec::from(STREAM_ROWS.map(case))
}

/// One copy of a stream's bytes into a buffer.
pub struct CopyCase {
    /// From which position.
    pub from: usize,
    /// How many of sixteen bytes are lent.
    pub room: usize,
    /// How many are copied.
    pub copied: usize,
    /// The sixteen bytes afterwards; each was `aa` before.
    pub after: [u8; 16],
}

/// Copies of `bytes` from every position into buffers of several lengths.
pub fn copy_cases(bytes: &[u8]) -> Vec<CopyCase> {
    let positions = (0..=bytes.len()).flat_map(|from| (0..16).map(move |room| (from, room)));
    let case = |(from, room): (usize, usize)| {
        let copied = room.min(bytes.len() - from);
        let mut after = [0xaa; 16];
        after[..copied].copy_from_slice(&bytes[from..from + copied]);
        CopyCase {
            from,
            room,
            copied,
            after,
        }
    };
    positions.map(case).collect()
}
