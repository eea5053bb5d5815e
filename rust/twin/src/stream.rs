//! The three measured streams.

use crate::image::{read, Section};
use crate::rules::*;

/// A measured stream. Its sections stand in it in file order.
#[derive(Clone, Copy, Debug, PartialEq, Eq)]
pub enum Stream {
    /// Kernel, command line and every ramdisk.
    Whole,
    /// Kernel, command line and the first ramdisk if any.
    Boot,
    /// The ramdisks but the first.
    App,
}

/// The sections that a stream keeps of any sections, in their order.
pub fn stream_sections(sections: &[Section], stream: Stream) -> Vec<Section> {
    let mut kept = Vec::new();
    let mut ramdisks = 0;
    for &section in sections {
        let keep = match section.kind {
            KERNEL | COMMAND_LINE => stream != Stream::App,
            RAMDISK => {
                ramdisks += 1;
                match stream {
                    Stream::Whole => true,
                    Stream::Boot => ramdisks == 1,
                    Stream::App => ramdisks > 1,
                }
            }
            _ => false,
        };
        if keep {
            kept.push(section);
        }
    }
    kept
}

fn total(image: &[u8], sections: &[Section]) -> u64 {
    let lengths = sections.iter().map(|s| s.data(image).len() as u64);
    lengths.sum()
}

/// How many bytes a stream of `image` has.
pub fn stream_length(image: &[u8], stream: Stream) -> Result<u64, Refusal> {
    let sections = stream_sections(&read(image)?.sections, stream);
    Ok(total(image, &sections))
}

/// Copies a stream of `image` from position `from` to the start of `out`. Answers how many bytes
/// were copied.
pub fn copy_stream(
    image: &[u8],
    stream: Stream,
    from: u64,
    out: &mut [u8],
) -> Result<usize, Refusal> {
    let sections = stream_sections(&read(image)?.sections, stream);
    copy_sections(image, &sections, from, out)
}

/// Copies any sections, each as far as it lies in `image`, joined, from position `from` to the start of
/// `out`. Answers how many bytes were copied.
pub fn copy_sections(
    image: &[u8],
    sections: &[Section],
    from: u64,
    out: &mut [u8],
) -> Result<usize, Refusal> {
    if from > total(image, sections) {
        return refuse(19, 0);
    }
    let mut skip = from as usize;
    let mut copied = 0;
    for section in sections {
        let data = section.data(image);
        let rest = &data[skip.min(data.len())..];
        skip -= data.len() - rest.len();
        let length = rest.len().min(out.len() - copied);
        out[copied..copied + length].copy_from_slice(&rest[..length]);
        copied += length;
    }
    Ok(copied)
}
