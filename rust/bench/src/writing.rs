//! An image that is written in pieces, beside the library's own call that writes it whole.

use crate::sample::Sample;
use crate::table;
use crate::timing::times;
use eif::raw::staged_writing::StagedWriting;
use eif::raw::writing::Writing as State;
use eif::Writing;
use std::hint::black_box;
use std::mem::size_of;
use std::ops::Range;

/// The length of each piece of data, and of the room for each piece of the image.
const PIECE: usize = 1 << 16;

/// How much a caller keeps beside its two buffers.
pub fn memory() -> String {
    format!(
        "The state has {} bytes, that of an image with one section replaced {}.",
        size_of::<State>(),
        size_of::<StagedWriting>()
    )
}

/// Writes the image from pieces of data. `room` is the part of `out` that takes the bytes which follow so many.
fn write_by(sample: &Sample, out: &mut [u8], room: fn(usize) -> Range<usize>) -> usize {
    let Ok((mut writing, length)) = Writing::begin(black_box(&sample.plan), 0) else {
        return 0;
    };
    let (mut rest, mut written) = (&sample.data[..], 0);
    while written < length {
        let step = writing.step(&rest[..rest.len().min(PIECE)], &mut out[room(written)]);
        rest = &rest[step.taken..];
        written += step.written;
    }
    writing.finish().map_or(0, |_| written)
}

/// One buffer is used again and again, as by a sender.
fn one_buffer(_: usize) -> Range<usize> {
    0..PIECE
}

/// The image is put together in memory, as by the call that writes it whole.
fn in_place(written: usize) -> Range<usize> {
    written..written + PIECE
}

/// Two rows for an image of `length` bytes.
pub fn measure(length: usize) {
    let sample = Sample::new(length);
    let mut buffer = vec![0; PIECE];
    // The last window ends past the image.
    let mut image = vec![0; length + PIECE];
    let mut whole = vec![0; length];
    let mut write_whole = || eif::write(black_box(&sample.plan), &sample.data, &mut whole);
    // The first calls also see to it that the pages of the outputs are there.
    assert_eq!(write_whole(), Ok(length));
    assert_eq!(write_by(&sample, &mut buffer, one_buffer), length);
    assert_eq!(write_by(&sample, &mut image, in_place), length);
    let [one, placed, all] = times([
        &mut || write_by(&sample, &mut buffer, one_buffer),
        &mut || write_by(&sample, &mut image, in_place),
        &mut || write_whole().unwrap_or(0),
    ]);
    table::row("write by 64 KiB, over one buffer", length, (one, all));
    table::row(
        "write by 64 KiB, the image in memory",
        length,
        (placed, all),
    );
}
