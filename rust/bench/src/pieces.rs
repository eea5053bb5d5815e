//! A stream copied in pieces of 64 KiB: from one reading of the image, beside the twin and beside a
//! reading for each piece.

use crate::sample::Sample;
use crate::table::row;
use crate::timing::{compare, times_of};
use eif::{Stream, StreamPosition};
use eif_twin as twin;
use std::hint::black_box;

const PIECE: usize = 1 << 16;

/// How many rounds there are where each piece takes a reading.
pub const ROUNDS: usize = 3;

/// Copies pieces until nothing is left. Answers how many bytes there were.
fn pieces(mut copy: impl FnMut(u64, &mut [u8]) -> usize) -> usize {
    let mut piece = vec![0; PIECE];
    let mut from = 0;
    loop {
        match copy(from as u64, &mut piece) {
            0 => return from,
            copied => from += copied,
        }
    }
}

fn from_one_reading(image: &[u8]) -> usize {
    let image = eif::read(black_box(image)).expect("an accepted image");
    pieces(|from, piece| {
        let copied = image.copy_stream(Stream::Whole, StreamPosition(from), piece);
        copied.unwrap_or(0)
    })
}

fn from_a_reading_each(image: &[u8]) -> usize {
    pieces(|from, piece| {
        let copied = eif::copy_stream(black_box(image), Stream::Whole, StreamPosition(from), piece);
        copied.unwrap_or(0)
    })
}

fn twin_from_one_reading(image: &[u8]) -> usize {
    let reading = twin::read(black_box(image)).expect("an accepted image");
    let sections = twin::stream_sections(&reading.sections, twin::Stream::Whole);
    pieces(|from, piece| twin::copy_sections(image, &sections, from, piece).unwrap_or(0))
}

/// Whole of an image of `length` bytes, beside the twin.
pub fn beside_twin(length: usize) {
    let image = Sample::new(length).image;
    let times = compare(
        || from_one_reading(&image),
        || twin_from_one_reading(&image),
    );
    row("stream by 64 KiB", length, times);
}

/// Whole of an image of `length` bytes, beside a reading for each piece.
pub fn beside_rereading(length: usize) {
    let image = Sample::new(length).image;
    assert_eq!(from_one_reading(&image), from_a_reading_each(&image));
    let [once, each] = times_of(
        ROUNDS,
        [&mut || from_one_reading(&image), &mut || {
            from_a_reading_each(&image)
        }],
    );
    row("stream by 64 KiB", length, (once, each));
}
