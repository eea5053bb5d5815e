//! Writing images and rolls and copying streams: beside the twin, and what of it is copying beside a plain copy.

use crate::sample::Sample;
use crate::table;
use crate::timing::{times, Call};
use eif::{Stream, StreamPosition};
use eif_twin as twin;
use std::hint::black_box;

/// The head of the rows of [`measure`].
pub fn head() {
    table::columns(&[
        "call",
        "bytes",
        "library",
        "twin",
        "twin / library",
        "without the reading",
        "a plain copy",
        "plain copy / without the reading",
    ]);
}

/// A plain copy to the start of a buffer.
fn copy(from: &[u8], to: &mut [u8]) -> usize {
    to[..from.len()].copy_from_slice(black_box(from));
    from.len()
}

/// A row: a call that reads an image, or takes a checksum as a reading does, and copies `copied` bytes.
fn row(name: &str, image: &[u8], copied: &[u8], library: Call, other: Call) {
    // The first calls also see to it that the output's pages are there.
    assert_eq!(library(), other(), "the two answer alike");
    let mut out = vec![0; copied.len()];
    let [library, other, read, plain] = times([
        library,
        other,
        &mut || eif::read(black_box(image)).map_or(0, |image| image.sections().len()),
        &mut || copy(copied, &mut out),
    ]);
    let copying = library - read;
    table::line(&[
        name.to_string(),
        table::length(image.len()),
        table::cell(library),
        table::cell(other),
        table::ratio(other, library),
        table::cell(copying),
        table::cell(plain),
        table::ratio(plain, copying),
    ]);
}

/// A row for each call on an image of `length` bytes.
pub fn measure(length: usize) {
    let sample = Sample::new(length);
    let Sample {
        data, image, roll, ..
    } = &sample;
    let mut out = vec![0; length];
    let mut twin_out = vec![0; length];
    row(
        "write",
        image,
        image,
        &mut || eif::write(black_box(&sample.plan), data, &mut out).unwrap_or(0),
        &mut || twin::write(black_box(&sample.twin_plan), data, &mut twin_out).unwrap_or(0),
    );
    assert!(out == *image && twin_out == *image);
    row(
        "roll write",
        image,
        roll,
        &mut || eif::write_roll(black_box(image), &mut out).unwrap_or(0),
        &mut || twin::write_roll(black_box(image), &mut twin_out).unwrap_or(0),
    );
    assert!(out == twin_out && out.starts_with(roll));
    let whole = eif::stream_to_vec(image, Stream::Whole).expect("an accepted image");
    let start = StreamPosition(0);
    row(
        "stream copy",
        image,
        &whole,
        &mut || eif::copy_stream(black_box(image), Stream::Whole, start, &mut out).unwrap_or(0),
        &mut || {
            twin::copy_stream(black_box(image), twin::Stream::Whole, 0, &mut twin_out).unwrap_or(0)
        },
    );
    assert!(out == twin_out);
}

/// A stream of an image of `length` bytes that was read before, beside a plain copy: nothing but copying.
pub fn copy_alone(length: usize) {
    let image = Sample::new(length).image;
    let whole = eif::stream_to_vec(&image, Stream::Whole).expect("an accepted image");
    let read = eif::read(&image).expect("an accepted image");
    let mut out = vec![0; whole.len()];
    let mut plain = vec![0; whole.len()];
    let [library, plain] = times([
        &mut || {
            let copied = black_box(&read).copy_stream(Stream::Whole, StreamPosition(0), &mut out);
            copied.unwrap_or(0)
        },
        &mut || copy(&whole, &mut plain),
    ]);
    table::row("stream of an image already read", length, (library, plain));
}

/// Reading the roll of an image of `length` bytes, which looks at no data.
pub fn roll(length: usize) {
    let roll = Sample::new(length).roll;
    let times = crate::timing::compare(
        || eif::read_roll(black_box(&roll)).map_or(0, |roll| roll.records().len()),
        || twin::read_roll(black_box(&roll)).map_or(0, |roll| roll.records.len()),
    );
    table::row("roll read", length, times);
}
