//! An image that arrives in pieces, read or measured, beside the twin and the library's own calls on the whole image.

use crate::hashing::first_word;
use crate::sample::Sample;
use crate::table;
use crate::timing::times;
use eif::{Arriving, ArrivingRegisters};
use eif_twin as twin;
use std::hint::black_box;

fn arrive(image: &[u8], piece: usize) -> usize {
    let mut arriving = Arriving::new();
    for piece in black_box(image).chunks(piece) {
        arriving.feed(piece);
    }
    arriving
        .finish()
        .map_or(0, |reading| reading.sections().len())
}

fn arrive_registers(image: &[u8], piece: usize) -> usize {
    let mut arriving = ArrivingRegisters::new();
    for piece in black_box(image).chunks(piece) {
        arriving.feed(piece);
    }
    let finished = arriving.finish();
    finished.map_or(0, |(_, registers)| first_word(&registers.0[2].0))
}

/// The head of the rows of [`measure`].
pub fn head() {
    table::columns(&[
        "call",
        "bytes",
        "library",
        "twin, whole",
        "twin / library",
        "library, whole",
        "library / library, whole",
    ]);
}

/// A row: the call in pieces beside the twin and the library on the whole image.
fn row(call: &str, length: usize, calls: [&mut dyn FnMut() -> usize; 3]) {
    let [library, twin, whole] = times(calls);
    table::line(&[
        call.to_string(),
        table::length(length),
        table::cell(library),
        table::cell(twin),
        table::ratio(twin, library),
        table::cell(whole),
        table::ratio(library, whole),
    ]);
}

/// An image of `length` bytes in pieces of 64 KiB and of 4 KiB: its reading, and its registers.
pub fn measure(length: usize) {
    let image = Sample::new(length).image;
    let pieces = [("64 KiB", 1 << 16), ("4 KiB", 1 << 12)];
    for (size, piece) in pieces {
        row(
            &format!("arriving by {size}"),
            length,
            [
                &mut || arrive(&image, piece),
                &mut || twin::read(black_box(&image)).map_or(0, |reading| reading.sections.len()),
                &mut || eif::read(black_box(&image)).map_or(0, |image| image.sections().len()),
            ],
        );
    }
    for (size, piece) in pieces {
        row(
            &format!("registers, arriving by {size}"),
            length,
            [
                &mut || arrive_registers(&image, piece),
                &mut || twin::registers(black_box(&image)).map_or(0, |r| first_word(&r[2])),
                &mut || eif::registers(black_box(&image)).map_or(0, |r| first_word(&r.0[2].0)),
            ],
        );
    }
}
