//! The checksum alone, by the length of the slice: beside the twin's, zlib's and libdeflate's.
//!
//! The library exports no checksum of its own. It is what feeding a piece to an arriving image takes, less feeding it
//! nothing, from a state that is past the header and past the section headers that it keeps.

use crate::foreign::Checksum;
use crate::sample::bytes;
use crate::table;
use crate::timing::{times, Time};
use eif::raw::{self, Arriving};
use eif_cases::{HEADER, SECTION_HEADER};
use eif_twin as twin;
use std::hint::black_box;

fn remainder(state: Arriving, piece: &[u8]) -> usize {
    raw::arriving_feed(state, black_box(piece), u64::MAX)
        .state
        .checksum as usize
}

/// A row for each length.
pub fn by_length(lengths: &[usize]) {
    let others = [Checksum::zlib(), Checksum::libdeflate()];
    table::columns(&[
        "bytes",
        "library",
        "twin",
        "twin / library",
        "zlib",
        "zlib / library",
        "libdeflate",
        "libdeflate / library",
    ]);
    for &length in lengths {
        let piece = bytes(length);
        // All 32 offsets of a fresh state are 0, so it keeps the section header at 548 for each; at 560 all are behind it.
        let state = Arriving {
            taken: (HEADER + SECTION_HEADER) as u64,
            ..raw::arriving_begin()
        };
        let alone =
            |other: Option<Checksum>| other.map_or(0, |crc32| crc32.of(black_box(&piece)) as usize);
        let [fed, nothing, twin, zlib, libdeflate] = times([
            &mut || remainder(state, &piece),
            &mut || remainder(state, &[]),
            &mut || twin::Crc32::new().update(black_box(&piece)).finish() as usize,
            &mut || alone(others[0]),
            &mut || alone(others[1]),
        ]);
        let library = fed - nothing;
        let beside = |other: Option<Checksum>, time: Time| match other {
            Some(_) => [table::cell(time), table::ratio(time, library)],
            None => ["not here".to_string(), "-".to_string()],
        };
        let mut cells = vec![table::length(length), table::cell(library)];
        cells.extend([table::cell(twin), table::ratio(twin, library)]);
        cells.extend(beside(others[0], zlib));
        cells.extend(beside(others[1], libdeflate));
        table::line(&cells);
    }
}
