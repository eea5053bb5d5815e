//! The checksum of slices of every length for which its code goes another way, held to the twin's. The
//! state is one past the header, so that a piece goes to the checksum whole.

use eif::raw::{self, Arriving};
use eif_cases::{put, Layout, Section, CHECKSUM_AT, HEADER, SHORTEST};
use eif_check::{parts, Rng};
use eif_twin::Crc32;

/// The lengths from which the code of `crates/crc32_fold` takes another way: the window of bytes, the ring of
/// words, two parts.
const LONG: usize = 640;
const LONGER: usize = 1 << 18;
const PARTED: usize = 1 << 24;

/// The library's checksum of pieces that follow each other.
fn checksum<'a>(pieces: impl IntoIterator<Item = &'a [u8]>) -> u32 {
    let mut state = Arriving {
        taken: HEADER as u64,
        ..raw::arriving_begin()
    };
    for piece in pieces {
        let fed = raw::arriving_feed(state, piece, u64::MAX);
        assert_eq!(fed.count, piece.len() as u64);
        state = fed.state;
    }
    !state.checksum
}

fn twin(bytes: &[u8]) -> u32 {
    Crc32::new().update(bytes).finish()
}

fn beside(length: usize) -> std::ops::Range<usize> {
    length - 9..length + 10
}

/// Lengths at and beside those from which the code goes another way: words, what is carried, the window
/// and its blocks, the ring and its turns.
fn lengths() -> impl Iterator<Item = usize> {
    let turns = [2_392, 6_144, 65_536, LONGER, 264_568];
    (0..1_400)
        .chain(turns.into_iter().flat_map(beside))
        .chain([1 << 20])
}

#[test]
fn every_length() {
    let bytes = Rng::of_input(11, 0).bytes((1 << 20) + 8);
    for length in lengths() {
        let slice = &bytes[length % 8..][..length];
        assert_eq!(checksum([slice]), twin(slice), "{length} bytes");
    }
}

/// About the length from which a slice is taken in two parts, as the first piece and behind another. The
/// twin goes on from length to length by one byte.
#[test]
fn lengths_in_two_parts() {
    let bytes = Rng::of_input(11, 0).bytes(PARTED + 16);
    for before in [0, 5] {
        let (first, rest) = bytes.split_at(before);
        let mut expected = Crc32::new().update(&bytes[..before + PARTED - 9]);
        for length in beside(PARTED) {
            let found = checksum([first, &rest[..length]]);
            assert_eq!(found, expected.finish(), "{before}, then {length} bytes");
            expected = expected.update(&rest[length..length + 1]);
        }
    }
}

/// An image with so many bytes after its header, at random but for the sections' headers, its checksum the
/// twin's.
fn image_with(rng: &mut Rng, length: usize) -> Vec<u8> {
    let kernel = rng.bytes(HEADER + length - SHORTEST);
    let sections = vec![Section::new(1, &kernel), Section::new(2, &[])];
    let mut image = Layout::new(2, sections).without_checksum();
    let checksum = Crc32::new().update(&image[..CHECKSUM_AT]);
    let checksum = checksum.update(&image[HEADER..]).finish();
    put(&mut image, CHECKSUM_AT, &checksum.to_be_bytes());
    image
}

/// Images are read and written with the twin's checksum, and no other.
#[test]
fn images_about_each_length() {
    for (ordinal, from) in [LONG, LONGER, PARTED].into_iter().enumerate() {
        let mut rng = Rng::of_input(12, ordinal as u64);
        for length in [from - 1, from, from + 1, from + 5] {
            let mut bytes = image_with(&mut rng, length);
            let image = eif::read(&bytes).unwrap();
            let written = eif::write_to_vec(&image.plan(), &image.joined_data());
            assert!(written.as_ref() == Ok(&bytes), "{length} bytes");
            let (position, data) = (image.sections()[0].position.0, image.kernel().len());
            rng.flip_bit(&mut bytes[position as usize..][..data]);
            let refused = (13, 0, CHECKSUM_AT as u64);
            assert_eq!(eif::read(&bytes).map_err(parts).unwrap_err(), refused);
        }
    }
}

#[test]
fn any_pieces() {
    for ordinal in 0..2_000 {
        let mut rng = Rng::of_input(11, 1 + ordinal);
        // One that is long enough for the ring, which is then entered after other bytes.
        let length = if ordinal == 0 {
            600_000
        } else {
            rng.below(40_000)
        };
        let mut bytes = vec![rng.next() as u8; length];
        if rng.once_in(2) {
            bytes = rng.bytes(bytes.len());
        }
        let most = if ordinal == 0 {
            550_000
        } else {
            rng.pick(&[8, 50, 3_000, 12_000])
        };
        let mut pieces = Vec::new();
        let mut rest = &bytes[..];
        while !rest.is_empty() {
            let (piece, others) = rest.split_at(rest.len().min(rng.below(most)));
            pieces.push(piece);
            rest = others;
        }
        assert_eq!(checksum(pieces), twin(&bytes), "input {ordinal}");
    }
}
