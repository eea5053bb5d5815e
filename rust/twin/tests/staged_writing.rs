//! The image written afresh in pieces, in the twin: every room, and states that no begin gives.

use eif_cases::{worked_image, CHECKSUM_AT, HEADER};
use eif_twin::*;

/// All steps with this much room: the bytes written and the checksum.
fn run(
    base: &[u8],
    replacement: &[u8],
    replaced: u64,
    checksum: u32,
    room: usize,
) -> (Vec<u8>, u32) {
    let (mut state, length) = StagedWriting::begin(base, replacement, replaced, checksum);
    let mut image = Vec::new();
    while image.len() < length.unwrap() {
        let mut out = vec![0xaa; room];
        let written = state.step(base, replacement, &mut out) as usize;
        assert!(written > 0);
        assert!(out[written..].iter().all(|&byte| byte == 0xaa));
        image.extend(&out[..written]);
    }
    (image, state.finish().unwrap())
}

#[test]
fn every_room_gives_the_image_written_afresh() {
    let base = worked_image();
    for replaced in 0..3 {
        for replacement in ["", "r", "rs", "a replacement of thirty-one bytes"] {
            let replacement = replacement.as_bytes();
            let afresh = staged_image(&base, replacement, replaced).unwrap();
            for room in [12, 13, 25, 547, 548, 549, 1000] {
                let (mut image, checksum) = run(&base, replacement, replaced, 0, room);
                let second = run(&base, replacement, replaced, checksum, room);
                assert_eq!(second, (afresh.clone(), checksum));
                assert_eq!(image[CHECKSUM_AT..HEADER], [0; 4]);
                image[CHECKSUM_AT..HEADER].copy_from_slice(&checksum.to_be_bytes());
                assert_eq!(image, afresh);
            }
        }
    }
    assert_eq!(run(&base, b"rs", 2, 0, 12).1, 0x7cfe_27f5);
}

#[test]
fn begin_of_the_worked_image() {
    let base = worked_image();
    let (state, length) = StagedWriting::begin(&base, b"rs", 2, 0x7cfe_27f5);
    assert_eq!(length, Ok(588));
    let afresh = staged_image(&base, b"rs", 2).unwrap();
    assert_eq!(state.writing.header, afresh[..HEADER]);
    assert_eq!(state.writing.places[2].length, 2);
    assert_eq!((state.writing.count, state.writing.data_left), (3, 4));
    assert_eq!(state.replaced, 2);
}

#[test]
fn begin_refused() {
    let base = worked_image();
    let mut other_version = base.clone();
    other_version[5] = 5;
    let cases = [
        (&base[..547], 0, (2, 0, 0)),
        (&other_version[..], 3, (4, 0, 4)),
        (&base[..585], 3, (7, 2, 44)),
        (&base[..], 3, (27, 0, 0)),
        (&base[..], u64::MAX, (27, 0, 0)),
    ];
    for (base, replaced, expected) in cases {
        let (mut state, answer) = StagedWriting::begin(base, b"rs", replaced, 7);
        let refusal = answer.unwrap_err();
        let refused = (refusal.number, refusal.index, refusal.position);
        assert_eq!(refused, expected);
        assert_eq!(state.writing.header_written, 548);
        assert_eq!((state.writing.count, state.writing.checksum), (0, 0));
        assert_eq!(state.replaced, 0);
        assert_eq!(state.step(base, b"rs", &mut [0; 600]), 0);
        assert_eq!(state.finish().unwrap_err().number, 15);
    }
}

/// A base that is no image: its table has this offset for every place, and 30 bytes follow the header.
fn base_of(offset: u64) -> Vec<u8> {
    let mut base = vec![0; 28];
    for _ in 0..32 {
        base.extend(offset.to_be_bytes());
    }
    base.resize(HEADER, 0);
    base.extend(b"own header..0123456789abcdefgh");
    base
}

/// The bytes that a step writes from a state with these numbers, in which each place has this length.
fn data_written(
    (begun, replaced): (u64, u64),
    (length, left): (u64, u64),
    base: &[u8],
    replacement: &[u8],
) -> Vec<u8> {
    let (mut state, _) = StagedWriting::begin(&[], &[], 0, 0);
    state.writing.sections_begun = begun;
    state.writing.section_left = left;
    state.writing.places = [Place {
        length,
        ..Place::default()
    }; 32];
    state.replaced = replaced;
    let mut out = vec![0xaa; 700];
    let written = state.step(base, replacement, &mut out);
    out.truncate(written as usize);
    assert_eq!(state.writing.section_left, left - written);
    assert_eq!(state.replaced, replaced);
    out
}

#[test]
fn data_in_the_base_for_any_state() {
    let most = u64::MAX;
    let data = |offset, length, left| {
        let base = base_of(offset);
        data_written((1, 2), (length, left), &base, b"no data")
    };
    let header = HEADER as u64;
    assert_eq!(data(header, 3, 3), b"012");
    assert_eq!(data(header, 3, 2), b"12");
    assert_eq!(data(header, 3, 1), b"2");
    assert_eq!(data(header, 3, 4), b"012");
    assert_eq!(data(header, 3, most), b"012");
    assert_eq!(data(header, 0, 3), b"");
    assert_eq!(data(header - 12, 3, 3), b"own");
    // Past the end of the base, and sums above 2 to the 64.
    assert_eq!(data(header + 16, 2, 2), b"gh");
    assert_eq!(data(header + 16, 3, 3), b"gh");
    assert_eq!(data(header + 16, most, most), b"gh");
    assert_eq!(data(header + 16, 3, 1), b"h");
    assert_eq!(data(header + 17, most, most), b"h");
    for offset in [18, 19, 29, 30, 31] {
        assert_eq!(data(header + offset, most, most), b"");
    }
    for offset in [most - 12, most - 11, most - 1, most] {
        assert_eq!(data(offset, most, most), b"");
    }
    assert_eq!(data(0, most, most), base_of(0)[12..]);
}

#[test]
fn data_in_the_replacement_for_any_state() {
    let most = u64::MAX;
    let base = base_of(HEADER as u64);
    for (begun, replaced) in [(0, 0), (1, 0), (2, 1), (32, 31), (33, 32), (most, most - 1)] {
        // The length of the place has no effect.
        for length in [0, 1, most] {
            let data = |left| data_written((begun, replaced), (length, left), &base, b"abcde");
            assert_eq!(data(5), b"abcde");
            assert_eq!(data(2), b"de");
            assert_eq!(data(6), b"abcde");
            assert_eq!(data(most), b"abcde");
        }
        assert_eq!(data_written((begun, replaced), (1, 1), &base, b""), b"");
    }
}

#[test]
fn the_section_begun_last_of_any_state() {
    let most = u64::MAX;
    for place in 0..32 {
        // The table has an offset for this place alone: the others' data starts at position 12.
        let mut base = base_of(0);
        base[28 + 8 * place + 6..][..2].copy_from_slice(&[2, 0x24]);
        for begun in 0..33 {
            let last = if begun == 0 { 0 } else { begun - 1 };
            let data = data_written((begun, 99), (10, 10), &base, b"no data");
            let expected = if last == place as u64 {
                b"0123456789"
            } else {
                &base[12..22]
            };
            assert_eq!(data, expected, "{place} {begun}");
        }
    }
    // A place past 31 has no data.
    let base = base_of(HEADER as u64);
    for begun in [33, 34, most - 1, most] {
        for replaced in [0, 31, 32 + u64::from(begun == 33), most] {
            assert_eq!(data_written((begun, replaced), (10, 10), &base, b"r"), b"");
        }
    }
}

#[test]
fn a_base_that_ends_within_its_table() {
    // The entry of place 1 is at position 36.
    let mut base = vec![0xee; 36];
    base.extend([0, 0, 0, 0, 0, 0, 0, 5]);
    let data = |length: usize| data_written((2, 99), (100, 100), &base[..length], b"no data");
    // No byte of the entry is there, or some of them: the offset is 0.
    for length in [0, 1, 11, 12, 13, 28, 35, 36, 37, 43] {
        assert_eq!(data(length), base[12.min(length)..length], "{length}");
    }
    assert_eq!(data(44), base[17..]);
    base[36] = 3;
    let data = |length: usize| data_written((2, 99), (100, 100), &base[..length], b"no data");
    assert_eq!(data(36), base[12..36]);
    // One byte of the entry: the offset is 3. Two: 768.
    assert_eq!(data(37), base[15..37]);
    assert_eq!(data(38), b"");
    assert_eq!(data(44), b"");
}
