//! Images that arrive in pieces, and states that no run reaches, held to the whole reader, to the twin and to
//! the states that FORMAT.md defines.

use crate::compare::{parts, same, twin_reading, Input};
use crate::{any_image, Call, Rng, Tally};
use eif::raw::{self, Arriving};
use eif_cases::{
    offset_entry, put, size_entry, CHECKSUM_AT, COUNT_AT, ENTRY, HEADER, MAX_SECTIONS,
    SECTION_HEADER,
};
use eif_twin as twin;

/// Where the own header of each section is kept from.
fn kept_from(header: &[u8; HEADER]) -> [u64; MAX_SECTIONS] {
    std::array::from_fn(|index| {
        let offset = &header[offset_entry(index)..][..ENTRY];
        u64::from_be_bytes(offset.try_into().unwrap()).max(HEADER as u64)
    })
}

/// The state of these bytes, as FORMAT.md defines it.
pub fn state_of(bytes: &[u8]) -> Arriving {
    let mut header = [0; HEADER];
    let first = bytes.len().min(HEADER);
    put(&mut header, 0, &bytes[..first]);
    let mut section_headers = [0; MAX_SECTIONS * SECTION_HEADER];
    for (index, from) in kept_from(&header).into_iter().enumerate() {
        let rest = usize::try_from(from)
            .ok()
            .and_then(|from| bytes.get(from..));
        let rest = rest.unwrap_or_default();
        let kept = &rest[..rest.len().min(SECTION_HEADER)];
        put(&mut section_headers, SECTION_HEADER * index, kept);
    }
    let before = &bytes[..bytes.len().min(CHECKSUM_AT)];
    let after = bytes.get(HEADER..).unwrap_or_default();
    let checksum = twin::Crc32::new().update(before).update(after).finish();
    Arriving {
        taken: bytes.len() as u64,
        header,
        section_headers,
        checksum: !checksum,
        ended: 0,
    }
}

/// The twin's form of a state.
pub(crate) fn twin_arriving(state: Arriving) -> twin::Arriving {
    twin::Arriving {
        taken: state.taken,
        header: state.header,
        section_headers: state.section_headers,
        remainder: state.checksum,
        ended: state.ended,
    }
}

/// Asks any state which section the next bytes belong to, by the C interface, the Rust interface and the twin.
pub(crate) fn compare_next(rng: &mut Rng, input: &Input, state: &Arriving) {
    let few = rng.below(40) as u64;
    let hostile = rng.hostile(state.taken);
    for length in [0, 1, few, 1200, hostile, u64::MAX] {
        let span = raw::arriving_next(*state, length);
        let expected = twin_arriving(*state).span(length);
        let parts = twin::Span {
            place: span.place,
            length: span.length,
            begun: span.begun,
        };
        same(input, "span", parts, expected);
        let progress = span.length <= length && (span.length > 0) == (length > 0);
        assert!(progress, "no progress by {span:?} of {length}, for {input}");
        let rust = eif::Arriving::from(*state).next(length);
        same(input, "span in Rust", rust, span.into());
    }
}

/// The lengths of pieces that are most likely to be cut wrongly.
pub const LENGTHS: [usize; 9] = [
    0,
    1,
    2,
    SECTION_HEADER - 1,
    SECTION_HEADER,
    HEADER - 1,
    HEADER,
    HEADER + 1,
    4096,
];

/// The length of a next piece, where so many bytes are left, and an allowance for it.
pub(crate) fn any_cut(rng: &mut Rng, small: bool, rest: usize) -> (usize, u64) {
    let length = match rng.below(3) {
        0 => rng.below(rest + 1),
        _ if small => rng.pick(&LENGTHS[..5]),
        _ => rng.pick(&LENGTHS),
    };
    let length = length.min(rest);
    let less = rng.below(length + 1) as u64;
    let hostile = rng.hostile(length as u64);
    let most = u64::MAX;
    let allowance = rng.pick(&[most, most, most, length as u64, less, less, 0, 1, hostile]);
    (length, allowance)
}

/// Feeds an image in pieces, by the C interface and by the Rust interface.
pub fn compare_arriving(rng: &mut Rng, ordinal: u64, image: &[u8], tally: &mut Tally) {
    let input = &Input {
        kind: "arriving image",
        ordinal,
        bytes: image,
        other: None,
    };
    tally.add_input();
    let mut state = raw::arriving_begin();
    let mut rust = eif::Arriving::new();
    same(input, "begun", state, state_of(&[]));
    let (mut at, small) = (0, rng.once_in(4));
    while at < image.len() || rng.once_in(4) {
        let (length, allowance) = any_cut(rng, small, image.len() - at);
        let piece = &image[at..at + length];
        let fed = raw::arriving_feed(state, piece, allowance);
        let count = (length as u64).min(allowance);
        same(input, "count", fed.count, count);
        let rust_count = rust.feed_at_most(piece, allowance);
        same(input, "count in Rust", rust_count as u64, count);
        same(input, "state in Rust", rust.clone().into(), fed.state);
        state = fed.state;
        at += count as usize;
        if rng.once_in(4) {
            compare_beginning(input, &image[..at], &state);
            compare_next(rng, input, &state);
        }
    }
    compare_beginning(input, image, &state);
    compare_next(rng, input, &state);
    let number = compare_end(rng, input, state, rust);
    tally.add(Call::Arrive, number);
}

/// Feeds an image part by part in Rust. Of an accepted image the parts of a section, joined, are its data; of any
/// image the parts, joined, are its bytes.
pub fn compare_parts(rng: &mut Rng, ordinal: u64, image: &[u8], tally: &mut Tally) {
    let input = &Input {
        kind: "image in parts",
        ordinal,
        bytes: image,
        other: None,
    };
    tally.add_input();
    let mut arriving = eif::Arriving::new();
    let (mut at, small) = (0, rng.once_in(4));
    let mut given = vec![Vec::new(); MAX_SECTIONS];
    let mut all = Vec::new();
    while at < image.len() {
        let (length, _) = any_cut(rng, small, image.len() - at);
        // A caller may stop at any part, and continue with the rest of the piece.
        let most = rng.pick(&[1, 2, usize::MAX]);
        for (section, bytes) in arriving.parts(&image[at..at + length]).take(most) {
            all.extend_from_slice(bytes);
            if let Some(index) = section {
                given[index].extend_from_slice(bytes);
            }
        }
        at = arriving.taken() as usize;
    }
    same(input, "parts joined", &all[..], image);
    let state: Arriving = arriving.clone().into();
    same(input, "state", state, state_of(image));
    if let Ok(read) = twin::read(image) {
        let data = read.sections.iter();
        let data = data.map(|s| image[s.position..s.position + s.length].to_vec());
        let mut data: Vec<Vec<u8>> = data.collect();
        data.resize(MAX_SECTIONS, Vec::new());
        same(input, "data of the sections", &given, &data);
        for (index, section) in read.sections.iter().enumerate() {
            let kind = arriving.section_type(index).map(|kind| kind.0);
            same(input, "type", kind, Some(section.kind));
        }
        let past = arriving.section_type(read.sections.len());
        same(input, "no type", past, None);
    }
    let number = arriving.finish().map_or_else(|r| r.number(), |_| 0);
    same(input, "number", number, raw::read(image).number);
    same(
        input,
        "parts after the end",
        arriving.parts(b"more").count(),
        0,
    );
    tally.add(Call::Arrive, number);
}

/// A state beside the bytes taken: it is theirs, and were this the end, the answer would be theirs.
fn compare_beginning(input: &Input, taken: &[u8], state: &Arriving) {
    same(input, "state", *state, state_of(taken));
    let reading = raw::arriving_finish(*state).reading;
    same(input, "answer so far", reading, raw::read(taken));
}

/// Tells the end. Answers the answer number.
fn compare_end(rng: &mut Rng, input: &Input, state: Arriving, mut rust: eif::Arriving) -> u8 {
    let finished = raw::arriving_finish(state);
    let expected = twin_reading(&twin::read(input.bytes));
    same(input, "answer", finished.reading, expected);
    same(input, "end", finished.state, Arriving { ended: 1, ..state });
    compare_ended(rng, input, finished);

    let whole = eif::read(input.bytes).map(|image| (*image).clone());
    let whole = whole.map_err(parts);
    same(
        input,
        "end in Rust",
        rust.finish().map_err(parts),
        whole.clone(),
    );
    same(input, "piece after the end in Rust", rust.feed(b"more"), 0);
    same(
        input,
        "end again in Rust",
        rust.finish().map_err(parts),
        whole,
    );
    same(input, "state in Rust", rust.into(), finished.state);
    finished.reading.number
}

/// After the end nothing is taken, and telling it again gives the same answer.
fn compare_ended(rng: &mut Rng, input: &Input, finished: raw::ArrivingFinished) {
    let length = rng.below(600);
    let piece = rng.bytes(length);
    let fed = raw::arriving_feed(finished.state, &piece, u64::MAX);
    let nothing = raw::ArrivingFed {
        state: finished.state,
        count: 0,
    };
    same(input, "piece after the end", fed, nothing);
    let again = raw::arriving_finish(fed.state);
    same(input, "end again", again, finished);
}

/// Makes a table hostile: a count at or above its limit, an offset that overlaps another section or is out of order, a size
/// near a power of two or 2 to the 64.
fn damage_table(rng: &mut Rng, header: &mut [u8; HEADER]) {
    let place = rng.below(MAX_SECTIONS);
    match rng.below(4) {
        0 => {
            let count: u16 = rng.pick(&[0, 1, 31, 32, 33, 64, 0x0100, 0xffff]);
            put(header, COUNT_AT, &count.to_be_bytes());
        }
        1 => {
            let from = rng.below(MAX_SECTIONS);
            let other = header[offset_entry(from)..][..ENTRY].to_vec();
            put(header, offset_entry(place), &other);
        }
        2 => {
            let offset = rng.hostile(HEADER as u64);
            put(header, offset_entry(place), &offset.to_be_bytes());
        }
        _ => {
            let near = rng.pick(&[0, HEADER as u64, 1 << 30, u64::MAX]);
            let size = rng.hostile(near);
            put(header, size_entry(place), &size.to_be_bytes());
        }
    }
}

/// Any state, reached or not.
pub(crate) fn any_state(rng: &mut Rng) -> Arriving {
    let image = any_image(rng);
    let taken = rng.below(image.len() + 1);
    let mut state = state_of(&image[..taken]);
    while rng.once_in(3) {
        damage_table(rng, &mut state.header);
    }
    if rng.once_in(2) {
        let near = rng.pick(&[0, CHECKSUM_AT, HEADER, image.len()]) as u64;
        let full = u64::MAX - rng.below(700) as u64;
        let hostile = rng.hostile(near);
        state.taken = rng.pick(&[near, hostile, hostile, full, u64::MAX]);
    }
    if rng.once_in(3) {
        state.header = std::array::from_fn(|_| rng.next() as u8);
    }
    if rng.once_in(3) {
        state.section_headers = std::array::from_fn(|_| rng.next() as u8);
    }
    if rng.once_in(3) {
        state.checksum = rng.next() as u32;
    }
    state.ended = rng.pick(&[0, 0, 0, 0, 1, 2, 1 << 32, u64::MAX]);
    state
}

/// Feeds any state a piece and tells it the end.
pub fn compare_arriving_state(rng: &mut Rng, ordinal: u64, tally: &mut Tally) {
    let state = any_state(rng);
    let length = rng.below(1200);
    let (length, allowance) = any_cut(rng, false, length);
    let piece = rng.bytes(length);
    let input = &Input {
        kind: "state",
        ordinal,
        bytes: &piece,
        other: Some(&(state, allowance)),
    };
    tally.add_input();
    let fed = raw::arriving_feed(state, &piece, allowance);
    let count = match state.ended {
        0 => (length as u64).min(allowance),
        _ => 0,
    };
    same(input, "count", fed.count, count);
    let mut expected = twin_arriving(state);
    same(
        input,
        "count",
        count as usize,
        expected.count(length, allowance),
    );
    expected.take(&piece[..count as usize]);
    same(input, "state", twin_arriving(fed.state), expected);
    compare_next(rng, input, &state);
    compare_next(rng, input, &fed.state);
    let finished = raw::arriving_finish(fed.state);
    let told = Arriving {
        ended: 1,
        ..fed.state
    };
    same(input, "end", finished.state, told);
    compare_ended(rng, input, finished);
    tally.add(Call::Arrive, finished.reading.number);
}
