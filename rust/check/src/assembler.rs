//! Records of transfers: shuffled, repeated, dropped, contradicting, foreign and damaged; states that no call made;
//! and the library held to the twin on them.

use crate::compare::{in_rust, parts, same, twin_parts, Input};
use crate::{Call, Rng, Tally};
use eif::assembler::PIECE_LENGTH as PIECE;
use eif::raw::assembler::{self as raw, State, Stepped};
use eif::Assembler;
use eif_cases::{put, KIND_AT, NUMBERED_HEADER, RECORD_HEAD};
use eif_twin as twin;
use std::fmt;

const GUARD: usize = 64;

/// A buffer with bytes before and after it that no call may touch. Calls are lent its start, of any length.
#[derive(Clone, PartialEq, Eq)]
struct Buffer(Vec<u8>);

impl Buffer {
    fn new(rng: &mut Rng, length: usize) -> Buffer {
        let fill = rng.pick(&[0, 0, 1, 0xa5]);
        let mut bytes = vec![fill; length + 2 * GUARD];
        // Marks of other values than 0 and 1, and bytes of an image that was there before.
        for byte in bytes.iter_mut().take(2 * GUARD) {
            *byte = rng.next() as u8;
        }
        Buffer(bytes)
    }

    /// All but the guards.
    fn length(&self) -> usize {
        self.0.len() - 2 * GUARD
    }

    fn lend(&mut self, length: usize) -> &mut [u8] {
        &mut self.0[GUARD..GUARD + length]
    }
}

/// An image buffer and a mark buffer.
#[derive(Clone, PartialEq, Eq)]
pub struct TransferBuffers {
    image: Buffer,
    marks: Buffer,
}

impl fmt::Debug for TransferBuffers {
    fn fmt(&self, f: &mut fmt::Formatter<'_>) -> fmt::Result {
        let marks = &self.marks.0[GUARD..];
        let marks = &marks[..self.marks.length().min(32)];
        let image = &self.image.0[GUARD..];
        let image = &image[..self.image.length().min(16)];
        write!(f, "image {image:02x?}.., marks {marks:?}..")
    }
}

impl TransferBuffers {
    /// Buffers of these lengths, filled with anything.
    pub fn new(rng: &mut Rng, image: usize, marks: usize) -> TransferBuffers {
        TransferBuffers {
            image: Buffer::new(rng, image),
            marks: Buffer::new(rng, marks),
        }
    }

    /// The image buffer's first bytes.
    pub fn image(&self, length: usize) -> &[u8] {
        &self.image.0[GUARD..][..length]
    }
}

fn twin_state(state: State) -> twin::Transfer {
    twin::Transfer {
        opened: state.opened,
        length: state.length,
        room: state.room,
        places: state.places,
    }
}

fn raw_state(state: twin::Transfer) -> State {
    State {
        opened: state.opened,
        length: state.length,
        room: state.room,
        places: state.places,
    }
}

/// What the twin answers.
fn twin_step(
    state: State,
    sent: &[u8],
    buffers: &mut TransferBuffers,
    (image, marks): (usize, usize),
) -> Stepped {
    let mut transfer = twin_state(state);
    let (image, marks) = (buffers.image.lend(image), buffers.marks.lend(marks));
    let answer = transfer.take(sent, image, marks).map_err(twin_parts);
    let (number, index, position) = answer.err().unwrap_or_default();
    Stepped {
        number,
        index,
        position,
        state: raw_state(transfer),
        length: answer.unwrap_or(0),
        ..Stepped::default()
    }
}

/// Holds the Rust interface to what the C interface answered.
fn compare_rust(
    input: &Input,
    (state, stepped): (State, Stepped),
    (mut before, after): (TransferBuffers, &TransferBuffers),
    (image, marks): (usize, usize),
) {
    let mut rust = Assembler::from(state);
    let (image, marks) = (before.image.lend(image), before.marks.lend(marks));
    let view = rust.step(input.bytes, image, marks).map_err(parts);
    let closed = (stepped.state.opened == 0).then_some(stepped.length as usize);
    let numbers = (stepped.number, stepped.index, stepped.position);
    let expected = in_rust(closed, numbers);
    same(input, "answer in Rust", view, expected);
    same(input, "state in Rust", State::from(rust), stepped.state);
    same(input, "buffers in Rust", &before, after);
}

/// Hands one record to library and twin, each with its own copy of the buffers, lent up to these lengths. Holds the
/// answer, the next state and every byte of both buffers to each other, and leaves the buffers as the call does.
pub fn compare_transfer_call(
    ordinal: u64,
    state: State,
    sent: &[u8],
    buffers: &mut TransferBuffers,
    lent: (usize, usize),
    tally: &mut Tally,
) -> Stepped {
    let described = format!("{state:?}, lent {lent:?}, {buffers:?}");
    let input = &Input {
        kind: "record",
        ordinal,
        bytes: sent,
        other: Some(&described),
    };
    let before = buffers.clone();
    let (image, marks) = (buffers.image.lend(lent.0), buffers.marks.lend(lent.1));
    let stepped = raw::assembler_step(state, sent, image, marks);
    let mut for_twin = before.clone();
    let expected = twin_step(state, sent, &mut for_twin, lent);
    same(input, "answer", stepped, expected);
    same(input, "buffers", &*buffers, &for_twin);
    if stepped.number != 0 {
        same(input, "state beside a refusal", stepped.state, state);
        same(input, "buffers beside a refusal", &*buffers, &before);
    }
    compare_rust(input, (state, stepped), (before, buffers), lent);
    tally.add(Call::Assemble, stepped.number);
    stepped
}

/// A record of any kind, its head right.
fn record(kind: u16, parts: &[&[u8]]) -> Vec<u8> {
    let rest = parts.concat();
    eif_cases::record(rest.len() as u64, kind, &rest)
}

fn piece(content: &[u8], place: usize) -> Vec<u8> {
    let start = place * PIECE;
    let end = content.len().min(start + PIECE);
    let data = content.get(start..end).unwrap_or_default();
    record(2, &[&(start as u64).to_le_bytes(), data])
}

/// A length about the places where pieces begin and end.
fn any_length(rng: &mut Rng) -> usize {
    let near = rng.below(4) * PIECE;
    match rng.below(6) {
        0 => rng.below(40),
        1 => near,
        2 => near + 1,
        3 => near.saturating_sub(1),
        _ => rng.below(3 * PIECE + 40),
    }
}

/// Any number that may stand for a length or a start.
fn any_number(rng: &mut Rng, near: u64) -> u64 {
    let hostile = rng.hostile(near);
    let most = eif::MAX_IMAGE_LENGTH as u64;
    rng.pick(&[hostile, hostile, near, most, most + 1, u64::MAX, 1 << 63])
}

fn damage(rng: &mut Rng, sent: &mut Vec<u8>) {
    match rng.below(7) {
        0 => sent.truncate(rng.below(sent.len() + 1)),
        1 => sent.push(rng.next() as u8),
        2 => {
            let length = any_number(rng, (sent.len() - RECORD_HEAD) as u64);
            put(sent, 0, &length.to_le_bytes());
        }
        3 => {
            let kind = rng.pick(&[0, 1, 2, 3, 4, 0x0100, 0x0102, 0xffff]);
            put(sent, KIND_AT, &u16::to_le_bytes(kind));
        }
        4 if sent.len() >= NUMBERED_HEADER => {
            let near = rng.below(4 * PIECE) as u64;
            let number = any_number(rng, near);
            put(sent, RECORD_HEAD, &number.to_le_bytes());
        }
        5 => sent.truncate(sent.len() - rng.below(sent.len().min(12))),
        _ => {
            let most = rng
                .pick(&[RECORD_HEAD, NUMBERED_HEADER, sent.len()])
                .min(sent.len());
            let at = rng.below(most);
            sent[at] ^= 1 << rng.below(8);
        }
    }
}

/// A record for a transfer of this content: one of its own or, now and then, any other.
fn any_record(rng: &mut Rng, content: &[u8], other: &[u8]) -> Vec<u8> {
    let places = content.len().div_ceil(PIECE).max(1);
    let past = usize::from(rng.once_in(8));
    let place = rng.below(places + past);
    let mut sent = match rng.below(20) {
        0 => record(1, &[&(content.len() as u64).to_le_bytes()]),
        1 => record(1, &[&any_number(rng, content.len() as u64).to_le_bytes()]),
        2 | 3 => record(3, &[]),
        4 => piece(other, place),
        5 => {
            // Contradicting: another byte in a piece of the right length.
            let mut sent = piece(content, place);
            let last = sent.len() - 1;
            sent[last] ^= u8::from(last >= NUMBERED_HEADER) << rng.below(8);
            sent
        }
        6 => {
            let start = any_number(rng, (place * PIECE) as u64);
            let length = rng.pick(&[0, 1, PIECE, content.len() % PIECE]);
            record(2, &[&start.to_le_bytes(), &rng.bytes(length)])
        }
        7 => {
            let (kind, length) = (rng.next() as u16, rng.below(30));
            record(kind, &[&rng.bytes(length)])
        }
        _ => piece(content, place),
    };
    if rng.once_in(6) {
        damage(rng, &mut sent);
    }
    sent
}

/// How much of a buffer is lent: all of it, or less.
fn any_lent(rng: &mut Rng, length: usize) -> usize {
    match rng.below(40) {
        0 => rng.below(length + 1),
        1 => length.saturating_sub(1),
        2 => 0,
        _ => length,
    }
}

/// Any state, made by a call or not.
fn any_state(rng: &mut Rng, length: usize, buffers: &TransferBuffers) -> State {
    let (room, places) = (buffers.image.length() as u64, buffers.marks.length() as u64);
    let hostile = [(); 3].map(|()| any_number(rng, length as u64));
    State {
        opened: rng.pick(&[0, 1, 1, 2, 1 << 32, u64::MAX]),
        length: rng.pick(&[length as u64, length as u64, hostile[0]]),
        room: rng.pick(&[0, room, length as u64, hostile[1]]),
        places: rng.pick(&[0, places, hostile[2]]),
    }
}

/// Hands over the records of a transfer in any order, with others between them, to a state begun fresh or, now and
/// then, to any state.
pub fn compare_transfer(rng: &mut Rng, ordinal: u64, tally: &mut Tally) {
    tally.add_input();
    let length = any_length(rng);
    let (content, other) = (rng.bytes(length), rng.bytes(length));
    let places = length.div_ceil(PIECE);
    let (room, marks) = (rng.output_length(length), rng.output_length(places));
    let mut buffers = TransferBuffers::new(rng, room, marks);
    let mut state = raw::assembler_new();
    let open = record(1, &[&(length as u64).to_le_bytes()]);
    if rng.once_in(3) {
        state = any_state(rng, length, &buffers);
    } else {
        let lent = (room, marks);
        state = compare_transfer_call(ordinal, state, &open, &mut buffers, lent, tally).state;
    }
    for _ in 0..3 * places + rng.below(8) {
        let sent = any_record(rng, &content, &other);
        let lent = (any_lent(rng, room), any_lent(rng, marks));
        state = compare_transfer_call(ordinal, state, &sent, &mut buffers, lent, tally).state;
    }
}
