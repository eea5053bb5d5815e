//! States of writing in pieces that a run reaches or not: generated, and a few steps from each compared.

#[cfg(test)]
mod tests;

use super::{
    any_room, compare_finish, compare_staged_finish, compare_staged_step, compare_step, raw, staged,
};
use super::{StagedWriting, Writing};
use crate::compare::Input;
use crate::{any_plan, any_staged, Rng, StagedInput, Tally};
use eif::{DataLength, Place, SectionType};
use eif_cases::{HEADER, MAX_SECTIONS, OFFSETS_AT, SECTION_HEADER};

/// One of these numbers, one less, one more, or any.
fn any_about(rng: &mut Rng, numbers: &[u64]) -> u64 {
    let near = rng.pick(numbers);
    let hostile = rng.hostile(near);
    let (below, above) = (near.saturating_sub(1), near.saturating_add(1));
    rng.pick(&[near, near, below, above, hostile, u64::MAX])
}

/// Sets each number of a state, now and then, to one about its limits or to any. `data` is the length of the data that
/// its step will be lent.
fn damage_numbers(rng: &mut Rng, state: &mut Writing, data: usize) {
    if rng.once_in(3) {
        let any = rng.next();
        let past_16_bits = rng.pick(&[65_535, 65_536, 65_537]);
        state.count = rng.pick(&[0, 1, 2, 31, 32, 33, past_16_bits, 1 << 32, any, u64::MAX]);
    }
    let (data, count, places) = (data as u64, state.count, MAX_SECTIONS as u64);
    if rng.once_in(2) {
        state.header_written = any_about(rng, &[0, HEADER as u64]);
    }
    if rng.once_in(2) {
        state.sections_begun = any_about(rng, &[1, count, places - 1, places]);
    }
    if rng.once_in(2) {
        state.section_left = any_about(rng, &[0, data]);
    }
    if rng.once_in(2) {
        let left = state.section_left;
        state.data_left = any_about(rng, &[0, 0, data, left]);
    }
}

/// Any state, reached or not. `data` is the length of the data that its step will be lent.
fn any_writing(rng: &mut Rng, data: usize) -> Writing {
    let given = any_plan(rng);
    let mut state = raw::writing_begin(given.plan, rng.next() as u32).state;
    for _ in 0..rng.below(8) {
        let mut out = vec![0; any_room(rng)];
        state = raw::writing_step(state, &given.data, &mut out).state;
    }
    damage_numbers(rng, &mut state, data);
    if rng.once_in(3) {
        state.places = std::array::from_fn(|_| Place {
            section_type: SectionType(rng.next() as u16),
            flags: rng.next() as u16,
            length: DataLength(rng.hostile(data as u64)),
        });
    }
    if rng.once_in(3) {
        state.header = std::array::from_fn(|_| rng.next() as u8);
    }
    if rng.once_in(3) {
        state.checksum = rng.next() as u32;
    }
    state
}

/// Data of up to 59 bytes, and any state.
fn any_writing_input(rng: &mut Rng) -> (Vec<u8>, Writing) {
    let length = rng.below(60);
    (rng.bytes(length), any_writing(rng, length))
}

/// A few steps from any state, and the checksum after each.
pub fn compare_writing_state(rng: &mut Rng, ordinal: u64, tally: &mut Tally) {
    let (data, mut state) = any_writing_input(rng);
    let length = data.len();
    let input = &Input {
        kind: "writing state",
        ordinal,
        bytes: &data,
        other: Some(&{ state }),
    };
    tally.add_input();
    compare_finish(input, &state, tally);
    for _ in 0..4 {
        let lent = rng.below(length + 1);
        let room = any_room(rng);
        let lent = rng.pick(&[0, 1.min(length), lent, length]);
        state = compare_step(rng, input, state, &data[..lent], room).0;
        compare_finish(input, &state, tally);
    }
}

/// The place of the section begun last.
fn last_place(state: &StagedWriting) -> u64 {
    state.writing.sections_begun.saturating_sub(1)
}

/// The length that the state has for a place, if it is one of 32.
fn length_at(state: &mut StagedWriting, place: u64) -> Option<&mut u64> {
    let place = state.writing.places.get_mut(usize::try_from(place).ok()?)?;
    Some(&mut place.length.0)
}

/// Puts any offset in the base's table for a place, and answers it. The base can be too short for it.
fn damage_offset(rng: &mut Rng, base: &mut [u8], place: u64) -> u64 {
    let length = base.len() as u64;
    let inside = rng.below(base.len() + 1) as u64;
    let end = length.saturating_sub(SECTION_HEADER as u64);
    let offset = any_about(rng, &[inside, inside, end, end, length, u64::MAX - 12]);
    let entry = base
        .iter_mut()
        .skip(OFFSETS_AT + 8 * place as usize)
        .take(8);
    for (byte, new) in entry.zip(offset.to_be_bytes()) {
        *byte = new;
    }
    offset
}

/// Takes the end of a base away: all of it, what follows some part of a place's entry in the table, or any. Now and then
/// the last byte that stays is another one.
fn cut_base(rng: &mut Rng, base: &mut Vec<u8>, place: u64) {
    let entry = OFFSETS_AT + 8 * place as usize;
    let any = rng.below(base.len() + 1);
    let within = entry + rng.below(10);
    let length = rng.pick(&[0, 27, 28, entry, within, within, within, any]);
    base.truncate(length);
    if let (Some(last), true) = (base.last_mut(), rng.once_in(2)) {
        *last = rng.next() as u8;
    }
}

/// Any state over a staged view, reached or not, and a base that need not be the one that begin was lent.
fn any_staged_writing(rng: &mut Rng, given: &mut StagedInput) -> StagedWriting {
    let mut state = reached_staged_writing(rng, given);
    if rng.once_in(2) {
        state.writing = any_writing(rng, given.replacement.len());
    } else {
        damage_numbers(rng, &mut state.writing, given.replacement.len());
    }
    let last = last_place(&state);
    if rng.once_in(2) {
        state.replaced = any_about(rng, &[0, 1, last, last, MAX_SECTIONS as u64 - 1]);
    }
    if last < MAX_SECTIONS as u64 {
        damage_base(rng, given, &mut state, last);
    }
    if rng.once_in(2) {
        let replaced = state.replaced;
        let length = match length_at(&mut state, last) {
            Some(length) if replaced != last => *length,
            _ => given.replacement.len() as u64,
        };
        state.writing.section_left = any_about(rng, &[1, length]);
    }
    state
}

/// A state that a run reaches.
fn reached_staged_writing(rng: &mut Rng, given: &StagedInput) -> StagedWriting {
    let (base, replacement) = (&given.base[..], &given.replacement[..]);
    let mut state = staged::staged_writing_begin(base, replacement, given.replaced, 0).state;
    for _ in 0..rng.below(8) {
        let mut out = vec![0; any_room(rng)];
        state = staged::staged_writing_step(state, base, replacement, &mut out).state;
    }
    state
}

/// Changes, now and then, what the data of a place depends on: the offset in the base's table, the length in the state,
/// and where the base ends.
fn damage_base(rng: &mut Rng, given: &mut StagedInput, state: &mut StagedWriting, place: u64) {
    if rng.once_in(2) {
        let offset = damage_offset(rng, &mut given.base, place);
        let base = given.base.len() as u64;
        let rest = base.saturating_sub(offset);
        let rest = rest.saturating_sub(SECTION_HEADER as u64);
        let length = any_about(rng, &[rest, rest, 0, rest / 2]);
        if let Some(place) = length_at(state, place) {
            *place = length;
        }
    }
    if rng.once_in(6) {
        cut_base(rng, &mut given.base, place);
    }
}

/// A few steps from any state over a staged view, and the checksum after each. Base and replacement need not be those
/// that begin was lent.
pub fn compare_staged_writing_state(rng: &mut Rng, ordinal: u64, tally: &mut Tally) {
    let mut given = any_staged(rng);
    let mut state = any_staged_writing(rng, &mut given);
    let (base, replacement) = (&given.base[..], &given.replacement[..]);
    let input = &Input {
        kind: "staged writing state",
        ordinal,
        bytes: base,
        other: Some(&(replacement, state)),
    };
    tally.add_input();
    compare_staged_finish(input, &state, tally);
    for _ in 0..4 {
        let lent = (any_start(rng, base), any_start(rng, replacement));
        let room = any_room(rng);
        state = compare_staged_step(rng, input, state, lent, room).0;
        compare_staged_finish(input, &state, tally);
    }
}

/// All bytes, or once in four times the first few.
fn any_start<'a>(rng: &mut Rng, bytes: &'a [u8]) -> &'a [u8] {
    let shorter = rng.below(bytes.len() + 1);
    if rng.once_in(4) {
        &bytes[..shorter]
    } else {
        bytes
    }
}
