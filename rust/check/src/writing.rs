//! Images written in pieces, from a plan and from a base with one section replaced, and states that no run reaches: the
//! library held to the twin.

mod states;

use crate::compare::{same, twin_answer, twin_plan, Input};
use crate::{Call, Output, PlanInput, Rng, StagedInput, Tally};
use eif::raw::staged_writing::{self as staged, StagedWriting};
use eif::raw::writing::{self as raw, Writing};
use eif::raw::{Answer, Plan};
use eif::Place;
use eif_cases::{CHECKSUM_AT, HEADER, SECTION_HEADER};
use eif_twin as twin;

pub use states::{compare_staged_writing_state, compare_writing_state};

/// A run ends after this many steps where the image is not complete then.
const MOST_STEPS: usize = 120;

/// The bytes of a run are compared with an image of at most this length.
const LONGEST_COMPARED: usize = 1_000_000;

/// The twin's form of a state.
fn twin_writing(state: &Writing) -> twin::Writing {
    let place = |place: Place| twin::Place {
        kind: place.section_type.0,
        flags: place.flags,
        length: place.length.0,
    };
    twin::Writing {
        header_written: state.header_written,
        sections_begun: state.sections_begun,
        section_left: state.section_left,
        data_left: state.data_left,
        count: state.count,
        places: state.places.map(place),
        header: state.header,
        checksum: state.checksum,
    }
}

/// The twin's form of a state over a staged view.
fn twin_staged(state: &StagedWriting) -> twin::StagedWriting {
    twin::StagedWriting {
        writing: twin_writing(&state.writing),
        replaced: state.replaced,
    }
}

/// The room of an output buffer: about a header's and a section header's length, or any.
fn any_room(rng: &mut Rng) -> usize {
    let near = rng.pick(&[0, SECTION_HEADER, SECTION_HEADER, HEADER]);
    match rng.below(5) {
        0 => near.saturating_sub(1),
        1 => near + 1,
        2 => near,
        _ => rng.below(700),
    }
}

/// The number for the checksum field.
fn any_checksum(rng: &mut Rng) -> u32 {
    let any = rng.next() as u32;
    rng.pick(&[0, 0, 1, u32::MAX, any])
}

/// A step of library and twin into buffers of this room: both write the same bytes and leave the others as they were.
/// Answers what both answer, and the bytes written.
fn compare_outputs<L, T>(
    rng: &mut Rng,
    input: &Input,
    room: usize,
    library: impl FnOnce(&mut [u8]) -> (L, u64),
    twin: impl FnOnce(&mut [u8]) -> (T, u64),
) -> (L, T, Vec<u8>) {
    let salt = rng.next() as u8;
    let [mut output, mut twin_output] = [(); 2].map(|()| Output::new(room, salt));
    let (library, written) = library(output.lend());
    let (twin, expected) = twin(twin_output.lend());
    same(input, "written", written, expected);
    let written = written as usize;
    assert!(output == twin_output, "other output bytes, for {input}");
    let rest_stays = output.only_start_changed(written);
    assert!(rest_stays, "bytes past {written} changed, for {input}");
    (library, twin, output.start(written).to_vec())
}

/// One step. Answers the state after it, how many bytes of the data it took, and the bytes written.
fn compare_step(
    rng: &mut Rng,
    input: &Input,
    state: Writing,
    data: &[u8],
    room: usize,
) -> (Writing, u64, Vec<u8>) {
    let mut after = twin_writing(&state);
    let (stepped, taken, bytes) = compare_outputs(
        rng,
        input,
        room,
        |out| {
            let stepped = raw::writing_step(state, data, out);
            (stepped, stepped.written)
        },
        |out| {
            let step = after.step(data, out);
            (step.taken, step.written)
        },
    );
    same(input, "taken", stepped.taken, taken);
    let found = twin_writing(&stepped.state);
    same(input, "state after a step", found, after);
    (stepped.state, taken, bytes)
}

/// The same over a staged view.
fn compare_staged_step(
    rng: &mut Rng,
    input: &Input,
    state: StagedWriting,
    (base, replacement): (&[u8], &[u8]),
    room: usize,
) -> (StagedWriting, Vec<u8>) {
    let mut after = twin_staged(&state);
    let (stepped, (), bytes) = compare_outputs(
        rng,
        input,
        room,
        |out| {
            let stepped = staged::staged_writing_step(state, base, replacement, out);
            (stepped, stepped.written)
        },
        |out| ((), after.step(base, replacement, out)),
    );
    let found = twin_staged(&stepped.state);
    same(input, "state after a step", found, after);
    let replaced = stepped.state.replaced;
    same(input, "replaced after a step", replaced, state.replaced);
    (stepped.state, bytes)
}

/// The checksum of a state, or 15.
fn compare_finish(input: &Input, state: &Writing, tally: &mut Tally) -> Answer {
    let answer = raw::writing_finish(*state);
    let expected = twin_writing(state).finish().map(u64::from);
    same(input, "finish", answer, twin_answer(expected));
    tally.add(Call::WritingFinish, answer.number);
    answer
}

/// The same over a staged view.
fn compare_staged_finish(input: &Input, state: &StagedWriting, tally: &mut Tally) -> Answer {
    let answer = staged::staged_writing_finish(*state);
    let expected = twin_staged(state).finish().map(u64::from);
    same(input, "finish", answer, twin_answer(expected));
    tally.add(Call::StagedWritingFinish, answer.number);
    answer
}

/// The bytes of a run, complete or not, are the first of the image, but for the number in the checksum field, which is
/// the one that begin was given. The checksum is the image's once all data is taken, and 15 until then.
fn compare_run(
    input: &Input,
    found: &[u8],
    image: &[u8],
    given: u32,
    (all_taken, finish): (bool, Answer),
) {
    let mut expected = image.to_vec();
    expected[CHECKSUM_AT..HEADER].copy_from_slice(&given.to_be_bytes());
    let begins = expected.starts_with(found);
    assert!(begins, "other bytes than the image's, for {input}");
    let right = image[CHECKSUM_AT..HEADER]
        .iter()
        .fold(0, |number, &byte| number << 8 | u64::from(byte));
    let expected = if all_taken { (0, right) } else { (15, 0) };
    same(input, "checksum", (finish.number, finish.length), expected);
}

/// The plain image of a plan and of data that begins with the data taken, zeros after that, and whether all was taken.
fn plain_image(input: &Input, plan: &Plan, taken: &[u8], length: usize) -> (Vec<u8>, bool) {
    let count = usize::from(plan.count);
    let sum = length - HEADER - count * SECTION_HEADER;
    assert!(taken.len() <= sum, "more data taken, for {input}");
    let mut data = taken.to_vec();
    data.resize(sum, 0);
    let mut image = vec![0; length];
    let written = twin::write(&twin_plan(plan), &data, &mut image);
    same(input, "whole image", written, Ok(length));
    (image, taken.len() == sum)
}

/// Begins with a plan. Answers the state and the image's length.
fn compare_begin(
    input: &Input,
    plan: &Plan,
    checksum: u32,
    tally: &mut Tally,
) -> (Writing, Result<usize, twin::Refusal>) {
    let begun = raw::writing_begin(*plan, checksum);
    let (state, length) = twin::Writing::begin(&twin_plan(plan), checksum);
    same(input, "state begun", twin_writing(&begun.state), state);
    let expected = twin_answer(length.map(|length| length as u64));
    same(input, "begin", begun.answer, expected);
    tally.add(Call::WritingBegin, begun.answer.number);
    (begun.state, length)
}

/// Writes a plan in pieces. Data past the plan's sum is lent too, and never taken.
pub fn compare_writing(rng: &mut Rng, ordinal: u64, given: &PlanInput, tally: &mut Tally) {
    let checksum = any_checksum(rng);
    let input = &Input {
        kind: "plan in pieces",
        ordinal,
        bytes: &given.data,
        other: Some(&(given.plan, checksum)),
    };
    tally.add_input();
    let (mut state, length) = compare_begin(input, &given.plan, checksum, tally);
    let more = rng.below(2);
    let data = [&given.data[..], &rng.bytes(more)].concat();
    let (mut rest, mut image) = (&data[..], Vec::new());
    let most = rng.pick(&[3, usize::MAX, usize::MAX, usize::MAX]);
    for _ in 0..MOST_STEPS {
        let lent = &rest[..rng.below(rest.len() + 1).min(most)];
        let room = any_room(rng);
        let waits = room < SECTION_HEADER || state.section_left != 0 && lent.is_empty();
        let (after, taken, bytes) = compare_step(rng, input, state, lent, room);
        let progress = !bytes.is_empty() || image.len() >= length.unwrap_or(0);
        assert!(waits || progress, "no progress, for {input}");
        (state, rest) = (after, &rest[taken as usize..]);
        image.extend(bytes);
        if rng.once_in(8) {
            compare_finish(input, &state, tally);
        }
    }
    let finish = compare_finish(input, &state, tally);
    let taken = &data[..data.len() - rest.len()];
    if let Ok(length @ ..=LONGEST_COMPARED) = length {
        let (whole, all_taken) = plain_image(input, &given.plan, taken, length);
        compare_run(input, &image, &whole, checksum, (all_taken, finish));
    }
}

/// Begins with a base and a replacement. Answers the state and the length of the image written afresh.
fn compare_staged_begin(
    input: &Input,
    given: &StagedInput,
    checksum: u32,
    tally: &mut Tally,
) -> (StagedWriting, Result<usize, twin::Refusal>) {
    let (base, replacement) = (&given.base[..], &given.replacement[..]);
    let replaced = given.replaced;
    let begun = staged::staged_writing_begin(base, replacement, replaced, checksum);
    let (state, length) = twin::StagedWriting::begin(base, replacement, replaced, checksum);
    same(input, "state begun", twin_staged(&begun.state), state);
    let expected = twin_answer(length.map(|length| length as u64));
    same(input, "begin", begun.answer, expected);
    tally.add(Call::StagedWritingBegin, begun.answer.number);
    (begun.state, length)
}

/// Writes in pieces the image written afresh.
pub fn compare_staged_writing(rng: &mut Rng, ordinal: u64, given: &StagedInput, tally: &mut Tally) {
    let checksum = any_checksum(rng);
    let lent = (&given.base[..], &given.replacement[..]);
    let input = &Input {
        kind: "staged base in pieces",
        ordinal,
        bytes: lent.0,
        other: Some(&(lent.1, given.replaced, checksum)),
    };
    tally.add_input();
    let (mut state, length) = compare_staged_begin(input, given, checksum, tally);
    let mut image = Vec::new();
    for _ in 0..MOST_STEPS {
        let room = any_room(rng);
        let (after, bytes) = compare_staged_step(rng, input, state, lent, room);
        let progress = !bytes.is_empty() || image.len() >= length.unwrap_or(0);
        let waits = room < SECTION_HEADER;
        assert!(waits || progress, "no progress, for {input}");
        state = after;
        image.extend(bytes);
        if rng.once_in(8) {
            compare_staged_finish(input, &state, tally);
        }
    }
    let finish = compare_staged_finish(input, &state, tally);
    if let Ok(length @ ..=LONGEST_COMPARED) = length {
        let afresh = twin::staged_image(lent.0, lent.1, given.replaced);
        let afresh = afresh.unwrap_or_default();
        same(input, "length", afresh.len(), length);
        let all_taken = state.writing.data_left == 0;
        compare_run(input, &image, &afresh, checksum, (all_taken, finish));
    }
}
