//! Images that are measured while they arrive, and states that no run reaches, held to the calls on a whole image and to
//! the twin.

use crate::arriving::{any_cut, any_state, state_of, twin_arriving};
use crate::compare::{parts, same, twin_reading, twin_state, Input};
use crate::{accepted_layout, any_image_of, Call, Rng, Tally};
use eif::raw::measuring::{measuring_begin, measuring_feed, measuring_finish, Measuring};
use eif::raw::{self, Arriving, Reading, Sha384};
use eif::{Digest, MAX_MESSAGE_LENGTH};
use eif_twin as twin;
use std::fmt::Debug;

/// Three calls that measure an image while it arrives: by the C interface, the Rust interface and the twin.
pub trait WhileArriving {
    /// What is measured.
    const KIND: &'static str;
    /// Under which call the answers are counted.
    const CALL: Call;
    /// The state of the C interface.
    type State: Copy + Debug + PartialEq;
    /// The Rust interface.
    type Rust: Clone + From<Self::State> + Into<Self::State>;
    /// The twin's state.
    type Twin: Copy + Debug + PartialEq;

    /// A fresh state, by the C interface and the twin.
    fn begin() -> (Self::State, Self::Twin);
    /// Any value as a state: what is kept of an arriving image, and digests in progress.
    fn state(arriving: Arriving, digests: &mut dyn FnMut() -> Sha384) -> Self::State;
    /// The twin's form of a state.
    fn twin(state: Self::State) -> Self::Twin;
    /// What is kept of the arriving image.
    fn arriving(state: &Self::State) -> Arriving;
    /// Feeds a piece by the C interface: the state after it, and the count.
    fn feed(state: Self::State, piece: &[u8], allowance: u64) -> (Self::State, u64);
    /// Feeds a piece by the Rust interface.
    fn feed_rust(rust: &mut Self::Rust, piece: &[u8], allowance: u64) -> usize;
    /// Feeds a piece to the twin.
    fn feed_twin(twin: &mut Self::Twin, piece: &[u8], allowance: u64) -> u64;
    /// Ends by the C interface: the state after it, the reading and what was measured.
    fn finish(state: Self::State) -> (Self::State, Reading, Vec<Digest>);
    /// Ends by the Rust interface: what was measured, or the refusal.
    fn finish_rust(rust: &mut Self::Rust) -> Result<(eif::Reading, Vec<Digest>), eif::Refusal>;
    /// What the twin has measured, where the file is accepted.
    fn measured(twin: &Self::Twin) -> Vec<Digest>;
    /// What the call on a whole image answers: zeros beside a refusal.
    fn of_image(image: &[u8]) -> Vec<Digest>;
}

/// The registers.
pub struct RegistersArriving;

impl WhileArriving for RegistersArriving {
    const KIND: &'static str = "measured image";
    const CALL: Call = Call::RegistersArriving;
    type State = Measuring;
    type Rust = eif::ArrivingRegisters;
    type Twin = twin::Measuring;

    fn begin() -> (Measuring, twin::Measuring) {
        (measuring_begin(), twin::Measuring::new())
    }

    fn state(arriving: Arriving, digests: &mut dyn FnMut() -> Sha384) -> Measuring {
        Measuring {
            arriving,
            whole: digests(),
            boot: digests(),
            app: digests(),
        }
    }

    fn twin(state: Measuring) -> twin::Measuring {
        twin::Measuring {
            arriving: twin_arriving(state.arriving),
            whole: twin_state(state.whole),
            boot: twin_state(state.boot),
            app: twin_state(state.app),
        }
    }

    fn arriving(state: &Measuring) -> Arriving {
        state.arriving
    }

    fn feed(state: Measuring, piece: &[u8], allowance: u64) -> (Measuring, u64) {
        let fed = measuring_feed(state, piece, allowance);
        (fed.state, fed.count)
    }

    fn feed_rust(rust: &mut Self::Rust, piece: &[u8], allowance: u64) -> usize {
        rust.feed_at_most(piece, allowance)
    }

    fn feed_twin(twin: &mut twin::Measuring, piece: &[u8], allowance: u64) -> u64 {
        twin.feed(piece, allowance)
    }

    fn finish(state: Measuring) -> (Measuring, Reading, Vec<Digest>) {
        let finished = measuring_finish(state);
        (
            finished.state,
            finished.reading,
            finished.registers.to_vec(),
        )
    }

    fn finish_rust(rust: &mut Self::Rust) -> Result<(eif::Reading, Vec<Digest>), eif::Refusal> {
        let (reading, registers) = rust.finish()?;
        Ok((reading, registers.0.to_vec()))
    }

    fn measured(twin: &twin::Measuring) -> Vec<Digest> {
        twin.registers().map(Digest).to_vec()
    }

    fn of_image(image: &[u8]) -> Vec<Digest> {
        raw::registers(image).registers.to_vec()
    }
}

/// Feeds an image in pieces and compares states, counts and answers.
pub fn compare_measured<M: WhileArriving>(
    rng: &mut Rng,
    ordinal: u64,
    image: &[u8],
    tally: &mut Tally,
) {
    let input = &Input {
        kind: M::KIND,
        ordinal,
        bytes: image,
        other: None,
    };
    tally.add_input();
    let (mut state, mut twin) = M::begin();
    let mut rust = M::Rust::from(state);
    same(input, "begun", M::twin(state), twin);
    let (mut at, small) = (0, rng.once_in(4));
    while at < image.len() || rng.once_in(4) {
        let (length, allowance) = any_cut(rng, small, image.len() - at);
        let piece = &image[at..at + length];
        let (next, count) = M::feed(state, piece, allowance);
        let twin_count = M::feed_twin(&mut twin, piece, allowance);
        same(input, "count", count, twin_count);
        same(input, "state", M::twin(next), twin);
        let rust_count = M::feed_rust(&mut rust, piece, allowance);
        same(input, "count in Rust", rust_count as u64, count);
        same(input, "state in Rust", rust.clone().into(), next);
        state = next;
        at += count as usize;
        if rng.once_in(8) {
            // Were this the end, the answer would be that of the bytes taken.
            let (_, reading, measured) = M::finish(state);
            same(input, "reading so far", reading, raw::read(&image[..at]));
            same(input, "so far", measured, M::of_image(&image[..at]));
        }
    }
    same(input, "arrived", M::arriving(&state), state_of(image));
    compare_measured_end::<M>(rng, input, state, rust, tally);
}

/// Ends a measured image: the reading is the whole reader's, and what was measured is that of the whole image.
fn compare_measured_end<M: WhileArriving>(
    rng: &mut Rng,
    input: &Input,
    state: M::State,
    mut rust: M::Rust,
    tally: &mut Tally,
) {
    let (ended, reading, measured) = M::finish(state);
    let expected = twin_reading(&twin::read(input.bytes));
    same(input, "reading", reading, expected);
    let of_image = M::of_image(input.bytes);
    same(input, "measured", &measured, &of_image);
    let twin_measured = expected_digests(reading.number, M::measured(&M::twin(state)));
    same(input, "measured by the twin", &measured, &twin_measured);
    let told = Arriving {
        ended: 1,
        ..M::arriving(&state)
    };
    same(input, "end", M::arriving(&ended), told);
    compare_nothing_after_end::<M>(rng, input, ended);

    let whole = eif::read(input.bytes).map(|image| ((*image).clone(), of_image));
    let whole = whole.map_err(parts);
    for what in ["end in Rust", "end again in Rust"] {
        let answer = M::finish_rust(&mut rust).map_err(parts);
        same(input, what, answer, whole.clone());
        let after = M::feed_rust(&mut rust, b"more", u64::MAX);
        same(input, "piece after the end in Rust", after, 0);
    }
    same(input, "state in Rust", rust.into(), ended);
    tally.add(M::CALL, reading.number);
}

/// The digests, or zeros beside a refusal.
fn expected_digests(number: u8, digests: Vec<Digest>) -> Vec<Digest> {
    match number {
        0 => digests,
        _ => vec![Digest::default(); digests.len()],
    }
}

/// After the end nothing is taken, and ending again gives the same.
fn compare_nothing_after_end<M: WhileArriving>(rng: &mut Rng, input: &Input, ended: M::State) {
    let length = rng.below(600);
    let (after, count) = M::feed(ended, &rng.bytes(length), u64::MAX);
    same(input, "piece after the end", (after, count), (ended, 0));
    let again = M::finish(after);
    same(input, "end again", again.0, ended);
    same(input, "the same again", again, M::finish(ended));
}

/// A digest in progress: fresh, or any, often with a total near its limit.
fn any_digest(rng: &mut Rng) -> Sha384 {
    let fresh = raw::sha384_begin();
    if rng.once_in(3) {
        return fresh;
    }
    let near = MAX_MESSAGE_LENGTH - rng.below(400) as u64;
    let hostile = rng.hostile(MAX_MESSAGE_LENGTH);
    Sha384 {
        words: std::array::from_fn(|_| rng.next()),
        block: std::array::from_fn(|_| rng.next() as u8),
        total: rng.pick(&[0, 7, near, near, hostile, u64::MAX]),
    }
}

/// Any state, reached or not; now and then that of a whole accepted image, beside any digests, so that the end accepts it.
fn any_measuring_state<M: WhileArriving>(rng: &mut Rng) -> M::State {
    let arriving = match rng.below(3) {
        0 => {
            let layout = accepted_layout(rng);
            state_of(&any_image_of(rng, &layout))
        }
        _ => any_state(rng),
    };
    let one = any_digest(rng);
    let alike = rng.once_in(4);
    M::state(arriving, &mut || if alike { one } else { any_digest(rng) })
}

/// Feeds any state a piece and ends it.
pub fn compare_measured_state<M: WhileArriving>(rng: &mut Rng, ordinal: u64, tally: &mut Tally) {
    let state = any_measuring_state::<M>(rng);
    let length = rng.below(1200);
    let (length, allowance) = any_cut(rng, false, length);
    let piece = rng.bytes(length);
    let input = &Input {
        kind: M::KIND,
        ordinal,
        bytes: &piece,
        other: Some(&(state, allowance)),
    };
    tally.add_input();
    let mut twin = M::twin(state);
    let (fed, count) = M::feed(state, &piece, allowance);
    let twin_count = M::feed_twin(&mut twin, &piece, allowance);
    same(input, "count", count, twin_count);
    same(input, "state", M::twin(fed), twin);
    // What is kept of the image is what the reader of an arriving image keeps.
    let kept = raw::arriving_feed(M::arriving(&state), &piece, allowance);
    same(input, "kept", M::arriving(&fed), kept.state);
    for state in [state, fed] {
        let (ended, reading, measured) = M::finish(state);
        let kept = raw::arriving_finish(M::arriving(&state));
        same(input, "reading", reading, kept.reading);
        same(input, "end", M::arriving(&ended), kept.state);
        let expected = expected_digests(reading.number, M::measured(&M::twin(state)));
        same(input, "measured", measured, expected);
        compare_nothing_after_end::<M>(rng, input, ended);
        tally.add(M::CALL, reading.number);
    }
}
