//! The C interface to the registers of an image that arrives in pieces.

use super::{Arriving, Reading, Sha384};
use crate::{Digest, REGISTERS};
use std::mem::{align_of, offset_of, size_of};

/// An image that arrives in pieces and is measured. Any value is a state; a fresh one is [`measuring_begin`]'s.
#[repr(C)]
#[derive(Clone, Copy, Debug, PartialEq, Eq)]
pub struct Measuring {
    /// What is kept of the bytes taken.
    pub arriving: Arriving,
    /// The digest of the stream Whole so far.
    pub whole: Sha384,
    /// The digest of the stream Boot so far.
    pub boot: Sha384,
    /// The digest of the stream App so far.
    pub app: Sha384,
}

/// What [`measuring_feed`] answers.
#[repr(C)]
#[derive(Clone, Copy, Debug, PartialEq, Eq)]
pub struct MeasuringFed {
    /// The state after the call.
    pub state: Measuring,
    /// How many bytes of the piece were taken.
    pub count: u64,
}

/// What [`measuring_finish`] answers.
#[repr(C)]
#[derive(Clone, Copy, Debug, PartialEq, Eq)]
pub struct MeasuringFinished {
    /// The state as it was, with its end announced.
    pub state: Measuring,
    /// What [`read`](super::read) answers on the bytes taken.
    pub reading: Reading,
    /// Registers 0, 1 and 2, all zero beside a refusal.
    pub registers: [Digest; REGISTERS],
}

// The layout that eif.h gives to a C compiler, with no padding.
#[allow(clippy::arithmetic_side_effects)] // the compiler computes these sums
const _: () = {
    assert!(size_of::<Measuring>() == size_of::<Arriving>() + 3 * size_of::<Sha384>());
    assert!(size_of::<Measuring>() == 1552 && align_of::<Measuring>() == 8);
    assert!(offset_of!(Measuring, whole) == 952 && offset_of!(Measuring, app) == 1352);
    assert!(size_of::<MeasuringFed>() == 1552 + 8 && offset_of!(MeasuringFed, count) == 1552);
    assert!(size_of::<MeasuringFinished>() == 1552 + size_of::<Reading>() + 3 * 48);
    assert!(offset_of!(MeasuringFinished, reading) == 1552);
    assert!(offset_of!(MeasuringFinished, registers) == 2376);
};

mod c {
    use super::{Measuring, MeasuringFed, MeasuringFinished};

    extern "C" {
        pub fn eif_measuring_begin() -> Measuring;
        pub fn eif_measuring_feed(
            state: Measuring,
            piece: *const u8,
            piece_length: usize,
            allowance: u64,
        ) -> MeasuringFed;
        pub fn eif_measuring_finish(state: Measuring) -> MeasuringFinished;
    }
}

/// `eif_measuring_begin`.
pub fn measuring_begin() -> Measuring {
    // SAFETY: it takes nothing.
    unsafe { c::eif_measuring_begin() }
}

/// `eif_measuring_feed`.
pub fn measuring_feed(state: Measuring, piece: &[u8], allowance: u64) -> MeasuringFed {
    // SAFETY: pointer and length are those of a slice.
    unsafe { c::eif_measuring_feed(state, piece.as_ptr(), piece.len(), allowance) }
}

/// `eif_measuring_finish`.
pub fn measuring_finish(state: Measuring) -> MeasuringFinished {
    // SAFETY: there is no pointer.
    unsafe { c::eif_measuring_finish(state) }
}

#[cfg(test)]
mod tests {
    use super::*;
    use crate::raw::bytes_of;
    use std::ptr::null;

    #[test]
    fn a_null_pointer_with_length_0_is_nothing() {
        let begun = measuring_begin();
        // SAFETY: the length is 0.
        let fed = unsafe { c::eif_measuring_feed(begun, null(), 0, u64::MAX) };
        assert_eq!((fed.count, fed.state), (0, begun));
    }

    #[test]
    fn equal_answers_have_equal_bytes() {
        let fed = [[7; 600]; 2].map(|piece| measuring_feed(measuring_begin(), &piece, 600));
        assert_eq!(bytes_of(&fed[0]), bytes_of(&fed[1]));
        let finished = fed.map(|fed| measuring_finish(fed.state));
        assert_eq!(bytes_of(&finished[0]), bytes_of(&finished[1]));
    }
}
