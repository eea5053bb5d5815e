//! The C interface to the fingerprint of an image.

use super::{Arriving, Reading, Sha384};
use crate::Digest;
use std::mem::{align_of, offset_of, size_of};

/// What [`image_fingerprint`] and [`staged_fingerprint`](super::staged::staged_fingerprint) answer.
#[repr(C)]
#[derive(Clone, Copy, Debug, Default, PartialEq, Eq)]
pub struct FingerprintAnswer {
    /// The answer number, 0 where the image is accepted.
    pub number: u8,
    /// Always 0.
    pub reserved: [u8; 7],
    /// The index beside a refusal.
    pub index: u64,
    /// Where what is at fault stands, beside a refusal.
    pub position: u64,
    /// The fingerprint, zero beside a refusal.
    pub digest: Digest,
}

/// An image that arrives in pieces and is fingerprinted. Any value is a state; a fresh one is
/// [`fingerprinting_begin`]'s.
#[repr(C)]
#[derive(Clone, Copy, Debug, PartialEq, Eq)]
pub struct Fingerprinting {
    /// What is kept of the bytes taken.
    pub arriving: Arriving,
    /// The digest of the boot roll so far.
    pub roll: Sha384,
}

/// What [`fingerprinting_feed`] answers.
#[repr(C)]
#[derive(Clone, Copy, Debug, PartialEq, Eq)]
pub struct FingerprintingFed {
    /// The state after the call.
    pub state: Fingerprinting,
    /// How many bytes of the piece were taken.
    pub count: u64,
}

/// What [`fingerprinting_finish`] answers.
#[repr(C)]
#[derive(Clone, Copy, Debug, PartialEq, Eq)]
pub struct FingerprintingFinished {
    /// The state as it was, with its end announced.
    pub state: Fingerprinting,
    /// What [`read`](super::read) answers on the bytes taken.
    pub reading: Reading,
    /// The fingerprint, zero beside a refusal.
    pub digest: Digest,
}

// The layout that eif.h gives to a C compiler, with no padding.
#[allow(clippy::arithmetic_side_effects)] // the compiler computes these sums
const _: () = {
    assert!(size_of::<FingerprintAnswer>() == 1 + 7 + 8 + 8 + 48);
    assert!(offset_of!(FingerprintAnswer, digest) == 24);
    assert!(size_of::<Fingerprinting>() == size_of::<Arriving>() + size_of::<Sha384>());
    assert!(size_of::<Fingerprinting>() == 1152 && align_of::<Fingerprinting>() == 8);
    assert!(offset_of!(Fingerprinting, roll) == 952);
    assert!(size_of::<FingerprintingFed>() == 1152 + 8);
    assert!(offset_of!(FingerprintingFed, count) == 1152);
    assert!(size_of::<FingerprintingFinished>() == 1152 + size_of::<Reading>() + 48);
    assert!(offset_of!(FingerprintingFinished, reading) == 1152);
    assert!(offset_of!(FingerprintingFinished, digest) == 1976);
};

mod c {
    use super::{FingerprintAnswer, Fingerprinting, FingerprintingFed, FingerprintingFinished};

    extern "C" {
        pub fn eif_image_fingerprint(image: *const u8, image_length: usize) -> FingerprintAnswer;
        pub fn eif_fingerprinting_begin() -> Fingerprinting;
        pub fn eif_fingerprinting_feed(
            state: Fingerprinting,
            piece: *const u8,
            piece_length: usize,
            allowance: u64,
        ) -> FingerprintingFed;
        pub fn eif_fingerprinting_finish(state: Fingerprinting) -> FingerprintingFinished;
    }
}

/// `eif_image_fingerprint`.
pub fn image_fingerprint(image: &[u8]) -> FingerprintAnswer {
    super::of_slice(c::eif_image_fingerprint, image)
}

/// `eif_fingerprinting_begin`.
pub fn fingerprinting_begin() -> Fingerprinting {
    // SAFETY: it takes nothing.
    unsafe { c::eif_fingerprinting_begin() }
}

/// `eif_fingerprinting_feed`.
pub fn fingerprinting_feed(
    state: Fingerprinting,
    piece: &[u8],
    allowance: u64,
) -> FingerprintingFed {
    // SAFETY: pointer and length are those of a slice.
    unsafe { c::eif_fingerprinting_feed(state, piece.as_ptr(), piece.len(), allowance) }
}

/// `eif_fingerprinting_finish`.
pub fn fingerprinting_finish(state: Fingerprinting) -> FingerprintingFinished {
    // SAFETY: there is no pointer.
    unsafe { c::eif_fingerprinting_finish(state) }
}

#[cfg(test)]
mod tests {
    use super::*;
    use crate::raw::bytes_of;
    use std::ptr::null;

    #[test]
    fn a_null_pointer_with_length_0_is_nothing() {
        let begun = fingerprinting_begin();
        // SAFETY: the length is 0.
        let fed = unsafe { c::eif_fingerprinting_feed(begun, null(), 0, u64::MAX) };
        assert_eq!((fed.count, fed.state), (0, begun));
        // SAFETY: the length is 0.
        let none = unsafe { c::eif_image_fingerprint(null(), 0) };
        assert_eq!((none.number, none), (2, image_fingerprint(&[])));
    }

    #[test]
    fn equal_answers_have_equal_bytes() {
        let fed =
            [[7; 600]; 2].map(|piece| fingerprinting_feed(fingerprinting_begin(), &piece, 600));
        assert_eq!(bytes_of(&fed[0]), bytes_of(&fed[1]));
        let finished = fed.map(|fed| fingerprinting_finish(fed.state));
        assert_eq!(bytes_of(&finished[0]), bytes_of(&finished[1]));
        let answers = [[7; 600]; 2].map(|image| image_fingerprint(&image));
        assert_eq!(bytes_of(&answers[0]), bytes_of(&answers[1]));
        assert_eq!(answers[0].reserved, [0; 7]);
    }
}
