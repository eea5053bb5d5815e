//! The C interface to writing an image with one section replaced in pieces.

use super::writing::Writing;
use super::Answer;
use std::mem::{align_of, offset_of, size_of};

/// An image with one section replaced that is written in pieces. Any value is a state; a fresh one is
/// [`staged_writing_begin`]'s.
#[repr(C)]
#[derive(Clone, Copy, Debug, PartialEq, Eq)]
pub struct StagedWriting {
    /// What is still to be written.
    pub writing: Writing,
    /// The replaced section's number; 0 beside a refusal.
    pub replaced: u64,
}

/// What [`staged_writing_begin`] answers.
#[repr(C)]
#[derive(Clone, Copy, Debug, PartialEq, Eq)]
pub struct StagedWritingBegun {
    /// The state before the first byte; beside a refusal one that writes nothing.
    pub state: StagedWriting,
    /// The length of the image written afresh, or the refusal.
    pub answer: Answer,
}

/// What [`staged_writing_step`] answers.
#[repr(C)]
#[derive(Clone, Copy, Debug, PartialEq, Eq)]
pub struct StagedWritingStepped {
    /// The state after the step.
    pub state: StagedWriting,
    /// How many bytes were written over the start of the output.
    pub written: u64,
}

// The layout that eif.h gives to a C compiler. Only places have padding.
#[allow(clippy::arithmetic_side_effects)] // the compiler computes these sums
const _: () = {
    assert!(size_of::<StagedWriting>() == size_of::<Writing>() + 8);
    assert!(size_of::<StagedWriting>() == 1112 && align_of::<StagedWriting>() == 8);
    assert!(offset_of!(StagedWriting, replaced) == 1104);
    assert!(size_of::<StagedWritingBegun>() == 1112 + size_of::<Answer>());
    assert!(offset_of!(StagedWritingBegun, answer) == 1112);
    assert!(size_of::<StagedWritingStepped>() == 1112 + 8);
    assert!(offset_of!(StagedWritingStepped, written) == 1112);
};

mod c {
    use super::{Answer, StagedWriting, StagedWritingBegun, StagedWritingStepped};

    extern "C" {
        pub fn eif_staged_writing_begin(
            base: *const u8,
            base_length: usize,
            replacement: *const u8,
            replacement_length: usize,
            replaced: u64,
            checksum: u32,
        ) -> StagedWritingBegun;
        pub fn eif_staged_writing_step(
            state: StagedWriting,
            base: *const u8,
            base_length: usize,
            replacement: *const u8,
            replacement_length: usize,
            out: *mut u8,
            out_length: usize,
        ) -> StagedWritingStepped;
        pub fn eif_staged_writing_finish(state: StagedWriting) -> Answer;
    }
}

/// `eif_staged_writing_begin`.
pub fn staged_writing_begin(
    base: &[u8],
    replacement: &[u8],
    replaced: u64,
    checksum: u32,
) -> StagedWritingBegun {
    let (bytes, length) = (replacement.as_ptr(), replacement.len());
    // SAFETY: pointers and lengths are those of slices, here and below.
    unsafe {
        c::eif_staged_writing_begin(base.as_ptr(), base.len(), bytes, length, replaced, checksum)
    }
}

/// `eif_staged_writing_step`.
pub fn staged_writing_step(
    state: StagedWriting,
    base: &[u8],
    replacement: &[u8],
    out: &mut [u8],
) -> StagedWritingStepped {
    // SAFETY: as above; `out` is borrowed for this call alone, so it overlaps no input.
    unsafe {
        c::eif_staged_writing_step(
            state,
            base.as_ptr(),
            base.len(),
            replacement.as_ptr(),
            replacement.len(),
            out.as_mut_ptr(),
            out.len(),
        )
    }
}

/// `eif_staged_writing_finish`.
pub fn staged_writing_finish(state: StagedWriting) -> Answer {
    // SAFETY: there is no pointer.
    unsafe { c::eif_staged_writing_finish(state) }
}

#[cfg(test)]
mod tests {
    use super::*;
    use std::ptr::{null, null_mut};

    #[test]
    fn a_null_pointer_with_length_0_is_nothing() {
        // SAFETY: the lengths are 0.
        let begun = unsafe { c::eif_staged_writing_begin(null(), 0, null(), 0, 0, 7) };
        assert_eq!(begun, staged_writing_begin(&[], &[], 0, 7));
        assert_eq!((begun.answer.number, begun.answer.reserved), (2, [0; 7]));
        assert_eq!(begun.state.replaced, 0);
        // SAFETY: the lengths are 0.
        let stepped =
            unsafe { c::eif_staged_writing_step(begun.state, null(), 0, null(), 0, null_mut(), 0) };
        assert_eq!((stepped.written, stepped.state), (0, begun.state));
        let finished = staged_writing_finish(begun.state);
        assert_eq!((finished.number, finished.reserved), (15, [0; 7]));
    }
}
