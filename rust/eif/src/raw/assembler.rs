//! The C interface to the assembler of an image from pieces.

use std::mem::{align_of, offset_of, size_of};

/// A transfer. Any value whatever is one; a fresh one is [`assembler_new`]'s.
#[repr(C)]
#[derive(Clone, Copy, Debug, Default, PartialEq, Eq)]
pub struct State {
    /// 0 where no transfer is open. A call makes it 1; any other value counts as open.
    pub opened: u64,
    /// The image length that the open record announced, otherwise 0.
    pub length: u64,
    /// The image buffer's length at open, otherwise 0.
    pub room: u64,
    /// The mark buffer's length at open, otherwise 0.
    pub places: u64,
}

/// What [`assembler_step`] answers.
#[repr(C)]
#[derive(Clone, Copy, Debug, Default, PartialEq, Eq)]
pub struct Stepped {
    /// The answer number, 0 where the record is taken.
    pub number: u8,
    /// Always 0.
    pub reserved: [u8; 7],
    /// Always 0.
    pub index: u64,
    /// Always 0.
    pub position: u64,
    /// The state after the record; beside a refusal the state as it was.
    pub state: State,
    /// The image length where a close record is taken, otherwise 0.
    pub length: u64,
}

// The layout that eif.h gives to a C compiler, with no padding.
#[allow(clippy::arithmetic_side_effects)] // the compiler computes these sums
const _: () = {
    assert!(size_of::<State>() == 4 * 8 && align_of::<State>() == 8);
    assert!(offset_of!(State, room) == 16);
    assert!(size_of::<Stepped>() == 1 + 7 + 2 * 8 + size_of::<State>() + 8);
    assert!(offset_of!(Stepped, state) == 24 && offset_of!(Stepped, length) == 56);
};

mod c {
    use super::{State, Stepped};

    extern "C" {
        pub fn eif_assembler_new() -> State;
        pub fn eif_assembler_step(
            state: State,
            sent: *const u8,
            sent_length: usize,
            image: *mut u8,
            image_length: usize,
            marks: *mut u8,
            marks_length: usize,
        ) -> Stepped;
    }
}

/// `eif_assembler_new`.
pub fn assembler_new() -> State {
    // SAFETY: it takes nothing.
    unsafe { c::eif_assembler_new() }
}

/// `eif_assembler_step`.
pub fn assembler_step(state: State, sent: &[u8], image: &mut [u8], marks: &mut [u8]) -> Stepped {
    // SAFETY: pointers and lengths are those of slices; both buffers are borrowed for this call alone, so they
    // overlap neither the record nor each other.
    unsafe {
        c::eif_assembler_step(
            state,
            sent.as_ptr(),
            sent.len(),
            image.as_mut_ptr(),
            image.len(),
            marks.as_mut_ptr(),
            marks.len(),
        )
    }
}

#[cfg(test)]
mod tests {
    use super::*;
    use crate::raw::bytes_of;
    use std::ptr::{null, null_mut};

    #[test]
    fn a_null_pointer_with_length_0_is_nothing() {
        let open = crate::assembler::open_record(0);
        let close = crate::assembler::close_record();
        // SAFETY: every length is 0, but for those of records, which are slices'.
        let step = |state, sent: &[u8]| unsafe {
            c::eif_assembler_step(
                state,
                sent.as_ptr(),
                sent.len(),
                null_mut(),
                0,
                null_mut(),
                0,
            )
        };
        let opened = step(assembler_new(), &open);
        assert_eq!((opened.number, opened.state.opened), (0, 1));
        let closed = step(opened.state, &close);
        assert_eq!((closed.number, closed.state), (0, assembler_new()));
        // SAFETY: every length is 0.
        let nothing =
            unsafe { c::eif_assembler_step(opened.state, null(), 0, null_mut(), 0, null_mut(), 0) };
        assert_eq!((nothing.number, nothing.state), (22, opened.state));
    }

    #[test]
    fn equal_answers_have_equal_bytes() {
        let open = crate::assembler::open_record(1);
        let [one, other] = [0, 1]
            .map(|fill| assembler_step(assembler_new(), &open, &mut [fill; 1], &mut [fill; 1]));
        assert_eq!(bytes_of(&one), bytes_of(&other));
        let [one, other] =
            [0, 1].map(|fill| assembler_step(one.state, &open, &mut [fill; 1], &mut [fill; 1]));
        assert_eq!((one.number, bytes_of(&one)), (23, bytes_of(&other)));
    }
}
