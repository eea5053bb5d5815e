//! The C interface to writing an image in pieces.

use super::{Answer, Plan};
use crate::{Place, HEADER_LENGTH, MAX_SECTIONS};
use std::mem::{align_of, offset_of, size_of};

/// An image that is written in pieces. Any value is a state; a fresh one is [`writing_begin`]'s.
#[repr(C)]
#[derive(Clone, Copy, Debug, PartialEq, Eq)]
pub struct Writing {
    /// How many bytes of the image's header were written.
    pub header_written: u64,
    /// How many sections' own headers were written.
    pub sections_begun: u64,
    /// How many bytes of data the section begun last still needs.
    pub section_left: u64,
    /// How many bytes of data all sections together still need.
    pub data_left: u64,
    /// How many sections the plan has. Above 32 it counts as 32.
    pub count: u64,
    /// The plan's places.
    pub places: [Place; MAX_SECTIONS],
    /// The image's header, with the given number as its checksum.
    pub header: [u8; HEADER_LENGTH],
    /// The CRC-32 remainder over the header's first 544 bytes and all bytes written after the header, before the last
    /// inversion.
    pub checksum: u32,
}

/// What [`writing_begin`] answers.
#[repr(C)]
#[derive(Clone, Copy, Debug, PartialEq, Eq)]
pub struct WritingBegun {
    /// The state before the first byte; beside a refusal one that writes nothing.
    pub state: Writing,
    /// The image's length, or the refusal.
    pub answer: Answer,
}

/// What [`writing_step`] answers.
#[repr(C)]
#[derive(Clone, Copy, Debug, PartialEq, Eq)]
pub struct WritingStepped {
    /// The state after the step.
    pub state: Writing,
    /// How many bytes of the data were taken.
    pub taken: u64,
    /// How many bytes were written over the start of the output.
    pub written: u64,
}

// The layout that eif.h gives to a C compiler. Only the places have padding.
#[allow(clippy::arithmetic_side_effects)] // the compiler computes these sums
const _: () = {
    assert!(size_of::<Writing>() == 5 * 8 + MAX_SECTIONS * 16 + HEADER_LENGTH + 4);
    assert!(size_of::<Writing>() == 1104 && align_of::<Writing>() == 8);
    assert!(offset_of!(Writing, places) == 40 && offset_of!(Writing, header) == 552);
    assert!(offset_of!(Writing, checksum) == 1100);
    assert!(size_of::<WritingBegun>() == 1104 + size_of::<Answer>());
    assert!(offset_of!(WritingBegun, answer) == 1104);
    assert!(size_of::<WritingStepped>() == 1104 + 2 * 8);
    assert!(offset_of!(WritingStepped, taken) == 1104);
    assert!(offset_of!(WritingStepped, written) == 1112);
};

mod c {
    use super::{Answer, Plan, Writing, WritingBegun, WritingStepped};

    extern "C" {
        pub fn eif_writing_begin(plan: Plan, checksum: u32) -> WritingBegun;
        pub fn eif_writing_step(
            state: Writing,
            data: *const u8,
            data_length: usize,
            out: *mut u8,
            out_length: usize,
        ) -> WritingStepped;
        pub fn eif_writing_finish(state: Writing) -> Answer;
    }
}

/// `eif_writing_begin`.
pub fn writing_begin(plan: Plan, checksum: u32) -> WritingBegun {
    // SAFETY: there is no pointer.
    unsafe { c::eif_writing_begin(plan, checksum) }
}

/// `eif_writing_step`.
pub fn writing_step(state: Writing, data: &[u8], out: &mut [u8]) -> WritingStepped {
    let (room, to) = (out.len(), out.as_mut_ptr());
    // SAFETY: pointers and lengths are those of slices; `out` is borrowed for this call alone, so it overlaps no input.
    unsafe { c::eif_writing_step(state, data.as_ptr(), data.len(), to, room) }
}

/// `eif_writing_finish`.
pub fn writing_finish(state: Writing) -> Answer {
    // SAFETY: there is no pointer.
    unsafe { c::eif_writing_finish(state) }
}

#[cfg(test)]
mod tests {
    use super::*;
    use crate::{DataLength, SectionType};
    use std::ptr::{null, null_mut};

    /// A kernel and a command line of a byte each.
    fn plan() -> Plan {
        let mut plan = Plan {
            version: 2,
            count: 2,
            ..Plan::default()
        };
        plan.places[0] = Place::new(SectionType::KERNEL, DataLength(1));
        plan.places[1] = Place::new(SectionType::COMMAND_LINE, DataLength(1));
        plan
    }

    #[test]
    fn a_null_pointer_with_length_0_is_nothing() {
        let begun = writing_begin(plan(), 0);
        assert_eq!(begun.answer.length, 548 + 13 + 13);
        // SAFETY: the lengths are 0.
        let stepped = unsafe { c::eif_writing_step(begun.state, null(), 0, null_mut(), 0) };
        assert_eq!((stepped.taken, stepped.written), (0, 0));
        assert_eq!(stepped.state, begun.state);
    }

    #[test]
    fn reserved_fields_are_0() {
        let begun = writing_begin(plan(), 7);
        assert_eq!(begun.answer.reserved, [0; 7]);
        let refused = writing_begin(Plan::default(), 7);
        assert_eq!(
            (refused.answer.number, refused.answer.reserved),
            (4, [0; 7])
        );
        for state in [begun.state, refused.state] {
            let finished = writing_finish(state);
            assert_eq!((finished.number, finished.reserved), (15, [0; 7]));
            assert_eq!((finished.index, finished.position), (0, 0));
            assert_eq!(finished.length, 0);
        }
    }
}
