//! The C interface to a base with one section replaced.

use super::fingerprint::FingerprintAnswer;
use super::{Answer, RegistersAnswer};
use crate::DataLength;
use std::mem::{align_of, offset_of, size_of};

/// What [`staged_part`] answers.
#[repr(C)]
#[derive(Clone, Copy, Debug, Default, PartialEq, Eq)]
pub struct StagedPart {
    /// The answer number, 0 for acceptance.
    pub number: u8,
    /// 1 where the data is the replacement, whole; 0 where it is a part of the base, and beside a refusal.
    pub in_replacement: u8,
    /// Always 0.
    pub reserved: [u8; 6],
    /// The index beside a refusal.
    pub index: u64,
    /// Where in the base what is at fault stands, beside a refusal.
    pub position: u64,
    /// Where the data begins, in the base or, as 0, in the replacement; 0 beside a refusal.
    pub start: u64,
    /// How many bytes of data there are, 0 beside a refusal.
    pub length: DataLength,
}

// The layout that eif.h gives to a C compiler, with no padding.
const _: () = {
    assert!(size_of::<StagedPart>() == 1 + 1 + 6 + 4 * 8 && align_of::<StagedPart>() == 8);
    assert!(offset_of!(StagedPart, in_replacement) == 1 && offset_of!(StagedPart, index) == 8);
    assert!(offset_of!(StagedPart, start) == 24 && offset_of!(StagedPart, length) == 32);
};

mod c {
    use super::{Answer, FingerprintAnswer, RegistersAnswer, StagedPart};

    extern "C" {
        pub fn eif_staged_part(
            base: *const u8,
            base_length: usize,
            replacement_length: u64,
            replaced: u64,
            shown: u64,
        ) -> StagedPart;
        pub fn eif_staged_roll_write(
            base: *const u8,
            base_length: usize,
            replacement: *const u8,
            replacement_length: usize,
            replaced: u64,
            out: *mut u8,
            out_length: usize,
        ) -> Answer;
        pub fn eif_staged_roll_length(
            base: *const u8,
            base_length: usize,
            replacement: *const u8,
            replacement_length: usize,
            replaced: u64,
        ) -> Answer;
        pub fn eif_staged_registers(
            base: *const u8,
            base_length: usize,
            replacement: *const u8,
            replacement_length: usize,
            replaced: u64,
        ) -> RegistersAnswer;
        pub fn eif_staged_fingerprint(
            base: *const u8,
            base_length: usize,
            replacement: *const u8,
            replacement_length: usize,
            replaced: u64,
        ) -> FingerprintAnswer;
    }
}

/// `eif_staged_part`.
pub fn staged_part(base: &[u8], replacement_length: u64, replaced: u64, shown: u64) -> StagedPart {
    // SAFETY: pointer and length are those of a slice, here and below.
    unsafe {
        c::eif_staged_part(
            base.as_ptr(),
            base.len(),
            replacement_length,
            replaced,
            shown,
        )
    }
}

/// `eif_staged_roll_write`.
pub fn staged_roll_write(base: &[u8], replacement: &[u8], replaced: u64, out: &mut [u8]) -> Answer {
    // SAFETY: as above; `out` is borrowed for this call alone, so it overlaps no input.
    unsafe {
        c::eif_staged_roll_write(
            base.as_ptr(),
            base.len(),
            replacement.as_ptr(),
            replacement.len(),
            replaced,
            out.as_mut_ptr(),
            out.len(),
        )
    }
}

type StagedCall<T> = unsafe extern "C" fn(*const u8, usize, *const u8, usize, u64) -> T;

/// A call that takes a base, a replacement and the number of the replaced section.
fn of_base<T>(call: StagedCall<T>, base: &[u8], replacement: &[u8], replaced: u64) -> T {
    let (bytes, length) = (replacement.as_ptr(), replacement.len());
    // SAFETY: as above.
    unsafe { call(base.as_ptr(), base.len(), bytes, length, replaced) }
}

/// `eif_staged_roll_length`.
pub fn staged_roll_length(base: &[u8], replacement: &[u8], replaced: u64) -> Answer {
    of_base(c::eif_staged_roll_length, base, replacement, replaced)
}

/// `eif_staged_registers`.
pub fn staged_registers(base: &[u8], replacement: &[u8], replaced: u64) -> RegistersAnswer {
    of_base(c::eif_staged_registers, base, replacement, replaced)
}

/// `eif_staged_fingerprint`.
pub fn staged_fingerprint(base: &[u8], replacement: &[u8], replaced: u64) -> FingerprintAnswer {
    of_base(c::eif_staged_fingerprint, base, replacement, replaced)
}

#[cfg(test)]
mod tests {
    use super::*;
    use crate::{DataLength, Place, Plan, SectionType};
    use std::ptr::{null, null_mut};

    /// A kernel and a command line of a byte each.
    fn base() -> Vec<u8> {
        let places = [SectionType::KERNEL, SectionType::COMMAND_LINE];
        let plan = Plan {
            version: 2,
            places: places.map(|kind| Place::new(kind, DataLength(1))).to_vec(),
            ..Plan::default()
        };
        crate::write_to_vec(&plan, b"kc").expect("an image")
    }

    #[test]
    fn a_null_pointer_with_length_0_is_nothing() {
        let base = base();
        let (start, length) = (base.as_ptr(), base.len());
        // SAFETY: pointer and length are those of a slice, or the length is 0.
        unsafe {
            assert_eq!(c::eif_staged_part(null(), 0, 0, 0, 0).number, 2);
            let written = c::eif_staged_roll_write(null(), 0, null(), 0, 0, null_mut(), 0);
            assert_eq!(written.number, 2);
            let written = c::eif_staged_roll_write(start, length, null(), 0, 1, null_mut(), 0);
            assert_eq!(written.number, 14);
            let found = c::eif_staged_roll_length(start, length, null(), 0, 1);
            assert_eq!(found, staged_roll_length(&base, &[], 1));
            let measured = c::eif_staged_registers(start, length, null(), 0, 1);
            assert_eq!(measured, staged_registers(&base, &[], 1));
            let fingerprint = c::eif_staged_fingerprint(start, length, null(), 0, 1);
            assert_eq!(fingerprint, staged_fingerprint(&base, &[], 1));
        }
    }

    #[test]
    fn reserved_fields_are_0() {
        let base = base();
        for replaced in [1, 2] {
            assert_eq!(staged_part(&base, 3, replaced, 0).reserved, [0; 6]);
            let answers = [
                staged_roll_length(&base, b"new", replaced),
                staged_roll_write(&base, b"new", replaced, &mut [0; 60]),
                staged_roll_write(&base, b"new", replaced, &mut []),
            ];
            assert_eq!(answers.map(|answer| answer.reserved), [[0; 7]; 3]);
            let measured = staged_registers(&base, b"new", replaced);
            assert_eq!(measured.reserved, [0; 7]);
            let fingerprint = staged_fingerprint(&base, b"new", replaced);
            assert_eq!(fingerprint.reserved, [0; 7]);
        }
    }
}
