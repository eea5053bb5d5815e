//! The C interface to COSE_Sign1.

use super::{of_slice, Answer};
use crate::sign1::Sign1Position;
use crate::{DataLength, Digest, DIGEST_LENGTH};
use std::mem::{align_of, offset_of, size_of};

/// What a COSE_Sign1 claims.
#[repr(C)]
#[derive(Clone, Copy, Debug, Default, PartialEq, Eq)]
pub struct Sign1Claim {
    /// The algorithm's number in the COSE registry with its sign left off, 0 beside a refusal.
    pub algorithm: u64,
    /// The index of the register.
    pub register_index: u64,
    /// The value that the register is claimed to have.
    pub register_value: Digest,
}

/// What [`sign1_read`] answers.
#[repr(C)]
#[derive(Clone, Copy, Debug, Default, PartialEq, Eq)]
pub struct Sign1Reading {
    /// The answer number, 0 where the bytes are accepted.
    pub number: u8,
    /// Always 0.
    pub reserved: [u8; 7],
    /// Always 0.
    pub index: u64,
    /// Always 0.
    pub position: u64,
    /// What the bytes claim, all zero beside a refusal.
    pub claim: Sign1Claim,
    /// Where the signature begins in the bytes, 0 beside a refusal.
    pub signature_position: Sign1Position,
    /// How long the signature is, 0 beside a refusal.
    pub signature_length: DataLength,
}

// The layout that eif.h gives to a C compiler, with no padding.
#[allow(clippy::arithmetic_side_effects)] // the compiler computes these sums
const _: () = {
    assert!(size_of::<Sign1Claim>() == 8 + 8 + DIGEST_LENGTH && align_of::<Sign1Claim>() == 8);
    assert!(offset_of!(Sign1Claim, register_value) == 16);
    assert!(size_of::<Sign1Reading>() == 1 + 7 + 2 * 8 + size_of::<Sign1Claim>() + 2 * 8);
    assert!(offset_of!(Sign1Reading, claim) == 24);
};

mod c {
    use super::{Answer, Sign1Claim, Sign1Reading};

    extern "C" {
        pub fn eif_sign1_read(bytes: *const u8, bytes_length: usize) -> Sign1Reading;
        pub fn eif_sign1_write(
            claim: Sign1Claim,
            signature: *const u8,
            signature_length: usize,
            out: *mut u8,
            out_length: usize,
        ) -> Answer;
    }
}

/// `eif_sign1_read`.
pub fn sign1_read(bytes: &[u8]) -> Sign1Reading {
    of_slice(c::eif_sign1_read, bytes)
}

/// `eif_sign1_write`.
pub fn sign1_write(claim: Sign1Claim, signature: &[u8], out: &mut [u8]) -> Answer {
    // SAFETY: pointers and lengths are those of slices; `out` is borrowed for this call alone, so it overlaps
    // no input.
    unsafe {
        c::eif_sign1_write(
            claim,
            signature.as_ptr(),
            signature.len(),
            out.as_mut_ptr(),
            out.len(),
        )
    }
}

#[cfg(test)]
mod tests {
    use super::*;
    use crate::raw::bytes_of;
    use std::ptr::{null, null_mut};

    const CLAIM: Sign1Claim = Sign1Claim {
        algorithm: 35,
        register_index: u64::MAX,
        register_value: Digest([0xee; DIGEST_LENGTH]),
    };

    #[test]
    fn a_null_pointer_with_length_0_is_nothing() {
        // SAFETY: every length is 0, but for that of the signature, which is a slice's.
        unsafe {
            assert_eq!(c::eif_sign1_read(null(), 0), sign1_read(&[]));
            let written = c::eif_sign1_write(CLAIM, null(), 0, null_mut(), 0);
            assert_eq!(written.number, 28);
            let written = c::eif_sign1_write(CLAIM, [0; 96].as_ptr(), 96, null_mut(), 0);
            assert_eq!(written.number, 14);
        }
    }

    #[test]
    fn equal_answers_have_equal_bytes() {
        let mut outs = [[0; 300], [1; 300]];
        let [one, other] = outs.each_mut().map(|out| sign1_write(CLAIM, &[7; 96], out));
        assert_eq!(bytes_of(&one), bytes_of(&other));
        let readings = outs.map(|out| sign1_read(&out[..one.length as usize]));
        assert_eq!(readings[0].claim, CLAIM);
        assert_eq!(bytes_of(&readings[0]), bytes_of(&readings[1]));
        let refused = outs.map(|out| sign1_read(&out));
        assert_eq!(bytes_of(&refused[0]), bytes_of(&refused[1]));
        assert_eq!(
            [refused[0].reserved, readings[0].reserved, one.reserved],
            [[0; 7]; 3]
        );
    }
}
