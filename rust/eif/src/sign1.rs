//! COSE_Sign1: what a signature of an image claims (FORMAT.md, Signatures).
//!
//! One COSE_Sign1 of a signature section names an algorithm, a register and the value that the register
//! has, and carries a signature. It is read and written here, and **never verified**: that bytes are
//! accepted means that they are of the form, and not that anybody signed them.
//!
//! The form has no choices, so there is one byte string for each claim and signature. What is written reads
//! back, and what is accepted is what would be written.
//!
//! ```
//! use eif::sign1::{self, Algorithm, Claim};
//!
//! let claim = Claim {
//!     algorithm: Algorithm::Es384,
//!     register_index: 0,
//!     register_value: eif::Digest([7; eif::DIGEST_LENGTH]),
//! };
//! let mut bytes = [0; sign1::MAX_LENGTH];
//! let length = sign1::write(&claim, &[1; 96], &mut bytes)?;
//!
//! let read = sign1::read(&bytes[..length])?;
//! assert_eq!(read.claim, claim);
//! assert_eq!(read.signature, [1; 96]);
//!
//! // A byte after the end, and a signature that is not of the algorithm's length.
//! assert_eq!(sign1::read(&bytes[..length + 1]).unwrap_err().number(), 28);
//! assert_eq!(sign1::to_vec(&claim, &[1; 95]).unwrap_err().number(), 28);
//! # Ok::<(), eif::Refusal>(())
//! ```

use crate::image::part_of;
use crate::raw::sign1 as raw;
use crate::{Digest, Reason, Refusal};
use std::fmt;

/// The length of the longest COSE_Sign1 of this form. A buffer of this length takes any.
pub const MAX_LENGTH: usize = 281;

/// A position in a COSE_Sign1, from its first byte.
#[repr(transparent)]
#[derive(Clone, Copy, Debug, Default, PartialEq, Eq, PartialOrd, Ord, Hash)]
pub struct Sign1Position(pub u64);

/// The algorithms that may sign: ECDSA with SHA-2.
///
/// ```
/// use eif::sign1::Algorithm;
///
/// assert_eq!(Algorithm::Es384.number(), -35);
/// assert_eq!(Algorithm::Es384.signature_length(), 96);
/// assert_eq!(Algorithm::Es384.to_string(), "ES384");
/// ```
#[derive(Clone, Copy, Debug, PartialEq, Eq, PartialOrd, Ord, Hash)]
pub enum Algorithm {
    /// ECDSA with SHA-256, -7 in the COSE registry.
    Es256 = 7,
    /// ECDSA with SHA-384, -35.
    Es384 = 35,
    /// ECDSA with SHA-512, -36.
    Es512 = 36,
}

impl Algorithm {
    /// All of them.
    pub const ALL: [Algorithm; 3] = [Algorithm::Es256, Algorithm::Es384, Algorithm::Es512];

    /// Its number in the COSE registry, which is negative.
    pub fn number(self) -> i8 {
        match self {
            Algorithm::Es256 => -7,
            Algorithm::Es384 => -35,
            Algorithm::Es512 => -36,
        }
    }

    /// Its name in the COSE registry.
    pub fn name(self) -> &'static str {
        match self {
            Algorithm::Es256 => "ES256",
            Algorithm::Es384 => "ES384",
            Algorithm::Es512 => "ES512",
        }
    }

    /// How long its signatures are.
    pub fn signature_length(self) -> usize {
        match self {
            Algorithm::Es256 => 64,
            Algorithm::Es384 => 96,
            Algorithm::Es512 => 132,
        }
    }

    /// The algorithm with this number, its sign left off. The library accepts no other.
    fn from_raw(number: u64) -> Option<Algorithm> {
        let mut known = Algorithm::ALL.into_iter();
        known.find(|&algorithm| algorithm as u64 == number)
    }
}

impl fmt::Display for Algorithm {
    fn fmt(&self, f: &mut fmt::Formatter<'_>) -> fmt::Result {
        f.pad(self.name())
    }
}

/// What a COSE_Sign1 claims: that a register has a value.
#[derive(Clone, Copy, Debug, PartialEq, Eq, Hash)]
pub struct Claim {
    /// By which algorithm it is said to be signed.
    pub algorithm: Algorithm,
    /// Which register. Any number will do; an image gives registers 0, 1 and 2.
    pub register_index: u64,
    /// The value that the register is claimed to have.
    pub register_value: Digest,
}

impl Claim {
    fn to_raw(self) -> raw::Sign1Claim {
        raw::Sign1Claim {
            algorithm: self.algorithm as u64,
            register_index: self.register_index,
            register_value: self.register_value,
        }
    }
}

/// An accepted COSE_Sign1: its claim, and its signature, borrowed and not verified.
#[derive(Clone, Copy, Debug, PartialEq, Eq)]
pub struct Sign1<'a> {
    /// What it claims.
    pub claim: Claim,
    /// The signature.
    pub signature: &'a [u8],
}

/// Reads one COSE_Sign1 and nothing after it.
///
/// # Errors
///
/// 28 where the bytes are anything else.
pub fn read(bytes: &[u8]) -> Result<Sign1<'_>, Refusal> {
    let reading = raw::sign1_read(bytes);
    Refusal::check(reading.number, reading.index, reading.position)?;
    match accepted(bytes, reading) {
        Some(parts) => Ok(parts),
        None => Err(Refusal::of(Reason::NotSign1)),
    }
}

/// The parts of accepted bytes. None, which is then refused by 28, if the answer names another algorithm or bytes that
/// are not there; the library accepts neither.
fn accepted(bytes: &[u8], reading: raw::Sign1Reading) -> Option<Sign1<'_>> {
    let claim = Claim {
        algorithm: Algorithm::from_raw(reading.claim.algorithm)?,
        register_index: reading.claim.register_index,
        register_value: reading.claim.register_value,
    };
    let start = reading.signature_position.0;
    let signature = part_of(bytes, start, reading.signature_length)?;
    Some(Sign1 { claim, signature })
}

/// Writes the COSE_Sign1 of a claim and its signature over the start of `out` and answers its length. Bytes of
/// `out` past it stay. The signature is carried as it is.
///
/// # Errors
///
/// 28 where the signature is not as long as those of the claim's algorithm, then 14 where `out` is too short.
/// `out` is then unchanged.
pub fn write(claim: &Claim, signature: &[u8], out: &mut [u8]) -> Result<usize, Refusal> {
    raw::sign1_write(claim.to_raw(), signature, out).accepted_part()
}

/// The COSE_Sign1 of a claim and its signature.
///
/// # Errors
///
/// 28 where the signature is not as long as those of the claim's algorithm.
pub fn to_vec(claim: &Claim, signature: &[u8]) -> Result<Vec<u8>, Refusal> {
    let mut bytes = vec![0; MAX_LENGTH];
    let length = write(claim, signature, &mut bytes)?;
    bytes.truncate(length);
    Ok(bytes)
}
