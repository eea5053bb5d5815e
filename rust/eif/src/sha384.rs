//! SHA-384.

use crate::state::over_state;
use crate::{raw, Refusal, DIGEST_LENGTH};
use std::fmt;

/// A SHA-384 digest. It is shown in hexadecimal.
#[repr(C)]
#[derive(Clone, Copy, PartialEq, Eq, PartialOrd, Ord, Hash)]
pub struct Digest(pub [u8; DIGEST_LENGTH]);

/// All zero.
impl Default for Digest {
    fn default() -> Self {
        Digest([0; DIGEST_LENGTH])
    }
}

impl fmt::Display for Digest {
    fn fmt(&self, f: &mut fmt::Formatter<'_>) -> fmt::Result {
        self.0.iter().try_for_each(|byte| write!(f, "{byte:02x}"))
    }
}

impl fmt::Debug for Digest {
    fn fmt(&self, f: &mut fmt::Formatter<'_>) -> fmt::Result {
        write!(f, "Digest({self})")
    }
}

/// SHA-384 (FIPS 180-4) of bytes that come in pieces of any size (FORMAT.md, Registers).
///
/// ```
/// use eif::Sha384;
///
/// let mut hash = Sha384::new();
/// hash.update(b"a")?;
/// let begun = hash.clone();
/// hash.update(b"bc")?;
/// assert!(hash.finish().to_string().starts_with("cb00753f45a35e8bb5a03d699ac65007"));
/// // A copy goes on from where it was taken.
/// assert!(begun.finish().to_string().starts_with("54a59b9f22b0b80880d8427e548b7c23"));
/// # Ok::<(), eif::Refusal>(())
/// ```
#[derive(Clone, Debug, PartialEq, Eq)]
pub struct Sha384(raw::Sha384);

impl Sha384 {
    /// Nothing taken yet.
    pub fn new() -> Self {
        Sha384(raw::sha384_begin())
    }

    /// Takes a piece.
    ///
    /// # Errors
    ///
    /// 29 where all pieces together would be more than [`MAX_MESSAGE_LENGTH`](crate::MAX_MESSAGE_LENGTH)
    /// bytes. The piece is then not taken.
    pub fn update(&mut self, piece: &[u8]) -> Result<(), Refusal> {
        let fed = raw::sha384_update(self.0, piece);
        self.0 = fed.state;
        Refusal::check(fed.number, fed.index, fed.position)
    }

    /// The digest of all pieces taken, joined.
    pub fn finish(self) -> Digest {
        raw::sha384_finish(self.0)
    }
}

over_state!(Sha384, raw::Sha384);
