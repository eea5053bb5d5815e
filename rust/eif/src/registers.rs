//! The platform's registers, as an image gives them.

use crate::{raw, Digest, Refusal, Stream, REGISTERS};
use std::fmt;

/// Registers 0, 1 and 2 of an image. They are shown as three lines, `PCR0` and the register in
/// hexadecimal, and so on.
#[derive(Clone, Copy, Debug, PartialEq, Eq, Hash)]
pub struct Registers(pub [Digest; REGISTERS]);

impl Registers {
    /// The registers' names.
    pub const NAMES: [&'static str; REGISTERS] = ["PCR0", "PCR1", "PCR2"];

    /// The register that measures a stream: 0 Whole, 1 Boot, 2 App.
    pub fn of(&self, stream: Stream) -> Digest {
        let [whole, boot, app] = self.0;
        match stream {
            Stream::Whole => whole,
            Stream::Boot => boot,
            Stream::App => app,
        }
    }

    /// The registers with their names.
    pub fn named(&self) -> impl Iterator<Item = (&'static str, Digest)> {
        Registers::NAMES.into_iter().zip(self.0)
    }
}

impl fmt::Display for Registers {
    fn fmt(&self, f: &mut fmt::Formatter<'_>) -> fmt::Result {
        let lines = self.named().map(|(name, value)| format!("{name} {value}"));
        f.write_str(&lines.collect::<Vec<_>>().join("\n"))
    }
}

/// The registers of `image` (FORMAT.md, Registers): SHA-384 of 48 zero bytes and of the SHA-384 of the
/// stream.
///
/// Each section is hashed where it lies, and the sections that Whole and Boot begin with alike are hashed
/// once.
///
/// ```
/// // What is no image has no registers.
/// assert_eq!(eif::registers(b"short").unwrap_err().number(), 2);
/// ```
///
/// # Errors
///
/// The image's own refusal.
pub fn registers(image: &[u8]) -> Result<Registers, Refusal> {
    raw::registers(image).accepted()
}
