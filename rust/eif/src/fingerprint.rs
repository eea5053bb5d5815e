//! The fingerprint of an image: the SHA-384 of its boot roll.

use crate::raw::fingerprint::{
    fingerprinting_begin, fingerprinting_feed, fingerprinting_finish, image_fingerprint,
    FingerprintAnswer, Fingerprinting,
};
use crate::state::{over_state, while_arriving};
use crate::{Digest, Reading, Refusal, DIGEST_LENGTH};
use std::fmt;
use std::io;
use std::str::FromStr;

/// The fingerprint of an image: the SHA-384 of its boot roll (FORMAT.md, The boot roll). Images have the same
/// fingerprint if they have the same boot roll.
///
/// It is shown as 96 hexadecimal digits, and parsed from them:
///
/// ```
/// use eif::{Digest, Fingerprint};
///
/// let fingerprint = Fingerprint(Digest([0xa5; 48]));
/// assert_eq!(fingerprint.to_string(), "a5".repeat(48));
/// assert_eq!(format!("{fingerprint:x}"), "a5".repeat(48));
/// assert_eq!("A5".repeat(48).parse(), Ok(fingerprint));
/// assert!("a5".repeat(47).parse::<Fingerprint>().is_err());
/// assert!("+5".repeat(48).parse::<Fingerprint>().is_err());
/// ```
#[derive(Clone, Copy, Debug, PartialEq, Eq, PartialOrd, Ord, Hash)]
pub struct Fingerprint(pub Digest);

impl fmt::Display for Fingerprint {
    fn fmt(&self, f: &mut fmt::Formatter<'_>) -> fmt::Result {
        fmt::Display::fmt(&self.0, f)
    }
}

impl fmt::LowerHex for Fingerprint {
    fn fmt(&self, f: &mut fmt::Formatter<'_>) -> fmt::Result {
        fmt::Display::fmt(self, f)
    }
}

/// Exactly 96 hexadecimal digits, upper case or lower case.
impl FromStr for Fingerprint {
    type Err = NotFingerprint;

    fn from_str(text: &str) -> Result<Self, NotFingerprint> {
        let digit = |&byte: &u8| char::from(byte).to_digit(16);
        let digits: Option<Vec<u32>> = text.as_bytes().iter().map(digit).collect();
        let digits = digits.ok_or(NotFingerprint)?;
        let pairs = digits.chunks(2).map(|pair| match *pair {
            [high, low] => Some((high << 4 | low) as u8),
            _ => None,
        });
        let bytes: Option<Vec<u8>> = pairs.collect();
        let bytes: [u8; DIGEST_LENGTH] = bytes
            .and_then(|bytes| bytes.try_into().ok())
            .ok_or(NotFingerprint)?;
        Ok(Fingerprint(Digest(bytes)))
    }
}

/// The fingerprint of `image`. Its roll is not built: each section is hashed where it lies.
///
/// ```
/// // What is no image has no fingerprint.
/// assert_eq!(eif::fingerprint(b"short").unwrap_err().number(), 2);
/// ```
///
/// # Errors
///
/// The image's own refusal.
pub fn fingerprint(image: &[u8]) -> Result<Fingerprint, Refusal> {
    image_fingerprint(image).accepted()
}

impl FingerprintAnswer {
    /// The fingerprint, or the refusal.
    pub(crate) fn accepted(self) -> Result<Fingerprint, Refusal> {
        Refusal::check(self.number, self.index, self.position)?;
        Ok(Fingerprint(self.digest))
    }
}

/// A text that is not 96 hexadecimal digits.
#[derive(Clone, Copy, Debug, PartialEq, Eq)]
pub struct NotFingerprint;

impl fmt::Display for NotFingerprint {
    fn fmt(&self, f: &mut fmt::Formatter<'_>) -> fmt::Result {
        f.pad("a fingerprint is 96 hexadecimal digits")
    }
}

impl std::error::Error for NotFingerprint {}

/// The fingerprint of an image that arrives in pieces of any size (FORMAT.md, The boot roll). It keeps 1,152 bytes,
/// however long the file is.
///
/// ```
/// use eif::{ArrivingFingerprint, DataLength, Place, Plan, SectionType};
///
/// let places = vec![
///     Place::new(SectionType::KERNEL, DataLength(4)),
///     Place::new(SectionType::COMMAND_LINE, DataLength(5)),
/// ];
/// let plan = Plan { version: 2, places, ..Plan::default() };
/// let image = eif::write_to_vec(&plan, b"kernquiet")?;
///
/// let mut arriving = ArrivingFingerprint::new();
/// for piece in image.chunks(100) {
///     assert_eq!(arriving.feed(piece), piece.len());
/// }
/// let (reading, fingerprint) = arriving.finish()?;
/// assert_eq!(reading.sections().len(), 2);
/// assert_eq!(fingerprint, eif::fingerprint(&image)?);
/// # Ok::<(), eif::Refusal>(())
/// ```
///
/// It is a [`Write`](io::Write), so a file can be copied into it, as into an [`Arriving`](crate::Arriving). For registers
/// and fingerprint in one pass, feed the same bytes to an [`ArrivingRegisters`](crate::ArrivingRegisters) too; each computes
/// the checksum of its own.
#[derive(Clone, Debug, PartialEq, Eq)]
pub struct ArrivingFingerprint(Fingerprinting);

impl ArrivingFingerprint {
    /// No byte taken yet.
    pub fn new() -> Self {
        ArrivingFingerprint(fingerprinting_begin())
    }

    /// Ends the file. The answer is the reading that [`read`](crate::read) gives of the bytes taken, and their
    /// [`fingerprint`](fingerprint()). Ending again gives the same.
    ///
    /// # Errors
    ///
    /// The first of 1 to 13 and 20 that applies, in the order of reading.
    pub fn finish(&mut self) -> Result<(Reading, Fingerprint), Refusal> {
        let finished = fingerprinting_finish(self.0);
        self.0 = finished.state;
        let reading = Reading::accepted(finished.reading)?;
        Ok((reading, Fingerprint(finished.digest)))
    }
}

over_state!(ArrivingFingerprint, Fingerprinting);
while_arriving!(ArrivingFingerprint, fingerprinting_feed);
