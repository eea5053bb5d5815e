//! Whether bytes are one JSON text: RFC 8259 in UTF-8 (FORMAT.md, JSON texts).

use crate::raw;
use std::error::Error;
use std::fmt;

/// The most arrays or objects that a text may have open at once.
pub const MAX_DEPTH: usize = 32;

/// Where bytes stop being a JSON text. It is shown as `byte 12: no such text can have 0x2c here`, or at the
/// end as `byte 17: the text ends too early`.
#[derive(Clone, Copy, Debug, PartialEq, Eq, Hash)]
pub struct Fault {
    place: usize,
    byte: Option<u8>,
}

/// Whether `text` is exactly one JSON text in UTF-8, with at most [`MAX_DEPTH`] arrays or objects open at
/// once.
///
/// ```
/// use eif::json;
///
/// assert_eq!(json::check(br#" {"name": "river", "steps": [1, 2.5e-3]} "#), Ok(()));
///
/// let fault = json::check(br#"{"a": 1,, "b": 2}"#).unwrap_err();
/// assert_eq!((fault.place(), fault.byte()), (8, Some(b',')));
/// assert_eq!(fault.to_string(), "byte 8: no such text can have 0x2c here");
///
/// let cut = json::check(br#"{"a": [1, 2"#).unwrap_err();
/// assert_eq!((cut.place(), cut.byte()), (11, None));
/// assert_eq!(cut.to_string(), "byte 11: the text ends too early");
/// ```
///
/// # Errors
///
/// The place of the first byte that no such text can have after the bytes before it or, where there is
/// none, the end.
pub fn check(text: &[u8]) -> Result<(), Fault> {
    let answer = raw::json_check(text);
    if answer.is_text != 0 {
        return Ok(());
    }
    // No more than the text's length.
    let place = answer.place as usize;
    let byte = text.get(place).copied();
    Err(Fault { place, byte })
}

impl Fault {
    /// The place, counted from the text's start: of the first byte that no such text can have after the
    /// bytes before it, or the text's length where it only ends too early.
    pub fn place(&self) -> usize {
        self.place
    }

    /// The byte that stands there; none at the text's end.
    pub fn byte(&self) -> Option<u8> {
        self.byte
    }
}

impl fmt::Display for Fault {
    fn fmt(&self, f: &mut fmt::Formatter<'_>) -> fmt::Result {
        let place = self.place;
        match self.byte {
            Some(byte) => write!(f, "byte {place}: no such text can have {byte:#04x} here"),
            None => write!(f, "byte {place}: the text ends too early"),
        }
    }
}

impl Error for Fault {}
