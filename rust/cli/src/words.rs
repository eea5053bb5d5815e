//! Words that subcommands share. What a refusal means, what stands at its position and what to do about it
//! are the library's words.

use eif::{Architecture, Refusal};
use std::ffi::{OsStr, OsString};
use std::os::unix::ffi::{OsStrExt, OsStringExt};

/// A file's name as it is printed: its bytes, with `?` for those that would begin a line of their own or
/// steer a terminal.
pub fn shown(name: &OsStr) -> Vec<u8> {
    let printed = |&byte: &u8| if byte.is_ascii_control() { b'?' } else { byte };
    name.as_bytes().iter().map(printed).collect()
}

/// The same as text, for messages about the command line.
pub fn shown_text(word: &OsStr) -> String {
    String::from_utf8_lossy(&shown(word)).into_owned()
}

/// `NAME: text`.
pub fn about(name: &OsStr, text: &str) -> Vec<u8> {
    [&shown(name)[..], b": ", text.as_bytes()].concat()
}

/// An image's refusal, what stands at its position and what to do about it, a line for each.
pub fn refusal(name: &OsStr, refusal: &Refusal) -> Vec<u8> {
    let place = refusal.place_in_image();
    about(name, &lines("  ", refusal, place))
}

/// The same of a roll, as a file is told of that is no image.
pub fn roll_refusal(refusal: &Refusal, roll: &[u8]) -> String {
    let lines = lines("    ", refusal, refusal.place_in_roll(roll));
    format!("  as a boot roll: {lines}")
}

/// `BASE with section 3 replaced by FILE`: what is told of a base with one section replaced.
pub fn staged(base: &OsStr, index: usize, replacement: &OsStr) -> OsString {
    let words = format!(" with section {index} replaced by ");
    OsString::from_vec([base.as_bytes(), words.as_bytes(), replacement.as_bytes()].concat())
}

/// A refusal of the image that would be written of it, and what to do.
pub fn staged_refusal(name: &OsStr, refusal: &Refusal) -> Vec<u8> {
    about(name, &lines("  ", refusal, None))
}

/// A refusal, what stands at its position where its number has a place in the file, and what to do:
/// `byte 44: the table's offset entry of section 2`.
fn lines(indent: &str, refusal: &Refusal, place: Option<String>) -> String {
    let position = refusal.position();
    let place = place.map(|place| format!("{indent}byte {position}: {place}\n"));
    let place = place.unwrap_or_default();
    let advice = refusal.reason().advice();
    format!("{refusal}\n{place}{indent}what to do: {advice}\n")
}

/// Header flags and the processor that they tell: `0x0001 (aarch64)`.
pub fn flags(flags: u16, architecture: Architecture) -> String {
    format!("{flags:#06x} ({architecture})")
}

/// `1 byte`, `2 bytes`.
pub fn bytes(count: u64) -> String {
    match count {
        1 => "1 byte".to_string(),
        _ => format!("{count} bytes"),
    }
}
