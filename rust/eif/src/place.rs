//! What stands at a refusal's position, in words.

use crate::{Refusal, HEADER_LENGTH, MAX_SECTIONS};

/// The record that is one too many. The flags record, which is record 0, is not one of the 32.
const RECORD_TOO_MANY: u64 = MAX_SECTIONS as u64 + 1;

/// The words of these two stand here and nowhere else in the Rust code; a test of the command holds the
/// manual to them.
impl Refusal {
    /// What stands at the [position](Refusal::position) in an image that is refused. None where the number
    /// has no place in an image.
    ///
    /// ```
    /// let mut image = [0; 548];
    /// image[..8].copy_from_slice(&[b'.', b'e', b'i', b'f', 0, 2, 0, 0]);
    /// image[27] = 2;
    /// // The first section starts at 0.
    /// let refusal = eif::read(&image).unwrap_err();
    /// assert_eq!((refusal.number(), refusal.position()), (6, 28));
    /// let place = refusal.place_in_image();
    /// assert_eq!(place.as_deref(), Some("the table's offset entry of section 0"));
    /// ```
    pub fn place_in_image(&self) -> Option<String> {
        let index = self.index();
        let place = match self.number() {
            1 | 2 => "the start of the file".to_string(),
            3 => "the magic".to_string(),
            4 => "the version".to_string(),
            5 | 12 => "the number of sections".to_string(),
            6 | 7 => offset_entry(index),
            8..=11 => format!("section {index}'s own header"),
            13 => "the checksum".to_string(),
            // A section that does not start where it should, or bytes after the last one.
            20 if self.position() < HEADER_LENGTH as u64 => offset_entry(index),
            20 => "the first byte after the last section".to_string(),
            21 => format!("section {index}'s data"),
            _ => return None,
        };
        Some(place)
    }

    /// What stands at the [position](Refusal::position) in `roll`, which is refused. None where the number
    /// has no place in a roll.
    ///
    /// ```
    /// let refusal = eif::read_roll(&[]).unwrap_err();
    /// assert_eq!((refusal.number(), refusal.position()), (16, 0));
    /// let place = refusal.place_in_roll(&[]);
    /// assert_eq!(place.as_deref(), Some("the end of the roll, where the flags record should start"));
    /// ```
    pub fn place_in_roll(&self, roll: &[u8]) -> Option<String> {
        let index = self.index();
        let at_end = self.position() == roll.len() as u64;
        let place = match self.number() {
            1 | 12 => "the start of the roll".to_string(),
            5 => start_of(RECORD_TOO_MANY),
            16 if at_end => format!("the end of the roll, where {} should start", record(index)),
            10 | 11 | 16 | 17 => start_of(index),
            18 => "the first byte after the end record".to_string(),
            _ => return None,
        };
        Some(place)
    }
}

fn offset_entry(index: u64) -> String {
    format!("the table's offset entry of section {index}")
}

fn start_of(index: u64) -> String {
    format!("the start of {}", record(index))
}

fn record(index: u64) -> String {
    match index {
        0 => "the flags record".to_string(),
        _ => format!("record {index}"),
    }
}
