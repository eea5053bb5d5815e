//! The stricter reading: metadata must be JSON.

use crate::image::{read, Reading};
use crate::json::check_json;
use crate::rules::*;

/// Reads an image, and then refuses by 21 metadata that is no JSON text.
pub fn read_strict(image: &[u8]) -> Result<Reading, Refusal> {
    let reading = read(image)?;
    for (index, section) in reading.sections.iter().enumerate() {
        if section.kind == METADATA && check_json(section.data(image)).is_err() {
            return refuse_at(21, index, section.position);
        }
    }
    Ok(reading)
}
