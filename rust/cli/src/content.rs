//! What a file holds: an image or a roll, as the library's readers say.

use crate::input::{may_be_roll, Arrived};
use crate::words;
use eif::{Reading, Refusal, Roll};
use std::ffi::OsStr;

/// An accepted image or an accepted roll. No bytes are both.
pub enum Content<'a> {
    Image(&'a Reading),
    Roll(Roll<'a>),
}

/// What neither reader accepts.
pub struct Neither {
    /// The image reader's refusal.
    pub image: Refusal,
    /// The roll reader's refusal as lines, where the file does not look like an image.
    roll: Option<String>,
}

/// What an input holds, whose bytes were kept where it may be a roll.
pub fn of(arrived: &Arrived) -> Result<Content<'_>, Neither> {
    let image = match &arrived.answer {
        Ok(reading) => return Ok(Content::Image(reading)),
        Err(refusal) => *refusal,
    };
    if !may_be_roll(&arrived.answer) {
        return Err(Neither { image, roll: None });
    }
    match eif::read_roll(&arrived.bytes) {
        Ok(roll) => Ok(Content::Roll(roll)),
        Err(refusal) => {
            let roll = Some(words::roll_refusal(&refusal, &arrived.bytes));
            Err(Neither { image, roll })
        }
    }
}

impl Neither {
    /// The refusals, as lines.
    pub fn lines(&self, name: &OsStr) -> Vec<u8> {
        let mut lines = words::refusal(name, &self.image);
        lines.extend_from_slice(self.roll.as_deref().unwrap_or_default().as_bytes());
        lines
    }
}
