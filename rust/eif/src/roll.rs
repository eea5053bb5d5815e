//! The boot roll: header flags of an image, then its kernel, command line and ramdisks in file order.

use crate::image::part_of;
use crate::{raw, Architecture, DataLength, Refusal, RollPosition, SectionType};

/// A record of an accepted roll.
#[derive(Clone, Copy, Debug, Default, PartialEq, Eq)]
pub struct RollRecord {
    /// The section's type.
    pub section_type: SectionType,
    /// Where the data begin in the roll.
    pub position: RollPosition,
    /// How many bytes of data there are.
    pub length: DataLength,
}

/// An accepted roll: its bytes, borrowed, its flags and the list of its records.
#[derive(Clone, Debug)]
pub struct Roll<'a> {
    bytes: &'a [u8],
    flags: u16,
    records: Vec<RollRecord>,
}

/// The length of the roll of `image`, which is less than the image's. The image is read for it.
///
/// # Errors
///
/// The image's own refusal.
pub fn roll_length(image: &[u8]) -> Result<usize, Refusal> {
    raw::roll_length(image).accepted_part()
}

/// Writes the roll of `image` over the start of `out` and answers the roll's length (FORMAT.md, The boot
/// roll). Bytes of `out` past the roll stay.
///
/// # Errors
///
/// The image's own refusal, then 14 where `out` is shorter than the roll. `out` is then unchanged.
pub fn write_roll(image: &[u8], out: &mut [u8]) -> Result<usize, Refusal> {
    raw::roll_write(image, out).accepted_part()
}

/// The roll of `image`. The image is read once.
///
/// ```
/// // What is no image has no roll.
/// assert_eq!(eif::roll_to_vec(b"short").unwrap_err().number(), 2);
/// ```
///
/// # Errors
///
/// The image's own refusal.
pub fn roll_to_vec(image: &[u8]) -> Result<Vec<u8>, Refusal> {
    Ok(crate::read(image)?.roll())
}

/// Reads a roll. It is accepted exactly when it is the roll of some accepted image.
///
/// ```
/// // A roll that is cut short is refused.
/// assert_eq!(eif::read_roll(&[]).unwrap_err().number(), 16);
/// ```
///
/// # Errors
///
/// The first of 16, 17, 5, 10, 11, 18, 12 and 1 that applies, in the order of reading a roll.
pub fn read_roll(roll: &[u8]) -> Result<Roll<'_>, Refusal> {
    let reading = raw::roll_read(roll);
    Refusal::check(reading.number, reading.index, reading.position)?;
    let used = reading.records.into_iter().take(reading.count as usize);
    Ok(Roll {
        bytes: roll,
        flags: reading.flags,
        records: used.map(RollRecord::from).collect(),
    })
}

impl<'a> Roll<'a> {
    /// The roll's bytes, those that were read.
    pub fn bytes(&self) -> &'a [u8] {
        self.bytes
    }

    /// The flags of the image's header.
    pub fn flags(&self) -> u16 {
        self.flags
    }

    /// The processor that the flags tell.
    pub fn architecture(&self) -> Architecture {
        Architecture::of_flags(self.flags)
    }

    /// The records in order, without flags record and end record. The first of them is record 1 where a
    /// [`Refusal`] counts them.
    pub fn records(&self) -> &[RollRecord] {
        &self.records
    }

    /// The data of the record at place `index` in [`records`](Roll::records), which does not count the flags record.
    /// None if `index` is at or past the number of records; an empty record has `Some` data of no bytes.
    pub fn record_data(&self, index: usize) -> Option<&'a [u8]> {
        self.get(index).map(|(_, data)| data)
    }

    /// The record at place `index` in [`records`](Roll::records) and its data. None if `index` is at or past the number
    /// of records.
    pub fn get(&self, index: usize) -> Option<(RollRecord, &'a [u8])> {
        let record = *self.records().get(index)?;
        Some((record, self.data_of(record)))
    }

    /// The records with their data, in order.
    pub fn iter(&self) -> impl DoubleEndedIterator<Item = (RollRecord, &'a [u8])> + '_ {
        let records = self.records().iter();
        records.map(|&record| (record, self.data_of(record)))
    }

    fn data_of(&self, record: RollRecord) -> &'a [u8] {
        // The data of an accepted roll's records lie in the roll.
        part_of(self.bytes, record.position.0, record.length).unwrap_or_default()
    }
}
