//! The boot roll: header flags, then kernel, command line and ramdisks in file order.

use crate::image::{read, Reading, Section};
use crate::rules::*;

const RECORD_HEAD: usize = 10;

/// Type of the flags record, the first of a roll. Its data are two bytes.
pub(crate) const FLAGS: u16 = 256;
const FLAGS_RECORD: usize = RECORD_HEAD + 2;

/// A record of an accepted roll.
#[derive(Clone, Copy, Debug, PartialEq, Eq)]
pub struct Record {
    /// Its type, 1 to 3.
    pub kind: u16,
    /// Where its data begin in the roll.
    pub position: usize,
    /// How many bytes of data it has.
    pub length: usize,
}

/// What an accepted roll holds.
#[derive(Clone, Debug, PartialEq, Eq)]
pub struct Roll {
    /// The flags of the image's header.
    pub flags: u16,
    /// The records but the first, which has the flags, and the end record.
    pub records: Vec<Record>,
}

/// The sections that a roll lists.
fn listed(reading: &Reading) -> impl Iterator<Item = &Section> {
    reading.sections.iter().filter(|s| s.kind <= RAMDISK)
}

fn length_of(reading: &Reading) -> usize {
    let records = listed(reading).map(|s| RECORD_HEAD + s.length);
    FLAGS_RECORD + records.sum::<usize>() + RECORD_HEAD
}

/// The length of the roll of `image`.
pub fn roll_length(image: &[u8]) -> Result<usize, Refusal> {
    Ok(length_of(&read(image)?))
}

/// Writes the roll of `image` over the start of `out`. Answers the roll's length.
pub fn write_roll(image: &[u8], out: &mut [u8]) -> Result<usize, Refusal> {
    let reading = read(image)?;
    let length = length_of(&reading);
    if out.len() < length {
        return refuse(14, 0);
    }
    let mut at = 0;
    let mut put = |bytes: &[u8]| {
        out[at..at + bytes.len()].copy_from_slice(bytes);
        at += bytes.len();
    };
    put(&2u64.to_le_bytes());
    put(&FLAGS.to_le_bytes());
    put(&reading.flags.to_le_bytes());
    for section in listed(&reading) {
        put(&(section.length as u64).to_le_bytes());
        put(&section.kind.to_le_bytes());
        put(section.data(image));
    }
    put(&[0; RECORD_HEAD]);
    Ok(length)
}

/// Reads a roll.
pub fn read_roll(roll: &[u8]) -> Result<Roll, Refusal> {
    let flags = read_flags(roll)?;
    let mut seen = Seen::default();
    let (records, end) = read_records(roll, &mut seen)?;
    if end < roll.len() {
        return refuse_at(18, 0, end);
    }
    // A roll has no metadata, so the rule is that of the first version.
    seen.complete(2, 0)?;
    let sections: usize = records.iter().map(|r| SECTION_HEADER + r.length).sum();
    if HEADER + sections > MAX_IMAGE {
        return refuse(1, 0);
    }
    Ok(Roll { flags, records })
}

/// Length and type of the record that starts there, if its head is whole.
fn head(roll: &[u8], start: usize) -> Option<(u64, u16)> {
    let head = roll.get(start..start + RECORD_HEAD)?;
    let (length, kind) = head.split_at(8);
    let length = u64::from_le_bytes(length.try_into().unwrap());
    let kind = u16::from_le_bytes(kind.try_into().unwrap());
    Some((length, kind))
}

/// The flags record, which is record 0 at position 0.
fn read_flags(roll: &[u8]) -> Result<u16, Refusal> {
    match head(roll, 0) {
        None => return refuse(16, 0),
        Some((2, FLAGS)) => {}
        Some(_) => return refuse(17, 0),
    }
    match roll.get(RECORD_HEAD..FLAGS_RECORD) {
        Some(flags) => Ok(u16::from_le_bytes(flags.try_into().unwrap())),
        None => refuse(16, 0),
    }
}

/// The records after it, and where the end record ends.
fn read_records(roll: &[u8], seen: &mut Seen) -> Result<(Vec<Record>, usize), Refusal> {
    let mut records = Vec::with_capacity(MAX_SECTIONS);
    let mut at = FLAGS_RECORD;
    loop {
        let (index, start) = (records.len() + 1, at);
        let Some((length, kind)) = head(roll, start) else {
            return refuse_at(16, index, start);
        };
        if kind > RAMDISK || (kind == 0 && length != 0) {
            return refuse_at(17, index, start);
        }
        at += RECORD_HEAD;
        if kind == 0 {
            return Ok((records, at));
        }
        if records.len() == MAX_SECTIONS {
            return refuse_at(5, 0, start);
        }
        if length > (roll.len() - at) as u64 {
            return refuse_at(16, index, start);
        }
        let length = length as usize;
        seen.add(kind, index, start)?;
        records.push(Record {
            kind,
            position: at,
            length,
        });
        at += length;
    }
}
