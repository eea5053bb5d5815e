//! One of the two that are compared.

use super::Accepted;
use crate::words;
use eif::{Architecture, Image, Section, SectionType};

/// A record of a side's roll.
pub struct Record<'a> {
    /// The number that `eif show` gives it: of its section in an image, of the record in a roll.
    pub number: usize,
    pub section_type: SectionType,
    pub data: &'a [u8],
    /// The section, in an image.
    pub section: Option<Section>,
}

/// An image or a roll, with its roll's records.
pub struct Side<'a> {
    /// `A` or `B`.
    pub letter: &'static str,
    pub roll: &'a [u8],
    pub image: Option<&'a Image<'a>>,
    /// Whether one of the image's sections is replaced, so that its bytes are another image's.
    pub staged: bool,
    pub flags: u16,
    pub architecture: Architecture,
    /// Those after the flags record.
    pub records: Vec<Record<'a>>,
    /// The sections of an image that its roll does not list.
    pub others: Vec<(Section, &'a [u8])>,
}

impl<'a> Side<'a> {
    pub fn new(letter: &'static str, of: &'a Accepted<'a>) -> Side<'a> {
        let roll = &of.roll[..];
        let mut side = Side {
            letter,
            roll,
            image: of.image.as_ref(),
            staged: of.replaced.is_some(),
            flags: 0,
            architecture: Architecture::default(),
            records: Vec::new(),
            others: Vec::new(),
        };
        // The library has accepted or written the roll, so it is not refused here.
        if let Ok(list) = eif::read_roll(roll) {
            let records = (1..).zip(list.iter());
            let records = records.map(|(number, (record, data))| Record {
                number,
                section_type: record.section_type,
                data,
                section: None,
            });
            side.records = records.collect();
            side.flags = list.flags();
            side.architecture = list.architecture();
        }
        if let Some(image) = side.image {
            side.find_sections(image, of);
        }
        side
    }

    /// Finds the section of each record. Both are in file order, so each is the next of its type.
    fn find_sections(&mut self, image: &'a Image<'a>, of: &'a Accepted<'a>) {
        let mut records = self.records.iter_mut().peekable();
        for (number, (section, data)) in image.iter().enumerate() {
            match records.next_if(|record| record.section_type == section.section_type) {
                Some(record) => {
                    record.number = number;
                    record.section = Some(section);
                }
                None => {
                    let replaced = of.replaced;
                    let staged = replaced.map(|r| r.section(image.bytes(), number, section));
                    // The library has accepted what is staged, so it is not refused here.
                    let staged = staged.and_then(Result::ok);
                    self.others.push(staged.unwrap_or((section, data)));
                }
            }
        }
    }

    /// The section of this type that the roll does not list.
    pub fn other(&self, section_type: SectionType) -> Option<(Section, &'a [u8])> {
        let mut others = self.others.iter();
        let found = others.find(|(section, _)| section.section_type == section_type);
        found.copied()
    }

    /// `A has flags 0x0001 (aarch64)`.
    pub fn has_flags(&self) -> String {
        let flags = words::flags(self.flags, self.architecture);
        format!("{} has flags {flags}", self.letter)
    }

    /// `A has section 3 (ramdisk, 96 bytes)`.
    pub fn has(&self, record: Option<&Record>) -> String {
        let letter = self.letter;
        let Some(record) = record else {
            return format!("{letter} has no more");
        };
        let noun = if record.section.is_some() {
            "section"
        } else {
            "record"
        };
        let (number, kind) = (record.number, record.section_type);
        let length = words::bytes(record.data.len() as u64);
        format!("{letter} has {noun} {number} ({kind}, {length})")
    }
}
