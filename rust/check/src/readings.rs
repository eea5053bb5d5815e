//! Readings and lists of sections that no image gave: fields at random, sections past the image.

use crate::{any_image, Rng};
use eif::raw::{self, Reading, Section, StreamSections};
use eif::{DataLength, FilePosition, SectionType};
use eif_cases::MAX_SECTIONS;

/// Bytes, a reading that may be theirs, and a list of sections that may be the reading's.
#[derive(Clone, Debug)]
pub struct ReadingInput {
    /// The bytes, an image or not.
    pub image: Vec<u8>,
    /// The reading.
    pub reading: Reading,
    /// The list.
    pub list: StreamSections,
}

fn any_type(rng: &mut Rng) -> SectionType {
    SectionType(rng.pick(&[0, 1, 2, 3, 3, 3, 4, 5, 6, 0x0100, 0x0300, 0x0103, 0xffff]))
}

/// A section of any type, in, across or past the end of `length` bytes.
fn any_section(rng: &mut Rng, length: usize) -> Section {
    let inside = rng.below(length + 1) as u64;
    let position = rng.hostile(length as u64);
    let position = rng.pick(&[inside, inside, length as u64, position]);
    let rest = (length as u64).saturating_sub(position);
    let near = rng.hostile(rest);
    let wraps = position.wrapping_neg().wrapping_add(rng.below(30) as u64);
    let few = rng.below(9) as u64;
    Section {
        section_type: any_type(rng),
        flags: rng.next() as u16,
        reserved: rng.pick(&[0, 1, u32::MAX]),
        position: FilePosition(position),
        length: DataLength(rng.pick(&[0, few, few, rest, near, wraps])),
    }
}

/// Changes some of the sections, or all.
fn damage_sections(rng: &mut Rng, sections: &mut [Section; MAX_SECTIONS], length: usize) {
    match rng.below(4) {
        0 => {}
        1 => sections.fill_with(|| any_section(rng, length)),
        2 => {
            let chosen = rng.below(sections.len());
            sections[..].rotate_left(chosen);
        }
        _ => {
            for _ in 0..1 + rng.below(4) {
                sections[rng.below(MAX_SECTIONS)] = any_section(rng, length);
            }
        }
    }
}

fn any_reading(rng: &mut Rng, image: &[u8]) -> Reading {
    let mut reading = raw::read(image);
    damage_sections(rng, &mut reading.sections, image.len());
    if rng.once_in(2) {
        reading.number = rng.pick(&[0, 1, 13, 19, 29, 255]);
        reading.count = rng.pick(&[0, 1, 2, 31, 32, 33, 0xffff]);
    }
    if rng.once_in(2) {
        reading.version = rng.next() as u16;
        reading.index = rng.next();
        reading.position = rng.next();
        reading.ramdisk_mark = rng.next() as u32;
        reading.ramdisk_count = rng.next() as u32;
        reading.first_ramdisk = rng.next() as u32;
        reading.reserved = rng.next() as u8;
        reading.architecture = rng.next() as u16;
        reading.reserved_after = rng.next() as u16;
    }
    reading
}

fn any_list(rng: &mut Rng, reading: &Reading, length: usize) -> StreamSections {
    let mut sections = reading.sections;
    damage_sections(rng, &mut sections, length);
    let count = u64::from(reading.count);
    let few = rng.below(34) as u64;
    let hostile = rng.hostile(MAX_SECTIONS as u64);
    StreamSections {
        count: rng.pick(&[count, few, few, 31, 32, 33, hostile, u64::MAX]),
        sections,
    }
}

/// Any bytes, reading and list.
pub fn any_reading_input(rng: &mut Rng) -> ReadingInput {
    let image = if rng.once_in(4) {
        let length = rng.pick(&[0, 1, 5, 40]);
        rng.bytes(length)
    } else {
        any_image(rng)
    };
    let reading = any_reading(rng, &image);
    let list = any_list(rng, &reading, image.len());
    ReadingInput {
        image,
        reading,
        list,
    }
}
