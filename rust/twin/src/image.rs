//! Reading an image.

use crate::crc32::Crc32;
use crate::rules::*;

/// A section, of an accepted image or of any.
#[derive(Clone, Copy, Debug, PartialEq, Eq)]
pub struct Section {
    /// Its type, 1 to 5 in an accepted image.
    pub kind: u16,
    /// Its flags, not judged.
    pub flags: u16,
    /// Where its data begin in the file.
    pub position: usize,
    /// How many bytes of data it has.
    pub length: usize,
}

impl Section {
    /// Its data, as far as they lie in the image. In an accepted image all do.
    pub(crate) fn data<'a>(&self, image: &'a [u8]) -> &'a [u8] {
        let rest = image.get(self.position..).unwrap_or_default();
        &rest[..self.length.min(rest.len())]
    }
}

/// What an accepted image holds.
#[derive(Clone, Debug, PartialEq, Eq)]
pub struct Reading {
    /// 2, 3 or 4.
    pub version: u16,
    /// Not judged.
    pub flags: u16,
    /// Not judged.
    pub default_mem: u64,
    /// Not judged.
    pub default_cpus: u64,
    /// In file order.
    pub sections: Vec<Section>,
}

impl Reading {
    /// The lowest bit of the flags: 0 for x86_64, 1 for aarch64.
    pub fn architecture(&self) -> u16 {
        self.flags & 1
    }

    /// Bit i is one exactly when section i is a ramdisk.
    pub fn ramdisk_mark(&self) -> u32 {
        let ramdisks = self.sections.iter().map(|s| u32::from(s.kind == RAMDISK));
        ramdisks.enumerate().map(|(i, bit)| bit << i).sum()
    }

    /// How many sections are ramdisks.
    pub fn ramdisk_count(&self) -> usize {
        self.sections.iter().filter(|s| s.kind == RAMDISK).count()
    }

    /// The index of the first ramdisk.
    pub fn first_ramdisk(&self) -> Option<usize> {
        self.sections.iter().position(|s| s.kind == RAMDISK)
    }
}

pub(crate) fn u16_at(bytes: &[u8], at: usize) -> u16 {
    u16::from_be_bytes(bytes[at..at + 2].try_into().unwrap())
}

fn u32_at(bytes: &[u8], at: usize) -> u32 {
    u32::from_be_bytes(bytes[at..at + 4].try_into().unwrap())
}

pub(crate) fn u64_at(bytes: &[u8], at: usize) -> u64 {
    u64::from_be_bytes(bytes[at..at + 8].try_into().unwrap())
}

/// The checksum that an image of at least 548 bytes should carry.
pub(crate) fn checksum(image: &[u8]) -> u32 {
    Crc32::new()
        .update(&image[..CHECKSUM_AT])
        .update(&image[HEADER..])
        .finish()
}

/// Reads an image.
pub fn read(image: &[u8]) -> Result<Reading, Refusal> {
    if image.len() > MAX_IMAGE {
        return refuse(1, 0);
    }
    if image.len() < HEADER {
        return refuse(2, 0);
    }
    if image[..4] != MAGIC {
        return refuse(3, 0);
    }
    let version = u16_at(image, VERSION_AT);
    if !known_version(version) {
        return refuse_at(4, 0, VERSION_AT);
    }
    let count = usize::from(u16_at(image, COUNT_AT));
    if !(2..=MAX_SECTIONS).contains(&count) {
        return refuse_at(5, 0, COUNT_AT);
    }
    let sections = read_sections(image, version, count)?;
    if checksum(image) != u32_at(image, CHECKSUM_AT) {
        return refuse_at(13, 0, CHECKSUM_AT);
    }
    Ok(Reading {
        version,
        flags: u16_at(image, FLAGS_AT),
        default_mem: u64_at(image, MEM_AT),
        default_cpus: u64_at(image, CPUS_AT),
        sections,
    })
}

/// Rules 6 to 12, and 20.
fn read_sections(image: &[u8], version: u16, count: usize) -> Result<Vec<Section>, Refusal> {
    let mut sections = Vec::with_capacity(count);
    let mut seen = Seen::default();
    let mut end = HEADER;
    for index in 0..count {
        let section = read_section(image, index, end)?;
        if !allowed(section.kind, version) {
            return refuse_at(9, index, end);
        }
        seen.add(section.kind, index, end)?;
        end = section.position + section.length;
        sections.push(section);
    }
    seen.complete(version, COUNT_AT)?;
    if end != image.len() {
        return refuse_at(20, 0, end);
    }
    Ok(sections)
}

/// A section by rules 6, 20, 7 and 8. Where none refuses it, it starts where the one before it ends.
fn read_section(image: &[u8], index: usize, end_before: usize) -> Result<Section, Refusal> {
    let entry = OFFSETS_AT + 8 * index;
    let offset = u64_at(image, entry);
    let size = u64_at(image, SIZES_AT + 8 * index);
    if offset < end_before as u64 {
        return refuse_at(6, index, entry);
    }
    if offset != end_before as u64 {
        return refuse_at(20, index, entry);
    }
    // A sum that does not fit 64 bits is past the end of the file too.
    let end = offset
        .checked_add(SECTION_HEADER as u64)
        .and_then(|position| position.checked_add(size));
    if end.map_or(true, |end| end > image.len() as u64) {
        return refuse_at(7, index, entry);
    }
    let header = &image[end_before..][..SECTION_HEADER];
    if u64_at(header, 4) != size {
        return refuse_at(8, index, end_before);
    }
    Ok(Section {
        kind: u16_at(header, 0),
        flags: u16_at(header, 2),
        position: end_before + SECTION_HEADER,
        length: size as usize,
    })
}
