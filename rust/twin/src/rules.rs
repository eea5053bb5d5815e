//! What the reader, the writer and the roll have in common.

/// The longest image, in bytes.
pub const MAX_IMAGE: usize = 1_073_741_824;

pub(crate) const MAX_SECTIONS: usize = 32;
pub(crate) const HEADER: usize = 548;
pub(crate) const SECTION_HEADER: usize = 12;

pub(crate) const MAGIC: [u8; 4] = *b".eif";

// Positions in the header.
pub(crate) const VERSION_AT: usize = 4;
pub(crate) const FLAGS_AT: usize = 6;
pub(crate) const MEM_AT: usize = 8;
pub(crate) const CPUS_AT: usize = 16;
pub(crate) const COUNT_AT: usize = 26;
pub(crate) const OFFSETS_AT: usize = 28;
pub(crate) const SIZES_AT: usize = 284;
pub(crate) const CHECKSUM_AT: usize = 544;

// Section types.
pub(crate) const KERNEL: u16 = 1;
pub(crate) const COMMAND_LINE: u16 = 2;
pub(crate) const RAMDISK: u16 = 3;
pub(crate) const SIGNATURE: u16 = 4;
pub(crate) const METADATA: u16 = 5;

/// Why something was refused.
#[derive(Clone, Copy, Debug, PartialEq, Eq)]
pub struct Refusal {
    /// The answer number.
    pub number: u8,
    /// Index of the section or record, 0 where the number has none.
    pub index: u64,
    /// Where in the file, or in the roll, what is at fault stands, 0 where the number has no place there.
    pub position: u64,
}

/// A refusal that has no place in a file.
pub(crate) fn refuse<T>(number: u8, index: usize) -> Result<T, Refusal> {
    refuse_at(number, index, 0)
}

pub(crate) fn refuse_at<T>(number: u8, index: usize, position: usize) -> Result<T, Refusal> {
    Err(Refusal {
        number,
        index: index as u64,
        position: position as u64,
    })
}

pub(crate) fn known_version(version: u16) -> bool {
    (2..=4).contains(&version)
}

pub(crate) fn allowed(kind: u16, version: u16) -> bool {
    match kind {
        KERNEL | COMMAND_LINE | RAMDISK => true,
        SIGNATURE => version >= 3,
        METADATA => version >= 4,
        _ => false,
    }
}

/// The section types met so far, of types 1 to 5.
#[derive(Default)]
pub(crate) struct Seen([bool; 6]);

impl Seen {
    /// Takes one section more, which stands at this position, or refuses it by 10 or 11.
    pub(crate) fn add(&mut self, kind: u16, index: usize, position: usize) -> Result<(), Refusal> {
        if kind == RAMDISK {
            if !self.has(KERNEL) {
                return refuse_at(10, index, position);
            }
        } else if self.has(kind) {
            return refuse_at(11, index, position);
        }
        self.0[usize::from(kind)] = true;
        Ok(())
    }

    pub(crate) fn has(&self, kind: u16) -> bool {
        self.0[usize::from(kind)]
    }

    /// Refuses by 12, at this position, where a type that must be there is not.
    pub(crate) fn complete(&self, version: u16, position: usize) -> Result<(), Refusal> {
        let metadata = version < 4 || self.has(METADATA);
        if self.has(KERNEL) && self.has(COMMAND_LINE) && metadata {
            Ok(())
        } else {
            refuse_at(12, 0, position)
        }
    }
}
