//! Images laid out byte by byte, with no rule judged.

/// The most sections.
pub const MAX_SECTIONS: usize = 32;
/// Length of the image's header.
pub const HEADER: usize = 548;
/// Length of a section's header.
pub const SECTION_HEADER: usize = 12;
/// Position of the size in a section's header.
pub const OWN_SIZE_AT: usize = 4;
/// The magic, which stands at 0.
pub const MAGIC: &[u8] = b".eif";
/// Position of the version.
pub const VERSION_AT: usize = 4;
/// Position of the flags.
pub const FLAGS_AT: usize = 6;
/// Position of default_mem.
pub const DEFAULT_MEM_AT: usize = 8;
/// Position of default_cpus.
pub const DEFAULT_CPUS_AT: usize = 16;
/// Position of the first reserved field, of 2 bytes.
pub const RESERVED_AT: usize = 24;
/// Position of num_sections.
pub const COUNT_AT: usize = 26;
/// Position of the section offsets.
pub const OFFSETS_AT: usize = 28;
/// Position of the section sizes.
pub const SIZES_AT: usize = 284;
/// Length of an entry of both.
pub const ENTRY: usize = 8;
/// Position of the second reserved field, of 4 bytes.
pub const RESERVED_AFTER_AT: usize = 540;
/// Position of the checksum.
pub const CHECKSUM_AT: usize = 544;
/// Length of the shortest image that is accepted, whose kernel and command line are empty.
pub const SHORTEST: usize = HEADER + 2 * SECTION_HEADER;

/// Position of the table's offset entry of a section.
pub const fn offset_entry(index: usize) -> usize {
    OFFSETS_AT + ENTRY * index
}

/// Position of the table's size entry of a section.
pub const fn size_entry(index: usize) -> usize {
    SIZES_AT + ENTRY * index
}

/// CRC-32 of `parts` joined, bit by bit.
pub fn crc32(parts: &[&[u8]]) -> u32 {
    let bytes = parts.iter().copied().flatten();
    !bytes.fold(!0, |remainder, &byte| crc32_after(remainder, byte))
}

/// The remainder of CRC-32 after one byte more.
fn crc32_after(remainder: u32, byte: u8) -> u32 {
    (0..8).fold(remainder ^ u32::from(byte), |crc, _| {
        (crc >> 1) ^ (0xEDB8_8320 & (crc & 1).wrapping_neg())
    })
}

/// CRC-32 of bytes whose own is `crc` and of `count` zero bytes after them. What a zero byte makes of a
/// remainder is linear, so that it is given by what it makes of each bit, and doing it twice is too.
pub fn crc32_then_zeros(crc: u32, count: usize) -> u32 {
    let apply = |zeros: &[u32; 32], remainder: u32| {
        let bits = (0..32).filter(|bit| remainder >> bit & 1 == 1);
        bits.fold(0, |sum, bit| sum ^ zeros[bit])
    };
    let mut zeros: [u32; 32] = std::array::from_fn(|bit| crc32_after(1 << bit, 0));
    // A remainder is the inverse of a checksum.
    let (mut remainder, mut left) = (!crc, count);
    while left > 0 {
        if left % 2 == 1 {
            remainder = apply(&zeros, remainder);
        }
        zeros = zeros.map(|of_bit| apply(&zeros, of_bit));
        left /= 2;
    }
    !remainder
}

/// Writes `bytes` over `image` from `at`.
pub fn put(image: &mut [u8], at: usize, bytes: &[u8]) {
    image[at..at + bytes.len()].copy_from_slice(bytes);
}

/// Writes the 8-byte number `value` over `image` from `at`.
pub fn put_number(image: &mut [u8], at: usize, value: u64) {
    put(image, at, &value.to_be_bytes());
}

/// The right checksum of an image of at least 548 bytes, or of its beginning.
pub fn checksum_of(image: &[u8]) -> u32 {
    crc32(&[&image[..CHECKSUM_AT], &image[HEADER..]])
}

/// Puts the right checksum into an image of at least 548 bytes.
pub fn put_checksum(image: &mut [u8]) {
    let checksum = checksum_of(image);
    put(image, CHECKSUM_AT, &checksum.to_be_bytes());
}

/// Where a section that starts at `offset` with `length` bytes of data ends.
pub fn section_end(offset: usize, length: usize) -> usize {
    offset + SECTION_HEADER + length
}

/// A section to be laid out.
#[derive(Clone, Debug, Default)]
pub struct Section {
    /// Its type.
    pub kind: u16,
    /// Its flags.
    pub flags: u16,
    /// Its data.
    pub data: Vec<u8>,
    /// How many bytes stand between the end of the one before and this section; 0 where it is packed.
    pub gap: usize,
}

impl Section {
    /// A section with no flags and no gap before it.
    pub fn new(kind: u16, data: &[u8]) -> Self {
        Section {
            kind,
            data: data.to_vec(),
            ..Section::default()
        }
    }
}

/// An image to be laid out.
#[derive(Clone, Debug, Default)]
pub struct Layout {
    /// The header's version.
    pub version: u16,
    /// The header's flags.
    pub flags: u16,
    /// The header's default_mem.
    pub default_mem: u64,
    /// The header's default_cpus.
    pub default_cpus: u64,
    /// The sections in file order; the header has room for 32.
    pub sections: Vec<Section>,
}

impl Layout {
    /// A layout whose other header fields are zero.
    pub fn new(version: u16, sections: Vec<Section>) -> Self {
        Layout {
            version,
            sections,
            ..Layout::default()
        }
    }

    /// Where each section starts.
    pub fn offsets(&self) -> Vec<usize> {
        let mut end = HEADER;
        let starts = self.sections.iter().map(|section| {
            let offset = end + section.gap;
            end = section_end(offset, section.data.len());
            offset
        });
        starts.collect()
    }

    /// The image, gaps zero, checksum right.
    ///
    /// # Panics
    ///
    /// Where there are more than 32 sections.
    pub fn image(&self) -> Vec<u8> {
        let mut image = self.without_checksum();
        put_checksum(&mut image);
        image
    }

    /// The image with a checksum of zero.
    ///
    /// # Panics
    ///
    /// Where there are more than 32 sections.
    pub fn without_checksum(&self) -> Vec<u8> {
        assert!(self.sections.len() <= MAX_SECTIONS);
        let mut image = vec![0; HEADER];
        put(&mut image, 0, MAGIC);
        put(&mut image, VERSION_AT, &self.version.to_be_bytes());
        put(&mut image, FLAGS_AT, &self.flags.to_be_bytes());
        put_number(&mut image, DEFAULT_MEM_AT, self.default_mem);
        put_number(&mut image, DEFAULT_CPUS_AT, self.default_cpus);
        let count = self.sections.len() as u16;
        put(&mut image, COUNT_AT, &count.to_be_bytes());
        for (index, (section, offset)) in self.sections.iter().zip(self.offsets()).enumerate() {
            image.resize(offset, 0);
            let size = section.data.len() as u64;
            put_number(&mut image, offset_entry(index), offset as u64);
            put_number(&mut image, size_entry(index), size);
            image.extend_from_slice(&section.kind.to_be_bytes());
            image.extend_from_slice(&section.flags.to_be_bytes());
            image.extend_from_slice(&size.to_be_bytes());
            image.extend_from_slice(&section.data);
        }
        image
    }
}
