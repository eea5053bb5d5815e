//! Images, with their answers.

use crate::layout::*;

/// A refusal's number, index and position.
pub type Answer = (u8, u64, u64);

/// What stands for a refusal where there is none.
pub const ACCEPTED: Answer = (0, 0, 0);

/// A refusal.
pub(crate) fn refused(number: u8, index: usize, position: usize) -> Answer {
    (number, index as u64, position as u64)
}

/// An image and what reading it answers.
pub struct ImageCase {
    /// What the image shows.
    pub name: &'static str,
    /// Its bytes.
    pub image: Vec<u8>,
    /// [`ACCEPTED`], or the refusal.
    pub answer: Answer,
}

impl ImageCase {
    pub(crate) fn new(name: &'static str, image: Vec<u8>, answer: Answer) -> Self {
        ImageCase {
            name,
            image,
            answer,
        }
    }
}

/// Where the sections of the worked image start.
pub const WORKED_OFFSETS: [usize; 3] = [548, 561, 574];
/// Length of the worked image.
pub const WORKED_LENGTH: usize = 586;

/// The plain version 2 image with kernel 4b, command line 61 and one empty ramdisk.
pub fn worked_image() -> Vec<u8> {
    worked_layout().image()
}

fn worked_layout() -> Layout {
    Layout::new(
        2,
        vec![
            Section::new(1, &[0x4b]),
            Section::new(2, &[0x61]),
            Section::new(3, &[]),
        ],
    )
}

/// Version 2, count 2, kernel and empty command line.
pub fn two_sections() -> Vec<u8> {
    Layout::new(2, vec![Section::new(1, &[0x4b]), Section::new(2, &[])]).image()
}

/// An image of exactly `length` bytes that meets every rule but perhaps the first.
///
/// # Panics
///
/// Where `length` is less than 572, the least that a kernel and a command line need.
pub fn image_of_length(length: usize) -> Vec<u8> {
    let kernel = vec![0x5a; length - SHORTEST];
    Layout::new(2, vec![Section::new(1, &kernel), Section::new(2, &[])]).image()
}

/// An image of exactly `length` bytes that meets every rule but perhaps the first: an empty command line and
/// a kernel of zeros. The zeros are the allocator's own and take no memory until they are written to, so
/// that the longest image can be had.
///
/// # Panics
///
/// As [`image_of_length`].
pub fn zero_image(length: usize) -> Vec<u8> {
    let mut image = vec![0; length];
    put(&mut image, 0, &zero_image_start(length));
    image
}

/// The bytes of [`zero_image`] before the kernel's zeros.
///
/// # Panics
///
/// As [`image_of_length`].
pub fn zero_image_start(length: usize) -> Vec<u8> {
    let layout = Layout::new(2, vec![Section::new(2, &[]), Section::new(1, &[])]);
    let mut start = layout.without_checksum();
    let zeros = length - start.len();
    put_number(&mut start, size_entry(1), zeros as u64);
    let own_size = layout.offsets()[1] + OWN_SIZE_AT;
    put_number(&mut start, own_size, zeros as u64);
    let checksum = crc32_then_zeros(checksum_of(&start), zeros);
    put(&mut start, CHECKSUM_AT, &checksum.to_be_bytes());
    start
}

/// The worked image with an edit, its checksum put again.
fn edited(edit: impl FnOnce(&mut Vec<u8>)) -> Vec<u8> {
    let mut image = worked_layout().image();
    edit(&mut image);
    put_checksum(&mut image);
    image
}

/// A layout with a section of one byte for each type.
pub(crate) fn layout_of(version: u16, types: &[u16]) -> Layout {
    let sections = types.iter().map(|&kind| Section::new(kind, b"x"));
    Layout::new(version, sections.collect())
}

/// Where a section starts, those before it being of one byte each.
pub(crate) fn start_of(index: usize) -> usize {
    HEADER + index * (SECTION_HEADER + 1)
}

/// The image of [`layout_of`].
pub(crate) fn image_of(version: u16, types: &[u16]) -> Vec<u8> {
    layout_of(version, types).image()
}

/// Each rule of FORMAT.md, "Reading an image", at its boundary, and those that a reader easily gets
/// wrong.
pub fn image_cases() -> Vec<ImageCase> {
    let mut cases = boundary_cases();
    cases.extend(mistaken_cases());
    cases.extend(packing_cases());
    cases
}

fn boundary_cases() -> Vec<ImageCase> {
    let mut cases = table_cases();
    cases.extend(type_cases());
    cases.extend(checksum_cases());
    cases
}

/// The header's count, and the offsets and sizes of the table.
fn table_cases() -> Vec<ImageCase> {
    let mut cases = Vec::new();
    let mut case = |name, image, answer| cases.push(ImageCase::new(name, image, answer));
    let short = worked_image()[..HEADER - 1].to_vec();
    case("547 bytes", short, (2, 0, 0));
    for count in [1, 33] {
        let image = edited(|image| put(image, COUNT_AT, &[0, count]));
        case("count 1 or 33", image, refused(5, 0, COUNT_AT));
    }
    case("kernel and empty command line", two_sections(), ACCEPTED);
    let image = edited(|image| put_number(image, OFFSETS_AT, HEADER as u64 - 1));
    case("first offset 547", image, refused(6, 0, OFFSETS_AT));
    for index in 0..3 {
        let image = edited(|image| put_number(image, size_entry(index), u64::MAX));
        let answer = refused(7, index, offset_entry(index));
        case("size of all ones", image, answer);
    }
    case(
        "a section ending at the file's end",
        worked_image(),
        ACCEPTED,
    );
    let image = edited(|image| {
        put_number(image, size_entry(2), 1);
        put_number(image, WORKED_OFFSETS[2] + OWN_SIZE_AT, 1);
    });
    case("its size one more", image, refused(7, 2, offset_entry(2)));
    cases
}

fn type_cases() -> Vec<ImageCase> {
    let mut cases = Vec::new();
    let mut case = |name, image, answer| cases.push(ImageCase::new(name, image, answer));
    for kind in [6, 0] {
        let image = edited(|image| put(image, WORKED_OFFSETS[2], &[0, kind]));
        case("type 6 or 0", image, refused(9, 2, WORKED_OFFSETS[2]));
    }
    let image = image_of(3, &[1, 2, 5]);
    case("version 3 with metadata", image, refused(9, 2, start_of(2)));
    let image = image_of(4, &[1, 2, 3]);
    let answer = refused(12, 0, COUNT_AT);
    case("version 4 without metadata", image, answer);
    cases
}

fn checksum_cases() -> Vec<ImageCase> {
    let one_off = |difference| {
        let mut image = worked_image();
        let checksum = checksum_of(&image).wrapping_add(difference);
        put(&mut image, CHECKSUM_AT, &checksum.to_be_bytes());
        ImageCase::new("checksum one off", image, refused(13, 0, CHECKSUM_AT))
    };
    Vec::from([1, u32::MAX].map(one_off))
}

fn mistaken_cases() -> Vec<ImageCase> {
    let mut cases = Vec::new();
    let mut case = |name, image, answer| cases.push(ImageCase::new(name, image, answer));
    // The last section's offset + 12 + size is 2 to the 64, which wraps to 0.
    let wraps = (WORKED_LENGTH as u64).wrapping_neg();
    let image = edited(|image| put_number(image, size_entry(2), wraps));
    case("end that wraps to 0", image, refused(7, 2, offset_entry(2)));
    let mut image = worked_layout().without_checksum();
    let checksum = crc32(&[&image]);
    put(&mut image, CHECKSUM_AT, &checksum.to_be_bytes());
    let answer = refused(13, 0, CHECKSUM_AT);
    case("checksum over the field as zeros", image, answer);
    let mut case = |name, version, types: &[u16], answer| {
        case(name, image_of(version, types), answer);
    };
    let ramdisk_first = refused(10, 0, start_of(0));
    case("ramdisk first, two kernels", 2, &[3, 1, 1], ramdisk_first);
    let no_kernel = refused(10, 1, start_of(1));
    case("ramdisk and no kernel", 2, &[2, 3], no_kernel);
    case("second kernel", 2, &[1, 1, 2], refused(11, 1, start_of(1)));
    let second = refused(11, 3, start_of(3));
    case("second metadata", 4, &[1, 5, 2, 5], second);
    let missing = refused(12, 0, COUNT_AT);
    case("no command line", 2, &[1, 3], missing);
    let signature = refused(9, 2, start_of(2));
    case("signature in version 2", 2, &[1, 2, 4], signature);
    case("signature in version 3", 3, &[1, 2, 4], ACCEPTED);
    let image = stale(image_of(4, &[1, 2]));
    let name = "no metadata and a wrong checksum";
    cases.push(ImageCase::new(name, image, missing));
    cases
}

/// The worked image with a gap of one byte before a section.
fn with_gap(index: usize) -> Vec<u8> {
    let mut layout = worked_layout();
    layout.sections[index].gap = 1;
    layout.image()
}

/// The image with its checksum's lowest bit turned.
fn stale(mut image: Vec<u8>) -> Vec<u8> {
    image[CHECKSUM_AT] ^= 1;
    image
}

/// Room outside the sections, and what is judged before and after it.
fn packing_cases() -> Vec<ImageCase> {
    let mut cases = offset_cases();
    let mut case = |name, image, answer| cases.push(ImageCase::new(name, image, answer));
    for index in 0..3 {
        let image = with_gap(index);
        let answer = refused(20, index, offset_entry(index));
        case("a gap of one byte", image.clone(), answer);
        case("the same, wrong checksum", stale(image), answer);
    }
    let tail = || edited(|image| image.push(0));
    let answer = refused(20, 0, WORKED_LENGTH);
    case("a byte after the last section", tail(), answer);
    case("the same, wrong checksum", stale(tail()), answer);
    let image = edited(|image| image.extend_from_within(..));
    case("the file twice", image, answer);
    let mut image = image_of(2, &[1, 3]);
    image.push(0);
    put_checksum(&mut image);
    let answer = refused(12, 0, COUNT_AT);
    case("no command line and a tail", image, answer);
    let image = edited(|image| image.truncate(WORKED_LENGTH - 1));
    let answer = refused(7, 2, offset_entry(2));
    case("a section cut at the file's end", image, answer);
    cases
}

/// Offsets that are wrong alone, and two at once.
fn offset_cases() -> Vec<ImageCase> {
    let mut cases = Vec::new();
    let mut case = |name, image, answer| cases.push(ImageCase::new(name, image, answer));
    for index in 0..3 {
        let entry = offset_entry(index);
        let with_offset = |offset| edited(|image| put_number(image, entry, offset as u64));
        let late = refused(20, index, entry);
        let image = edited(|image| put_number(image, entry, u64::MAX));
        case("offset of all ones", image, late);
        case("offset at the file's end", with_offset(WORKED_LENGTH), late);
        case("offset 0", with_offset(0), refused(6, index, entry));
    }
    let [_, second, third] = WORKED_OFFSETS.map(|offset| offset as u64);
    let mut image = with_gap(1);
    put_number(&mut image, offset_entry(2), third);
    put_checksum(&mut image);
    let answer = refused(20, 1, offset_entry(1));
    case("a gap, and 6 at a later section", image, answer);
    let image = edited(|image| {
        put_number(image, offset_entry(1), second - 1);
        put_number(image, offset_entry(2), third + 1);
    });
    let answer = refused(6, 1, offset_entry(1));
    case("6, and a gap before a later section", image, answer);
    cases
}
