//! Each answer number at a first, an inner and a last index, as far as it can occur there, with its position.

use crate::images::{image_of, layout_of, refused, start_of, Answer, ImageCase};
use crate::layout::*;
use crate::rolls::{record, roll_of, RollCase, FLAGS_RECORD, RECORD_HEAD};

/// Types of 32 sections of version 4.
fn types() -> Vec<u16> {
    [1, 2, 5, 4].into_iter().chain([3; 28]).collect()
}

/// The 32 types with another one in one place.
fn with_type(index: usize, kind: u16) -> Vec<u16> {
    let mut types = types();
    types[index] = kind;
    types
}

/// The image of 32 sections, changed, with the checksum put again.
fn changed(change: impl FnOnce(&mut Vec<u8>)) -> Vec<u8> {
    let mut image = image_of(4, &types());
    change(&mut image);
    put_checksum(&mut image);
    image
}

/// The first, an inner and the last of 32 sections.
const SECTIONS: [usize; 3] = [0, 15, 31];

/// Each number of reading an image but 1, which is for images that are longer than any here.
pub fn located_images() -> Vec<ImageCase> {
    let mut cases = located_sections();
    cases.extend(located_types());
    cases.extend(located_files());
    cases
}

/// 6, 20, 7, 8 and 9.
fn located_sections() -> Vec<ImageCase> {
    let mut cases = Vec::new();
    let mut case = |name, image, answer| cases.push(ImageCase::new(name, image, answer));
    for index in SECTIONS {
        let (entry, header) = (offset_entry(index), start_of(index));
        let early = changed(|image| put_number(image, entry, header as u64 - 1));
        case("starts early", early, refused(6, index, entry));
        let mut gap = layout_of(4, &types());
        gap.sections[index].gap = 1;
        case("a gap", gap.image(), refused(20, index, entry));
        let late = changed(|image| put_number(image, size_entry(index), u64::MAX));
        case("ends late", late, refused(7, index, entry));
        let sizes = changed(|image| put_number(image, header + OWN_SIZE_AT, 2));
        case("sizes differ", sizes, refused(8, index, header));
        let kind = image_of(4, &with_type(index, 6));
        case("type not allowed", kind, refused(9, index, header));
    }
    cases
}

/// 10 and 11. A ramdisk before the kernel is no later than after one section of each other type, and what is
/// there a second time is not the first.
fn located_types() -> Vec<ImageCase> {
    let mut cases = Vec::new();
    let mut case = |name, types: &[u16], number, index| {
        let answer = refused(number, index, start_of(index));
        cases.push(ImageCase::new(name, image_of(4, types), answer));
    };
    case("ramdisk first", &[3, 1, 2, 5], 10, 0);
    case("ramdisk before the kernel", &[2, 5, 3, 1], 10, 2);
    case("ramdisk last, no kernel", &[2, 5, 4, 3], 10, 3);
    case("second kernel, at 1", &with_type(1, 1), 11, 1);
    case("second signature", &with_type(15, 4), 11, 15);
    case("second metadata, last", &with_type(31, 5), 11, 31);
    cases
}

/// 2 to 5, 12, 20 for bytes after the last section, and 13.
fn located_files() -> Vec<ImageCase> {
    let mut cases = Vec::new();
    let mut case = |name, image, answer| cases.push(ImageCase::new(name, image, answer));
    let short = changed(|_| ())[..HEADER - 1].to_vec();
    case("547 bytes", short, (2, 0, 0));
    case("wrong magic", changed(|image| image[3] ^= 1), (3, 0, 0));
    for version in [1, 5] {
        let image = changed(|image| put(image, VERSION_AT, &[0, version]));
        case("wrong version", image, refused(4, 0, VERSION_AT));
    }
    for count in [1, 33] {
        let image = changed(|image| put(image, COUNT_AT, &[0, count]));
        case("wrong count", image, refused(5, 0, COUNT_AT));
    }
    for missing in [&[2, 5][..], &[1, 5], &[1, 2]] {
        let answer = refused(12, 0, COUNT_AT);
        case("a type missing", image_of(4, missing), answer);
    }
    let tail = changed(|image| image.push(0));
    case("a tail", tail, refused(20, 0, start_of(MAX_SECTIONS)));
    let mut image = changed(|_| ());
    image[CHECKSUM_AT + 3] ^= 1;
    case("checksum differs", image, refused(13, 0, CHECKSUM_AT));
    cases
}

/// The first, an inner and the last of a roll's 32 records behind its flags record, which is record 0.
const RECORDS: [usize; 3] = [1, 16, 32];

/// The end record behind them.
const END_RECORD: usize = 33;

/// Where a record starts, those between it and the flags record being of one byte each.
fn record_start(index: usize) -> usize {
    FLAGS_RECORD + (index - 1) * (RECORD_HEAD + 1)
}

/// Types of 32 records.
fn record_types() -> Vec<u16> {
    [1, 2].into_iter().chain([3; 30]).collect()
}

/// A roll with a record of one byte for each type.
fn roll(types: &[u16]) -> Vec<u8> {
    let records: Vec<(u16, &[u8])> = types.iter().map(|&kind| (kind, &b"x"[..])).collect();
    roll_of(1, &records)
}

/// Each number of reading a roll but 1, which is for rolls that are longer than any here.
pub fn located_rolls() -> Vec<RollCase> {
    let mut cases = located_records();
    let mut case = |name, roll, answer: Answer| cases.push(RollCase::refused(name, roll, answer));
    let whole = roll(&record_types());
    case("no kernel", roll(&[2]), (12, 0, 0));
    case("no command line", roll(&[1, 3]), (12, 0, 0));
    let first = refused(10, 1, record_start(1));
    case("ramdisk first", roll(&[3, 1, 2]), first);
    let second = refused(10, 2, record_start(2));
    case("ramdisk before the kernel", roll(&[2, 3, 1]), second);
    let end = record_start(END_RECORD);
    for cut in [end, end + RECORD_HEAD - 1] {
        let answer = refused(16, END_RECORD, end);
        case("end record cut", whole[..cut].to_vec(), answer);
    }
    let long_end = [&whole[..end], &record(1, 0, b"x")].concat();
    let answer = refused(17, END_RECORD, end);
    case("end record with data", long_end, answer);
    let one_more: Vec<u16> = record_types().into_iter().chain([3]).collect();
    case("a 33rd record", roll(&one_more), refused(5, 0, end));
    let longer = [&whole[..], &[0]].concat();
    let answer = refused(18, 0, end + RECORD_HEAD);
    case("a byte after the end record", longer, answer);
    cases
}

/// 16, 17 and 11. What may be wrong with the flags record stands beside [`roll_cases`](crate::roll_cases).
fn located_records() -> Vec<RollCase> {
    let mut cases = Vec::new();
    let mut case = |name, roll, answer: Answer| cases.push(RollCase::refused(name, roll, answer));
    let whole = roll(&record_types());
    for index in RECORDS {
        let start = record_start(index);
        // Before its head, inside its head and before its data.
        for cut in [start, start + RECORD_HEAD - 1, start + RECORD_HEAD] {
            case("cut", whole[..cut].to_vec(), refused(16, index, start));
        }
        let mut types = record_types();
        types[index - 1] = 256;
        case("type 256", roll(&types), refused(17, index, start));
        if index > 1 {
            types[index - 1] = 1;
            case("second kernel", roll(&types), refused(11, index, start));
        }
    }
    for cut in [0, RECORD_HEAD - 1, RECORD_HEAD, FLAGS_RECORD - 1] {
        case("flags record cut", whole[..cut].to_vec(), (16, 0, 0));
    }
    let no_flags = whole[FLAGS_RECORD..].to_vec();
    case("no flags record", no_flags, (17, 0, 0));
    let repeated = refused(11, 2, record_start(2));
    case("second command line, at 2", roll(&[2, 2, 1]), repeated);
    cases
}

/// A plan, what is lent for it, and what writing it answers.
pub struct PlanCase {
    /// What the plan shows.
    pub name: &'static str,
    /// Its version.
    pub version: u16,
    /// Type and length of each section.
    pub sections: Vec<(u16, u64)>,
    /// How many bytes of data are lent.
    pub data: usize,
    /// How many bytes the output has.
    pub room: usize,
    /// The refusal.
    pub answer: Answer,
}

/// A plan with a section of one byte for each type, its data and room for its image.
fn plan(name: &'static str, version: u16, types: &[u16], number: u8, index: u64) -> PlanCase {
    PlanCase {
        name,
        version,
        sections: types.iter().map(|&kind| (kind, 1)).collect(),
        data: types.len(),
        room: start_of(types.len()),
        answer: (number, index, 0),
    }
}

/// Each number of writing an image. None of them has a position.
pub fn located_plans() -> Vec<PlanCase> {
    let mut cases = vec![
        plan("wrong version", 1, &types(), 4, 0),
        plan("wrong version", 5, &types(), 4, 0),
        plan("count 1", 4, &[1], 5, 0),
        plan("count 33", 4, &[3; 33], 5, 0),
        plan("ramdisk first", 4, &[3, 1, 2, 5], 10, 0),
        plan("ramdisk before the kernel", 4, &[2, 5, 3, 1], 10, 2),
        plan("ramdisk last, no kernel", 4, &[2, 5, 4, 3], 10, 3),
        plan("second kernel, at 1", 4, &with_type(1, 1), 11, 1),
        plan("second signature", 4, &with_type(15, 4), 11, 15),
        plan("second metadata, last", 4, &with_type(31, 5), 11, 31),
        plan("no metadata", 4, &[1, 2], 12, 0),
    ];
    for index in SECTIONS {
        let types = with_type(index, 6);
        cases.push(plan("type not allowed", 4, &types, 9, index as u64));
    }
    let mut long = plan("the last of them too long", 4, &types(), 1, 0);
    long.sections[31].1 = u64::MAX;
    let mut data = plan("data one short", 4, &types(), 15, 0);
    data.data -= 1;
    let mut room = plan("room one short", 4, &types(), 14, 0);
    room.room -= 1;
    cases.extend([long, data, room]);
    cases
}
