//! Images: valid, damaged and hostile.

use crate::{any_text, Rng};
use eif_cases::*;

/// A layout that meets every rule.
pub fn accepted_layout(rng: &mut Rng) -> Layout {
    let version = rng.pick(&[2, 3, 4]);
    let mut types = vec![1, 2];
    if version >= 3 && rng.once_in(2) {
        types.push(4);
    }
    if version == 4 {
        types.push(5);
    }
    for place in (1..types.len()).rev() {
        types.swap(place, rng.below(place + 1));
    }
    let room = MAX_SECTIONS - types.len();
    let ramdisks = match rng.below(8) {
        0 => room,
        1 => rng.below(room + 1),
        few => few / 2,
    };
    let kernel = types.iter().position(|&kind| kind == 1).unwrap_or(0);
    for _ in 0..ramdisks {
        let place = kernel + 1 + rng.below(types.len() - kernel);
        types.insert(place, 3);
    }
    let sections = types.into_iter().map(|kind| any_section(rng, kind));
    Layout {
        version,
        sections: sections.collect(),
        flags: any_or_zero(rng) as u16,
        default_mem: any_or_zero(rng),
        default_cpus: any_or_zero(rng),
    }
}

fn any_or_zero(rng: &mut Rng) -> u64 {
    if rng.once_in(2) {
        rng.next()
    } else {
        0
    }
}

fn any_section(rng: &mut Rng, kind: u16) -> Section {
    let length = match rng.below(16) {
        0..=3 => 0,
        4..=11 => 1 + rng.below(4),
        12..=14 => rng.below(40),
        _ => rng.below(300),
    };
    // Metadata are mostly JSON, or almost.
    let data = match kind {
        5 if !rng.once_in(4) => any_text(rng),
        _ => rng.bytes(length),
    };
    Section {
        kind,
        flags: any_or_zero(rng) as u16,
        data,
        gap: 0,
    }
}

fn any_type(rng: &mut Rng) -> u16 {
    rng.pick(&[0, 1, 2, 3, 4, 5, 6, 7, 0x0100, 0x0300, 0x0103, 0xffff])
}

/// Breaks, or only changes, the list of sections.
fn damage_layout(rng: &mut Rng, layout: &mut Layout) {
    let count = layout.sections.len();
    match rng.below(7) {
        0 => layout.version = rng.pick(&[0, 1, 2, 3, 4, 5, 0x0200, 0xffff]),
        1 if count > 0 => layout.sections[rng.below(count)].kind = any_type(rng),
        2 if count > 0 => {
            layout.sections.remove(rng.below(count));
        }
        3 if count < MAX_SECTIONS => {
            let kind = any_type(rng);
            let section = any_section(rng, kind);
            layout.sections.insert(rng.below(count + 1), section);
        }
        4 if count > 0 => layout.sections.swap(rng.below(count), rng.below(count)),
        5 if count > 0 => layout.sections[..].rotate_left(rng.below(count)),
        6 if count > 0 => layout.sections[rng.below(count)].gap = rng.pick(&[1, 1, 2, 12, 13, 400]),
        _ => {}
    }
}

/// The image of a layout with the right checksum, and with any bytes in its gaps and, as often as not, in
/// what the reader ignores: reserved fields and unused table entries.
pub fn any_image_of(rng: &mut Rng, layout: &Layout) -> Vec<u8> {
    let mut image = layout.without_checksum();
    if rng.once_in(4) {
        put(&mut image, RESERVED_AT, &rng.bytes(2));
        put(&mut image, RESERVED_AFTER_AT, &rng.bytes(4));
    }
    if rng.once_in(4) {
        let unused = ENTRY * (MAX_SECTIONS - layout.sections.len());
        put(&mut image, SIZES_AT - unused, &rng.bytes(unused));
        put(&mut image, RESERVED_AFTER_AT - unused, &rng.bytes(unused));
    }
    for (section, offset) in layout.sections.iter().zip(layout.offsets()) {
        put(&mut image, offset - section.gap, &rng.bytes(section.gap));
    }
    put_checksum(&mut image);
    image
}

/// Writes over the image where it is long enough.
fn put_if_inside(image: &mut [u8], at: usize, bytes: &[u8]) {
    if at + bytes.len() <= image.len() {
        put(image, at, bytes);
    }
}

/// The section that damage is about.
struct Target {
    index: usize,
    /// Where the section before it ends, and where its own header starts.
    before: usize,
    offset: usize,
    /// The length of its data.
    length: usize,
}

impl Target {
    fn any(rng: &mut Rng, layout: &Layout) -> Self {
        let index = rng.below(layout.sections.len().max(1));
        let offset = *layout.offsets().get(index).unwrap_or(&HEADER);
        let section = layout.sections.get(index).cloned().unwrap_or_default();
        Target {
            index,
            before: offset - section.gap,
            offset,
            length: section.data.len(),
        }
    }
}

/// Changes bytes of an image that was laid out by `layout`.
fn damage_bytes(rng: &mut Rng, image: &mut Vec<u8>, layout: &Layout) {
    let target = &Target::any(rng, layout);
    match rng.below(14) {
        0 => put_if_inside(image, rng.below(4), &[rng.next() as u8]),
        1 => damage_count(rng, image, layout.sections.len() as u16),
        2 | 3 => damage_offset(rng, image, target),
        4..=6 => damage_size(rng, image, target),
        7 => {
            let wrong = rng.hostile(target.length as u64);
            put_if_inside(image, target.offset + OWN_SIZE_AT, &wrong.to_be_bytes());
        }
        8 => put_if_inside(image, target.offset, &any_type(rng).to_be_bytes()),
        9 => image.truncate(rng.below(image.len() + 1)),
        10 => image.truncate(image.len().saturating_sub(1 + rng.below(14))),
        11 => {
            let tail = 1 + rng.below(20);
            image.extend(rng.bytes(tail));
        }
        _ => rng.flip_bit(image),
    }
}

/// Another count of sections, close to the right one or to a limit.
fn damage_count(rng: &mut Rng, image: &mut [u8], count: u16) {
    let wrong = [0, 1, 2, 31, 32, 33, 255, 256, 0x0300, 0xffff];
    let counts = [count.wrapping_sub(1), count + 1, rng.pick(&wrong)];
    put_if_inside(image, COUNT_AT, &rng.pick(&counts).to_be_bytes());
}

/// Another offset in the table.
fn damage_offset(rng: &mut Rng, image: &mut [u8], target: &Target) {
    let near = rng.pick(&[target.before, target.offset, image.len(), HEADER]);
    let wrong = rng.hostile(near as u64);
    put_if_inside(image, offset_entry(target.index), &wrong.to_be_bytes());
}

/// Another size in the table and, now and then, in the section's own header too.
fn damage_size(rng: &mut Rng, image: &mut [u8], target: &Target) {
    let rest = image.len().wrapping_sub(target.offset + SECTION_HEADER) as u64;
    let wraps = ((target.offset + SECTION_HEADER) as u64).wrapping_neg();
    let near = rng.pick(&[target.length as u64, rest, wraps]);
    let wrong = rng.hostile(near).to_be_bytes();
    put_if_inside(image, size_entry(target.index), &wrong);
    if rng.once_in(2) {
        put_if_inside(image, target.offset + OWN_SIZE_AT, &wrong);
    }
}

/// A checksum that is wrong in a way that a packer may get it wrong.
fn spoil_checksum(rng: &mut Rng, image: &mut [u8]) {
    let right = checksum_of(image);
    let wrong = match rng.below(6) {
        0 => right.wrapping_add(1),
        1 => right.wrapping_sub(1),
        2 => right.swap_bytes(),
        3 => !right,
        4 => crc32(&[&image[..CHECKSUM_AT], &[0; 4], &image[HEADER..]]),
        _ => 0,
    };
    put(image, CHECKSUM_AT, &wrong.to_be_bytes());
}

/// Any image.
pub fn any_image(rng: &mut Rng) -> Vec<u8> {
    if rng.once_in(50) {
        let header = [HEADER - 1, HEADER, HEADER + 1];
        let others = [0, 1, VERSION_AT, OFFSETS_AT];
        let length = rng.pick(&[&others[..], &header, &[600]].concat());
        return rng.bytes(length);
    }
    let mut layout = accepted_layout(rng);
    let (layout_faults, byte_faults) = rng.pick(&[
        (0, 0),
        (0, 0),
        (0, 0),
        (1, 0),
        (1, 0),
        (2, 0),
        (0, 1),
        (0, 1),
        (0, 2),
        (1, 1),
    ]);
    for _ in 0..layout_faults {
        damage_layout(rng, &mut layout);
    }
    let mut image = any_image_of(rng, &layout);
    for _ in 0..byte_faults {
        damage_bytes(rng, &mut image, &layout);
    }
    if image.len() >= HEADER {
        match rng.below(10) {
            0 => spoil_checksum(rng, &mut image),
            // Some damage stays under a checksum that no longer fits.
            1..=3 => {}
            _ => put_checksum(&mut image),
        }
    }
    image
}
