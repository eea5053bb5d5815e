//! Writing the plain image of a plan.

use crate::image::checksum;
use crate::rules::*;

/// A section to be written.
#[derive(Clone, Copy, Debug, Default, PartialEq, Eq)]
pub struct Place {
    /// Its type.
    pub kind: u16,
    /// Its flags.
    pub flags: u16,
    /// How many bytes of data it has.
    pub length: u64,
}

/// An image to be written.
#[derive(Clone, Debug, PartialEq, Eq)]
pub struct Plan {
    /// 2, 3 or 4, or the plan is refused.
    pub version: u16,
    /// Carried as it is.
    pub flags: u16,
    /// Carried as it is.
    pub default_mem: u64,
    /// Carried as it is.
    pub default_cpus: u64,
    /// How many of `places` are used.
    pub count: u16,
    /// The sections in file order; places past the count are ignored.
    pub places: [Place; MAX_SECTIONS],
}

/// The length of the plan's image.
pub fn plan_length(plan: &Plan) -> Result<usize, Refusal> {
    if !known_version(plan.version) {
        return refuse(4, 0);
    }
    let count = usize::from(plan.count);
    if !(2..=MAX_SECTIONS).contains(&count) {
        return refuse(5, 0);
    }
    let places = &plan.places[..count];
    let mut seen = Seen::default();
    for (index, place) in places.iter().enumerate() {
        if !allowed(place.kind, plan.version) {
            return refuse(9, index);
        }
        seen.add(place.kind, index, 0)?;
    }
    seen.complete(plan.version, 0)?;

    let sum: u128 = places.iter().map(|place| u128::from(place.length)).sum();
    let total = (HEADER + SECTION_HEADER * count) as u128 + sum;
    if total > MAX_IMAGE as u128 {
        return refuse(1, 0);
    }
    Ok(total as usize)
}

/// Writes the plain image of `plan`, with `data` as the sections' data joined, over the start of
/// `out`. Answers the image's length.
pub fn write(plan: &Plan, data: &[u8], out: &mut [u8]) -> Result<usize, Refusal> {
    let total = plan_length(plan)?;
    let places = &plan.places[..usize::from(plan.count)];
    if total - HEADER - SECTION_HEADER * places.len() != data.len() {
        return refuse(15, 0);
    }
    if out.len() < total {
        return refuse(14, 0);
    }
    write_image(plan, places, data, &mut out[..total]);
    Ok(total)
}

/// Fills `image`, which is as long as the plan's image.
fn write_image(plan: &Plan, places: &[Place], data: &[u8], image: &mut [u8]) {
    put(image, 0, &header(plan));
    let mut offset = HEADER;
    let mut rest = data;
    for place in places {
        put(image, offset, &section_header(place));
        let (section, others) = rest.split_at(place.length as usize);
        put(image, offset + SECTION_HEADER, section);
        offset += SECTION_HEADER + section.len();
        rest = others;
    }
    let checksum = checksum(image);
    put(image, CHECKSUM_AT, &checksum.to_be_bytes());
}

/// The header of an accepted plan's image, with zero in the checksum field.
pub(crate) fn header(plan: &Plan) -> [u8; HEADER] {
    let mut header = [0; HEADER];
    put(&mut header, 0, &MAGIC);
    put(&mut header, VERSION_AT, &plan.version.to_be_bytes());
    put(&mut header, FLAGS_AT, &plan.flags.to_be_bytes());
    put(&mut header, MEM_AT, &plan.default_mem.to_be_bytes());
    put(&mut header, CPUS_AT, &plan.default_cpus.to_be_bytes());
    put(&mut header, COUNT_AT, &plan.count.to_be_bytes());
    let mut offset = HEADER as u64;
    for (index, place) in plan.places[..usize::from(plan.count)].iter().enumerate() {
        put(&mut header, OFFSETS_AT + 8 * index, &offset.to_be_bytes());
        let size = place.length.to_be_bytes();
        put(&mut header, SIZES_AT + 8 * index, &size);
        offset += SECTION_HEADER as u64 + place.length;
    }
    header
}

/// The own header of a section.
pub(crate) fn section_header(place: &Place) -> [u8; SECTION_HEADER] {
    let mut header = [0; SECTION_HEADER];
    put(&mut header, 0, &place.kind.to_be_bytes());
    put(&mut header, 2, &place.flags.to_be_bytes());
    put(&mut header, 4, &place.length.to_be_bytes());
    header
}

pub(crate) fn put(out: &mut [u8], at: usize, bytes: &[u8]) {
    out[at..at + bytes.len()].copy_from_slice(bytes);
}
