//! One section of an image replaced: the image written afresh, its roll, its registers and its fingerprint.

use crate::fingerprint::fingerprint;
use crate::image::{read, Reading};
use crate::plan::{plan_length, write, Place, Plan};
use crate::registers::registers;
use crate::roll::write_roll;
use crate::rules::*;

/// Where the data of a section lies.
#[derive(Clone, Copy, Debug, PartialEq, Eq)]
pub struct StagedPart {
    /// In the replacement, whole; or in the base.
    pub in_replacement: bool,
    /// Where it begins there.
    pub start: usize,
    /// How many bytes it has.
    pub length: u64,
}

/// The base's reading, and the plan of the image written afresh with section `replaced` having `size` bytes.
/// Refused as every call here is: by the base's refusal; by 27 for either number; by 1.
pub(crate) fn staged_plan(
    base: &[u8],
    size: u64,
    replaced: u64,
    shown: u64,
) -> Result<(Reading, Plan), Refusal> {
    let reading = read(base)?;
    let count = reading.sections.len();
    if replaced.max(shown) >= count as u64 {
        return refuse(27, 0);
    }
    let mut plan = Plan {
        version: reading.version,
        flags: reading.flags,
        default_mem: reading.default_mem,
        default_cpus: reading.default_cpus,
        count: count as u16,
        places: [Place::default(); MAX_SECTIONS],
    };
    for (place, section) in plan.places.iter_mut().zip(&reading.sections) {
        *place = Place {
            kind: section.kind,
            flags: section.flags,
            length: section.length as u64,
        };
    }
    plan.places[replaced as usize].length = size;
    plan_length(&plan)?;
    Ok((reading, plan))
}

/// Where the data of section `shown` lies, of `base` with section `replaced` replaced by `size` bytes.
pub fn staged_part(
    base: &[u8],
    size: u64,
    replaced: u64,
    shown: u64,
) -> Result<StagedPart, Refusal> {
    let (reading, plan) = staged_plan(base, size, replaced, shown)?;
    let in_replacement = shown == replaced;
    let shown = shown as usize;
    Ok(StagedPart {
        in_replacement,
        start: if in_replacement {
            0
        } else {
            reading.sections[shown].position
        },
        length: plan.places[shown].length,
    })
}

/// The image written afresh: that of the base's plan, with the replacement in the place of its section.
pub fn staged_image(base: &[u8], replacement: &[u8], replaced: u64) -> Result<Vec<u8>, Refusal> {
    let size = replacement.len() as u64;
    let (reading, plan) = staged_plan(base, size, replaced, replaced)?;
    let mut data: Vec<&[u8]> = reading.sections.iter().map(|s| s.data(base)).collect();
    data[replaced as usize] = replacement;
    let mut image = vec![0; plan_length(&plan)?];
    write(&plan, &data.concat(), &mut image)?;
    Ok(image)
}

/// Writes the roll of the image written afresh over the start of `out`. Answers the roll's length.
pub fn write_staged_roll(
    base: &[u8],
    replacement: &[u8],
    replaced: u64,
    out: &mut [u8],
) -> Result<usize, Refusal> {
    write_roll(&staged_image(base, replacement, replaced)?, out)
}

/// The registers of the image written afresh.
pub fn staged_registers(
    base: &[u8],
    replacement: &[u8],
    replaced: u64,
) -> Result<[[u8; 48]; 3], Refusal> {
    registers(&staged_image(base, replacement, replaced)?)
}

/// The fingerprint of the image written afresh.
pub fn staged_fingerprint(
    base: &[u8],
    replacement: &[u8],
    replaced: u64,
) -> Result<[u8; 48], Refusal> {
    fingerprint(&staged_image(base, replacement, replaced)?)
}
