//! One section of an image replaced, with no room for a second image (FORMAT.md, Staging).
//!
//! A base is an image, and a replacement stands for the data of one of its sections, named by its number.
//! What is answered is that of the image written afresh: the plain image of the base's reading with the
//! replacement in the section's place. That image is not built, but by [`write_to_vec`]. [`Reader`] gives its bytes in
//! pieces.
//!
//! ```
//! use eif::{staged, DataLength, Place, Plan, SectionType};
//!
//! let places = vec![
//!     Place::new(SectionType::KERNEL, DataLength(4)),
//!     Place::new(SectionType::COMMAND_LINE, DataLength(5)),
//!     Place::new(SectionType::RAMDISK, DataLength(3)),
//! ];
//! let plan = Plan { version: 2, places, ..Plan::default() };
//! let base = eif::write_to_vec(&plan, b"kernquietold")?;
//!
//! // Section 2 replaced: each section's data, a part of the base or the replacement.
//! let mended = b"mended";
//! assert_eq!(staged::section(&base, mended, 2, 1)?, b"quiet");
//! assert_eq!(staged::section(&base, mended, 2, 2)?, mended);
//!
//! // The roll, the registers and the fingerprint, before the image is written.
//! let roll = staged::roll_to_vec(&base, mended, 2)?;
//! let registers = staged::registers(&base, mended, 2)?;
//! let fingerprint = staged::fingerprint(&base, mended, 2)?;
//! let image = staged::write_to_vec(&base, mended, 2)?;
//! assert_eq!(roll, eif::roll_to_vec(&image)?);
//! assert_eq!(registers, eif::registers(&image)?);
//! assert_eq!(fingerprint, eif::fingerprint(&image)?);
//!
//! // There is no section 3.
//! assert_eq!(staged::section(&base, mended, 3, 0).unwrap_err().number(), 27);
//! # Ok::<(), eif::Refusal>(())
//! ```

use crate::image::part_of;
use crate::raw::staged as raw;
use crate::{DataLength, Fingerprint, Refusal, Registers};

pub use crate::staged_writing::{Reader, Writing};

/// The data of section `shown` of `base` with section `replaced` replaced: a part of one of the two slices,
/// never a copy. The base is read for it.
///
/// # Errors
///
/// The base's own refusal; then 27 where `replaced` or `shown` is at or past the number of sections; then 1
/// where the image written afresh would be too long.
pub fn section<'a>(
    base: &'a [u8],
    replacement: &'a [u8],
    replaced: usize,
    shown: usize,
) -> Result<&'a [u8], Refusal> {
    let part = part(base, replacement, replaced, shown)?;
    let held = match part.in_replacement {
        0 => base,
        _ => replacement,
    };
    // An accepted part lies in the slice that it names.
    Ok(part_of(held, part.start, part.length).unwrap_or_default())
}

fn part(
    base: &[u8],
    replacement: &[u8],
    replaced: usize,
    shown: usize,
) -> Result<raw::StagedPart, Refusal> {
    let size = replacement.len() as u64;
    let part = raw::staged_part(base, size, replaced as u64, shown as u64);
    Refusal::check(part.number, part.index, part.position)?;
    Ok(part)
}

/// The length of the roll of the image written afresh.
///
/// # Errors
///
/// The base's own refusal, then 27, then 1.
pub fn roll_length(base: &[u8], replacement: &[u8], replaced: usize) -> Result<usize, Refusal> {
    raw::staged_roll_length(base, replacement, replaced as u64).accepted_part()
}

/// Writes the roll of the image written afresh over the start of `out` and answers its length. Bytes of
/// `out` past the roll stay.
///
/// # Errors
///
/// The base's own refusal, then 27, then 1, then 14 where `out` is shorter than the roll. `out` is then
/// unchanged.
pub fn write_roll(
    base: &[u8],
    replacement: &[u8],
    replaced: usize,
    out: &mut [u8],
) -> Result<usize, Refusal> {
    raw::staged_roll_write(base, replacement, replaced as u64, out).accepted_part()
}

/// The roll of the image written afresh. The base is read twice.
///
/// # Errors
///
/// The base's own refusal, then 27, then 1.
pub fn roll_to_vec(base: &[u8], replacement: &[u8], replaced: usize) -> Result<Vec<u8>, Refusal> {
    let mut roll = vec![0; roll_length(base, replacement, replaced)?];
    write_roll(base, replacement, replaced, &mut roll)?;
    Ok(roll)
}

/// The registers of the image written afresh.
///
/// # Errors
///
/// The base's own refusal, then 27, then 1.
pub fn registers(base: &[u8], replacement: &[u8], replaced: usize) -> Result<Registers, Refusal> {
    raw::staged_registers(base, replacement, replaced as u64).accepted()
}

/// The fingerprint of the image written afresh. Each section is hashed where it lies.
///
/// # Errors
///
/// The base's own refusal, then 27, then 1.
pub fn fingerprint(
    base: &[u8],
    replacement: &[u8],
    replaced: usize,
) -> Result<Fingerprint, Refusal> {
    raw::staged_fingerprint(base, replacement, replaced as u64).accepted()
}

/// The image written afresh, by [`write()`](crate::write()). It is a second image, with the joined data
/// beside it while it is written. [`Reader`] needs memory for neither.
///
/// # Errors
///
/// The base's own refusal, then 27, then 1.
pub fn write_to_vec(base: &[u8], replacement: &[u8], replaced: usize) -> Result<Vec<u8>, Refusal> {
    part(base, replacement, replaced, replaced)?;
    let image = crate::read(base)?;
    let mut plan = image.plan();
    let mut data: Vec<&[u8]> = image.iter().map(|(_, data)| data).collect();
    // Both have as many as there are sections, and 27 was refused above.
    if let (Some(place), Some(data)) = (plan.places.get_mut(replaced), data.get_mut(replaced)) {
        place.length = DataLength(replacement.len() as u64);
        *data = replacement;
    }
    crate::write_to_vec(&plan, &data.concat())
}
