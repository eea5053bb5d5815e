//! Writing the plain image of a plan.

use crate::{raw, DataLength, Refusal, SectionType, MAX_SECTIONS};

/// A section to be written.
#[repr(C)]
#[derive(Clone, Copy, Debug, Default, PartialEq, Eq)]
pub struct Place {
    /// Its type.
    pub section_type: SectionType,
    /// Its flags, carried and not judged.
    pub flags: u16,
    /// How many bytes of data it has.
    pub length: DataLength,
}

impl Place {
    /// A section with flags 0.
    pub fn new(section_type: SectionType, length: DataLength) -> Self {
        Place {
            section_type,
            flags: 0,
            length,
        }
    }
}

/// An image to be written.
#[derive(Clone, Debug, Default, PartialEq, Eq)]
pub struct Plan {
    /// 2, 3 or 4, or the plan is refused.
    pub version: u16,
    /// The header's flags, carried and not judged.
    pub flags: u16,
    /// The header's default_mem, carried and not judged.
    pub default_mem: u64,
    /// The header's default_cpus, carried and not judged.
    pub default_cpus: u64,
    /// The sections in file order: 2 to 32, or the plan is refused.
    pub places: Vec<Place>,
}

impl Plan {
    pub(crate) fn to_raw(&self) -> raw::Plan {
        let mut places = [Place::default(); MAX_SECTIONS];
        for (to, from) in places.iter_mut().zip(&self.places) {
            *to = *from;
        }
        raw::Plan {
            version: self.version,
            flags: self.flags,
            default_mem: self.default_mem,
            default_cpus: self.default_cpus,
            // A count that the field cannot hold is as far above 32 as the most that it can.
            count: u16::try_from(self.places.len()).unwrap_or(u16::MAX),
            places,
        }
    }
}

/// The length of the image of `plan`.
///
/// # Errors
///
/// The first of 4, 5, 9 to 12 and 1 that applies, in the order of writing.
pub fn plan_length(plan: &Plan) -> Result<usize, Refusal> {
    raw::plan_length(plan.to_raw()).accepted_part()
}

/// Writes the plain image of `plan` over the start of `out` and answers the image's length (FORMAT.md,
/// Writing an image).
///
/// `data` is the sections' data joined in the plan's order. Bytes of `out` past the image stay.
///
/// ```
/// let plan = eif::Plan::default();
/// // Version 0 is refused.
/// assert_eq!(eif::write(&plan, &[], &mut []).unwrap_err().number(), 4);
/// ```
///
/// # Errors
///
/// The first of 4, 5, 9 to 12, 1, 15 and 14 that applies, in the order of writing. `out` is then
/// unchanged.
pub fn write(plan: &Plan, data: &[u8], out: &mut [u8]) -> Result<usize, Refusal> {
    raw::write(plan.to_raw(), data, out).accepted_part()
}

/// The plain image of `plan`, with `data` as the sections' data joined in the plan's order.
///
/// ```
/// use eif::{DataLength, Place, Plan, SectionType};
///
/// let plan = Plan {
///     version: 2,
///     places: vec![
///         Place::new(SectionType::KERNEL, DataLength(4)),
///         Place::new(SectionType::COMMAND_LINE, DataLength(5)),
///     ],
///     ..Plan::default()
/// };
/// let bytes = eif::write_to_vec(&plan, b"kernquiet")?;
/// assert_eq!(eif::read(&bytes)?.command_line(), b"quiet");
/// # Ok::<(), eif::Refusal>(())
/// ```
///
/// # Errors
///
/// The first of 4, 5, 9 to 12, 1 and 15 that applies, in the order of writing.
pub fn write_to_vec(plan: &Plan, data: &[u8]) -> Result<Vec<u8>, Refusal> {
    let mut image = vec![0; plan_length(plan)?];
    write(plan, data, &mut image)?;
    Ok(image)
}
