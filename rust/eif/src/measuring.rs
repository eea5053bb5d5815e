//! Measuring an image while it arrives.

use crate::raw::measuring::{measuring_begin, measuring_feed, measuring_finish, Measuring};
use crate::state::{over_state, while_arriving};
use crate::{Reading, Refusal, Registers};
use std::io;

/// The registers of an image that arrives in pieces of any size (FORMAT.md, Registers). It keeps 1,552 bytes, however
/// long the file is. Each byte is hashed when it arrives, for the streams that its section is in.
///
/// ```
/// use eif::{ArrivingRegisters, DataLength, Place, Plan, SectionType};
///
/// let places = vec![
///     Place::new(SectionType::KERNEL, DataLength(4)),
///     Place::new(SectionType::COMMAND_LINE, DataLength(5)),
/// ];
/// let plan = Plan { version: 2, places, ..Plan::default() };
/// let image = eif::write_to_vec(&plan, b"kernquiet")?;
///
/// let mut arriving = ArrivingRegisters::new();
/// for piece in image.chunks(100) {
///     assert_eq!(arriving.feed(piece), piece.len());
/// }
/// let (reading, registers) = arriving.finish()?;
/// assert_eq!(reading.sections().len(), 2);
/// assert_eq!(registers, eif::registers(&image)?);
/// # Ok::<(), eif::Refusal>(())
/// ```
///
/// It is a [`Write`](io::Write), so a file can be copied into it:
///
/// ```
/// let mut arriving = eif::ArrivingRegisters::new();
/// std::io::copy(&mut &b"no image"[..], &mut arriving)?;
/// assert_eq!(arriving.finish().unwrap_err().number(), 2);
/// # Ok::<(), std::io::Error>(())
/// ```
///
/// Sections can be stored in the same pass. [`arriving`](ArrivingRegisters::arriving) returns a copy, so it is taken
/// anew for each part:
///
/// ```
/// # use eif::{ArrivingRegisters, DataLength, Place, Plan, SectionType};
/// # let places = vec![
/// #     Place::new(SectionType::KERNEL, DataLength(4)),
/// #     Place::new(SectionType::COMMAND_LINE, DataLength(5)),
/// # ];
/// # let plan = Plan { version: 2, places, ..Plan::default() };
/// # let image = eif::write_to_vec(&plan, b"kernquiet")?;
/// let mut measuring = ArrivingRegisters::new();
/// let mut kernel = Vec::new();
/// for mut piece in image.chunks(100) {
///     while !piece.is_empty() {
///         let arriving = measuring.arriving();
///         let span = arriving.next(piece.len() as u64);
///         let count = measuring.feed_at_most(piece, span.length);
///         if count == 0 {
///             break; // after the end nothing is taken
///         }
///         let is_kernel = |index| arriving.section_type(index) == Some(SectionType::KERNEL);
///         if span.section.is_some_and(is_kernel) {
///             kernel.extend_from_slice(&piece[..count]);
///         }
///         piece = &piece[count..];
///     }
/// }
/// // Only now is it known that what was stored is a kernel.
/// let (_, registers) = measuring.finish()?;
/// assert_eq!(kernel, b"kern");
/// # assert_eq!(registers, eif::registers(&image)?);
/// # Ok::<(), eif::Refusal>(())
/// ```
#[derive(Clone, Debug, PartialEq, Eq)]
pub struct ArrivingRegisters(Measuring);

impl ArrivingRegisters {
    /// No byte taken yet.
    pub fn new() -> Self {
        ArrivingRegisters(measuring_begin())
    }

    /// Ends the file. The answer is the reading that [`read`](crate::read) gives of the bytes taken, and their
    /// [`registers`](crate::registers()). Ending again gives the same.
    ///
    /// # Errors
    ///
    /// The first of 1 to 13 and 20 that applies, in the order of reading.
    pub fn finish(&mut self) -> Result<(Reading, Registers), Refusal> {
        let finished = measuring_finish(self.0);
        self.0 = finished.state;
        let reading = Reading::accepted(finished.reading)?;
        Ok((reading, Registers(finished.registers)))
    }
}

over_state!(ArrivingRegisters, Measuring);
while_arriving!(ArrivingRegisters, measuring_feed);
