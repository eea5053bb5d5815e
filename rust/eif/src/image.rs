//! Reading an image.

use crate::raw::readings;
use crate::{
    raw, Architecture, DataLength, FilePosition, Fingerprint, Place, Plan, Refusal, Registers,
    Section, SectionType, SECTION_HEADER_LENGTH,
};
use std::ops::Deref;

impl Section {
    /// Where its header begins in the file, which is what the image's table says of it.
    pub fn offset(&self) -> FilePosition {
        FilePosition(self.position.0.saturating_sub(SECTION_HEADER_LENGTH as u64))
    }
}

/// What an accepted image holds, without its bytes.
#[derive(Clone, Debug, PartialEq, Eq)]
pub struct Reading {
    answer: raw::Reading,
}

/// An accepted image: its bytes, borrowed, and its [`Reading`], whose methods are the image's too.
#[derive(Clone, Debug)]
pub struct Image<'a> {
    bytes: &'a [u8],
    reading: Reading,
}

impl Deref for Image<'_> {
    type Target = Reading;

    fn deref(&self) -> &Reading {
        &self.reading
    }
}

/// Reads an image (FORMAT.md, Reading an image). Every byte of one that is accepted is in its header or in
/// a section.
///
/// ```
/// // A zero-filled file of 548 bytes has the wrong magic.
/// assert_eq!(eif::read(&[0; 548]).unwrap_err().number(), 3);
/// ```
///
/// # Errors
///
/// The first of 1 to 13 and 20 that applies, in the order of reading.
pub fn read(image: &[u8]) -> Result<Image<'_>, Refusal> {
    Image::accepted(image, raw::read(image))
}

/// Reads an image as [`read`] does, and then refuses metadata that is not one JSON text, as
/// [`json::check`](crate::json::check) judges it (FORMAT.md, Stricter reading).
///
/// ```
/// use eif::{DataLength, Place, Plan, SectionType};
///
/// let packed = |metadata: &str| {
///     let places = vec![
///         Place::new(SectionType::KERNEL, DataLength(1)),
///         Place::new(SectionType::COMMAND_LINE, DataLength(1)),
///         Place::new(SectionType::METADATA, DataLength(metadata.len() as u64)),
///     ];
///     let plan = Plan { version: 4, places, ..Plan::default() };
///     eif::write_to_vec(&plan, format!("Ka{metadata}").as_bytes())
/// };
///
/// assert!(eif::read_strict(&packed(r#"{"name": "river"}"#)?).is_ok());
///
/// // Cut off in the middle, and packed like that: the file itself is whole.
/// let cut = packed(r#"{"name": "ri"#)?;
/// assert!(eif::read(&cut).is_ok());
/// let refusal = eif::read_strict(&cut).unwrap_err();
/// assert_eq!((refusal.number(), refusal.index()), (21, 2));
/// # Ok::<(), eif::Refusal>(())
/// ```
///
/// # Errors
///
/// The image's own refusal, and then 21 with the index of the metadata section.
pub fn read_strict(image: &[u8]) -> Result<Image<'_>, Refusal> {
    Image::accepted(image, raw::read_strict(image))
}

/// The data at a position of an accepted image, which lies in the image.
pub(crate) fn data_at(image: &[u8], position: FilePosition, length: DataLength) -> &[u8] {
    part_of(image, position.0, length).unwrap_or_default()
}

/// The `length` bytes of `bytes` from `start` on, if `bytes` has them all.
pub(crate) fn part_of(bytes: &[u8], start: u64, length: DataLength) -> Option<&[u8]> {
    let start = usize::try_from(start).ok()?;
    let length = usize::try_from(length.0).ok()?;
    bytes.get(start..)?.get(..length)
}

impl Reading {
    /// The reading that a reader answered, or its refusal.
    pub(crate) fn accepted(answer: raw::Reading) -> Result<Reading, Refusal> {
        Refusal::check(answer.number, answer.index, answer.position)?;
        Ok(Reading { answer })
    }

    /// What the reader answered.
    pub(crate) fn answer(&self) -> raw::Reading {
        self.answer
    }

    /// The header's version: 2, 3 or 4.
    pub fn version(&self) -> u16 {
        self.answer.version
    }

    /// The header's flags, carried and not judged.
    pub fn flags(&self) -> u16 {
        self.answer.flags
    }

    /// The processor that the flags tell.
    pub fn architecture(&self) -> Architecture {
        // The answer has their lowest bit alone.
        Architecture::of_flags(self.answer.architecture)
    }

    /// The header's default_mem, carried and not judged.
    pub fn default_mem(&self) -> u64 {
        self.answer.default_mem
    }

    /// The header's default_cpus, carried and not judged.
    pub fn default_cpus(&self) -> u64 {
        self.answer.default_cpus
    }

    /// The sections in file order, 2 to 32 of them.
    pub fn sections(&self) -> &[Section] {
        let count = usize::from(self.answer.count);
        self.answer.sections.get(..count).unwrap_or_default()
    }

    /// The ramdisk mark: bit i is one exactly when section i is a ramdisk.
    pub fn ramdisk_mark(&self) -> u32 {
        self.answer.ramdisk_mark
    }

    /// How many sections are ramdisks.
    pub fn ramdisk_count(&self) -> usize {
        self.answer.ramdisk_count as usize
    }

    /// The index of the first ramdisk.
    pub fn first_ramdisk(&self) -> Option<usize> {
        let first = self.answer.first_ramdisk;
        (first != raw::NO_RAMDISK).then_some(first as usize)
    }

    /// The plan with this image's fields and sections. Where the image is plain, so where its reserved fields
    /// and unused table entries are zero, [`write`](crate::write) of this plan and of
    /// [`joined_data`](Image::joined_data) gives the image again.
    pub fn plan(&self) -> Plan {
        let place = |section: &Section| Place {
            section_type: section.section_type,
            flags: section.flags,
            length: section.length,
        };
        Plan {
            version: self.version(),
            flags: self.flags(),
            default_mem: self.default_mem(),
            default_cpus: self.default_cpus(),
            places: self.sections().iter().map(place).collect(),
        }
    }
}

impl<'a> Image<'a> {
    /// The image that a reader answered of `bytes`, or its refusal.
    fn accepted(bytes: &'a [u8], answer: raw::Reading) -> Result<Image<'a>, Refusal> {
        let reading = Reading::accepted(answer)?;
        Ok(Image { bytes, reading })
    }

    /// The image's bytes, those that were read.
    pub fn bytes(&self) -> &'a [u8] {
        self.bytes
    }

    /// The data of section `index`. None if `index` is at or past the number of sections; an empty section has
    /// `Some` data of no bytes.
    ///
    /// ```
    /// use eif::{DataLength, Place, Plan, SectionType};
    ///
    /// let places = vec![
    ///     Place::new(SectionType::KERNEL, DataLength(4)),
    ///     Place::new(SectionType::COMMAND_LINE, DataLength(0)),
    /// ];
    /// let plan = Plan { version: 2, places, ..Plan::default() };
    /// let bytes = eif::write_to_vec(&plan, b"kern")?;
    /// let image = eif::read(&bytes)?;
    /// assert_eq!(image.section_data(0), Some(&b"kern"[..]));
    /// assert_eq!(image.section_data(1), Some(&[][..]));
    /// assert_eq!(image.section_data(2), None);
    /// assert_eq!(image.section_data(usize::MAX), None);
    /// # Ok::<(), eif::Refusal>(())
    /// ```
    pub fn section_data(&self, index: usize) -> Option<&'a [u8]> {
        self.get(index).map(|(_, data)| data)
    }

    /// Section `index` and its data. None if `index` is at or past the number of sections.
    pub fn get(&self, index: usize) -> Option<(Section, &'a [u8])> {
        let section = *self.sections().get(index)?;
        Some((section, self.data_of(section)))
    }

    /// The sections with their data, in file order.
    pub fn iter(&self) -> impl DoubleEndedIterator<Item = (Section, &'a [u8])> + '_ {
        let sections = self.sections().iter();
        sections.map(|&section| (section, self.data_of(section)))
    }

    /// The data of the sections of one type, in file order.
    pub fn data_of_type(&self, wanted: SectionType) -> impl Iterator<Item = &'a [u8]> + '_ {
        let wanted = move |(section, _): &(Section, _)| section.section_type == wanted;
        self.iter().filter(wanted).map(|(_, data)| data)
    }

    /// The kernel's data. Every accepted image has one kernel.
    pub fn kernel(&self) -> &'a [u8] {
        self.only(SectionType::KERNEL)
    }

    /// The command line's data. Every accepted image has one command line.
    pub fn command_line(&self) -> &'a [u8] {
        self.only(SectionType::COMMAND_LINE)
    }

    /// The metadata, which every accepted image of version 4 has, and no other.
    pub fn metadata(&self) -> Option<&'a [u8]> {
        self.data_of_type(SectionType::METADATA).next()
    }

    /// The data of the ramdisks, in file order.
    pub fn ramdisks(&self) -> impl Iterator<Item = &'a [u8]> + '_ {
        self.data_of_type(SectionType::RAMDISK)
    }

    fn only(&self, section_type: SectionType) -> &'a [u8] {
        self.data_of_type(section_type).next().unwrap_or_default()
    }

    fn data_of(&self, section: Section) -> &'a [u8] {
        data_at(self.bytes, section.position, section.length)
    }

    /// The image's registers. The image is read again for them.
    pub fn registers(&self) -> Registers {
        // These bytes were accepted, so there is no refusal.
        Registers(raw::registers(self.bytes).registers)
    }

    /// The image's fingerprint. Its checksum is not computed again.
    pub fn fingerprint(&self) -> Fingerprint {
        // The reading is accepted, so there is no refusal.
        Fingerprint(readings::read_fingerprint(self.bytes, self.answer()).digest)
    }

    /// The image's boot roll. Its checksum is not computed again.
    pub fn roll(&self) -> Vec<u8> {
        // The reading is accepted, and the second call has the length of the first as its room, so there is no refusal.
        // The roll is shorter than the image, so its length is a usize.
        let length = readings::read_roll_length(self.bytes, self.answer()).length;
        let mut roll = vec![0; length as usize];
        readings::read_roll_write(self.bytes, self.answer(), &mut roll);
        roll
    }

    /// The data of all sections, joined in file order.
    pub fn joined_data(&self) -> Vec<u8> {
        let data: Vec<&[u8]> = self.iter().map(|(_, data)| data).collect();
        data.concat()
    }
}
