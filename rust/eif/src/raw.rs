//! The library's C interface as it is: answers with their number, and zeros beside a refusal.
//!
//! For tests, and for callers that pass the answers on. The structs are those of `eif.h`. All
//! `unsafe` code of this crate is in this module: what the library asks of a caller is that each
//! pointer and length be a slice's and that an output overlap no input, which the types here see to.

use crate::{
    DataLength, Digest, FilePosition, Place, RollPosition, SectionType, Stream, StreamPosition,
    DIGEST_LENGTH, HEADER_LENGTH, MAX_SECTIONS, REGISTERS, SECTION_HEADER_LENGTH,
    SHA384_BLOCK_LENGTH,
};
use std::mem::{align_of, offset_of, size_of};

pub mod assembler;
pub mod fingerprint;
pub mod measuring;
pub mod readings;
pub mod sign1;
pub mod staged;
pub mod staged_writing;
pub mod writing;

/// What [`Reading::first_ramdisk`] is where there is no ramdisk, and beside a refusal.
pub const NO_RAMDISK: u32 = 32;

/// A section of an accepted image.
#[repr(C)]
#[derive(Clone, Copy, Debug, Default, PartialEq, Eq)]
pub struct Section {
    /// Its type.
    pub section_type: SectionType,
    /// Its flags, carried and not judged.
    pub flags: u16,
    /// Always 0.
    pub reserved: u32,
    /// Where its data begin in the file; its header stands in the 12 bytes before.
    pub position: FilePosition,
    /// How many bytes of data it has.
    pub length: DataLength,
}

/// What [`read`] and [`read_strict`] answer.
#[repr(C)]
#[derive(Clone, Copy, Debug, Default, PartialEq, Eq)]
pub struct Reading {
    /// The answer number, 0 where the image is accepted.
    pub number: u8,
    /// Always 0.
    pub reserved: u8,
    /// The header's version.
    pub version: u16,
    /// The header's flags.
    pub flags: u16,
    /// How many sections there are.
    pub count: u16,
    /// The index beside a refusal.
    pub index: u64,
    /// Where what is at fault stands, beside a refusal.
    pub position: u64,
    /// The header's default_mem.
    pub default_mem: u64,
    /// The header's default_cpus.
    pub default_cpus: u64,
    /// Bit i is one exactly when section i is a ramdisk.
    pub ramdisk_mark: u32,
    /// How many sections are ramdisks.
    pub ramdisk_count: u32,
    /// The index of the first ramdisk, [`NO_RAMDISK`] where there is none, so also beside a refusal.
    pub first_ramdisk: u32,
    /// The lowest bit of the header's flags, 0 beside a refusal.
    pub architecture: u16,
    /// Always 0.
    pub reserved_after: u16,
    /// The sections in file order, then zeros.
    pub sections: [Section; MAX_SECTIONS],
}

/// What [`json_check`] answers.
#[repr(C)]
#[derive(Clone, Copy, Debug, Default, PartialEq, Eq)]
pub struct JsonAnswer {
    /// 1 where the bytes are one JSON text, and otherwise 0.
    pub is_text: u8,
    /// Always 0.
    pub reserved: [u8; 7],
    /// The place of the first byte that no JSON text can have after the bytes before it or, where there
    /// is none, the number of bytes. 0 where they are a text.
    pub place: u64,
}

/// What [`write()`] takes.
#[repr(C)]
#[derive(Clone, Copy, Debug, Default, PartialEq, Eq)]
pub struct Plan {
    /// The header's version.
    pub version: u16,
    /// The header's flags.
    pub flags: u16,
    /// The header's default_mem.
    pub default_mem: u64,
    /// The header's default_cpus.
    pub default_cpus: u64,
    /// How many places are used.
    pub count: u16,
    /// The sections in file order; places past the count are ignored.
    pub places: [Place; MAX_SECTIONS],
}

/// What a call that answers a length answers.
#[repr(C)]
#[derive(Clone, Copy, Debug, Default, PartialEq, Eq)]
pub struct Answer {
    /// The answer number, 0 for acceptance.
    pub number: u8,
    /// Always 0.
    pub reserved: [u8; 7],
    /// The index beside a refusal.
    pub index: u64,
    /// Where what is at fault stands, beside a refusal.
    pub position: u64,
    /// The length, 0 beside a refusal.
    pub length: u64,
}

/// A record of an accepted roll.
#[repr(C)]
#[derive(Clone, Copy, Debug, Default, PartialEq, Eq)]
pub struct RollRecord {
    /// The section's type.
    pub section_type: SectionType,
    /// Always 0.
    pub reserved: u16,
    /// Always 0.
    pub reserved_after: u32,
    /// Where the data begin in the roll.
    pub position: RollPosition,
    /// How many bytes of data there are.
    pub length: DataLength,
}

/// What [`roll_read`] answers.
#[repr(C)]
#[derive(Clone, Copy, Debug, Default, PartialEq, Eq)]
pub struct RollReading {
    /// The answer number, 0 where the roll is accepted.
    pub number: u8,
    /// Always 0.
    pub reserved: u8,
    /// The flags of the image's header, 0 beside a refusal.
    pub flags: u16,
    /// Always 0.
    pub reserved_after: u32,
    /// The index beside a refusal.
    pub index: u64,
    /// Where what is at fault stands, beside a refusal.
    pub position: u64,
    /// How many records there are, flags record and end record not counted.
    pub count: u64,
    /// The records in order, then zeros.
    pub records: [RollRecord; MAX_SECTIONS],
}

/// The sections of a stream: what [`stream_sections`] answers and [`copy_sections`] takes.
#[repr(C)]
#[derive(Clone, Copy, Debug, Default, PartialEq, Eq)]
pub struct StreamSections {
    /// How many there are. Above 32 it stands for 32.
    pub count: u64,
    /// The sections in the stream's order, then zeros.
    pub sections: [Section; MAX_SECTIONS],
}

/// A SHA-384 digest in progress. Any value whatever is one; a fresh one is [`sha384_begin`]'s.
#[repr(C)]
#[derive(Clone, Copy, Debug, PartialEq, Eq)]
pub struct Sha384 {
    /// The hash value after the whole blocks.
    pub words: [u64; 8],
    /// The bytes of the block that is being filled, the others 0.
    pub block: [u8; SHA384_BLOCK_LENGTH],
    /// How many bytes were taken in all.
    pub total: u64,
}

/// What [`sha384_update`] answers.
#[repr(C)]
#[derive(Clone, Copy, Debug, PartialEq, Eq)]
pub struct Sha384Fed {
    /// The answer number, 0 where the piece is taken.
    pub number: u8,
    /// Always 0.
    pub reserved: [u8; 7],
    /// Always 0.
    pub index: u64,
    /// Always 0.
    pub position: u64,
    /// The state after the piece; beside a refusal the state as it was.
    pub state: Sha384,
}

/// What [`registers`] answers.
#[repr(C)]
#[derive(Clone, Copy, Debug, Default, PartialEq, Eq)]
pub struct RegistersAnswer {
    /// The answer number, 0 where the image is accepted.
    pub number: u8,
    /// Always 0.
    pub reserved: [u8; 7],
    /// The index beside a refusal.
    pub index: u64,
    /// Where what is at fault stands, beside a refusal.
    pub position: u64,
    /// Registers 0, 1 and 2, all zero beside a refusal.
    pub registers: [Digest; REGISTERS],
}

/// How many bytes of the sections' own headers an [`Arriving`] keeps.
pub const SECTION_HEADERS_LENGTH: usize = MAX_SECTIONS * SECTION_HEADER_LENGTH;

/// An image that arrives in pieces. Any value whatever is one; a fresh one is [`arriving_begin`]'s.
#[repr(C)]
#[derive(Clone, Copy, Debug, PartialEq, Eq)]
pub struct Arriving {
    /// How many bytes were taken; it stays at 2 to the 64 less 1 once there.
    pub taken: u64,
    /// The file's first bytes, 0 where they have not come.
    pub header: [u8; HEADER_LENGTH],
    /// The sections' own headers, 12 bytes for each of 32, 0 where they have not come.
    pub section_headers: [u8; SECTION_HEADERS_LENGTH],
    /// The CRC-32 remainder over the checked bytes so far, before the last inversion.
    pub checksum: u32,
    /// 0 until the end is told, then 1. Any other value counts as told.
    pub ended: u64,
}

/// What [`arriving_feed`] answers.
#[repr(C)]
#[derive(Clone, Copy, Debug, PartialEq, Eq)]
pub struct ArrivingFed {
    /// The state after the call.
    pub state: Arriving,
    /// How many bytes of the piece were taken.
    pub count: u64,
}

/// What [`arriving_finish`] answers.
#[repr(C)]
#[derive(Clone, Copy, Debug, PartialEq, Eq)]
pub struct ArrivingFinished {
    /// The state as it was, with its end told.
    pub state: Arriving,
    /// What [`read`] answers on the bytes taken.
    pub reading: Reading,
}

/// What [`arriving_next`] answers: bytes at the start of the next ones that belong together.
#[repr(C)]
#[derive(Clone, Copy, Debug, PartialEq, Eq)]
pub struct Span {
    /// The section whose data they are, or [`NO_SECTION`].
    pub place: u64,
    /// How many they are.
    pub length: u64,
    /// How many sections have begun before them: their own headers have come whole.
    pub begun: u64,
}

/// What [`Span::place`] is where the bytes are no section's data.
pub const NO_SECTION: u64 = 32;

// The layout that eif.h gives to a C compiler. Each size is the sum of the fields' sizes, so an answer
// has no padding.
#[allow(clippy::arithmetic_side_effects)] // the compiler computes these sums
const _: () = {
    assert!(size_of::<SectionType>() == 2);
    assert!(size_of::<FilePosition>() == 8 && size_of::<RollPosition>() == 8);
    assert!(size_of::<DataLength>() == 8 && size_of::<StreamPosition>() == 8);
    assert!(size_of::<JsonAnswer>() == 1 + 7 + 8 && offset_of!(JsonAnswer, place) == 8);
    assert!(size_of::<Section>() == 2 + 2 + 4 + 8 + 8);
    assert!(size_of::<RollRecord>() == 2 + 2 + 4 + 8 + 8);
    assert!(size_of::<Answer>() == 1 + 7 + 8 + 8 + 8);
    assert!(size_of::<Reading>() == 1 + 1 + 3 * 2 + 4 * 8 + 3 * 4 + 2 * 2 + MAX_SECTIONS * 24);
    assert!(offset_of!(Reading, position) == 16 && offset_of!(Reading, sections) == 56);
    assert!(offset_of!(Reading, architecture) == 52);
    assert!(size_of::<RollReading>() == 1 + 1 + 2 + 4 + 8 + 8 + 8 + MAX_SECTIONS * 24);
    assert!(offset_of!(RollReading, flags) == 2 && offset_of!(RollReading, records) == 32);
    assert!(size_of::<StreamSections>() == 8 + MAX_SECTIONS * 24);
    assert!(align_of::<StreamSections>() == 8 && offset_of!(StreamSections, sections) == 8);
    assert!(size_of::<Sha384>() == 8 * 8 + SHA384_BLOCK_LENGTH + 8);
    assert!(offset_of!(Sha384, block) == 64 && offset_of!(Sha384, total) == 192);
    assert!(size_of::<Sha384Fed>() == 1 + 7 + 8 + 8 + size_of::<Sha384>());
    assert!(offset_of!(Sha384Fed, state) == 24);
    assert!(size_of::<Digest>() == DIGEST_LENGTH && align_of::<Digest>() == 1);
    assert!(size_of::<RegistersAnswer>() == 1 + 7 + 8 + 8 + REGISTERS * DIGEST_LENGTH);
    assert!(offset_of!(RegistersAnswer, registers) == 24);
    assert!(size_of::<Arriving>() == 8 + HEADER_LENGTH + SECTION_HEADERS_LENGTH + 4 + 8);
    assert!(offset_of!(Arriving, header) == 8 && offset_of!(Arriving, section_headers) == 556);
    assert!(offset_of!(Arriving, checksum) == 940 && offset_of!(Arriving, ended) == 944);
    assert!(size_of::<ArrivingFed>() == size_of::<Arriving>() + 8);
    assert!(offset_of!(ArrivingFed, count) == 952);
    assert!(size_of::<ArrivingFinished>() == size_of::<Arriving>() + size_of::<Reading>());
    assert!(offset_of!(ArrivingFinished, reading) == 952 && align_of::<Arriving>() == 8);
    assert!(size_of::<Span>() == 3 * 8 && offset_of!(Span, begun) == 16);
    assert!(size_of::<Place>() == 16);
    assert!(size_of::<Plan>() == 544 && offset_of!(Plan, places) == 32);
};

impl From<RollRecord> for crate::RollRecord {
    fn from(record: RollRecord) -> Self {
        crate::RollRecord {
            section_type: record.section_type,
            position: record.position,
            length: record.length,
        }
    }
}

mod c {
    use super::{
        Answer, Arriving, ArrivingFed, ArrivingFinished, Digest, JsonAnswer, Plan, Reading,
        RegistersAnswer, RollReading, Sha384, Sha384Fed, Span, StreamPosition, StreamSections,
    };

    extern "C" {
        pub fn eif_read(image: *const u8, image_length: usize) -> Reading;
        pub fn eif_read_strict(image: *const u8, image_length: usize) -> Reading;
        pub fn eif_json_check(text: *const u8, text_length: usize) -> JsonAnswer;
        pub fn eif_arriving_begin() -> Arriving;
        pub fn eif_arriving_feed(
            state: Arriving,
            piece: *const u8,
            piece_length: usize,
            allowance: u64,
        ) -> ArrivingFed;
        pub fn eif_arriving_finish(state: Arriving) -> ArrivingFinished;
        pub fn eif_arriving_next(state: Arriving, length: u64) -> Span;
        pub fn eif_plan_length(plan: Plan) -> Answer;
        pub fn eif_write(
            plan: Plan,
            data: *const u8,
            data_length: usize,
            out: *mut u8,
            out_length: usize,
        ) -> Answer;
        pub fn eif_whole_length(image: *const u8, image_length: usize) -> Answer;
        pub fn eif_boot_length(image: *const u8, image_length: usize) -> Answer;
        pub fn eif_app_length(image: *const u8, image_length: usize) -> Answer;
        pub fn eif_copy_whole(
            image: *const u8,
            image_length: usize,
            from: StreamPosition,
            out: *mut u8,
            out_length: usize,
        ) -> Answer;
        pub fn eif_copy_boot(
            image: *const u8,
            image_length: usize,
            from: StreamPosition,
            out: *mut u8,
            out_length: usize,
        ) -> Answer;
        pub fn eif_copy_app(
            image: *const u8,
            image_length: usize,
            from: StreamPosition,
            out: *mut u8,
            out_length: usize,
        ) -> Answer;
        pub fn eif_whole_sections(reading: Reading) -> StreamSections;
        pub fn eif_boot_sections(reading: Reading) -> StreamSections;
        pub fn eif_app_sections(reading: Reading) -> StreamSections;
        pub fn eif_copy_sections(
            image: *const u8,
            image_length: usize,
            list: StreamSections,
            from: StreamPosition,
            out: *mut u8,
            out_length: usize,
        ) -> Answer;
        pub fn eif_roll_length(image: *const u8, image_length: usize) -> Answer;
        pub fn eif_roll_write(
            image: *const u8,
            image_length: usize,
            out: *mut u8,
            out_length: usize,
        ) -> Answer;
        pub fn eif_roll_read(roll: *const u8, roll_length: usize) -> RollReading;
        pub fn eif_registers(image: *const u8, image_length: usize) -> RegistersAnswer;
        pub fn eif_sha384_begin() -> Sha384;
        pub fn eif_sha384_update(state: Sha384, piece: *const u8, piece_length: usize)
            -> Sha384Fed;
        pub fn eif_sha384_finish(state: Sha384) -> Digest;
    }
}

/// A call that takes one slice.
fn of_slice<T>(call: unsafe extern "C" fn(*const u8, usize) -> T, bytes: &[u8]) -> T {
    // SAFETY: pointer and length are those of a slice, here and below.
    unsafe { call(bytes.as_ptr(), bytes.len()) }
}

type CopyCall = unsafe extern "C" fn(*const u8, usize, StreamPosition, *mut u8, usize) -> Answer;

/// A call that copies from a stream.
fn copied(call: CopyCall, image: &[u8], from: StreamPosition, out: &mut [u8]) -> Answer {
    let (room, to) = (out.len(), out.as_mut_ptr());
    // SAFETY: as for `write`.
    unsafe { call(image.as_ptr(), image.len(), from, to, room) }
}

/// `eif_read`.
pub fn read(image: &[u8]) -> Reading {
    of_slice(c::eif_read, image)
}

/// `eif_read_strict`.
pub fn read_strict(image: &[u8]) -> Reading {
    of_slice(c::eif_read_strict, image)
}

/// `eif_json_check`.
pub fn json_check(text: &[u8]) -> JsonAnswer {
    of_slice(c::eif_json_check, text)
}

/// `eif_arriving_begin`.
pub fn arriving_begin() -> Arriving {
    // SAFETY: there is no pointer.
    unsafe { c::eif_arriving_begin() }
}

/// `eif_arriving_feed`.
pub fn arriving_feed(state: Arriving, piece: &[u8], allowance: u64) -> ArrivingFed {
    // SAFETY: as for `of_slice`.
    unsafe { c::eif_arriving_feed(state, piece.as_ptr(), piece.len(), allowance) }
}

/// `eif_arriving_finish`.
pub fn arriving_finish(state: Arriving) -> ArrivingFinished {
    // SAFETY: there is no pointer.
    unsafe { c::eif_arriving_finish(state) }
}

/// `eif_arriving_next`.
pub fn arriving_next(state: Arriving, length: u64) -> Span {
    // SAFETY: there is no pointer.
    unsafe { c::eif_arriving_next(state, length) }
}

/// `eif_plan_length`.
pub fn plan_length(plan: Plan) -> Answer {
    // SAFETY: there is no pointer.
    unsafe { c::eif_plan_length(plan) }
}

/// `eif_write`.
pub fn write(plan: Plan, data: &[u8], out: &mut [u8]) -> Answer {
    // SAFETY: as for `of_slice`; `out` is borrowed for this call alone, so it overlaps no input.
    unsafe { c::eif_write(plan, data.as_ptr(), data.len(), out.as_mut_ptr(), out.len()) }
}

/// `eif_whole_length`, `eif_boot_length` or `eif_app_length`.
pub fn stream_length(image: &[u8], stream: Stream) -> Answer {
    let length = match stream {
        Stream::Whole => c::eif_whole_length,
        Stream::Boot => c::eif_boot_length,
        Stream::App => c::eif_app_length,
    };
    of_slice(length, image)
}

/// `eif_copy_whole`, `eif_copy_boot` or `eif_copy_app`.
pub fn copy_stream(image: &[u8], stream: Stream, from: StreamPosition, out: &mut [u8]) -> Answer {
    let copy = match stream {
        Stream::Whole => c::eif_copy_whole,
        Stream::Boot => c::eif_copy_boot,
        Stream::App => c::eif_copy_app,
    };
    copied(copy, image, from, out)
}

/// `eif_whole_sections`, `eif_boot_sections` or `eif_app_sections`.
pub fn stream_sections(reading: Reading, stream: Stream) -> StreamSections {
    let sections = match stream {
        Stream::Whole => c::eif_whole_sections,
        Stream::Boot => c::eif_boot_sections,
        Stream::App => c::eif_app_sections,
    };
    // SAFETY: there is no pointer.
    unsafe { sections(reading) }
}

/// `eif_copy_sections`.
pub fn copy_sections(
    image: &[u8],
    list: StreamSections,
    from: StreamPosition,
    out: &mut [u8],
) -> Answer {
    // SAFETY: as for `write`.
    unsafe {
        c::eif_copy_sections(
            image.as_ptr(),
            image.len(),
            list,
            from,
            out.as_mut_ptr(),
            out.len(),
        )
    }
}

/// `eif_roll_length`.
pub fn roll_length(image: &[u8]) -> Answer {
    of_slice(c::eif_roll_length, image)
}

/// `eif_roll_write`.
pub fn roll_write(image: &[u8], out: &mut [u8]) -> Answer {
    // SAFETY: as for `write`.
    unsafe { c::eif_roll_write(image.as_ptr(), image.len(), out.as_mut_ptr(), out.len()) }
}

/// `eif_roll_read`.
pub fn roll_read(roll: &[u8]) -> RollReading {
    of_slice(c::eif_roll_read, roll)
}

/// `eif_registers`.
pub fn registers(image: &[u8]) -> RegistersAnswer {
    of_slice(c::eif_registers, image)
}

/// `eif_sha384_begin`.
pub fn sha384_begin() -> Sha384 {
    // SAFETY: there is no pointer.
    unsafe { c::eif_sha384_begin() }
}

/// `eif_sha384_update`.
pub fn sha384_update(state: Sha384, piece: &[u8]) -> Sha384Fed {
    // SAFETY: as for `of_slice`.
    unsafe { c::eif_sha384_update(state, piece.as_ptr(), piece.len()) }
}

/// `eif_sha384_finish`.
pub fn sha384_finish(state: Sha384) -> Digest {
    // SAFETY: there is no pointer.
    unsafe { c::eif_sha384_finish(state) }
}

impl Answer {
    /// The length, or the refusal.
    pub(crate) fn accepted(self) -> Result<u64, crate::Refusal> {
        crate::Refusal::check(self.number, self.index, self.position).map(|()| self.length)
    }

    /// The length of a part of a slice, or the refusal.
    pub(crate) fn accepted_part(self) -> Result<usize, crate::Refusal> {
        // A part of a slice is no longer than a usize can say.
        self.accepted().map(|length| length as usize)
    }
}

impl RegistersAnswer {
    /// The registers, or the refusal.
    pub(crate) fn accepted(self) -> Result<crate::Registers, crate::Refusal> {
        let refused = crate::Refusal::check(self.number, self.index, self.position);
        refused.map(|()| crate::Registers(self.registers))
    }
}

/// The bytes of an answer.
#[cfg(test)]
fn bytes_of<T: Copy>(answer: &T) -> &[u8] {
    // SAFETY: used for the answers alone, which have no padding, as asserted beside each.
    unsafe { std::slice::from_raw_parts((answer as *const T).cast(), size_of::<T>()) }
}

#[cfg(test)]
mod tests {
    use super::*;
    use crate::{HEADER_LENGTH, SECTION_HEADER_LENGTH};
    use std::ptr::{null, null_mut};

    /// The length of the smallest image.
    const SMALLEST: usize = HEADER_LENGTH + 2 * SECTION_HEADER_LENGTH;

    /// Its plan: a kernel and a command line of no bytes.
    fn smallest() -> Plan {
        let mut plan = Plan {
            version: 2,
            count: 2,
            ..Plan::default()
        };
        plan.places[0].section_type = SectionType::KERNEL;
        plan.places[1].section_type = SectionType::COMMAND_LINE;
        plan
    }

    #[test]
    fn a_null_pointer_with_length_0_is_nothing() {
        let start = StreamPosition(0);
        // SAFETY: every length is 0.
        unsafe {
            assert_eq!(c::eif_read(null(), 0), read(&[]));
            assert_eq!(c::eif_read_strict(null(), 0), read(&[]));
            assert_eq!(c::eif_json_check(null(), 0), JsonAnswer::default());
            let write = c::eif_write(smallest(), null(), 0, null_mut(), 0);
            assert_eq!(write.number, 14);
            for length in [
                c::eif_whole_length,
                c::eif_boot_length,
                c::eif_app_length,
                c::eif_roll_length,
            ] {
                assert_eq!(length(null(), 0).number, 2);
            }
            for copy in [c::eif_copy_whole, c::eif_copy_boot, c::eif_copy_app] {
                assert_eq!(copy(null(), 0, start, null_mut(), 0).number, 2);
            }
            let list = stream_sections(read(&[]), Stream::Whole);
            let copied = c::eif_copy_sections(null(), 0, list, start, null_mut(), 0);
            assert_eq!(copied, Answer::default());
            assert_eq!(c::eif_roll_write(null(), 0, null_mut(), 0).number, 2);
            assert_eq!(c::eif_roll_read(null(), 0), roll_read(&[]));
            assert_eq!(c::eif_registers(null(), 0), registers(&[]));
            let fed = c::eif_sha384_update(sha384_begin(), null(), 0);
            assert_eq!((fed.number, fed.state), (0, sha384_begin()));
            let fed = c::eif_arriving_feed(arriving_begin(), null(), 0, u64::MAX);
            assert_eq!((fed.count, fed.state), (0, arriving_begin()));
        }
    }

    #[test]
    fn a_null_output_of_length_0_takes_nothing() {
        let mut image = [0; SMALLEST];
        let written = write(smallest(), &[], &mut image);
        assert_eq!(written.length, SMALLEST as u64);
        let from = StreamPosition(0);
        // SAFETY: the image is a slice's, and the outputs' lengths are 0.
        unsafe {
            let (start, length) = (image.as_ptr(), image.len());
            let whole = c::eif_copy_whole(start, length, from, null_mut(), 0);
            assert_eq!(whole, Answer::default());
            let list = stream_sections(read(&image), Stream::Whole);
            let copied = c::eif_copy_sections(start, length, list, from, null_mut(), 0);
            assert_eq!(copied, Answer::default());
            let roll = c::eif_roll_write(start, length, null_mut(), 0);
            assert_eq!(roll.number, 14);
        }
    }

    #[test]
    fn equal_answers_have_equal_bytes() {
        let mut image = [0; 600];
        let written = write(smallest(), &[], &mut image);
        let again = write(smallest(), &[], &mut [0; SMALLEST]);
        assert_eq!(bytes_of(&written), bytes_of(&again));
        let image = &image[..written.length as usize];
        let copy = image.to_vec();
        assert_eq!(bytes_of(&read(image)), bytes_of(&read(&copy)));
        assert_eq!(bytes_of(&read(image)), bytes_of(&read_strict(&copy)));
        for text in [&b"{}"[..], b"{]"] {
            let copy = text.to_vec();
            assert_eq!(bytes_of(&json_check(text)), bytes_of(&json_check(&copy)));
        }
        for stream in Stream::ALL {
            let lists = [image, &copy].map(|image| stream_sections(read(image), stream));
            assert_eq!(bytes_of(&lists[0]), bytes_of(&lists[1]));
        }
        let mut roll = [0; 42];
        assert_eq!(roll_write(image, &mut roll).length, 42);
        let copy = roll.to_vec();
        assert_eq!(bytes_of(&roll_read(&roll)), bytes_of(&roll_read(&copy)));
        let copy = image.to_vec();
        assert_eq!(bytes_of(&registers(image)), bytes_of(&registers(&copy)));
        let fed = [(); 2].map(|()| sha384_update(sha384_begin(), &copy));
        assert_eq!(bytes_of(&fed[0]), bytes_of(&fed[1]));
        let fed = [image, &copy].map(|image| arriving_feed(arriving_begin(), image, 600));
        assert_eq!(bytes_of(&fed[0]), bytes_of(&fed[1]));
        let spans = fed.map(|fed| arriving_next(fed.state, 600));
        assert_eq!(bytes_of(&spans[0]), bytes_of(&spans[1]));
        let finished = fed.map(|fed| arriving_finish(fed.state));
        assert_eq!(bytes_of(&finished[0]), bytes_of(&finished[1]));
        assert_eq!(bytes_of(&finished[0].reading), bytes_of(&read(image)));
    }

    #[test]
    fn reserved_fields_are_0() {
        let mut image = [0; SMALLEST];
        let written = write(smallest(), &[], &mut image);
        let refused = write(smallest(), &[], &mut []);
        assert_eq!([written.reserved, refused.reserved], [[0; 7]; 2]);
        for text in [&b"{}"[..], b"{]", b""] {
            assert_eq!(json_check(text).reserved, [0; 7]);
        }
        for reading in [read(&image), read(&[]), read_strict(&image)] {
            assert_eq!((reading.reserved, reading.reserved_after), (0, 0));
            assert!(reading.sections.iter().all(|s| s.reserved == 0));
            for stream in Stream::ALL {
                let list = stream_sections(reading, stream).sections;
                assert!(list.iter().all(|s| s.reserved == 0));
            }
        }
        let mut roll = [0; 42];
        assert_eq!(roll_write(&image, &mut roll).reserved, [0; 7]);
        for reading in [roll_read(&roll), roll_read(&[])] {
            assert_eq!((reading.reserved, reading.reserved_after), (0, 0));
            let reserved = |r: &RollRecord| (r.reserved, r.reserved_after);
            assert!(reading.records.iter().all(|r| reserved(r) == (0, 0)));
        }
        for answer in [registers(&image), registers(&[])] {
            assert_eq!(answer.reserved, [0; 7]);
        }
        let full = Sha384 {
            total: u64::MAX,
            ..sha384_begin()
        };
        for state in [sha384_begin(), full] {
            assert_eq!(sha384_update(state, &image).reserved, [0; 7]);
        }
    }
}
