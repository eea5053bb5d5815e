//! The C interface to an image that was read already: no call here computes a checksum.

use super::fingerprint::FingerprintAnswer;
use super::staged::StagedPart;
use super::{Answer, Reading};

mod c {
    use super::{Answer, FingerprintAnswer, Reading, StagedPart};

    extern "C" {
        pub fn eif_read_fingerprint(
            image: *const u8,
            image_length: usize,
            reading: Reading,
        ) -> FingerprintAnswer;
        pub fn eif_read_roll_length(
            image: *const u8,
            image_length: usize,
            reading: Reading,
        ) -> Answer;
        pub fn eif_read_roll_write(
            image: *const u8,
            image_length: usize,
            reading: Reading,
            out: *mut u8,
            out_length: usize,
        ) -> Answer;
        pub fn eif_read_staged_part(
            reading: Reading,
            base_length: u64,
            replacement_length: u64,
            replaced: u64,
            shown: u64,
        ) -> StagedPart;
    }
}

/// `eif_read_fingerprint`.
pub fn read_fingerprint(image: &[u8], reading: Reading) -> FingerprintAnswer {
    // SAFETY: pointer and length are those of a slice, here and below.
    unsafe { c::eif_read_fingerprint(image.as_ptr(), image.len(), reading) }
}

/// `eif_read_roll_length`.
pub fn read_roll_length(image: &[u8], reading: Reading) -> Answer {
    // SAFETY: as above.
    unsafe { c::eif_read_roll_length(image.as_ptr(), image.len(), reading) }
}

/// `eif_read_roll_write`.
pub fn read_roll_write(image: &[u8], reading: Reading, out: &mut [u8]) -> Answer {
    // SAFETY: as above; `out` is borrowed for this call alone, so it overlaps no input.
    unsafe {
        c::eif_read_roll_write(
            image.as_ptr(),
            image.len(),
            reading,
            out.as_mut_ptr(),
            out.len(),
        )
    }
}

/// `eif_read_staged_part`.
pub fn read_staged_part(
    reading: Reading,
    base_length: u64,
    replacement_length: u64,
    replaced: u64,
    shown: u64,
) -> StagedPart {
    // SAFETY: there is no pointer.
    unsafe { c::eif_read_staged_part(reading, base_length, replacement_length, replaced, shown) }
}

#[cfg(test)]
mod tests {
    use super::*;
    use crate::raw::fingerprint::image_fingerprint;
    use crate::raw::staged::staged_part;
    use crate::raw::{read, roll_length, roll_read, roll_write};
    use crate::{DataLength, FilePosition, Place, Plan, SectionType};
    use std::ptr::{null, null_mut};

    /// An image with a ramdisk.
    fn image() -> Vec<u8> {
        let places = vec![
            Place::new(SectionType::KERNEL, DataLength(4)),
            Place::new(SectionType::COMMAND_LINE, DataLength(2)),
            Place::new(SectionType::RAMDISK, DataLength(3)),
        ];
        let plan = Plan {
            version: 2,
            flags: 1,
            places,
            ..Plan::default()
        };
        crate::write_to_vec(&plan, b"kernclram").unwrap()
    }

    /// The length of a replacement for one of its sections.
    const REPLACEMENT: u64 = 5;

    /// The image, and images that are refused: one cut, one with another byte, none.
    fn images() -> [Vec<u8>; 4] {
        let mut other = image();
        other[590] ^= 1;
        [image(), image()[..590].to_vec(), other, Vec::new()]
    }

    #[test]
    fn with_the_images_own_reading_both_forms_agree() {
        for image in images() {
            let reading = read(&image);
            assert_eq!(read_fingerprint(&image, reading), image_fingerprint(&image));
            assert_eq!(read_roll_length(&image, reading), roll_length(&image));
            for room in [0, 60, 61, 62, 63, 64, 80] {
                let (mut one, mut other) = (vec![7; room], vec![7; room]);
                let answer = read_roll_write(&image, reading, &mut one);
                assert_eq!(answer, roll_write(&image, &mut other));
                assert_eq!(one, other);
            }
            for (replaced, shown) in [(2, 0), (2, 2), (0, 2), (3, 0), (0, u64::MAX)] {
                for size in [REPLACEMENT, 0, u64::MAX] {
                    let length = image.len() as u64;
                    let part = read_staged_part(reading, length, size, replaced, shown);
                    assert_eq!(part, staged_part(&image, size, replaced, shown));
                }
            }
        }
    }

    #[test]
    fn a_refused_reading_is_answered_whatever_it_lists() {
        let image = image();
        for number in [1, 13, 14, 20, 99, 255] {
            let mut reading = read(&image);
            (reading.number, reading.index, reading.position) = (number, 3, u64::MAX);
            let wanted = (number, 3, u64::MAX);
            let found = read_fingerprint(&image, reading);
            assert_eq!((found.number, found.index, found.position), wanted);
            assert_eq!(found.digest, image_fingerprint(&[]).digest);
            let found = read_roll_length(&image, reading);
            assert_eq!((found.number, found.index, found.position), wanted);
            let mut out = [7; 100];
            let found = read_roll_write(&image, reading, &mut out);
            assert_eq!(
                (found.number, found.position, found.length),
                (number, u64::MAX, 0)
            );
            assert_eq!(out, [7; 100]);
            let found = read_staged_part(reading, 9, REPLACEMENT, 0, 0);
            assert_eq!((found.number, found.index, found.position), wanted);
            assert_eq!((found.start, found.length), (0, DataLength(0)));
        }
    }

    #[test]
    fn fields_that_are_computed_or_reserved_change_nothing() {
        let image = image();
        let own = read(&image);
        let mut reading = own;
        (reading.reserved, reading.reserved_after) = (9, 9);
        (reading.ramdisk_count, reading.first_ramdisk) = (9, 9);
        for section in &mut reading.sections {
            section.reserved = 9;
        }
        assert_eq!(read_fingerprint(&image, reading), image_fingerprint(&image));
        assert_eq!(read_roll_length(&image, reading), roll_length(&image));
    }

    #[test]
    fn sections_past_the_end_have_no_data() {
        let image = image();
        let mut reading = read(&image);
        for (position, length) in [(u64::MAX, u64::MAX), (image.len() as u64, 1), (u64::MAX, 0)] {
            reading.sections[0].position = FilePosition(position);
            reading.sections[0].length = DataLength(length);
            let mut roll = [0; 100];
            // Flags, three heads with data of 0, 2 and 3 bytes, and the end.
            let written = read_roll_write(&image, reading, &mut roll);
            assert_eq!(
                (written.number, written.length),
                (0, 12 + 10 + 12 + 13 + 10)
            );
            assert_eq!(read_roll_length(&image, reading).length, written.length);
            let roll = roll_read(&roll[..written.length as usize]);
            assert_eq!((roll.number, roll.records[0].length), (0, DataLength(0)));
            let part = read_staged_part(reading, image.len() as u64, REPLACEMENT, 2, 0);
            // With that length the image written afresh would be too long, and else nothing lies there.
            assert_eq!(part.number, u8::from(length == u64::MAX));
            assert_eq!(part.length, DataLength(0));
            assert!(part.start <= image.len() as u64);
        }
        // A length near 2 to the 64 from a position inside: the data is the rest of the image.
        reading.sections[0].position = FilePosition(590);
        reading.sections[0].length = DataLength(u64::MAX);
        let rest = image.len() - 590;
        let length = read_roll_length(&image, reading).length;
        assert_eq!(length, (12 + 10 + rest + 12 + 13 + 10) as u64);
        // The bytes of no image at all.
        assert_eq!(read_roll_length(&[], reading).length, 12 + 4 * 10);
    }

    #[test]
    fn places_count_and_not_the_number_of_sections() {
        let image = image();
        let mut reading = read(&image);
        let own = read_fingerprint(&image, reading);
        for count in [0, 33, u16::MAX] {
            reading.count = count;
            assert_eq!(read_fingerprint(&image, reading), own);
            assert_eq!(read_roll_length(&image, reading), roll_length(&image));
            let part = read_staged_part(reading, image.len() as u64, REPLACEMENT, 0, 0);
            assert_eq!(part.number, if count == 0 { 27 } else { 5 });
        }
        reading.count = 32;
        let part = read_staged_part(reading, image.len() as u64, REPLACEMENT, 0, 31);
        assert_eq!((part.number, part.length), (0, DataLength(0)));
    }

    #[test]
    fn a_null_pointer_with_length_0_is_nothing() {
        let none = read(&[]);
        // SAFETY: every length is 0.
        unsafe {
            let fingerprint = c::eif_read_fingerprint(null(), 0, none);
            assert_eq!(fingerprint, image_fingerprint(&[]));
            assert_eq!(c::eif_read_roll_length(null(), 0, none), roll_length(&[]));
            let roll = c::eif_read_roll_write(null(), 0, none, null_mut(), 0);
            assert_eq!(roll.number, 2);
        }
    }
}
