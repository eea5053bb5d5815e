//! Each answer number at a first, an inner and a last index, as far as it can occur there, with its position,
//! through the calls that hand it on.

use eif::raw;
use eif::{DataLength, Place, Plan, SectionType, Stream, StreamPosition};
use eif_cases::{located_images, located_plans, located_rolls, worked_image, Answer};
use eif_check::{check_refused_image, parts, refused};

/// Every number in the answers, once.
fn numbers(answers: impl Iterator<Item = Answer>) -> Vec<u8> {
    let mut numbers: Vec<u8> = answers.map(|answer| answer.0).collect();
    numbers.sort();
    numbers.dedup();
    numbers
}

/// The position is the one thing beside number and index that is not zero (with the first ramdisk, 32).
#[test]
fn images() {
    for case in located_images() {
        check_refused_image(case.name, &case.image, case.answer);
    }
    // 1 stands in the tests of the limits.
    let all: Vec<u8> = (2..=13).chain([20]).collect();
    assert_eq!(numbers(located_images().iter().map(|c| c.answer)), all);
}

#[test]
fn rolls() {
    for case in located_rolls() {
        let expected = case.answer.clone().unwrap_err();
        let answer = eif::read_roll(&case.roll).map(|_| ()).map_err(parts);
        assert_eq!(answer, Err(expected), "{}", case.name);
        let refused = refused!(raw::RollReading, expected);
        assert_eq!(raw::roll_read(&case.roll), refused, "{}", case.name);
    }
    // 1 stands in the tests of the limits.
    let all = [5, 10, 11, 12, 16, 17, 18];
    let cases = located_rolls();
    let answers = cases.iter().filter_map(|case| case.answer.clone().err());
    assert_eq!(numbers(answers), all);
}

/// A plan is no file, so that no refusal of one has a position.
#[test]
fn plans() {
    for case in located_plans() {
        let place =
            |&(kind, length): &(u16, u64)| Place::new(SectionType(kind), DataLength(length));
        let plan = Plan {
            version: case.version,
            places: case.sections.iter().map(place).collect(),
            ..Plan::default()
        };
        let (data, mut out) = (vec![7; case.data], vec![0xaa; case.room]);
        let answer = eif::write(&plan, &data, &mut out);
        assert_eq!(answer.map_err(parts), Err(case.answer), "{}", case.name);
        assert!(out.iter().all(|&byte| byte == 0xaa), "{}", case.name);
        assert_eq!(case.answer.2, 0);
    }
    let all = [1, 4, 5, 9, 10, 11, 12, 14, 15];
    assert_eq!(numbers(located_plans().iter().map(|c| c.answer)), all);
}

/// 14, 19 and 29 are about what a program asked for and not about a place in the file.
#[test]
fn numbers_without_a_place() {
    let image = worked_image();
    let read = eif::read(&image).unwrap();
    for stream in Stream::ALL {
        let length = eif::stream_length(&image, stream).unwrap().0;
        for from in [length + 1, length + 2, u64::MAX].map(StreamPosition) {
            let copied = eif::copy_stream(&image, stream, from, &mut [0; 4]);
            assert_eq!(copied.map_err(parts), Err((19, 0, 0)));
            let copied = read.copy_stream(stream, from, &mut [0; 4]);
            assert_eq!(copied.map_err(parts), Err((19, 0, 0)));
        }
    }
    let length = eif::roll_length(&image).unwrap();
    for room in [0, length / 2, length - 1] {
        let written = eif::write_roll(&image, &mut vec![0; room]);
        assert_eq!(written.map_err(parts), Err((14, 0, 0)));
    }
    let full = raw::Sha384 {
        total: eif::MAX_MESSAGE_LENGTH,
        ..raw::sha384_begin()
    };
    let updated = eif::Sha384::from(full).update(b"x");
    assert_eq!(updated.map_err(parts), Err((29, 0, 0)));
}
