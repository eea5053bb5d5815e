//! The examples of docs/FORMAT.md through the twin.

use eif_cases::{
    copy_cases, image_cases, located_images, located_plans, located_rolls, roll_cases,
    stream_cases, two_sections, worked_image, zero_image, Answer, ACCEPTED, CHECKSUM_AT, HEADER,
    SECTION_HEADER, WORKED_LENGTH, WORKED_OFFSETS, WORKED_ROLL,
};
use eif_twin::*;

/// A refusal that has no place in a file.
fn refused(number: u8, index: u64) -> Refusal {
    Refusal {
        number,
        index,
        position: 0,
    }
}

fn parts(refusal: Refusal) -> Answer {
    (refusal.number, refusal.index, refusal.position)
}

fn worked_plan() -> Plan {
    let mut places = [Place::default(); 32];
    for (place, (kind, length)) in places.iter_mut().zip([(1, 1), (2, 1), (3, 0)]) {
        *place = Place {
            kind,
            flags: 0,
            length,
        };
    }
    Plan {
        version: 2,
        flags: 0,
        default_mem: 0,
        default_cpus: 0,
        count: 3,
        places,
    }
}

#[test]
fn the_worked_image_is_read() {
    let reading = read(&worked_image()).unwrap();
    let rows: Vec<_> = reading
        .sections
        .iter()
        .map(|s| (s.kind, s.position - SECTION_HEADER, s.length))
        .collect();
    let [kernel, command_line, ramdisk] = WORKED_OFFSETS;
    assert_eq!(
        rows,
        [(1, kernel, 1), (2, command_line, 1), (3, ramdisk, 0)]
    );
    assert_eq!((reading.version, reading.flags), (2, 0));
    assert_eq!(reading.architecture(), 0);
    assert_eq!((reading.default_mem, reading.default_cpus), (0, 0));
    assert_eq!(reading.ramdisk_mark(), 4);
    assert_eq!(reading.ramdisk_count(), 1);
    assert_eq!(reading.first_ramdisk(), Some(2));
}

#[test]
fn the_worked_image_is_written() {
    let mut out = [0xaa; WORKED_LENGTH + 14];
    let written = write(&worked_plan(), b"Ka", &mut out);
    assert_eq!(written, Ok(WORKED_LENGTH));
    assert_eq!(out[..WORKED_LENGTH], worked_image());
    assert_eq!(out[WORKED_LENGTH..], [0xaa; 14]);
    assert_eq!(out[CHECKSUM_AT..HEADER], [0x86, 0xc2, 0x27, 0x31]);

    let mut short = [0xaa; WORKED_LENGTH - 1];
    assert_eq!(
        write(&worked_plan(), b"Ka", &mut short),
        Err(refused(14, 0))
    );
    assert_eq!(
        write(&worked_plan(), b"Kab", &mut short),
        Err(refused(15, 0))
    );
    assert_eq!(short, [0xaa; WORKED_LENGTH - 1]);
}

#[test]
fn sums_of_a_plan_do_not_wrap() {
    let mut plan = worked_plan();
    plan.places[0].length = u64::MAX;
    plan.places[1].length = 3;
    assert_eq!(write(&plan, b"Ka", &mut [0; 600]), Err(refused(1, 0)));
}

#[test]
fn the_worked_roll_is_written() {
    let length = WORKED_ROLL.len();
    let mut out = vec![0xaa; length + 8];
    assert_eq!(write_roll(&worked_image(), &mut out), Ok(length));
    assert_eq!(out[..length], WORKED_ROLL);
    assert_eq!(out[length..], [0xaa; 8]);
}

#[test]
fn lengths() {
    assert_eq!(plan_length(&worked_plan()), Ok(WORKED_LENGTH));
    assert_eq!(roll_length(&worked_image()), Ok(WORKED_ROLL.len()));
}

#[test]
fn a_roll_does_not_fit_53_bytes() {
    let mut out = [0xaa; 53];
    assert_eq!(write_roll(&worked_image(), &mut out), Err(refused(14, 0)));
    assert_eq!(out, [0xaa; 53]);
}

#[test]
fn rolls() {
    for case in roll_cases().into_iter().chain(located_rolls()) {
        let answer = read_roll(&case.roll)
            .map(|roll| {
                let row = |r: &Record| (r.kind, r.position as u64, r.length as u64);
                (roll.flags, roll.records.iter().map(row).collect::<Vec<_>>())
            })
            .map_err(parts);
        assert_eq!(answer, case.answer, "{}", case.name);
    }
}

#[test]
fn images() {
    for case in image_cases().into_iter().chain(located_images()) {
        let answer = read(&case.image).map_or_else(parts, |_| ACCEPTED);
        assert_eq!(answer, case.answer, "{}", case.name);
    }
}

/// Every place past the sections is that of another kernel, and the count is theirs.
#[test]
fn plans() {
    for case in located_plans() {
        let other = Place {
            kind: 1,
            ..Place::default()
        };
        let mut places = [other; 32];
        for (place, &(kind, length)) in places.iter_mut().zip(&case.sections) {
            *place = Place {
                kind,
                flags: 0,
                length,
            };
        }
        let plan = Plan {
            version: case.version,
            count: case.sections.len() as u16,
            places,
            ..worked_plan()
        };
        let answer = write(&plan, &vec![7; case.data], &mut vec![7; case.room]);
        assert_eq!(answer.map_err(parts), Err(case.answer), "{}", case.name);
    }
}

#[test]
fn the_longest_image() {
    assert!(read(&zero_image(MAX_IMAGE)).is_ok());
    let longer = zero_image(MAX_IMAGE + 1);
    assert_eq!(read(&longer), Err(refused(1, 0)));
}

#[test]
fn stream_positions() {
    for (image, lengths) in [(worked_image(), [2, 2, 0]), (two_sections(), [1, 1, 0])] {
        for (stream, length) in [Stream::Whole, Stream::Boot, Stream::App]
            .into_iter()
            .zip(lengths)
        {
            assert_eq!(stream_length(&image, stream), Ok(length));
            let mut out = [0xaa; 8];
            assert_eq!(copy_stream(&image, stream, length, &mut out), Ok(0));
            assert_eq!(
                copy_stream(&image, stream, length + 1, &mut out),
                Err(refused(19, 0))
            );
            assert_eq!(out, [0xaa; 8]);
        }
    }
}

/// Tries a copier of `bytes` from every position into buffers of several lengths.
fn check_copies(bytes: &[u8], copy: impl Fn(u64, &mut [u8]) -> Result<usize, Refusal>) {
    for case in copy_cases(bytes) {
        let mut out = [0xaa; 16];
        assert_eq!(
            copy(case.from as u64, &mut out[..case.room]),
            Ok(case.copied)
        );
        assert_eq!(out, case.after);
    }
    let past = bytes.len() as u64 + 1;
    assert_eq!(copy(past, &mut [0; 16]), Err(refused(19, 0)));
}

#[test]
fn streams_are_in_file_order() {
    for case in stream_cases() {
        let image = &case.image;
        let all = read(image).unwrap().sections;
        for (stream, bytes) in [Stream::Whole, Stream::Boot, Stream::App]
            .into_iter()
            .zip(case.streams)
        {
            let sections = stream_sections(&all, stream);
            check_copies(bytes, |from, out| copy_stream(image, stream, from, out));
            check_copies(bytes, |from, out| {
                copy_sections(image, &sections, from, out)
            });
        }
    }
}

#[test]
fn sections_are_taken_as_far_as_they_lie_in_the_image() {
    let section = |kind, position, length| Section {
        kind,
        flags: 0,
        position,
        length,
    };
    let sections = [
        section(3, 1, 2),
        section(0, 3, 1),
        section(9, 4, usize::MAX),
        section(1, 5, 1),
        section(3, usize::MAX, usize::MAX),
        section(3, 0, 1),
    ];
    let mut out = [0xaa; 8];
    assert_eq!(copy_sections(b"abcde", &sections, 1, &mut out), Ok(4));
    assert_eq!(out, *b"cdea\xaa\xaa\xaa\xaa");
    assert_eq!(copy_sections(b"abcde", &sections, 5, &mut out), Ok(0));
    assert_eq!(
        copy_sections(b"abcde", &sections, 6, &mut out),
        Err(refused(19, 0))
    );
    let kept = |stream| stream_sections(&sections, stream);
    assert_eq!(kept(Stream::Whole), [0, 3, 4, 5].map(|i| sections[i]));
    assert_eq!(kept(Stream::Boot), [0, 3].map(|i| sections[i]));
    assert_eq!(kept(Stream::App), [4, 5].map(|i| sections[i]));
}
