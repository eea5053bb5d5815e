//! The examples of docs/FORMAT.md through the library.

use eif::raw;
use eif::{Architecture, DataLength, Place, Plan, Refusal, SectionType, Stream, StreamPosition};
use eif_cases::{
    command_line_first, copy_cases, flags_record, image_cases, roll_cases, stream_cases,
    two_sections, worked_image, Layout, Section, ACCEPTED, CHECKSUM_AT, FLAGS_RECORD, HEADER,
    RECORD_HEAD, SECTION_HEADER, WORKED_LENGTH, WORKED_OFFSETS, WORKED_ROLL,
};
use eif_check::{parts, refused, refused_reading};
use std::io::Read;

fn worked_plan() -> Plan {
    Plan {
        version: 2,
        places: vec![
            Place::new(SectionType::KERNEL, DataLength(1)),
            Place::new(SectionType::COMMAND_LINE, DataLength(1)),
            Place::new(SectionType::RAMDISK, DataLength(0)),
        ],
        ..Plan::default()
    }
}

#[test]
fn the_worked_image_is_read() {
    let bytes = worked_image();
    let image = eif::read(&bytes).unwrap();
    let rows: Vec<_> = image
        .sections()
        .iter()
        .map(|s| (s.section_type.0, s.offset().0, s.length.0))
        .collect();
    let [kernel, command_line, ramdisk] = WORKED_OFFSETS.map(|offset| offset as u64);
    assert_eq!(
        rows,
        [(1, kernel, 1), (2, command_line, 1), (3, ramdisk, 0)]
    );
    assert_eq!((image.version(), image.flags()), (2, 0));
    assert_eq!((image.default_mem(), image.default_cpus()), (0, 0));
    assert_eq!(image.ramdisk_mark(), 4);
    assert_eq!((image.ramdisk_count(), image.first_ramdisk()), (1, Some(2)));
    assert_eq!(image.plan(), worked_plan());
    assert_eq!(image.joined_data(), b"Ka");
}

#[test]
fn the_worked_image_is_written() {
    let mut out = [0xaa; WORKED_LENGTH + 14];
    let written = eif::write(&worked_plan(), b"Ka", &mut out);
    assert_eq!(written, Ok(WORKED_LENGTH));
    assert_eq!(out[..WORKED_LENGTH], worked_image());
    assert_eq!(out[WORKED_LENGTH..], [0xaa; 14]);
    assert_eq!(out[CHECKSUM_AT..HEADER], [0x86, 0xc2, 0x27, 0x31]);
}

#[test]
fn the_worked_roll_is_written() {
    let length = WORKED_ROLL.len();
    let mut out = vec![0xaa; length + 8];
    assert_eq!(eif::write_roll(&worked_image(), &mut out), Ok(length));
    assert_eq!(out[..length], WORKED_ROLL);
    assert_eq!(out[length..], [0xaa; 8]);
}

/// All sixteen bits join the roll, and the lowest is the reading's architecture.
#[test]
fn flags_join_the_roll() {
    for flags in [0, 1, 2, 0x0100, 0x1203, 0xfffe, 0xffff] {
        let sections = vec![Section::new(1, &[0x4b]), Section::new(2, &[0x61])];
        let layout = Layout {
            flags,
            ..Layout::new(2, sections)
        };
        let bytes = layout.image();
        let image = eif::read(&bytes).unwrap();
        let architecture = Architecture::of_flags(flags);
        assert_eq!((image.flags(), image.architecture()), (flags, architecture));
        assert_eq!(raw::read(&bytes).architecture, flags % 2);
        let bytes = eif::roll_to_vec(&bytes).unwrap();
        assert_eq!(bytes[..FLAGS_RECORD], flags_record(flags));
        let told = &bytes[RECORD_HEAD..FLAGS_RECORD];
        assert_eq!(told, [flags as u8, (flags >> 8) as u8]);
        let roll = eif::read_roll(&bytes).unwrap();
        assert_eq!((roll.flags(), roll.architecture()), (flags, architecture));
        assert_eq!(roll.records().len(), 2);
    }
}

#[test]
fn lengths_are_told_before_writing() {
    assert_eq!(eif::plan_length(&worked_plan()), Ok(WORKED_LENGTH));
    assert_eq!(
        eif::write_to_vec(&worked_plan(), b"Ka").as_deref(),
        Ok(&worked_image()[..])
    );
    let short = eif::write_to_vec(&worked_plan(), b"K");
    assert_eq!(short.map_err(parts), Err((15, 0, 0)));
    assert_eq!(eif::roll_length(&worked_image()), Ok(WORKED_ROLL.len()));
    assert_eq!(
        eif::roll_to_vec(&worked_image()).as_deref(),
        Ok(&WORKED_ROLL[..])
    );
}

#[test]
fn a_roll_does_not_fit_53_bytes() {
    let mut out = [0xaa; 53];
    let answer = eif::write_roll(&worked_image(), &mut out);
    assert_eq!(answer.map_err(parts), Err((14, 0, 0)));
    assert_eq!(out, [0xaa; 53]);
}

#[test]
fn rolls() {
    for case in roll_cases() {
        let answer = eif::read_roll(&case.roll).map_err(parts).map(|roll| {
            let records = roll.records().iter();
            let rows = records.map(|r| (r.section_type.0, r.position.0, r.length.0));
            (roll.flags(), rows.collect::<Vec<_>>())
        });
        assert_eq!(answer, case.answer, "{}", case.name);
    }
}

#[test]
fn images() {
    for case in image_cases() {
        let reading = raw::read(&case.image);
        let answer = (reading.number, reading.index, reading.position);
        assert_eq!(answer, case.answer, "{}", case.name);
        if answer != ACCEPTED {
            assert_eq!(reading, refused_reading(answer), "{}", case.name);
        }
    }
}

#[test]
fn stream_positions() {
    for (image, lengths) in [(worked_image(), [2, 2, 0]), (two_sections(), [1, 1, 0])] {
        for (stream, length) in Stream::ALL.into_iter().zip(lengths) {
            assert_eq!(eif::stream_length(&image, stream), Ok(DataLength(length)));
            let mut out = [0xaa; 8];
            let end = StreamPosition(length);
            assert_eq!(eif::copy_stream(&image, stream, end, &mut out), Ok(0));
            let past = StreamPosition(length + 1);
            let answer = eif::copy_stream(&image, stream, past, &mut out);
            assert_eq!(answer.map_err(parts), Err((19, 0, 0)));
            assert_eq!(out, [0xaa; 8]);
        }
    }
}

/// Tries a copier of `bytes` from every position into buffers of several lengths.
fn check_copies(bytes: &[u8], copy: impl Fn(StreamPosition, &mut [u8]) -> Result<usize, Refusal>) {
    for case in copy_cases(bytes) {
        let mut out = [0xaa; 16];
        let from = StreamPosition(case.from as u64);
        assert_eq!(copy(from, &mut out[..case.room]), Ok(case.copied));
        assert_eq!(out, case.after);
    }
    let past = StreamPosition(bytes.len() as u64 + 1);
    let answer = copy(past, &mut [0; 16]);
    assert_eq!(answer.map_err(parts), Err((19, 0, 0)));
}

#[test]
fn streams_are_in_file_order() {
    for case in stream_cases() {
        let bytes = &case.image;
        let image = eif::read(bytes).unwrap();
        for (stream, expected) in Stream::ALL.into_iter().zip(case.streams) {
            let name = case.name;
            let whole = eif::stream_to_vec(bytes, stream);
            assert_eq!(whole.as_deref(), Ok(expected), "{name}");
            let sections: Vec<&[u8]> = image.stream_sections(stream).collect();
            let pairs: Vec<&[u8]> = expected.chunks(2).collect();
            assert_eq!(sections, pairs, "{name}");
            check_copies(expected, |from, out| {
                eif::copy_stream(bytes, stream, from, out)
            });
            check_copies(expected, |from, out| image.copy_stream(stream, from, out));
        }
    }
}

#[test]
fn a_stream_is_read_in_pieces_of_any_size() {
    for case in stream_cases() {
        let image = eif::read(&case.image).unwrap();
        for (stream, expected) in Stream::ALL.into_iter().zip(case.streams) {
            for size in 1..8 {
                let mut reader = image.stream_reader(stream);
                let (mut joined, mut piece) = (Vec::new(), vec![0; size]);
                loop {
                    match reader.read(&mut piece).unwrap() {
                        0 => break,
                        count => joined.extend_from_slice(&piece[..count]),
                    }
                }
                assert_eq!(joined, expected);
                assert_eq!(reader.read(&mut piece).unwrap(), 0);
            }
        }
    }
}

/// What is read outlives the view of the image, since it is borrowed from the bytes alone.
#[test]
fn sections_of_a_stream_are_borrowed_from_the_bytes() {
    let bytes = command_line_first();
    let sections = eif::read(&bytes).unwrap().stream_sections(Stream::App);
    assert_eq!(sections.len(), 2);
    let range = bytes.as_ptr_range();
    for data in sections {
        assert!(range.contains(&data.as_ptr()));
    }
}

#[test]
fn a_refused_image_has_no_stream_sections() {
    let cases = image_cases();
    for case in cases.iter().filter(|case| case.answer != ACCEPTED) {
        let reading = raw::read(&case.image);
        let none = raw::StreamSections::default();
        for stream in Stream::ALL {
            let list = raw::stream_sections(reading, stream);
            assert_eq!(list, none, "{} {stream}", case.name);
        }
    }
}

#[test]
fn parts_by_name_and_by_index() {
    let bytes = command_line_first();
    let image = eif::read(&bytes).unwrap();
    assert_eq!(
        (image.kernel(), image.command_line()),
        (&b"bb"[..], &b"aa"[..])
    );
    let ramdisks: Vec<&[u8]> = image.ramdisks().collect();
    assert_eq!(ramdisks, [b"cc", b"ee", b"ff"]);
    let (section, data) = image.get(3).unwrap();
    assert_eq!(
        (section.section_type, data),
        (SectionType::METADATA, &b"dd"[..])
    );
    let data = section.offset().0 + SECTION_HEADER as u64;
    assert_eq!(data, section.position.0);
    assert!(image.get(6).is_none() && image.get(usize::MAX).is_none());
    assert_eq!(
        image.iter().next_back().map(|(_, data)| data),
        Some(&b"ff"[..])
    );
    let roll = eif::roll_to_vec(&bytes).unwrap();
    let roll = eif::read_roll(&roll).unwrap();
    assert_eq!(roll.get(4).map(|(_, data)| data), Some(&b"ff"[..]));
    assert!(roll.get(5).is_none());
    assert_eq!(roll.iter().count(), 5);
}

#[test]
fn lengths_beside_a_refusal_are_zero() {
    let refused = |number| refused!(raw::Answer, (number, 0, 0));
    let mut out = [0xaa; 53];
    let image = worked_image();
    assert_eq!(raw::roll_write(&image, &mut out), refused(14));
    assert_eq!(raw::roll_write(&[], &mut out), refused(2));
    assert_eq!(
        raw::copy_stream(&image, Stream::App, StreamPosition(1), &mut out),
        refused(19)
    );
    assert_eq!(raw::stream_length(&[], Stream::Whole), refused(2));
    assert_eq!(raw::write(raw::Plan::default(), &[], &mut out), refused(4));
    assert_eq!(raw::roll_read(&[]).count, 0);
    assert_eq!(out, [0xaa; 53]);
}
