//! Any bytes and any numbers: no public call of the crate `eif` panics. `make rust-lint` refuses what could panic in its
//! code; here each call gets the numbers that an index, a slice or a sum would fail at.

use eif::raw::fingerprint::Fingerprinting;
use eif::raw::staged_writing::StagedWriting;
use eif::raw::{self, assembler::State, measuring::Measuring, staged::staged_part};
use eif::sign1::{self, Algorithm, Claim};
use eif::{
    assembler, json, staged, Architecture, Arriving, ArrivingFingerprint, ArrivingRegisters,
    Assembler, DataLength, Digest, FilePosition, Fingerprint, Place, Plan, Reason, Registers,
    SectionType, Sha384, Stream, StreamPosition, Writing,
};
use eif_cases::{worked_image, Layout, Section};
use eif_check::parts;
use std::io::{BufRead, Read};

/// About every limit that an index or a length has, and the ends of the numbers.
fn numbers() -> Vec<u64> {
    let limits = [
        0,
        1,
        2,
        3,
        12,
        32,
        548,
        4096,
        586,
        1 << 30,
        1 << 31,
        1 << 32,
        1 << 61,
        1 << 63,
    ];
    let near = |limit: u64| [limit.wrapping_sub(1), limit, limit.wrapping_add(1)];
    limits
        .into_iter()
        .flat_map(near)
        .chain([u64::MAX - 1])
        .collect()
}

/// The same as sizes of this machine.
fn sizes() -> Vec<usize> {
    numbers()
        .into_iter()
        .map(|number| number as usize)
        .collect()
}

/// An image of version 4 whose every section is empty.
fn blank_image() -> Vec<u8> {
    let sections = [1, 2, 5, 4, 3, 3].map(|kind| Section::new(kind, &[]));
    Layout::new(4, sections.to_vec()).image()
}

#[test]
fn sections_and_records_by_number() {
    for (bytes, lengths) in [(worked_image(), vec![1, 1, 0]), (blank_image(), vec![0; 6])] {
        let image = eif::read(&bytes).unwrap();
        let roll = eif::roll_to_vec(&bytes).unwrap();
        let roll = eif::read_roll(&roll).unwrap();
        for index in (0..40).chain(sizes()) {
            let data = image.section_data(index);
            assert_eq!(data.map(|data| data.len()), lengths.get(index).copied());
            assert_eq!(image.get(index).map(|(_, data)| data), data);
            let record = roll.record_data(index);
            assert_eq!(record.is_some(), index < roll.records().len());
            assert_eq!(roll.get(index).map(|(_, data)| data), record);
        }
        assert_eq!(image.iter().count(), lengths.len());
        assert_eq!(roll.iter().count(), roll.records().len());
    }
}

#[test]
fn blank_sections() {
    let bytes = blank_image();
    let image = eif::read(&bytes).unwrap();
    let none = &[][..];
    assert_eq!((image.kernel(), image.command_line()), (none, none));
    assert_eq!(image.metadata(), Some(none));
    assert_eq!(image.ramdisks().collect::<Vec<_>>(), [none; 2]);
    assert_eq!(image.joined_data(), none);
    for stream in Stream::ALL {
        let count = image.stream_sections(stream).len();
        assert_eq!(
            image.stream_sections(stream).collect::<Vec<_>>(),
            vec![none; count]
        );
        let mut read = Vec::new();
        let mut reader = image.stream_reader(stream);
        reader.consume(usize::MAX);
        assert_eq!(reader.read_to_end(&mut read).unwrap(), 0);
    }
    // A section of no image.
    let blank = raw::Section::default();
    assert_eq!(blank.offset(), FilePosition(0));
    for position in numbers() {
        let section = raw::Section {
            position: FilePosition(position),
            ..blank
        };
        assert_eq!(section.offset().0, position.saturating_sub(12));
    }
}

/// More than there is consumes what there is, and the next section follows.
#[test]
fn consuming_any_amount() {
    let sections = [(1, "kernel"), (2, "line"), (3, ""), (3, "files")];
    let sections = sections.map(|(kind, data)| Section::new(kind, data.as_bytes()));
    let bytes = Layout::new(2, sections.to_vec()).image();
    let image = eif::read(&bytes).unwrap();
    for amount in sizes() {
        let mut reader = image.stream_reader(Stream::Whole);
        // Nothing was filled yet.
        reader.consume(amount);
        for data in [&b"kernel"[..], b"line", b"files", b""] {
            assert_eq!(reader.fill_buf().unwrap(), data);
            reader.consume(amount);
            let rest = data.get(amount..).unwrap_or_default();
            if !rest.is_empty() {
                assert_eq!(reader.fill_buf().unwrap(), rest);
                reader.consume(usize::MAX);
            }
        }
    }
}

#[test]
fn streams_and_lists() {
    let bytes = worked_image();
    let image = eif::read(&bytes).unwrap();
    let reading = raw::read(&bytes);
    for number in numbers() {
        let from = StreamPosition(number);
        for (stream, length) in Stream::ALL.into_iter().zip([2u64, 2, 0]) {
            let expected = match length.checked_sub(number) {
                Some(rest) => Ok(rest as usize),
                None => Err((19, 0, 0)),
            };
            let copied = image.copy_stream(stream, from, &mut [0; 4]);
            assert_eq!(copied.map_err(parts), expected);
            let copied = eif::copy_stream(&bytes, stream, from, &mut []);
            assert_eq!(copied.map_err(parts).is_ok(), expected.is_ok());
        }
        let mut section = reading.sections[0];
        section.position = FilePosition(number);
        section.length = DataLength(number);
        let list = raw::StreamSections {
            count: number,
            sections: [section; 32],
        };
        let copied = raw::copy_sections(&bytes, list, from, &mut [0; 4]);
        assert!(copied.number == 0 || copied.number == 19);
        let hostile = raw::Reading {
            count: number as u16,
            sections: [section; 32],
            ..reading
        };
        assert_eq!(raw::stream_sections(hostile, Stream::Whole).count, 32);
    }
}

/// Any type, length and count, and more sections than the count's field can hold.
#[test]
fn plans() {
    for number in numbers() {
        for count in [0, 1, 2, 32, 33, 65_535, 65_536, 70_000] {
            let place = Place::new(SectionType(number as u16), DataLength(number));
            let plan = Plan {
                version: 2,
                places: vec![place; count],
                ..Plan::default()
            };
            let refusal = eif::plan_length(&plan).unwrap_err();
            assert_eq!(refusal.number() == 5, !(2..=32).contains(&count));
            assert_eq!(eif::write(&plan, &[], &mut []), Err(refusal));
            assert_eq!(eif::write_to_vec(&plan, &[]), Err(refusal));
        }
        let kinds = [SectionType::KERNEL, SectionType::COMMAND_LINE];
        let plan = Plan {
            version: 2,
            places: kinds
                .map(|kind| Place::new(kind, DataLength(number)))
                .to_vec(),
            ..Plan::default()
        };
        let expected = match number {
            0..=536_870_626 => Ok(572 + 2 * number as usize),
            _ => Err((1, 0, 0)),
        };
        assert_eq!(eif::plan_length(&plan).map_err(parts), expected);
    }
}

#[test]
fn replacements() {
    let base = worked_image();
    for number in sizes() {
        let known = number < 3;
        let expected = |known: bool| if known { Ok(()) } else { Err((27, 0, 0)) };
        let shown = staged::section(&base, b"new", number, number).map(|_| ());
        assert_eq!(shown.map_err(parts), expected(known));
        let shown = staged::section(&base, b"new", 0, number).map(|_| ());
        assert_eq!(shown.map_err(parts), expected(known));
        let roll = staged::roll_to_vec(&base, b"new", number).map(|_| ());
        assert_eq!(roll.map_err(parts), expected(known));
        let registers = staged::registers(&base, b"new", number).map(|_| ());
        assert_eq!(registers.map_err(parts), expected(known));
        let image = staged::write_to_vec(&base, b"new", number).map(|_| ());
        assert_eq!(image.map_err(parts), expected(known));
        for size in numbers() {
            let part = staged_part(&base, size, number as u64, number as u64);
            assert!(matches!(part.number, 0 | 1 | 27));
        }
    }
}

/// Every state with these fields, and every record with these numbers.
#[test]
fn transfers() {
    let numbers = [0, 1, 8, 4096, 4097, 1 << 30, 1 << 63, u64::MAX];
    let records = numbers.iter().flat_map(|&number| {
        let piece = assembler::piece_record(number, &[7; 8]);
        [assembler::open_record(number), piece]
    });
    let mut records: Vec<Vec<u8>> = records.collect();
    records.extend([
        assembler::close_record(),
        vec![],
        vec![0xff; 10],
        vec![0xff; 18],
    ]);
    for at in 0..numbers.len().pow(4) {
        let field = |place| numbers[at / numbers.len().pow(place) % numbers.len()];
        let state = State {
            opened: field(0),
            length: field(1),
            room: field(2),
            places: field(3),
        };
        for record in &records {
            let mut transfer = Assembler::from(state);
            let (mut image, mut marks) = ([7; 16], [at as u8; 2]);
            let taken = transfer.step(record, &mut image, &mut marks);
            assert!(taken.is_ok() || transfer == Assembler::from(state));
            let _ = (transfer.is_open(), transfer.image_length());
        }
    }
    for record in &records {
        let announced = assembler::announced(record);
        assert_eq!(announced.is_some(), record.len() == 18 && record[8] == 1);
    }
    assert_eq!(assembler::length_after_head(&[0xff; 10]), u64::MAX);
    assert_eq!(
        assembler::length_after_head(&[1, 0, 0, 0, 0, 0, 0, 0x80, 9, 9]),
        (1 << 63) + 1
    );
    for length in sizes() {
        let whole = length / assembler::PIECE_LENGTH;
        let rest = length % assembler::PIECE_LENGTH;
        assert_eq!(assembler::pieces(length), whole + usize::from(rest > 0));
    }
}

/// States that no call gives.
#[test]
fn states() {
    for number in numbers() {
        let state = raw::Arriving {
            taken: number,
            header: [number as u8; 548],
            section_headers: [number as u8; 384],
            checksum: number as u32,
            ended: number % 3,
        };
        let mut arriving = Arriving::from(state);
        for length in numbers() {
            let span = arriving.next(length);
            assert!(span.length <= length && (span.length > 0) == (length > 0));
            assert!(span.section.map_or(true, |index| index < span.begun) && span.begun <= 32);
            let kind = arriving.section_type(length as usize);
            assert_eq!(kind.is_some(), (length as usize) < span.begun);
        }
        assert!(arriving.parts(&[0xff; 40]).count() <= 40);
        assert!(arriving.feed_at_most(&[0xff; 40], number) <= 40);
        assert!(arriving.feed(&[0xff; 600]) <= 600);
        assert!(arriving.finish().is_err());
        let arriving = state;
        let state = raw::Sha384 {
            words: [number; 8],
            block: [number as u8; 128],
            total: number,
        };
        let mut measuring = ArrivingRegisters::from(Measuring {
            arriving,
            whole: state,
            boot: state,
            app: state,
        });
        assert_eq!(measuring.taken(), number);
        assert_eq!(raw::Arriving::from(measuring.arriving()), arriving);
        assert!(measuring.feed_at_most(&[0xff; 40], number) <= 40);
        assert!(measuring.feed(&[0xff; 600]) <= 600);
        assert!(measuring.finish().is_err());
        let mut fingerprinting = ArrivingFingerprint::from(Fingerprinting {
            arriving,
            roll: state,
        });
        assert_eq!(fingerprinting.taken(), number);
        assert!(fingerprinting.feed_at_most(&[0xff; 40], number) <= 40);
        assert!(fingerprinting.feed(&[0xff; 600]) <= 600);
        assert!(fingerprinting.finish().is_err());
        let mut hash = Sha384::from(state);
        let fits = number <= eif::MAX_MESSAGE_LENGTH - 300;
        assert_eq!(hash.update(&[0xff; 300]).is_ok(), fits);
        let _ = hash.finish();
    }
}

/// States of writing with one number everywhere, alone and over a base and a replacement.
#[test]
fn states_of_writing() {
    let base = worked_image();
    for number in numbers() {
        let place = Place {
            section_type: SectionType(number as u16),
            flags: number as u16,
            length: DataLength(number),
        };
        let state = raw::writing::Writing {
            header_written: number,
            sections_begun: number,
            section_left: number,
            data_left: number,
            count: number,
            places: [place; 32],
            header: [0xff; 548],
            checksum: number as u32,
        };
        for room in [0, 1, 11, 12, 600] {
            let mut writing = Writing::from(state);
            let step = writing.step(&[0xff; 40], &mut vec![0; room]);
            assert!(step.taken <= 40 && step.taken <= step.written && step.written <= room);
            assert_eq!(
                writing.finish().is_ok(),
                number != 0 && writing.data_left() == 0
            );
            for base in [&base[..], &[], &[0xff; 600], &[0xff; 30]] {
                for replaced in [number, number.saturating_sub(1)] {
                    let mut staged = staged::Writing::from(StagedWriting {
                        writing: state,
                        replaced,
                    });
                    let written = staged.step(base, &[0xff; 40], &mut vec![0; room]);
                    assert!(written <= room);
                    let _ = staged.finish();
                }
            }
        }
    }
}

#[test]
fn signatures_and_texts() {
    for number in numbers() {
        for algorithm in Algorithm::ALL {
            let claim = Claim {
                algorithm,
                register_index: number,
                register_value: Digest([number as u8; 48]),
            };
            let signature = vec![number as u8; algorithm.signature_length()];
            let bytes = sign1::to_vec(&claim, &signature).unwrap();
            let read = sign1::read(&bytes).unwrap();
            assert_eq!((read.claim, read.signature), (claim, &signature[..]));
            assert!(sign1::to_vec(&claim, &signature[1..]).is_err());
            for cut in 0..bytes.len() {
                assert!(sign1::read(&bytes[..cut]).is_err());
            }
        }
    }
    for byte in 0..=u8::MAX {
        for length in 0..5 {
            let text = vec![byte; length];
            let fault = json::check(&text).err();
            assert!(fault.map_or(true, |fault| fault.place() <= length));
            assert!(sign1::read(&text).is_err());
            assert!(eif::read_roll(&text).is_err());
            assert!(eif::read(&text).is_err());
        }
    }
}

/// Texts that are no fingerprint, and every byte in one.
#[test]
fn fingerprints() {
    for byte in 0..=u8::MAX {
        let fingerprint = Fingerprint(Digest([byte; 48]));
        let text = fingerprint.to_string();
        assert_eq!(text.len(), 96);
        assert_eq!(format!("{fingerprint:x}"), text);
        assert_eq!(text.parse(), Ok(fingerprint));
        assert_eq!(text.to_uppercase().parse(), Ok(fingerprint));
        let other = char::from(byte).to_string();
        for place in [0, 1, 95] {
            let mut text = "a".repeat(96);
            text.replace_range(place..place + 1, &other);
            let is_digit = byte.is_ascii_hexdigit();
            assert_eq!(text.parse::<Fingerprint>().is_ok(), is_digit, "{text}");
        }
    }
    for length in (0..200).filter(|&length| length != 96) {
        assert!("a".repeat(length).parse::<Fingerprint>().is_err());
    }
}

/// Names and numbers that are looked up.
#[test]
fn lookups() {
    for flags in 0..=u16::MAX {
        assert_eq!(Architecture::of_flags(flags).flags(), flags & 1);
        let named = SectionType(flags).name().is_some();
        assert_eq!(named, (1..=5).contains(&flags));
    }
    for number in 0..=u8::MAX {
        let reason = Reason::from_number(number);
        assert_eq!(
            reason.map(|reason| reason as u8),
            (1..=29).contains(&number).then_some(number)
        );
    }
    let registers = Registers([1, 2, 3].map(|byte| Digest([byte; 48])));
    for (stream, byte) in Stream::ALL.into_iter().zip([1, 2, 3]) {
        assert_eq!(registers.of(stream), Digest([byte; 48]));
    }
    for bytes in [
        vec![],
        vec![0; 548],
        vec![0xff; 600],
        worked_image()[..585].to_vec(),
    ] {
        let refusal = eif::read(&bytes).unwrap_err();
        assert!(refusal.place_in_image().is_some());
        let refusal = eif::read_roll(&bytes).unwrap_err();
        assert!(refusal.place_in_roll(&bytes).is_some() && refusal.place_in_roll(&[]).is_some());
    }
}
