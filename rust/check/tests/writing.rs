//! Writing in pieces by the Rust interface: over writers that take little or fail, into files, through pipes, and from a
//! base and a replacement.

use eif::{
    staged, DataLength, ImageWriter, Place, Plan, Reason, Refusal, SectionType, Writing,
    CHECKSUM_POSITION, HEADER_LENGTH, MAX_IMAGE_LENGTH, SECTION_HEADER_LENGTH,
};
use eif_check::{accepted_plan, Rng};
use std::fs::OpenOptions;
use std::io::{self, Cursor, ErrorKind, Read, Seek, SeekFrom, Write};
use std::path::Path;

/// A plan that is not refused, its data and its image.
fn any_image(rng: &mut Rng) -> (Plan, Vec<u8>, Vec<u8>) {
    let given = accepted_plan(rng);
    let places = &given.plan.places[..usize::from(given.plan.count)];
    let plan = Plan {
        version: given.plan.version,
        flags: given.plan.flags,
        default_mem: given.plan.default_mem,
        default_cpus: given.plan.default_cpus,
        places: places.to_vec(),
    };
    let image = eif::write_to_vec(&plan, &given.data).expect("an accepted plan");
    (plan, given.data, image)
}

/// A kernel and a command line of these lengths.
fn two_sections(kernel: u64, command_line: u64) -> Plan {
    let places = vec![
        Place::new(SectionType::KERNEL, DataLength(kernel)),
        Place::new(SectionType::COMMAND_LINE, DataLength(command_line)),
    ];
    Plan {
        version: 2,
        places,
        ..Plan::default()
    }
}

/// The refusal that an error holds.
fn refusal_in(error: &io::Error) -> Option<&Refusal> {
    error.get_ref().and_then(|held| held.downcast_ref())
}

/// A writer that takes few bytes, is interrupted, and fails now and then.
struct Reluctant {
    rng: Rng,
    taken: Vec<u8>,
    fails: bool,
}

impl Write for Reluctant {
    fn write(&mut self, bytes: &[u8]) -> io::Result<usize> {
        match self.rng.below(6) {
            0 => Err(ErrorKind::Interrupted.into()),
            1 if self.fails => Err(ErrorKind::TimedOut.into()),
            _ => {
                let count = self.rng.below(bytes.len()) + 1;
                self.taken.extend_from_slice(&bytes[..count]);
                Ok(count)
            }
        }
    }

    fn flush(&mut self) -> io::Result<()> {
        Ok(())
    }
}

/// Calls until it does not time out.
fn until_it_works<T>(mut call: impl FnMut() -> io::Result<T>) -> T {
    loop {
        match call() {
            Ok(done) => return done,
            Err(error) => assert_eq!(error.kind(), ErrorKind::TimedOut, "{error}"),
        }
    }
}

/// Whatever the writer underneath does, no byte is lost and none is written twice.
#[test]
fn a_reluctant_writer() {
    for ordinal in 0..2_000 {
        let mut rng = Rng::of_input(71, ordinal);
        let (plan, data, image) = any_image(&mut rng);
        let inner = Reluctant {
            rng: Rng::of_input(72, ordinal),
            taken: Vec::new(),
            fails: ordinal % 2 == 0,
        };
        let right = image[CHECKSUM_POSITION..HEADER_LENGTH].try_into().unwrap();
        let right = u32::from_be_bytes(right);
        let mut writer = ImageWriter::with_checksum(inner, &plan, right).unwrap();
        assert_eq!(writer.length(), image.len());
        let mut rest = &data[..];
        while !rest.is_empty() {
            let piece = &rest[..rng.below(rest.len()) + 1];
            let taken = until_it_works(|| writer.write(piece));
            assert!(taken > 0);
            rest = &rest[taken..];
            assert_eq!(writer.data_left(), rest.len() as u64);
            if rng.once_in(4) {
                until_it_works(|| writer.flush());
            }
        }
        for _ in 0..2 {
            assert_eq!(until_it_works(|| writer.finish()), right);
        }
        assert!(writer.into_inner().taken == image, "input {ordinal}");
    }
}

/// Into a file that has bytes before and after: only those of the image change, and the place after it is where a caller
/// goes on.
#[test]
fn into_a_file() {
    let file = Path::new(env!("CARGO_TARGET_TMPDIR")).join("in-pieces.eif");
    for ordinal in 0..100 {
        let mut rng = Rng::of_input(73, ordinal);
        let (plan, data, image) = any_image(&mut rng);
        let before = rng.below(700);
        std::fs::write(&file, vec![0xaa; before + image.len() + 9]).unwrap();
        let mut open = OpenOptions::new().write(true).open(&file).unwrap();
        open.seek(SeekFrom::Start(before as u64)).unwrap();
        let mut writer = ImageWriter::new(open, &plan).unwrap();
        io::copy(&mut &data[..], &mut writer).unwrap();
        let checksum = writer.finish_in_place().unwrap();
        assert_eq!(checksum, writer.finish_in_place().unwrap());
        writer.into_inner().write_all(b"next").unwrap();
        let written = std::fs::read(&file).unwrap();
        let expected = [&vec![0xaa; before], &image[..], b"next", &[0xaa; 5]].concat();
        assert!(written == expected, "input {ordinal}");
    }
    std::fs::remove_file(&file).unwrap();
}

/// Data past the plan's sum is not taken.
#[test]
fn data_past_the_sum() {
    let plan = two_sections(4, 5);
    let mut writer = ImageWriter::new(Cursor::new(Vec::new()), &plan).unwrap();
    let error = writer.write_all(b"kernquiet and more").unwrap_err();
    assert_eq!(error.kind(), ErrorKind::WriteZero);
    assert_eq!(writer.write(b"more").unwrap(), 0);
    assert_eq!(writer.data_left(), 0);
    writer.finish_in_place().unwrap();
    let image = writer.into_inner().into_inner();
    assert_eq!(image, eif::write_to_vec(&plan, b"kernquiet").unwrap());
}

/// Missing data is refused by 15, and can still come.
#[test]
fn data_missing() {
    let plan = two_sections(4, 5);
    let mut writer = ImageWriter::new(Cursor::new(Vec::new()), &plan).unwrap();
    for (piece, left) in [(&b"kern"[..], 5), (b"quie", 1)] {
        writer.write_all(piece).unwrap();
        assert_eq!(writer.data_left(), left);
        for error in [writer.finish(), writer.finish_in_place()] {
            let error = error.unwrap_err();
            assert_eq!(error.kind(), ErrorKind::InvalidData);
            let reason = refusal_in(&error).map(Refusal::reason);
            assert_eq!(reason, Some(Reason::DataLengthDiffers));
        }
    }
    writer.write_all(b"t").unwrap();
    writer.finish_in_place().unwrap();
    let image = writer.into_inner().into_inner();
    assert_eq!(image, eif::write_to_vec(&plan, b"kernquiet").unwrap());
}

/// An image with no data at all is written by `finish` alone, and nothing is written before.
#[test]
fn no_data() {
    let plan = two_sections(0, 0);
    let mut writer = ImageWriter::new(Cursor::new(Vec::new()), &plan).unwrap();
    assert_eq!(writer.write(b"").unwrap(), 0);
    writer.finish_in_place().unwrap();
    let image = writer.into_inner().into_inner();
    assert_eq!(image, eif::write_to_vec(&plan, b"").unwrap());
}

#[test]
fn refused_plans() {
    let long = (MAX_IMAGE_LENGTH - HEADER_LENGTH - 2 * SECTION_HEADER_LENGTH) as u64;
    let (_, length) = Writing::begin(&two_sections(long, 0), 0).unwrap();
    assert_eq!(length, MAX_IMAGE_LENGTH);
    let many = Plan {
        places: vec![Place::default(); 70_000],
        ..two_sections(0, 0)
    };
    let cases = [
        (two_sections(long, 1), 1),
        (two_sections(u64::MAX, u64::MAX), 1),
        (Plan::default(), 4),
        (many, 5),
    ];
    for (plan, number) in cases {
        let refusal = Writing::begin(&plan, 0).unwrap_err();
        assert_eq!(refusal.number(), number);
        let writer = ImageWriter::new(io::sink(), &plan);
        assert_eq!(writer.unwrap_err(), refusal);
        assert_eq!(eif::plan_length(&plan), Err(refusal));
    }
}

/// A base with one section replaced, read with buffers of every small length: the image written afresh.
#[test]
fn from_base_and_replacement() {
    for ordinal in 0..300 {
        let mut rng = Rng::of_input(74, ordinal);
        let (plan, _, base) = any_image(&mut rng);
        let replaced = rng.below(plan.places.len());
        let length = rng.below(60);
        let replacement = rng.bytes(length);
        let afresh = staged::write_to_vec(&base, &replacement, replaced).unwrap();
        let room = 1 + ordinal as usize % 40;
        let mut reader = staged::Reader::new(&base, &replacement, replaced).unwrap();
        assert_eq!(reader.length(), afresh.len());
        assert_eq!(reader.read(&mut []).unwrap(), 0);
        let mut read = Vec::new();
        loop {
            let mut out = vec![0xaa; room];
            let count = reader.read(&mut out).unwrap();
            assert!(out[count..].iter().all(|&byte| byte == 0xaa));
            read.extend_from_slice(&out[..count]);
            if count == 0 {
                break;
            }
        }
        assert!(read == afresh, "input {ordinal}");
        let mut whole = Vec::new();
        let mut reader = staged::Reader::new(&base, &replacement, replaced).unwrap();
        reader.read_to_end(&mut whole).unwrap();
        assert!(whole == afresh, "input {ordinal}");
    }
}

#[test]
fn refused_bases() {
    let base = eif::write_to_vec(&two_sections(4, 5), b"kernquiet").unwrap();
    let cases = [
        (&base[..9], 0, 2),
        (&base[..], 2, 27),
        (&base, usize::MAX, 27),
    ];
    for (base, replaced, number) in cases {
        let refusal = staged::Reader::new(base, b"new", replaced).unwrap_err();
        assert_eq!(refusal.number(), number);
        let begun = staged::Writing::begin(base, b"new", replaced, 0);
        assert_eq!(begun.unwrap_err(), refusal);
    }
}

/// The longest image, written with no memory for it, is the one that the reader of an arriving image accepts.
#[test]
fn the_longest_image_through_a_pipe() {
    let kernel = MAX_IMAGE_LENGTH - HEADER_LENGTH - 2 * SECTION_HEADER_LENGTH;
    let plan = two_sections(kernel as u64, 0);
    let mut first = ImageWriter::new(io::sink(), &plan).unwrap();
    io::copy(&mut io::repeat(7).take(kernel as u64), &mut first).unwrap();
    let checksum = first.finish().unwrap();
    let arriving = eif::Arriving::new();
    let mut second = ImageWriter::with_checksum(arriving, &plan, checksum).unwrap();
    io::copy(&mut io::repeat(7).take(kernel as u64), &mut second).unwrap();
    assert_eq!(second.write(b"more").unwrap(), 0);
    assert_eq!(second.finish().unwrap(), checksum);
    let mut arriving = second.into_inner();
    assert_eq!(arriving.taken(), MAX_IMAGE_LENGTH as u64);
    assert_eq!(
        arriving.finish().unwrap().sections()[0].length.0,
        kernel as u64
    );
}
