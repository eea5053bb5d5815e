//! The registers of images: the examples, `sha384sum`, and the rule itself.

use eif::{raw, ArrivingRegisters, Registers, Sha384, Stream, DIGEST_LENGTH};
use eif_cases::{image_cases, image_of_length, register_cases};
use eif_check::{accepted_layout, Rng};
use std::fs;
use std::io::{ErrorKind, Write};
use std::path::{Path, PathBuf};
use std::process::Command;

fn repository() -> PathBuf {
    Path::new(env!("CARGO_MANIFEST_DIR")).join("../..")
}

/// Holds the registers of an image in a file to what tests/registers.sh computes with `sha384sum`.
fn check_with_script(file: &Path) {
    let registers = eif::registers(&fs::read(file).unwrap()).unwrap();
    let script = Command::new("sh")
        .arg(repository().join("tests/registers.sh"))
        .arg(file)
        .output();
    let script = script.expect("there is a shell");
    assert!(script.status.success(), "{}", file.display());
    let expected = String::from_utf8_lossy(&script.stdout);
    assert_eq!(format!("{registers}\n"), expected, "{}", file.display());
}

/// Writes images to files and checks each.
fn check_images(name: &str, images: impl IntoIterator<Item = Vec<u8>>) {
    let file = Path::new(env!("CARGO_TARGET_TMPDIR")).join(name);
    for image in images {
        fs::write(&file, image).unwrap();
        check_with_script(&file);
    }
    fs::remove_file(&file).unwrap();
}

#[test]
fn examples() {
    for (image, expected) in register_cases() {
        let registers = eif::registers(&image).unwrap();
        assert_eq!(registers.0.map(|register| register.to_string()), expected);
    }
}

/// Wherever the command line stands.
#[test]
fn examples_by_sha384sum() {
    check_images(
        "examples.eif",
        register_cases().into_iter().map(|(image, _)| image),
    );
}

#[test]
fn samples_by_sha384sum() {
    let mut samples = 0;
    for entry in fs::read_dir(repository().join("samples")).unwrap() {
        let file = entry.unwrap().path();
        if file.extension().is_some_and(|extension| extension == "eif") {
            check_with_script(&file);
            samples += 1;
        }
    }
    assert!(samples > 0);
}

#[test]
fn generated_images_by_sha384sum() {
    let image = |ordinal| accepted_layout(&mut Rng::of_input(9, ordinal)).image();
    check_images("generated.eif", (0..16).map(image));
}

#[test]
fn a_long_image_by_sha384sum() {
    check_images("long.eif", [image_of_length(1 << 24)]);
}

#[test]
fn registers_are_digests_of_digests_of_streams() {
    for ordinal in 0..2_000 {
        let image = accepted_layout(&mut Rng::of_input(10, ordinal)).image();
        let registers = eif::registers(&image).unwrap();
        for stream in Stream::ALL {
            let mut measured = Sha384::new();
            let bytes = eif::stream_to_vec(&image, stream).unwrap();
            measured.update(&bytes).unwrap();
            let mut extended = Sha384::new();
            extended.update(&[0; DIGEST_LENGTH]).unwrap();
            extended.update(&measured.finish().0).unwrap();
            assert_eq!(registers.of(stream), extended.finish());
        }
    }
}

/// However the image is cut, and written as to a file.
#[test]
fn registers_of_examples_while_they_arrive() {
    for (image, expected) in register_cases() {
        for length in [1, 7, 12, 547, 548, 4096] {
            let mut arriving = ArrivingRegisters::new();
            for piece in image.chunks(length) {
                arriving.write_all(piece).unwrap();
            }
            arriving.flush().unwrap();
            let (reading, registers) = arriving.finish().unwrap();
            assert_eq!(reading, *eif::read(&image).unwrap());
            assert_eq!(registers.0.map(|register| register.to_string()), expected);
            let error = arriving.write_all(b"x").unwrap_err();
            assert_eq!(error.kind(), ErrorKind::WriteZero);
            assert_eq!(arriving.finish(), Ok((reading, registers)));
        }
    }
}

/// Of a long image, whose ramdisks are longer than a piece.
#[test]
fn registers_of_a_long_image_while_it_arrives() {
    let image = image_of_length(1 << 20);
    let expected = eif::registers(&image).unwrap();
    for length in [1 << 16, 1 << 12, 1_000, 1 << 20] {
        let mut arriving = ArrivingRegisters::new();
        for piece in image.chunks(length) {
            assert_eq!(arriving.feed(piece), piece.len());
        }
        assert_eq!(arriving.taken(), image.len() as u64);
        assert_eq!(arriving.finish().unwrap().1, expected);
    }
}

#[test]
fn a_refused_image_has_registers_of_zeros() {
    let mut refused = 0;
    for case in image_cases() {
        let answer = raw::registers(&case.image);
        let verdict = (answer.number, answer.index, answer.position);
        assert_eq!(verdict, case.answer, "{}", case.name);
        match eif::registers(&case.image) {
            Ok(Registers(registers)) => assert_eq!(registers, answer.registers),
            Err(refusal) => {
                let parts = (refusal.number(), refusal.index(), refusal.position());
                assert_eq!(parts, verdict);
                let zeros = raw::RegistersAnswer::default().registers;
                assert_eq!(answer.registers, zeros, "{}", case.name);
                refused += 1;
            }
        }
    }
    assert!(refused > 10, "{refused}");
}
