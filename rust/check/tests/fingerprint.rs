//! The fingerprint of images: the example of FORMAT.md, the SHA-384 of the roll, and what it tells apart.

use eif::{ArrivingFingerprint, Fingerprint, NotFingerprint, Refusal, Sha384};
use eif_cases::{image_cases, image_of_length, register_cases, worked_image, Layout, Section};
use std::io::{ErrorKind, Write};

/// What FORMAT.md gives for the worked example; `sha384sum` of its roll prints the same.
const WORKED: &str = "83f9e4fb2210b884ede6258258806d7c58530f3730b49ae0\
                      1a5dda9eb6bb26125581a1d8602cec25b07fa13866d78605";

/// The SHA-384 of the roll.
fn of_roll(image: &[u8]) -> Fingerprint {
    let mut hash = Sha384::new();
    hash.update(&eif::roll_to_vec(image).unwrap()).unwrap();
    Fingerprint(hash.finish())
}

fn arrived(image: &[u8], length: usize) -> Result<Fingerprint, Refusal> {
    let mut arriving = ArrivingFingerprint::new();
    for piece in image.chunks(length) {
        arriving.write_all(piece).unwrap();
    }
    arriving.flush().unwrap();
    let (reading, fingerprint) = arriving.finish()?;
    assert_eq!(reading, *eif::read(image).unwrap());
    let error = arriving.write_all(b"x").unwrap_err();
    assert_eq!(error.kind(), ErrorKind::WriteZero);
    assert_eq!(arriving.finish(), Ok((reading, fingerprint)));
    assert_eq!(eif::fingerprint(image), Ok(fingerprint));
    Ok(fingerprint)
}

#[test]
fn the_worked_example() {
    assert_eq!(arrived(&worked_image(), 100).unwrap().to_string(), WORKED);
    assert_eq!(WORKED.parse(), Ok(of_roll(&worked_image())));
    assert_eq!(
        WORKED.parse(),
        eif::fingerprint(&worked_image()).map_err(|_| NotFingerprint)
    );
}

/// However the image is cut.
#[test]
fn examples_while_they_arrive() {
    for (image, _) in register_cases() {
        for length in [1, 7, 12, 547, 548, 4096] {
            assert_eq!(arrived(&image, length), Ok(of_roll(&image)));
        }
    }
    for case in image_cases() {
        let refusal = eif::read(&case.image).map(|_| ()).err();
        assert_eq!(arrived(&case.image, 13).err(), refusal, "{}", case.name);
    }
}

#[test]
fn a_long_image_while_it_arrives() {
    let image = image_of_length(1 << 20);
    for length in [1 << 16, 1 << 12, 1_000, 1 << 20] {
        assert_eq!(arrived(&image, length), Ok(of_roll(&image)));
    }
}

/// A byte moved from one section to the next changes no register, and changes the fingerprint. Flags change it; metadata
/// and section flags do not.
#[test]
fn what_a_fingerprint_tells_apart() {
    let image = |kernel: &[u8], line: &[u8], metadata: &[u8], flags| {
        let sections = vec![
            Section::new(1, kernel),
            Section::new(2, line),
            Section::new(5, metadata),
        ];
        let layout = Layout {
            flags,
            ..Layout::new(4, sections)
        };
        layout.image()
    };
    let one = image(b"kernel", b"line", b"{}", 0);
    let moved = image(b"kerne", b"lline", b"{}", 0);
    assert_eq!(eif::registers(&one), eif::registers(&moved));
    assert_ne!(arrived(&one, 64), arrived(&moved, 64));
    assert_ne!(
        arrived(&one, 64),
        arrived(&image(b"kernel", b"line", b"{}", 1), 64)
    );
    assert_eq!(
        arrived(&one, 64),
        arrived(&image(b"kernel", b"line", b"[1]", 0), 64)
    );
}
