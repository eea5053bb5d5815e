//! SHA-384 and the registers through the twin.

use eif_cases::{digest_cases, hex, register_cases};
use eif_twin::*;

#[test]
fn published_examples() {
    for case in digest_cases() {
        for size in [1, 64, 127, 128, 129, case.message.len().max(1)] {
            let mut hash = Sha384::new();
            for piece in case.message.chunks(size) {
                hash.update(piece).unwrap();
            }
            let digest = hex(&hash.finish());
            assert_eq!(digest, case.digest, "{} by {size}", case.name);
        }
    }
}

#[test]
fn the_total_is_limited() {
    let limit = (1 << 61) - 1;
    let refused = Err(Refusal {
        number: 29,
        index: 0,
        position: 0,
    });
    for (total, length, answer) in [
        (limit, 0, Ok(())),
        (limit, 1, refused),
        (limit - 1, 1, Ok(())),
        (limit - 1, 2, refused),
        (limit - 200, 200, Ok(())),
        (limit - 200, 201, refused),
        (u64::MAX, 1, refused),
    ] {
        let before = Sha384 {
            total,
            ..Sha384::new()
        };
        let mut hash = before;
        assert_eq!(hash.update(&vec![7; length]), answer, "{total} {length}");
        match answer {
            Ok(()) => assert_eq!(hash.total, total + length as u64),
            Err(_) => assert_eq!(hash, before),
        }
    }
}

#[test]
fn image_registers() {
    for (image, expected) in register_cases() {
        let registers = registers(&image).unwrap();
        assert_eq!(registers.map(|register| hex(&register)), expected);
    }
    let refused = Refusal {
        number: 2,
        index: 0,
        position: 0,
    };
    assert_eq!(registers(&[]), Err(refused));
}
