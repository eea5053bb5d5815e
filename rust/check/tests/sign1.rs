//! COSE_Sign1 through the library: the examples, every byte changed, and an encoder that shares nothing
//! with it.

use eif::raw::sign1::{self as raw, Sign1Claim, Sign1Reading};
use eif::sign1::{self, Algorithm, Sign1Position};
use eif::{DataLength, Digest, Reason, DIGEST_LENGTH};
use eif_cases::{sign1_cases, sign1_example, Sign1Parts, SIGN1_ALGORITHMS};
use eif_check::{compare_sign1, refused, Output, Tally};
use std::path::Path;
use std::process::Command;

fn claim_of(parts: &Sign1Parts) -> Sign1Claim {
    Sign1Claim {
        algorithm: parts.algorithm,
        register_index: parts.index,
        register_value: Digest(parts.value),
    }
}

/// What reading the bytes of these parts answers.
fn reading_of(parts: &Sign1Parts) -> Sign1Reading {
    let length = parts.signature.len();
    Sign1Reading {
        claim: claim_of(parts),
        signature_position: Sign1Position((parts.bytes().len() - length) as u64),
        signature_length: DataLength(length as u64),
        ..Sign1Reading::default()
    }
}

/// 28 at 0, and zeros beside it, the position too.
fn refused() -> Sign1Reading {
    refused!(Sign1Reading, (28, 0, 0))
}

/// Writes into a buffer with a byte more than is needed.
#[track_caller]
fn check_written(parts: &Sign1Parts, bytes: &[u8]) {
    let mut out = Output::new(bytes.len() + 1, 0x5a);
    let written = raw::sign1_write(claim_of(parts), &parts.signature, out.lend());
    assert_eq!((written.number, written.index, written.position), (0, 0, 0));
    assert_eq!(written.length, bytes.len() as u64);
    assert_eq!(out.start(bytes.len()), bytes);
    assert!(out.only_start_changed(bytes.len()));
}

#[test]
fn examples() {
    let (mut accepted, mut others) = (0, 0);
    for case in sign1_cases() {
        let reading = raw::sign1_read(&case.bytes);
        match &case.answer {
            Some(parts) => {
                assert_eq!(reading, reading_of(parts), "{}", case.name);
                check_written(parts, &case.bytes);
                accepted += 1;
            }
            None => {
                assert_eq!(reading, refused(), "{}", case.name);
                others += 1;
            }
        }
    }
    assert!(accepted > 40 && others > 1_000, "{accepted} {others}");
}

/// What is accepted after a byte is changed is what would be written; the twin says which that is.
#[test]
fn every_byte_changed() {
    let mut tally = Tally::default();
    for (algorithm, length) in SIGN1_ALGORITHMS {
        let bytes = sign1_example(algorithm, length).bytes();
        for at in 0..bytes.len() {
            for value in 0..=255 {
                let mut changed = bytes.clone();
                changed[at] = value;
                compare_sign1(at as u64, &changed, &mut tally);
            }
        }
    }
}

/// Bytes before the index, but for the payload's length, leave no choice.
#[test]
fn one_form() {
    for (algorithm, length) in SIGN1_ALGORITHMS {
        let bytes = sign1_example(algorithm, length).bytes();
        let index_at = if algorithm == 7 { 24 } else { 25 };
        for at in 0..index_at {
            for change in 1..=255 {
                let mut changed = bytes.clone();
                changed[at] ^= change;
                assert_eq!(raw::sign1_read(&changed), refused(), "{algorithm} {at}");
            }
        }
    }
}

#[test]
fn room() {
    for (algorithm, length) in SIGN1_ALGORITHMS {
        let parts = sign1_example(algorithm, length);
        let needed = parts.bytes().len();
        for room in 0..needed {
            let mut out = Output::new(room, 0x33);
            let written = raw::sign1_write(claim_of(&parts), &parts.signature, out.lend());
            assert_eq!(
                (written.number, written.index, written.position),
                (14, 0, 0)
            );
            assert_eq!(written.length, 0);
            assert!(out.only_start_changed(0));
        }
        check_written(&parts, &parts.bytes());
    }
}

/// 28 goes before 14, whatever the room is.
#[test]
fn lengths_of_signatures() {
    for algorithm in (0..=300).chain([(1 << 32) + 35, u64::MAX]) {
        let known = SIGN1_ALGORITHMS.iter().find(|(a, _)| *a == algorithm);
        for length in 0..=300 {
            let parts = sign1_example(algorithm, length);
            for (room, fits) in [(0, 14), (sign1::MAX_LENGTH, 0)] {
                let mut out = Output::new(room, 0x44);
                let written = raw::sign1_write(claim_of(&parts), &parts.signature, out.lend());
                let number = match known {
                    Some((_, l)) if *l == length => fits,
                    _ => 28,
                };
                assert_eq!(
                    (written.number, written.index, written.position),
                    (number, 0, 0),
                    "{algorithm} {length}"
                );
                assert!(out.only_start_changed(written.length as usize));
            }
        }
    }
}

#[test]
fn the_longest() {
    let parts = Sign1Parts {
        algorithm: 36,
        index: u64::MAX,
        value: [255; DIGEST_LENGTH],
        signature: vec![255; 132],
    };
    assert_eq!(parts.bytes().len(), sign1::MAX_LENGTH);
    assert_eq!(raw::sign1_read(&parts.bytes()), reading_of(&parts));
    let longest = sign1_cases()
        .into_iter()
        .filter(|case| case.answer.is_some());
    let longest = longest.map(|case| case.bytes.len()).max();
    assert!(longest.is_some_and(|length| length <= sign1::MAX_LENGTH));
}

#[test]
fn algorithms_by_their_registry_numbers() {
    for (algorithm, (number, length)) in Algorithm::ALL.into_iter().zip(SIGN1_ALGORITHMS) {
        assert_eq!(i64::from(algorithm.number()), -(number as i64));
        assert_eq!(algorithm.signature_length(), length);
        let parts = sign1_example(number, length);
        let bytes = parts.bytes();
        let read = sign1::read(&bytes).unwrap();
        assert_eq!(read.claim.algorithm, algorithm);
        assert_eq!(read.signature, parts.signature);
        assert_eq!(sign1::to_vec(&read.claim, read.signature).unwrap(), bytes);
        let refusal = sign1::to_vec(&read.claim, &read.signature[1..]).unwrap_err();
        assert_eq!(refusal.reason(), Reason::NotSign1);
    }
}

fn unhex(text: &str) -> Vec<u8> {
    let digits = (0..text.len()).step_by(2);
    let byte = |at| u8::from_str_radix(&text[at..at + 2], 16).expect("two digits");
    digits.map(byte).collect()
}

/// What tests/sign1.py encodes is accepted with its claim, and the writer gives the same bytes. The
/// environment variable EIF_PYTHON names a Python that has cbor2.
#[test]
fn an_independent_encoder() {
    let python = std::env::var("EIF_PYTHON").unwrap_or("python3".into());
    let script = Path::new(env!("CARGO_MANIFEST_DIR")).join("../../tests/sign1.py");
    let Ok(output) = Command::new(&python).arg(script).output() else {
        eprintln!("skipped: no program `{python}`");
        return;
    };
    assert!(output.status.success(), "{output:?}");
    let text = String::from_utf8(output.stdout).expect("text");
    let mut lines = text.lines();
    eprintln!("{}", lines.next().expect("the encoder's name"));
    let mut claims = 0;
    for line in lines {
        let [algorithm, index, value, signature, bytes] = line
            .split(' ')
            .collect::<Vec<_>>()
            .try_into()
            .expect("five words");
        let number: i64 = algorithm.parse().expect("a number");
        let parts = Sign1Parts {
            algorithm: number.unsigned_abs(),
            index: index.parse().expect("a number"),
            value: unhex(value).try_into().expect("48 bytes"),
            signature: unhex(signature),
        };
        let bytes = unhex(bytes);
        assert_eq!(raw::sign1_read(&bytes), reading_of(&parts), "{line}");
        check_written(&parts, &bytes);
        claims += 1;
    }
    assert!(claims > 300, "{claims}");
}
