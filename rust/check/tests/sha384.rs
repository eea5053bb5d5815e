//! SHA-384 through the library: the published examples, the twin, `sha384sum`, and the limit.

use eif::{raw, Digest, Sha384, MAX_MESSAGE_LENGTH};
use eif_cases::digest_cases;
use eif_check::Rng;
use eif_twin as twin;
use std::fs;
use std::path::Path;
use std::process::Command;

/// More than two blocks, so that every place of a block's end and of the padding's is met.
const LENGTHS: std::ops::RangeInclusive<usize> = 0..=260;

fn digest<'a>(pieces: impl IntoIterator<Item = &'a [u8]>) -> Digest {
    let mut hash = Sha384::new();
    for piece in pieces {
        hash.update(piece).unwrap();
    }
    hash.finish()
}

fn twin_digest(message: &[u8]) -> Digest {
    let mut hash = twin::Sha384::new();
    hash.update(message).unwrap();
    Digest(hash.finish())
}

fn message(length: usize) -> Vec<u8> {
    Rng::of_input(384, length as u64).bytes(length)
}

#[test]
fn published_examples() {
    for case in digest_cases() {
        assert_eq!(digest([&case.message[..]]).to_string(), case.digest);
        for size in [1, 127, 128, 129] {
            let digest = digest(case.message.chunks(size)).to_string();
            assert_eq!(digest, case.digest, "{} by {size}", case.name);
        }
    }
}

#[test]
fn every_length_and_every_cut() {
    for length in LENGTHS {
        let message = message(length);
        let expected = twin_digest(&message);
        assert_eq!(digest([&message[..]]), expected, "{length}");
        for cut in 0..=length {
            let (first, second) = message.split_at(cut);
            assert_eq!(digest([first, second]), expected, "{length} at {cut}");
        }
    }
}

#[test]
fn any_pieces() {
    for ordinal in 0..2_000 {
        let mut rng = Rng::of_input(385, ordinal);
        let length = rng.below(2_000);
        let message = rng.bytes(length);
        let most = rng.pick(&[1, 3, 40, 128, 300]);
        let mut hash = Sha384::new();
        let mut rest = &message[..];
        while !rest.is_empty() {
            let (piece, others) = rest.split_at(rng.below(most + 1).min(rest.len()));
            hash.update(piece).unwrap();
            rest = others;
        }
        assert_eq!(hash.finish(), twin_digest(&message), "{ordinal}");
    }
}

#[test]
fn sha384sum_agrees() {
    let folder = Path::new(env!("CARGO_TARGET_TMPDIR")).join("sha384sum");
    fs::create_dir_all(&folder).unwrap();
    let lengths: Vec<usize> = LENGTHS.chain([4_096, 100_000, 1 << 20]).collect();
    for &length in &lengths {
        fs::write(folder.join(length.to_string()), message(length)).unwrap();
    }
    let names = lengths.iter().map(usize::to_string);
    let output = Command::new("sha384sum")
        .args(names)
        .current_dir(&folder)
        .output();
    let output = output.expect("coreutils has sha384sum");
    assert!(output.status.success());
    let expected = lengths.iter().map(|&length| {
        let digest = digest([&message(length)[..]]);
        format!("{digest}  {length}\n")
    });
    let expected: String = expected.collect();
    assert_eq!(String::from_utf8_lossy(&output.stdout), expected);
    fs::remove_dir_all(&folder).unwrap();
}

#[test]
fn a_copy_goes_on_from_where_it_was_taken() {
    let message = message(260);
    let mut hash = Sha384::new();
    for cut in 0..message.len() {
        let kept = raw::Sha384::from(hash.clone());
        let mut copy = Sha384::from(kept);
        copy.update(&message[cut..]).unwrap();
        assert_eq!(copy.finish(), twin_digest(&message), "{cut}");
        hash.update(&message[cut..=cut]).unwrap();
    }
    assert_eq!(hash.finish(), twin_digest(&message));
}

/// The number that a piece of `length` bytes gets where `total` bytes were taken before. Beside a refusal
/// the state is as it was.
fn number_of(total: u64, length: usize) -> u8 {
    let mut rng = Rng::of_input(total, length as u64);
    let before = raw::Sha384 {
        words: std::array::from_fn(|_| rng.next()),
        block: std::array::from_fn(|_| rng.next() as u8),
        total,
    };
    let piece = rng.bytes(length);
    let fed = raw::sha384_update(before, &piece);
    assert_eq!(fed.index, 0);
    match fed.number {
        0 => assert_eq!(fed.state.total, total + length as u64),
        _ => assert_eq!(fed.state, before),
    }
    let mut hash = Sha384::from(before);
    let number = hash.update(&piece).map_or_else(|r| r.number(), |()| 0);
    assert_eq!(number, fed.number);
    assert_eq!(raw::Sha384::from(hash), fed.state);
    number
}

#[test]
fn the_total_is_limited() {
    for room in [0, 1, 2, 127, 128, 129, 300] {
        let total = MAX_MESSAGE_LENGTH - room as u64;
        for length in 0..=room {
            assert_eq!(number_of(total, length), 0, "{total} {length}");
        }
        for length in room + 1..room + 140 {
            assert_eq!(number_of(total, length), 29, "{total} {length}");
        }
    }
}

#[test]
fn past_the_limit_nothing_is_taken() {
    // No run reaches such a total. Where it is above the limit already, an empty piece is refused too.
    for total in [MAX_MESSAGE_LENGTH + 1, 1 << 63, u64::MAX - 127, u64::MAX] {
        for length in [0, 1, 128, 300] {
            assert_eq!(number_of(total, length), 29, "{total} {length}");
        }
    }
}
