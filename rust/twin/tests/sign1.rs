//! COSE_Sign1 through the twin.

use eif_cases::{sign1_cases, sign1_example, Sign1Parts, SIGN1_ALGORITHMS};
use eif_twin::*;

fn claim_of(parts: &Sign1Parts) -> Claim {
    Claim {
        algorithm: parts.algorithm,
        index: parts.index,
        value: parts.value,
    }
}

#[test]
fn examples() {
    for case in sign1_cases() {
        let answer = read_sign1(&case.bytes);
        let Some(parts) = &case.answer else {
            let refusal = answer.unwrap_err();
            assert_eq!((refusal.number, refusal.index), (28, 0), "{}", case.name);
            continue;
        };
        let length = parts.signature.len();
        let expected = Sign1 {
            claim: claim_of(parts),
            position: case.bytes.len() - length,
            length,
        };
        assert_eq!(answer, Ok(expected), "{}", case.name);
        let mut out = vec![0xaa; case.bytes.len() + 1];
        let written = write_sign1(&claim_of(parts), &parts.signature, &mut out);
        assert_eq!(written, Ok(case.bytes.len()), "{}", case.name);
        assert_eq!(out, [&case.bytes[..], &[0xaa]].concat(), "{}", case.name);
    }
}

#[test]
fn what_is_refused_is_not_written() {
    for algorithm in (0..=300).chain([(1 << 32) + 35, u64::MAX]) {
        let known = SIGN1_ALGORITHMS.iter().find(|(a, _)| *a == algorithm);
        for length in 0..300 {
            let parts = sign1_example(algorithm, length);
            // 28 goes before 14.
            let number = if known.is_some_and(|(_, l)| *l == length) {
                14
            } else {
                28
            };
            let refusal = write_sign1(&claim_of(&parts), &parts.signature, &mut []).unwrap_err();
            assert_eq!(
                (refusal.number, refusal.index),
                (number, 0),
                "{algorithm} {length}"
            );
        }
    }
}
