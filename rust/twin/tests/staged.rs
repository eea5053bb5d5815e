//! One section replaced, in the twin: the examples of docs/FORMAT.md.

use eif_cases::{worked_image, Layout, Section};
use eif_twin::*;

fn refused<T: std::fmt::Debug>(answer: Result<T, Refusal>) -> (u8, u64, u64) {
    let refusal = answer.unwrap_err();
    (refusal.number, refusal.index, refusal.position)
}

#[test]
fn the_image_written_afresh() {
    let sections = [(1, "K"), (2, "a"), (3, "rs")];
    let sections = sections.map(|(kind, data)| Section::new(kind, data.as_bytes()));
    let afresh = Layout::new(2, sections.to_vec()).image();
    let base = worked_image();
    assert_eq!(staged_image(&base, b"rs", 2), Ok(afresh.clone()));
    let mut rolls = [[0; 56]; 2];
    assert_eq!(write_staged_roll(&base, b"rs", 2, &mut rolls[0]), Ok(56));
    assert_eq!(write_roll(&afresh, &mut rolls[1]), Ok(56));
    assert_eq!(rolls[0], rolls[1]);
    assert_eq!(staged_registers(&base, b"rs", 2), registers(&afresh));
    assert_eq!(staged_fingerprint(&base, b"rs", 2), fingerprint(&afresh));
    let part = |in_replacement, start, length| StagedPart {
        in_replacement,
        start,
        length,
    };
    assert_eq!(staged_part(&base, 2, 2, 1), Ok(part(false, 573, 1)));
    assert_eq!(staged_part(&base, 2, 2, 2), Ok(part(true, 0, 2)));
}

#[test]
fn the_order_of_refusals() {
    let base = worked_image();
    let most = (MAX_IMAGE - base.len()) as u64;
    assert!(staged_part(&base, most, 2, 0).is_ok());
    assert_eq!(refused(staged_part(&base, most + 1, 2, 0)), (1, 0, 0));
    assert_eq!(refused(staged_part(&base, u64::MAX, 2, 0)), (1, 0, 0));
    assert_eq!(refused(staged_part(&base, u64::MAX, 2, 3)), (27, 0, 0));
    assert_eq!(refused(staged_part(&base, 0, 3, 0)), (27, 0, 0));
    assert_eq!(refused(staged_part(&base[..585], 0, 3, 0)), (7, 2, 44));
    let short = write_staged_roll(&base, b"rs", 2, &mut [0; 55]);
    assert_eq!(refused(short), (14, 0, 0));
    let short = write_staged_roll(&base, b"rs", 3, &mut [0; 55]);
    assert_eq!(refused(short), (27, 0, 0));
}
