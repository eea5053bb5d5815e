//! Images to which two rules apply.

use super::{OrderCase, Rule};
use crate::images::{image_of, Answer};
use crate::layout::{put, put_checksum, CHECKSUM_AT};

/// A number to be written over an image: its position, its width in bytes and its value.
type Edit = (usize, usize, u64);

/// How an image ends, and its checksum.
#[derive(Clone, Copy, PartialEq, Eq)]
enum End {
    Whole,
    /// Cut to 547 bytes.
    Cut,
    /// A byte after the last section.
    Tail,
    /// The checksum is wrong.
    Stale,
    /// A byte after the last section, and the checksum is wrong.
    StaleTail,
}

use End::*;

/// Both rules; version and section types, each section with one byte `x` of data; edits; end; answer.
type Row = ([Rule; 2], u16, &'static [u16], &'static [Edit], End, Answer);

/// The header's fields are at 4 (version), 26 (count), 28 (offsets) and 284 (sizes). The sections start at 548, 561 and
/// 574; a section's own size is 4 bytes after its start.
#[rustfmt::skip]
const ROWS: &[Row] = &[
    (["2", "3"], 2, &[1, 2], &[(0, 1, 0)], Cut, (2, 0, 0)),
    (["3", "4"], 2, &[1, 2], &[(3, 1, 0), (4, 2, 5)], Whole, (3, 0, 0)),
    (["4", "5"], 2, &[1, 2], &[(4, 2, 5), (26, 2, 1)], Whole, (4, 0, 4)),
    (["4", "5"], 2, &[1, 2], &[(4, 2, 1), (26, 2, 33)], Whole, (4, 0, 4)),
    (["5", "6"], 2, &[1, 2], &[(26, 2, 33), (28, 8, 547)], Whole, (5, 0, 26)),
    (["5", "6"], 2, &[1, 2], &[(26, 2, 1), (28, 8, 0)], Whole, (5, 0, 26)),
    (["5", "20 start"], 2, &[1, 2], &[(26, 2, 1), (28, 8, 549)], Whole, (5, 0, 26)),
    (["6", "20 start"], 2, &[1, 2], &[(36, 8, 560)], Whole, (6, 1, 36)),
    (["6", "7"], 2, &[1, 2], &[(28, 8, 547), (284, 8, u64::MAX)], Whole, (6, 0, 28)),
    (["6", "7"], 2, &[1, 2], &[(36, 8, 560), (292, 8, u64::MAX)], Whole, (6, 1, 36)),
    (["20 start", "7"], 2, &[1, 2], &[(28, 8, 549), (284, 8, u64::MAX)], Whole, (20, 0, 28)),
    (["20 start", "7"], 2, &[1, 2], &[(36, 8, 562), (292, 8, u64::MAX)], Whole, (20, 1, 36)),
    (["20 start", "7"], 2, &[1, 2], &[(36, 8, u64::MAX)], Whole, (20, 1, 36)),
    (["7", "8"], 2, &[1, 2], &[(292, 8, 2)], Whole, (7, 1, 36)),
    (["7", "8"], 2, &[1, 2], &[(284, 8, u64::MAX)], Whole, (7, 0, 28)),
    (["8", "9"], 2, &[1, 6, 2], &[(565, 8, 2)], Whole, (8, 1, 561)),
    (["8", "10"], 2, &[3, 1, 2], &[(552, 8, 2)], Whole, (8, 0, 548)),
    (["8", "11"], 2, &[1, 1, 2], &[(565, 8, 0)], Whole, (8, 1, 561)),
    (["8", "6 next"], 2, &[1, 2], &[(552, 8, 2), (36, 8, 560)], Whole, (8, 0, 548)),
    (["9", "6 next"], 2, &[6, 1, 2], &[(36, 8, 560)], Whole, (9, 0, 548)),
    (["10", "6 next"], 2, &[3, 1, 2], &[(36, 8, 560)], Whole, (10, 0, 548)),
    (["11", "6 next"], 2, &[1, 1, 2], &[(44, 8, 573)], Whole, (11, 1, 561)),
    (["6 next", "12"], 2, &[1, 3], &[(36, 8, 560)], Whole, (6, 1, 36)),
    (["9", "12"], 2, &[1, 6], &[], Whole, (9, 1, 561)),
    (["10", "12"], 2, &[3, 1], &[], Whole, (10, 0, 548)),
    (["11", "12"], 2, &[1, 1], &[], Whole, (11, 1, 561)),
    (["12", "20 tail"], 2, &[1, 3], &[], Tail, (12, 0, 26)),
    (["12", "13"], 2, &[1, 3], &[], Stale, (12, 0, 26)),
    (["12", "21"], 4, &[1, 5], &[], Whole, (12, 0, 26)),
    (["20 tail", "13"], 2, &[1, 2], &[], StaleTail, (20, 0, 574)),
    (["20 tail", "21"], 4, &[1, 2, 5], &[], Tail, (20, 0, 587)),
    (["13", "21"], 4, &[1, 2, 5], &[], Stale, (13, 0, 544)),
    // What these calls are handed beside the image is at fault too.
    (["13", "19"], 2, &[1, 2], &[], Stale, (13, 0, 544)),
    (["13", "14"], 2, &[1, 2], &[], Stale, (13, 0, 544)),
    (["13", "27"], 2, &[1, 2], &[], Stale, (13, 0, 544)),
];

/// Images to which two rules apply. Every call refuses each of them alike: also a copy from a position past the end of
/// the stream, a roll for which the buffer is too short, and a section number past the count.
pub fn image_orders() -> Vec<OrderCase<Vec<u8>>> {
    let case = |&(rules, version, types, edits, end, answer): &Row| {
        let mut image = image_of(version, types);
        for &(position, width, value) in edits {
            put(&mut image, position, &value.to_be_bytes()[8 - width..]);
        }
        if matches!(end, Tail | StaleTail) {
            image.push(0);
        }
        put_checksum(&mut image);
        match end {
            Stale | StaleTail => image[CHECKSUM_AT] ^= 1,
            Cut => image.truncate(547),
            Whole | Tail => {}
        }
        OrderCase {
            rules,
            input: image,
            answer,
        }
    };
    ROWS.iter().map(case).collect()
}

/// A file of 1,073,741,825 zero bytes, which take no memory until they are written to.
pub fn long_image_orders() -> Vec<OrderCase<Vec<u8>>> {
    vec![OrderCase {
        rules: ["1", "3"],
        input: vec![0; 1_073_741_825],
        answer: (1, 0, 0),
    }]
}
