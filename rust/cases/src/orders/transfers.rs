//! Records of a transfer to which two rules apply.

use super::{OrderCase, Rule};
use crate::rolls::record;

/// A call for one record of a transfer.
pub struct TransferInput {
    /// The state: whether a transfer is open, its image's length, and the buffers' lengths at open.
    pub state: [u64; 4],
    /// The record.
    pub record: Vec<u8>,
    /// The image buffer.
    pub image: Vec<u8>,
    /// The mark buffer.
    pub marks: Vec<u8>,
}

/// A record.
enum Sent {
    /// Any bytes.
    Bytes(&'static [u8]),
    /// A length, a kind and what follows them, which need not fit together.
    Any(u64, u16, &'static [u8]),
    /// An open record that announces a length.
    Open(u64),
    /// A piece: its start, its byte, how often.
    Piece(u64, u8, usize),
    /// A close record.
    Close,
}

use Sent::*;

/// Both rules; state; record; length of the image buffer, each byte of which is 7; marks; answer number.
type Row = ([Rule; 2], [u64; 4], Sent, usize, &'static [u8], u8);

const NONE: [u64; 4] = [0, 0, 0, 0];
/// A transfer of an image of 8 bytes, opened with an image buffer of 16 bytes and 3 marks.
const OPENED: [u64; 4] = [1, 8, 16, 3];

#[rustfmt::skip]
const ROWS: &[Row] = &[
    (["22 form", "23"], NONE, Bytes(&[]), 16, &[0; 3], 22),
    (["22 form", "23"], NONE, Bytes(&[0, 0, 0, 0, 0, 0, 0, 0, 3]), 16, &[0; 3], 22),
    (["22 form", "23"], NONE, Any(0, 3, &[0]), 16, &[0; 3], 22),
    (["22 form", "23"], NONE, Any(1, 3, &[]), 16, &[0; 3], 22),
    (["22 form", "23"], NONE, Any(1, 3, &[0]), 16, &[0; 3], 22),
    (["22 form", "23"], NONE, Any(0, 0, &[]), 16, &[0; 3], 22),
    (["22 form", "23"], NONE, Any(0, 4, &[]), 16, &[0; 3], 22),
    (["22 form", "23"], NONE, Any(7, 2, &[0; 7]), 16, &[0; 3], 22),
    (["22 form", "23"], OPENED, Any(7, 1, &[0; 7]), 16, &[0; 3], 22),
    (["22 form", "23"], OPENED, Any(9, 1, &[0; 9]), 16, &[0; 3], 22),
    (["22 form", "1"], NONE, Any(9, 1, &[0xff; 9]), 16, &[0; 3], 22),
    (["23", "22 piece"], NONE, Piece(1, 7, 8), 16, &[0; 3], 23),
    (["23", "22 piece"], NONE, Piece(0, 7, 0), 16, &[0; 3], 23),
    (["23", "1"], OPENED, Open(1_073_741_825), 16, &[0; 3], 23),
    (["23", "1"], OPENED, Open(u64::MAX), 16, &[0; 3], 23),
    (["23", "24"], OPENED, Open(17), 16, &[0; 3], 23),
    (["23", "24"], [0, 8, 16, 3], Close, 0, &[], 23),
    (["1", "24"], NONE, Open(1_073_741_825), 16, &[0; 3], 1),
    (["1", "24"], NONE, Open(u64::MAX), 0, &[], 1),
    (["22 piece", "24"], OPENED, Piece(1, 7, 8), 16, &[0; 2], 22),
    (["22 piece", "24"], OPENED, Piece(4096, 7, 8), 15, &[0; 3], 22),
    (["22 piece", "24"], OPENED, Piece(0, 7, 7), 15, &[0; 2], 22),
    (["22 piece", "25"], OPENED, Piece(0, 8, 7), 16, &[1, 0, 0], 22),
    (["24", "25"], OPENED, Piece(0, 8, 8), 16, &[1, 0], 24),
    (["24", "25"], OPENED, Piece(0, 8, 8), 15, &[1, 0, 0], 24),
    (["24", "26"], OPENED, Close, 16, &[0, 0], 24),
    (["24", "26"], OPENED, Close, 15, &[0, 0, 0], 24),
];

/// To these 24 applies and no other rule, so it is named twice.
#[rustfmt::skip]
const BUFFER_ROWS: &[Row] = &[
    // Long enough for the image and its mark, and shorter than at open.
    (["24", "24"], OPENED, Piece(0, 7, 8), 16, &[0; 2], 24),
    (["24", "24"], OPENED, Piece(0, 7, 8), 15, &[0; 3], 24),
    (["24", "24"], OPENED, Piece(0, 7, 8), 16, &[1, 0], 24),
    (["24", "24"], OPENED, Close, 16, &[1, 0], 24),
    (["24", "24"], OPENED, Close, 15, &[1, 0, 0], 24),
    // As long as at open, by a state that no call gives, and too short.
    (["24", "24"], [1, 8, 7, 1], Close, 7, &[1], 24),
    (["24", "24"], [1, 8, 8, 0], Close, 8, &[], 24),
    (["24", "24"], [1, 4097, 4097, 1], Close, 4097, &[1], 24),
    // At open.
    (["24", "24"], NONE, Open(17), 16, &[0; 3], 24),
    (["24", "24"], NONE, Open(1), 16, &[], 24),
    (["24", "24"], NONE, Open(4097), 4097, &[0], 24),
    (["24", "24"], NONE, Open(1_073_741_824), 16, &[0; 3], 24),
];

fn case((rules, state, sent, image, marks, number): &Row) -> OrderCase<TransferInput> {
    let record = match sent {
        Bytes(bytes) => bytes.to_vec(),
        Any(length, kind, rest) => record(*length, *kind, rest),
        Open(length) => record(8, 1, &length.to_le_bytes()),
        Piece(start, byte, times) => {
            let rest = [&start.to_le_bytes()[..], &vec![*byte; *times]].concat();
            record(rest.len() as u64, 2, &rest)
        }
        Close => record(0, 3, &[]),
    };
    OrderCase {
        rules: *rules,
        input: TransferInput {
            state: *state,
            record,
            image: vec![7; *image],
            marks: marks.to_vec(),
        },
        answer: (*number, 0, 0),
    }
}

/// Records to which two rules apply.
pub fn transfer_orders() -> Vec<OrderCase<TransferInput>> {
    ROWS.iter().map(case).collect()
}

/// Records that are refused by 24 alone.
pub fn short_buffers() -> Vec<OrderCase<TransferInput>> {
    BUFFER_ROWS.iter().map(case).collect()
}
