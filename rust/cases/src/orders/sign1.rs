//! Claims to which two rules apply.

use super::OrderCase;
use crate::sign1::{sign1_example, Sign1Parts};

/// A claim with a signature, and the output's length.
pub struct Sign1Input {
    /// The claim and the signature.
    pub parts: Sign1Parts,
    /// How many bytes the output has.
    pub room: usize,
}

/// Algorithm, length of the signature, room. The COSE_Sign1 of a right signature needs more room.
const ROWS: [(u64, usize, usize); 7] = [
    (7, 63, 0),
    (7, 65, 1),
    (8, 64, 0),
    (0, 0, 0),
    (35, 64, 100),
    (36, 96, 200),
    (u64::MAX, 132, 0),
];

/// Claims to which two rules apply.
pub fn sign1_orders() -> Vec<OrderCase<Sign1Input>> {
    let case = |(algorithm, length, room)| OrderCase {
        rules: ["28", "14"],
        input: Sign1Input {
            parts: sign1_example(algorithm, length),
            room,
        },
        answer: (28, 0, 0),
    };
    ROWS.map(case).into()
}
