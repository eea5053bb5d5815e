//! Replacements to which two rules apply.

use super::{OrderCase, Rule};
use crate::images::Answer;

/// A replacement in the worked image, which is the base.
pub struct Replacement {
    /// The replacement's length. No byte of it is looked at.
    pub size: usize,
    /// The number of the replaced section.
    pub replaced: u64,
    /// The number of the section to be shown, which the calls for roll and registers do not take.
    pub shown: u64,
    /// The length of the buffer for the roll.
    pub room: usize,
}

/// Both rules; size, replaced, shown; answer.
type ViewRow = ([Rule; 2], usize, u64, u64, Answer);

/// The worked image has 586 bytes and sections 0, 1 and 2, of which the last is empty.
#[rustfmt::skip]
const VIEW_ROWS: [ViewRow; 2] = [
    (["27", "1 afresh"], 1_073_741_239, 2, 3, (27, 0, 0)),
    (["27", "1 afresh"], 1_073_741_239, 2, u64::MAX, (27, 0, 0)),
];

/// Both rules; size, replaced, shown, room; answer.
type Row = ([Rule; 2], usize, u64, u64, usize, Answer);

/// A replacement for no section leaves the image written afresh as long as the worked image. Its roll has 54 bytes.
#[rustfmt::skip]
const ROWS: [Row; 5] = [
    (["27", "14"], 2, 3, 0, 0, (27, 0, 0)),
    (["27", "14"], 1_073_741_239, 3, 0, 0, (27, 0, 0)),
    (["27", "14"], 1_073_741_239, u64::MAX, u64::MAX, 0, (27, 0, 0)),
    (["1 afresh", "14"], 1_073_741_239, 2, 0, 0, (1, 0, 0)),
    (["1 afresh", "14"], 1_073_741_239, 2, 2, 55, (1, 0, 0)),
];

fn case((rules, size, replaced, shown, room, answer): Row) -> OrderCase<Replacement> {
    OrderCase {
        rules,
        input: Replacement {
            size,
            replaced,
            shown,
            room,
        },
        answer,
    }
}

/// Replacements to which two rules for the data of a section apply. The calls for roll and registers, which take no
/// section to be shown, refuse them by the second.
pub fn staged_view_orders() -> Vec<OrderCase<Replacement>> {
    let view =
        |(rules, size, replaced, shown, answer)| case((rules, size, replaced, shown, 0, answer));
    VIEW_ROWS.map(view).into()
}

/// Replacements to which two rules for writing the roll apply. Every call refuses each of them alike.
pub fn staged_roll_orders() -> Vec<OrderCase<Replacement>> {
    ROWS.map(case).into()
}
