//! Plans to which two rules apply.

use super::{OrderCase, Rule};
use crate::images::Answer;
use crate::positions::PlanCase;

/// Both rules; version; type and length of each section; how many bytes of data are lent, and room for how many;
/// answer.
type Row = ([Rule; 2], u16, &'static [(u16, u64)], usize, usize, Answer);

#[rustfmt::skip]
const ROWS: &[Row] = &[
    (["4", "5"], 5, &[(1, 1)], 1, 561, (4, 0, 0)),
    (["4", "5"], 1, &[(3, 1); 33], 33, 977, (4, 0, 0)),
    (["5", "9"], 2, &[(6, 1)], 1, 561, (5, 0, 0)),
    (["5", "9"], 2, &[(6, 1); 33], 33, 977, (5, 0, 0)),
    (["5", "10"], 2, &[(3, 1)], 1, 561, (5, 0, 0)),
    (["5", "11"], 2, &[(1, 1); 33], 33, 977, (5, 0, 0)),
    (["9", "9 next"], 2, &[(6, 1), (6, 1)], 2, 574, (9, 0, 0)),
    (["10", "9 next"], 2, &[(3, 1), (6, 1)], 2, 574, (10, 0, 0)),
    (["11", "9 next"], 2, &[(1, 1), (1, 1), (6, 1)], 3, 587, (11, 1, 0)),
    (["9 next", "12"], 2, &[(1, 1), (6, 1)], 2, 574, (9, 1, 0)),
    (["9", "12"], 2, &[(6, 1), (1, 1)], 2, 574, (9, 0, 0)),
    (["10", "12"], 2, &[(3, 1), (1, 1)], 2, 574, (10, 0, 0)),
    (["11", "12"], 2, &[(1, 1), (1, 1)], 2, 574, (11, 1, 0)),
    (["12", "1"], 2, &[(1, 1_073_741_253), (3, 0)], 0, 0, (12, 0, 0)),
    (["12", "1"], 4, &[(1, u64::MAX), (2, u64::MAX)], 0, 0, (12, 0, 0)),
    (["1", "15"], 2, &[(1, 1_073_741_253), (2, 0)], 0, 0, (1, 0, 0)),
    (["1", "15"], 2, &[(1, u64::MAX), (2, 574)], 0, 574, (1, 0, 0)),
    (["15", "14"], 2, &[(1, 1), (2, 1)], 1, 573, (15, 0, 0)),
    (["15", "14"], 2, &[(1, 1), (2, 1)], 3, 0, (15, 0, 0)),
];

/// Plans to which two rules apply. No refusal of a plan has a position.
pub fn plan_orders() -> Vec<OrderCase<PlanCase>> {
    let case = |&(rules, version, sections, data, room, answer): &Row| OrderCase {
        rules,
        input: PlanCase {
            name: rules[0],
            version,
            sections: sections.to_vec(),
            data,
            room,
            answer,
        },
        answer,
    };
    ROWS.iter().map(case).collect()
}
