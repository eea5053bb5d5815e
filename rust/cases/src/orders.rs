//! Orders of refusals: for every two neighbours of a list of docs/FORMAT.md that can both apply to one input, an input
//! to which both apply, with its answer.
//!
//! A rule is named by its answer number and, if its list has the number more than once, by a word. Sections and records
//! are checked one after the other, so the first rule for the next one follows the last rule for this one; it is named
//! `next`.

mod images;
mod plans;
mod rolls;
mod sign1;
mod staged;
mod transfers;

use crate::images::Answer;

pub use images::{image_orders, long_image_orders};
pub use plans::plan_orders;
pub use rolls::{long_roll_orders, roll_orders};
pub use sign1::{sign1_orders, Sign1Input};
pub use staged::{staged_roll_orders, staged_view_orders, Replacement};
pub use transfers::{short_buffers, transfer_orders, TransferInput};

/// A rule's name.
pub type Rule = &'static str;

/// An input to which two rules apply, and the answer, which is the first rule's.
pub struct OrderCase<T> {
    /// Both rules, in their order.
    pub rules: [Rule; 2],
    /// The input.
    pub input: T,
    /// The refusal.
    pub answer: Answer,
}

/// One rule, the rules after it that never apply to the same input, and why.
type Never = (Rule, &'static [Rule], &'static str);

/// A list of docs/FORMAT.md: a call's rules in their order.
pub struct Order {
    /// The call.
    pub name: &'static str,
    /// The rules, from the first.
    pub rules: Vec<Rule>,
    /// Rules that never apply to one input.
    pub never: Vec<Never>,
}

impl Order {
    /// The answer numbers of the rules, in ascending order.
    ///
    /// # Panics
    ///
    /// If a rule's name does not begin with its number.
    pub fn numbers(&self) -> Vec<u8> {
        let mut numbers: Vec<u8> = self.rules.iter().map(|rule| number_of(rule)).collect();
        numbers.sort();
        numbers.dedup();
        numbers
    }

    /// The pairs of neighbours: each rule with the nearest one after it, and with the nearest one before it, that can
    /// apply to the same input.
    pub fn neighbours(&self) -> Vec<[Rule; 2]> {
        let mut pairs = Vec::new();
        for (at, &rule) in self.rules.iter().enumerate() {
            let (before, after) = (&self.rules[..at], &self.rules[at + 1..]);
            let after = after.iter().find(|after| self.both_apply([rule, after]));
            pairs.extend(after.map(|&after| [rule, after]));
            let mut before = before.iter().rev();
            let before = before.find(|before| self.both_apply([before, rule]));
            pairs.extend(before.map(|&before| [before, rule]));
        }
        pairs.sort();
        pairs.dedup();
        pairs
    }

    /// Whether two rules can apply to one input.
    pub fn both_apply(&self, [first, second]: [Rule; 2]) -> bool {
        let mut never = self.never.iter();
        !never.any(|(rule, others, _)| *rule == first && others.contains(&second))
    }
}

/// The answer number of a rule.
///
/// # Panics
///
/// If its name does not begin with a number.
pub fn number_of(rule: Rule) -> u8 {
    let number = rule.split(' ').next().unwrap_or_default();
    number
        .parse()
        .expect("a rule's name begins with its number")
}

/// Reading an image.
#[rustfmt::skip]
const IMAGE: &[Rule] = &[
    "1", "2", "3", "4", "5", "6", "20 start", "7", "8", "9", "10", "11", "6 next", "12", "20 tail", "13",
];

#[rustfmt::skip]
const IMAGE_NEVER: &[Never] = &[
    ("1", &["2"], "no file is both longer than the longest and shorter than a header"),
];

/// Of one section of an image or of a plan.
#[rustfmt::skip]
const TYPES_NEVER: &[Never] = &[
    ("9", &["10"], "a ramdisk is allowed in every version"),
    ("9", &["11"], "the first section of that type is refused by 9"),
    ("10", &["11"], "10 is for a ramdisk, 11 for every other type"),
];

/// The length of a plan. Writing an image has two rules more.
const PLAN: &[Rule] = &["4", "5", "9", "10", "11", "9 next", "12", "1"];

/// Reading a roll.
#[rustfmt::skip]
const ROLL: &[Rule] = &[
    "16 flags head", "17 flags", "16 flags data",
    "16 head", "17", "5", "16 data", "10", "11", "16 next head",
    "18", "12", "1",
];

#[rustfmt::skip]
const ROLL_NEVER: &[Never] = &[
    (
        "16 flags head",
        &["17 flags", "16 flags data", "16 head", "17", "5", "16 data", "10", "11", "16 next head", "18", "12", "1"],
        "a roll that ends in its first head has no type and no later record",
    ),
    (
        "16 flags data",
        &["16 head", "17", "5", "16 data", "10", "11", "16 next head", "18", "12", "1"],
        "a roll that ends in its flags record has no later record",
    ),
    (
        "16 head",
        &["17", "16 data", "10", "11", "16 next head", "18"],
        "a head that is cut has no type and no data, and no record follows it",
    ),
    ("5", &["10"], "of 32 records with no kernel among them the second is refused by 10 or 11"),
    ("10", &["11"], "10 is for a ramdisk, 11 for every other type"),
    ("16 next head", &["18"], "a roll that ends in a record has no end record"),
];

/// A record of a transfer.
const TRANSFER: &[Rule] = &["22 form", "23", "22 piece", "1", "24", "25", "26"];

#[rustfmt::skip]
const TRANSFER_NEVER: &[Never] = &[
    ("22 piece", &["1"], "the one is for a piece, the other for an open record"),
    ("25", &["26"], "the one is for a piece, the other for a close record"),
];

/// An image with one section replaced: the rules after the base's own.
const STAGED: &[Rule] = &["27", "1 afresh"];

/// Of a call that takes no number of a section to be shown.
#[rustfmt::skip]
const STAGED_NEVER: &[Never] = &[
    ("27", &["1 afresh"], "a replacement for no section is no part of the image written afresh"),
];

/// The image written afresh has the sections of the base's reading.
#[rustfmt::skip]
fn refused_base_never() -> Vec<Never> {
    let never = |&rule| -> Never { (rule, &["1 afresh"], "the reading of a refused base has no section") };
    IMAGE.iter().map(never).collect()
}

/// The lists of docs/FORMAT.md. A call whose list is another's has no list of its own.
#[rustfmt::skip]
pub fn orders() -> Vec<Order> {
    let order = |name, rules: &[&[Rule]], never: &[&[Never]]| Order {
        name,
        rules: rules.concat(),
        never: never.concat(),
    };
    let image: &[&[Never]] = &[IMAGE_NEVER, TYPES_NEVER];
    let view: &[&[Never]] = &[IMAGE_NEVER, TYPES_NEVER, &refused_base_never()];
    let staged: &[&[Never]] = &[IMAGE_NEVER, TYPES_NEVER, &refused_base_never(), STAGED_NEVER];
    vec![
        order("reading an image", &[IMAGE], image),
        order("stricter reading", &[IMAGE, &["21"]], image),
        order("copying from a stream", &[IMAGE, &["19"]], image),
        order("writing a roll", &[IMAGE, &["14"]], image),
        order("the length of a plan", &[PLAN], &[TYPES_NEVER]),
        order("writing an image", &[PLAN, &["15", "14"]], &[TYPES_NEVER]),
        order("reading a roll", &[ROLL], &[ROLL_NEVER]),
        order("a transfer's record", &[TRANSFER], &[TRANSFER_NEVER]),
        order("the data of a staged section", &[IMAGE, STAGED], view),
        order("the length of a staged roll, the registers and the fingerprint", &[IMAGE, STAGED], staged),
        order("writing a staged roll", &[IMAGE, STAGED, &["14"]], staged),
        order("writing a COSE_Sign1", &[&["28", "14"]], &[]),
    ]
}

#[cfg(test)]
mod tests {
    use super::*;

    /// Both rules of each case of an order that [`orders`] names.
    fn tried(order: &Order) -> Vec<[Rule; 2]> {
        fn rules<T>(cases: Vec<OrderCase<T>>) -> Vec<[Rule; 2]> {
            cases.iter().map(|case| case.rules).collect()
        }
        let images = || [rules(image_orders()), rules(long_image_orders())].concat();
        match order.name {
            "the length of a plan" | "writing an image" => rules(plan_orders()),
            "reading a roll" => [rules(roll_orders()), rules(long_roll_orders())].concat(),
            "a transfer's record" => rules(transfer_orders()),
            "the data of a staged section" => [images(), rules(staged_view_orders())].concat(),
            "writing a staged roll" => [images(), rules(staged_roll_orders())].concat(),
            "writing a COSE_Sign1" => rules(sign1_orders()),
            _ => images(),
        }
    }

    /// A list of this file that gains a rule needs a case for it, or a line that says why there is none. No test compares
    /// these lists with docs/FORMAT.md.
    #[test]
    fn every_two_neighbours_have_a_case() {
        for order in orders() {
            let tried = tried(&order);
            for pair in order.neighbours() {
                assert!(
                    tried.contains(&pair),
                    "{}: no case for {pair:?}",
                    order.name
                );
            }
        }
    }

    #[test]
    fn a_case_answers_its_first_rule() {
        fn check<T>(cases: Vec<OrderCase<T>>) {
            for case in cases {
                assert_eq!(number_of(case.rules[0]), case.answer.0, "{:?}", case.rules);
            }
        }
        check(image_orders());
        check(long_image_orders());
        check(plan_orders());
        check(roll_orders());
        check(long_roll_orders());
        check(transfer_orders());
        check(short_buffers());
        check(staged_view_orders());
        check(staged_roll_orders());
        check(sign1_orders());
    }

    /// Each name in the lists of exclusions is a rule of the order, and the first comes before the others.
    #[test]
    fn exclusions_name_rules() {
        for order in orders() {
            let place = |rule: &Rule| order.rules.iter().position(|other| other == rule);
            for (first, others, why) in &order.never {
                let first = place(first).expect("a rule of this order");
                assert!(
                    others.iter().all(|other| place(other) > Some(first)),
                    "{why}"
                );
            }
        }
    }
}
