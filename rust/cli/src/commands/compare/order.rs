//! Whether one list is the other in another order.

use super::side::{Record, Side};
use eif::SectionType;

/// Says that the same ramdisks, or the same records, stand in another order.
pub fn changed(a: &Side, b: &Side) -> Option<String> {
    let ramdisks = [a, b].map(|side| {
        let records = side.records.iter();
        let ramdisks = records.filter(|record| record.section_type == SectionType::RAMDISK);
        ramdisks.collect::<Vec<_>>()
    });
    let records = [a, b].map(|side| side.records.iter().collect::<Vec<_>>());
    line("ramdisks", &ramdisks).or_else(|| line("records", &records))
}

/// `the same ramdisks in another order: A has 3, 4; B has 4, 3`: each by its number in A.
fn line(what: &str, [a, b]: &[Vec<&Record>; 2]) -> Option<String> {
    let mut left: Vec<&Record> = a.clone();
    let mut of_b = Vec::new();
    for record in b {
        let equal = |other: &&Record| same(other, record);
        of_b.push(left.remove(left.iter().position(equal)?).number);
    }
    let of_a: Vec<usize> = a.iter().map(|record| record.number).collect();
    if !left.is_empty() || of_a == of_b {
        return None;
    }
    let (of_a, of_b) = (numbers(&of_a), numbers(&of_b));
    Some(format!(
        "the same {what} in another order: A has {of_a}; B has {of_b} (each by its number in A)"
    ))
}

fn same(one: &Record, other: &Record) -> bool {
    (one.section_type, one.data) == (other.section_type, other.data)
}

fn numbers(numbers: &[usize]) -> String {
    let words: Vec<String> = numbers.iter().map(usize::to_string).collect();
    words.join(", ")
}
