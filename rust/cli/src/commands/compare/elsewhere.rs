//! What differs in two images and is not part of the roll.

use super::difference;
use super::side::{Record, Side};
use crate::words;
use eif::{Image, Section};

/// What is left where the rolls are equal and no other row tells a difference: every byte of an accepted
/// image is in its header or in a section.
const REST: &str =
    "reserved fields, unused table entries, or where metadata or signature stands in the file";

/// A heading and a row for each difference, or a line on what could not be compared.
pub fn rows(a: &Side, b: &Side) -> Vec<String> {
    let (Some(of_a), Some(of_b)) = (a.image, b.image) else {
        return vec![not_compared(a, b)];
    };
    let mut rows = header(of_a, of_b);
    rows.extend(a.records.iter().zip(&b.records).filter_map(section_flags));
    rows.extend(others(a, b));
    let files = !a.staged && !b.staged;
    if files && rows.is_empty() && a.roll == b.roll && of_a.bytes() != of_b.bytes() {
        rows.push(REST.to_string());
    }
    let rows = rows.into_iter().map(|row| format!("  {row}"));
    let heading = "not part of the roll:".to_string();
    let all: Vec<String> = [heading].into_iter().chain(rows).collect();
    if all.len() == 1 {
        Vec::new()
    } else {
        all
    }
}

fn not_compared(a: &Side, b: &Side) -> String {
    let rolls = [a, b].into_iter().filter(|side| side.image.is_none());
    let rolls: Vec<&str> = rolls.map(|side| side.letter).collect();
    let (rolls, verb) = match rolls[..] {
        [one] => (one.to_string(), "is a roll"),
        _ => (rolls.join(" and "), "are rolls"),
    };
    format!(
        "{rolls} {verb}: other header fields, section flags, metadata and signature are not compared"
    )
}

/// The header fields but the flags, which are part of the roll.
fn header(a: &Image, b: &Image) -> Vec<String> {
    let fields = [
        ("version", a.version().to_string(), b.version().to_string()),
        (
            "default_mem",
            a.default_mem().to_string(),
            b.default_mem().to_string(),
        ),
        (
            "default_cpus",
            a.default_cpus().to_string(),
            b.default_cpus().to_string(),
        ),
    ];
    let different = fields.into_iter().filter(|(_, a, b)| a != b);
    let row = |(field, a, b): (&str, String, String)| format!("{field}: A has {a}, B has {b}");
    different.map(row).collect()
}

/// The flags of two sections that stand in the same place of their rolls.
fn section_flags((a, b): (&Record, &Record)) -> Option<String> {
    let kind = a.section_type;
    let flags = [a.section?.flags, b.section?.flags];
    let different = kind == b.section_type && flags[0] != flags[1];
    let [of_a, of_b] = flags.map(|flags| format!("{flags:#06x}"));
    let (a, b) = (a.number, b.number);
    different.then(|| format!("section flags, {kind}: A has {of_a} at {a}, B has {of_b} at {b}"))
}

/// Sections that no roll lists, by their types.
fn others(a: &Side, b: &Side) -> Vec<String> {
    let all = a.others.iter().chain(&b.others);
    let mut types: Vec<_> = all.map(|(section, _)| section.section_type).collect();
    types.sort();
    types.dedup();
    let row = |kind| other(a.other(kind), b.other(kind)).map(|what| format!("{kind}: {what}"));
    types.into_iter().filter_map(row).collect()
}

fn other(a: Option<(Section, &[u8])>, b: Option<(Section, &[u8])>) -> Option<String> {
    let ((a, a_data), (b, b_data)) = match (a, b) {
        (Some(a), Some(b)) => (a, b),
        (Some((a, _)), None) => {
            return Some(format!(
                "A has one of {}, B has none",
                words::bytes(a.length.0)
            ));
        }
        (None, Some((b, _))) => {
            return Some(format!(
                "A has none, B has one of {}",
                words::bytes(b.length.0)
            ));
        }
        (None, None) => return None,
    };
    let flags = || {
        format!(
            "section flags: A has {:#06x}, B has {:#06x}",
            a.flags, b.flags
        )
    };
    difference::data(a_data, b_data).or_else(|| (a.flags != b.flags).then(flags))
}
