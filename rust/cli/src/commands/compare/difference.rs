//! The first difference of two rolls, in words.

use super::side::{Record, Side};
use crate::words;

/// The flags, which are record 0, and the first other record that are not the same on both sides.
pub fn rows(a: &Side, b: &Side) -> Vec<String> {
    let rows = flags(a, b).into_iter().chain(record(a, b));
    let words = ["first", "next"].into_iter().zip(rows);
    words
        .map(|(word, row)| format!("{word} difference, {row}"))
        .collect()
}

fn flags(a: &Side, b: &Side) -> Option<String> {
    if a.flags == b.flags {
        return None;
    }
    let what = if a.architecture == b.architecture {
        "other flags"
    } else {
        "another architecture"
    };
    let (of_a, of_b) = (a.has_flags(), b.has_flags());
    Some(format!("record 0: {of_a}; {of_b}: {what}"))
}

fn record(a: &Side, b: &Side) -> Option<String> {
    let most = a.records.len().max(b.records.len());
    let mut pairs = (0..most).map(|place| (place, a.records.get(place), b.records.get(place)));
    pairs.find_map(|(place, of_a, of_b)| {
        let what = between(of_a, of_b)?;
        let (of_a, of_b) = (a.has(of_a), b.has(of_b));
        Some(format!("record {}: {of_a}; {of_b}: {what}", place + 1))
    })
}

fn between(a: Option<&Record>, b: Option<&Record>) -> Option<String> {
    let (Some(a), Some(b)) = (a, b) else {
        return Some("a record more".to_string());
    };
    if a.section_type != b.section_type {
        return Some("another kind".to_string());
    }
    data(a.data, b.data)
}

/// How two sections' data differ, if they do.
pub fn data(a: &[u8], b: &[u8]) -> Option<String> {
    if a == b {
        return None;
    }
    let equal = a.iter().zip(b).take_while(|(a, b)| a == b).count();
    let shorter = a.len().min(b.len());
    let bytes = if equal < shorter {
        format!("the data differ at byte {equal}")
    } else {
        format!("the first {} are the same", words::bytes(shorter as u64))
    };
    if a.len() == b.len() {
        Some(bytes)
    } else {
        Some(format!("another length, and {bytes}"))
    }
}
