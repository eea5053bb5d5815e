//! Rolls: valid, damaged and hostile.

use crate::Rng;
use eif_cases::{record, RECORD_HEAD};

/// A record's type, the length that it states and its data.
type Record = (u16, u64, Vec<u8>);

fn any_record(rng: &mut Rng, kind: u16) -> Record {
    let length = rng.pick(&[0, 0, 1, 2, 3, 10, 30]);
    (kind, length as u64, rng.bytes(length))
}

/// The records of a roll that is accepted, its flags record and its end record too.
fn accepted_records(rng: &mut Rng) -> Vec<Record> {
    let mut types = rng.pick(&[[1, 2], [2, 1]]).to_vec();
    let kernel = usize::from(types[1] == 1);
    let ramdisks = match rng.below(8) {
        0 => 30,
        1 => rng.below(31),
        few => few / 2,
    };
    for _ in 0..ramdisks {
        types.insert(kernel + 1 + rng.below(types.len() - kernel), 3);
    }
    let flags = rng.pick(&[[0, 0], [1, 0], [0, 1], [0xff, 0xff], [2, 3]]);
    let mut records = vec![(256, 2, flags.to_vec())];
    records.extend(types.into_iter().map(|kind| any_record(rng, kind)));
    records.push((0, 0, Vec::new()));
    records
}

/// How many bytes stand from the start of a record's data to the end of the roll.
fn rest_from(records: &[Record], chosen: usize) -> usize {
    let sizes = records[chosen..].iter();
    let sizes = sizes.map(|record| RECORD_HEAD + record.2.len());
    sizes.sum::<usize>() - RECORD_HEAD
}

fn damage_records(rng: &mut Rng, records: &mut Vec<Record>) {
    if records.is_empty() {
        return;
    }
    // Seldom the flags record, or few rolls would be read past it.
    let first = usize::from(records.len() > 1 && !rng.once_in(8));
    let chosen = first + rng.below(records.len() - first);
    match rng.below(9) {
        0 | 1 => records[chosen].0 = rng.pick(&[0, 1, 2, 3, 4, 5, 0x0100, 0x0100, 0x0200, 0xffff]),
        2 => {
            let rest = rest_from(records, chosen) as u64;
            let near = rng.pick(&[rest, records[chosen].1]);
            records[chosen].1 = rng.hostile(near);
        }
        3 => {
            records.remove(chosen);
        }
        4 => {
            let kind = rng.pick(&[0, 1, 2, 3, 3, 3, 4]);
            let record = any_record(rng, kind);
            records.insert(chosen, record);
        }
        5 => {
            let other = first + rng.below(records.len() - first);
            records.swap(chosen, other);
        }
        6 => records[first..].rotate_left(chosen - first),
        7 => {
            // Ramdisks enough for a 33rd record, or just too few.
            while records.len() < 34 + rng.below(2) {
                let record = any_record(rng, 3);
                records.insert(records.len() - 1, record);
            }
        }
        _ => {
            records.pop();
        }
    }
}

fn damage_bytes(rng: &mut Rng, roll: &mut Vec<u8>) {
    match rng.below(5) {
        0 => roll.truncate(rng.below(roll.len() + 1)),
        1 => roll.truncate(roll.len().saturating_sub(1 + rng.below(12))),
        2 => {
            let more = 1 + rng.below(12);
            roll.extend(rng.bytes(more));
        }
        3 => roll.extend_from_within(..),
        _ => rng.flip_bit(roll),
    }
}

/// Any roll.
pub fn any_roll(rng: &mut Rng) -> Vec<u8> {
    if rng.once_in(50) {
        let length = rng.below(40);
        return rng.bytes(length);
    }
    let mut records = accepted_records(rng);
    let (record_faults, byte_faults) = rng.pick(&[
        (0, 0),
        (0, 0),
        (1, 0),
        (1, 0),
        (2, 0),
        (3, 0),
        (0, 1),
        (0, 2),
        (1, 1),
    ]);
    for _ in 0..record_faults {
        damage_records(rng, &mut records);
    }
    let mut roll = Vec::new();
    for (kind, length, data) in &records {
        roll.extend(record(*length, *kind, data));
    }
    for _ in 0..byte_faults {
        damage_bytes(rng, &mut roll);
    }
    roll
}
