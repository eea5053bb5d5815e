//! COSE_Sign1 byte strings and claims: valid, damaged and hostile; and the library held to the twin on them.

use crate::compare::{compare_c_output, compare_output, parts, same, twin_parts, Input};
use crate::{refused, Call, Rng, Tally};
use eif::raw::sign1::{self as raw, Sign1Claim, Sign1Reading};
use eif::sign1::{Algorithm, Claim, Sign1Position};
use eif::{DataLength, Digest, DIGEST_LENGTH};
use eif_cases::cbor::{count_heads, encode, encode_with, numbers, Head, Item};
use eif_cases::{Sign1Parts, SIGN1_ALGORITHMS};
use eif_twin as twin;

/// A claim and a signature to be written, and the length of the output.
#[derive(Clone, Debug)]
pub struct ClaimInput {
    /// The claim, of any algorithm.
    pub claim: Sign1Claim,
    /// The signature, of any length.
    pub signature: Vec<u8>,
    /// The length of the output.
    pub output: usize,
}

/// Numbers about those where a head gets wider, or any at all.
fn any_number(rng: &mut Rng) -> u64 {
    let near = rng.pick(&[0, 8, 24, 1 << 8, 1 << 16, 1 << 32, u64::MAX]);
    match rng.below(4) {
        0 => rng.next(),
        1 => near,
        _ => rng.hostile(near),
    }
}

/// Values whose numbers are all narrow, all wide, or mixed.
fn any_value(rng: &mut Rng) -> [u8; DIGEST_LENGTH] {
    let choices = rng.pick(&[&[0, 23][..], &[24, 255], &[22, 23, 24, 25], &[]]);
    std::array::from_fn(|_| match choices {
        [] => rng.next() as u8,
        _ => rng.pick(choices),
    })
}

/// Parts of a COSE_Sign1 that is accepted.
fn any_parts(rng: &mut Rng) -> Sign1Parts {
    let (algorithm, length) = rng.pick(&SIGN1_ALGORITHMS);
    Sign1Parts {
        algorithm,
        index: any_number(rng),
        value: any_value(rng),
        signature: rng.bytes(length),
    }
}

/// A small item of any type.
fn any_item(rng: &mut Rng) -> Item {
    let number = any_number(rng);
    let length = rng.pick(&[0, 1, 14, 23, 24, 48, 64, 96, 132]);
    match rng.below(9) {
        0 => Item::Unsigned(number),
        1 => Item::Negative(number),
        2 => Item::Bytes(rng.bytes(length)),
        3 => Item::Text(rng.pick(&["register_index", "register_value", "", "signature"])),
        4 => numbers(&rng.bytes(length)),
        5 => Item::Map(vec![]),
        6 => Item::Tag(number, Box::new(Item::Null)),
        7 => Item::Array(vec![]),
        _ => Item::Null,
    }
}

/// The item with this number, counted as its head is.
fn item_at<'a>(item: &'a mut Item, at: &mut usize) -> Option<&'a mut Item> {
    if *at == 0 {
        return Some(item);
    }
    *at -= 1;
    match item {
        Item::Encoded(inner) | Item::Tag(_, inner) => item_at(inner, at),
        Item::Array(items) => items.iter_mut().find_map(|item| item_at(item, at)),
        Item::Map(pairs) => {
            let mut pairs = pairs.iter_mut();
            pairs.find_map(|(key, value)| item_at(key, at).or_else(|| item_at(value, at)))
        }
        _ => None,
    }
}

/// Changes an item and leaves it well-formed.
fn damage_item(rng: &mut Rng, item: &mut Item) {
    let mut at = rng.below(count_heads(item));
    let Some(chosen) = item_at(item, &mut at) else {
        return;
    };
    match (rng.below(4), &mut *chosen) {
        (0, _) => *chosen = any_item(rng),
        (1, _) => {
            let tag = rng.pick(&[18, 98, 2, 61]);
            *chosen = Item::Tag(tag, Box::new(chosen.clone()));
        }
        (_, Item::Unsigned(number) | Item::Negative(number)) => *number = any_number(rng),
        (_, Item::Bytes(bytes)) => {
            let length = rng.pick(&[63, 64, 65, 95, 96, 97, 131, 132, 133, 0, 255, 256]);
            bytes.resize(length, 7);
        }
        (2, Item::Array(items)) => {
            items.pop();
        }
        (_, Item::Array(items)) => items.push(any_item(rng)),
        (2, Item::Map(pairs)) => pairs.reverse(),
        (3, Item::Map(pairs)) => pairs.push((any_item(rng), any_item(rng))),
        (_, Item::Encoded(inner)) => *chosen = (**inner).clone(),
        _ => *chosen = any_item(rng),
    }
}

fn damage_bytes(rng: &mut Rng, bytes: &mut Vec<u8>) {
    match rng.below(6) {
        0 => bytes.truncate(rng.below(bytes.len() + 1)),
        1 => bytes.truncate(bytes.len().saturating_sub(1 + rng.below(3))),
        2 => {
            let more = 1 + rng.below(4);
            bytes.extend(rng.bytes(more));
        }
        3 => {
            let at = rng.below(bytes.len() + 1);
            bytes.insert(at, rng.next() as u8);
        }
        _ if bytes.is_empty() => {}
        4 => {
            bytes.remove(rng.below(bytes.len()));
        }
        _ => {
            // The signature and the value are most of the bytes, and the rest is what is judged.
            let most = rng.pick(&[8, 45, bytes.len()]).min(bytes.len());
            let at = rng.below(most);
            bytes[at] = rng.next() as u8;
        }
    }
}

/// One or two heads in another form.
fn any_heads(rng: &mut Rng, item: &Item) -> Vec<u8> {
    let count = count_heads(item);
    let chosen = [(); 2].map(|()| rng.below(count));
    let form = rng.pick(&Head::OTHERS);
    encode_with(item, &|head| match chosen.contains(&head) {
        true => form,
        false => Head::Shortest,
    })
}

/// Any bytes, many of them a COSE_Sign1.
pub fn any_sign1(rng: &mut Rng) -> Vec<u8> {
    if rng.once_in(50) {
        let length = rng.below(400);
        return rng.bytes(length);
    }
    let mut item = any_parts(rng).item();
    let (item_faults, byte_faults) = rng.pick(&[(0, 0), (0, 0), (0, 1), (0, 2), (1, 0), (2, 1)]);
    for _ in 0..item_faults {
        damage_item(rng, &mut item);
    }
    let mut bytes = match rng.once_in(5) {
        true => any_heads(rng, &item),
        false => encode(&item),
    };
    for _ in 0..byte_faults {
        damage_bytes(rng, &mut bytes);
    }
    bytes
}

/// Any claim and signature.
pub fn any_claim(rng: &mut Rng) -> ClaimInput {
    let mut parts = any_parts(rng);
    let wanted = parts.bytes().len();
    match rng.below(8) {
        0 => parts.algorithm = any_number(rng),
        // Numbers of which a part is that of an algorithm.
        1 => parts.algorithm += rng.pick(&[1 << 8, 1 << 16, 1 << 32, 1 << 63]),
        2 => parts.algorithm = rng.pick(&[0, 1, 6, 7, 8, 34, 35, 36, 37]),
        3 => {
            let near = rng.pick(&[63, 65, 95, 97, 131, 133, 64, 96, 132, 0]);
            let any = rng.below(400);
            let length = rng.pick(&[near, any]);
            parts.signature = rng.bytes(length);
        }
        _ => {}
    }
    ClaimInput {
        claim: Sign1Claim {
            algorithm: parts.algorithm,
            register_index: parts.index,
            register_value: Digest(parts.value),
        },
        signature: parts.signature,
        output: rng.output_length(wanted),
    }
}

fn twin_claim(claim: &Sign1Claim) -> twin::Claim {
    twin::Claim {
        algorithm: claim.algorithm,
        index: claim.register_index,
        value: claim.register_value.0,
    }
}

fn twin_reading(answer: Result<twin::Sign1, twin::Refusal>) -> Sign1Reading {
    match answer.map_err(twin_parts) {
        Ok(sign1) => Sign1Reading {
            claim: Sign1Claim {
                algorithm: sign1.claim.algorithm,
                register_index: sign1.claim.index,
                register_value: Digest(sign1.claim.value),
            },
            signature_position: Sign1Position(sign1.position as u64),
            signature_length: DataLength(sign1.length as u64),
            ..Sign1Reading::default()
        },
        Err(parts) => refused!(Sign1Reading, parts),
    }
}

/// The Rust interface's form of a claim, where its algorithm is one of those that may sign.
fn rust_claim(claim: &Sign1Claim) -> Option<Claim> {
    let mut known = Algorithm::ALL.into_iter();
    let algorithm = known.find(|&algorithm| algorithm as u64 == claim.algorithm)?;
    Some(Claim {
        algorithm,
        register_index: claim.register_index,
        register_value: claim.register_value,
    })
}

/// Reads bytes, and writes again what is accepted.
pub fn compare_sign1(ordinal: u64, bytes: &[u8], tally: &mut Tally) {
    let input = &Input {
        kind: "COSE_Sign1",
        ordinal,
        bytes,
        other: None,
    };
    tally.add_input();
    let reading = raw::sign1_read(bytes);
    let twin_answer = twin_reading(twin::read_sign1(bytes));
    same(input, "read", reading, twin_answer);
    tally.add(Call::Sign1Read, reading.number);
    let view = eif::sign1::read(bytes).map_err(parts);
    match reading.number {
        0 => {
            let signature = compare_written_again(input, &reading);
            let view = view.map(|sign1| (Some(sign1.claim), sign1.signature));
            let expected = (rust_claim(&reading.claim), signature);
            same(input, "view", view, Ok(expected));
        }
        number => same(
            input,
            "refusal",
            view,
            Err((number, reading.index, reading.position)),
        ),
    }
}

/// Writes what was accepted. Answers the signature.
fn compare_written_again<'a>(input: &Input<'a>, reading: &Sign1Reading) -> &'a [u8] {
    let (start, length) = (reading.signature_position.0, reading.signature_length.0);
    let signature = &input.bytes[start as usize..][..length as usize];
    let mut out = vec![0; input.bytes.len()];
    let written = raw::sign1_write(reading.claim, signature, &mut out);
    let expected = (0, input.bytes.len() as u64);
    same(
        input,
        "written again",
        (written.number, written.length),
        expected,
    );
    same(input, "bytes written again", &out[..], input.bytes);
    signature
}

/// Writes a claim, and reads back what is written.
pub fn compare_claim(rng: &mut Rng, ordinal: u64, given: &ClaimInput, tally: &mut Tally) {
    let ClaimInput {
        claim, signature, ..
    } = given;
    let input = &Input {
        kind: "claim",
        ordinal,
        bytes: signature,
        other: Some(claim),
    };
    tally.add_input();
    let output = (given.output, rng.next() as u8);
    let c = |out: &mut [u8]| raw::sign1_write(*claim, signature, out);
    let twin = |out: &mut [u8]| twin::write_sign1(&twin_claim(claim), signature, out);
    let number = match rust_claim(claim) {
        Some(claim) => {
            let rust = |out: &mut [u8]| eif::sign1::write(&claim, signature, out);
            compare_output(input, "write", output, c, rust, twin)
        }
        None => compare_c_output(input, "write", output, c, twin).0.number,
    };
    tally.add(Call::Sign1Write, number);
    if number == 0 {
        let mut out = vec![0; given.output];
        let length = raw::sign1_write(*claim, signature, &mut out).length as usize;
        let reading = raw::sign1_read(&out[..length]);
        same(
            input,
            "read back",
            (reading.number, reading.claim),
            (0, *claim),
        );
    }
}
