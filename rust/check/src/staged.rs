//! A base with one section replaced: generated inputs, and the library's answers held to the twin's.

use crate::compare::{
    compare_fingerprints, compare_length, compare_output, compare_registers, parts, same,
    twin_parts, Input,
};
use crate::{accepted_layout, any_image, any_image_of, refused, Call, Rng, Tally};
use eif::raw::staged::{self as raw, StagedPart};
use eif::{staged, DataLength};
use eif_twin as twin;
use std::borrow::Cow;

/// What the staged calls are handed.
#[derive(Clone, Debug)]
pub struct StagedInput<'a> {
    /// The base: an image, or not.
    pub base: Vec<u8>,
    /// What stands for the data of one section.
    pub replacement: Cow<'a, [u8]>,
    /// The number of that section.
    pub replaced: u64,
    /// The number of the section to be shown.
    pub shown: u64,
}

/// A number of a section more often than not, and otherwise the count, one more, or any.
fn any_number(rng: &mut Rng, count: u64) -> u64 {
    match rng.below(12) {
        0 => count,
        1 => rng.hostile(count),
        _ => rng.below(count.max(1) as usize) as u64,
    }
}

/// The section's own data, nothing, less of it, more of it, or any bytes.
fn any_replacement(rng: &mut Rng, own: &[u8]) -> Vec<u8> {
    match rng.below(6) {
        0 => own.to_vec(),
        1 => Vec::new(),
        2 => own[..own.len().saturating_sub(1)].to_vec(),
        3 => {
            let more = 1 + rng.below(40);
            [own, &rng.bytes(more)].concat()
        }
        4 => rng.bytes(own.len()),
        _ => {
            let length = rng.below(300);
            rng.bytes(length)
        }
    }
}

/// Any base and replacement.
pub fn any_staged(rng: &mut Rng) -> StagedInput<'static> {
    let base = if rng.once_in(2) {
        any_image(rng)
    } else {
        let layout = accepted_layout(rng);
        any_image_of(rng, &layout)
    };
    let sections = twin::read(&base).map(|reading| reading.sections);
    let sections = sections.unwrap_or_default();
    let replaced = any_number(rng, sections.len() as u64);
    let shown = match rng.below(3) {
        0 => replaced,
        _ => any_number(rng, sections.len() as u64),
    };
    let section = sections.get(replaced as usize);
    let own = section.map_or(&[][..], |s| &base[s.position..][..s.length]);
    let replacement = any_replacement(rng, own).into();
    StagedInput {
        base,
        replacement,
        replaced,
        shown,
    }
}

fn twin_part(answer: Result<twin::StagedPart, twin::Refusal>) -> StagedPart {
    match answer.map_err(twin_parts) {
        Ok(part) => StagedPart {
            in_replacement: u8::from(part.in_replacement),
            start: part.start as u64,
            length: DataLength(part.length),
            ..StagedPart::default()
        },
        Err(parts) => refused!(StagedPart, parts),
    }
}

/// Where a section's data lies. The replacement's length can be any number.
pub fn compare_staged_part(
    ordinal: u64,
    base: &[u8],
    (size, replaced, shown): (u64, u64, u64),
    tally: &mut Tally,
) {
    let input = &Input {
        kind: "staged part",
        ordinal,
        bytes: base,
        other: Some(&(size, replaced, shown)),
    };
    tally.add_input();
    let answer = raw::staged_part(base, size, replaced, shown);
    let expected = twin_part(twin::staged_part(base, size, replaced, shown));
    same(input, "staged part", answer, expected);
    tally.add(Call::StagedPart, answer.number);
}

/// Whether a part's bytes are those of the whole, in place and not copied.
pub fn is_part(part: &[u8], whole: &[u8]) -> bool {
    let (part, whole) = (part.as_ptr_range(), whole.as_ptr_range());
    whole.start <= part.start && part.end <= whole.end
}

/// The data of a section, held to that of the image written afresh.
fn compare_section(input: &Input, given: &StagedInput, afresh: &Result<Vec<u8>, twin::Refusal>) {
    let StagedInput {
        base,
        replacement,
        replaced,
        shown,
    } = given;
    let data = staged::section(base, replacement, *replaced as usize, *shown as usize);
    let (data, image) = match (data, afresh) {
        (Ok(data), Ok(image)) => (data, image),
        (Err(refusal), _) => {
            let size = replacement.len() as u64;
            let part = twin::staged_part(base, size, *replaced, *shown).map(|_| ());
            same(
                input,
                "section",
                Err(parts(refusal)),
                part.map_err(twin_parts),
            );
            return;
        }
        (data, _) => panic!("{data:?}, and the image is refused, for {input}"),
    };
    let sections = twin::read(image).map(|reading| reading.sections);
    let section = sections.unwrap_or_default()[*shown as usize];
    let expected = &image[section.position..][..section.length];
    same(input, "section", data, expected);
    let whole: &[u8] = if replaced == shown { replacement } else { base };
    assert!(is_part(data, whole), "a copy, for {input}");
}

/// Every call on a base with one section replaced.
pub fn compare_staged(rng: &mut Rng, ordinal: u64, given: &StagedInput, tally: &mut Tally) {
    let (base, replacement) = (&given.base[..], &given.replacement[..]);
    let (replaced, size) = (given.replaced, replacement.len() as u64);
    compare_staged_part(ordinal, base, (size, replaced, given.shown), tally);
    let input = &Input {
        kind: "staged base",
        ordinal,
        bytes: base,
        other: Some(&(replacement, replaced, given.shown)),
    };
    tally.add_input();
    let afresh = twin::staged_image(base, replacement, replaced);
    compare_section(input, given, &afresh);
    let written = staged::write_to_vec(base, replacement, replaced as usize);
    let expected = afresh.clone().map_err(twin_parts);
    same(
        input,
        "image written afresh",
        written.map_err(parts),
        expected,
    );

    let length = afresh.and_then(|image| twin::roll_length(&image));
    compare_staged_roll(rng, input, given, length, tally);
    let number = compare_registers(
        input,
        "staged registers",
        raw::staged_registers(base, replacement, replaced),
        staged::registers(base, replacement, replaced as usize),
        twin::staged_registers(base, replacement, replaced),
    );
    tally.add(Call::StagedRegisters, number);
    let number = compare_fingerprints(
        input,
        "staged fingerprint",
        raw::staged_fingerprint(base, replacement, replaced),
        staged::fingerprint(base, replacement, replaced as usize),
        twin::staged_fingerprint(base, replacement, replaced),
    );
    tally.add(Call::StagedFingerprint, number);
}

fn compare_staged_roll(
    rng: &mut Rng,
    input: &Input,
    given: &StagedInput,
    length: Result<usize, twin::Refusal>,
    tally: &mut Tally,
) {
    let (base, replacement, replaced) = (input.bytes, &given.replacement[..], given.replaced);
    let number = compare_length(
        input,
        "staged roll length",
        raw::staged_roll_length(base, replacement, replaced),
        staged::roll_length(base, replacement, replaced as usize),
        length,
    );
    tally.add(Call::StagedRollLength, number);
    let number = compare_output(
        input,
        "staged roll write",
        (rng.output_length(length.unwrap_or(60)), rng.next() as u8),
        |out| raw::staged_roll_write(base, replacement, replaced, out),
        |out| staged::write_roll(base, replacement, replaced as usize, out),
        |out| twin::write_staged_roll(base, replacement, replaced, out),
    );
    tally.add(Call::StagedRollWrite, number);
}
