//! JSON texts and strict readings held to the twin's.

use crate::compare::{in_rust, parts, same, twin_reading, Input};
use crate::{Call, Tally};
use eif::raw;
use eif_twin as twin;

/// Checks bytes, by the C interface, the Rust interface and the twin. Answers the place of the fault, if
/// there is one.
pub fn compare_text(ordinal: u64, text: &[u8]) -> Option<usize> {
    let input = &Input {
        kind: "text",
        ordinal,
        bytes: text,
        other: None,
    };
    let twin = twin::check_json(text).err();
    let expected = raw::JsonAnswer {
        is_text: u8::from(twin.is_none()),
        place: twin.unwrap_or(0) as u64,
        ..raw::JsonAnswer::default()
    };
    same(input, "JSON check", raw::json_check(text), expected);
    let rust = eif::json::check(text).err();
    let rust = rust.map(|fault| (fault.place(), fault.byte()));
    let expected = twin.map(|place| (place, text.get(place).copied()));
    same(input, "JSON check in Rust", rust, expected);
    twin
}

/// Reads an image strictly, by the C interface, the Rust interface and the twin.
pub(crate) fn compare_strict(input: &Input, tally: &mut Tally) {
    let answer = raw::read_strict(input.bytes);
    let twin = twin_reading(&twin::read_strict(input.bytes));
    same(input, "strict reading", answer, twin);
    tally.add(Call::ReadStrict, answer.number);

    let ordinary = raw::read(input.bytes);
    if answer.number != 21 {
        same(
            input,
            "strict reading, beside the ordinary",
            answer,
            ordinary,
        );
    } else {
        same(input, "what 21 is judged after", ordinary.number, 0);
    }
    let rust = eif::read_strict(input.bytes);
    let rust = rust.map(|image| (image.bytes(), image.sections().len()));
    let numbers = (answer.number, answer.index, answer.position);
    let expected = in_rust((input.bytes, usize::from(answer.count)), numbers);
    same(
        input,
        "strict reading in Rust",
        rust.map_err(parts),
        expected,
    );
}
