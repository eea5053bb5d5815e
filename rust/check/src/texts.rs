//! JSON texts, and what is almost one: written by the grammar, then damaged.

use crate::Rng;
use eif_cases::nested;

/// Bytes at which a rule of the grammar or of UTF-8 begins or ends.
const TELLING: &[u8] = b"\x00\x08\t\n\x0b\r\x1f !\"#+,-./01259:;Ee[\\]afblnrstu{|}\x7f\
    \x80\x8f\x90\x9f\xa0\xbf\xc0\xc1\xc2\xdf\xe0\xe1\xec\xed\xee\xef\xf0\xf1\xf3\xf4\xf5\xff";

/// The first and last characters of each length in UTF-8, and those beside the surrogates.
const CHARACTERS: &[char] = &[
    '\u{20}',
    '!',
    '#',
    '[',
    ']',
    '/',
    'a',
    '\u{7f}',
    '\u{80}',
    'é',
    '\u{7ff}',
    '\u{800}',
    '€',
    '\u{d7ff}',
    '\u{e000}',
    '\u{feff}',
    '\u{ffff}',
    '\u{10000}',
    '😀',
    '\u{fffff}',
    '\u{10ffff}',
];

/// One JSON text, within the depth that is allowed.
pub fn json_text(rng: &mut Rng) -> Vec<u8> {
    let mut text = Vec::new();
    space(rng, &mut text);
    // Deep texts are brackets around a small one; the small one has its share of the depth.
    let around = if rng.once_in(16) { rng.below(29) } else { 0 };
    let closing = open(rng, &mut text, around);
    value(rng, &mut text, 4.min(32 - around));
    text.extend(closing);
    space(rng, &mut text);
    text
}

/// Any bytes that may be taken for a JSON text.
pub fn any_text(rng: &mut Rng) -> Vec<u8> {
    if rng.once_in(40) {
        return unlike_text(rng);
    }
    let mut text = json_text(rng);
    let damages = rng.pick(&[0, 0, 1, 1, 1, 1, 2, 3]);
    for _ in 0..damages {
        damage(rng, &mut text);
    }
    text
}

/// Few bytes that no grammar wrote, or many brackets.
fn unlike_text(rng: &mut Rng) -> Vec<u8> {
    let length = rng.below(12);
    match rng.below(3) {
        0 => rng.bytes(length),
        1 => (0..length).map(|_| rng.pick(TELLING)).collect(),
        _ => {
            let depth = rng.pick(&[31, 32, 33, 34, 64, 200]);
            let closed = rng.pick(&[0, 1, depth - 1, depth, depth + 1]);
            nested(rng.once_in(2), depth, closed)
        }
    }
}

/// Opens so many arrays and objects, one in the other. Answers what closes them.
fn open(rng: &mut Rng, text: &mut Vec<u8>, depth: usize) -> Vec<u8> {
    let mut closing = Vec::new();
    for _ in 0..depth {
        if rng.once_in(2) {
            text.push(b'[');
            closing.push(b']');
        } else {
            text.extend(b"{\"\":");
            closing.push(b'}');
        }
    }
    closing.reverse();
    closing
}

fn space(rng: &mut Rng, text: &mut Vec<u8>) {
    while rng.once_in(6) {
        text.push(rng.pick(b" \t\n\r"));
    }
}

/// A value with at most `depth` arrays or objects in each other.
fn value(rng: &mut Rng, text: &mut Vec<u8>, depth: usize) {
    match rng.below(10) {
        0 => text.extend(b"true"),
        1 => text.extend(b"false"),
        2 => text.extend(b"null"),
        3 | 4 => number(rng, text),
        5 | 6 => string(rng, text),
        7 if depth > 0 => list(rng, text, *b"[]", |rng, text| value(rng, text, depth - 1)),
        _ if depth > 0 => list(rng, text, *b"{}", |rng, text| {
            string(rng, text);
            space(rng, text);
            text.push(b':');
            space(rng, text);
            value(rng, text, depth - 1);
        }),
        _ => number(rng, text),
    }
}

fn list(
    rng: &mut Rng,
    text: &mut Vec<u8>,
    [open, close]: [u8; 2],
    item: impl Fn(&mut Rng, &mut Vec<u8>),
) {
    text.push(open);
    space(rng, text);
    let items = rng.pick(&[0, 1, 1, 2, 2, 3]);
    for place in 0..items {
        if place > 0 {
            text.push(b',');
            space(rng, text);
        }
        item(rng, text);
        space(rng, text);
    }
    text.push(close);
}

fn digits(rng: &mut Rng, text: &mut Vec<u8>) {
    text.push(rng.pick(b"0123456789"));
    while rng.once_in(3) {
        text.push(rng.pick(b"0123456789"));
    }
}

fn number(rng: &mut Rng, text: &mut Vec<u8>) {
    if rng.once_in(3) {
        text.push(b'-');
    }
    if rng.once_in(3) {
        text.push(b'0');
    } else {
        text.push(rng.pick(b"123456789"));
        if rng.once_in(2) {
            digits(rng, text);
        }
    }
    if rng.once_in(3) {
        text.push(b'.');
        digits(rng, text);
    }
    if rng.once_in(3) {
        text.push(rng.pick(b"eE"));
        let signs: [&[u8]; 3] = [b"", b"+", b"-"];
        text.extend(rng.pick(&signs));
        digits(rng, text);
    }
}

fn string(rng: &mut Rng, text: &mut Vec<u8>) {
    text.push(b'"');
    let length = rng.pick(&[0, 1, 1, 2, 3, 5, 8]);
    for _ in 0..length {
        character(rng, text);
    }
    text.push(b'"');
}

fn character(rng: &mut Rng, text: &mut Vec<u8>) {
    match rng.below(8) {
        0 => text.extend([b'\\', rng.pick(b"\"\\/bfnrt")]),
        1 => {
            text.extend(b"\\u");
            text.extend((0..4).map(|_| rng.pick(b"0123456789abcdefABCDEFdD8")));
        }
        2 | 3 => text.extend(rng.pick(CHARACTERS).to_string().bytes()),
        _ => text.push(rng.pick(b"abcdefgh 0123{}[]:,'")),
    }
}

/// Cuts, adds, takes out, changes or moves bytes.
fn damage(rng: &mut Rng, text: &mut Vec<u8>) {
    let at = rng.below(text.len() + 1);
    let inside = rng.below(text.len().max(1));
    match rng.below(9) {
        0 => text.truncate(at),
        1 => text.insert(at, rng.pick(TELLING)),
        2 => text.insert(at, rng.next() as u8),
        _ if text.is_empty() => {}
        3 => {
            text.remove(inside);
        }
        4 => text[inside] ^= 1 << rng.below(8),
        5 => text[inside] = rng.pick(TELLING),
        6 => damage_character(rng, text),
        7 => {
            // A part of another text, or of this one.
            let other = if rng.once_in(2) {
                json_text(rng)
            } else {
                text.clone()
            };
            let start = rng.below(other.len() + 1);
            let end = start + rng.below(other.len() - start + 1);
            let last = at + rng.below(text.len() - at + 1);
            text.splice(at..last, other[start..end].iter().copied());
        }
        _ => {
            // One value in the place of a byte, deep or not.
            let depth = rng.pick(&[0, 1, 2, 27, 28, 29, 30, 31, 32, 33]);
            let deep = nested(rng.once_in(2), depth, depth);
            text.splice(inside..=inside, deep);
        }
    }
}

/// Changes a byte past ASCII, if there is one, or puts one there.
fn damage_character(rng: &mut Rng, text: &mut Vec<u8>) {
    let past_ascii = |&(_, &byte): &(usize, &u8)| byte >= 0x80;
    let places: Vec<usize> = text
        .iter()
        .enumerate()
        .filter(past_ascii)
        .map(|(at, _)| at)
        .collect();
    let wrong = 0x80 | rng.pick(TELLING);
    match places.len() {
        0 => {
            let at = rng.below(text.len() + 1);
            text.insert(at, wrong);
        }
        count => {
            let at = places[rng.below(count)];
            match rng.below(3) {
                0 => text[at] = wrong,
                1 => text.insert(at, wrong),
                _ => {
                    text.remove(at);
                }
            }
        }
    }
}
