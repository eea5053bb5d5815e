//! COSE_Sign1 byte strings and what reading them answers.

use crate::cbor::{encode, numbers, other_forms, Item};

/// The algorithms by their number in the COSE registry with its sign left off, and how long their
/// signatures are: ES256, ES384, ES512.
pub const SIGN1_ALGORITHMS: [(u64, usize); 3] = [(7, 64), (35, 96), (36, 132)];

/// The length of a register's value.
const REGISTER: usize = 48;

/// What a COSE_Sign1 claims.
#[derive(Clone, Debug, PartialEq, Eq)]
pub struct Sign1Parts {
    /// The algorithm's number with its sign left off.
    pub algorithm: u64,
    /// The register's index.
    pub index: u64,
    /// The register's value.
    pub value: [u8; REGISTER],
    /// The signature.
    pub signature: Vec<u8>,
}

impl Sign1Parts {
    /// The item, part by part, so that a part can be exchanged.
    pub fn items(&self) -> [Item; 4] {
        [
            encoded(protected(&[(1, self.algorithm)])),
            Item::Map(vec![]),
            encoded(payload(vec![
                ("register_index", Item::Unsigned(self.index)),
                ("register_value", numbers(&self.value)),
            ])),
            Item::Bytes(self.signature.clone()),
        ]
    }

    /// The item.
    pub fn item(&self) -> Item {
        Item::Array(self.items().to_vec())
    }

    /// Its bytes, every head the shortest.
    pub fn bytes(&self) -> Vec<u8> {
        encode(&self.item())
    }
}

fn encoded(item: Item) -> Item {
    Item::Encoded(Box::new(item))
}

/// A map from numbers to negative numbers, those with their sign left off.
fn protected(pairs: &[(u64, u64)]) -> Item {
    let pair = |&(key, value): &(u64, u64)| {
        let value = Item::Negative(value - 1);
        (Item::Unsigned(key), value)
    };
    Item::Map(pairs.iter().map(pair).collect())
}

fn payload(pairs: Vec<(&'static str, Item)>) -> Item {
    let pair = |(name, value)| (Item::Text(name), value);
    Item::Map(pairs.into_iter().map(pair).collect())
}

/// Bytes and what reading them answers.
pub struct Sign1Case {
    /// What they are.
    pub name: String,
    /// The bytes.
    pub bytes: Vec<u8>,
    /// What they claim, or nothing where they are refused by 28.
    pub answer: Option<Sign1Parts>,
}

/// A claim with a value of every width of number.
pub fn sign1_example(algorithm: u64, length: usize) -> Sign1Parts {
    Sign1Parts {
        algorithm,
        index: 0,
        value: std::array::from_fn(|i| (i * 5) as u8),
        signature: (0..length).map(|i| (i * 3 + 1) as u8).collect(),
    }
}

/// Bytes that are accepted and bytes that are not.
pub fn sign1_cases() -> Vec<Sign1Case> {
    let mut cases = accepted_cases();
    for (algorithm, length) in SIGN1_ALGORITHMS {
        let good = sign1_example(algorithm, length);
        let others = other_forms(&good.item()).into_iter();
        cases.extend(others.map(|(name, bytes)| refused_case(name, bytes)));
        cases.extend(length_cases(&good));
        let refused = refused_items(&good).into_iter();
        cases.extend(refused.map(|(name, item)| refused_case(name, encode(&item))));
    }
    cases.extend(published_cases());
    cases
}

fn refused_case(name: impl Into<String>, bytes: Vec<u8>) -> Sign1Case {
    Sign1Case {
        name: name.into(),
        bytes,
        answer: None,
    }
}

/// Every width of the index and of the value's numbers.
fn accepted_cases() -> Vec<Sign1Case> {
    let mut cases = Vec::new();
    for (algorithm, length) in SIGN1_ALGORITHMS {
        let good = sign1_example(algorithm, length);
        let ends = [24, 1 << 8, 1 << 16, 1 << 32].map(|end: u64| [end - 1, end]);
        let indices = [0, 1, 2, 8, u64::MAX];
        for index in indices.into_iter().chain(ends.into_iter().flatten()) {
            let parts = Sign1Parts {
                index,
                ..good.clone()
            };
            cases.push(accepted_case(&format!("index {index}"), parts));
        }
        for byte in [0, 23, 24, 255] {
            let value = [byte; REGISTER];
            let parts = Sign1Parts {
                value,
                ..good.clone()
            };
            cases.push(accepted_case(&format!("value of {byte}"), parts));
        }
    }
    cases
}

fn accepted_case(name: &str, parts: Sign1Parts) -> Sign1Case {
    Sign1Case {
        name: format!("{name}, algorithm {}", parts.algorithm),
        bytes: parts.bytes(),
        answer: Some(parts),
    }
}

/// Every cut, and bytes after the end.
fn length_cases(good: &Sign1Parts) -> Vec<Sign1Case> {
    let bytes = good.bytes();
    let cut = |length| refused_case(format!("cut to {length}"), bytes[..length].to_vec());
    let mut cases: Vec<Sign1Case> = (0..bytes.len()).map(cut).collect();
    for more in [&[0][..], &[0xf6], &[0xff], &bytes] {
        let longer = [&bytes[..], more].concat();
        cases.push(refused_case(format!("{} bytes after", more.len()), longer));
    }
    cases
}

/// Items with a name.
type Named = Vec<(&'static str, Item)>;

/// Items that are well-formed CBOR and something else.
fn refused_items(good: &Sign1Parts) -> Named {
    let [header, _, payload, signature] = good.items();
    let five = [&good.items()[..], &[Item::Null]].concat();
    let mut refused = vec![
        ("tag 18", Item::Tag(18, Box::new(good.item()))),
        ("tag 98", Item::Tag(98, Box::new(good.item()))),
        ("three items", Item::Array(good.items()[..3].to_vec())),
        (
            "no empty map",
            Item::Array(vec![header, payload, signature]),
        ),
        ("five items", Item::Array(five)),
        ("in a byte string", encoded(good.item())),
    ];
    let parts = [
        refused_headers(good.algorithm),
        refused_unprotected(),
        refused_payloads(good),
        refused_signatures(&good.signature),
    ];
    for (place, others) in parts.into_iter().enumerate() {
        refused.extend(others.into_iter().map(|(name, item)| {
            let mut items = good.items();
            items[place] = item;
            (name, Item::Array(items.to_vec()))
        }));
    }
    refused
}

fn refused_unprotected() -> Named {
    let kid = (Item::Unsigned(4), Item::Bytes(b"11".to_vec()));
    vec![
        ("header parameter kid", Item::Map(vec![kid])),
        ("unprotected header as an array", Item::Array(vec![])),
        (
            "unprotected header in a byte string",
            encoded(Item::Map(vec![])),
        ),
        ("no unprotected header", Item::Null),
    ]
}

fn refused_headers(algorithm: u64) -> Named {
    let header = |pairs: &[(u64, u64)]| encoded(protected(pairs));
    let to_number = |number| encoded(Item::Map(vec![(Item::Unsigned(1), number)]));
    vec![
        ("empty header", Item::Bytes(vec![])),
        ("header without a pair", header(&[])),
        ("two pairs in the header", header(&[(1, algorithm), (2, 1)])),
        (
            "the algorithm twice",
            header(&[(1, algorithm), (1, algorithm)]),
        ),
        ("header parameter 2", header(&[(2, algorithm)])),
        ("header not in a byte string", protected(&[(1, algorithm)])),
        ("EdDSA", header(&[(1, 8)])),
        ("PS256", header(&[(1, 37)])),
        ("ES256K", header(&[(1, 47)])),
        ("algorithm -1", header(&[(1, 1)])),
        ("algorithm 7", to_number(Item::Unsigned(7))),
        ("algorithm 35", to_number(Item::Unsigned(35))),
        ("algorithm by its name", to_number(Item::Text("ES384"))),
        ("algorithm -263", to_number(Item::Negative(262))),
        (
            "a byte after the header's map",
            Item::Bytes([&encode(&protected(&[(1, algorithm)]))[..], &[0]].concat()),
        ),
    ]
}

fn refused_payloads(good: &Sign1Parts) -> Named {
    let index = || ("register_index", Item::Unsigned(good.index));
    let value = || ("register_value", numbers(&good.value));
    let of = |pairs: Vec<_>| encoded(payload(pairs));
    let pairs = || payload(vec![index(), value()]);
    let longer = [&encode(&pairs())[..], &[0]].concat();
    let named = |name| of(vec![(name, Item::Unsigned(0)), value()]);
    let mut refused = vec![
        ("no payload", Item::Null),
        ("payload not in a byte string", pairs()),
        ("payload as text", Item::Text("register_index")),
        ("empty payload", Item::Bytes(vec![])),
        ("a byte after the payload's map", Item::Bytes(longer)),
        ("exchanged pairs", of(vec![value(), index()])),
        ("the index alone", of(vec![index()])),
        ("the value alone", of(vec![value()])),
        ("the index twice", of(vec![index(), index()])),
        ("three pairs", of(vec![index(), value(), index()])),
        ("another name", named("register_indey")),
        ("a shorter name", named("register_inde")),
    ];
    let indices = refused_indices().into_iter();
    refused.extend(indices.map(|(name, item)| (name, of(vec![("register_index", item), value()]))));
    let values = refused_values(&good.value).into_iter();
    refused.extend(values.map(|(name, item)| (name, of(vec![index(), ("register_value", item)]))));
    refused
}

fn refused_indices() -> Named {
    let big = Item::Bytes([&[1][..], &[0; 8]].concat());
    vec![
        ("negative index", Item::Negative(0)),
        ("index as text", Item::Text("0")),
        ("index past 64 bits", Item::Tag(2, Box::new(big))),
        ("no index", Item::Null),
    ]
}

fn refused_values(value: &[u8]) -> Named {
    let mut wide = vec![Item::Unsigned(1); REGISTER];
    wide[REGISTER - 1] = Item::Unsigned(256);
    let longer = [value, &[7]].concat();
    vec![
        ("value as a byte string", Item::Bytes(value.to_vec())),
        ("47 numbers", numbers(&value[..REGISTER - 1])),
        ("49 numbers", numbers(&longer)),
        ("a number of 256", Item::Array(wide)),
        (
            "negative numbers",
            Item::Array(vec![Item::Negative(0); REGISTER]),
        ),
        ("no value", Item::Null),
    ]
}

/// Signatures of the lengths of other algorithms and of lengths near these, and what is no byte string.
fn refused_signatures(signature: &[u8]) -> Named {
    let mut refused = vec![
        ("signature as text", Item::Text("signature")),
        ("signature as numbers", numbers(signature)),
        ("no signature", Item::Null),
    ];
    let long = signature.repeat(5);
    let lengths = SIGN1_ALGORITHMS.map(|(_, length)| [length - 1, length, length + 1]);
    let lengths = lengths
        .into_iter()
        .flatten()
        .chain([0, 1, 23, 24, 255, 256]);
    for length in lengths.filter(|&length| length != signature.len()) {
        let other = Item::Bytes(long[..length].to_vec());
        refused.push(("signature of another length", other));
    }
    refused
}

/// The example of RFC 9052, appendix C.2.1, which holds a text: with its tag, and without.
fn published_cases() -> Vec<Sign1Case> {
    let signature = [
        0x8e, 0xb3, 0x3e, 0x4c, 0xa3, 0x1d, 0x1c, 0x46, 0x5a, 0xb0, 0x5a, 0xac, 0x34, 0xcc, 0x6b,
        0x23, 0xd5, 0x8f, 0xef, 0x5c, 0x08, 0x31, 0x06, 0xc4, 0xd2, 0x5a, 0x91, 0xae, 0xf0, 0xb0,
        0x11, 0x7e, 0x2a, 0xf9, 0xa2, 0x91, 0xaa, 0x32, 0xe1, 0x4a, 0xb8, 0x34, 0xdc, 0x56, 0xed,
        0x2a, 0x22, 0x34, 0x44, 0x54, 0x7e, 0x01, 0xf1, 0x1d, 0x3b, 0x09, 0x16, 0xe5, 0xa4, 0xc3,
        0x45, 0xca, 0xcb, 0x36,
    ];
    let start = b"\xd2\x84\x43\xa1\x01\x26\xa1\x04\x42\x31\x31\x54This is the content.\x58\x40";
    let tagged = [&start[..], &signature].concat();
    vec![
        refused_case("RFC 9052, C.2.1, without its tag", tagged[1..].to_vec()),
        refused_case("RFC 9052, C.2.1", tagged),
    ]
}
