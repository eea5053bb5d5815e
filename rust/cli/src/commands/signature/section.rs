//! The outer structure of a signature section, taken apart.
//!
//! The specification draws an array of maps of two pairs, `signing_certificate` and `signature`. The bytes of
//! both stand in arrays of numbers, as the published builder writes them, or in byte strings. Heads are the
//! shortest and lengths definite, as in a COSE_Sign1, and nothing stands after the array.
//!
//! One pass from the first byte on: nothing recurses, and no room is made for a length that is only claimed.

/// The most bytes of a signature section, by the specification. No more are looked at.
const MOST: usize = 32_768;

// CBOR's major types (RFC 8949, section 3.1).
const UNSIGNED: u8 = 0;
const BYTE_STRING: u8 = 2;
const TEXT: u8 = 3;
const ARRAY: u8 = 4;
const MAP: u8 = 5;

/// A certificate, and a signature that may be its owner's.
#[derive(Debug, PartialEq, Eq)]
pub struct Pair {
    pub certificate: Vec<u8>,
    pub signature: Vec<u8>,
}

/// Where a section is not of that structure, counted from the start of its data, and what should be there.
#[derive(Debug, PartialEq, Eq)]
pub struct Fault {
    pub position: usize,
    pub wanted: &'static str,
}

/// The pairs that a section holds, in order.
pub fn take_apart(section: &[u8]) -> Result<Vec<Pair>, Fault> {
    if section.len() > MOST {
        return Err(Fault {
            position: MOST,
            wanted: "the section's end, as the specification allows 32,768 bytes",
        });
    }
    let mut cursor = Cursor {
        bytes: section,
        at: 0,
    };
    let count = cursor.head(ARRAY, "an array of signatures")?;
    let mut pairs = Vec::new();
    for _ in 0..count {
        pairs.push(cursor.pair()?);
    }
    match cursor.rest() {
        [] => Ok(pairs),
        _ => Err(cursor.fault("the section's end")),
    }
}

/// A head: its major type, its number and how many bytes it has.
struct Head {
    major: u8,
    number: u64,
    length: usize,
}

struct Cursor<'a> {
    bytes: &'a [u8],
    at: usize,
}

impl<'a> Cursor<'a> {
    fn rest(&self) -> &'a [u8] {
        &self.bytes[self.at..]
    }

    fn fault(&self, wanted: &'static str) -> Fault {
        Fault {
            position: self.at,
            wanted,
        }
    }

    /// The head that stands here, if it is whole, of a definite length and the shortest.
    fn peek(&self) -> Option<Head> {
        let (&first, rest) = self.rest().split_first()?;
        let (width, least) = match first & 0x1f {
            0..=23 => (0, 0),
            24 => (1, 24),
            25 => (2, 1 << 8),
            26 => (4, 1 << 16),
            27 => (8, 1 << 32),
            _ => return None,
        };
        let number = match width {
            0 => u64::from(first & 0x1f),
            _ => {
                let bytes = rest.get(..width)?.iter();
                bytes.fold(0, |value, &byte| value << 8 | u64::from(byte))
            }
        };
        (number >= least).then_some(Head {
            major: first >> 5,
            number,
            length: 1 + width,
        })
    }

    /// Takes a head of this major type and answers its number.
    fn head(&mut self, major: u8, wanted: &'static str) -> Result<u64, Fault> {
        match self.peek() {
            Some(head) if head.major == major => {
                self.at += head.length;
                Ok(head.number)
            }
            _ => Err(self.fault(wanted)),
        }
    }

    /// Takes a map of the two pairs.
    fn pair(&mut self) -> Result<Pair, Fault> {
        let wanted = "a map of two pairs";
        let start = self.fault(wanted);
        if self.head(MAP, wanted)? != 2 {
            return Err(start);
        }
        self.name("signing_certificate", "the name signing_certificate")?;
        let certificate = self.content()?;
        self.name("signature", "the name signature")?;
        let signature = self.content()?;
        Ok(Pair {
            certificate,
            signature,
        })
    }

    /// Takes this text.
    fn name(&mut self, name: &str, wanted: &'static str) -> Result<(), Fault> {
        let start = self.fault(wanted);
        match self.string(TEXT, wanted)? == name.as_bytes() {
            true => Ok(()),
            false => Err(start),
        }
    }

    /// Takes a string that ends in the section.
    fn string(&mut self, major: u8, wanted: &'static str) -> Result<&'a [u8], Fault> {
        let start = self.fault(wanted);
        let length = self.head(major, wanted)?;
        let string = usize::try_from(length).ok();
        let string = string.and_then(|length| self.rest().get(..length));
        let string = string.ok_or(start)?;
        self.at += string.len();
        Ok(string)
    }

    /// Takes bytes, in an array of numbers or in a byte string.
    fn content(&mut self) -> Result<Vec<u8>, Fault> {
        let wanted = "an array of numbers, or a byte string";
        match self.peek() {
            Some(head) if head.major == BYTE_STRING => {
                let wanted = "a byte string that ends in the section";
                Ok(self.string(BYTE_STRING, wanted)?.to_vec())
            }
            _ => {
                let count = self.head(ARRAY, wanted)?;
                let mut bytes = Vec::new();
                for _ in 0..count {
                    bytes.push(self.byte()?);
                }
                Ok(bytes)
            }
        }
    }

    fn byte(&mut self) -> Result<u8, Fault> {
        let wanted = "a number below 256";
        let start = self.fault(wanted);
        u8::try_from(self.head(UNSIGNED, wanted)?).map_err(|_| start)
    }
}

#[cfg(test)]
mod tests {
    use super::*;
    use eif_cases::cbor::{encode, numbers, other_forms, signature_entry as map, Item};

    fn bytes(bytes: &[u8]) -> Item {
        Item::Bytes(bytes.to_vec())
    }

    fn pair(certificate: &[u8], signature: &[u8]) -> Pair {
        Pair {
            certificate: certificate.to_vec(),
            signature: signature.to_vec(),
        }
    }

    /// Two signatures, in both forms of bytes.
    fn two() -> Item {
        Item::Array(vec![
            map(numbers(&[0, 23, 24, 255]), numbers(&[7; 30])),
            map(bytes(&[1, 2]), bytes(&[])),
        ])
    }

    #[track_caller]
    fn wants(section: &[u8], position: usize, wanted: &'static str) {
        assert_eq!(take_apart(section), Err(Fault { position, wanted }));
    }

    #[test]
    fn what_the_specification_draws() {
        assert_eq!(take_apart(&encode(&Item::Array(vec![]))), Ok(vec![]));
        let pairs = vec![pair(&[0, 23, 24, 255], &[7; 30]), pair(&[1, 2], &[])];
        assert_eq!(take_apart(&encode(&two())), Ok(pairs));
    }

    #[test]
    fn every_cut_and_every_byte_more_is_a_fault() {
        let section = encode(&two());
        for length in 0..section.len() {
            let fault = take_apart(&section[..length]).unwrap_err();
            assert!(fault.position <= length, "{length}: {fault:?}");
        }
        for more in 0..=255 {
            let longer = [&section[..], &[more]].concat();
            wants(&longer, section.len(), "the section's end");
        }
    }

    #[test]
    fn only_shortest_heads_and_definite_lengths() {
        for (name, other) in other_forms(&two()) {
            assert!(take_apart(&other).is_err(), "{name}");
        }
    }

    #[test]
    fn each_fault_has_its_words() {
        let array = |item: Item| encode(&Item::Array(vec![item]));
        let name = Item::Text("signing_certificate");
        wants(&[], 0, "an array of signatures");
        wants(&[0xa0], 0, "an array of signatures");
        wants(&[0x9f, 0xff], 0, "an array of signatures");
        wants(&[0x81], 1, "a map of two pairs");
        wants(&[0x81, 0xa1], 1, "a map of two pairs");
        wants(&[0x81, 0xa2, 0x60], 2, "the name signing_certificate");
        let other = map(Item::Null, Item::Null);
        wants(&array(other), 22, "an array of numbers, or a byte string");
        let other = map(Item::Array(vec![Item::Unsigned(256)]), bytes(&[]));
        wants(&array(other), 23, "a number below 256");
        let twice = Item::Map(vec![(name.clone(), bytes(&[])), (name, bytes(&[]))]);
        wants(&array(twice), 23, "the name signature");
        let cut = [&array(map(bytes(&[]), bytes(&[])))[..33], &[0x42, 1]].concat();
        wants(&cut, 33, "a byte string that ends in the section");
    }

    /// Lengths and counts of any size are only words.
    #[test]
    fn claimed_lengths_take_no_room() {
        let start = &encode(&Item::Array(vec![map(bytes(&[]), bytes(&[]))]))[..22];
        for first in 0..=255 {
            let head = [&[first][..], &[0xff; 8]].concat();
            assert!(take_apart(&head).is_err());
            assert!(take_apart(&[start, &head].concat()).is_err());
        }
    }

    /// As deep as a section can be.
    #[test]
    fn depth_is_no_matter() {
        for byte in [0x81, 0xa1, 0xc1, 0xd8, 0x9f, 0xbf] {
            assert!(take_apart(&vec![byte; MOST]).is_err());
        }
    }

    #[test]
    fn a_section_of_more_bytes_than_the_specification_allows() {
        let of =
            |length: usize| encode(&Item::Array(vec![map(bytes(&vec![0; length]), bytes(&[]))]));
        let most = of(MOST - of(300).len() + 300);
        assert_eq!(most.len(), MOST);
        assert!(take_apart(&most).is_ok());
        let fault = take_apart(&[&most[..], &[0]].concat()).unwrap_err();
        assert_eq!(fault.position, MOST);
    }

    /// Each byte of a section changed to each value: an answer, whatever it is.
    #[test]
    fn every_byte_changed() {
        let section = encode(&two());
        for at in 0..section.len() {
            for value in 0..=255 {
                let mut changed = section.clone();
                changed[at] = value;
                let _ = take_apart(&changed);
            }
        }
    }
}
