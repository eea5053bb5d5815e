//! One COSE_Sign1 (RFC 9052, section 4.2) that claims a register, in CBOR (RFC 8949).

use crate::rules::*;

// Major types: RFC 8949, section 3.1.
const UNSIGNED: u8 = 0;
const NEGATIVE: u8 = 1;
const BYTE_STRING: u8 = 2;
const TEXT_STRING: u8 = 3;
const ARRAY: u8 = 4;
const MAP: u8 = 5;

/// The header parameter `alg`: RFC 9052, section 3.1.
const ALG: u64 = 1;

const INDEX_NAME: &[u8] = b"register_index";
const VALUE_NAME: &[u8] = b"register_value";

/// How long a register is.
const REGISTER: usize = 48;

/// Length of the signatures of an algorithm: ES256, ES384 and ES512, which are -7, -35 and -36 in the
/// COSE registry.
fn signature_length(algorithm: u64) -> Option<usize> {
    match algorithm {
        7 => Some(64),
        35 => Some(96),
        36 => Some(132),
        _ => None,
    }
}

/// What a COSE_Sign1 claims.
#[derive(Clone, Copy, Debug, PartialEq, Eq)]
pub struct Claim {
    /// The algorithm's number with its sign left off.
    pub algorithm: u64,
    /// The register's index.
    pub index: u64,
    /// The register's value.
    pub value: [u8; REGISTER],
}

/// An accepted COSE_Sign1.
#[derive(Clone, Copy, Debug, PartialEq, Eq)]
pub struct Sign1 {
    /// What it claims.
    pub claim: Claim,
    /// Where its signature begins.
    pub position: usize,
    /// How long its signature is.
    pub length: usize,
}

/// Reads one COSE_Sign1 and nothing after it.
pub fn read_sign1(bytes: &[u8]) -> Result<Sign1, Refusal> {
    match decode(bytes) {
        Some(sign1) => Ok(sign1),
        None => refuse(28, 0),
    }
}

fn decode(bytes: &[u8]) -> Option<Sign1> {
    let mut items = Decoder(bytes);
    items.expect(ARRAY, 4)?;
    let algorithm = decode_protected(items.string(BYTE_STRING)?)?;
    items.expect(MAP, 0)?;
    let (index, value) = decode_payload(items.string(BYTE_STRING)?)?;
    let signature = items.string(BYTE_STRING)?;
    items.end()?;
    if signature_length(algorithm) != Some(signature.len()) {
        return None;
    }
    let claim = Claim {
        algorithm,
        index,
        value,
    };
    let length = signature.len();
    Some(Sign1 {
        claim,
        // The signature stands last.
        position: bytes.len() - length,
        length,
    })
}

/// A map of the one pair: the algorithm.
fn decode_protected(bytes: &[u8]) -> Option<u64> {
    let mut items = Decoder(bytes);
    items.expect(MAP, 1)?;
    items.expect(UNSIGNED, ALG)?;
    // The argument of a negative number n is -1 - n.
    let algorithm = items.head(NEGATIVE)?.checked_add(1)?;
    items.end()?;
    Some(algorithm)
}

/// A map of two pairs: the register's index, and its value.
fn decode_payload(bytes: &[u8]) -> Option<(u64, [u8; REGISTER])> {
    let mut items = Decoder(bytes);
    items.expect(MAP, 2)?;
    items.expect_text(INDEX_NAME)?;
    let index = items.head(UNSIGNED)?;
    items.expect_text(VALUE_NAME)?;
    items.expect(ARRAY, REGISTER as u64)?;
    let mut value = [0; REGISTER];
    for byte in &mut value {
        *byte = u8::try_from(items.head(UNSIGNED)?).ok()?;
    }
    items.end()?;
    Some((index, value))
}

/// Takes items from the start of what is left. Nothing is taken but with a shortest head and a definite
/// length.
struct Decoder<'a>(&'a [u8]);

impl<'a> Decoder<'a> {
    fn take(&mut self, count: u64) -> Option<&'a [u8]> {
        let count = usize::try_from(count).ok()?;
        let taken = self.0.get(..count)?;
        self.0 = &self.0[count..];
        Some(taken)
    }

    /// The argument of a head of this major type: RFC 8949, section 3; the shortest, section 4.2.1.
    fn head(&mut self, major: u8) -> Option<u64> {
        let first = self.take(1)?[0];
        if first >> 5 != major {
            return None;
        }
        let (width, least) = match first & 0x1f {
            direct @ 0..=23 => return Some(direct.into()),
            24 => (1, 24),
            25 => (2, 1 << 8),
            26 => (4, 1 << 16),
            27 => (8, 1 << 32),
            // 28 to 30 are reserved, 31 is a length that is not told.
            _ => return None,
        };
        let bytes = self.take(width)?.iter();
        let argument = bytes.fold(0, |value, &byte| value << 8 | u64::from(byte));
        (argument >= least).then_some(argument)
    }

    fn expect(&mut self, major: u8, argument: u64) -> Option<()> {
        (self.head(major)? == argument).then_some(())
    }

    fn string(&mut self, major: u8) -> Option<&'a [u8]> {
        let length = self.head(major)?;
        self.take(length)
    }

    fn expect_text(&mut self, text: &[u8]) -> Option<()> {
        (self.string(TEXT_STRING)? == text).then_some(())
    }

    fn end(&self) -> Option<()> {
        self.0.is_empty().then_some(())
    }
}

/// Writes the COSE_Sign1 of a claim and its signature over the start of `out`. Answers its length.
pub fn write_sign1(claim: &Claim, signature: &[u8], out: &mut [u8]) -> Result<usize, Refusal> {
    if signature_length(claim.algorithm) != Some(signature.len()) {
        return refuse(28, 0);
    }
    let bytes = encode(claim, signature);
    if out.len() < bytes.len() {
        return refuse(14, 0);
    }
    out[..bytes.len()].copy_from_slice(&bytes);
    Ok(bytes.len())
}

fn encode(claim: &Claim, signature: &[u8]) -> Vec<u8> {
    let mut protected = head(MAP, 1);
    protected.extend(head(UNSIGNED, ALG));
    protected.extend(head(NEGATIVE, claim.algorithm - 1));

    let mut payload = head(MAP, 2);
    payload.extend(string(TEXT_STRING, INDEX_NAME));
    payload.extend(head(UNSIGNED, claim.index));
    payload.extend(string(TEXT_STRING, VALUE_NAME));
    payload.extend(head(ARRAY, REGISTER as u64));
    for byte in claim.value {
        payload.extend(head(UNSIGNED, byte.into()));
    }

    let mut bytes = head(ARRAY, 4);
    bytes.extend(string(BYTE_STRING, &protected));
    bytes.extend(head(MAP, 0));
    bytes.extend(string(BYTE_STRING, &payload));
    bytes.extend(string(BYTE_STRING, signature));
    bytes
}

/// The shortest head.
fn head(major: u8, argument: u64) -> Vec<u8> {
    let first = |low: u8| major << 5 | low;
    let bytes = argument.to_be_bytes();
    let (low, tail) = match argument {
        0..=23 => (bytes[7], &bytes[8..]),
        24..=0xff => (24, &bytes[7..]),
        0x100..=0xffff => (25, &bytes[6..]),
        0x1_0000..=0xffff_ffff => (26, &bytes[4..]),
        _ => (27, &bytes[..]),
    };
    [&[first(low)], tail].concat()
}

fn string(major: u8, bytes: &[u8]) -> Vec<u8> {
    [&head(major, bytes.len() as u64)[..], bytes].concat()
}
