//! Keys, certificates and signatures made with `openssl`.

use super::Folder;
use eif_cases::cbor::{encode, Item};
use eif_cases::Sign1Parts;
use std::process::Command;

/// The curve and the hash of an algorithm, by its number with its sign left off.
fn names(algorithm: u64) -> (&'static str, &'static str) {
    match algorithm {
        7 => ("prime256v1", "-sha256"),
        35 => ("secp384r1", "-sha384"),
        36 => ("secp521r1", "-sha512"),
        _ => panic!("no algorithm {algorithm}"),
    }
}

/// Runs `openssl` in the folder and answers what it printed, or nothing where it fails.
fn openssl(folder: &Folder, words: &str) -> Option<Vec<u8>> {
    let mut command = Command::new("openssl");
    command
        .args(words.split_whitespace())
        .current_dir(folder.path(""));
    let output = command.output().expect("openssl was found before");
    output.status.success().then_some(output.stdout)
}

/// Whether there is such a program. A test without it says so.
pub fn has_openssl() -> bool {
    let found = Command::new("openssl").arg("version").output().is_ok();
    if !found {
        eprintln!("skipped: no program `openssl`");
    }
    found
}

/// Makes a key for an algorithm and answers its certificate.
pub fn certificate(folder: &Folder, algorithm: u64) -> Vec<u8> {
    let (curve, _) = names(algorithm);
    let words = format!(
        "req -x509 -newkey ec -pkeyopt ec_paramgen_curve:{curve} -nodes -days 36500 \
         -subj /CN=river-road -keyout key -out certificate"
    );
    openssl(folder, &words).expect("a key and a certificate");
    folder.get("certificate")
}

/// What is signed: RFC 9052, section 4.4.
fn signed_bytes(parts: &Sign1Parts) -> Vec<u8> {
    let [protected, _, payload, _] = parts.items();
    let context = Item::Text("Signature1");
    let outside = Item::Bytes(vec![]);
    encode(&Item::Array(vec![context, protected, outside, payload]))
}

/// Puts the signature of the last key into the parts, which have one of its length.
pub fn sign(folder: &Folder, parts: &mut Sign1Parts) {
    let (_, hash) = names(parts.algorithm);
    folder.put("message", signed_bytes(parts));
    openssl(folder, &format!("dgst {hash} -sign key -out made message")).expect("a signature");
    parts.signature = from_der(&folder.get("made"), parts.signature.len());
}

/// Whether the signature is that of the certificate's owner.
pub fn is_genuine(folder: &Folder, certificate: &[u8], parts: &Sign1Parts) -> bool {
    let (_, hash) = names(parts.algorithm);
    folder.put("certificate", certificate);
    let public = openssl(folder, "x509 -in certificate -pubkey -noout");
    folder.put("public", public.expect("a public key"));
    folder.put("message", signed_bytes(parts));
    folder.put("made", to_der(&parts.signature));
    let words = format!("dgst {hash} -verify public -signature made message");
    openssl(folder, &words).is_some()
}

/// The two numbers of a signature in DER, each in half of `length` bytes.
fn from_der(der: &[u8], length: usize) -> Vec<u8> {
    let (sequence, rest) = element(der);
    assert!(rest.is_empty());
    let (first, rest) = element(sequence);
    let (second, rest) = element(rest);
    assert!(rest.is_empty());
    let padded = |number: &[u8]| {
        let zeros = number.iter().take_while(|&&byte| byte == 0).count();
        let number = &number[zeros..];
        [&vec![0; length / 2 - number.len()][..], number].concat()
    };
    [padded(first), padded(second)].concat()
}

/// The content of the first element, and what stands after it.
fn element(der: &[u8]) -> (&[u8], &[u8]) {
    match der[1] {
        0x81 => der[3..].split_at(der[2].into()),
        length => der[2..].split_at(length.into()),
    }
}

fn to_der(signature: &[u8]) -> Vec<u8> {
    let (first, second) = signature.split_at(signature.len() / 2);
    tagged(0x30, &[integer(first), integer(second)].concat())
}

/// A number from 0 on, its bytes as few as can be, the first of them below 128.
fn integer(number: &[u8]) -> Vec<u8> {
    let zeros = number.iter().take_while(|&&byte| byte == 0).count();
    let number = &number[zeros..];
    let sign: &[u8] = match number {
        [0..=0x7f, ..] => &[],
        _ => &[0],
    };
    tagged(0x02, &[sign, number].concat())
}

fn tagged(tag: u8, content: &[u8]) -> Vec<u8> {
    let length = u8::try_from(content.len()).expect("a short element");
    match length {
        0..=0x7f => [&[tag, length], content].concat(),
        _ => [&[tag, 0x81, length], content].concat(),
    }
}
