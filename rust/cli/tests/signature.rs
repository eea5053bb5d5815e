//! `eif signature`.

mod common;

use common::json::{parse, Value};
use common::signing::{certificate, has_openssl, is_genuine, sign};
use common::{repository, Folder};
use eif::{DIGEST_LENGTH, REGISTERS};
use eif_cases::cbor::{encode, numbers, signature_entry as entry, Item};
use eif_cases::{
    hex, sign1_example, worked_image, Layout, Section, Sign1Parts, HEADER, SECTION_HEADER,
    SIGN1_ALGORITHMS,
};

/// A kernel, a command line, two ramdisks and the signature section.
fn image(section: &[u8]) -> Vec<u8> {
    let sections: [(u16, &[u8]); 5] = [
        (1, b"the kernel"),
        (2, b"quiet"),
        (3, b"old files"),
        (3, b"new files"),
        (4, section),
    ];
    let sections = sections.map(|(kind, data)| Section::new(kind, data));
    Layout::new(3, sections.to_vec()).image()
}

/// Where the data of that signature section begins.
const DATA_AT: usize = HEADER + 5 * SECTION_HEADER + 10 + 5 + 9 + 9;

/// The registers of such an image.
fn registers() -> [[u8; DIGEST_LENGTH]; REGISTERS] {
    eif::registers(&image(&[])).unwrap().0.map(|r| r.0)
}

/// A signature section as the published builder writes it, with certificates of three bytes.
fn section(signatures: &[&[u8]]) -> Vec<u8> {
    let entry = |signature: &&[u8]| entry(numbers(b"PEM"), numbers(signature));
    encode(&Item::Array(signatures.iter().map(entry).collect()))
}

/// A claim that the image's register `index` has this value, with made-up signature bytes.
fn claim(index: u64, value: [u8; DIGEST_LENGTH]) -> Sign1Parts {
    Sign1Parts {
        index,
        value,
        ..sign1_example(35, 96)
    }
}

fn claim_lines(index: u64, claimed: &[u8], computed: &[u8], comparison: &str) -> String {
    let [claimed, computed] = [claimed, computed].map(hex);
    format!(
        "    claimed   PCR{index} {claimed}\n    computed  PCR{index} {computed}\n    \
         {comparison}, not verified\n"
    )
}

#[test]
fn each_register_that_is_computed() {
    let folder = Folder::new();
    for (index, value) in (0..).zip(registers()) {
        let parts = claim(index, value);
        folder.put("image", image(&section(&[&parts.bytes()])));
        let lines = claim_lines(index, &value, &value, "equal");
        let text = format!(
            "image: signature section 4, 1 signature\n  signature 0: ES384, certificate of 3 bytes\n{lines}"
        );
        folder.eif("signature image").says(0, &text);
    }
}

#[test]
fn a_claim_that_differs() {
    let folder = Folder::new();
    let [value, other, _] = registers();
    let mut near = value;
    near[DIGEST_LENGTH - 1] ^= 1;
    for claimed in [near, other, [0; DIGEST_LENGTH]] {
        let parts = claim(0, claimed);
        folder.put("image", image(&section(&[&parts.bytes()])));
        let lines = claim_lines(0, &claimed, &value, "differs");
        folder.eif("signature image").ends(1, &lines);
    }
}

#[test]
fn a_register_that_is_not_computed() {
    let folder = Folder::new();
    for index in [3, 8, u64::MAX] {
        let parts = claim(index, registers()[0]);
        folder.put("image", image(&section(&[&parts.bytes()])));
        let value = hex(&parts.value);
        let lines = format!(
            "    claimed   PCR{index} {value}\n    PCR{index} is not computed here: only PCR0, PCR1 and PCR2 \
             are\n    not compared, not verified\n"
        );
        folder.eif("signature image").ends(1, &lines);
    }
}

#[test]
fn several_signatures() {
    let folder = Folder::new();
    let [value, ..] = registers();
    let good = claim(0, value).bytes();
    let tagged = [&[0xd2], &good[..]].concat();
    folder.put("image", image(&section(&[&good, &tagged, &[], &good])));
    let refused = eif::sign1::read(&tagged).unwrap_err();
    let advice = refused.reason().advice();
    let lines = claim_lines(0, &value, &value, "equal");
    let shown = |i| format!("  signature {i}: ES384, certificate of 3 bytes\n{lines}");
    let bad = |i| format!("  signature {i}: {refused}\n    what to do: {advice}\n");
    let text = [shown(0), bad(1), bad(2), shown(3)].concat();
    let text = format!("image: signature section 4, 4 signatures\n{text}");
    folder.eif("signature image").says(1, &text);
    folder.put("image", image(&section(&[&good, &good])));
    let text = format!(
        "image: signature section 4, 2 signatures\n{}{}",
        shown(0),
        shown(1)
    );
    folder.eif("signature image").says(0, &text);
}

#[test]
fn every_algorithm_and_byte_strings() {
    let folder = Folder::new();
    for (name, (algorithm, length)) in ["ES256", "ES384", "ES512"].iter().zip(SIGN1_ALGORITHMS) {
        let parts = Sign1Parts {
            value: registers()[0],
            ..sign1_example(algorithm, length)
        };
        let certificate = Item::Bytes(vec![0x30; 1000]);
        let entry = entry(certificate, Item::Bytes(parts.bytes()));
        folder.put("image", image(&encode(&Item::Array(vec![entry]))));
        let line = format!("\n  signature 0: {name}, certificate of 1000 bytes\n");
        folder.eif("signature image").has(0, &line);
    }
}

#[test]
fn without_a_signature() {
    let folder = Folder::new();
    folder.put("image", worked_image());
    let none = "image: no signature section\n";
    folder.eif("signature image").says(1, none);
    folder.put("image", image(&section(&[])));
    let none = "image: signature section 4, 0 signatures\n";
    folder.eif("signature image").says(1, none);
    folder.put("image", &worked_image()[..585]);
    let refusal = eif::read(&worked_image()[..585]).unwrap_err();
    let advice = refusal.reason().advice();
    let ended = folder.eif("signature image");
    ended.starts(1, &format!("image: {refusal}\n"));
    ended.ends(1, &format!("\n  what to do: {advice}\n"));
}

/// Sections, where in their data they are at fault, and what should be there.
fn faults() -> Vec<(Vec<u8>, usize, &'static str)> {
    let good = section(&[&claim(0, registers()[0]).bytes()]);
    let count = good.len();
    let with = |at: usize, byte: u8| {
        let mut section = good.clone();
        section[at] = byte;
        section
    };
    let array = "an array of signatures";
    let text = "the name signing_certificate";
    let content = "an array of numbers, or a byte string";
    let number = "a number below 256";
    let nested = vec![0x81; 32_768];
    let pairs = "a map of two pairs";
    vec![
        (vec![], 0, array),
        (vec![0x80, 0x80], 1, "the section's end"),
        (with(0, 0x9f), 0, array),
        (with(0, 0x9b), 9, pairs),
        (with(0, 0x82), count, pairs),
        (good[..count - 1].to_vec(), count - 2, number),
        ([&good[..], &[0]].concat(), count, "the section's end"),
        (nested, 1, pairs),
        (with(1, 0xa1), 1, pairs),
        (with(1, 0xa3), 1, pairs),
        (with(2, 0x72), 2, text),
        (with(3, b'S'), 2, text),
        (with(22, 0xf6), 22, content),
        (with(22, 0x84), 29, number),
        (with(23, 0xff), 23, number),
        (with(29, 0x49), 29, "the name signature"),
        (vec![b'{'; 40], 0, array),
    ]
}

#[test]
fn bad_structure_is_a_line() {
    let folder = Folder::new();
    let advice = eif::Reason::NotSign1.advice();
    for (section, at, wanted) in faults() {
        folder.put("image", image(&section));
        let position = DATA_AT + at;
        let line = format!(
            "image: signature section 4 is not of the published structure: at byte {position} there \
             should be {wanted}\n  what to do: {advice}\n"
        );
        folder.eif("signature image").says(1, &line);
        let ended = folder.eif("signature --json image");
        let object = parse(ended.text().trim_end());
        assert_eq!(ended.status, 1);
        assert_eq!(
            object.keys().join(" "),
            "file accepted section position expected"
        );
        assert_eq!(*object.get("position"), Value::Number(position as u64));
        assert_eq!(*object.get("expected"), Value::Text(wanted.into()));
    }
}

/// The specification's bound on a signature section.
#[test]
fn a_long_section_is_a_line() {
    let folder = Folder::new();
    let long = |length| {
        let certificate = Item::Bytes(vec![0; length]);
        let signature = Item::Bytes(claim(0, registers()[0]).bytes());
        encode(&Item::Array(vec![entry(certificate, signature)]))
    };
    let over = long(1000).len() - 1000;
    folder.put("image", image(&long(32_768 - over)));
    assert_eq!(folder.eif("signature image").status, 0);
    folder.put("image", image(&long(32_769 - over)));
    let ended = folder.eif("signature image");
    let line = format!(
        "at byte {} there should be the section's end, as the specification allows 32,768 bytes\n",
        DATA_AT + 32_768
    );
    ended.has(1, &line);
}

/// Whatever the section holds, the command answers: `common` sees that it does not panic.
#[test]
fn any_byte_changed() {
    let folder = Folder::new();
    let good = section(&[&claim(0, registers()[0]).bytes()]);
    for at in (0..good.len()).step_by(3) {
        let mut changed = good.clone();
        changed[at] ^= 1 << (at % 8);
        folder.put("image", image(&changed));
        let ended = folder.eif("signature image");
        assert_ne!(ended.status, 2);
        assert!(ended.text().starts_with("image: signature section 4"));
    }
}

#[test]
fn several_files_and_standard_input() {
    let folder = Folder::new();
    let good = image(&section(&[&claim(0, registers()[0]).bytes()]));
    folder.put("a", &good);
    folder.put("b", worked_image());
    let a = folder.eif("signature a");
    let both = format!("{}b: no signature section\n", a.text());
    folder.eif("signature a b").says(1, &both);
    let piped = a.text().replace("a: sig", "-: sig");
    folder.eif_with_input("signature -", &good).says(0, &piped);
    let ended = folder.eif("signature gone a");
    assert_eq!((ended.status, ended.text()), (2, a.text()));
}

#[test]
fn json_is_read_back() {
    let folder = Folder::new();
    let [value, other, _] = registers();
    let claims = [claim(0, value), claim(1, value), claim(8, value)].map(|parts| parts.bytes());
    let [equal, differs, unknown] = &claims;
    folder.put("image", image(&section(&[equal, differs, unknown, b"x"])));
    let ended = folder.eif("signature --json image");
    let object = parse(ended.text().trim_end());
    assert_eq!(ended.status, 1);
    assert_eq!(object.keys().join(" "), "file accepted section signatures");
    assert_eq!(*object.get("section"), Value::Number(4));
    let signatures = object.get("signatures").items();
    let start = "index certificate_length accepted";
    let claimed = "algorithm register_index register_value";
    for (signature, keys) in signatures.iter().zip([
        format!("{start} {claimed} computed comparison verified"),
        format!("{start} {claimed} computed comparison verified"),
        format!("{start} {claimed} comparison verified"),
        format!("{start} number meaning verified"),
    ]) {
        assert_eq!(signature.keys().join(" "), keys);
        assert_eq!(*signature.get("verified"), Value::Truth(false));
        assert_eq!(*signature.get("certificate_length"), Value::Number(3));
    }
    let comparisons = ["equal", "differs", "not compared"].map(|word| Value::Text(word.into()));
    for (signature, comparison) in signatures.iter().zip(&comparisons) {
        assert_eq!(signature.get("comparison"), comparison);
        assert_eq!(*signature.get("algorithm"), Value::Text("ES384".into()));
        assert_eq!(*signature.get("register_value"), Value::Text(hex(&value)));
    }
    assert_eq!(*signatures[1].get("computed"), Value::Text(hex(&other)));
    assert_eq!(*signatures[2].get("register_index"), Value::Number(8));
    assert_eq!(*signatures[3].get("number"), Value::Number(28));
    folder.put("image", worked_image());
    let none = "{\"file\": \"image\", \"accepted\": true, \"signatures\": []}\n";
    folder.eif("signature --json image").says(1, none);
    folder.put("image", &worked_image()[..585]);
    let object = parse(folder.eif("signature --json image").text().trim_end());
    assert_eq!(*object.get("accepted"), Value::Truth(false));
}

/// With real keys, the claim is that of a genuine signature; and the same is shown of one that is not.
#[test]
fn real_signatures() {
    let folder = Folder::new();
    if !has_openssl() {
        return;
    }
    for (algorithm, length) in SIGN1_ALGORITHMS {
        let mut parts = Sign1Parts {
            value: registers()[0],
            ..sign1_example(algorithm, length)
        };
        let certificate = certificate(&folder, algorithm);
        assert!(!is_genuine(&folder, &certificate, &parts));
        let entry = |parts: &Sign1Parts| entry(numbers(&certificate), numbers(&parts.bytes()));
        folder.put("image", image(&encode(&Item::Array(vec![entry(&parts)]))));
        let shown = folder.eif("signature image");
        sign(&folder, &mut parts);
        assert!(is_genuine(&folder, &certificate, &parts));
        folder.put("image", image(&encode(&Item::Array(vec![entry(&parts)]))));
        folder.eif("signature image").says(0, shown.text());
        let read = parts.bytes();
        let read = eif::sign1::read(&read).unwrap();
        assert_eq!(read.signature, parts.signature);
    }
}

/// The bytes of an array of numbers, and what stands after it.
fn numbers_of(item: &[u8]) -> (Vec<u8>, &[u8]) {
    let (count, mut rest) = match item {
        [0x98, count, rest @ ..] => (usize::from(*count), rest),
        [0x99, high, low, rest @ ..] => (usize::from(u16::from_be_bytes([*high, *low])), rest),
        _ => panic!("no array of more than 23 numbers"),
    };
    let mut bytes = Vec::new();
    while bytes.len() < count {
        let (byte, length) = match rest {
            [24, byte, ..] => (*byte, 2),
            [byte, ..] => (*byte, 1),
            [] => panic!("the array is cut"),
        };
        bytes.push(byte);
        rest = &rest[length..];
    }
    (bytes, rest)
}

/// The certificate and the parts of the one signature of a section.
fn only_signature(section: &[u8]) -> (Vec<u8>, Sign1Parts) {
    let start = b"\x81\xa2\x73signing_certificate";
    let rest = section.strip_prefix(start).expect("the first name");
    let (certificate, rest) = numbers_of(rest);
    let rest = rest
        .strip_prefix(b"\x69signature")
        .expect("the second name");
    let (sign1, rest) = numbers_of(rest);
    assert!(rest.is_empty());
    let read = eif::sign1::read(&sign1).unwrap();
    let parts = Sign1Parts {
        algorithm: read.claim.algorithm as u64,
        index: read.claim.register_index,
        value: read.claim.register_value.0,
        signature: read.signature.to_vec(),
    };
    (certificate, parts)
}

#[test]
fn the_sample_is_signed() {
    let folder = Folder::new();
    let sample = std::fs::read(repository("samples/signed.eif")).unwrap();
    folder.put("image", &sample);
    folder.put("a", std::fs::read(repository("samples/a.eif")).unwrap());
    let ended = folder.eif("signature image");
    ended.ends(0, "\n    equal, not verified\n");
    assert_eq!(folder.eif("compare image a").status, 0);
    let image = eif::read(&sample).unwrap();
    let (certificate, parts) = only_signature(image.section_data(5).unwrap());
    if has_openssl() {
        assert!(is_genuine(&folder, &certificate, &parts));
        let mut other = parts.clone();
        other.value[0] ^= 1;
        assert!(!is_genuine(&folder, &certificate, &other));
    }
}

/// How samples/signed.eif was made, with a key that was not kept: samples/a.eif and a signature section.
#[test]
#[ignore = "writes samples/signed.eif anew"]
fn write_the_sample() {
    let folder = Folder::new();
    let a = std::fs::read(repository("samples/a.eif")).unwrap();
    let a = eif::read(&a).unwrap();
    let mut parts = Sign1Parts {
        value: eif::registers(a.bytes()).unwrap().0[0].0,
        ..sign1_example(35, 96)
    };
    let certificate = certificate(&folder, 35);
    sign(&folder, &mut parts);
    let entry = entry(numbers(&certificate), numbers(&parts.bytes()));
    let mut sections: Vec<Section> = a
        .iter()
        .map(|(section, data)| Section::new(section.section_type.0, data))
        .collect();
    sections.push(Section::new(4, &encode(&Item::Array(vec![entry]))));
    let image = Layout::new(4, sections).image();
    std::fs::write(repository("samples/signed.eif"), image).unwrap();
}
