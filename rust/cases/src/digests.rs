//! Messages with their SHA-384 digests, and images with their registers, in hexadecimal.

use crate::images::{two_sections, worked_image};
use crate::streams::stream_cases;

/// A message and its digest.
pub struct DigestCase {
    /// What the message is.
    pub name: &'static str,
    /// Its bytes.
    pub message: Vec<u8>,
    /// Its SHA-384 digest.
    pub digest: &'static str,
}

/// The examples that are published with FIPS 180-4.
pub fn digest_cases() -> Vec<DigestCase> {
    let case = |name, message: &[u8], digest| DigestCase {
        name,
        message: message.to_vec(),
        digest,
    };
    vec![
        case(
            "abc",
            b"abc",
            "cb00753f45a35e8bb5a03d699ac65007272c32ab0eded1631a8b605a43ff5bed\
             8086072ba1e7cc2358baeca134c825a7",
        ),
        case(
            "896 bits",
            b"abcdefghbcdefghicdefghijdefghijkefghijklfghijklmghijklmn\
              hijklmnoijklmnopjklmnopqklmnopqrlmnopqrsmnopqrstnopqrstu",
            "09330c33f71147e83d192fc782cd1b4753111b173b3b05d22fa08086e3b0f712\
             fcc7c71a557e2db966c3e9fa91746039",
        ),
        case(
            "nothing",
            b"",
            "38b060a751ac96384cd9327eb1b1e36a21fdb71114be07434c0cc7bf63f6e1da\
             274edebfe76f65fbd51ad2f14898b95b",
        ),
        case(
            "a million a",
            &vec![b'a'; 1_000_000],
            "9d0e1809716474cb086e834e310a4a1ced149e9c00f248527972cec5704c2a5b\
             07b8b3dc38ecc4ebae97ddd87f3d8985",
        ),
    ]
}

/// Streams with their registers, computed with `sha384sum` (tests/registers.sh).
const REGISTERS: [(&[u8], &str); 14] = [
    (
        b"",
        "21b9efbc184807662e966d34f390821309eeac6802309798826296bf3e8bec7c\
         10edb30948c90ba67310f7b964fc500a",
    ),
    (
        b"K",
        "d8d9913685324bd563d22eae369c1918a0becd0057e13c152cf8950dd1dba5f8\
         ea9cb634e355577ccff88049bc71a037",
    ),
    (
        b"Ka",
        "9e7c220976a9e4a0921ca87e8af62ba313cad959bd7c366c2176b6a8008d8cea\
         1fe0320c58cadbfc603b930b14397b68",
    ),
    (
        b"cc",
        "7a19fd7b656e497447f73169a7fba8e1aefee57e67ddd8ece1b37c89750c3353\
         b3750eef1c551465e734fc34fe53c8ed",
    ),
    (
        b"dd",
        "dbbf4379654ecb9ea5657c914e4612e9b94ca59063a2d22f72637d29e1bdb7a8\
         1d653e211815b078b63ee0088f106929",
    ),
    (
        b"aabb",
        "635f233ce5d67314f5bda397f25e3f733ba5ac77de01714e0ab4485afbe45ba3\
         057c7ac65e127e0efdfe49d6703be903",
    ),
    (
        b"ddff",
        "0c1d541680e27ab31ac9c98eeb7d3408d8081d13edafb9c3e71e5fc0eb3b3e83\
         a357cac785e35f0dcdcaaef798c8bf25",
    ),
    (
        b"eeff",
        "436e1d506ad71f8833d867f0ba6270b318db95d1f28b28b299686d44ce8da392\
         a9310e248fda16acc3e179df7e0909ea",
    ),
    (
        b"aabbcc",
        "7a1a0c812a1f921042f4fdf9486a9ba3005dd6ea632de14c871a5ff5e3258023\
         85c899baf26c5f7361cd12eb864e0abc",
    ),
    (
        b"aabbdd",
        "c32fb14256592cd7efcdec9cfc251a7feb67ad11a66598f3da4a0c7674d772ea\
         0dbf53c2bf6f477f7c3dc6371e0c6296",
    ),
    (
        b"aabbee",
        "49bb3cea90a415bd66059d9702ba4c48e4c40b381991788ff0bcfce4d31bac1e\
         69136638bcf0d42658597ae7b455eb1e",
    ),
    (
        b"aabbccdd",
        "12b63c0a9982204eb16d6bc1bb10ea5ccb357610e8d5dc49561d1d8f294e70c3\
         ed26e0914e5d5adb229dc88d3a81c25c",
    ),
    (
        b"aabbcceeff",
        "4b895a8a50ec75e3597fe7a387ff291d216795b168b1c4c25668aa9edf318fb0\
         b890260e097a5b47685f6191eee421e7",
    ),
    (
        b"aabbddeeff",
        "1be3aa94782d6df347b2f1bae9cbf317ab533b5ac8624ea5fd9a33024297a80d\
         4beac70f36d9eefd97c254995de18c67",
    ),
];

fn register(stream: &[u8]) -> &'static str {
    let mut known = REGISTERS.into_iter();
    let found = known.find(|(bytes, _)| *bytes == stream);
    found.expect("a stream of the table").1
}

/// Images with their registers 0, 1 and 2.
pub fn register_cases() -> Vec<(Vec<u8>, [&'static str; 3])> {
    let mut cases: Vec<(Vec<u8>, [&[u8]; 3])> = vec![
        (worked_image(), [b"Ka", b"Ka", b""]),
        (two_sections(), [b"K", b"K", b""]),
    ];
    cases.extend(stream_cases().into_iter().map(|c| (c.image, c.streams)));
    let registers = |(image, streams): (_, [_; 3])| (image, streams.map(register));
    cases.into_iter().map(registers).collect()
}

/// Bytes in hexadecimal.
pub fn hex(bytes: &[u8]) -> String {
    bytes.iter().map(|byte| format!("{byte:02x}")).collect()
}
