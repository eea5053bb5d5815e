//! `eif compare`.

mod common;

use common::{repository, Folder};
use eif_cases::{
    offset_entry, put_checksum, size_entry, Layout, Section, CHECKSUM_AT, MAX_SECTIONS, RESERVED_AT,
};

/// Puts two images there and compares them.
fn compared(a: &Layout, b: &Layout) -> (i32, String) {
    let folder = Folder::new();
    folder.put("a", a.image());
    folder.put("b", b.image());
    let ended = folder.eif("compare a b");
    assert_eq!(ended.error, "");
    (ended.status, ended.text().to_string())
}

/// The lines after the verdict and the names of A and B.
fn differences(a: &Layout, b: &Layout) -> Vec<String> {
    let (status, text) = compared(a, b);
    let start = "different boot content\nA is a\nB is b\n";
    let rest = text.strip_prefix(start).expect("a verdict and the names");
    assert_eq!(status, 1);
    rest.lines().map(str::to_string).collect()
}

fn layout(version: u16, sections: &[(u16, &[u8])]) -> Layout {
    let sections = sections
        .iter()
        .map(|(kind, data)| Section::new(*kind, data));
    Layout::new(version, sections.collect())
}

const KERNEL: (u16, &[u8]) = (1, b"kernel");
const COMMAND_LINE: (u16, &[u8]) = (2, b"quiet");

fn of_ramdisks(ramdisks: &[&'static [u8]]) -> Layout {
    let ramdisks = ramdisks.iter().map(|data| (3, *data));
    let sections: Vec<_> = [KERNEL, COMMAND_LINE].into_iter().chain(ramdisks).collect();
    layout(2, &sections)
}

/// The morning on which the older files won: two ramdisks packed in the wrong order.
#[test]
fn the_accident_is_seen() {
    let folder = Folder::new();
    folder.pack("right.eif", &["old", "new"], "--metadata metadata");
    folder.pack("wrong.eif", &["new", "old"], "--metadata metadata --force");
    folder.eif("compare right.eif wrong.eif").says(
        1,
        "different boot content\n\
         A is right.eif\n\
         B is wrong.eif\n\
         first difference, record 3: A has section 3 (ramdisk, 9 bytes); \
         B has section 3 (ramdisk, 23 bytes): another length, and the data differ at byte 0\n\
         the same ramdisks in another order: A has 3, 4; B has 4, 3 (each by its number in A)\n",
    );
    folder
        .eif("compare right.eif right.eif")
        .says(0, "same boot content\n");
}

#[test]
fn the_samples_are_the_accident() {
    let names = ["samples/a.eif", "samples/b.eif"].map(repository);
    let folder = Folder::new();
    let ended = folder.run([
        "compare".as_ref(),
        names[0].as_os_str(),
        names[1].as_os_str(),
    ]);
    let line = "the same ramdisks in another order: A has 3, 4; B has 4, 3";
    ended.has(1, line);
}

#[test]
fn a_byte_of_a_ramdisk() {
    let lines = differences(
        &of_ramdisks(&[b"one", b"two"]),
        &of_ramdisks(&[b"one", b"twe"]),
    );
    let line = "first difference, record 4: A has section 3 (ramdisk, 3 bytes); \
                B has section 3 (ramdisk, 3 bytes): the data differ at byte 2";
    assert_eq!(lines, [line]);
}

#[test]
fn a_longer_command_line() {
    let longer = layout(2, &[KERNEL, (2, b"quiet!"), (3, b"r")]);
    let lines = differences(&of_ramdisks(&[b"r"]), &longer);
    let line = "first difference, record 2: A has section 1 (command line, 5 bytes); \
                B has section 1 (command line, 6 bytes): another length, and the first 5 bytes are the same";
    assert_eq!(lines, [line]);
}

/// The kernel's last byte moved to the command line's start: joined, the data are the same.
#[test]
fn a_byte_moved_between_sections() {
    let a = layout(2, &[(1, b"kernel"), (2, b"quiet")]);
    let b = layout(2, &[(1, b"kerne"), (2, b"lquiet")]);
    let lines = differences(&a, &b);
    let line = "first difference, record 1: A has section 0 (kernel, 6 bytes); \
                B has section 0 (kernel, 5 bytes): another length, and the first 5 bytes are the same";
    assert_eq!(lines, [line]);
}

#[test]
fn a_ramdisk_missing() {
    let lines = differences(&of_ramdisks(&[b"one", b"two"]), &of_ramdisks(&[b"one"]));
    let line = "first difference, record 4: A has section 3 (ramdisk, 3 bytes); \
                B has no more: a record more";
    assert_eq!(lines, [line]);
}

#[test]
fn another_kind_in_the_same_place() {
    let a = layout(2, &[KERNEL, COMMAND_LINE, (3, b"r")]);
    let b = layout(2, &[KERNEL, (3, b"r"), COMMAND_LINE]);
    let first = "first difference, record 2: A has section 1 (command line, 5 bytes); \
                 B has section 1 (ramdisk, 1 byte): another kind";
    let order =
        "the same records in another order: A has 0, 1, 2; B has 0, 2, 1 (each by its number in A)";
    assert_eq!(differences(&a, &b), [first, order]);
}

/// Equal ramdisks among the exchanged ones, and a kernel that differs too.
#[test]
fn an_exchange_is_seen_among_other_differences() {
    let a = layout(2, &[KERNEL, COMMAND_LINE, (3, b"x"), (3, b"y"), (3, b"x")]);
    let b = layout(
        2,
        &[
            (1, b"kernal"),
            COMMAND_LINE,
            (3, b"x"),
            (3, b"x"),
            (3, b"y"),
        ],
    );
    let lines = differences(&a, &b);
    assert!(lines[0].ends_with("the data differ at byte 4"), "{lines:?}");
    let order =
        "the same ramdisks in another order: A has 2, 3, 4; B has 2, 4, 3 (each by its number in A)";
    assert_eq!(lines[1..], [order]);
}

#[test]
fn what_differs_elsewhere_is_listed_apart() {
    let mut a = layout(4, &[KERNEL, COMMAND_LINE, (5, b"{}"), (3, b"r")]);
    let mut b = layout(
        4,
        &[KERNEL, (5, b"{ }"), COMMAND_LINE, (4, b"sig"), (3, b"r")],
    );
    a.default_mem = 7;
    b.default_cpus = 2;
    b.sections[4].flags = 9;
    let (status, text) = compared(&a, &b);
    let expected = "\
same boot content
A is a
B is b
not part of the roll:
  default_mem: A has 7, B has 0
  default_cpus: A has 0, B has 2
  section flags, ramdisk: A has 0x0000 at 3, B has 0x0009 at 4
  signature: A has none, B has one of 3 bytes
  metadata: another length, and the data differ at byte 1
";
    assert_eq!((status, &text[..]), (0, expected));
}

/// An image, and the same with these flags.
fn with_flags(flags: u16) -> [Layout; 2] {
    let a = of_ramdisks(&[b"r"]);
    let b = Layout { flags, ..a.clone() };
    [a, b]
}

/// The same kernel, command line and ramdisks for the other processor are not the same boot content.
#[test]
fn another_architecture_is_named() {
    let [a, mut b] = with_flags(1);
    let first = "first difference, record 0: A has flags 0x0000 (x86_64); \
                 B has flags 0x0001 (aarch64): another architecture";
    assert_eq!(differences(&a, &b), [first]);
    // Another kernel too.
    b.sections[0].data.push(7);
    let next = "next difference, record 1: A has section 0 (kernel, 6 bytes); \
                B has section 0 (kernel, 7 bytes): another length, and the first 6 bytes are the same";
    assert_eq!(differences(&a, &b), [first, next]);
}

/// All sixteen flags are compared, not the processor alone.
#[test]
fn other_flags_are_named() {
    let [a, b] = with_flags(0x8000);
    let first = "first difference, record 0: A has flags 0x0000 (x86_64); \
                 B has flags 0x8000 (x86_64): other flags";
    assert_eq!(differences(&a, &b), [first]);
}

/// A saved roll tells the processor too.
#[test]
fn a_saved_roll_of_another_architecture() {
    let folder = Folder::new();
    folder.pack("a", &["old"], "");
    folder.pack("b", &["old"], "--arch aarch64 --force");
    folder.eif("roll a --output a.roll").says(0, "");
    let ended = folder.eif("compare a.roll b");
    let line = "first difference, record 0: A has flags 0x0000 (x86_64); \
                B has flags 0x0001 (aarch64): another architecture\n";
    ended.has(1, line);
    assert!(!ended.text().contains("next difference"));
}

/// What no row tells by itself: the order of other sections, a reserved field, an unused table entry.
#[test]
fn any_other_difference_is_told() {
    let a = layout(4, &[KERNEL, COMMAND_LINE, (5, b"{}")]);
    let b = layout(4, &[KERNEL, (5, b"{}"), COMMAND_LINE]);
    let mut images = vec![b.image()];
    let unused = [offset_entry(3), size_entry(MAX_SECTIONS - 1)];
    for at in [RESERVED_AT, CHECKSUM_AT - 1].into_iter().chain(unused) {
        let mut image = a.image();
        image[at] = 1;
        put_checksum(&mut image);
        images.push(image);
    }
    let folder = Folder::new();
    folder.put("a", a.image());
    for image in images {
        folder.put("b", image);
        let expected = "\
same boot content
A is a
B is b
not part of the roll:
  reserved fields, unused table entries, or where metadata or signature stands in the file
";
        folder.eif("compare a b").says(0, expected);
    }
}

/// An image with room between sections, or after the last, is not compared but refused.
#[test]
fn a_padded_image_is_refused() {
    let folder = Folder::new();
    let mut padded = of_ramdisks(&[b"r"]);
    folder.put("a", padded.image());
    padded.sections[2].gap = 1 << 20;
    folder.put("b", padded.image());
    let refused =
        "b: refused 20 at 2 byte 44: section not packed, or bytes after the last section\n";
    for words in ["compare a b", "compare b a"] {
        folder.eif(words).starts(1, refused);
    }
}

#[test]
fn a_saved_roll_stands_for_its_image() {
    let folder = Folder::new();
    folder.pack("a", &["old", "new"], "--metadata metadata");
    folder.pack("b", &["new", "old"], "--metadata metadata --force");
    folder.eif("roll a --output a.roll").says(0, "");
    let rest = "other header fields, section flags, metadata and signature are not compared\n";
    let same = format!("same boot content\nA is a\nB is a.roll\nB is a roll: {rest}");
    folder.eif("compare a a.roll").says(0, &same);
    let ended = folder.eif("compare a.roll b");
    let line = "A has record 3 (ramdisk, 9 bytes); B has section 3 (ramdisk, 23 bytes)";
    ended.has(1, line);
    let line = "the same ramdisks in another order: A has 3, 4; B has 4, 3";
    ended.has(1, line);
    let rolls = folder.eif("compare a.roll a.roll");
    let same = format!("same boot content\nA is a.roll\nB is a.roll\nA and B are rolls: {rest}");
    rolls.says(0, &same);
    let roll = folder.get("a.roll");
    let by_pipe = folder.eif_with_input("compare a -", &roll);
    assert_eq!(by_pipe.status, 0);
}

#[test]
fn a_refused_file_is_no_match() {
    let folder = Folder::new();
    folder.pack("a", &["old"], "");
    folder.eif("roll a --output roll").says(0, "");
    let roll = folder.get("roll");
    folder.put("cut", &roll[..roll.len() - 1]);
    for words in ["compare a cut", "compare cut a", "compare cut cut"] {
        let ended = folder.eif(words);
        ended.starts(1, "cut: refused 2 at 0 byte 0: ");
        ended.has(1, "as a boot roll: refused 16 at 4 byte 66: ");
    }
}
