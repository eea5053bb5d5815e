//! `eif registers`, and the registers in `eif show --json`.

mod common;

use common::json::{parse, Value};
use common::{repository, Folder};
use eif_cases::{register_cases, worked_image, Layout, Section};
use std::process::Command;

/// What tests/registers.sh, which uses `sha384sum`, prints of an image.
fn by_script(folder: &Folder, name: &str) -> String {
    let mut script = Command::new("sh");
    script.arg(repository("tests/registers.sh")).arg(name);
    let output = script.current_dir(folder.path("")).output().unwrap();
    assert!(output.status.success(), "{output:?}");
    String::from_utf8(output.stdout).unwrap()
}

#[test]
fn three_lines() {
    let folder = Folder::new();
    for (image, registers) in register_cases() {
        folder.put("image", &image);
        let named = registers.iter().enumerate();
        let lines: String = named.map(|(i, hex)| format!("PCR{i} {hex}\n")).collect();
        folder.eif("registers image").says(0, &lines);
        let by_pipe = folder.eif_with_input("registers -", &image);
        by_pipe.says(0, &lines);
    }
}

#[test]
fn a_packed_image_by_sha384sum() {
    let folder = Folder::new();
    folder.pack("image", &["old", "new"], "--metadata metadata");
    let lines = by_script(&folder, "image");
    assert_eq!(lines.lines().count(), 3);
    folder.eif("registers image").says(0, &lines);
}

/// Two ramdisks packed in the wrong order.
#[test]
fn the_accident_is_seen() {
    let folder = Folder::new();
    folder.pack("a", &["old", "new"], "");
    folder.pack("b", &["new", "old"], "");
    let [a, b] = ["registers a", "registers b"].map(|words| folder.eif(words));
    for (one, other) in a.text().lines().zip(b.text().lines()) {
        assert_ne!(one, other);
    }
    folder.pack("c", &["old", "new"], "--metadata metadata");
    folder.eif("registers c").says(0, a.text());
}

/// A stream does not say where a section ends; the roll does.
#[test]
fn a_byte_moved_between_sections_is_not_measured() {
    let folder = Folder::new();
    for (name, kernel, command_line) in [("a", "kernel", "quiet"), ("b", "kerne", "lquiet")] {
        let sections = [(1, kernel), (2, command_line), (3, "files")];
        let sections = sections.map(|(kind, data)| Section::new(kind, data.as_bytes()));
        folder.put(name, Layout::new(2, sections.to_vec()).image());
    }
    let a = folder.eif("registers a");
    folder.eif("registers b").says(0, a.text());
    assert_eq!(folder.eif("compare a b").status, 1);
}

#[test]
fn several_files_are_named() {
    let folder = Folder::new();
    folder.put("a", worked_image());
    folder.put("b", register_cases()[1].0.clone());
    folder.put("cut", &worked_image()[..585]);
    let named = |name: &str| -> String {
        let lines = by_script(&folder, name);
        lines.lines().map(|l| format!("{name}: {l}\n")).collect()
    };
    let both = named("a") + &named("b");
    folder.eif("registers a b").says(0, &both);
    let refused =
        "cut: refused 7 at 2 byte 44: offset + 12 + size is more than the file length\n  \
                   byte 44: the table's offset entry of section 2\n  \
                   what to do: compare the sizes of both files and fetch it again\n";
    let all = named("a") + refused + &named("b");
    folder.eif("registers a cut b").says(1, &all);
    folder.eif("registers cut").says(1, refused);
    let ended = folder.eif("registers a gone");
    assert_eq!((ended.status, ended.text()), (2, &named("a")[..]));
}

#[test]
fn a_roll_is_no_image() {
    let folder = Folder::new();
    folder.pack("image", &["old"], "");
    folder.eif("roll image --output roll").says(0, "");
    let ended = folder.eif("registers roll");
    ended.starts(1, "roll: refused 2 at 0 byte 0: ");
}

/// The keys and values that `nitro-cli describe-eif` prints.
fn check_measurements(object: &Value, lines: &str) {
    let measurements = object.get("Measurements");
    let keys = "HashAlgorithm PCR0 PCR1 PCR2";
    assert_eq!(measurements.keys().join(" "), keys);
    let algorithm = Value::Text("Sha384 { ... }".into());
    assert_eq!(*measurements.get("HashAlgorithm"), algorithm);
    for line in lines.lines() {
        let (name, hex) = line.split_once(' ').unwrap();
        assert_eq!(*measurements.get(name), Value::Text(hex.into()));
    }
}

#[test]
fn json_is_read_back() {
    let folder = Folder::new();
    folder.pack("image", &["old", "new"], "");
    folder.put("cut", &worked_image()[..585]);
    let ended = folder.eif("registers --json image cut");
    let objects: Vec<Value> = ended.text().lines().map(parse).collect();
    let [image, refused] = &objects[..] else {
        panic!("{objects:?}");
    };
    assert_eq!(ended.status, 1);
    assert_eq!(image.keys().join(" "), "file accepted Measurements");
    check_measurements(image, &by_script(&folder, "image"));
    let keys = "file accepted number index position meaning";
    assert_eq!(refused.keys().join(" "), keys);
    assert_eq!(*refused.get("number"), Value::Number(7));
    assert_eq!(*refused.get("index"), Value::Number(2));
    assert_eq!(*refused.get("position"), Value::Number(44));
}

#[test]
fn show_has_the_same() {
    let folder = Folder::new();
    folder.pack("image", &["old", "new"], "");
    let ended = folder.eif("show --json image");
    let object = parse(ended.text().trim_end());
    check_measurements(&object, &by_script(&folder, "image"));
}
