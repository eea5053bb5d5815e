//! `eif show` and `eif check`.

mod common;

use common::json::{parse, Value};
use common::{Ended, Folder};
use eif::{Reason, MAX_IMAGE_LENGTH};
use eif_cases::{
    image_cases, image_of_length, located_images, located_rolls, offset_entry, put_checksum,
    put_number, roll_cases, worked_image, zero_image_start, Answer, Layout, Section, ACCEPTED,
    CHECKSUM_AT, COUNT_AT, ENTRY, FLAGS_RECORD, OFFSETS_AT, SIZES_AT, VERSION_AT,
};
use std::process::Command;

const SHOWN: &str = "\
packed.eif: image
  version       4
  flags         0x0001 (aarch64)
  default_mem   0
  default_cpus  0
  index  type              offset        size
      0  kernel               548          10
      1  command line         570           5
      2  metadata             587           2
      3  ramdisk              601           9
      4  ramdisk              622          23
";

const ROLL_SHOWN: &str = "\
roll: boot roll
  flags         0x0001 (aarch64)
  index  type            position        size
      1  kernel                22          10
      2  command line          42           5
      3  ramdisk               57           9
      4  ramdisk               76          23
";

fn packed() -> Folder {
    let folder = Folder::new();
    folder.pack(
        "packed.eif",
        &["old", "new"],
        "--metadata metadata --arch aarch64",
    );
    folder
}

/// A file with its checksum spoiled.
fn damaged(folder: &Folder) {
    let mut image = folder.get("packed.eif");
    image[600] ^= 1;
    folder.put("damaged.eif", image);
}

#[test]
fn an_image_is_shown() {
    let folder = packed();
    folder.eif("show packed.eif").says(0, SHOWN);
    let input = folder.get("packed.eif");
    let by_pipe = folder.eif_with_input("show -", &input);
    by_pipe.says(0, &SHOWN.replace("packed.eif", "-"));
}

#[test]
fn a_roll_is_shown() {
    let folder = packed();
    folder.eif("roll packed.eif --output roll").says(0, "");
    folder.eif("show roll").says(0, ROLL_SHOWN);
}

#[test]
fn a_refusal_says_what_to_do() {
    let folder = packed();
    damaged(&folder);
    let refused = "damaged.eif: refused 13 at 0 byte 544: checksum differs\n  \
                   byte 544: the checksum\n  \
                   what to do: fetch it again\n";
    folder.eif("show damaged.eif").says(1, refused);
    let both = folder.eif("show damaged.eif packed.eif");
    both.says(1, &format!("{refused}{SHOWN}"));
}

/// An image of five sections with a megabyte more at a position; the sections behind it start later, and the
/// checksum is right.
fn padded(image: &[u8], at: usize) -> Vec<u8> {
    let mut padded = image.to_vec();
    padded.splice(at..at, vec![0; 1 << 20]);
    for entry in (0..5).map(offset_entry) {
        let offset = image[entry..][..ENTRY].try_into().unwrap();
        let offset = u64::from_be_bytes(offset);
        if offset >= at as u64 {
            put_number(&mut padded, entry, offset + (1 << 20));
        }
    }
    put_checksum(&mut padded);
    padded
}

/// What the auditor found: room between two sections, or after the last.
#[test]
fn a_padded_image_is_refused() {
    let folder = packed();
    let image = folder.get("packed.eif");
    let end = image.len();
    let entry = offset_entry(3);
    for (at, index, byte, place) in [
        (601, 3, entry, "the table's offset entry of section 3"),
        (end, 0, end, "the first byte after the last section"),
    ] {
        folder.put("padded.eif", padded(&image, at));
        let meaning = "section not packed, or bytes after the last section";
        let line = format!("padded.eif: refused 20 at {index} byte {byte}: {meaning}\n");
        folder.eif("check padded.eif").says(1, &line);
        let advice = "do not use it; fetch it again, and if the answer stays, tell the builder";
        let shown = format!("{line}  byte {byte}: {place}\n  what to do: {advice}\n");
        folder.eif("show padded.eif").says(1, &shown);
        for words in [
            "roll padded.eif",
            "stream padded.eif whole",
            "extract padded.eif 0",
        ] {
            folder.eif(words).complains(1, &shown);
        }
    }
}

#[test]
fn a_file_that_may_be_a_cut_roll_is_told_so() {
    let folder = packed();
    folder.eif("roll packed.eif --output roll").says(0, "");
    let roll = folder.get("roll");
    folder.put("cut", &roll[..roll.len() - 1]);
    let ended = folder.eif("show cut");
    let lines: Vec<&str> = ended.text().lines().collect();
    assert_eq!(ended.status, 1);
    let expected = "\
cut: refused 2 at 0 byte 0: image shorter than 548 bytes
  byte 0: the start of the file
  what to do: fetch it again
  as a boot roll: refused 16 at 5 byte 99: roll ends inside a record, or before its end record
    byte 99: the start of record 5
    what to do: fetch the roll again";
    assert_eq!(lines, expected.lines().collect::<Vec<_>>());
}

/// What stands where a roll is refused.
#[test]
fn every_number_of_the_roll_reader_is_told() {
    let folder = Folder::new();
    for case in roll_cases().into_iter().chain(located_rolls()) {
        folder.put("roll", &case.roll);
        let Err((number, index, position)) = case.answer else {
            assert_eq!(folder.eif("show roll").status, 0);
            continue;
        };
        let reason = Reason::from_number(number).expect("a reason");
        let (meaning, advice) = (reason.meaning(), reason.advice());
        let place = match number {
            12 => "the start of the roll".to_string(),
            5 => "the start of record 33".to_string(),
            18 => "the first byte after the end record".to_string(),
            16 if case.roll.is_empty() => {
                "the end of the roll, where the flags record should start".to_string()
            }
            16 if position == case.roll.len() as u64 => {
                format!("the end of the roll, where record {index} should start")
            }
            _ if index == 0 => "the start of the flags record".to_string(),
            _ => format!("the start of record {index}"),
        };
        let lines = format!(
            "  as a boot roll: refused {number} at {index} byte {position}: {meaning}\n    \
             byte {position}: {place}\n    \
             what to do: {advice}\n"
        );
        folder.eif("show roll").ends(1, &lines);
    }
}

/// The object that `eif show --json` prints for a file.
fn object(folder: &Folder, name: &str, status: i32) -> Value {
    let ended = folder.run(["show", "--json", name]);
    assert_eq!(ended.status, status);
    parse(ended.text().trim_end())
}

#[test]
fn json_of_an_image_is_read_back() {
    let image = object(&packed(), "packed.eif", 0);
    let keys =
        "file accepted version flags architecture default_mem default_cpus sections Measurements";
    assert_eq!(image.keys().join(" "), keys);
    assert_eq!(*image.get("file"), Value::Text("packed.eif".into()));
    assert_eq!(*image.get("accepted"), Value::Truth(true));
    assert_eq!(*image.get("version"), Value::Number(4));
    assert_eq!(*image.get("flags"), Value::Number(1));
    assert_eq!(*image.get("architecture"), Value::Text("aarch64".into()));
    let last = &image.get("sections").items()[4];
    let keys = "index type name flags offset position length";
    assert_eq!(last.keys().join(" "), keys);
    let numbers = ["index", "type", "flags", "offset", "position", "length"];
    let numbers = numbers.map(|key| last.get(key).clone());
    assert_eq!(numbers, [4, 3, 0, 622, 634, 23].map(Value::Number));
    assert_eq!(*last.get("name"), Value::Text("ramdisk".into()));
}

#[test]
fn json_of_a_refusal_is_read_back() {
    let folder = packed();
    damaged(&folder);
    let refused = object(&folder, "damaged.eif", 1);
    let keys = "file accepted number index position meaning";
    assert_eq!(refused.keys().join(" "), keys);
    assert_eq!(*refused.get("accepted"), Value::Truth(false));
    assert_eq!(*refused.get("number"), Value::Number(13));
    assert_eq!(*refused.get("index"), Value::Number(0));
    assert_eq!(*refused.get("position"), Value::Number(CHECKSUM_AT as u64));
    let meaning = Value::Text("checksum differs".into());
    assert_eq!(*refused.get("meaning"), meaning);
}

#[test]
fn json_of_a_roll_is_read_back() {
    let folder = packed();
    folder.eif("roll packed.eif --output roll").says(0, "");
    let roll = object(&folder, "roll", 0);
    let keys = "file accepted flags architecture records";
    assert_eq!(roll.keys().join(" "), keys);
    assert_eq!(*roll.get("flags"), Value::Number(1));
    assert_eq!(*roll.get("architecture"), Value::Text("aarch64".into()));
    let first = &roll.get("records").items()[0];
    assert_eq!(first.keys().join(" "), "index type name position length");
    assert_eq!(*first.get("index"), Value::Number(1));
    assert_eq!(*first.get("position"), Value::Number(22));
}

/// A roll that was written before rolls had flags: what follows the flags record of one that has them.
#[test]
fn a_roll_of_the_old_form_is_told_so() {
    let folder = packed();
    folder.eif("roll packed.eif --output roll").says(0, "");
    folder.put("old.roll", &folder.get("roll")[FLAGS_RECORD..]);
    let reason = Reason::RecordTypeWrong;
    let lines = format!(
        "  as a boot roll: refused 17 at 0 byte 0: {reason}\n    \
         byte 0: the start of the flags record\n    \
         what to do: fetch the roll again; one that an older eif has written must be written again \
         from its image\n"
    );
    for words in ["show old.roll", "compare old.roll packed.eif"] {
        folder.eif(words).ends(1, &lines);
    }
}

#[test]
fn json_has_one_line_a_file() {
    let folder = packed();
    damaged(&folder);
    let ended = folder.eif("show --json packed.eif damaged.eif packed.eif");
    assert_eq!((ended.status, ended.text().lines().count()), (1, 3));
}

#[test]
fn json_carries_the_largest_numbers_and_any_name() {
    let folder = Folder::new();
    let layout = Layout {
        version: 2,
        flags: u16::MAX,
        default_mem: u64::MAX,
        default_cpus: u64::MAX,
        sections: vec![Section::new(1, b"k"), Section::new(2, b"")],
    };
    let name = "a \"name\"\\ with\n\u{1b}[31m \u{e9}";
    folder.put(name, layout.image());
    let ended = folder.run(["show", "--json", name]);
    assert_eq!(ended.status, 0);
    let object = parse(ended.text().trim_end());
    assert_eq!(*object.get("file"), Value::Text(name.into()));
    assert_eq!(*object.get("default_mem"), Value::Number(u64::MAX));
    // A name cannot begin a line of its own or steer the terminal.
    let ended = folder.run(["check", name]);
    ended.says(0, "a \"name\"\\ with??[31m \u{e9}: accepted\n");
}

#[test]
fn every_number_of_the_reader_is_told() {
    let folder = Folder::new();
    for case in image_cases().into_iter().chain(located_images()) {
        folder.put("case.eif", &case.image);
        let ended = folder.eif("check case.eif");
        if case.answer == ACCEPTED {
            ended.says(0, "case.eif: accepted\n");
            continue;
        }
        let (number, index, position) = case.answer;
        let reason = Reason::from_number(number).expect("a reason");
        let (meaning, advice) = (reason.meaning(), reason.advice());
        let line = format!("case.eif: refused {number} at {index} byte {position}: {meaning}\n");
        ended.says(1, &line);
        let place = place(case.answer);
        let lines = format!("{line}  byte {position}: {place}\n  what to do: {advice}\n");
        folder.eif("show case.eif").starts(1, &lines);
    }
}

/// What stands at the position of an image's refusal.
fn place((number, index, position): Answer) -> String {
    match (number, position as usize) {
        (3, 0) => "the magic".to_string(),
        (_, 0) => "the start of the file".to_string(),
        (_, VERSION_AT) => "the version".to_string(),
        (_, COUNT_AT) => "the number of sections".to_string(),
        (_, at) if (OFFSETS_AT..SIZES_AT).contains(&at) => {
            format!("the table's offset entry of section {index}")
        }
        (_, CHECKSUM_AT) => "the checksum".to_string(),
        (20, _) => "the first byte after the last section".to_string(),
        _ => format!("section {index}'s own header"),
    }
}

#[test]
fn the_longest_image_and_one_byte_more() {
    let folder = Folder::new();
    for (name, length) in [
        ("longest", MAX_IMAGE_LENGTH),
        ("longer", MAX_IMAGE_LENGTH + 1),
    ] {
        folder.put_sparse(name, zero_image_start(length), length);
    }
    let lines = format!("longest: accepted\nlonger: {}\n", too_long());
    folder.eif("check longest longer").says(1, &lines);
}

fn too_long() -> String {
    format!("refused 1 at 0 byte 0: {}", Reason::ImageTooLong)
}

/// With less memory than the image has bytes.
#[test]
fn an_image_takes_no_memory_of_its_size() {
    let folder = Folder::new();
    let size = 12 << 20;
    folder.put("large", image_of_length(size));
    for (words, shown) in [
        ("check large", "large: accepted\n"),
        ("show large", "large: image\n"),
        ("check - <large", "-: accepted\n"),
        ("show - <large", "-: image\n"),
    ] {
        let script = format!("ulimit -v {}; exec \"$0\" {words}", size / 1024);
        let mut command = Command::new("sh");
        command.args(["-c", &script, env!("CARGO_BIN_EXE_eif")]);
        let output = command.current_dir(folder.path("")).output();
        let ended: Ended = output.unwrap().into();
        assert_eq!((ended.status, &ended.error[..]), (0, ""), "{words}");
        assert!(ended.text().starts_with(shown), "{words}");
    }
}

#[test]
fn input_without_end_ends() {
    let refused = format!("/dev/zero: {}\n", too_long());
    Folder::new().eif("check /dev/zero").says(1, &refused);
}

#[test]
fn check_explains_when_told() {
    let folder = packed();
    damaged(&folder);
    let explained = folder.eif("check --explain packed.eif damaged.eif");
    assert_eq!(explained.status, 1);
    let text = explained.text();
    let lines: Vec<&str> = text.lines().collect();
    assert_eq!(lines.len(), 4);
    assert_eq!(lines[0], "packed.eif: accepted");
    assert!(
        lines[1].starts_with("  the checksum promises: no damage within four neighbouring bytes")
    );
    assert!(lines[1].ends_with(
        "; farther damage, a stretch that reaches into these bytes, and changes on purpose are not promised to be seen"
    ));
    assert_eq!(
        lines[2],
        "damaged.eif: refused 13 at 0 byte 544: checksum differs"
    );
    assert!(lines[3].starts_with("  what to do: "));
    folder.eif("check --explain --quiet packed.eif").says(0, "");
}

#[test]
fn check_is_quiet_when_told() {
    let folder = packed();
    damaged(&folder);
    let lines = "packed.eif: accepted\ndamaged.eif: refused 13 at 0 byte 544: checksum differs\n";
    folder.eif("check packed.eif damaged.eif").says(1, lines);
    folder
        .eif("check --quiet packed.eif damaged.eif")
        .says(1, "");
    folder.eif("check --quiet packed.eif").says(0, "");
    let by_pipe = folder.eif_with_input("check -", &worked_image());
    by_pipe.says(0, "-: accepted\n");
}
