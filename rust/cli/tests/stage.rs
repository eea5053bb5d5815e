//! `eif stage`, and `eif compare` with a section replaced.

mod common;

use common::json::{parse, Value};
use common::Folder;
use eif_cases::{worked_image, Layout, Section};

/// An image of two ramdisks with metadata before them, and the same with another second ramdisk.
fn with_images() -> Folder {
    let folder = Folder::new();
    folder.put("mended", b"mended files, more of them");
    folder.pack("base", &["old", "new"], "--metadata metadata");
    folder.pack("afresh", &["old", "mended"], "--metadata metadata");
    folder
}

/// The four lines that are told of an image, from the image itself.
fn lines_of(folder: &Folder, image: &str) -> String {
    let mut hash = eif::Sha384::new();
    hash.update(&folder.eif(&format!("roll {image}")).out)
        .unwrap();
    let registers = folder.eif(&format!("registers {image}"));
    format!("roll {}\n{}", hash.finish(), registers.text())
}

#[test]
fn what_the_image_would_be() {
    let folder = with_images();
    let names = folder.names();
    let lines = lines_of(&folder, "afresh");
    assert_eq!(lines.lines().count(), 4);
    folder.eif("stage base 4 mended").says(0, &lines);
    // No image is written for it, and the base stays.
    assert_eq!(folder.names(), names);
    let by_pipe = folder.eif_with_input("stage base 4 -", &folder.get("mended"));
    by_pipe.says(0, &lines);
    let by_pipe = folder.eif_with_input("stage - 4 mended", &folder.get("base"));
    by_pipe.says(0, &lines);
}

/// What `sha384sum` says of the roll.
#[test]
fn the_rolls_digest_is_that_of_the_roll() {
    let folder = with_images();
    let mut command = std::process::Command::new("sh");
    let script = "\"$0\" roll afresh | sha384sum";
    command.args(["-c", script, env!("CARGO_BIN_EXE_eif")]);
    let output = command.current_dir(folder.path("")).output().unwrap();
    let digest = String::from_utf8(output.stdout).unwrap();
    let staged = folder.eif("stage base 4 mended");
    let line = staged.text().lines().next().unwrap();
    assert_eq!(line.strip_prefix("roll "), digest.split_whitespace().next());
}

#[test]
fn its_own_data_changes_nothing() {
    let folder = with_images();
    let lines = lines_of(&folder, "base");
    for (index, own) in [(0, "kernel"), (2, "metadata"), (3, "old"), (4, "new")] {
        let words = format!("stage base {index} {own}");
        folder.eif(&words).says(0, &lines);
    }
}

/// Metadata is in no roll and in no register.
#[test]
fn metadata_is_not_measured() {
    let folder = with_images();
    folder.put("other", b"{\"a\": 1}");
    let lines = lines_of(&folder, "base");
    folder.eif("stage base 2 other").says(0, &lines);
}

#[test]
fn the_image_is_written_where_it_is_asked_for() {
    let folder = with_images();
    let lines = lines_of(&folder, "afresh");
    let written = folder.eif("stage base 4 mended --output out");
    written.says(0, &lines);
    assert_eq!(folder.get("out"), folder.get("afresh"));
    let again = folder.eif("stage base 4 mended --output out");
    again.complains(2, "eif: out: exists; --force replaces it\n");
    let again = folder.eif("stage base 4 old --output out --force");
    assert_eq!(again.status, 0);
    assert_ne!(folder.get("out"), folder.get("afresh"));
    // The image alone.
    let alone = folder.eif("stage base 4 mended --output -");
    assert_eq!((alone.status, &alone.error[..]), (0, ""));
    assert_eq!(alone.out, folder.get("afresh"));
    let alone = folder.eif("stage base 5 mended --output -");
    assert_eq!((alone.status, alone.text()), (1, ""));
    assert!(alone.error.contains("refused 27"), "{}", alone.error);
}

#[test]
fn refusals_in_their_order() {
    let folder = with_images();
    let no_section = |index: &str| {
        format!(
            "base with section {index} replaced by mended: \
             refused 27 at 0 byte 0: section number at or past the number of sections\n  \
             what to do: nothing is wrong with the file; look the section's number up with eif show\n"
        )
    };
    for index in ["5", "6", "18446744073709551615"] {
        let words = format!("stage base {index} mended --output out");
        folder.eif(&words).says(1, &no_section(index));
    }
    folder.put("cut", &worked_image()[..585]);
    let refused = folder.eif("show cut");
    assert_eq!(refused.status, 1);
    folder
        .eif("stage cut 9 mended --output out")
        .says(1, refused.text());
    assert!(!folder.path("out").exists());
}

/// A replacement of zeros that take no room on the disk.
#[test]
fn a_replacement_that_is_too_long() {
    let folder = with_images();
    folder.put_sparse("long", b"", eif::MAX_IMAGE_LENGTH);
    folder.eif("stage base 4 long --output out").says(
        1,
        "base with section 4 replaced by long: \
         refused 1 at 0 byte 0: image longer than 1,073,741,824 bytes\n  \
         what to do: ask for the file's size and fetch it again\n",
    );
    assert!(!folder.path("out").exists());
}

#[test]
fn json_is_read_back() {
    let folder = with_images();
    let ended = folder.eif("stage --json base 4 mended");
    assert_eq!(ended.status, 0);
    let object = parse(ended.text().trim_end());
    let keys = "file accepted replaced replacement roll Measurements";
    assert_eq!(object.keys().join(" "), keys);
    assert_eq!(*object.get("replaced"), Value::Number(4));
    assert_eq!(*object.get("replacement"), Value::Text("mended".into()));
    let lines = lines_of(&folder, "afresh");
    let mut lines = lines.lines().map(|line| line.split_once(' ').unwrap());
    let (_, roll) = lines.next().unwrap();
    assert_eq!(*object.get("roll"), Value::Text(roll.into()));
    for (name, hex) in lines {
        let register = object.get("Measurements").get(name);
        assert_eq!(*register, Value::Text(hex.into()));
    }
    let ended = folder.eif("stage --json base 5 mended");
    let object = parse(ended.text().trim_end());
    assert_eq!(ended.status, 1);
    assert_eq!(*object.get("number"), Value::Number(27));
    assert_eq!(object.keys()[..2], ["file", "accepted"]);
}

#[test]
fn a_staged_pair_is_compared() {
    let folder = with_images();
    let same = "same boot content\n";
    folder
        .eif("compare afresh base --replace 4=mended")
        .says(0, same);
    folder
        .eif("compare base base --replace 4=new")
        .says(0, same);
    folder.eif("compare base base --replace=4=mended").says(
        1,
        "different boot content\n\
         A is base\n\
         B is base with section 4 replaced by mended\n\
         first difference, record 4: A has section 4 (ramdisk, 23 bytes); \
         B has section 4 (ramdisk, 26 bytes): another length, and the data differ at byte 0\n",
    );
    // With a saved roll, and from a pipe.
    folder.eif("roll afresh --output roll").says(0, "");
    let ended = folder.eif_with_input("compare roll base --replace 4=-", &folder.get("mended"));
    ended.starts(0, same);
}

/// The accident, seen before an image is written: the ramdisk that A has at 4 stands for that at 3.
#[test]
fn another_order_is_seen() {
    let folder = Folder::new();
    folder.pack("a", &["old", "new"], "");
    folder.pack("b", &["new", "new"], "");
    let ended = folder.eif("compare a b --replace 3=old");
    let line = "the same ramdisks in another order: A has 2, 3; B has 3, 2";
    ended.has(1, line);
}

/// Of a section that is in no roll, its data and length as they would be.
#[test]
fn what_is_not_part_of_the_roll() {
    let folder = with_images();
    folder.put("other", b"{ }");
    folder.eif("compare base base --replace 2=other").says(
        0,
        "same boot content\n\
         A is base\n\
         B is base with section 2 replaced by other\n\
         not part of the roll:\n  \
         metadata: another length, and the data differ at byte 1\n",
    );
    folder
        .eif("compare base base --replace 2=metadata")
        .says(0, "same boot content\n");
    let sections = [(1, "kernel"), (2, "quiet")];
    let sections = sections.map(|(kind, data)| Section::new(kind, data.as_bytes()));
    folder.put("bare", Layout::new(2, sections.to_vec()).image());
    let ended = folder.eif("compare bare base --replace 2=other");
    let line = "  metadata: A has none, B has one of 3 bytes\n";
    assert!(ended.text().contains(line), "{}", ended.text());
}

#[test]
fn a_staged_side_that_is_refused() {
    let folder = with_images();
    let ended = folder.eif("compare base base --replace 5=mended");
    let start = "base with section 5 replaced by mended: refused 27 at 0 byte 0: ";
    ended.starts(1, start);
    // A roll has no sections to replace.
    folder.eif("roll base --output roll").says(0, "");
    let ended = folder.eif("compare base roll --replace 4=mended");
    ended.starts(1, "roll: refused 2 at 0 byte 0: ");
}
