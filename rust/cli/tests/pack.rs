//! `eif pack`, and `eif extract`, `eif roll` and `eif stream`, which take images apart.

mod common;

use common::{repository, Folder};
use eif::{Reason, MAX_IMAGE_LENGTH};
use eif_cases::{
    stream_cases, worked_image, zero_image_start, HEADER, SECTION_HEADER, WORKED_ROLL,
};
use std::fs;
use std::process::Command;

#[test]
fn what_is_packed_comes_back() {
    let folder = Folder::new();
    folder.pack("image", &["new", "old", "new"], "--metadata metadata");
    folder.eif("check image").says(0, "image: accepted\n");
    for (index, name) in [
        (0, "kernel"),
        (2, "metadata"),
        (3, "new"),
        (4, "old"),
        (5, "new"),
    ] {
        folder
            .eif(&format!("extract image {index} --output part --force"))
            .says(0, "");
        assert_eq!(folder.get("part"), folder.get(name), "{index}");
    }
    folder.eif("extract image 1").says(0, "quiet");
    let image = folder.get("image");
    folder
        .eif_with_input("extract - 1", &image)
        .says(0, "quiet");
}

/// Neither by name, nor by size, nor by content.
#[test]
fn ramdisks_are_never_sorted() {
    let folder = Folder::new();
    let parts = [
        ("b", "longest of them"),
        ("a", "zz"),
        ("c", "a"),
        ("d", "longer"),
    ];
    for (name, content) in parts {
        folder.put(name, content);
    }
    folder.pack("image", &["b", "a", "c", "d"], "");
    let ended = folder.eif("stream image app");
    ended.says(0, "zzalonger");
}

#[test]
fn ramdisks_of_1_mib() {
    let folder = Folder::new();
    let ramdisk = |salt: u32| -> Vec<u8> {
        let byte = |at: u32| (at.wrapping_mul(2_654_435_761).wrapping_add(salt) >> 24) as u8;
        (0..1 << 20).map(byte).collect()
    };
    folder.put("one", ramdisk(1));
    folder.put("two", ramdisk(7 << 24));
    folder.pack("a", &["one", "two"], "");
    folder.pack("b", &["two", "one"], "");
    let length = HEADER + 4 * SECTION_HEADER + 10 + 5 + (2 << 20);
    assert_eq!(folder.get("a").len(), length);
    folder
        .eif("check a b")
        .says(0, "a: accepted\nb: accepted\n");
    folder.eif("extract a 3 --output back").says(0, "");
    assert!(folder.get("back") == folder.get("two"));
    folder.eif("compare a b").has(1, "A has 2, 3; B has 3, 2");
}

#[test]
fn architecture_and_format_are_as_told() {
    let folder = Folder::new();
    for (options, version, flags) in [
        ("", 3, 0),
        ("--metadata metadata", 4, 0),
        ("--metadata metadata --arch aarch64", 4, 1),
        ("--format 2 --arch x86_64", 2, 0),
        ("--format=3", 3, 0),
    ] {
        folder.pack("image", &["old"], &format!("{options} --force"));
        let image = folder.get("image");
        assert_eq!(image[4..8], [0, version, 0, flags], "{options}");
    }
}

/// The library refuses, and nothing is written.
#[test]
fn a_plan_that_is_refused_leaves_nothing() {
    let folder = Folder::new();
    folder.pack("image", &["old"], "");
    let before = folder.names();
    let words = "pack --kernel kernel --cmdline quiet --ramdisk old --output new.eif";
    for (options, refusal) in [
        (
            "--format 4",
            "refused 12 at 0 byte 0: kernel or command line missing, or metadata missing in version 4",
        ),
        ("--format 7", "refused 4 at 0 byte 0: version not 2, 3 or 4"),
        (
            "--format 3 --metadata metadata",
            "refused 9 at 2 byte 0: type not allowed in this version",
        ),
    ] {
        let ended = folder.eif(&format!("{words} {options}"));
        ended.complains(1, &format!("new.eif: {refusal}\n"));
    }
    let many = "--ramdisk old ".repeat(31);
    let ended = folder.eif(&format!("{words} {many}"));
    ended.complains(
        1,
        "new.eif: refused 5 at 0 byte 0: number of sections not 2 to 32\n",
    );
    assert_eq!(folder.names(), before);
}

#[test]
#[ignore = "keeps a GiB in memory: make test-large"]
fn large_a_part_without_end() {
    let folder = Folder::new();
    folder.pack("image", &["old"], "");
    let before = folder.names();
    let words = "pack --kernel kernel --cmdline quiet --ramdisk /dev/zero --output new.eif";
    let refusal = format!("new.eif: refused 1 at 0 byte 0: {}\n", Reason::ImageTooLong);
    folder.eif(words).complains(1, &refusal);
    assert_eq!(folder.names(), before);
}

/// The longest image goes through every subcommand that keeps its bytes.
#[test]
#[ignore = "keeps some GiB in memory and on disk: make test-large"]
fn large_the_longest_image() {
    let folder = Folder::new();
    let start = zero_image_start(MAX_IMAGE_LENGTH);
    let zeros = MAX_IMAGE_LENGTH - start.len();
    folder.put_sparse("longest", start, MAX_IMAGE_LENGTH);
    assert_eq!(folder.eif("show --json longest").status, 0);
    folder.eif("roll longest --output roll").says(0, "");
    let said = folder.eif("compare longest roll");
    said.starts(0, "same boot content\n");
    folder.eif("show roll").starts(0, "roll: boot roll\n");
    folder.put_sparse("zeros", [], zeros);
    folder.eif("extract longest 1 --output kernel").says(0, "");
    let same = Command::new("cmp")
        .args([folder.path("kernel"), folder.path("zeros")])
        .status();
    assert!(same.unwrap().success());
}

#[test]
fn an_existing_file_is_replaced_only_with_force() {
    let folder = Folder::new();
    folder.pack("image", &["old"], "");
    let (image, names) = (folder.get("image"), folder.names());
    let words = "pack --kernel kernel --cmdline loud --ramdisk new --output image";
    let exists = "eif: image: exists; --force replaces it\n";
    folder.eif(words).complains(2, exists);
    folder.eif("roll image --output image").complains(2, exists);
    assert_eq!(
        (folder.get("image"), folder.names()),
        (image.clone(), names.clone())
    );
    folder.eif(&format!("{words} --force")).says(0, "");
    assert_ne!(folder.get("image"), image);
    // A refused image with --force leaves what was there.
    let image = folder.get("image");
    assert_eq!(folder.eif(&format!("{words} --force --format 4")).status, 1);
    assert_eq!((folder.get("image"), folder.names()), (image, names));
}

#[test]
fn a_link_to_the_output_stays() {
    let folder = Folder::new();
    folder.pack("image", &["old"], "");
    std::os::unix::fs::symlink("image", folder.path("link")).unwrap();
    folder.pack("link", &["new"], "--force");
    assert!(fs::symlink_metadata(folder.path("link"))
        .unwrap()
        .is_symlink());
    assert_eq!(folder.get("link"), folder.get("image"));
    folder
        .eif("extract image 2")
        .says(0, "new files, more of them");
}

#[test]
fn standard_input_and_output_as_files() {
    let folder = Folder::new();
    folder.pack("image", &["old"], "");
    let words = "pack --kernel kernel --cmdline quiet --ramdisk - --output -";
    let ended = folder.eif_with_input(words, b"old files");
    assert_eq!((ended.status, ended.out), (0, folder.get("image")));
}

/// A command line is bytes: empty, with spaces, or in no encoding at all.
#[test]
fn the_command_line_is_as_given() {
    use std::ffi::OsStr;
    use std::os::unix::ffi::OsStrExt;
    let folder = Folder::new();
    folder.put("part", b"");
    for text in [
        &b""[..],
        b"console=ttyS0  panic=30 ",
        b"--kernel",
        b"\xff\xfe=\x80",
    ] {
        let option = [b"--cmdline=", text].concat();
        let mut words: Vec<&OsStr> = ["pack", "--kernel=part", "--ramdisk=part", "--output=image"]
            .map(OsStr::new)
            .to_vec();
        words.extend([OsStr::new("--force"), OsStr::from_bytes(&option)]);
        folder.run(words).says(0, "");
        assert_eq!(folder.eif("extract image 1").out, text);
    }
}

#[test]
fn the_worked_example() {
    let folder = Folder::new();
    folder.put("k", [0x4b]);
    folder.put("empty", []);
    let words = "pack --kernel k --cmdline a --ramdisk empty --format 2 --output worked";
    folder.eif(words).says(0, "");
    assert_eq!(folder.get("worked"), worked_image());
    assert_eq!(folder.eif("roll worked").out, WORKED_ROLL);
    folder.eif("roll worked --output roll").says(0, "");
    assert_eq!(folder.get("roll"), WORKED_ROLL);
}

#[test]
fn streams() {
    let folder = Folder::new();
    for case in stream_cases() {
        folder.put("image", case.image);
        for (name, bytes) in ["whole", "boot", "app"].into_iter().zip(case.streams) {
            assert_eq!(folder.eif(&format!("stream image {name}")).out, bytes);
            folder
                .eif(&format!("stream image {name} --output {name} --force"))
                .says(0, "");
            assert_eq!(folder.get(name), bytes, "{}", case.name);
        }
    }
}

#[test]
fn a_refused_image_gives_no_bytes() {
    let folder = Folder::new();
    folder.put("image", &worked_image()[..585]);
    let names = folder.names();
    let refusal =
        "image: refused 7 at 2 byte 44: offset + 12 + size is more than the file length\n  \
                   byte 44: the table's offset entry of section 2\n  \
                   what to do: compare the sizes of both files and fetch it again\n";
    for words in ["roll image", "extract image 0", "stream image whole"] {
        folder.eif(words).complains(1, refusal);
        folder
            .eif(&format!("{words} --output out"))
            .complains(1, refusal);
    }
    assert_eq!(folder.names(), names);
}

/// The samples are what `eif pack` makes of samples/parts.
#[test]
fn the_samples_can_be_made_again() {
    let folder = Folder::new();
    let part = |name: &str| repository("samples/parts").join(name).display().to_string();
    for (sample, ramdisks) in [("a.eif", ["older", "newer"]), ("b.eif", ["newer", "older"])] {
        let (kernel, metadata) = (part("kernel"), part("metadata.json"));
        let [first, second] = ramdisks.map(part);
        let words = [
            "pack",
            "--kernel",
            &kernel,
            "--cmdline",
            "console=ttyS0 panic=30",
        ];
        let more = [
            "--metadata",
            &metadata,
            "--ramdisk",
            &first,
            "--ramdisk",
            &second,
        ];
        let output = ["--output", sample];
        folder
            .run(words.iter().chain(&more).chain(&output))
            .says(0, "");
        let expected = fs::read(repository("samples").join(sample)).unwrap();
        assert_eq!(folder.get(sample), expected);
    }
}
