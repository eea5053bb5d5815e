//! Wrong usage, and files and pipes that fail. Never a panic: `common` sees to that for every process.

mod common;

use common::{Ended, Folder};
use std::ffi::OsStr;
use std::fs::{self, File};
use std::os::fd::OwnedFd;
use std::os::unix::ffi::OsStrExt;
use std::os::unix::fs::PermissionsExt;
use std::os::unix::net::UnixStream;
use std::process::Stdio;

/// Every subcommand with files in the places of its inputs.
const READERS: [&str; 16] = [
    "show FILE",
    "show --strict FILE",
    "check FILE",
    "check --strict FILE",
    "json FILE",
    "compare FILE good",
    "compare good good --replace 2=FILE",
    "registers FILE",
    "signature FILE",
    "roll FILE",
    "stage FILE 2 good",
    "stage good 2 FILE",
    "extract FILE 0",
    "stream FILE whole",
    "pack --kernel FILE --cmdline x --ramdisk good --output out",
    "pack --kernel good --cmdline x --metadata FILE --ramdisk good --output out",
];

fn with_good() -> Folder {
    let folder = Folder::new();
    folder.pack("good", &["old"], "");
    folder
}

fn every_reader(folder: &Folder, name: &str, error: &str) {
    let names = folder.names();
    for words in READERS {
        let ended = folder.eif(&words.replace("FILE", name));
        ended.complains(2, &format!("eif: {name}: {error}\n"));
    }
    assert_eq!(folder.names(), names);
}

#[test]
fn no_such_file() {
    every_reader(
        &with_good(),
        "gone",
        "No such file or directory (os error 2)",
    );
}

#[test]
fn a_folder() {
    let folder = with_good();
    fs::create_dir(folder.path("folder")).unwrap();
    every_reader(&folder, "folder", "Is a directory (os error 21)");
}

#[test]
fn a_file_that_may_not_be_read() {
    let folder = with_good();
    folder.put("secret", b"");
    let nobody = fs::Permissions::from_mode(0o000);
    fs::set_permissions(folder.path("secret"), nobody).unwrap();
    if File::open(folder.path("secret")).is_ok() {
        eprintln!("skipped: this user reads every file");
        return;
    }
    every_reader(&folder, "secret", "Permission denied (os error 13)");
}

/// Also for a user that may read every file.
#[test]
fn a_file_that_cannot_be_read() {
    let folder = with_good();
    for words in READERS {
        let ended = folder.eif(&words.replace("FILE", "/proc/self/mem"));
        assert_eq!((ended.status, ended.text()), (2, ""));
        assert!(
            ended.error.starts_with("eif: /proc/self/mem: "),
            "{}",
            ended.error
        );
    }
}

#[test]
fn an_empty_file() {
    let folder = with_good();
    folder.put("empty", b"");
    let refused = "empty: refused 2 at 0 byte 0: image shorter than 548 bytes\n";
    folder.eif("check empty").says(1, refused);
    folder
        .eif("check /dev/null")
        .says(1, &refused.replace("empty", "/dev/null"));
    assert_eq!(folder.eif("show empty").status, 1);
    assert_eq!(folder.eif("compare empty good").status, 1);
    assert_eq!(folder.eif("roll empty").status, 1);
}

#[test]
fn the_other_files_are_still_looked_at() {
    let folder = with_good();
    let ended = folder.eif("check gone good");
    assert_eq!((ended.status, ended.text()), (2, "good: accepted\n"));
    assert!(ended.error.starts_with("eif: gone: "));
    let ended = folder.eif("show --json gone good");
    assert_eq!((ended.status, ended.text().lines().count()), (2, 1));
}

#[test]
fn names_that_are_not_utf_8() {
    let folder = with_good();
    let name = OsStr::from_bytes(b"caf\xe9.eif");
    folder.put(name, folder.get("good"));
    let ended = folder.run([OsStr::new("check"), name]);
    assert_eq!(
        (ended.status, &ended.out[..]),
        (0, &b"caf\xe9.eif: accepted\n"[..])
    );
    let ended = folder.run([OsStr::new("show"), OsStr::new("--json"), name]);
    assert!(ended
        .text()
        .starts_with("{\"file\": \"caf\u{fffd}.eif\", \"accepted\": true"));
    let output = OsStr::from_bytes(b"\xff.roll");
    let words = ["roll", "good", "--output"].map(OsStr::new);
    folder.run(words.into_iter().chain([output])).says(0, "");
    assert_eq!(folder.get(output), folder.eif("roll good").out);
    let gone = OsStr::from_bytes(b"\xfe");
    assert_eq!(folder.run([OsStr::new("show"), gone]).status, 2);
    assert_eq!(folder.run([gone]).status, 2);
    assert_eq!(
        folder
            .run([OsStr::new("stream"), OsStr::new("good"), gone])
            .status,
        2
    );
}

/// Runs the command with standard output on a device that is always full.
fn to_full(folder: &Folder, words: &str) -> Ended {
    let full = File::options().write(true).open("/dev/full").unwrap();
    let mut command = folder.command(words.split_whitespace());
    command.stdout(full).output().unwrap().into()
}

/// What the system says of a disk without room.
const FULL: &str = "No space left on device (os error 28)";

#[test]
fn a_full_disk() {
    let folder = with_good();
    let names = folder.names();
    for words in [
        "show good",
        "show --json good",
        "check good",
        "check --strict good",
        "json metadata",
        "compare good good",
        "registers good",
        "registers --json good",
        "signature good",
        "signature --json good",
        "roll good",
        "stage good 2 old",
        "stage --json good 2 old",
        "stage good 2 old --output -",
        "extract good 0",
        "stream good whole",
        "pack --kernel kernel --cmdline x --ramdisk old --output -",
        "--help",
        "--version",
        "pack --help",
    ] {
        to_full(&folder, words).complains(2, &format!("eif: standard output: {FULL}\n"));
    }
    assert_eq!(folder.names(), names);
}

#[test]
fn a_full_disk_by_name() {
    let folder = with_good();
    let names = folder.names();
    for words in [
        "roll good",
        "stage good 2 old",
        "extract good 0",
        "stream good whole",
    ] {
        let ended = folder.eif(&format!("{words} --output /dev/full"));
        ended.complains(2, &format!("eif: /dev/full: {FULL}\n"));
    }
    let pack = "pack --kernel kernel --cmdline x --ramdisk old --output /dev/full --force";
    folder
        .eif(pack)
        .complains(2, &format!("eif: /dev/full: {FULL}\n"));
    assert_eq!(folder.names(), names);
}

/// A file system that is really full, where one can be had: a file limit does for it.
#[test]
fn a_disk_that_fills_up_leaves_no_half_image() {
    let folder = with_good();
    folder.put("big", vec![7; 1 << 20]);
    let names = folder.names();
    let script = "trap '' XFSZ; ulimit -f 64; exec \"$0\" pack --kernel kernel --cmdline x --ramdisk big --output out";
    let mut command = std::process::Command::new("sh");
    command.args(["-c", script, env!("CARGO_BIN_EXE_eif")]);
    let ended: Ended = command
        .current_dir(folder.path(""))
        .output()
        .unwrap()
        .into();
    ended.complains(2, "eif: out: File too large (os error 27)\n");
    assert_eq!(folder.names(), names);
}

#[test]
fn an_output_that_cannot_be() {
    let folder = with_good();
    fs::create_dir(folder.path("folder")).unwrap();
    let names = folder.names();
    for (output, error) in [
        ("gone/out", "No such file or directory (os error 2)"),
        ("good/out", "Not a directory (os error 20)"),
        ("folder", "Is a directory (os error 21)"),
    ] {
        let ended = folder.eif(&format!("roll good --output {output} --force"));
        ended.complains(2, &format!("eif: {output}: {error}\n"));
    }
    let ended = folder.run(["roll", "good", "--output", ""]);
    assert_eq!(ended.status, 2);
    assert_eq!(folder.names(), names);
}

/// Whoever reads has stopped: no message, and no success.
#[test]
fn a_closed_pipe_ends_it_quietly() {
    let folder = with_good();
    for words in [
        "show good good",
        "check good",
        "json metadata",
        "roll good",
        "compare good good",
        "--help",
    ] {
        let mut command = folder.command(words.split_whitespace());
        let (reader, writer) = UnixStream::pair().unwrap();
        drop(reader);
        command.stdout(OwnedFd::from(writer));
        let ended: Ended = command.output().unwrap().into();
        ended.complains(2, "");
    }
}

#[test]
fn nothing_to_complain_to() {
    let folder = with_good();
    for words in ["check gone", "show", "roll gone"] {
        let full = File::options().write(true).open("/dev/full").unwrap();
        let mut command = folder.command(words.split_whitespace());
        let ended: Ended = command.stderr(full).output().unwrap().into();
        assert_eq!(ended.status, 2);
    }
}

/// Command lines and what is wrong with them.
const WRONG: &[(&str, &str)] = &[
    ("", "which subcommand?"),
    ("frobnicate", "no subcommand frobnicate"),
    ("show", "FILE is missing"),
    ("show --loud good", "no option --loud here"),
    ("show --json=yes good", "--json takes no value"),
    ("check -q good", "no option -q here"),
    ("check - -", "- is named twice"),
    ("check --strict=yes good", "--strict takes no value"),
    ("json", "FILE is missing"),
    ("json - -", "- is named twice"),
    ("json --strict metadata", "no option --strict here"),
    ("compare good", "B is missing"),
    ("compare good good good", "good is one too many"),
    ("compare - -", "- is named twice"),
    ("compare good - --replace 2=-", "- is named twice"),
    (
        "compare good good --replace 2",
        "--replace is no INDEX=FILE",
    ),
    (
        "compare good good --replace x=good",
        "INDEX is no number: x",
    ),
    ("stage good 2", "REPLACEMENT is missing"),
    ("stage good two good", "INDEX is no number: two"),
    ("stage - 2 -", "- is named twice"),
    ("registers", "FILE is missing"),
    ("registers - -", "- is named twice"),
    ("signature", "FILE is missing"),
    ("signature - -", "- is named twice"),
    ("roll", "IMAGE is missing"),
    ("roll good --output", "--output needs a value"),
    ("roll good --output a --output b", "--output is given twice"),
    ("extract good", "INDEX is missing"),
    ("extract good one", "INDEX is no number: one"),
    ("extract good -1", "no option -1 here"),
    (
        "extract good 3",
        "good: no section 3: there are 3, from 0 on",
    ),
    (
        "extract good 99999999999999999999",
        "INDEX is no number: 99999999999999999999",
    ),
    ("split", "IMAGE is missing"),
    ("split good good", "good is one too many"),
    ("assemble", "--output is missing"),
    (
        "assemble --output -",
        "--output needs the name of a file here",
    ),
    ("assemble --output out - -", "- is named twice"),
    ("stream good", "whole, boot or app is missing"),
    ("stream good all", "no stream all: whole, boot or app"),
    ("pack", "--output is missing"),
    ("pack --output out", "--kernel is missing"),
    ("pack --output out --kernel good", "--cmdline is missing"),
    (
        "pack --output out --kernel good --cmdline x",
        "--ramdisk is missing",
    ),
    (
        "pack --output out --kernel - --cmdline x --ramdisk -",
        "- is named twice",
    ),
    (
        "pack --output out --kernel good --cmdline x --ramdisk good --arch arm",
        "no architecture arm: x86_64 or aarch64",
    ),
    (
        "pack --output out --kernel good --cmdline x --ramdisk good --format four",
        "--format is no number: four",
    ),
    (
        "pack --output out --kernel good --cmdline x --ramdisk good extra",
        "extra is one too many",
    ),
];

#[test]
fn wrong_usage() {
    let folder = with_good();
    for (words, error) in WRONG {
        let ended = folder.eif(words);
        ended.complains(2, &format!("eif: {error} (eif --help)\n"));
    }
    assert!(!folder.path("out").exists());
    let ended = folder.run(["\u{1b}[2J\n"]);
    ended.complains(2, "eif: no subcommand ?[2J? (eif --help)\n");
}

#[test]
fn names_that_look_like_options() {
    let folder = with_good();
    folder.put("--json", folder.get("good"));
    folder.eif("check -- --json").says(0, "--json: accepted\n");
    folder
        .eif("check ./--json good")
        .says(0, "./--json: accepted\ngood: accepted\n");
}

#[test]
fn standard_input_that_is_closed() {
    let folder = with_good();
    let script = "exec \"$0\" check - <&-";
    let mut command = std::process::Command::new("sh");
    command.args(["-c", script, env!("CARGO_BIN_EXE_eif")]);
    command.stdin(Stdio::null()).current_dir(folder.path(""));
    let ended: Ended = command.output().unwrap().into();
    ended.says(
        1,
        "-: refused 2 at 0 byte 0: image shorter than 548 bytes\n",
    );
}
