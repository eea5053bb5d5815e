//! The progress line: for input that takes longer than a second, on a terminal, gone when done.

mod common;

use common::{Ended, Folder};
use std::process::{Command, Stdio};

/// Feeds an image slowly to `eif check -`.
const SLOWLY: &str = "{ head -c 100 good; sleep 2.6; tail -c +101 good; } | \"$EIF\" check -";

fn shell(folder: &Folder, program: &str, words: &[&str]) -> Command {
    let mut command = Command::new(program);
    command.args(words).current_dir(folder.path(""));
    command
        .env("EIF", env!("CARGO_BIN_EXE_eif"))
        .stdin(Stdio::null());
    command
}

#[test]
fn no_line_without_a_terminal() {
    let folder = Folder::new();
    folder.pack("good", &["old"], "");
    let ended: Ended = shell(&folder, "sh", &["-c", SLOWLY])
        .output()
        .unwrap()
        .into();
    ended.says(0, "-: accepted\n");
}

#[test]
fn a_line_on_a_terminal_that_is_gone_when_done() {
    let folder = Folder::new();
    folder.pack("good", &["old"], "");
    let words = ["-qec", &format!("{SLOWLY} >out"), "/dev/null"];
    let Ok(output) = shell(&folder, "script", &words).output() else {
        eprintln!("skipped: no program `script` to make a terminal");
        return;
    };
    let seen = String::from_utf8_lossy(&output.stdout);
    assert!(seen.contains("\r\u{1b}[K-: 100 bytes read"), "{seen:?}");
    assert!(seen.ends_with("\r\u{1b}[K"), "{seen:?}");
    assert_eq!(folder.get("out"), b"-: accepted\n");
}

#[test]
fn no_line_for_quick_work() {
    let folder = Folder::new();
    folder.pack("good", &["old"], "");
    let words = ["-qec", "\"$EIF\" check good >out", "/dev/null"];
    if let Ok(output) = shell(&folder, "script", &words).output() {
        assert_eq!(String::from_utf8_lossy(&output.stdout), "");
    }
}
