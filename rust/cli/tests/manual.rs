//! What the manual and the README show is what the command prints, and what they cite is there.

mod common;

use common::{repository, repository_text, Folder};
use std::ffi::OsStr;
use std::os::unix::fs::symlink;
use std::path::{Path, PathBuf};
use std::process::Command;

/// The commands that a text shows after `$`, each with the lines shown under it.
fn shown(text: &str) -> Vec<(String, String)> {
    let joined = text.replace("\\\n", "");
    let mut shown: Vec<(String, String)> = Vec::new();
    let mut under = false;
    for line in joined.lines() {
        match line.strip_prefix("    ") {
            Some(line) if line.starts_with("$ ") => {
                shown.push((line[2..].to_string(), String::new()));
                under = true;
            }
            Some(line) if under => {
                if let Some((_, output)) = shown.last_mut() {
                    *output += &format!("{line}\n");
                }
            }
            _ => under = false,
        }
    }
    shown
}

/// Runs what a text shows, where `samples` is the repository's.
fn run_shown(name: &str) -> usize {
    let folder = Folder::new();
    symlink(repository("samples"), folder.path("samples")).unwrap();
    let command_folder = Path::new(env!("CARGO_BIN_EXE_eif")).parent().unwrap();
    let path = format!(
        "{}:{}",
        command_folder.display(),
        std::env::var("PATH").unwrap()
    );
    let shown = shown(&repository_text(name));
    for (command, expected) in &shown {
        let command = command.replace("target/bin/eif", "eif");
        let mut shell = Command::new("sh");
        shell.args(["-c", &command]).env("PATH", &path);
        let output = shell.current_dir(folder.path("")).output().unwrap();
        assert_eq!(
            String::from_utf8_lossy(&output.stderr),
            "",
            "{name}: {command}"
        );
        if !expected.is_empty() {
            assert_eq!(
                String::from_utf8_lossy(&output.stdout),
                *expected,
                "{name}: {command}"
            );
        }
    }
    shown.len()
}

#[test]
fn the_manual_shows_what_is_printed() {
    assert_eq!(run_shown("docs/MANUAL.md"), 32);
}

#[test]
fn the_readme_shows_what_is_printed() {
    assert_eq!(run_shown("README.md"), 1);
}

/// The headings of a document's sections.
fn titles(document: &str) -> Vec<&str> {
    let headings = document.lines().filter(|line| line.starts_with("##"));
    headings
        .map(|line| line.trim_start_matches(['#', ' ']))
        .collect()
}

/// The files below a folder whose names have one of these endings.
fn files_below(folder: &Path, endings: &[&str]) -> Vec<PathBuf> {
    let Ok(entries) = std::fs::read_dir(folder) else {
        return Vec::new();
    };
    let mut files = Vec::new();
    for path in entries.map(|entry| entry.unwrap().path()) {
        let ending = path.extension().and_then(OsStr::to_str).unwrap_or_default();
        if path.is_dir() && path.file_name() != Some(OsStr::new("target")) {
            files.extend(files_below(&path, endings));
        } else if endings.contains(&ending) {
            files.push(path);
        }
    }
    files
}

/// What stands behind each `FORMAT.md, ` of a text, where that is the start of a heading. A comment or a
/// paragraph may break the line there.
fn citations(text: &str) -> Vec<String> {
    let joined = ["///", "//!", "//", "--", " *"]
        .iter()
        .fold(text.to_string(), |text, start| {
            text.replace(&format!("\n{start}"), "")
        })
        .replace('\n', " ");
    let parts = joined.split("FORMAT.md, ").skip(1);
    parts
        .map(|part| part.trim_start_matches('"').chars().take(40).collect())
        .filter(|part: &String| part.starts_with(char::is_uppercase))
        .collect()
}

/// A heading that is cited behind the name of FORMAT.md is there, in documents, header, Rust code and crates.
#[test]
fn citations_of_the_format_name_its_sections() {
    let Ok(format) = std::fs::read_to_string(repository("docs/FORMAT.md")) else {
        eprintln!("skipped: no docs/FORMAT.md");
        return;
    };
    let titles = titles(&format);
    let endings = ["md", "h", "c", "rs", "rt", "antt"];
    let mut found = 0;
    for file in files_below(&repository(""), &endings) {
        for citation in citations(&std::fs::read_to_string(&file).unwrap()) {
            let known = titles.iter().any(|title| citation.starts_with(title));
            assert!(known, "{file:?}: FORMAT.md has no section {citation}");
            found += 1;
        }
    }
    assert!(found > 50, "{found} citations");
}
