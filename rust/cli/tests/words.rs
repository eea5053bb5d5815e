//! Numbers and words stand once: header, Rust crate, command, manual and man page are held to each
//! other.

mod common;

use common::{repository_text, Folder};
use eif::sign1::Algorithm;
use eif::{Architecture, Reason, Refusal, SectionType};
use eif_cases::{located_images, located_rolls, strict_cases};
use std::process::Command;

/// `(NAME, VALUE)` of each `#define` of the header with a value.
fn macros(header: &str) -> Vec<(&str, &str)> {
    let lines = header
        .lines()
        .filter_map(|line| line.strip_prefix("#define "));
    lines.filter_map(|line| line.split_once(' ')).collect()
}

#[track_caller]
fn macro_value<'a>(header: &'a str, name: &str) -> &'a str {
    let found = macros(header).into_iter().find(|(known, _)| *known == name);
    found.unwrap_or_else(|| panic!("no {name}")).1
}

/// `(NAME, NUMBER)` of each row of one of the header's enums.
fn enumerators<'a>(header: &'a str, name: &str) -> Vec<(&'a str, u16)> {
    let (_, rest) = header.split_once(&format!("enum {name} {{")).expect(name);
    let (rows, _) = rest.split_once("};").expect("the end of an enum");
    let row = |line: &'a str| {
        let (name, rest) = line.trim().split_once(" = ")?;
        let digits = rest.split(|c: char| !c.is_ascii_digit()).next()?;
        Some((name, digits.parse().ok()?))
    };
    rows.lines().filter_map(row).collect()
}

/// `(NAME, WORDS)` of each case of one of the header's functions that give words.
fn cases<'a>(header: &'a str, function: &str) -> Vec<(&'a str, &'a str)> {
    let (_, rest) = header.split_once(&format!("*{function}(")).expect(function);
    let (body, _) = rest.split_once("\n}").expect("the end of a function");
    let cases = body.split("case ").skip(1);
    let case = |text: &'a str| Some((text.split_once(':')?.0, text.split('"').nth(1)?));
    cases.filter_map(case).collect()
}

/// `IMAGE_TOO_LONG` of `ImageTooLong`.
fn macro_name(reason: Reason) -> String {
    let mut name = String::from("EIF");
    for character in format!("{reason:?}").chars() {
        if character.is_uppercase() {
            name.push('_');
        }
        name.push(character.to_ascii_uppercase());
    }
    name
}

/// One of the header's enums has these names with these numbers, and a function gives them these words, in
/// this order and no others.
#[track_caller]
fn header_has(name: &str, function: &str, rows: &[(String, u16, &str)]) {
    let header = repository_text("include/eif.h");
    let numbers = rows.iter().map(|(name, number, _)| (&name[..], *number));
    assert_eq!(enumerators(&header, name), numbers.collect::<Vec<_>>());
    let words = rows.iter().map(|(name, _, words)| (&name[..], *words));
    assert_eq!(cases(&header, function), words.collect::<Vec<_>>());
}

#[test]
fn the_header_has_the_same_numbers_and_words() {
    let mut rows = vec![("EIF_ACCEPTED".to_string(), 0, "accepted")];
    let reasons = Reason::ALL.iter();
    rows.extend(reasons.map(|&reason| (macro_name(reason), reason as u16, reason.meaning())));
    header_has("eif_number", "eif_meaning", &rows);
}

#[test]
fn the_header_has_the_same_section_types() {
    let rows = SectionType::ALL.map(|kind| {
        let name = kind.name().expect("a name");
        let macro_name = format!("EIF_{}", name.replace(' ', "_").to_uppercase());
        (macro_name, kind.0, name)
    });
    header_has("eif_section_type", "eif_section_name", &rows);
}

#[test]
fn the_header_has_the_same_architectures() {
    let rows = Architecture::ALL.map(|architecture| {
        let name = architecture.name();
        let macro_name = format!("EIF_{}", name.to_uppercase());
        (macro_name, architecture.flags(), name)
    });
    header_has("eif_architecture", "eif_architecture_name", &rows);
}

#[test]
fn the_header_has_the_same_limits() {
    let header = repository_text("include/eif.h");
    for (name, value) in [
        ("EIF_MAX_IMAGE_LENGTH", eif::MAX_IMAGE_LENGTH),
        ("EIF_HEADER_LENGTH", eif::HEADER_LENGTH),
        ("EIF_CHECKSUM_POSITION", eif::CHECKSUM_POSITION),
        ("EIF_SECTION_HEADER_LENGTH", eif::SECTION_HEADER_LENGTH),
        ("EIF_RECORD_HEAD_LENGTH", eif::RECORD_HEAD_LENGTH),
        ("EIF_FLAGS_RECORD_LENGTH", eif::FLAGS_RECORD_LENGTH),
        ("EIF_MAX_SECTIONS", eif::MAX_SECTIONS),
        ("EIF_NO_RAMDISK", eif::raw::NO_RAMDISK as usize),
        ("EIF_REGISTERS", eif::REGISTERS),
        ("EIF_MAX_JSON_DEPTH", eif::json::MAX_DEPTH),
        ("EIF_DIGEST_LENGTH", eif::DIGEST_LENGTH),
        ("EIF_SHA384_BLOCK_LENGTH", eif::SHA384_BLOCK_LENGTH),
        ("EIF_MAX_SIGN1_LENGTH", eif::sign1::MAX_LENGTH),
        ("EIF_PIECE_LENGTH", eif::assembler::PIECE_LENGTH),
        (
            "EIF_MAX_TRANSFER_RECORD_LENGTH",
            eif::assembler::MAX_RECORD_LENGTH,
        ),
    ] {
        assert_eq!(macro_value(&header, name), value.to_string(), "{name}");
    }
    let most = format!("UINT64_C({})", eif::MAX_MESSAGE_LENGTH);
    assert_eq!(macro_value(&header, "EIF_MAX_MESSAGE_LENGTH"), most);
}

#[test]
fn the_header_has_the_same_algorithms() {
    let header = repository_text("include/eif.h");
    let numbers = enumerators(&header, "eif_sign1_algorithm");
    let names = Algorithm::ALL.map(|algorithm| format!("EIF_{algorithm}"));
    let expected = names.iter().zip(Algorithm::ALL);
    let expected = expected.map(|(name, algorithm)| (&name[..], algorithm as u16));
    assert_eq!(numbers, expected.collect::<Vec<_>>());
}

/// The digits in groups of three, as the words have them.
fn grouped(number: usize) -> String {
    let digits = number.to_string();
    let groups: Vec<&str> = digits
        .as_bytes()
        .rchunks(3)
        .rev()
        .map(|group| std::str::from_utf8(group).expect("digits"))
        .collect();
    groups.join(",")
}

/// Words that name the longest image: in the crate, to which the header and the manual are held, and in
/// the rules.
#[test]
fn one_limit() {
    let most = grouped(eif::MAX_IMAGE_LENGTH);
    let meaning = format!("image longer than {most} bytes");
    assert_eq!(Reason::ImageTooLong.meaning(), meaning);
    let format = repository_text("docs/FORMAT.md");
    assert!(format
        .contains(&format!("\n| 1 | the {meaning} | 0 |\n").replace("the image", "the image is")));
}

#[test]
fn one_version() {
    let header = repository_text("include/eif.h");
    let version = env!("CARGO_PKG_VERSION");
    assert_eq!(
        macro_value(&header, "EIF_VERSION"),
        format!("\"{version}\"")
    );
    let parts = ["MAJOR", "MINOR", "PATCH"];
    let parts = parts.map(|part| macro_value(&header, &format!("EIF_VERSION_{part}")));
    assert_eq!(parts.join("."), version);
    Folder::new()
        .eif("--version")
        .says(0, &format!("eif {version}\n"));
    let page = repository_text("docs/eif.1");
    assert!(page.contains(&format!("\"eif {version}\"")), "docs/eif.1");
}

/// The rows of one of the manual's tables, cell by cell, by how its heading begins.
fn manual_rows(heading: &str) -> Vec<Vec<String>> {
    let manual = repository_text("docs/MANUAL.md");
    let (_, rest) = manual.split_once(heading).expect("the table");
    let rows = rest
        .lines()
        .skip(2)
        .take_while(|line| line.starts_with('|'));
    let cells = |line: &str| -> Vec<String> {
        let cells = line.trim_matches('|').split('|');
        cells.map(|cell| cell.trim().to_string()).collect()
    };
    rows.map(cells).collect()
}

#[test]
fn the_manual_has_the_same_words() {
    let rows = manual_rows("| no. | meaning |");
    assert_eq!(rows.len(), Reason::ALL.len());
    for (row, reason) in rows.iter().zip(Reason::ALL) {
        let [number, meaning, _, advice] = &row[..] else {
            panic!("{row:?}");
        };
        assert_eq!(*number, (*reason as u8).to_string());
        assert_eq!(meaning, reason.meaning());
        assert_eq!(advice, reason.advice());
    }
}

/// Which of the manual's rows has the words on what stands at a refusal's position.
fn row_with(rows: &[Vec<String>], refusal: &Refusal, place: Option<String>) -> usize {
    let index = match (refusal.number(), refusal.position()) {
        // A roll's 33rd record after its flags record.
        (5, 332..) => 33,
        _ => refusal.index(),
    };
    let place = place.expect("a place");
    let number = refusal.number().to_string();
    let same = |row: &Vec<String>| {
        let mut numbers = row[0].split(", ");
        let words = row[1].replace("section N", &format!("section {index}"));
        let words = words.replace("record N", &format!("record {index}"));
        numbers.any(|known| known == number) && words == place
    };
    let found = rows.iter().position(same);
    found.unwrap_or_else(|| panic!("{refusal}: {place}: not in docs/MANUAL.md"))
}

/// Every row is met.
#[test]
fn the_manual_has_the_same_places() {
    let images = manual_rows("| an image refused by |");
    let mut met = vec![false; images.len()];
    for case in located_images() {
        let refusal = eif::read(&case.image).expect_err("refused");
        met[row_with(&images, &refusal, refusal.place_in_image())] = true;
    }
    for case in strict_cases() {
        if let Err(refusal) = eif::read_strict(&case.image) {
            met[row_with(&images, &refusal, refusal.place_in_image())] = true;
        }
    }
    assert!(met.into_iter().all(|met| met));

    let rolls = manual_rows("| a roll refused by |");
    let mut met = vec![false; rolls.len()];
    for case in located_rolls() {
        let refusal = eif::read_roll(&case.roll).expect_err("refused");
        met[row_with(&rolls, &refusal, refusal.place_in_roll(&case.roll))] = true;
    }
    assert!(met.into_iter().all(|met| met));
}

/// The options in a text, each once, in order.
fn options(text: &str) -> Vec<String> {
    let words = text.split(|c: char| !(c == '-' || c.is_ascii_lowercase()));
    let options = words.filter(|word| word.starts_with("--") && word.len() > 2);
    let mut options: Vec<String> = options.map(str::to_string).collect();
    options.sort();
    options.dedup();
    options
}

/// The subcommands, as `eif --help` lists them.
fn subcommands(folder: &Folder) -> Vec<String> {
    let help = folder.eif("--help");
    assert_eq!(help.status, 0);
    let rows = help
        .text()
        .lines()
        .filter_map(|line| line.strip_prefix("  "));
    let name = |row: &str| row.split_whitespace().next().map(str::to_string);
    rows.filter_map(name).collect()
}

#[test]
fn help_manual_and_man_page_have_the_same_subcommands_and_options() {
    let folder = Folder::new();
    let page = repository_text("docs/eif.1").replace("\\-", "-");
    let manual = repository_text("docs/MANUAL.md");
    let names = subcommands(&folder);
    assert_eq!(
        names.join(" "),
        "show check compare registers signature roll stage pack extract stream json split assemble"
    );
    for name in names {
        let help = folder.run([&name[..], "--help"]);
        assert_eq!(help.status, 0);
        let text = help.text();
        assert!(text.starts_with(&format!("usage: eif {name} ")));
        assert_eq!(folder.run([&name[..], "-h"]).text(), text);
        let (_, rest) = page
            .split_once(&format!("\n.SS {name}\n"))
            .expect("a part for it");
        let part = rest.split("\n.S").next().unwrap_or(rest);
        assert_eq!(options(part), options(text), "docs/eif.1, {name}");
        assert!(
            manual.contains(&format!("eif {name} ")),
            "docs/MANUAL.md, {name}"
        );
    }
}

#[test]
fn the_man_page_is_well_formed() {
    let page = common::repository("docs/eif.1");
    let mut groff = Command::new("groff");
    groff.args(["-man", "-Tutf8", "-ww", "-z"]).arg(page);
    let Ok(output) = groff.output() else {
        eprintln!("skipped: no program `groff`");
        return;
    };
    assert!(
        output.status.success() && output.stderr.is_empty(),
        "{output:?}"
    );
}

/// The documents in a folder of the repository.
fn documents(folder: &str) -> Vec<String> {
    let entries = std::fs::read_dir(common::repository(folder)).expect(folder);
    let names = entries.map(|entry| entry.expect(folder).file_name());
    let names = names.filter_map(|name| name.into_string().ok());
    let names = names.filter(|name| name.ends_with(".md") || name.ends_with(".1"));
    names.map(|name| format!("{folder}/{name}")).collect()
}

/// No document speaks of papers that are not in the repository, nor does the header.
#[test]
fn rules_are_cited_from_format() {
    let folders = [".", "rust", "docs", "docs/changes"];
    let mut files: Vec<String> = folders.into_iter().flat_map(documents).collect();
    assert!(files.len() > 20, "{files:?}");
    files.push("include/eif.h".to_string());
    for name in files {
        let text = repository_text(&name).to_lowercase().replace('\n', " ");
        for phrase in ["document 01", "the paper"] {
            assert!(!text.contains(phrase), "{name}: {phrase}");
        }
    }
}
