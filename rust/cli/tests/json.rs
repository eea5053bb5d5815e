//! `eif json`, the stricter reading of `eif check` and `eif show`, and `eif pack`, which looks at metadata.

mod common;

use common::json::{parse, Value};
use common::{Ended, Folder};
use eif::Reason;
use eif_cases::{image_cases, strict_cases, text_cases, ACCEPTED};
use std::process::Command;

const PACK: &str =
    "pack --kernel kernel --cmdline quiet --ramdisk old --metadata half --output half.eif";

/// What `eif json` prints of bytes whose fault is at `place`.
fn line(text: &[u8], place: Option<usize>) -> String {
    match place.map(|place| (place, text.get(place))) {
        None => "text\n".to_string(),
        Some((place, Some(byte))) => {
            format!("byte {place}: no such text can have 0x{byte:02x} here\n")
        }
        Some((place, None)) => format!("byte {place}: the text ends too early\n"),
    }
}

#[test]
fn texts_and_places() {
    let folder = Folder::new();
    // One process for many files.
    for cases in text_cases().chunks(40) {
        let (mut names, mut lines, mut worst) = (vec!["json".to_string()], String::new(), 0);
        for (ordinal, case) in cases.iter().enumerate() {
            let name = format!("case-{ordinal}");
            folder.put(&name, &case.text);
            lines += &format!("{name}: {}", line(&case.text, case.place));
            worst = worst.max(i32::from(case.place.is_some()));
            names.push(name);
        }
        folder.run(&names).says(worst, &lines);
    }
}

#[test]
fn one_file_has_bare_lines() {
    let folder = Folder::new();
    folder.put("whole", b" {\"a\": [1, 2]}\n");
    folder.put("wrong", b"{\"a\": [1, 2],, }");
    folder.put("cut", b"{\"a\": [1, 2");
    folder.put("empty", b"");
    folder.eif("json whole").says(0, "text\n");
    let wrong = "byte 13: no such text can have 0x2c here\n";
    folder.eif("json wrong").says(1, wrong);
    folder
        .eif("json cut")
        .says(1, "byte 11: the text ends too early\n");
    folder
        .eif("json empty")
        .says(1, "byte 0: the text ends too early\n");
    folder.eif_with_input("json -", b"null").says(0, "text\n");
    folder
        .eif_with_input("json whole -", b"nul")
        .says(1, "whole: text\n-: byte 3: the text ends too early\n");
}

#[test]
fn the_other_files_are_still_looked_at() {
    let folder = Folder::new();
    folder.put("whole", b"{}");
    let ended = folder.eif("json gone whole");
    assert_eq!((ended.status, ended.text()), (2, "whole: text\n"));
    assert!(ended.error.starts_with("eif: gone: "));
}

/// A byte at fault is the answer, also of an input without end; that it may be a text is not.
#[test]
#[ignore = "keeps a GiB in memory: make test-large"]
fn large_input_is_not_taken_for_a_text() {
    let folder = Folder::new();
    folder
        .eif("json /dev/zero")
        .says(1, "byte 0: no such text can have 0x00 here\n");
    let spaces = " ".repeat(1 << 16);
    let script = format!("{{ printf '[1,'; yes '{spaces}'; }} | exec \"$0\" json -");
    let mut command = Command::new("sh");
    command.args(["-c", &script, env!("CARGO_BIN_EXE_eif")]);
    let ended: Ended = command.output().unwrap().into();
    ended.complains(2, "eif: -: longer than any image, so not read to its end\n");
}

/// An image whose metadata was cut before it was packed, and a whole one.
fn half() -> Folder {
    let folder = Folder::new();
    folder.pack("whole.eif", &["old"], "--metadata metadata");
    folder.put("half", b"{\"ImageName\": \"river-");
    folder.eif(&format!("{PACK} --no-check")).says(0, "");
    folder
}

const REFUSED: &str = "half.eif: refused 21 at 2 byte 599: metadata is not one JSON text\n";

#[test]
fn the_ordinary_reading_is_unchanged() {
    let folder = half();
    folder
        .eif("check half.eif whole.eif")
        .says(0, "half.eif: accepted\nwhole.eif: accepted\n");
    assert_eq!(folder.eif("show half.eif").status, 0);
    assert_eq!(folder.eif("show --json half.eif").status, 0);
    assert_eq!(folder.eif("roll half.eif").status, 0);
}

#[test]
fn a_strict_check() {
    let folder = half();
    let lines = format!("{REFUSED}whole.eif: accepted\n");
    folder
        .eif("check --strict half.eif whole.eif")
        .says(1, &lines);
    folder.eif("check --strict --quiet half.eif").says(1, "");
    folder.eif("check --strict --quiet whole.eif").says(0, "");
    let half = folder.get("half.eif");
    folder
        .eif_with_input("check --strict -", &half)
        .says(1, &REFUSED.replace("half.eif", "-"));
}

#[test]
fn a_strict_show() {
    let folder = half();
    let advice = "  what to do: do not use it; tell the builder\n";
    let data = "  byte 599: section 2's data\n";
    let place = "  in the metadata: byte 21: the text ends too early\n";
    folder
        .eif("show --strict half.eif")
        .says(1, &format!("{REFUSED}{data}{advice}{place}"));
    let shown = folder.eif("show whole.eif");
    folder.eif("show --strict whole.eif").says(0, shown.text());
    let shown = folder.eif("show --json whole.eif");
    folder
        .eif("show --strict --json whole.eif")
        .says(0, shown.text());
    // A roll has no metadata.
    folder.eif("roll half.eif --output roll").says(0, "");
    let shown = folder.eif("show roll");
    assert_eq!(shown.status, 0);
    folder.eif("show --strict roll").says(0, shown.text());
}

#[test]
fn a_strict_object() {
    let folder = half();
    let ended = folder.eif("show --strict --json half.eif");
    assert_eq!(ended.status, 1);
    let object = parse(ended.text().trim_end());
    let keys = "file accepted number index position meaning place";
    assert_eq!(object.keys().join(" "), keys);
    assert_eq!(*object.get("number"), Value::Number(21));
    assert_eq!(*object.get("index"), Value::Number(2));
    assert_eq!(*object.get("position"), Value::Number(599));
    assert_eq!(*object.get("place"), Value::Number(21));
}

#[test]
fn strict_cases_are_told() {
    let folder = Folder::new();
    let cases = || strict_cases().into_iter().step_by(7);
    // What is refused at all is refused alike.
    let others = image_cases()
        .into_iter()
        .filter(|case| case.answer != ACCEPTED);
    for case in cases().chain(others) {
        folder.put("case", &case.image);
        let ended = folder.eif("check --strict case");
        let (number, index, position) = case.answer;
        match Reason::from_number(number) {
            None => ended.says(0, "case: accepted\n"),
            Some(reason) => {
                let refusal = format!("refused {number} at {index} byte {position}");
                ended.says(1, &format!("case: {refusal}: {reason}\n"));
            }
        }
    }
}

#[test]
fn metadata_that_is_not_json_is_not_packed() {
    let folder = half();
    folder.put("wrong", b"{\"a\": 1,}");
    let (before, image) = (folder.names(), folder.get("half.eif"));
    let advice = "  what to do: mend it; --no-check packs it as it is\n";
    let cut = "not one JSON text: byte 21: the text ends too early";
    folder
        .eif(&format!("{PACK} --force"))
        .complains(1, &format!("half: {cut}\n{advice}"));
    let comma = "not one JSON text: byte 8: no such text can have 0x7d here";
    folder
        .eif(&PACK.replace("half", "wrong"))
        .complains(1, &format!("wrong: {comma}\n{advice}"));
    let by_pipe = PACK.replace("--metadata half", "--metadata - --force");
    folder.eif_with_input(&by_pipe, b"").complains(
        1,
        &format!("-: not one JSON text: byte 0: the text ends too early\n{advice}"),
    );
    assert_eq!((folder.names(), folder.get("half.eif")), (before, image));
}

/// The library's refusal of the plan goes first.
#[test]
fn a_plan_is_judged_before_its_metadata() {
    let folder = half();
    let ended = folder.eif(&format!("{PACK} --force --format 3"));
    let refusal = "refused 9 at 2 byte 0: type not allowed in this version";
    ended.complains(1, &format!("half.eif: {refusal}\n"));
}

#[test]
fn metadata_is_packed_as_it_is() {
    let folder = half();
    folder
        .eif("extract half.eif 2")
        .says(0, "{\"ImageName\": \"river-");
    // White space and a file's last newline stay.
    folder.put("half", b" {}\n");
    folder.eif(&format!("{PACK} --force")).says(0, "");
    folder.eif("extract half.eif 2").says(0, " {}\n");
    folder
        .eif("check --strict half.eif")
        .says(0, "half.eif: accepted\n");
    // Without metadata there is nothing to check.
    folder.pack("none.eif", &["old"], "");
    folder
        .eif("check --strict none.eif")
        .says(0, "none.eif: accepted\n");
}
