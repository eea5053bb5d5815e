//! JSON texts and the stricter reading: the cases of every rule, a million texts beside the twin, and python3's
//! verdicts.
//!
//! The environment variables EIF_SEED and EIF_TIMES are those of `differential.rs`.

use eif::{json, raw};
use eif_cases::{image_cases, strict_cases, text_cases, Layout, Section, ACCEPTED};
use eif_check::{
    any_text, compare_image, compare_text, in_threads, json_text, refused_reading, variable, Rng,
    Tally,
};
use std::io::{self, Write};
use std::path::Path;
use std::process::{Command, Stdio};
use std::thread;

const SEED: u64 = 0x8259_3629;
const TEXTS: u64 = 1_000_000;
const IMAGES: u64 = 20_000;

/// What the texts of a run were.
#[derive(Clone, Copy, Debug, Default)]
struct Counts {
    texts: u64,
    stopped_early: u64,
    faults: u64,
}

impl Counts {
    fn add(&mut self, text: &[u8], place: Option<usize>) {
        match place {
            None => self.texts += 1,
            Some(place) if place == text.len() => self.stopped_early += 1,
            Some(_) => self.faults += 1,
        }
    }

    fn total(&self) -> u64 {
        self.texts + self.stopped_early + self.faults
    }
}

#[test]
fn cases_of_every_rule() {
    for (ordinal, case) in text_cases().iter().enumerate() {
        let place = compare_text(ordinal as u64, &case.text);
        let text = String::from_utf8_lossy(&case.text);
        assert_eq!(place, case.place, "{}: {text}", case.name);
    }
}

/// Verdict and place on a million texts, whole and damaged.
#[test]
fn library_and_twin_agree_on_texts() {
    let seed = variable("EIF_SEED", SEED);
    let total = TEXTS * variable("EIF_TIMES", 1);
    let counts = in_threads(total, |ordinals| {
        let mut counts = Counts::default();
        for ordinal in ordinals {
            let text = any_text(&mut Rng::of_input(seed, ordinal));
            counts.add(&text, compare_text(ordinal, &text));
        }
        counts
    });
    let sum = |of: fn(&Counts) -> u64| counts.iter().map(of).sum::<u64>();
    let all = [
        sum(|c| c.texts),
        sum(|c| c.stopped_early),
        sum(|c| c.faults),
    ];
    let [texts, stopped, faults] = all;
    let line = format!("{total} texts, seed {seed:#x}: {texts} are one, {stopped} stop early, {faults} have a byte at fault");
    writeln!(io::stderr(), "{line}").expect("standard error takes a line");
    assert_eq!(sum(Counts::total), total);
    // Each answer occurs often.
    assert!(all.iter().all(|&count| count > total / 20), "{line}");
}

/// What the grammar writes is a text.
#[test]
fn texts_of_the_grammar_are_texts() {
    for ordinal in 0..100_000 {
        let text = json_text(&mut Rng::of_input(!SEED, ordinal));
        assert_eq!(compare_text(ordinal, &text), None);
    }
}

/// After these bytes each rule of the grammar is in another place.
#[rustfmt::skip]
const BEGINNINGS: &[&[u8]] = &[
    b"", b" ", b"[", b"[ ", b"{", b"{\n", b"[1", b"[1 ", b"[1,", b"{\"\"", b"{\"\" ", b"{\"\":",
    b"{\"\":1", b"{\"\":1,", b"-", b"0", b"-0", b"1", b"12", b"1.", b"1.0", b"1e", b"1E+", b"1e-",
    b"1e5", b"[0", b"{\"\":-", b"t", b"tr", b"tru", b"true", b"f", b"fa", b"fal", b"fals", b"false",
    b"n", b"nu", b"nul", b"null", b"[null", b"\"", b"\"a", b"\"\\", b"\"\\u", b"\"\\u0", b"\"\\u00",
    b"\"\\u00a", b"\"\\u00aF", b"\"\\ud8", b"\"\xc2", b"\"\xe0", b"\"\xe0\xa0", b"\"\xe1",
    b"\"\xe1\x80", b"\"\xed", b"\"\xed\x80", b"\"\xee", b"\"\xef\xbb", b"\"\xf0", b"\"\xf0\x90",
    b"\"\xf0\x90\x80", b"\"\xf1", b"\"\xf1\x80", b"\"\xf4", b"\"\xf4\x80", b"\"\xf4\x80\x80",
    b"\"\"", b"{\"", b"{\"a\\", b"[\"\xc2", b"[]", b"{}", b"[[", b"[[]", b"[{", b"[{}",
];

/// Every two bytes after each beginning, and every byte where no more may be opened.
#[test]
fn every_two_bytes() {
    let count = BEGINNINGS.len() as u64;
    in_threads(count, |ordinals| {
        for ordinal in ordinals {
            let beginning = BEGINNINGS[ordinal as usize];
            let mut text = [beginning, &[0, 0]].concat();
            let end = beginning.len();
            for pair in 0..=u16::MAX {
                text[end..].copy_from_slice(&pair.to_be_bytes());
                compare_text(ordinal, &text);
            }
            for byte in 0..=u8::MAX {
                text[end] = byte;
                compare_text(ordinal, &text[..=end]);
                for around in 30..=32 {
                    let deep = [&b"[".repeat(around)[..], &text[..=end]].concat();
                    compare_text(ordinal, &deep);
                }
            }
        }
    });
}

/// The bytes tried to end a text, those that close first.
const ENDINGS: &[u8] = b"\"]}:0aelrsu\x80\x90\xa0";

/// A text that begins with `beginning`, if one is found.
fn completed(beginning: &[u8]) -> Option<Vec<u8>> {
    let mut text = beginning.to_vec();
    for _ in 0..300 {
        if json::check(&text).is_ok() {
            return Some(text);
        }
        let goes_on = |&&byte: &&u8| {
            let longer = [&text[..], &[byte]].concat();
            json::check(&longer).map_or_else(|fault| fault.byte().is_none(), |()| true)
        };
        let next = *ENDINGS.iter().find(goes_on)?;
        text.push(next);
    }
    None
}

/// The bytes before the place can begin a text: here is one. With the byte at the place they cannot,
/// whatever follows.
#[test]
fn the_place_is_the_first() {
    for ordinal in 0..60_000 {
        let mut rng = Rng::of_input(SEED.rotate_left(32), ordinal);
        let text = any_text(&mut rng);
        let Some(place) = compare_text(ordinal, &text) else {
            continue;
        };
        let whole = completed(&text[..place]);
        let whole = whole.unwrap_or_else(|| panic!("nothing completes {text:02x?} before {place}"));
        assert!(whole.starts_with(&text[..place]));
        assert_eq!(compare_text(ordinal, &whole), None);
        if place < text.len() {
            let more = json_text(&mut rng);
            let other = [&text[..=place], &more].concat();
            assert_eq!(compare_text(ordinal, &other), Some(place));
        }
    }
}

/// What tests/json_verdicts.py says of texts, if there is a `python3`: whether each is one.
fn python_verdicts(texts: &[Vec<u8>]) -> Option<Vec<bool>> {
    let script = Path::new(env!("CARGO_MANIFEST_DIR")).join("../../tests/json_verdicts.py");
    let mut python = Command::new("python3");
    python.arg(script);
    python.stdin(Stdio::piped()).stdout(Stdio::piped());
    let mut python = python.spawn().ok()?;
    let mut input = python.stdin.take().expect("a pipe");
    let line = |text: &Vec<u8>| {
        let digits: String = text.iter().map(|byte| format!("{byte:02x}")).collect();
        digits + "\n"
    };
    let lines: String = texts.iter().map(line).collect();
    let writer = thread::spawn(move || input.write_all(lines.as_bytes()));
    let output = python.wait_with_output().expect("python3 ends");
    writer.join().unwrap().expect("python3 reads its input");
    assert!(output.status.success());
    let said = String::from_utf8(output.stdout).expect("words");
    Some(said.lines().map(|word| word == "text").collect())
}

/// A parser that shares nothing with the library or the twin takes the same bytes for texts.
#[test]
fn python_agrees() {
    let mut texts: Vec<Vec<u8>> = text_cases().into_iter().map(|case| case.text).collect();
    texts.extend((0..40_000).map(|ordinal| {
        let text = any_text(&mut Rng::of_input(!SEED.rotate_left(32), ordinal));
        match json::check(&text) {
            // What completes a beginning shows that the place is not too early.
            Err(fault) if ordinal % 2 == 0 => completed(&text[..fault.place()]).unwrap_or_default(),
            _ => text,
        }
    }));
    let Some(verdicts) = python_verdicts(&texts) else {
        eprintln!("skipped: no program `python3`");
        return;
    };
    assert_eq!(verdicts.len(), texts.len());
    for (text, verdict) in texts.iter().zip(verdicts) {
        let shown = String::from_utf8_lossy(text);
        assert_eq!(json::check(text).is_ok(), verdict, "{text:02x?}: {shown}");
    }
}

/// Cut anywhere, a text in brackets only stops early.
#[test]
fn a_text_that_was_cut_stops_early() {
    for ordinal in 0..5_000 {
        let mut rng = Rng::of_input(SEED.rotate_left(16), ordinal);
        let text = [b"{\"a\":", &json_text(&mut rng)[..], b"}"].concat();
        if json::check(&text).is_err() {
            // One too deep, with these brackets around it.
            continue;
        }
        for length in 0..text.len() {
            assert_eq!(compare_text(ordinal, &text[..length]), Some(length));
        }
    }
}

/// Time and stack do not grow with the depth of what is read.
#[test]
fn a_text_of_brackets_alone() {
    for bracket in [b'[', b'{', b']', b'"', b' ', b'-', b'1'] {
        let text = vec![bracket; 1 << 20];
        compare_text(u64::from(bracket), &text);
    }
}

#[test]
fn strict_readings() {
    for case in strict_cases().iter().chain(&image_cases()) {
        let reading = raw::read_strict(&case.image);
        let ordinary = raw::read(&case.image);
        if ordinary.number != 0 {
            assert_eq!(reading, ordinary, "{}", case.name);
        }
    }
    for case in strict_cases() {
        let reading = raw::read_strict(&case.image);
        let expected = match case.answer {
            (0, ..) => raw::read(&case.image),
            refusal => refused_reading(refusal),
        };
        assert_eq!(reading, expected, "{}", case.name);
    }
}

/// A version 4 image with this metadata among other sections, which are JSON or not.
fn image_with(rng: &mut Rng, metadata: &[u8]) -> (Vec<u8>, usize) {
    let mut sections = vec![Section::new(1, b"kernel"), Section::new(2, b"{}")];
    for _ in 0..rng.below(4) {
        let text = any_text(rng);
        sections.push(Section::new(3, &text));
    }
    let index = rng.below(sections.len() + 1);
    sections.insert(index, Section::new(5, metadata));
    (Layout::new(4, sections).image(), index)
}

/// Strict accepts exactly where the ordinary reading accepts and the metadata is a text.
#[test]
fn library_and_twin_agree_on_metadata() {
    let seed = variable("EIF_SEED", SEED);
    let total = IMAGES * variable("EIF_TIMES", 1);
    in_threads(total, |ordinals| {
        let mut tally = Tally::default();
        for ordinal in ordinals {
            let mut rng = Rng::of_input(seed.rotate_left(48), ordinal);
            let metadata = any_text(&mut rng);
            let place = compare_text(ordinal, &metadata);
            let (image, index) = image_with(&mut rng, &metadata);
            compare_image(&mut rng, ordinal, &image, &mut tally);
            let reading = raw::read_strict(&image);
            let answer = (reading.number, reading.index, reading.position);
            let section = raw::read(&image).sections[index];
            let expected = match place {
                None => ACCEPTED,
                Some(_) => (21, index as u64, section.position.0),
            };
            assert_eq!(answer, expected, "{metadata:02x?}");
        }
    });
}
