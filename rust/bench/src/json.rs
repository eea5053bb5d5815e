//! Checking JSON texts, beside the twin and beside what people use today.

use crate::scratch::Scratch;
use crate::table::row;
use crate::timing::{compare, times};
use eif_twin as twin;
use std::hint::black_box;
use std::path::Path;
use std::process::{Command, Stdio};
use std::{fs, io};

/// A kind of text: its name, what it begins and ends with, and what is repeated between.
struct Kind {
    name: &'static str,
    begin: &'static str,
    part: &'static str,
    end: &'static str,
}

const KINDS: [Kind; 4] = [
    Kind {
        name: "JSON check, records",
        begin: "[",
        part: "{\"ImageName\": \"river-road\", \"ImageVersion\": \"1\", \"Sizes\": [548, 12, 1073741824], \
               \"Ratio\": -0.25e-3, \"Signed\": false, \"Note\": \"first the w\\u00e4rning, then the all clear\"},\n",
        end: "null]",
    },
    Kind {
        name: "JSON check, one string",
        begin: "\"",
        part: "The all clear reached phones ahead of its warning. ",
        end: "\"",
    },
    Kind {
        name: "JSON check, beyond ASCII",
        begin: "\"",
        part: "Größe, длина, 長さ, 😀 ",
        end: "\"",
    },
    Kind {
        name: "JSON check, brackets",
        begin: "[",
        part: "[[[]],{\"\":0}],",
        end: "0]",
    },
];

impl Kind {
    /// A text of exactly `length` bytes: the part as often as there is room, then spaces.
    fn text(&self, length: usize) -> Vec<u8> {
        let room = length - self.begin.len() - self.end.len();
        let parts = self.part.repeat(room / self.part.len());
        let mut text = [self.begin, &parts, self.end].concat().into_bytes();
        text.resize(length, b' ');
        text
    }
}

/// A row for each kind of text of `length` bytes.
pub fn beside_twin(length: usize) {
    for kind in &KINDS {
        let text = kind.text(length);
        let times = compare(
            || usize::from(eif::json::check(black_box(&text)).is_ok()),
            || usize::from(twin::check_json(black_box(&text)).is_ok()),
        );
        assert_eq!(eif::json::check(&text), Ok(()));
        row(kind.name, length, times);
    }
}

/// Programs that read a JSON file and end with status 0 where it is one.
pub const PROGRAMS: [(&str, &[&str]); 2] = [
    (
        "python3",
        &["-c", "import json, sys; json.load(open(sys.argv[1], 'rb'))"],
    ),
    ("jq", &["empty"]),
];

fn run(program: &str, words: &[&str], file: &Path) -> io::Result<bool> {
    let mut command = Command::new(program);
    command.args(words).arg(file);
    command.stdout(Stdio::null()).stderr(Stdio::null());
    command.status().map(|status| status.success())
}

/// Records in a file of `length` bytes beside a program, whose time on a file of two bytes is taken off.
pub fn beside_program(program: &str, words: &[&str], length: usize) -> io::Result<()> {
    let small = Scratch::new("small.json", b"{}")?;
    let full = Scratch::new("full.json", &KINDS[0].text(length))?;
    let accepts = |file: &Scratch| run(program, words, file.path());
    if !(accepts(&small)? && accepts(&full)?) {
        return Err(io::Error::other("it does not accept a JSON text"));
    }
    let check = || fs::read(full.path()).map(|text| usize::from(eif::json::check(&text).is_ok()));
    let [library, start, whole] = times([
        &mut || check().unwrap_or(0),
        &mut || usize::from(accepts(&small).unwrap_or(false)),
        &mut || usize::from(accepts(&full).unwrap_or(false)),
    ]);
    row("JSON file, records", length, (library, whole - start));
    Ok(())
}
