//! `eif stage`: the fingerprint and the registers of an image with one section replaced, before that image
//! is written.

use super::Command;
use crate::args::{self, Args, Options};
use crate::input::{self, Input};
use crate::output::{self, Output};
use crate::status::{complain, Status, Trouble};
use crate::{help, json, objects, words};
use eif::{staged, Fingerprint, Refusal, Registers};
use std::ffi::OsStr;

pub const COMMAND: Command = Command {
    name: "stage",
    summary: "say what an image would be with one section replaced",
    help: &[
        "\
usage: eif stage BASE INDEX REPLACEMENT [--json] [--output FILE] [--force]

Says what the image would be that is written afresh with the data of section INDEX
of BASE, as eif show numbers the sections, replaced by the file REPLACEMENT:
    roll HEX   the SHA-384 of its boot roll, as of what eif roll writes
    PCR0 HEX   its registers, as eif registers computes them
    PCR1 HEX
    PCR2 HEX
No image is written for that.

  --json          one object; the manual lists its keys
  --output FILE   also write that image to FILE, whole or not at all; - is standard
                  output, and then nothing else is printed there
",
        help::FORCE,
        "\n\
Exit status: 0 accepted, 1 refused, 2 wrong usage, input or output trouble.
",
    ],
    options: Options {
        flags: &[json::FLAG, output::FLAG],
        values: &[output::VALUE],
    },
    run,
};

/// A base, and what stands for the data of one of its sections.
struct Staged {
    base: Input,
    index: usize,
    replacement: Input,
}

/// What the image written afresh has, and its bytes where they are asked for.
struct Afresh<'a> {
    fingerprint: Fingerprint,
    registers: Registers,
    image: Option<staged::Reader<'a>>,
}

fn run(args: Args) -> Result<Status, Trouble> {
    let [base, index, replacement] = args.operands(["BASE", "INDEX", "REPLACEMENT"])?;
    let index = args::index(index)?;
    input::one_standard_input(&[base, replacement].map(OsStr::to_os_string))?;
    let output = Output::of(&args)?;
    let named = args.one(output::VALUE)?;
    let staged = Staged {
        base: input::read(base)?,
        index,
        replacement: input::read(replacement)?,
    };
    let form = if args.has(json::FLAG) { object } else { lines };
    let mut answer = afresh(&staged, named.is_some());
    let text = form(&staged, &answer);
    let image_alone = named.is_some_and(|name| name == "-");
    match &mut answer {
        Err(_) if image_alone => complain(&text),
        Err(_) => output::print(&text)?,
        Ok(afresh) => {
            if let Some(image) = &mut afresh.image {
                output.copy(image)?;
            }
            if !image_alone {
                output::print(&text)?;
            }
        }
    }
    Ok(answer.map_or(Status::Refused, |_| Status::Fine))
}

fn afresh(staged: &Staged, with_image: bool) -> Result<Afresh<'_>, Refusal> {
    let (base, replacement) = (&staged.base.bytes, &staged.replacement.bytes);
    let reader = || staged::Reader::new(base, replacement, staged.index);
    Ok(Afresh {
        fingerprint: staged::fingerprint(base, replacement, staged.index)?,
        registers: staged::registers(base, replacement, staged.index)?,
        image: with_image.then(reader).transpose()?,
    })
}

fn lines(staged: &Staged, answer: &Result<Afresh, Refusal>) -> Vec<u8> {
    match answer {
        Ok(afresh) => format!("roll {}\n{}\n", afresh.fingerprint, afresh.registers).into_bytes(),
        Err(refusal) => refused(staged, refusal),
    }
}

/// The base's own refusal is told as that of any image; one of the image written afresh, which is no file,
/// has no place in one.
fn refused(staged: &Staged, refusal: &Refusal) -> Vec<u8> {
    let base = &staged.base;
    if eif::read(&base.bytes).is_err() {
        return words::refusal(&base.name, refusal);
    }
    let name = words::staged(&base.name, staged.index, &staged.replacement.name);
    words::staged_refusal(&name, refusal)
}

fn object(staged: &Staged, answer: &Result<Afresh, Refusal>) -> Vec<u8> {
    let name = &staged.base.name;
    let object = match answer {
        Ok(afresh) => {
            let replacement = staged.replacement.name.to_string_lossy();
            let object = objects::on_file(name, true)
                .put("replaced", staged.index)
                .put("replacement", json::string(&replacement))
                .put("roll", json::string(&afresh.fingerprint.to_string()));
            objects::put_measurements(object, &afresh.registers)
        }
        Err(refusal) => objects::refused(name, refusal),
    };
    (object.text() + "\n").into_bytes()
}
