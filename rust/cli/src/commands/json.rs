//! `eif json`: whether files are JSON texts.

use super::Command;
use crate::args::{Args, Options};
use crate::input::{self, Input};
use crate::status::{Status, Trouble};
use crate::{output, words};
use eif::json::{self, Fault};
use std::ffi::OsStr;
use std::io;

pub const COMMAND: Command = Command {
    name: "json",
    summary: "say of each file whether it is one JSON text",
    help: &["\
usage: eif json FILE..

Says whether a file is exactly one JSON text (RFC 8259) in UTF-8, with at most 32
arrays or objects open at once, as the metadata of an image should be. It prints
    text
or the place of the first byte that no such text can have after the bytes before
it, or the end where the text only stops:
    byte 12: no such text can have 0x2c here
    byte 17: the text ends too early
Bytes are counted from 0. Where several files are named, FILE and a colon stand
before each line.

Exit status: 0 all are texts, 1 one is none, 2 one cannot be read.
"],
    options: Options {
        flags: &[],
        values: &[],
    },
    run,
};

type Answer = Result<(), Fault>;

fn run(args: Args) -> Result<Status, Trouble> {
    let names = args.some_operands("FILE")?;
    let form = match names {
        [_] => |_: &OsStr, line: &str| line.as_bytes().to_vec(),
        _ => words::about,
    };
    input::each(names, checked, |(input, answer)| {
        let line = match answer {
            Ok(()) => "text\n".to_string(),
            Err(fault) => format!("{fault}\n"),
        };
        output::print(&form(&input.name, &line))?;
        Ok(answer.map_or(Status::Refused, |()| Status::Fine))
    })
}

/// Has an input checked. Of one that is longer than any image not all is read, so that only a byte at fault
/// among what was read is an answer.
fn checked(name: &OsStr) -> Result<(Input, Answer), Trouble> {
    let input = input::read(name)?;
    let answer = json::check(&input.bytes);
    let inside = answer.is_err_and(|fault| fault.byte().is_some());
    if input.bytes.len() > eif::MAX_IMAGE_LENGTH && !inside {
        let longer = io::Error::other("longer than any image, so not read to its end");
        return Err(Trouble::system(name, longer));
    }
    Ok((input, answer))
}
