//! `eif registers`: the registers of images.

use super::Command;
use crate::args::{Args, Options};
use crate::status::{Status, Trouble};
use crate::{help, input, json, objects, output, words};
use eif::{Refusal, Registers};
use std::ffi::OsStr;

pub const COMMAND: Command = Command {
    name: "registers",
    summary: "compute the registers of an image",
    help: &[
        "\
usage: eif registers [--json] FILE..

Computes the registers of each image, as the platform measures it: three lines
    PCR0 HEX   of the stream whole: kernel, command line, every ramdisk
    PCR1 HEX   of the stream boot: kernel, command line, first ramdisk
    PCR2 HEX   of the stream app: the other ramdisks
each in the order in which they stand in the file. Where several files are named,
FILE and a colon stand before each line. Of a file that is refused: what eif show
says of it.

  --json    one object for each file, one a line, with the keys that nitro-cli
            describe-eif prints; the manual lists them
",
        help::ACCEPTED,
    ],
    options: Options {
        flags: &[json::FLAG],
        values: &[],
    },
    run,
};

type Answer = Result<Registers, Refusal>;

fn run(args: Args) -> Result<Status, Trouble> {
    let names = args.some_operands("FILE")?;
    let form = match names {
        _ if args.has(json::FLAG) => object,
        [_] => lines,
        _ => named_lines,
    };
    input::each(names, input::read, |input| {
        let answer = eif::registers(&input.bytes);
        output::print(&form(&input.name, &answer))?;
        Ok(answer.map_or(Status::Refused, |_| Status::Fine))
    })
}

fn lines(name: &OsStr, answer: &Answer) -> Vec<u8> {
    match answer {
        Ok(registers) => format!("{registers}\n").into_bytes(),
        Err(refusal) => words::refusal(name, refusal),
    }
}

fn named_lines(name: &OsStr, answer: &Answer) -> Vec<u8> {
    match answer {
        Ok(registers) => {
            let lines = registers.named();
            let lines = lines.map(|(pcr, value)| words::about(name, &format!("{pcr} {value}\n")));
            lines.collect::<Vec<_>>().concat()
        }
        Err(refusal) => words::refusal(name, refusal),
    }
}

fn object(name: &OsStr, answer: &Answer) -> Vec<u8> {
    let object = match answer {
        Ok(registers) => objects::put_measurements(objects::on_file(name, true), registers),
        Err(refusal) => objects::refused(name, refusal),
    };
    (object.text() + "\n").into_bytes()
}
