//! `eif split`: the records of a transfer of an image.

use super::Command;
use crate::args::Args;
use crate::output::{self, Output};
use crate::status::{Status, Trouble};
use crate::{help, input};
use eif::assembler;

pub const COMMAND: Command = Command {
    name: "split",
    summary: "make the records of an image, to be sent piece by piece",
    help: &[
        "\
usage: eif split IMAGE [--output FILE] [--force]

Writes the records that bring an image over a bad link, one after the other: an
open record of 18 bytes with the image's length, a record for each piece of 4,096
bytes (the last may be shorter), and a close record of 10 bytes. Each can be sent
by itself, in any order after the first, and as often as one likes; eif assemble
puts them together. A piece's record is 18 bytes longer than the piece.

",
        help::OUTPUT,
        help::FORCE,
        help::WRITTEN,
    ],
    options: output::OPTIONS,
    run,
};

fn run(args: Args) -> Result<Status, Trouble> {
    let [image] = args.operands(["IMAGE"])?;
    let output = Output::of(&args)?;
    let image = input::read(image)?;
    if let Err(refusal) = eif::read(&image.bytes) {
        return Ok(image.refused(&refusal));
    }
    let records: Vec<Vec<u8>> = assembler::records(&image.bytes).collect();
    let parts: Vec<&[u8]> = records.iter().map(|record| &record[..]).collect();
    output.write(&parts).map(|()| Status::Fine)
}
