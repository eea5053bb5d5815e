//! `eif roll`: the boot roll of an image.

use super::Command;
use crate::args::Args;
use crate::output::{self, Output};
use crate::status::{Status, Trouble};
use crate::{help, input};

pub const COMMAND: Command = Command {
    name: "roll",
    summary: "write the boot roll of an image",
    help: &[
        "\
usage: eif roll IMAGE [--output FILE] [--force]

Writes the boot roll of an image: its header flags, which tell the processor, then
its kernel, command line and ramdisks in file order, with their lengths and bytes.
eif show and eif compare read it.

",
        help::OUTPUT,
        help::FORCE,
        help::WRITTEN,
    ],
    options: output::OPTIONS,
    run,
};

fn run(args: Args) -> Result<Status, Trouble> {
    let [image] = args.operands(["IMAGE"])?;
    let output = Output::of(&args)?;
    let image = input::read(image)?;
    match eif::roll_to_vec(&image.bytes) {
        Ok(roll) => output.write(&[&roll]).map(|()| Status::Fine),
        Err(refusal) => Ok(image.refused(&refusal)),
    }
}
