//! `eif stream`: a measured stream of an image.

use super::Command;
use crate::args::Args;
use crate::output::{self, Output};
use crate::status::{Status, Trouble};
use crate::{help, input, words};
use eif::Stream;
use std::ffi::OsStr;

pub const COMMAND: Command = Command {
    name: "stream",
    summary: "write one of an image's measured streams",
    help: &[
        "\
usage: eif stream IMAGE whole|boot|app [--output FILE] [--force]

Writes the bytes of a measured stream of an image, its sections in file order:
    whole   kernel, command line and every ramdisk
    boot    kernel, command line and the first ramdisk if there is one
    app     the ramdisks but the first

",
        help::OUTPUT,
        help::FORCE,
        help::WRITTEN,
    ],
    options: output::OPTIONS,
    run,
};

fn run(args: Args) -> Result<Status, Trouble> {
    let [image, stream] = args.operands(["IMAGE", "whole, boot or app"])?;
    let stream = named(stream)?;
    let output = Output::of(&args)?;
    let image = input::read(image)?;
    match eif::read(&image.bytes) {
        Ok(read) => {
            let sections: Vec<&[u8]> = read.stream_sections(stream).collect();
            output.write(&sections).map(|()| Status::Fine)
        }
        Err(refusal) => Ok(image.refused(&refusal)),
    }
}

fn named(name: &OsStr) -> Result<Stream, Trouble> {
    let name = words::shown_text(name);
    name.parse()
        .map_err(|_| Trouble::usage(format!("no stream {name}: whole, boot or app")))
}
