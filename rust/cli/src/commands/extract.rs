//! `eif extract`: the data of one section.

use super::Command;
use crate::args::{self, Args};
use crate::output::{self, Output};
use crate::status::{Status, Trouble};
use crate::{help, input, words};

pub const COMMAND: Command = Command {
    name: "extract",
    summary: "write the data of one section",
    help: &[
        "\
usage: eif extract IMAGE INDEX [--output FILE] [--force]

Writes the data of section INDEX, as eif show numbers the sections, from 0.

",
        help::OUTPUT,
        help::FORCE,
        "\n\
Exit status: 0 written, 1 the image is refused, 2 there is no such section, wrong
usage, input or output trouble.
",
    ],
    options: output::OPTIONS,
    run,
};

fn run(args: Args) -> Result<Status, Trouble> {
    let [image, index] = args.operands(["IMAGE", "INDEX"])?;
    let index = args::index(index)?;
    let output = Output::of(&args)?;
    let input = input::read(image)?;
    let image = match eif::read(&input.bytes) {
        Ok(image) => image,
        Err(refusal) => return Ok(input.refused(&refusal)),
    };
    let Some((_, data)) = image.get(index) else {
        let count = image.sections().len();
        return Err(Trouble::usage(format!(
            "{}: no section {index}: there are {count}, from 0 on",
            words::shown_text(&input.name)
        )));
    };
    output.write(&[data]).map(|()| Status::Fine)
}
