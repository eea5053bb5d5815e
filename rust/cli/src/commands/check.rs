//! `eif check`: one line a file.

use super::Command;
use crate::args::{Args, Options};
use crate::input::{self, Keep};
use crate::status::{Status, Trouble};
use crate::{help, output, words};

pub const COMMAND: Command = Command {
    name: "check",
    summary: "say of each image whether it is accepted",
    help: &[
        "\
usage: eif check [--strict] [--quiet | --explain] FILE..

Reads each image as it comes, keeps none of it, and prints one line for it, as
    FILE: accepted
    FILE: refused 13 at 0 byte 544: checksum differs
eif show says of such a file what stands at that byte and what to do.

  --strict    refuse metadata that is not one JSON text too, by 21; this needs memory
              for the image
  --explain   a second line: of an accepted image what its checksum promises,
              of a refused one what to do
  --quiet     print nothing; the exit status tells
",
        help::ACCEPTED,
    ],
    options: Options {
        flags: &[input::STRICT, "--explain", "--quiet"],
        values: &[],
    },
    run,
};

/// What is proved of the checksum of an accepted image, and what is not.
const PROMISE: &str = "  the checksum promises: no damage within four neighbouring bytes outside bytes 544 to \
    547, and none to these alone, made this file of another accepted one; farther damage, a stretch \
    that reaches into these bytes, and changes on purpose are not promised to be seen\n";

fn run(args: Args) -> Result<Status, Trouble> {
    let names = args.some_operands("FILE")?;
    input::each(names, input::reader(&args, Keep::Nothing), |input| {
        let (status, verdict, why) = match &input.answer {
            Ok(_) => (Status::Fine, "accepted".to_string(), PROMISE.to_string()),
            Err(refusal) => {
                let advice = refusal.reason().advice();
                let why = format!("  what to do: {advice}\n");
                (Status::Refused, refusal.to_string(), why)
            }
        };
        if !args.has("--quiet") {
            let why = if args.has("--explain") { &why } else { "" };
            output::print(&words::about(&input.name, &format!("{verdict}\n{why}")))?;
        }
        Ok(status)
    })
}
