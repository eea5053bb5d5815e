//! `eif compare`: are two images, or rolls, for the same processor, and do they hold the same kernel, command
//! line and ramdisks in the same order?
//!
//! They do exactly where their rolls are equal, which is proved of the library. All else here is
//! words on where they differ.

use super::Command;
use crate::args::{Args, Options};
use crate::content::{self, Content};
use crate::input::{self, Arrived, Keep};
use crate::output;
use crate::status::{Status, Trouble};
use crate::words;
use eif::{Image, Refusal};
use replaced::{Replaced, REPLACE};
use side::Side;
use std::borrow::Cow;
use std::ffi::OsString;

mod difference;
mod elsewhere;
mod order;
mod replaced;
mod side;

pub const COMMAND: Command = Command {
    name: "compare",
    summary: "say whether two images boot the same content, and where they differ",
    help: &["\
usage: eif compare A B [--replace INDEX=FILE]

Says whether A and B have the same header flags, which tell the processor, and
hold the same kernel, command line and ramdisks in the same order. Each is an
image or a boot roll that eif roll has written. Prints
    same boot content
or
    different boot content
and then the first difference: which record, of which kind, and whether its kind,
its length or its bytes differ, and at which byte of the data. Record 0 is the
flags: where they differ, both processors are named, and the next difference is
told too. Where the ramdisks are the same in another order, it says so. What
differs elsewhere in two images (the other header fields, section flags,
metadata, signature) is listed after that; it is not part of the roll. Sections,
records and bytes count from 0.

  --replace INDEX=FILE   B is the image that would be written afresh with the data
                         of section INDEX of B replaced by FILE; it is not built,
                         and its reserved fields are not compared

Exit status: 0 same, 1 different or refused, 2 one cannot be read.
"],
    options: Options {
        flags: &[],
        values: &[REPLACE],
    },
    run,
};

fn run(args: Args) -> Result<Status, Trouble> {
    let names = args.operands(["A", "B"])?;
    let replaced = replaced::named(&args)?;
    let files = names.map(|name| name.to_os_string());
    input::one_standard_input(files.iter().chain(replaced.iter().map(|(_, file)| file)))?;
    let [a, b] = names.map(|name| input::arrive(name, Keep::All));
    let (a, b) = (a?, b?);
    let replaced = replaced.map(replaced::read).transpose()?;
    let of_b = match &replaced {
        None => accepted(&b),
        Some(replaced) => replaced::accepted(&b, replaced),
    };
    let (status, text) = match (accepted(&a), of_b) {
        (Ok(of_a), Ok(of_b)) => compare(&of_a, &of_b),
        (of_a, of_b) => {
            let refusals = [of_a.err(), of_b.err()];
            (
                Status::Refused,
                refusals.into_iter().flatten().flatten().collect(),
            )
        }
    };
    output::print(&text).map(|()| status)
}

/// What an input holds.
struct Accepted<'a> {
    name: OsString,
    /// If that is an image.
    image: Option<Image<'a>>,
    roll: Cow<'a, [u8]>,
    /// The section of the image that is replaced, as the roll has it.
    replaced: Option<&'a Replaced>,
}

/// The same, or its refusal in words.
fn accepted(input: &Arrived) -> Result<Accepted<'_>, Vec<u8>> {
    let (image, roll) = match content::of(input) {
        Ok(Content::Image(_)) => {
            image_and_roll(&input.bytes).map_err(|refusal| words::refusal(&input.name, &refusal))?
        }
        Ok(Content::Roll(roll)) => (None, Cow::Borrowed(roll.bytes())),
        Err(neither) => return Err(neither.lines(&input.name)),
    };
    Ok(Accepted {
        name: input.name.clone(),
        image,
        roll,
        replaced: None,
    })
}

fn image_and_roll(bytes: &[u8]) -> Result<(Option<Image<'_>>, Cow<'_, [u8]>), Refusal> {
    let image = eif::read(bytes)?;
    // A roll is shorter than its image, so that its length need not be asked for.
    let mut roll = vec![0; bytes.len()];
    let length = eif::write_roll(bytes, &mut roll)?;
    roll.truncate(length);
    Ok((Some(image), Cow::Owned(roll)))
}

fn compare(of_a: &Accepted, of_b: &Accepted) -> (Status, Vec<u8>) {
    let (a, b) = (Side::new("A", of_a), Side::new("B", of_b));
    let same = a.roll == b.roll;
    let (status, verdict): (_, &[u8]) = if same {
        (Status::Fine, b"same boot content\n")
    } else {
        (Status::Refused, b"different boot content\n")
    };
    let mut rows = Vec::new();
    rows.extend(difference::rows(&a, &b));
    rows.extend(order::changed(&a, &b));
    rows.extend(elsewhere::rows(&a, &b));
    let mut text = verdict.to_vec();
    if !rows.is_empty() {
        for (letter, side) in [("A", of_a), ("B", of_b)] {
            let name = words::shown(&side.name);
            text.extend([letter.as_bytes(), b" is ", &name, b"\n"].concat());
        }
    }
    for row in rows {
        text.extend_from_slice(row.as_bytes());
        text.push(b'\n');
    }
    (status, text)
}
