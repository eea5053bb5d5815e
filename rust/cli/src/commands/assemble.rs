//! `eif assemble`: an image from the records of a transfer, kept so that a power cut loses nothing.

use super::Command;
use crate::args::Args;
use crate::disk::System;
use crate::progress::Progress;
use crate::records::Records;
use crate::status::{complain, Status, Trouble};
use crate::transfer::{Taken, Transfer};
use crate::{help, input, output, words};
use std::ffi::{OsStr, OsString};
use std::fs::File;
use std::io::{self, Read};

pub const COMMAND: Command = Command {
    name: "assemble",
    summary: "put an image together from records, in any order",
    help: &[
        "\
usage: eif assemble --output FILE [--force] [RECORDS..]

Takes the records that eif split makes, one after the other, from files or, where
none is named, from standard input: in any order after the open record, and any of
them twice. At the close record the image is checked, and if it is accepted it is
put in its place as FILE, in one step:
    FILE: accepted
Until then FILE.part has its bytes and FILE.marks says which of them are there.
The command can be stopped at any time, by a power cut too: called again, it goes
on with what is on the disk. Where the records end before the transfer is closed:
    FILE: not closed yet: 3 of 7 pieces held, the first missing at byte 4096
A record that is refused changes nothing, and the next one is taken; it is told on
standard error, records counted from 0:
    RECORDS: record 2: refused 25 at 0 byte 0: piece already held with other bytes
An image that is refused is left in FILE.part, and the transfer is over. To give a
transfer up, remove FILE.part and FILE.marks. It needs memory for the image.

  --output FILE   where the image goes; always needed
",
        help::FORCE,
        "\n\
Exit status: 0 the image is accepted and stands in FILE, 1 it is refused or the
transfer is not closed yet, 2 wrong usage, input or output trouble.
",
    ],
    options: output::OPTIONS,
    run,
};

fn run(args: Args) -> Result<Status, Trouble> {
    let file = args.needed(output::VALUE)?;
    let names = match args.any_operands() {
        [] => &[OsString::from("-")],
        names => names,
    };
    input::one_standard_input(names)?;
    if file == "-" {
        return Err(Trouble::usage("--output needs the name of a file here"));
    }
    let force = args.has(output::FLAG);
    let mut transfer = Transfer::resume(System, &file, force)?;
    output::check_place(&file, force)?;
    let mut status = Status::Refused;
    for name in names {
        match take_all(&mut transfer, &file, name) {
            Ok(true) => return Ok(Status::Fine),
            Ok(false) => {}
            // The other inputs may bring what is missing.
            Err(Stop::Input(trouble)) => status = trouble.report(),
            Err(Stop::Transfer(trouble)) => return Err(trouble),
        }
    }
    let standing = transfer.standing() + "\n";
    output::print(&words::about(&file, &standing))?;
    Ok(status)
}

/// What keeps an input from being taken to its end.
enum Stop {
    /// It cannot be read.
    Input(Trouble),
    /// The transfer cannot be kept, or what became of it not be told.
    Transfer(Trouble),
}

/// Takes the records of an input. Answers whether the image is in its place; the rest is then not read.
fn take_all(transfer: &mut Transfer<System>, file: &OsStr, name: &OsStr) -> Result<bool, Stop> {
    let source: Box<dyn Read> = if name == "-" {
        Box::new(io::stdin().lock())
    } else {
        let opened = File::open(name);
        Box::new(opened.map_err(|error| Stop::Input(Trouble::system(name, error)))?)
    };
    let progress = Progress::start(name);
    let mut records = Records::new(source);
    let mut index = 0;
    loop {
        while let Some(record) = records.ready() {
            if take(transfer, file, name, index, &record).map_err(Stop::Transfer)? {
                return Ok(true);
            }
            index += 1;
        }
        // Nothing is waited for while something is not on the disk.
        transfer.keep().map_err(Stop::Transfer)?;
        let came = records.wait();
        let came = came.map_err(|error| Stop::Input(Trouble::system(name, error)))?;
        progress.add(came);
        if came == 0 {
            break;
        }
    }
    if let Some(cut) = records.rest() {
        take(transfer, file, name, index, &cut).map_err(Stop::Transfer)?;
    }
    Ok(false)
}

/// Takes one record and tells what became of it. Answers whether the image is in its place.
fn take(
    transfer: &mut Transfer<System>,
    file: &OsStr,
    name: &OsStr,
    index: u64,
    record: &[u8],
) -> Result<bool, Trouble> {
    match transfer.take(record)? {
        Taken::Record => Ok(false),
        Taken::Refused(refusal) => {
            complain(&words::about(name, &format!("record {index}: {refusal}\n")));
            Ok(false)
        }
        Taken::Image => output::print(&words::about(file, "accepted\n")).map(|()| true),
        Taken::RefusedImage(refusal) => {
            output::print(&words::refusal(transfer.part(), &refusal))?;
            Ok(false)
        }
    }
}
