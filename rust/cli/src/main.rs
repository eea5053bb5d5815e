//! The command `eif`: it opens files, calls the proved library and prints what the library answers.
//!
//! It judges nothing itself, but for the structure around the signatures of a signature section. Each
//! subcommand is a file in `commands`; what they share stands in the other modules.
#![forbid(unsafe_code)]

mod args;
mod commands;
mod content;
mod disk;
mod help;
mod input;
mod json;
mod objects;
mod output;
mod progress;
mod records;
mod status;
mod transfer;
mod words;

use commands::{Command, COMMANDS};
use status::{Status, Trouble};
use std::env;
use std::ffi::OsString;
use std::process::ExitCode;

fn main() -> ExitCode {
    let words: Vec<OsString> = env::args_os().skip(1).collect();
    match run(&words) {
        Ok(status) => status.into(),
        Err(trouble) => trouble.report().into(),
    }
}

fn run(words: &[OsString]) -> Result<Status, Trouble> {
    let Some((first, rest)) = words.split_first() else {
        return Err(Trouble::usage("which subcommand?"));
    };
    if first == "--help" || first == "-h" {
        return output::print(overview().as_bytes()).map(|()| Status::Fine);
    }
    if first == "--version" {
        let version = concat!("eif ", env!("CARGO_PKG_VERSION"), "\n");
        return output::print(version.as_bytes()).map(|()| Status::Fine);
    }
    let Some(command) = COMMANDS.iter().find(|command| first == command.name) else {
        return Err(Trouble::usage(format!(
            "no subcommand {}",
            words::shown_text(first)
        )));
    };
    let args = args::parse(&command.options, rest)?;
    if args.has("--help") {
        return output::print(command.help.concat().as_bytes()).map(|()| Status::Fine);
    }
    (command.run)(args)
}

/// What `eif --help` prints.
fn overview() -> String {
    let line = |command: &Command| format!("  {:9}  {}\n", command.name, command.summary);
    let commands: String = COMMANDS.iter().map(line).collect();
    format!(
        "eif reads, writes and compares enclave image files (EIF).\n\
         \n\
         usage: eif SUBCOMMAND ..\n\
         \n\
         {commands}\
         \n\
         eif SUBCOMMAND --help says how it is used; eif --version gives the version.\n\
         A file named - is standard input or standard output.\n\
         Exit status: 0 accepted or same, 1 refused or different, 2 wrong usage, or trouble with\n\
         input or output.\n"
    )
}
