//! The subcommands, each in a file of its own.
//!
//! A new one is a file here and a row in the table.

use crate::args::{Args, Options};
use crate::status::{Status, Trouble};

mod assemble;
mod check;
mod compare;
mod extract;
mod json;
mod pack;
mod registers;
mod roll;
mod show;
mod signature;
mod split;
mod stage;
mod stream;

/// A subcommand.
pub struct Command {
    pub name: &'static str,
    /// One line for the overview.
    pub summary: &'static str,
    /// What `--help` prints, in parts.
    pub help: &'static [&'static str],
    pub options: Options,
    pub run: fn(Args) -> Result<Status, Trouble>,
}

/// All of them, in the order of the overview.
pub const COMMANDS: [Command; 13] = [
    show::COMMAND,
    check::COMMAND,
    compare::COMMAND,
    registers::COMMAND,
    signature::COMMAND,
    roll::COMMAND,
    stage::COMMAND,
    pack::COMMAND,
    extract::COMMAND,
    stream::COMMAND,
    json::COMMAND,
    split::COMMAND,
    assemble::COMMAND,
];
