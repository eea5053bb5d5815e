//! How the command ends.

use crate::words;
use std::ffi::{OsStr, OsString};
use std::io::{self, Write};
use std::process::ExitCode;

/// The exit status. Of several files the worst counts.
#[derive(Clone, Copy, Debug, PartialEq, Eq, PartialOrd, Ord)]
pub enum Status {
    /// Accepted, or same.
    Fine = 0,
    /// Refused, or different.
    Refused = 1,
    /// Wrong usage, or trouble with input or output.
    Trouble = 2,
}

impl From<Status> for ExitCode {
    fn from(status: Status) -> ExitCode {
        ExitCode::from(status as u8)
    }
}

/// What keeps the command from an answer.
#[derive(Debug)]
pub enum Trouble {
    /// The command line is not one that it takes.
    Usage(String),
    /// The system refuses to read or write this file.
    System(OsString, io::Error),
    /// The output is there already.
    Exists(OsString),
    /// Whoever was reading standard output has stopped.
    ClosedPipe,
}

impl Trouble {
    /// The command line is not one that it takes.
    pub fn usage(message: impl Into<String>) -> Trouble {
        Trouble::Usage(message.into())
    }

    /// The system refuses to read or write `name`.
    pub fn system(name: &OsStr, error: io::Error) -> Trouble {
        Trouble::System(name.to_os_string(), error)
    }

    /// Says what is wrong on standard error. A closed pipe is no news.
    pub fn report(&self) -> Status {
        let lines = match self {
            Trouble::Usage(message) => format!("{message} (eif --help)").into_bytes(),
            Trouble::System(name, error) => words::about(name, &error.to_string()),
            Trouble::Exists(name) => words::about(name, "exists; --force replaces it"),
            Trouble::ClosedPipe => return Status::Trouble,
        };
        complain(&[b"eif: ", &lines[..], b"\n"].concat());
        Status::Trouble
    }
}

/// Writes to standard error. That it cannot be written to is not worth failing for.
pub fn complain(text: &[u8]) {
    let _ = io::stderr().write_all(text);
}
