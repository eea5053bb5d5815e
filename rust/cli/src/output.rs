//! Writing outputs: standard output, and files that are written whole or not at all.

use crate::args::{Args, Options};
use crate::status::Trouble;
use std::ffi::{OsStr, OsString};
use std::fs::{self, File, OpenOptions};
use std::io::{self, Read, Write};
use std::path::{Path, PathBuf};
use std::process;

/// The options of a subcommand that writes an output.
pub const VALUE: &str = "--output";
pub const FLAG: &str = "--force";

/// A subcommand that has these two options alone.
pub const OPTIONS: Options = Options {
    flags: &[FLAG],
    values: &[VALUE],
};

/// What writes the bytes of an output.
pub type Content<'a> = &'a mut dyn FnMut(&mut dyn Write) -> io::Result<()>;

/// Writes to standard output.
pub fn print(bytes: &[u8]) -> Result<(), Trouble> {
    print_content(&mut |out| out.write_all(bytes))
}

fn print_content(content: Content) -> Result<(), Trouble> {
    let mut out = io::stdout().lock();
    let written = content(&mut out).and_then(|()| out.flush());
    written.map_err(|error| match error.kind() {
        io::ErrorKind::BrokenPipe => Trouble::ClosedPipe,
        _ => Trouble::system(OsStr::new("standard output"), error),
    })
}

/// Where an output goes.
pub enum Output {
    /// To standard output.
    Standard,
    /// To a file, in the place of one that is there only if told so.
    File { name: OsString, force: bool },
}

impl Output {
    /// As the options say: standard output where none is named, or `-` is.
    pub fn of(args: &Args) -> Result<Output, Trouble> {
        let force = args.has(FLAG);
        match args.one(VALUE)? {
            Some(name) if name != "-" => {
                let output = Output::File { name, force };
                output.check_free()?;
                Ok(output)
            }
            _ => Ok(Output::Standard),
        }
    }

    /// Whether the output may be written, asked before any work is done for it.
    fn check_free(&self) -> Result<(), Trouble> {
        match self {
            Output::File { name, force: false } if is_regular(name) => {
                Err(Trouble::Exists(name.clone()))
            }
            _ => Ok(()),
        }
    }

    /// Writes the output, its parts one after the other.
    pub fn write(&self, parts: &[&[u8]]) -> Result<(), Trouble> {
        self.write_content(&mut |out| parts.iter().try_for_each(|part| out.write_all(part)))
    }

    /// Writes an output that is read piece by piece.
    pub fn copy(&self, from: &mut impl Read) -> Result<(), Trouble> {
        self.write_content(&mut |mut out| io::copy(from, &mut out).map(|_| ()))
    }

    /// Writes what `content` writes.
    pub fn write_content(&self, content: Content) -> Result<(), Trouble> {
        match self {
            Output::Standard => print_content(content),
            Output::File { name, force } => {
                self.check_free()?;
                write_file(name, content, *force).map_err(|error| match error.kind() {
                    io::ErrorKind::AlreadyExists => Trouble::Exists(name.clone()),
                    _ => Trouble::system(name, error),
                })
            }
        }
    }
}

/// Whether a file may be given this name, asked before any work is done for it.
pub fn check_place(name: &OsStr, force: bool) -> Result<(), Trouble> {
    match fs::metadata(name) {
        Ok(found) if !found.is_file() => {
            let error = io::Error::other("is there and is not a file that can be replaced");
            Err(Trouble::system(name, error))
        }
        Ok(_) if !force => Err(Trouble::Exists(name.to_os_string())),
        _ => Ok(()),
    }
}

/// Whether a file with data is there. Devices and pipes are written to, never replaced.
fn is_regular(name: &OsStr) -> bool {
    fs::metadata(name).is_ok_and(|found| found.is_file())
}

fn write_file(name: &OsStr, content: Content, force: bool) -> io::Result<()> {
    let path = Path::new(name);
    if path.exists() && !is_regular(name) {
        let mut device = OpenOptions::new().write(true).open(path)?;
        return content(&mut device);
    }
    // A link to a file stays, and the file that it names is replaced.
    let target = fs::canonicalize(path).unwrap_or_else(|_| path.to_path_buf());
    let (temporary, file) = create_beside(&target)?;
    let finished = fill(file, content).and_then(|()| put_in_place(&temporary, &target, force));
    if finished.is_err() {
        let _ = fs::remove_file(&temporary);
    }
    finished
}

/// A new file in the folder of `target`, so that it can be renamed.
fn create_beside(target: &Path) -> io::Result<(PathBuf, File)> {
    let name = target.file_name().unwrap_or_default();
    for attempt in 0u32.. {
        let mut temporary = OsString::from(".");
        temporary.push(name);
        temporary.push(format!(".{}-{attempt}", process::id()));
        let temporary = target.with_file_name(temporary);
        match OpenOptions::new()
            .write(true)
            .create_new(true)
            .open(&temporary)
        {
            Err(error) if error.kind() == io::ErrorKind::AlreadyExists => {}
            file => return file.map(|file| (temporary, file)),
        }
    }
    Err(io::ErrorKind::AlreadyExists.into())
}

fn fill(mut file: File, content: Content) -> io::Result<()> {
    content(&mut file)?;
    file.sync_all()
}

/// Gives the temporary file its name in one step. A hard link never replaces a file, as a rename
/// would one that came up meanwhile; where the file system has no links, a look must do.
fn put_in_place(temporary: &Path, target: &Path, force: bool) -> io::Result<()> {
    if force {
        return fs::rename(temporary, target);
    }
    match fs::hard_link(temporary, target) {
        Ok(()) => fs::remove_file(temporary),
        Err(_) if !target.exists() => fs::rename(temporary, target),
        Err(error) => Err(error),
    }
}
