//! What a transfer does to a disk: each call is on the disk when it returns, and what a power cut leaves of one
//! that does not return is said beside it.

use std::fs::{self, File, OpenOptions};
use std::io;
use std::os::unix::fs::FileExt;
use std::path::Path;

/// Bytes, and where in the file they belong.
pub type Part<'a> = (u64, &'a [u8]);

/// A disk. All files are in one folder.
pub trait Disk {
    /// The bytes of a file, or none where it is not there.
    fn read(&self, file: &Path) -> io::Result<Option<Vec<u8>>>;

    /// A new file that begins with these bytes and then has zeros up to a length, in the place of one that is
    /// there. Cut: anything at all may be in it.
    fn create(&mut self, file: &Path, start: &[u8], length: u64) -> io::Result<()>;

    /// Writes parts of a file that is there. Cut: any bytes of the parts may be missing, and no other byte has
    /// changed.
    fn write(&mut self, file: &Path, parts: &[Part]) -> io::Result<()>;

    /// Gives a file another name, in the place of a file that has it only if told so. Cut: the old name or the new.
    fn rename(&mut self, from: &Path, to: &Path, force: bool) -> io::Result<()>;

    /// Removes a file. Cut: it is there or not.
    fn remove(&mut self, file: &Path) -> io::Result<()>;
}

/// The system's.
pub struct System;

impl Disk for System {
    fn read(&self, file: &Path) -> io::Result<Option<Vec<u8>>> {
        match fs::read(file) {
            Err(error) if error.kind() == io::ErrorKind::NotFound => Ok(None),
            bytes => bytes.map(Some),
        }
    }

    fn create(&mut self, file: &Path, start: &[u8], length: u64) -> io::Result<()> {
        let created = File::create(file)?;
        created.write_all_at(start, 0)?;
        created.set_len(length)?;
        created.sync_all()?;
        sync_folder(file)
    }

    fn write(&mut self, file: &Path, parts: &[Part]) -> io::Result<()> {
        let opened = OpenOptions::new().write(true).open(file)?;
        for (at, bytes) in parts {
            opened.write_all_at(bytes, *at)?;
        }
        opened.sync_data()
    }

    fn rename(&mut self, from: &Path, to: &Path, force: bool) -> io::Result<()> {
        // A hard link would not replace one that comes up just now, but a cut could leave the file with both names.
        if !force && to.symlink_metadata().is_ok() {
            return Err(io::ErrorKind::AlreadyExists.into());
        }
        fs::rename(from, to)?;
        sync_folder(to)
    }

    fn remove(&mut self, file: &Path) -> io::Result<()> {
        fs::remove_file(file)?;
        sync_folder(file)
    }
}

/// A file's name is on the disk when its folder is.
fn sync_folder(file: &Path) -> io::Result<()> {
    let folder = match file.parent() {
        Some(folder) if folder != Path::new("") => folder,
        _ => Path::new("."),
    };
    File::open(folder)?.sync_all()
}
