//! A transfer that is kept in files, so that it can be stopped at any time and taken up again.
//!
//! Of a transfer to FILE, FILE.part has the image's bytes, and FILE.marks the open record and a mark for each piece.
//! A transfer is open exactly while FILE.marks is there. A mark is written only when its bytes are on the
//! disk, and the image gets its name before FILE.marks goes.

use crate::disk::{Disk, Part};
use crate::status::Trouble;
use eif::assembler::{self, Assembler, PIECE_LENGTH};
use eif::Refusal;
use std::ffi::{OsStr, OsString};
use std::io;
use std::path::PathBuf;

/// A transfer and its files.
pub struct Transfer<D> {
    disk: D,
    file: PathBuf,
    part: PathBuf,
    marks_file: PathBuf,
    force: bool,
    assembler: Assembler,
    image: Vec<u8>,
    marks: Vec<u8>,
    /// The length of the open record in the marks' file, and the marks that stand after it on the disk.
    open_length: usize,
    kept: Vec<u8>,
}

/// What became of a record.
#[derive(Debug, PartialEq, Eq)]
pub enum Taken {
    /// It was taken, and more are to come.
    Record,
    /// It was refused; nothing has changed.
    Refused(Refusal),
    /// It closed the transfer, and the image is in its place.
    Image,
    /// It closed the transfer, and the image is refused. It is left in FILE.part.
    RefusedImage(Refusal),
}

/// The file whose name ends so.
fn beside(file: &OsStr, ending: &str) -> PathBuf {
    let mut name = OsString::from(file);
    name.push(ending);
    name.into()
}

/// So many zeros, or an error where there is no memory for them.
fn zeros(count: usize) -> io::Result<Vec<u8>> {
    let mut bytes = Vec::new();
    bytes.try_reserve_exact(count)?;
    bytes.resize(count, 0);
    Ok(bytes)
}

impl<D: Disk> Transfer<D> {
    /// The transfer to a file, as it stands on the disk.
    pub fn resume(disk: D, file: &OsStr, force: bool) -> Result<Self, Trouble> {
        let mut transfer = Transfer {
            disk,
            file: file.into(),
            part: beside(file, ".part"),
            marks_file: beside(file, ".marks"),
            force,
            assembler: Assembler::new(),
            image: Vec::new(),
            marks: Vec::new(),
            open_length: 0,
            kept: Vec::new(),
        };
        let loaded = transfer.load();
        loaded.map_err(|error| Trouble::system(transfer.marks_file.as_os_str(), error))?;
        Ok(transfer)
    }

    fn load(&mut self) -> io::Result<()> {
        let Some(bytes) = self.disk.read(&self.marks_file)? else {
            return Ok(());
        };
        let Some(image) = self.disk.read(&self.part)? else {
            // The image has its name already.
            return self.disk.remove(&self.marks_file);
        };
        let open = assembler::open_record(image.len() as u64);
        let kept = bytes.strip_prefix(&open[..]).unwrap_or_default();
        let mut marks = vec![0; kept.len()];
        self.image = image;
        let opened = self.assembler.step(&open, &mut self.image, &mut marks);
        if opened.is_err() || kept.len() != assembler::pieces(self.image.len()) {
            let other = "not the marks of the .part file beside it; remove both to begin again";
            return Err(io::Error::other(other));
        }
        self.open_length = open.len();
        self.kept = kept.to_vec();
        self.marks = kept.to_vec();
        Ok(())
    }

    /// Takes one record. What it changes is in memory alone until [`keep`](Transfer::keep), but for an open record and a
    /// close record.
    pub fn take(&mut self, record: &[u8]) -> Result<Taken, Trouble> {
        let was_open = self.assembler.is_open();
        if !was_open {
            let room = self.make_room(record);
            room.map_err(|error| self.trouble(error))?;
        }
        match self
            .assembler
            .step(record, &mut self.image, &mut self.marks)
        {
            Err(refusal) => Ok(Taken::Refused(refusal)),
            Ok(Some(length)) => self.finish(length),
            Ok(None) if was_open => Ok(Taken::Record),
            Ok(None) => {
                let begun = self.begin(record);
                begun.map_err(|error| self.trouble(error))?;
                Ok(Taken::Record)
            }
        }
    }

    fn trouble(&self, error: io::Error) -> Trouble {
        let file = self.file.as_os_str();
        match error.kind() {
            io::ErrorKind::AlreadyExists => Trouble::Exists(file.into()),
            _ => Trouble::system(file, error),
        }
    }

    /// Makes room for the image that an open record announces.
    fn make_room(&mut self, record: &[u8]) -> io::Result<()> {
        let length = assembler::announced(record).and_then(|length| usize::try_from(length).ok());
        let length = length.filter(|&length| length <= eif::MAX_IMAGE_LENGTH);
        if let Some(length) = length {
            self.image = zeros(length)?;
            self.marks = zeros(assembler::pieces(length))?;
        }
        Ok(())
    }

    /// Begins the files. FILE.marks gets its name when both are whole.
    fn begin(&mut self, open: &[u8]) -> io::Result<()> {
        let new = beside(self.marks_file.as_os_str(), ".new");
        self.open_length = open.len();
        self.kept = self.marks.clone();
        self.disk.create(&self.part, &[], self.image.len() as u64)?;
        let length = open.len() + self.marks.len();
        self.disk.create(&new, open, length as u64)?;
        self.disk.rename(&new, &self.marks_file, true)
    }

    /// Has everything on the disk that was taken: first the bytes, then their marks.
    pub fn keep(&mut self) -> Result<(), Trouble> {
        let pairs = self.marks.iter().zip(&self.kept).enumerate();
        let new = pairs.filter(|(_, (mark, kept))| mark != kept);
        let new: Vec<usize> = new.map(|(place, _)| place).collect();
        if new.is_empty() {
            return Ok(());
        }
        let written = self.write(&new);
        written.map_err(|error| self.trouble(error))?;
        self.kept.copy_from_slice(&self.marks);
        Ok(())
    }

    fn write(&mut self, places: &[usize]) -> io::Result<()> {
        let piece = |&place: &usize| {
            let start = place * PIECE_LENGTH;
            let end = self.image.len().min(start + PIECE_LENGTH);
            (start as u64, &self.image[start..end])
        };
        let mark = |&place: &usize| {
            let at = self.open_length + place;
            (at as u64, &self.marks[place..=place])
        };
        let pieces: Vec<Part> = places.iter().map(piece).collect();
        let marks: Vec<Part> = places.iter().map(mark).collect();
        self.disk.write(&self.part, &pieces)?;
        self.disk.write(&self.marks_file, &marks)
    }

    /// The transfer is closed: has the image read, and puts it in its place if it is accepted.
    fn finish(&mut self, length: usize) -> Result<Taken, Trouble> {
        self.keep()?;
        let refusal = eif::read(&self.image[..length]).err();
        let ended = self.end(refusal.is_none());
        ended.map_err(|error| self.trouble(error))?;
        Ok(refusal.map_or(Taken::Image, Taken::RefusedImage))
    }

    fn end(&mut self, accepted: bool) -> io::Result<()> {
        if accepted {
            self.disk.rename(&self.part, &self.file, self.force)?;
        }
        self.disk.remove(&self.marks_file)
    }

    /// Where FILE.part is.
    pub fn part(&self) -> &OsStr {
        self.part.as_os_str()
    }

    /// How the transfer stands, in words.
    pub fn standing(&self) -> String {
        if !self.assembler.is_open() {
            return "no transfer is open".to_string();
        }
        let all = self.marks.len();
        let missing: Vec<usize> = (0..all).filter(|&place| self.marks[place] == 0).collect();
        let held = all - missing.len();
        let held = format!("not closed yet: {held} of {all} pieces held");
        match missing.first() {
            Some(first) => format!("{held}, the first missing at byte {}", first * PIECE_LENGTH),
            None => held,
        }
    }
}

#[cfg(test)]
mod tests;
