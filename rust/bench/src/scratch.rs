//! Files for the time of a measurement.

use std::path::{Path, PathBuf};
use std::{env, fs, io, process};

/// A file that is removed at the end.
pub struct Scratch(PathBuf);

impl Scratch {
    pub fn new(name: &str, bytes: &[u8]) -> io::Result<Scratch> {
        let file = env::temp_dir().join(format!("eif-bench-{}-{name}", process::id()));
        fs::write(&file, bytes).map(|()| Scratch(file))
    }

    pub fn path(&self) -> &Path {
        &self.0
    }
}

impl Drop for Scratch {
    fn drop(&mut self) {
        let _ = fs::remove_file(&self.0);
    }
}
