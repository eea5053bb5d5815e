//! Running the command as a process, on files in a folder of their own.
#![allow(dead_code)]

pub mod json;
pub mod signing;

use std::ffi::OsStr;
use std::fs;
use std::io::Write;
use std::path::{Path, PathBuf};
use std::process::{Command, Output, Stdio};
use std::sync::atomic::{AtomicU32, Ordering};

/// How a process ended and what it wrote.
#[derive(Debug)]
pub struct Ended {
    pub status: i32,
    pub out: Vec<u8>,
    pub error: String,
}

impl Ended {
    pub fn text(&self) -> &str {
        std::str::from_utf8(&self.out).expect("text on standard output")
    }

    /// Holds the exit status and standard output to what is expected, and standard error to nothing.
    #[track_caller]
    pub fn says(&self, status: i32, text: &str) {
        assert_eq!((self.status, self.text()), (status, text), "{}", self.error);
        assert_eq!(self.error, "");
    }

    /// Holds the exit status to what is expected, and standard output to this start.
    #[track_caller]
    pub fn starts(&self, status: i32, start: &str) {
        self.meets(status, self.text().starts_with(start));
    }

    /// The same with a part of standard output.
    #[track_caller]
    pub fn has(&self, status: i32, part: &str) {
        self.meets(status, self.text().contains(part));
    }

    /// The same with the end of standard output.
    #[track_caller]
    pub fn ends(&self, status: i32, end: &str) {
        self.meets(status, self.text().ends_with(end));
    }

    /// Holds the exit status to what is expected, and standard output to a test that was made of it.
    #[track_caller]
    fn meets(&self, status: i32, as_expected: bool) {
        assert_eq!(self.status, status, "{}", self.error);
        assert!(as_expected, "{}", self.text());
    }

    /// Holds the exit status and standard error to what is expected, and standard output to nothing.
    #[track_caller]
    pub fn complains(&self, status: i32, error: &str) {
        assert_eq!((self.status, &self.error[..]), (status, error));
        assert_eq!(self.text(), "");
    }
}

impl From<Output> for Ended {
    #[track_caller]
    fn from(output: Output) -> Ended {
        let error = String::from_utf8_lossy(&output.stderr).into_owned();
        assert!(!error.contains("panicked"), "{error}");
        let status = output.status.code().expect("not ended by a signal");
        assert!((0..=2).contains(&status), "{status}: {error}");
        Ended {
            status,
            out: output.stdout,
            error,
        }
    }
}

/// A folder that is removed at the end, and the command run in it.
pub struct Folder(PathBuf);

impl Folder {
    pub fn new() -> Folder {
        static COUNT: AtomicU32 = AtomicU32::new(0);
        let count = COUNT.fetch_add(1, Ordering::Relaxed);
        let name = format!("{}-{count}", std::process::id());
        let path = Path::new(env!("CARGO_TARGET_TMPDIR")).join(name);
        fs::create_dir_all(&path).expect("a folder for tests");
        Folder(path)
    }

    pub fn path(&self, name: impl AsRef<OsStr>) -> PathBuf {
        self.0.join(name.as_ref())
    }

    pub fn put(&self, name: impl AsRef<OsStr>, bytes: impl AsRef<[u8]>) {
        fs::write(self.path(name), bytes).expect("a file is written");
    }

    /// A file of these bytes and then zeros, which take no room on the disk.
    pub fn put_sparse(&self, name: &str, start: impl AsRef<[u8]>, length: usize) {
        self.put(name, start);
        let file = fs::File::options().write(true).open(self.path(name));
        let sized = file.and_then(|file| file.set_len(length as u64));
        sized.expect("a file is made longer");
    }

    pub fn get(&self, name: impl AsRef<OsStr>) -> Vec<u8> {
        fs::read(self.path(name)).expect("a file is read")
    }

    /// The names of all files, sorted.
    pub fn names(&self) -> Vec<String> {
        let entries = fs::read_dir(&self.0).expect("the folder is read");
        let name = |entry: fs::DirEntry| entry.file_name().to_string_lossy().into_owned();
        let mut names: Vec<String> = entries.map(|entry| name(entry.unwrap())).collect();
        names.sort();
        names
    }

    /// The command, to be run in this folder.
    pub fn command<S: AsRef<OsStr>>(&self, words: impl IntoIterator<Item = S>) -> Command {
        let mut command = Command::new(env!("CARGO_BIN_EXE_eif"));
        command.args(words).current_dir(&self.0);
        command.stdin(Stdio::null());
        command
    }

    /// Runs the command.
    #[track_caller]
    pub fn run<S: AsRef<OsStr>>(&self, words: impl IntoIterator<Item = S>) -> Ended {
        let output = self.command(words).output();
        output.expect("the command runs").into()
    }

    /// Runs the command with its words in one text.
    #[track_caller]
    pub fn eif(&self, words: &str) -> Ended {
        self.run(words.split_whitespace())
    }

    /// Runs the command with `input` on standard input.
    #[track_caller]
    pub fn eif_with_input(&self, words: &str, input: &[u8]) -> Ended {
        let mut command = self.command(words.split_whitespace());
        command.stdin(Stdio::piped());
        command.stdout(Stdio::piped()).stderr(Stdio::piped());
        let mut child = command.spawn().expect("the command runs");
        let mut standard_input = child.stdin.take().expect("a pipe");
        let input = input.to_vec();
        // The command may end without having read all.
        let writer = std::thread::spawn(move || standard_input.write_all(&input).is_ok());
        let output = child.wait_with_output().expect("the command ends");
        writer.join().expect("the input is written");
        output.into()
    }

    /// Puts the parts of an image there and packs them, with the ramdisks in the order given.
    #[track_caller]
    pub fn pack(&self, name: &str, ramdisks: &[&str], more: &str) {
        self.put("kernel", b"the kernel");
        self.put("old", b"old files");
        self.put("new", b"new files, more of them");
        self.put("metadata", b"{}");
        let ramdisks: String = ramdisks.iter().map(|r| format!("--ramdisk {r} ")).collect();
        let words =
            format!("pack --kernel kernel --cmdline quiet {ramdisks} --output {name} {more}");
        self.eif(&words).says(0, "");
    }
}

impl Drop for Folder {
    fn drop(&mut self) {
        let _ = fs::remove_dir_all(&self.0);
    }
}

/// A file of the repository.
pub fn repository(name: &str) -> PathBuf {
    Path::new(env!("CARGO_MANIFEST_DIR"))
        .join("../..")
        .join(name)
}

/// The text of a file of the repository.
pub fn repository_text(name: &str) -> String {
    fs::read_to_string(repository(name)).expect("a file of the repository")
}
