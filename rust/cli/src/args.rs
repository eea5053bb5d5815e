//! Options and operands of a subcommand.

use crate::status::Trouble;
use crate::words;
use std::ffi::{OsStr, OsString};
use std::os::unix::ffi::OsStrExt;

/// The options that a subcommand takes, beside `--help`.
pub struct Options {
    /// Those that stand alone.
    pub flags: &'static [&'static str],
    /// Those that a value follows.
    pub values: &'static [&'static str],
}

/// What the command line says.
#[derive(Debug, Default)]
pub struct Args {
    flags: Vec<&'static str>,
    values: Vec<(&'static str, OsString)>,
    operands: Vec<OsString>,
}

/// Takes the words after the subcommand apart. `--` ends the options; `--option=value` is
/// `--option value`.
pub fn parse(options: &Options, words: &[OsString]) -> Result<Args, Trouble> {
    let mut args = Args::default();
    let mut words = words.iter();
    while let Some(word) = words.next() {
        if word == "--" {
            args.operands.extend(words.cloned());
            break;
        }
        if word == "-" || !word.as_bytes().starts_with(b"-") {
            args.operands.push(word.clone());
            continue;
        }
        let (name, value) = split(word);
        if let Some(flag) = known_flag(options, name) {
            if value.is_some() {
                return Err(Trouble::usage(format!("{flag} takes no value")));
            }
            args.flags.push(flag);
        } else if let Some(option) = known(options.values, name) {
            let value = value.or_else(|| words.next().cloned());
            let value = value.ok_or_else(|| Trouble::usage(format!("{option} needs a value")))?;
            args.values.push((option, value));
        } else {
            let name = words::shown_text(name);
            return Err(Trouble::usage(format!("no option {name} here")));
        }
    }
    Ok(args)
}

/// An option, and the value after an equals sign.
fn split(word: &OsStr) -> (&OsStr, Option<OsString>) {
    let bytes = word.as_bytes();
    match bytes.iter().position(|&byte| byte == b'=') {
        Some(at) => {
            let value = OsStr::from_bytes(&bytes[at + 1..]);
            (OsStr::from_bytes(&bytes[..at]), Some(value.to_os_string()))
        }
        None => (word, None),
    }
}

fn known(names: &[&'static str], name: &OsStr) -> Option<&'static str> {
    names.iter().copied().find(|&known| name == known)
}

fn known_flag(options: &Options, name: &OsStr) -> Option<&'static str> {
    if name == "-h" {
        return Some("--help");
    }
    known(options.flags, name).or_else(|| known(&["--help"], name))
}

/// The number of a section; whether there is such a section is for the library to say.
pub fn index(word: &OsStr) -> Result<usize, Trouble> {
    let word = words::shown_text(word);
    word.parse()
        .map_err(|_| Trouble::usage(format!("INDEX is no number: {word}")))
}

impl Args {
    /// Whether a flag is given.
    pub fn has(&self, flag: &str) -> bool {
        self.flags.contains(&flag)
    }

    /// Every value of an option, in the order given.
    pub fn all(&self, option: &str) -> Vec<OsString> {
        let given = self.values.iter().filter(|(name, _)| *name == option);
        given.map(|(_, value)| value.clone()).collect()
    }

    /// The value of an option that may be given once.
    pub fn one(&self, option: &str) -> Result<Option<OsString>, Trouble> {
        let mut values = self.all(option);
        match values.len() {
            0 | 1 => Ok(values.pop()),
            _ => Err(Trouble::usage(format!("{option} is given twice"))),
        }
    }

    /// The value of an option that must be given once.
    pub fn needed(&self, option: &str) -> Result<OsString, Trouble> {
        self.one(option)?
            .ok_or_else(|| Trouble::usage(format!("{option} is missing")))
    }

    /// The operands, of which there may be none.
    pub fn any_operands(&self) -> &[OsString] {
        &self.operands
    }

    /// The operands, of which there must be one or more.
    pub fn some_operands(&self, what: &str) -> Result<&[OsString], Trouble> {
        match &self.operands[..] {
            [] => Err(Trouble::usage(format!("{what} is missing"))),
            operands => Ok(operands),
        }
    }

    /// The operands, of which there must be exactly as many as names.
    pub fn operands<const N: usize>(&self, names: [&str; N]) -> Result<[&OsStr; N], Trouble> {
        if let Some(missing) = names.get(self.operands.len()) {
            return Err(Trouble::usage(format!("{missing} is missing")));
        }
        if let Some(extra) = self.operands.get(N) {
            let extra = words::shown_text(extra);
            return Err(Trouble::usage(format!("{extra} is one too many")));
        }
        let mut operands = self.operands.iter();
        Ok(names.map(|_| {
            operands
                .next()
                .map_or(OsStr::new(""), |word| word.as_os_str())
        }))
    }
}
