//! A side with one section replaced, whose image is not built.

use super::Accepted;
use crate::args::{self, Args};
use crate::input::{self, Arrived, Input};
use crate::status::Trouble;
use crate::words;
use eif::{staged, Refusal, Section};
use std::borrow::Cow;
use std::ffi::{OsStr, OsString};
use std::os::unix::ffi::OsStrExt;

/// The option that names the section and the file.
pub const REPLACE: &str = "--replace";

/// The number of the section that is replaced, and what stands for its data.
pub struct Replaced {
    index: usize,
    replacement: Input,
}

/// The section and the file that the command line names.
pub fn named(args: &Args) -> Result<Option<(usize, OsString)>, Trouble> {
    let Some(value) = args.one(REPLACE)? else {
        return Ok(None);
    };
    let mut parts = value.as_bytes().splitn(2, |&byte| byte == b'=');
    let (Some(index), Some(file)) = (parts.next(), parts.next()) else {
        return Err(Trouble::usage(format!("{REPLACE} is no INDEX=FILE")));
    };
    let index = args::index(OsStr::from_bytes(index))?;
    Ok(Some((index, OsStr::from_bytes(file).to_os_string())))
}

pub fn read((index, file): (usize, OsString)) -> Result<Replaced, Trouble> {
    let replacement = input::read(&file)?;
    Ok(Replaced { index, replacement })
}

/// A base with its section replaced, or its refusal in words.
pub fn accepted<'a>(base: &'a Arrived, replaced: &'a Replaced) -> Result<Accepted<'a>, Vec<u8>> {
    let (index, replacement) = (replaced.index, &replaced.replacement);
    let name = words::staged(&base.name, index, &replacement.name);
    let image = eif::read(&base.bytes).map_err(|refusal| words::refusal(&base.name, &refusal))?;
    let roll = staged::roll_to_vec(&base.bytes, &replacement.bytes, index)
        .map_err(|refusal| words::staged_refusal(&name, &refusal))?;
    Ok(Accepted {
        name,
        image: Some(image),
        roll: Cow::Owned(roll),
        replaced: Some(replaced),
    })
}

impl Replaced {
    /// Section `number` of the base and its data, as the image written afresh has them.
    pub fn section<'a>(
        &'a self,
        base: &'a [u8],
        number: usize,
        section: Section,
    ) -> Result<(Section, &'a [u8]), Refusal> {
        let data = staged::section(base, &self.replacement.bytes, self.index, number)?;
        let length = eif::DataLength(data.len() as u64);
        Ok((Section { length, ..section }, data))
    }
}
