//! Reading inputs: files, and standard input by the name `-`.

use crate::args::Args;
use crate::progress::Progress;
use crate::status::{complain, Status, Trouble};
use crate::words;
use eif::{Arriving, Reading, Reason, Refusal};
use std::ffi::{OsStr, OsString};
use std::fs::File;
use std::io::{self, Read};

/// An input's bytes and its name.
pub struct Input {
    pub name: OsString,
    pub bytes: Vec<u8>,
}

impl Input {
    /// Says on standard error that the library refuses this input as an image.
    pub fn refused(&self, refusal: &Refusal) -> Status {
        complain(&words::refusal(&self.name, refusal));
        Status::Refused
    }
}

/// What the library's reader said of an input, while it arrived or when it had.
pub struct Arrived {
    pub name: OsString,
    pub answer: Result<Reading, Refusal>,
    /// The input's bytes, or none where they were not kept.
    pub bytes: Vec<u8>,
}

/// Which bytes of an arriving input are kept.
#[derive(Clone, Copy, PartialEq, Eq)]
pub enum Keep {
    /// None: the answer is all that is wanted.
    Nothing,
    /// Those of an input that may be a roll.
    Rolls,
    /// Those of every input.
    All,
}

/// No answer depends on bytes past these: a longer image, or a plan with such a part, is refused as too
/// long before anything else of it is looked at. So an input without end needs no more room.
const MOST: u64 = eif::MAX_IMAGE_LENGTH as u64 + 1;

/// How much is read at once.
const PIECE: usize = 1 << 16;

/// Reads an input.
pub fn read(name: &OsStr) -> Result<Input, Trouble> {
    let mut bytes = Vec::new();
    pieces(name, |piece| append(&mut bytes, piece))?;
    let name = name.to_os_string();
    Ok(Input { name, bytes })
}

/// Has an input read while it arrives.
pub fn arrive(name: &OsStr, keep: Keep) -> Result<Arrived, Trouble> {
    let mut arriving = Arriving::new();
    let mut bytes = Vec::new();
    let mut keep = keep;
    pieces(name, |piece| {
        arriving.feed(piece);
        if keep == Keep::Rolls && !may_be_roll(&arriving.clone().finish()) {
            keep = Keep::Nothing;
            bytes = Vec::new();
        }
        match keep {
            Keep::Nothing => Ok(()),
            Keep::Rolls | Keep::All => append(&mut bytes, piece),
        }
    })?;
    let answer = arriving.finish();
    let name = name.to_os_string();
    Ok(Arrived {
        name,
        answer,
        bytes,
    })
}

/// The option of a subcommand that can read strictly.
pub const STRICT: &str = "--strict";

/// How such a subcommand has its inputs read: strictly where it is told so, and otherwise while they arrive.
pub fn reader(args: &Args, keep: Keep) -> impl Fn(&OsStr) -> Result<Arrived, Trouble> {
    let strict = args.has(STRICT);
    move |name| match strict {
        true => read_strictly(name),
        false => arrive(name, keep),
    }
}

/// Has an input read strictly. Its metadata is looked at, so its bytes are kept.
fn read_strictly(name: &OsStr) -> Result<Arrived, Trouble> {
    let Input { name, bytes } = read(name)?;
    let answer = eif::read_strict(&bytes).map(|image| (*image).clone());
    Ok(Arrived {
        name,
        answer,
        bytes,
    })
}

/// Whether bytes that the image's reader answers so, or bytes that begin with them, may be a roll. Those
/// that have a whole header with the right magic are none, since a roll begins with the length of its flags
/// record, 2.
pub fn may_be_roll(answer: &Result<Reading, Refusal>) -> bool {
    let unlike_image = [Reason::WrongMagic, Reason::ImageTooShort];
    answer
        .as_ref()
        .is_err_and(|refusal| unlike_image.contains(&refusal.reason()))
}

fn append(bytes: &mut Vec<u8>, piece: &[u8]) -> io::Result<()> {
    bytes.try_reserve(piece.len())?;
    bytes.extend_from_slice(piece);
    Ok(())
}

/// Hands an input over piece by piece.
fn pieces(name: &OsStr, take: impl FnMut(&[u8]) -> io::Result<()>) -> Result<(), Trouble> {
    let done = if name == "-" {
        pieces_of(name, io::stdin().lock(), take)
    } else {
        File::open(name).and_then(|file| pieces_of(name, file, take))
    };
    done.map_err(|error| Trouble::system(name, error))
}

fn pieces_of(
    name: &OsStr,
    source: impl Read,
    mut take: impl FnMut(&[u8]) -> io::Result<()>,
) -> io::Result<()> {
    let progress = Progress::start(name);
    let mut source = source.take(MOST);
    let mut piece = vec![0; PIECE];
    loop {
        match source.read(&mut piece) {
            Ok(0) => return Ok(()),
            Ok(count) => {
                take(&piece[..count])?;
                progress.add(count);
            }
            Err(error) if error.kind() == io::ErrorKind::Interrupted => {}
            Err(error) => return Err(error),
        }
    }
}

/// Reads and answers each input in turn. The worst status counts, and one that cannot be read is reported.
pub fn each<T>(
    names: &[OsString],
    read: impl Fn(&OsStr) -> Result<T, Trouble>,
    answer: impl Fn(&T) -> Result<Status, Trouble>,
) -> Result<Status, Trouble> {
    one_standard_input(names)?;
    let mut worst = Status::Fine;
    for name in names {
        let status = match read(name) {
            Ok(input) => answer(&input)?,
            Err(trouble) => trouble.report(),
        };
        worst = worst.max(status);
    }
    Ok(worst)
}

/// Standard input can be read once.
pub fn one_standard_input<'a>(
    names: impl IntoIterator<Item = &'a OsString>,
) -> Result<(), Trouble> {
    let standard = names.into_iter().filter(|&name| name == "-");
    match standard.count() {
        0 | 1 => Ok(()),
        _ => Err(Trouble::usage("- is named twice")),
    }
}
