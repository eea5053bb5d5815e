//! Numbers that must not be mixed up, each with its own type.

use std::fmt;

/// A position in an image file.
///
/// A stream is not copied from one of these:
///
/// ```compile_fail
/// let from = eif::FilePosition(560);
/// eif::copy_stream(&[], eif::Stream::Whole, from, &mut []);
/// ```
#[repr(transparent)]
#[derive(Clone, Copy, Debug, Default, PartialEq, Eq, PartialOrd, Ord, Hash)]
pub struct FilePosition(pub u64);

/// A position in a measured stream.
#[repr(transparent)]
#[derive(Clone, Copy, Debug, Default, PartialEq, Eq, PartialOrd, Ord, Hash)]
pub struct StreamPosition(pub u64);

/// A position in a boot roll, from the roll's start.
#[repr(transparent)]
#[derive(Clone, Copy, Debug, Default, PartialEq, Eq, PartialOrd, Ord, Hash)]
pub struct RollPosition(pub u64);

/// A number of data bytes.
#[repr(transparent)]
#[derive(Clone, Copy, Debug, Default, PartialEq, Eq, PartialOrd, Ord, Hash)]
pub struct DataLength(pub u64);

/// The type of a section. A plan may carry any number; the library says which are allowed.
///
/// ```
/// use eif::SectionType;
///
/// assert_eq!(SectionType(3), SectionType::RAMDISK);
/// assert_eq!(SectionType(3).to_string(), "ramdisk");
/// assert_eq!(SectionType(9).to_string(), "type 9");
/// ```
#[repr(transparent)]
#[derive(Clone, Copy, Debug, Default, PartialEq, Eq, PartialOrd, Ord, Hash)]
pub struct SectionType(pub u16);

impl SectionType {
    /// Exactly one in an image.
    pub const KERNEL: SectionType = SectionType(1);
    /// Exactly one in an image.
    pub const COMMAND_LINE: SectionType = SectionType(2);
    /// Any number of them, each after the kernel.
    pub const RAMDISK: SectionType = SectionType(3);
    /// At most one, from version 3.
    pub const SIGNATURE: SectionType = SectionType(4);
    /// Exactly one in version 4, none before.
    pub const METADATA: SectionType = SectionType(5);

    /// The types that have a name, in the order of their numbers.
    pub const ALL: [SectionType; 5] = [
        SectionType::KERNEL,
        SectionType::COMMAND_LINE,
        SectionType::RAMDISK,
        SectionType::SIGNATURE,
        SectionType::METADATA,
    ];

    /// The type's name, if it is one of [`ALL`](SectionType::ALL).
    pub fn name(self) -> Option<&'static str> {
        match self {
            SectionType::KERNEL => Some("kernel"),
            SectionType::COMMAND_LINE => Some("command line"),
            SectionType::RAMDISK => Some("ramdisk"),
            SectionType::SIGNATURE => Some("signature"),
            SectionType::METADATA => Some("metadata"),
            _ => None,
        }
    }
}

impl fmt::Display for SectionType {
    fn fmt(&self, f: &mut fmt::Formatter<'_>) -> fmt::Result {
        match self.name() {
            Some(name) => f.pad(name),
            None => f.pad(&format!("type {}", self.0)),
        }
    }
}

/// The processor that an image is for, as the lowest bit of the header's flags tells (FORMAT.md, The
/// header).
///
/// ```
/// use eif::Architecture;
///
/// assert_eq!(Architecture::of_flags(0xfffe), Architecture::X86_64);
/// assert_eq!(Architecture::of_flags(1), Architecture::Aarch64);
/// assert_eq!(Architecture::Aarch64.flags(), 1);
/// assert_eq!("aarch64".parse(), Ok(Architecture::Aarch64));
/// ```
#[derive(Clone, Copy, Debug, Default, PartialEq, Eq, Hash)]
pub enum Architecture {
    /// Bit 0 is 0.
    #[default]
    X86_64,
    /// Bit 0 is 1.
    Aarch64,
}

impl Architecture {
    /// Both.
    pub const ALL: [Architecture; 2] = [Architecture::X86_64, Architecture::Aarch64];

    /// The architecture that these flags tell.
    pub fn of_flags(flags: u16) -> Architecture {
        match flags & 1 {
            0 => Architecture::X86_64,
            _ => Architecture::Aarch64,
        }
    }

    /// Flags that tell this architecture, the other bits 0.
    pub fn flags(self) -> u16 {
        self as u16
    }

    /// Its name.
    pub fn name(self) -> &'static str {
        match self {
            Architecture::X86_64 => "x86_64",
            Architecture::Aarch64 => "aarch64",
        }
    }
}

impl fmt::Display for Architecture {
    fn fmt(&self, f: &mut fmt::Formatter<'_>) -> fmt::Result {
        f.pad(self.name())
    }
}

/// The names that can be parsed are those of [`Architecture::ALL`].
impl std::str::FromStr for Architecture {
    type Err = UnknownName;

    fn from_str(name: &str) -> Result<Self, UnknownName> {
        let mut known = Architecture::ALL.into_iter();
        known.find(|known| known.name() == name).ok_or(UnknownName)
    }
}

/// A name that stands for no [`Architecture`] or [`Stream`](crate::Stream).
#[derive(Clone, Copy, Debug, PartialEq, Eq)]
pub struct UnknownName;

impl fmt::Display for UnknownName {
    fn fmt(&self, f: &mut fmt::Formatter<'_>) -> fmt::Result {
        f.pad("unknown name")
    }
}

impl std::error::Error for UnknownName {}
