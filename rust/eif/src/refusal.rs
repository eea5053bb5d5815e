//! Why the library refuses.

use std::error::Error;
use std::fmt;
use std::io;

/// The table of answer numbers: number, name, meaning, what to do about it. The words stand here and
/// nowhere else in the Rust code; a test of the command holds `eif.h` and the manual to them.
macro_rules! reasons {
    ($($number:literal $name:ident: $meaning:literal, $advice:literal;)*) => {
        /// An answer number (FORMAT.md, Answer numbers).
        ///
        /// ```
        /// use eif::Reason;
        ///
        /// assert_eq!(Reason::ChecksumDiffers as u8, 13);
        /// assert_eq!(Reason::ChecksumDiffers.to_string(), "checksum differs");
        /// assert_eq!(Reason::from_number(13), Some(Reason::ChecksumDiffers));
        /// assert_eq!(Reason::from_number(0), None);
        /// ```
        #[non_exhaustive]
        #[repr(u8)]
        #[derive(Clone, Copy, Debug, PartialEq, Eq, PartialOrd, Ord, Hash)]
        pub enum Reason {
            /// A number that this crate does not know. The archive of this version answers none.
            Unknown = 0,
            $(#[doc = concat!("Number ", $number, ": ", $meaning, ".")] $name = $number,)*
        }

        impl Reason {
            /// Every reason with a number, so all but [`Unknown`](Reason::Unknown), in the order of their numbers.
            pub const ALL: &'static [Reason] = &[$(Reason::$name),*];

            /// The reason with this number. 0 is acceptance and has none.
            pub fn from_number(number: u8) -> Option<Reason> {
                match number {
                    $($number => Some(Reason::$name),)*
                    _ => None,
                }
            }

            /// What the number means.
            pub fn meaning(self) -> &'static str {
                match self {
                    Reason::Unknown => "unknown answer number",
                    $(Reason::$name => $meaning,)*
                }
            }

            /// What whoever holds the file should do about it.
            pub fn advice(self) -> &'static str {
                match self {
                    Reason::Unknown => "build the program with the archive of its own version",
                    $(Reason::$name => $advice,)*
                }
            }
        }
    };
}

reasons! {
    1 ImageTooLong: "image longer than 1,073,741,824 bytes",
        "ask for the file's size and fetch it again";
    2 ImageTooShort: "image shorter than 548 bytes",
        "fetch it again";
    3 WrongMagic: "wrong magic",
        "ask what was sent and fetch it again";
    4 WrongVersion: "version not 2, 3 or 4",
        "fetch it again; if the answer stays, ask the builder";
    5 WrongCount: "number of sections not 2 to 32",
        "fetch it again";
    6 StartsEarly: "section starts before the end of the one before it (548 for the first)",
        "fetch it again";
    7 EndsLate: "offset + 12 + size is more than the file length",
        "compare the sizes of both files and fetch it again";
    8 SizesDiffer: "size in the section header differs from the table",
        "fetch it again";
    9 TypeNotAllowed: "type not allowed in this version",
        "fetch it again; if the answer stays, ask the builder";
    10 RamdiskBeforeKernel: "ramdisk with no kernel earlier in the file",
        "do not use it; tell the builder";
    11 TypeRepeated: "second kernel, command line, signature or metadata",
        "do not use it; tell the builder";
    12 SectionMissing: "kernel or command line missing, or metadata missing in version 4",
        "do not use it; tell the builder";
    13 ChecksumDiffers: "checksum differs",
        "fetch it again";
    14 OutputTooShort: "output buffer too short",
        "nothing is wrong with the file; mend the calling program";
    15 DataLengthDiffers: "data length differs from the plan's sum of lengths",
        "mend the plan";
    16 RecordCut: "roll ends inside a record, or before its end record",
        "fetch the roll again";
    17 RecordTypeWrong: "roll does not begin with its flags, or record of type above 3, or type 0 with a length not 0",
        "fetch the roll again; one that an older eif has written must be written again from its image";
    18 BytesAfterEnd: "bytes after the end record",
        "fetch the roll again";
    19 PastStreamEnd: "stream position past the stream's end",
        "nothing is wrong with the file; mend the calling program";
    20 NotPacked: "section not packed, or bytes after the last section",
        "do not use it; fetch it again, and if the answer stays, tell the builder";
    21 MetadataNotJson: "metadata is not one JSON text",
        "do not use it; tell the builder";
    22 PieceRecordWrong: "record not of a transfer's form, or a piece that the image does not have",
        "have the record sent again";
    23 PieceOutOfTurn: "open record while a transfer is open, or another record while none is",
        "go on with the transfer that is open; where none is, have its open record sent first";
    24 BufferTooShort: "buffer too short for the image or its marks, or shorter than at open",
        "nothing is wrong with the record; mend the calling program";
    25 PieceDiffers: "piece already held with other bytes",
        "one of the two is not the sender's: finish the transfer, and if the image is refused, begin again";
    26 PieceMissing: "close record with a piece missing",
        "nothing is lost: have the missing pieces sent, and then the close record again";
    27 NoSuchSection: "section number at or past the number of sections",
        "nothing is wrong with the file; look the section's number up with eif show";
    28 NotSign1: "not one COSE_Sign1 of the accepted form",
        "do not rely on the signature; tell the builder";
    29 MessageTooLong: "message longer than 2,305,843,009,213,693,951 bytes",
        "nothing is wrong with the file; mend the calling program";
}

impl fmt::Display for Reason {
    fn fmt(&self, f: &mut fmt::Formatter<'_>) -> fmt::Result {
        f.pad(self.meaning())
    }
}

/// A refusal: the first answer number that applies, and where.
///
/// ```
/// // The right magic, and version 0.
/// let mut image = [0; 548];
/// image[..4].copy_from_slice(b".eif");
/// let refusal = eif::read(&image).unwrap_err();
/// assert_eq!(refusal.reason(), eif::Reason::WrongVersion);
/// assert_eq!((refusal.number(), refusal.index(), refusal.position()), (4, 0, 4));
/// assert_eq!(refusal.to_string(), "refused 4 at 0 byte 4: version not 2, 3 or 4");
/// assert_eq!(refusal.place_in_image().as_deref(), Some("the version"));
/// ```
#[derive(Clone, Copy, Debug, PartialEq, Eq, Hash)]
pub struct Refusal {
    number: u8,
    index: u64,
    position: u64,
}

impl Refusal {
    /// `Ok` for number 0, which is acceptance.
    pub(crate) fn check(number: u8, index: u64, position: u64) -> Result<(), Refusal> {
        match number {
            0 => Ok(()),
            _ => Err(Refusal {
                number,
                index,
                position,
            }),
        }
    }

    /// The refusal for a reason that has no place in the bytes.
    pub(crate) fn of(reason: Reason) -> Refusal {
        Refusal {
            number: reason as u8,
            index: 0,
            position: 0,
        }
    }

    /// Why. [`Reason::Unknown`] if this crate does not know the number.
    pub fn reason(&self) -> Reason {
        Reason::from_number(self.number).unwrap_or(Reason::Unknown)
    }

    /// The answer number.
    pub fn number(&self) -> u8 {
        self.number
    }

    /// The index of the section or record for 6 to 11, 16, 17, 21 and, where a section is not packed, 20;
    /// and 0 for the others.
    pub fn index(&self) -> u64 {
        self.index
    }

    /// Where what is at fault stands (FORMAT.md, Positions): a position in the image, or in the roll where a
    /// roll was read, from its start; 0 where the number has no place there.
    /// [`place_in_image`](Refusal::place_in_image) and [`place_in_roll`](Refusal::place_in_roll) say in words
    /// what that is.
    pub fn position(&self) -> u64 {
        self.position
    }
}

impl fmt::Display for Refusal {
    fn fmt(&self, f: &mut fmt::Formatter<'_>) -> fmt::Result {
        let (number, index, position) = (self.number, self.index, self.position);
        let meaning = self.reason();
        write!(f, "refused {number} at {index} byte {position}: {meaning}")
    }
}

impl Error for Refusal {}

/// An error of kind [`InvalidData`](io::ErrorKind::InvalidData) that holds the refusal:
///
/// ```
/// let refusal = eif::read(b"short").unwrap_err();
/// let error = std::io::Error::from(refusal);
/// assert_eq!(error.to_string(), refusal.to_string());
/// let held = error.get_ref().and_then(|held| held.downcast_ref::<eif::Refusal>());
/// assert_eq!(held, Some(&refusal));
/// ```
impl From<Refusal> for io::Error {
    fn from(refusal: Refusal) -> Self {
        io::Error::new(io::ErrorKind::InvalidData, refusal)
    }
}

#[cfg(test)]
mod tests {
    use super::*;

    #[test]
    fn numbers_and_reasons_agree() {
        assert_eq!(Refusal::check(0, 0, 0), Ok(()));
        assert!(Reason::ALL.windows(2).all(|pair| pair[0] < pair[1]));
        for &reason in Reason::ALL {
            let refusal = Refusal::check(reason as u8, 7, 84).unwrap_err();
            assert_eq!(refusal.reason(), reason);
            assert_eq!(refusal.number(), reason as u8);
            assert_eq!((refusal.index(), refusal.position()), (7, 84));
        }
        for number in (1..=u8::MAX).filter(|&number| Reason::from_number(number).is_none()) {
            let refusal = Refusal::check(number, 7, 84).unwrap_err();
            assert_eq!(
                (refusal.number(), refusal.reason()),
                (number, Reason::Unknown)
            );
            assert!(!Reason::ALL.contains(&refusal.reason()));
            let shown = format!("refused {number} at 7 byte 84: unknown answer number");
            assert_eq!(refusal.to_string(), shown);
            assert_eq!(
                (refusal.place_in_image(), refusal.place_in_roll(&[])),
                (None, None)
            );
        }
    }
}
