//! How often each call gave each answer number.

use std::fmt;
use std::ops::AddAssign;

/// How many kinds of call there are.
const CALLS: usize = 28;

/// Answer numbers are below this.
const NUMBERS: usize = 30;

/// A kind of call.
#[derive(Clone, Copy, Debug, PartialEq, Eq)]
pub enum Call {
    /// Reading an image.
    Read,
    /// Reading an image strictly.
    ReadStrict,
    /// Reading an image that arrives in pieces.
    Arrive,
    /// The length of a plan's image.
    PlanLength,
    /// Writing an image.
    Write,
    /// The length of a stream.
    Length,
    /// Copying a stream.
    Copy,
    /// Copying from sections already found.
    CopyListed,
    /// The length of an image's roll.
    RollLength,
    /// Writing a roll.
    RollWrite,
    /// Reading a roll.
    RollRead,
    /// The registers of an image.
    Registers,
    /// The registers of an image that arrives in pieces.
    RegistersArriving,
    /// The fingerprint of an image.
    Fingerprint,
    /// The fingerprint of an image that arrives in pieces.
    FingerprintArriving,
    /// A piece for a digest in progress.
    Update,
    /// Reading a COSE_Sign1.
    Sign1Read,
    /// Writing a COSE_Sign1.
    Sign1Write,
    /// Where a section's data lies, of a base with one section replaced.
    StagedPart,
    /// The length of the roll of such a base.
    StagedRollLength,
    /// Writing that roll.
    StagedRollWrite,
    /// Its registers.
    StagedRegisters,
    /// Its fingerprint.
    StagedFingerprint,
    /// A record of a transfer.
    Assemble,
    /// Beginning to write an image in pieces.
    WritingBegin,
    /// The checksum of an image written in pieces.
    WritingFinish,
    /// Beginning to write in pieces an image with one section replaced.
    StagedWritingBegin,
    /// The checksum of such an image.
    StagedWritingFinish,
}

impl Call {
    /// All of them.
    pub const ALL: [Call; CALLS] = [
        Call::Read,
        Call::ReadStrict,
        Call::Arrive,
        Call::PlanLength,
        Call::Write,
        Call::Length,
        Call::Copy,
        Call::CopyListed,
        Call::RollLength,
        Call::RollWrite,
        Call::RollRead,
        Call::Registers,
        Call::RegistersArriving,
        Call::Fingerprint,
        Call::FingerprintArriving,
        Call::Update,
        Call::Sign1Read,
        Call::Sign1Write,
        Call::StagedPart,
        Call::StagedRollLength,
        Call::StagedRollWrite,
        Call::StagedRegisters,
        Call::StagedFingerprint,
        Call::Assemble,
        Call::WritingBegin,
        Call::WritingFinish,
        Call::StagedWritingBegin,
        Call::StagedWritingFinish,
    ];

    /// The numbers that FORMAT.md lets this call answer.
    pub fn numbers(self) -> Vec<u8> {
        let image = (0..=13).chain([20]);
        let mut numbers: Vec<u8> = match self {
            Call::Read
            | Call::Arrive
            | Call::Length
            | Call::RollLength
            | Call::Registers
            | Call::RegistersArriving
            | Call::Fingerprint
            | Call::FingerprintArriving => image.collect(),
            Call::ReadStrict => image.chain([21]).collect(),
            Call::PlanLength | Call::WritingBegin => vec![0, 1, 4, 5, 9, 10, 11, 12],
            Call::Write => vec![0, 1, 4, 5, 9, 10, 11, 12, 14, 15],
            Call::Copy => image.chain([19]).collect(),
            Call::CopyListed => vec![0, 19],
            Call::RollWrite => image.chain([14]).collect(),
            Call::RollRead => vec![0, 1, 5, 10, 11, 12, 16, 17, 18],
            Call::Update => vec![0, 29],
            Call::Sign1Read => vec![0, 28],
            Call::Sign1Write => vec![0, 14, 28],
            Call::StagedPart
            | Call::StagedRollLength
            | Call::StagedRegisters
            | Call::StagedFingerprint
            | Call::StagedWritingBegin => image.chain([27]).collect(),
            Call::StagedRollWrite => image.chain([14, 27]).collect(),
            Call::Assemble => vec![0, 1, 22, 23, 24, 25, 26],
            Call::WritingFinish | Call::StagedWritingFinish => vec![0, 15],
        };
        numbers.sort();
        numbers
    }
}

/// A count for each call and number.
#[derive(Clone, Debug, Default)]
pub struct Tally {
    counts: [[u64; NUMBERS]; CALLS],
    inputs: u64,
}

impl Tally {
    /// Counts one answer.
    pub fn add(&mut self, call: Call, number: u8) {
        self.counts[call as usize][usize::from(number)] += 1;
    }

    /// Counts one input more.
    pub fn add_input(&mut self) {
        self.inputs += 1;
    }

    /// How many inputs there were.
    pub fn inputs(&self) -> u64 {
        self.inputs
    }

    /// The numbers that a call gave.
    pub fn reached(&self, call: Call) -> Vec<u8> {
        let counts = self.counts[call as usize].iter();
        let reached = (0..).zip(counts).filter(|(_, &count)| count > 0);
        reached.map(|(number, _)| number).collect()
    }

    /// How often a number was given by any call.
    pub fn of_number(&self, number: u8) -> u64 {
        self.counts
            .iter()
            .map(|counts| counts[usize::from(number)])
            .sum()
    }
}

impl AddAssign<&Tally> for Tally {
    fn add_assign(&mut self, other: &Tally) {
        self.inputs += other.inputs;
        let theirs = other.counts.iter().flatten();
        for (mine, theirs) in self.counts.iter_mut().flatten().zip(theirs) {
            *mine += theirs;
        }
    }
}

impl fmt::Display for Tally {
    fn fmt(&self, f: &mut fmt::Formatter<'_>) -> fmt::Result {
        write!(f, "{:>6}", "number")?;
        for call in Call::ALL {
            write!(f, " {:>19}", format!("{call:?}"))?;
        }
        for number in (0..NUMBERS as u8).filter(|&number| self.of_number(number) > 0) {
            write!(f, "\n{number:>6}")?;
            for counts in &self.counts {
                write!(f, " {:>19}", counts[usize::from(number)])?;
            }
        }
        Ok(())
    }
}
