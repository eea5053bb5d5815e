//! The worked roll of FORMAT.md and its neighbours, R1 to R11.

use crate::images::Answer;

/// Length of a record's header.
pub const RECORD_HEAD: usize = 10;
/// Position of the type in it, after the length; in a transfer's record, of the kind.
pub const KIND_AT: usize = 8;
/// What a transfer's open record and piece record have before any data: a header and a number.
pub const NUMBERED_HEADER: usize = RECORD_HEAD + 8;

/// Length of the flags record, which is a roll's first.
pub const FLAGS_RECORD: usize = 12;

/// The roll of the worked image.
#[rustfmt::skip]
pub const WORKED_ROLL: [u8; 54] = [
    0x02, 0, 0, 0, 0, 0, 0, 0, 0x00, 1, 0x00, 0,
    0x01, 0, 0, 0, 0, 0, 0, 0, 0x01, 0, 0x4b,
    0x01, 0, 0, 0, 0, 0, 0, 0, 0x02, 0, 0x61,
    0x00, 0, 0, 0, 0, 0, 0, 0, 0x03, 0,
    0x00, 0, 0, 0, 0, 0, 0, 0, 0x00, 0,
];

/// Type, position and length of a record.
pub type Row = (u16, u64, u64);

/// A roll and what reading it answers.
pub struct RollCase {
    /// FORMAT.md's name of the case.
    pub name: &'static str,
    /// Its bytes.
    pub roll: Vec<u8>,
    /// The flags and the records, or the refusal.
    pub answer: Result<(u16, Vec<Row>), Answer>,
}

impl RollCase {
    pub(crate) fn refused(name: &'static str, roll: Vec<u8>, answer: Answer) -> Self {
        let answer = Err(answer);
        RollCase { name, roll, answer }
    }
}

/// A record: length, type, data.
pub fn record(length: u64, kind: u16, data: &[u8]) -> Vec<u8> {
    [&length.to_le_bytes()[..], &kind.to_le_bytes(), data].concat()
}

/// The flags record.
pub fn flags_record(flags: u16) -> Vec<u8> {
    record(2, 256, &flags.to_le_bytes())
}

/// The flags record, a record for each type with its data, then the end record.
pub fn roll_of(flags: u16, records: &[(u16, &[u8])]) -> Vec<u8> {
    let mut roll = flags_record(flags);
    for &(kind, data) in records {
        roll.extend(record(data.len() as u64, kind, data));
    }
    roll.extend(record(0, 0, &[]));
    roll
}

const KERNEL: (u16, &[u8]) = (1, &[0x4b]);
const COMMAND_LINE: (u16, &[u8]) = (2, &[0x61]);
const RAMDISK: (u16, &[u8]) = (3, &[]);

/// R1 to R11, each behind a flags record, and what may be wrong with that record.
pub fn roll_cases() -> Vec<RollCase> {
    let mut cases = Vec::new();
    let mut case = |name, roll, answer| cases.push(RollCase { name, roll, answer });
    let behind = |rest: &[u8]| [&flags_record(0), rest].concat();

    case("R1", behind(&[]), Err((16, 1, 12)));
    case("R2", behind(&[0; RECORD_HEAD]), Err((12, 0, 0)));
    let list = vec![(1, 22, 1), (2, 33, 1), (3, 44, 0)];
    case("R3", WORKED_ROLL.to_vec(), Ok((0, list)));
    case("R4", WORKED_ROLL[..53].to_vec(), Err((16, 4, 44)));
    case("R5", [&WORKED_ROLL[..], &[0]].concat(), Err((18, 0, 54)));
    let list = vec![(2, 22, 1), (1, 33, 1), (3, 44, 0)];
    let roll = roll_of(0, &[COMMAND_LINE, KERNEL, RAMDISK]);
    case("R6", roll, Ok((0, list)));
    let roll = roll_of(0, &[RAMDISK, KERNEL, COMMAND_LINE]);
    case("R7", roll, Err((10, 1, 12)));
    let roll = roll_of(0, &[KERNEL, KERNEL, COMMAND_LINE, RAMDISK]);
    case("R8", roll, Err((11, 2, 23)));
    let roll = roll_of(0, &[(4, &[0x4b]), COMMAND_LINE, RAMDISK]);
    case("R9", roll, Err((17, 1, 12)));
    case("R10", behind(&record(1, 0, &[0])), Err((17, 1, 12)));
    let roll = behind(&record(u64::MAX, 1, &[]));
    case("R11", roll, Err((16, 1, 12)));
    cases.extend(flags_cases());
    cases
}

/// The flags record and its neighbours.
fn flags_cases() -> Vec<RollCase> {
    let mut cases = Vec::new();
    let mut case = |name, roll, answer| cases.push(RollCase { name, roll, answer });
    let rest = &WORKED_ROLL[FLAGS_RECORD..];
    let before = |first: Vec<u8>| [&first, rest].concat();

    case("no bytes", vec![], Err((16, 0, 0)));
    let head_cut = WORKED_ROLL[..RECORD_HEAD - 1].to_vec();
    case("head cut", head_cut, Err((16, 0, 0)));
    case("no flags record", rest.to_vec(), Err((17, 0, 0)));
    case("end record first", vec![0; RECORD_HEAD], Err((17, 0, 0)));
    for length in [0, 1, 3, u64::MAX] {
        let roll = before(record(length, 256, &[0, 0]));
        case("its length not 2", roll, Err((17, 0, 0)));
    }
    for kind in [0, 1, 255, 257] {
        let roll = before(record(2, kind, &[0, 0]));
        case("its type not 256", roll, Err((17, 0, 0)));
    }
    for cut in [RECORD_HEAD, FLAGS_RECORD - 1] {
        case("data cut", WORKED_ROLL[..cut].to_vec(), Err((16, 0, 0)));
    }
    case(
        "a second one",
        before(WORKED_ROLL[..FLAGS_RECORD].repeat(2)),
        Err((17, 1, 12)),
    );
    let mut late = WORKED_ROLL[..44].to_vec();
    late.extend(flags_record(0));
    case("another, for the end record", late, Err((17, 4, 44)));
    for flags in [1, 0x0100, 0xfffe, 0xffff] {
        let list = vec![(1, 22, 1), (2, 33, 1)];
        let roll = roll_of(flags, &[KERNEL, COMMAND_LINE]);
        case("flags", roll, Ok((flags, list)));
    }
    cases
}
