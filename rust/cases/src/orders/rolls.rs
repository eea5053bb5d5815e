//! Rolls to which two rules apply.

use super::{OrderCase, Rule};
use crate::images::Answer;
use crate::layout::put;
use crate::rolls::record;

/// A record: how often, the length in its head, its type, its data.
type Records = (usize, u64, u16, &'static [u8]);

/// Both rules; records; bytes after them; answer.
type Row = ([Rule; 2], &'static [Records], &'static [u8], Answer);

const FLAGS: Records = (1, 2, 256, &[0, 0]);
const KERNEL: Records = (1, 1, 1, b"k");
const COMMAND_LINE: Records = (1, 1, 2, b"c");
const RAMDISK: Records = (1, 1, 3, b"r");
/// With a kernel and a command line they are 32 records.
const RAMDISKS: Records = (30, 1, 3, b"r");
const END: Records = (1, 0, 0, &[]);

/// The flags record has 12 bytes and each record of one byte has 11: they start at 12, 23, 34 and so on, and the 33rd at
/// 364.
#[rustfmt::skip]
const ROWS: &[Row] = &[
    // 17 would be the answer if missing bytes of a head were read as zeros.
    (["16 flags head", "17 flags"], &[], &[0xff; 9], (16, 0, 0)),
    (["16 head", "17"], &[FLAGS], &[0xff; 9], (16, 1, 12)),
    (["17 flags", "16 flags data"], &[(1, 2, 255, &[])], &[], (17, 0, 0)),
    (["17 flags", "16 flags data"], &[(1, 3, 256, &[])], &[], (17, 0, 0)),
    (["17 flags", "16 head"], &[(1, 2, 255, &[0, 0])], &[], (17, 0, 0)),
    (["17 flags", "17"], &[(1, 2, 255, &[0, 0]), (1, 1, 4, b"x")], &[], (17, 0, 0)),
    (["16 head", "5"], &[FLAGS, KERNEL, COMMAND_LINE, RAMDISKS], &[0; 9], (16, 33, 364)),
    (["16 head", "12"], &[FLAGS], &[], (16, 1, 12)),
    (["17", "5"], &[FLAGS, KERNEL, COMMAND_LINE, RAMDISKS, (1, 1, 4, b"x"), END], &[], (17, 33, 364)),
    (["17", "5"], &[FLAGS, KERNEL, COMMAND_LINE, RAMDISKS, (1, 1, 0, b"x"), END], &[], (17, 33, 364)),
    (["17", "16 data"], &[FLAGS, (1, u64::MAX, 4, &[])], &[], (17, 1, 12)),
    (["17", "16 data"], &[FLAGS, (1, 1, 0, &[])], &[], (17, 1, 12)),
    (["5", "16 data"], &[FLAGS, KERNEL, COMMAND_LINE, RAMDISKS, (1, 2, 3, b"r")], &[], (5, 0, 364)),
    (["5", "11"], &[FLAGS, KERNEL, COMMAND_LINE, RAMDISKS, KERNEL, END], &[], (5, 0, 364)),
    (["16 data", "10"], &[FLAGS, (1, 2, 3, b"r")], &[], (16, 1, 12)),
    (["16 data", "11"], &[FLAGS, KERNEL, (1, u64::MAX, 1, b"k")], &[], (16, 2, 23)),
    (["10", "16 next head"], &[FLAGS, RAMDISK], &[], (10, 1, 12)),
    (["11", "16 next head"], &[FLAGS, KERNEL, KERNEL], &[0; 9], (11, 2, 23)),
    (["16 next head", "12"], &[FLAGS, KERNEL], &[0; 9], (16, 2, 23)),
    (["10", "18"], &[FLAGS, RAMDISK, END], &[0], (10, 1, 12)),
    (["10", "12"], &[FLAGS, RAMDISK, END], &[], (10, 1, 12)),
    (["11", "18"], &[FLAGS, KERNEL, COMMAND_LINE, COMMAND_LINE, END], &[0], (11, 3, 34)),
    (["11", "12"], &[FLAGS, KERNEL, KERNEL, END], &[], (11, 2, 23)),
    (["18", "12"], &[FLAGS, END], &[0], (18, 0, 22)),
    (["18", "12"], &[FLAGS, KERNEL, END], &[0; 10], (18, 0, 33)),
];

/// Rolls to which two rules apply.
pub fn roll_orders() -> Vec<OrderCase<Vec<u8>>> {
    let case = |&(rules, records, after, answer): &Row| {
        let records = records.iter();
        let records =
            records.map(|&(times, length, kind, data)| record(length, kind, data).repeat(times));
        OrderCase {
            rules,
            input: [&records.collect::<Vec<_>>().concat(), after].concat(),
            answer,
        }
    };
    ROWS.iter().map(case).collect()
}

/// Both rules; the heads of a command line of no bytes, if there is one, and of a kernel of zeros; how many bytes follow
/// the end record; answer.
type LongRow = ([Rule; 2], bool, u64, usize, Answer);

/// 548 and 12 for each record are added to the lengths, so with these kernels the sum is 1,073,741,825.
const LONG_ROWS: [LongRow; 2] = [
    (["12", "1"], false, 1_073_741_265, 0, (12, 0, 0)),
    (["18", "1"], true, 1_073_741_253, 1, (18, 0, 1_073_741_295)),
];

/// Rolls of almost 1 GiB, whose zeros take no memory until they are written to.
pub fn long_roll_orders() -> Vec<OrderCase<Vec<u8>>> {
    let case = |(rules, has_command_line, kernel, after, answer): LongRow| {
        let mut heads = record(2, 256, &[0, 0]);
        if has_command_line {
            heads.extend(record(0, 2, &[]));
        }
        heads.extend(record(kernel, 1, &[]));
        // The end record is of zeros too.
        let mut roll = vec![0; heads.len() + kernel as usize + 10 + after];
        put(&mut roll, 0, &heads);
        OrderCase {
            rules,
            input: roll,
            answer,
        }
    };
    LONG_ROWS.map(case).into()
}
