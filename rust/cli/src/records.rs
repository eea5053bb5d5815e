//! The records of a transfer as they stand in a file or come in by a pipe, one after the other.

use eif::assembler::{length_after_head, MAX_RECORD_LENGTH};
use eif::RECORD_HEAD_LENGTH;
use std::io::{self, Read};

/// How much is read at once.
const READ_SIZE: usize = 1 << 20;

/// What is kept of a record that says that it is longer than any: one byte more than the longest has, so that it is
/// too long still.
const KEPT: usize = MAX_RECORD_LENGTH + 1;

/// Records from a source.
pub struct Records<R> {
    source: R,
    /// What has come and is not taken yet, from `at` on.
    came: Vec<u8>,
    at: usize,
    /// The start of a record that is longer than any, and how many bytes of it are still to be left out.
    long: Option<(Vec<u8>, u64)>,
}

impl<R: Read> Records<R> {
    pub fn new(source: R) -> Self {
        Records {
            source,
            came: Vec::new(),
            at: 0,
            long: None,
        }
    }

    /// The next record, if it has come whole already. Of one that is longer than any its start is answered, with
    /// the length that this start has, which the library refuses as it would the whole record.
    pub fn ready(&mut self) -> Option<Vec<u8>> {
        if self.long.is_none() {
            let head = self.came[self.at..].first_chunk::<RECORD_HEAD_LENGTH>()?;
            let length = length_after_head(head);
            let rest = length.min((KEPT - RECORD_HEAD_LENGTH) as u64);
            let record = self.take(RECORD_HEAD_LENGTH + rest as usize)?;
            if record.len() < KEPT {
                return Some(record);
            }
            self.long = Some((record, length - rest));
        }
        self.leave_out()
    }

    /// Leaves out what has come of a long record.
    fn leave_out(&mut self) -> Option<Vec<u8>> {
        let (mut record, left) = self.long.take()?;
        let came = (self.came.len() - self.at) as u64;
        let count = left.min(came);
        self.at += count as usize;
        if count < left {
            self.long = Some((record, left - count));
            return None;
        }
        let rest = (KEPT - RECORD_HEAD_LENGTH) as u64;
        record[..8].copy_from_slice(&rest.to_le_bytes());
        Some(record)
    }

    fn take(&mut self, count: usize) -> Option<Vec<u8>> {
        let taken = self.came[self.at..].get(..count)?.to_vec();
        self.at += count;
        Some(taken)
    }

    /// Waits for more and answers how many bytes came: none at the end.
    pub fn wait(&mut self) -> io::Result<usize> {
        self.came.drain(..self.at);
        self.at = 0;
        let start = self.came.len();
        self.came.resize(start + READ_SIZE, 0);
        let count = loop {
            match self.source.read(&mut self.came[start..]) {
                Err(error) if error.kind() == io::ErrorKind::Interrupted => {}
                count => break count,
            }
        };
        self.came.truncate(start + *count.as_ref().unwrap_or(&0));
        count
    }

    /// What came of a record that the input ends in.
    pub fn rest(self) -> Option<Vec<u8>> {
        match self.long {
            Some((record, _)) => Some(record),
            None => Some(self.came[self.at..].to_vec()).filter(|rest| !rest.is_empty()),
        }
    }
}

#[cfg(test)]
mod tests {
    use super::*;
    use eif::assembler::{close_record, open_record, piece_record};

    /// A source that gives so many bytes at once.
    struct Slow<'a>(&'a [u8], usize);

    impl Read for Slow<'_> {
        fn read(&mut self, to: &mut [u8]) -> io::Result<usize> {
            let count = self.1.min(self.0.len()).min(to.len());
            let (now, later) = self.0.split_at(count);
            to[..count].copy_from_slice(now);
            self.0 = later;
            Ok(count)
        }
    }

    fn all(bytes: &[u8], at_once: usize) -> Vec<Vec<u8>> {
        let mut records = Records::new(Slow(bytes, at_once));
        let mut found = Vec::new();
        loop {
            found.extend(std::iter::from_fn(|| records.ready()));
            if records.wait().unwrap() == 0 {
                break;
            }
        }
        found.extend(records.rest());
        found
    }

    #[test]
    fn records_however_they_are_cut() {
        let sent = [
            open_record(5000),
            piece_record(0, &[7; 4096]),
            piece_record(4096, &[8; 904]),
            close_record(),
        ];
        for at_once in [1, 7, 10, 18, 4096, READ_SIZE] {
            assert_eq!(all(&sent.concat(), at_once), sent);
        }
        let cut = [&sent.concat()[..], &[1, 2, 3]].concat();
        assert_eq!(all(&cut, 100).last().unwrap(), &[1, 2, 3]);
        assert!(all(&[], 1).is_empty());
    }

    #[test]
    fn a_record_longer_than_any() {
        for more in [1, 2, 5000, 3 << 20] {
            let long = piece_record(0, &vec![9; 4096 + more]);
            let sent = [long.clone(), close_record()].concat();
            for at_once in [1000, READ_SIZE] {
                let [start, close] = &all(&sent, at_once)[..] else {
                    panic!("{more}");
                };
                assert_eq!(start.len(), KEPT);
                assert_eq!(start[..8], 4105u64.to_le_bytes());
                assert_eq!(start[8..], long[8..KEPT]);
                assert_eq!(*close, close_record());
            }
            // Cut: its own length stays.
            let cut = &long[..long.len() - 1];
            let found = all(cut, 1000);
            assert_eq!(found.len(), 1);
            assert_eq!(found[0], cut[..cut.len().min(KEPT)]);
        }
        let endless = [&[0xff; 8][..], &[2, 0], &[5; 9000]].concat();
        assert_eq!(all(&endless, 4096), [endless[..KEPT].to_vec()]);
    }
}
