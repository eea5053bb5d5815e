//! Output buffers whose every byte is watched.

const GUARD: usize = 64;

/// A buffer filled with a pattern, with bytes before and after it that no call may touch.
#[derive(Clone, Debug, PartialEq, Eq)]
pub struct Output {
    bytes: Vec<u8>,
    salt: u8,
}

fn pattern(at: usize, salt: u8) -> u8 {
    // 251 is no power of two, so that a shifted copy of the pattern differs from it.
    (at % 251) as u8 ^ salt
}

impl Output {
    /// A buffer of `length` bytes.
    pub fn new(length: usize, salt: u8) -> Self {
        let bytes = (0..length + 2 * GUARD).map(|at| pattern(at, salt));
        Output {
            bytes: bytes.collect(),
            salt,
        }
    }

    /// The buffer, to be lent.
    pub fn lend(&mut self) -> &mut [u8] {
        let end = self.bytes.len() - GUARD;
        &mut self.bytes[GUARD..end]
    }

    /// The first `length` bytes of the buffer.
    pub fn start(&self, length: usize) -> &[u8] {
        &self.bytes[GUARD..self.bytes.len() - GUARD][..length]
    }

    /// Whether all bytes but the first `length` of the buffer are as they were.
    pub fn only_start_changed(&self, length: usize) -> bool {
        let mut bytes = self.bytes.iter().enumerate();
        let changed = GUARD..GUARD + length;
        bytes.all(|(at, &byte)| changed.contains(&at) || byte == pattern(at, self.salt))
    }
}
