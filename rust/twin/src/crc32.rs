//! CRC-32 of IEEE 802.3 by a table of 256 entries.

const TABLE: [u32; 256] = table();

const fn table() -> [u32; 256] {
    let mut table = [0; 256];
    let mut byte = 0;
    while byte < 256 {
        let mut crc = byte as u32;
        let mut bit = 0;
        while bit < 8 {
            crc = if crc & 1 == 1 {
                (crc >> 1) ^ 0xEDB8_8320
            } else {
                crc >> 1
            };
            bit += 1;
        }
        table[byte] = crc;
        byte += 1;
    }
    table
}

/// A checksum in progress.
#[derive(Clone, Copy, Debug)]
pub struct Crc32(u32);

impl Crc32 {
    /// The checksum of no bytes.
    pub fn new() -> Self {
        Crc32(!0)
    }

    /// The checksum whose value before the final inversion is this.
    pub(crate) fn of_remainder(remainder: u32) -> Self {
        Crc32(remainder)
    }

    /// Its value before the final inversion.
    pub(crate) fn remainder(self) -> u32 {
        self.0
    }

    /// The checksum with `bytes` added.
    #[must_use]
    pub fn update(self, bytes: &[u8]) -> Self {
        Crc32(bytes.iter().fold(self.0, |crc, &byte| {
            (crc >> 8) ^ TABLE[usize::from(crc as u8 ^ byte)]
        }))
    }

    /// The value over all bytes so far.
    pub fn finish(self) -> u32 {
        !self.0
    }
}

impl Default for Crc32 {
    fn default() -> Self {
        Self::new()
    }
}

#[cfg(test)]
mod tests {
    use super::Crc32;

    #[test]
    fn check_value() {
        assert_eq!(Crc32::new().update(b"123456789").finish(), 0xCBF4_3926);
        assert_eq!(
            Crc32::new().update(b"1234").update(b"56789").finish(),
            0xCBF4_3926
        );
        assert_eq!(Crc32::new().finish(), 0);
    }
}
