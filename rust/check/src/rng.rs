//! A small generator of pseudo-random numbers (SplitMix64), the same on every machine.

/// A generator.
#[derive(Clone, Debug)]
pub struct Rng(u64);

impl Rng {
    /// The generator of one input: each has its own, so one input can be made again alone.
    pub fn of_input(seed: u64, ordinal: u64) -> Self {
        let mut rng = Rng(seed ^ ordinal.wrapping_mul(0xD6E8_FEB8_6659_FD93));
        rng.next();
        rng
    }

    /// The next number.
    #[allow(clippy::should_implement_trait)]
    pub fn next(&mut self) -> u64 {
        self.0 = self.0.wrapping_add(0x9E37_79B9_7F4A_7C15);
        let mut z = self.0;
        z = (z ^ (z >> 30)).wrapping_mul(0xBF58_476D_1CE4_E5B9);
        z = (z ^ (z >> 27)).wrapping_mul(0x94D0_49BB_1331_11EB);
        z ^ (z >> 31)
    }

    /// A number below `bound`, which is not 0.
    pub fn below(&mut self, bound: usize) -> usize {
        (self.next() % bound as u64) as usize
    }

    /// True once in `times` on average.
    pub fn once_in(&mut self, times: usize) -> bool {
        self.below(times) == 0
    }

    /// One of `choices`, which are not none.
    pub fn pick<T: Copy>(&mut self, choices: &[T]) -> T {
        choices[self.below(choices.len())]
    }

    /// `length` bytes.
    pub fn bytes(&mut self, length: usize) -> Vec<u8> {
        (0..length).map(|_| self.next() as u8).collect()
    }

    /// Changes a bit of the bytes, where there are any.
    pub fn flip_bit(&mut self, bytes: &mut [u8]) {
        if !bytes.is_empty() {
            let at = self.below(bytes.len());
            bytes[at] ^= 1 << self.below(8);
        }
    }

    /// A number made to overflow or to just miss a bound: close to `near`, to 0, to a power of two, to
    /// what wraps round to `near`, or any at all.
    pub fn hostile(&mut self, near: u64) -> u64 {
        let step = self.pick(&[0, 1, 2, 9, 10, 11, 12, 13, 24]);
        let base = match self.below(8) {
            0 | 1 => near,
            2 => 0,
            3 => 1 << 63,
            4 => 1 << 32,
            5 => near.wrapping_neg(),
            6 => near << self.below(57),
            _ => self.next(),
        };
        if self.once_in(2) {
            base.wrapping_add(step)
        } else {
            base.wrapping_sub(step)
        }
    }

    /// A length of an output buffer for `wanted` bytes: none, too short, exact or longer.
    pub fn output_length(&mut self, wanted: usize) -> usize {
        match self.below(8) {
            0 => 0,
            1 => self.below(wanted + 1),
            2 => wanted.saturating_sub(1),
            3 | 4 => wanted,
            5 => wanted + 1,
            _ => wanted + self.below(80),
        }
    }
}
