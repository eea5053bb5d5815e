//! Values over a state of the C interface.

/// What a type of one field, a state, has beside its calls: any state to go on from, and the state to be kept.
macro_rules! kept_state {
    ($name:ident, $state:ty) => {
        /// Any state can be gone on from.
        impl From<$state> for $name {
            fn from(state: $state) -> Self {
                $name(state)
            }
        }

        /// The state, to be kept and gone on from later.
        impl From<$name> for $state {
            fn from(value: $name) -> Self {
                value.0
            }
        }
    };
}

pub(crate) use kept_state;

/// What such a type has if it begins without an input: the same, and a new one by default.
macro_rules! over_state {
    ($name:ident, $state:ty) => {
        impl Default for $name {
            fn default() -> Self {
                Self::new()
            }
        }

        $crate::state::kept_state!($name, $state);
    };
}

pub(crate) use over_state;

/// What a type over a state of an arriving image has beside `new` and `finish`: feeding pieces, and writing them.
macro_rules! while_arriving {
    ($name:ident, $feed:path) => {
        impl $name {
            /// Takes a piece and answers how many of its bytes were taken: all before the end, and none after it.
            pub fn feed(&mut self, piece: &[u8]) -> usize {
                self.feed_at_most(piece, u64::MAX)
            }

            /// Takes at most `allowance` bytes from the start of a piece and answers how many were taken: the lesser of the
            /// allowance and the piece's length before the end, and 0 after it.
            pub fn feed_at_most(&mut self, piece: &[u8], allowance: u64) -> usize {
                let fed = $feed(self.0, piece, allowance);
                self.0 = fed.state;
                // No more than the piece's length.
                fed.count as usize
            }

            /// How many bytes were taken so far.
            pub fn taken(&self) -> u64 {
                self.0.arriving.taken
            }

            /// A copy of the part of the state that checks the image, to ask it which section the next bytes belong to.
            /// Feeding the copy does not feed this one: ask [`next`]($crate::Arriving::next) of the copy, feed this one,
            /// and take a new copy for the bytes after these. [`ArrivingRegisters`]($crate::ArrivingRegisters) has an
            /// example.
            pub fn arriving(&self) -> $crate::Arriving {
                self.0.arriving.into()
            }
        }

        /// What is written is fed. After the end nothing is taken, so that nothing more can be written.
        impl io::Write for $name {
            fn write(&mut self, piece: &[u8]) -> io::Result<usize> {
                Ok(self.feed(piece))
            }

            fn flush(&mut self) -> io::Result<()> {
                Ok(())
            }
        }
    };
}

pub(crate) use while_arriving;
