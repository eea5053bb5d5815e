//! Messages in pieces, to be hashed.

use crate::Rng;
use eif::raw::Sha384;
use eif::{MAX_MESSAGE_LENGTH, SHA384_BLOCK_LENGTH};

/// A digest in progress and the pieces that it is fed.
pub struct Message {
    /// Where to begin: nothing stands for a fresh state.
    pub state: Option<Sha384>,
    /// The pieces, empty ones among them.
    pub pieces: Vec<Vec<u8>>,
}

/// Any message, begun fresh or from any state, some about as long as it may be.
pub fn any_message(rng: &mut Rng) -> Message {
    let state = rng.once_in(3).then(|| any_state(rng));
    let count = rng.below(8);
    let pieces = (0..count).map(|_| any_piece(rng));
    Message {
        state,
        pieces: pieces.collect(),
    }
}

/// Lengths about those where a block or its padding ends.
fn any_piece(rng: &mut Rng) -> Vec<u8> {
    let near = rng.pick(&[0, 1, 16, 111, 112, 113, 127, 128, 129, 239, 256, 384]);
    let length = match rng.below(4) {
        0 => 0,
        1 => rng.below(300),
        _ => near,
    };
    rng.bytes(length)
}

fn any_state(rng: &mut Rng) -> Sha384 {
    let near = MAX_MESSAGE_LENGTH - rng.below(600) as u64;
    let total = match rng.below(3) {
        0 => rng.next(),
        _ => rng.hostile(near),
    };
    let mut block: [u8; SHA384_BLOCK_LENGTH] = std::array::from_fn(|_| rng.next() as u8);
    // A run leaves zeros behind the bytes that are there; any other state is one too.
    if rng.once_in(2) {
        block[(total % SHA384_BLOCK_LENGTH as u64) as usize..].fill(0);
    }
    Sha384 {
        words: std::array::from_fn(|_| rng.next()),
        block,
        total,
    }
}
