//! Images that are fingerprinted while they arrive.

use crate::arriving::twin_arriving;
use crate::compare::twin_state;
use crate::{Call, WhileArriving};
use eif::raw::fingerprint::{
    fingerprinting_begin, fingerprinting_feed, fingerprinting_finish, image_fingerprint,
    Fingerprinting,
};
use eif::raw::{Arriving, Reading, Sha384};
use eif::Digest;
use eif_twin as twin;

/// The fingerprint.
pub struct FingerprintArriving;

impl WhileArriving for FingerprintArriving {
    const KIND: &'static str = "fingerprinted image";
    const CALL: Call = Call::FingerprintArriving;
    type State = Fingerprinting;
    type Rust = eif::ArrivingFingerprint;
    type Twin = twin::Fingerprinting;

    fn begin() -> (Fingerprinting, twin::Fingerprinting) {
        (fingerprinting_begin(), twin::Fingerprinting::new())
    }

    fn state(arriving: Arriving, digests: &mut dyn FnMut() -> Sha384) -> Fingerprinting {
        Fingerprinting {
            arriving,
            roll: digests(),
        }
    }

    fn twin(state: Fingerprinting) -> twin::Fingerprinting {
        twin::Fingerprinting {
            arriving: twin_arriving(state.arriving),
            roll: twin_state(state.roll),
        }
    }

    fn arriving(state: &Fingerprinting) -> Arriving {
        state.arriving
    }

    fn feed(state: Fingerprinting, piece: &[u8], allowance: u64) -> (Fingerprinting, u64) {
        let fed = fingerprinting_feed(state, piece, allowance);
        (fed.state, fed.count)
    }

    fn feed_rust(rust: &mut Self::Rust, piece: &[u8], allowance: u64) -> usize {
        rust.feed_at_most(piece, allowance)
    }

    fn feed_twin(twin: &mut twin::Fingerprinting, piece: &[u8], allowance: u64) -> u64 {
        twin.feed(piece, allowance)
    }

    fn finish(state: Fingerprinting) -> (Fingerprinting, Reading, Vec<Digest>) {
        let finished = fingerprinting_finish(state);
        (finished.state, finished.reading, vec![finished.digest])
    }

    fn finish_rust(rust: &mut Self::Rust) -> Result<(eif::Reading, Vec<Digest>), eif::Refusal> {
        let (reading, fingerprint) = rust.finish()?;
        Ok((reading, vec![fingerprint.0]))
    }

    fn measured(twin: &twin::Fingerprinting) -> Vec<Digest> {
        vec![Digest(twin.fingerprint())]
    }

    fn of_image(image: &[u8]) -> Vec<Digest> {
        vec![image_fingerprint(image).digest]
    }
}
