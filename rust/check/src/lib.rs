//! Inputs for the tests of the proved library, and what holds its answers to the twin's.
//!
//! `tests/differential.rs` compares the two on generated inputs, `tests/json.rs` on JSON texts,
//! `tests/demands.rs` tries the demands themselves, and `tests/format.rs` runs the examples of
//! docs/FORMAT.md.
#![forbid(unsafe_code)]
#![deny(missing_docs)]

mod arriving;
mod assembler;
mod compare;
mod fingerprint;
mod images;
mod measuring;
mod messages;
mod output;
mod plans;
mod readings;
mod refused;
mod rng;
mod rolls;
mod run;
mod sign1;
mod staged;
mod strict;
mod tally;
mod texts;
mod writing;

pub use arriving::{compare_arriving, compare_arriving_state, compare_parts, state_of, LENGTHS};
pub use assembler::{compare_transfer, compare_transfer_call, TransferBuffers};
pub use compare::{
    compare_image, compare_message, compare_plan, compare_reading, compare_roll, parts,
    refused_reading, Parts,
};
pub use fingerprint::FingerprintArriving;
pub use images::{accepted_layout, any_image, any_image_of};
pub use measuring::{compare_measured, compare_measured_state, RegistersArriving, WhileArriving};
pub use messages::{any_message, Message};
pub use output::Output;
pub use plans::{accepted_plan, any_plan, PlanInput};
pub use readings::{any_reading_input, ReadingInput};
pub use refused::check_refused_image;
pub use rng::Rng;
pub use rolls::any_roll;
pub use run::{in_parts, in_threads, share, variable};
pub use sign1::{any_claim, any_sign1, compare_claim, compare_sign1, ClaimInput};
pub use staged::{any_staged, compare_staged, compare_staged_part, is_part, StagedInput};
pub use strict::compare_text;
pub use tally::{Call, Tally};
pub use texts::{any_text, json_text};
pub use writing::{
    compare_staged_writing, compare_staged_writing_state, compare_writing, compare_writing_state,
};
