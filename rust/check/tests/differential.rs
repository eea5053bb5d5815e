//! The library beside the twin on generated inputs: valid, damaged and hostile.
//!
//! The environment variable EIF_SEED gives another seed, and EIF_TIMES that many times the inputs.

use eif::MAX_IMAGE_LENGTH;
use eif_cases::{flags_record, put, record, zero_image, FLAGS_RECORD, RECORD_HEAD, SHORTEST};
use eif_check::*;
use std::io::{self, Write};

const SEED: u64 = 0x2024_0621;

/// Writes a line that is seen also where the test passes.
fn say(line: &str) {
    writeln!(io::stderr(), "{line}").expect("standard error takes a line");
}

/// Makes an input with its own generator, by its ordinal, and compares it.
type Compare = fn(&mut Rng, u64, &mut Tally);

/// Of each kind of input: how many there are, their seed, and what makes and compares one.
fn kinds(seed: u64) -> [(u64, u64, Compare); 20] {
    [
        (100_000, seed, |rng, ordinal, tally| {
            let image = any_image(rng);
            compare_image(rng, ordinal, &image, tally);
        }),
        (60_000, !seed, |rng, ordinal, tally| {
            let plan = any_plan(rng);
            compare_plan(rng, ordinal, &plan, tally);
        }),
        (80_000, seed.rotate_left(32), |rng, ordinal, tally| {
            compare_roll(ordinal, &any_roll(rng), tally);
        }),
        (40_000, !seed.rotate_left(32), |rng, ordinal, tally| {
            compare_message(ordinal, &any_message(rng), tally);
        }),
        (40_000, seed.rotate_left(16), |rng, ordinal, tally| {
            let given = any_reading_input(rng);
            compare_reading(rng, ordinal, &given, tally);
        }),
        (40_000, seed.rotate_left(48), |rng, ordinal, tally| {
            let image = any_image(rng);
            compare_arriving(rng, ordinal, &image, tally);
        }),
        (40_000, !seed.rotate_left(48), compare_arriving_state),
        (40_000, !seed.rotate_left(16), |rng, ordinal, tally| {
            let image = any_image(rng);
            compare_parts(rng, ordinal, &image, tally);
        }),
        (20_000, seed.rotate_left(56), |rng, ordinal, tally| {
            let image = any_image(rng);
            compare_measured::<RegistersArriving>(rng, ordinal, &image, tally);
        }),
        (
            20_000,
            !seed.rotate_left(56),
            compare_measured_state::<RegistersArriving>,
        ),
        (20_000, seed.rotate_left(4), |rng, ordinal, tally| {
            let image = any_image(rng);
            compare_measured::<FingerprintArriving>(rng, ordinal, &image, tally);
        }),
        (
            20_000,
            !seed.rotate_left(4),
            compare_measured_state::<FingerprintArriving>,
        ),
        (100_000, seed.rotate_left(8), |rng, ordinal, tally| {
            compare_sign1(ordinal, &any_sign1(rng), tally);
        }),
        (40_000, !seed.rotate_left(8), |rng, ordinal, tally| {
            let given = any_claim(rng);
            compare_claim(rng, ordinal, &given, tally);
        }),
        (60_000, seed.rotate_left(24), |rng, ordinal, tally| {
            let given = any_staged(rng);
            compare_staged(rng, ordinal, &given, tally);
        }),
        (40_000, seed.rotate_left(40), compare_transfer),
        (10_000, seed.rotate_left(12), |rng, ordinal, tally| {
            let plan = any_plan(rng);
            compare_writing(rng, ordinal, &plan, tally);
        }),
        (40_000, !seed.rotate_left(12), compare_writing_state),
        (10_000, seed.rotate_left(20), |rng, ordinal, tally| {
            let given = any_staged(rng);
            compare_staged_writing(rng, ordinal, &given, tally);
        }),
        (40_000, !seed.rotate_left(20), compare_staged_writing_state),
    ]
}

/// Replacements with which an image would be about as long as it may be. That they are too long is found
/// without a look at their bytes.
fn long_replacements(seed: u64, tally: &mut Tally) {
    let replacement = vec![0; MAX_IMAGE_LENGTH];
    for ordinal in 0..200 {
        let mut rng = Rng::of_input(!seed.rotate_left(24), ordinal);
        let layout = accepted_layout(&mut rng);
        let base = any_image_of(&mut rng, &layout);
        let count = layout.sections.len();
        let replaced = rng.below(count);
        let most = MAX_IMAGE_LENGTH - (base.len() - layout.sections[replaced].data.len());
        for size in most - 1..most + 3 {
            let numbers = (size as u64, replaced as u64, rng.below(count + 1) as u64);
            compare_staged_part(ordinal, &base, numbers, tally);
        }
        let huge = rng.hostile(most as u64);
        compare_staged_part(ordinal, &base, (huge, replaced as u64, 0), tally);
        let given = StagedInput {
            base,
            replacement: replacement[..most + 1].into(),
            replaced: replaced as u64,
            shown: rng.below(count) as u64,
        };
        compare_staged(&mut rng, ordinal, &given, tally);
        compare_staged_writing(&mut rng, ordinal, &given, tally);
    }
}

/// Images longer than they may be. No call looks at their bytes.
fn long_images(seed: u64, tally: &mut Tally) {
    let mut rng = Rng::of_input(seed, u64::MAX);
    let longer = zero_image(MAX_IMAGE_LENGTH + 100);
    for length in MAX_IMAGE_LENGTH + 1..=longer.len() {
        compare_image(&mut rng, length as u64, &longer[..length], tally);
    }
}

/// Rolls whose images would be about as long as they may be. Their data are zeros that take no memory.
fn long_rolls(tally: &mut Tally) {
    let most = MAX_IMAGE_LENGTH - SHORTEST;
    for length in most - 3..most + 4 {
        let kernel = FLAGS_RECORD + RECORD_HEAD + length;
        for rest in [
            &[record(0, 2, &[]), record(0, 0, &[])][..],
            &[record(1, 2, &[7]), record(0, 0, &[])],
            &[record(0, 2, &[]), record(0, 3, &[]), record(0, 0, &[])],
            &[record(0, 2, &[]), record(0, 0, &[]), vec![0]],
            &[record(0, 3, &[]), record(0, 0, &[])],
            &[record(0, 2, &[])],
        ] {
            let rest = rest.concat();
            let mut roll = vec![0; kernel + rest.len()];
            put(&mut roll, 0, &flags_record(1));
            put(&mut roll, FLAGS_RECORD, &record(length as u64, 1, &[]));
            put(&mut roll, kernel, &rest);
            compare_roll(length as u64, &roll, tally);
        }
    }
}

/// One of `parts` equal shares of the inputs; the long ones are made once.
fn run(seed: u64, times: u64, part: u64, parts: u64) -> Tally {
    let mut tally = Tally::default();
    for (inputs, seed, compare) in kinds(seed) {
        for ordinal in share(inputs * times, part, parts) {
            compare(&mut Rng::of_input(seed, ordinal), ordinal, &mut tally);
        }
    }
    if part == 0 {
        long_images(seed, &mut tally);
        long_replacements(seed, &mut tally);
    }
    if part == parts - 1 {
        long_rolls(&mut tally);
    }
    tally
}

#[test]
fn library_and_twin_agree() {
    let seed = variable("EIF_SEED", SEED);
    let times = variable("EIF_TIMES", 1);
    say(&format!("seed {seed:#x} (EIF_SEED sets another)"));
    let mut total = Tally::default();
    for tally in in_parts(|part, parts| run(seed, times, part, parts)) {
        total += &tally;
    }
    say(&format!("{} inputs\n{total}", total.inputs()));

    // The generator reaches every number that a call may answer, and no call answers another.
    for call in Call::ALL {
        assert_eq!(total.reached(call), call.numbers(), "{call:?}");
    }
    for &reason in eif::Reason::ALL {
        assert!(total.of_number(reason as u8) > 0, "{reason} never occurred");
    }
    assert!(total.inputs() > 1_250_000);
}
