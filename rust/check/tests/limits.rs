//! The longest image and one byte more: read whole and while it arrives, written, and as a roll.
//!
//! The images are of zeros that take no memory until they are written to, so that only the writer's output
//! takes as much as it says.

use eif::{
    Arriving, ArrivingFingerprint, ArrivingRegisters, DataLength, Digest, Place, Plan, SectionType,
    MAX_IMAGE_LENGTH,
};
use eif_cases::{
    flags_record, put, record, zero_image, zero_image_start, Answer, RECORD_HEAD, SHORTEST,
};
use eif_check::{check_refused_image, compare_image, parts, Rng, Tally};
use eif_twin as twin;

const TOO_LONG: Answer = (1, 0, 0);

#[test]
fn read() {
    assert_eq!(MAX_IMAGE_LENGTH, twin::MAX_IMAGE);
    let longest = zero_image(MAX_IMAGE_LENGTH);
    let image = eif::read(&longest).unwrap();
    let lengths: Vec<u64> = image.sections().iter().map(|s| s.length.0).collect();
    assert_eq!(lengths, [0, (MAX_IMAGE_LENGTH - SHORTEST) as u64]);
    assert!(twin::read(&longest).is_ok());
}

/// Every call that takes an image refuses one byte more.
#[test]
fn one_byte_more() {
    let longer = zero_image(MAX_IMAGE_LENGTH + 1);
    check_refused_image("one byte more", &longer, TOO_LONG);
}

/// Feeds zeros until so many bytes were taken.
fn feed_zeros(arriving: &mut Arriving, until: usize) {
    let zeros = [0; 1 << 16];
    while arriving.taken() < until as u64 {
        arriving.feed_at_most(&zeros, until as u64 - arriving.taken());
    }
}

/// With no memory for the image.
#[test]
fn arriving() {
    let mut arriving = Arriving::new();
    arriving.feed(&zero_image_start(MAX_IMAGE_LENGTH));
    feed_zeros(&mut arriving, MAX_IMAGE_LENGTH);
    let mut longer = arriving.clone();
    let reading = arriving.finish().unwrap();
    assert_eq!(
        reading.sections()[1].length,
        DataLength((MAX_IMAGE_LENGTH - SHORTEST) as u64)
    );
    feed_zeros(&mut longer, MAX_IMAGE_LENGTH + 1);
    assert_eq!(longer.finish().map_err(parts), Err(TOO_LONG));
}

/// A long file's magic is wrong before its end, and its answer is 1 all the same. Bytes past the limit are
/// still taken and counted, past 32 bits too.
#[test]
fn arriving_past_the_limit() {
    let mut arriving = Arriving::new();
    feed_zeros(&mut arriving, MAX_IMAGE_LENGTH);
    assert_eq!(arriving.clone().finish().map_err(parts), Err((3, 0, 0)));
    arriving.feed(&[0]);
    assert_eq!(arriving.clone().finish().map_err(parts), Err(TOO_LONG));
    for bits in [31, 32, 33, 63] {
        // As if so many bytes more had come.
        let mut state = eif::raw::Arriving::from(arriving.clone());
        state.taken = (1 << bits) - 1;
        let mut later = Arriving::from(state);
        assert_eq!(later.feed(&[0; 600]), 600);
        assert_eq!(later.taken(), (1 << bits) + 599);
        assert_eq!(later.finish().map_err(parts), Err(TOO_LONG));
    }
}

fn plan(kernel: usize) -> Plan {
    Plan {
        version: 2,
        places: vec![
            Place::new(SectionType::COMMAND_LINE, DataLength(0)),
            Place::new(SectionType::KERNEL, DataLength(kernel as u64)),
        ],
        ..Plan::default()
    }
}

#[test]
fn write() {
    let kernel = MAX_IMAGE_LENGTH - SHORTEST;
    assert_eq!(eif::plan_length(&plan(kernel)), Ok(MAX_IMAGE_LENGTH));
    let longer = eif::plan_length(&plan(kernel + 1));
    assert_eq!(longer.map_err(parts), Err(TOO_LONG));
    let mut out = [0xaa; 600];
    let longer = eif::write(&plan(kernel + 1), &[], &mut out);
    assert_eq!(longer.map_err(parts), Err(TOO_LONG));
    assert_eq!(out, [0xaa; 600]);

    let mut image = vec![0; MAX_IMAGE_LENGTH];
    let written = eif::write(&plan(kernel), &vec![0; kernel], &mut image);
    assert_eq!(written, Ok(MAX_IMAGE_LENGTH));
    let start = zero_image_start(MAX_IMAGE_LENGTH);
    assert!(image.starts_with(&start));
    assert!(image[start.len()..]
        .chunks(1 << 16)
        .all(|c| c == &[0; 1 << 16][..c.len()]));
}

/// A roll of an empty command line and a kernel of so many zeros.
fn roll(kernel: usize) -> Vec<u8> {
    let heads = [
        flags_record(0),
        record(0, 2, &[]),
        record(kernel as u64, 1, &[]),
    ];
    let heads = heads.concat();
    let mut roll = vec![0; heads.len() + kernel + RECORD_HEAD];
    put(&mut roll, 0, &heads);
    roll
}

#[test]
fn rolls() {
    let kernel = MAX_IMAGE_LENGTH - SHORTEST;
    let longest = roll(kernel);
    assert_eq!(eif::read_roll(&longest).unwrap().records().len(), 2);
    let longer = roll(kernel + 1);
    assert_eq!(
        eif::read_roll(&longer).map_err(parts).unwrap_err(),
        TOO_LONG
    );
    assert!(twin::read_roll(&longest).is_ok());
    assert!(twin::read_roll(&longer).is_err());
}

/// Every call on the longest image, beside the twin.
#[test]
#[ignore = "minutes and some GiB: make test-large"]
fn large_every_call() {
    let mut rng = Rng::of_input(30, 0);
    let longest = zero_image(MAX_IMAGE_LENGTH);
    compare_image(&mut rng, 0, &longest, &mut Tally::default());
}

/// A state of an arriving image, with the digests that it answers at the end.
trait Arrives: Clone {
    fn feed(&mut self, piece: &[u8], allowance: u64);
    fn taken(&self) -> u64;
    fn digests(self) -> Result<Vec<Digest>, eif::Refusal>;
}

macro_rules! arrives {
    ($name:ident, $answer:ident, $digests:expr) => {
        impl Arrives for $name {
            fn feed(&mut self, piece: &[u8], allowance: u64) {
                let count = self.feed_at_most(piece, allowance);
                assert_eq!(count as u64, allowance.min(piece.len() as u64));
            }

            fn taken(&self) -> u64 {
                $name::taken(self)
            }

            fn digests(mut self) -> Result<Vec<Digest>, eif::Refusal> {
                self.finish().map(|$answer| $digests)
            }
        }
    };
}

arrives!(Arriving, _answer, Vec::new());
arrives!(ArrivingRegisters, answer, answer.1 .0.to_vec());
arrives!(ArrivingFingerprint, answer, vec![answer.1 .0]);

/// Feeds a state the longest image of zeros, then one byte more, then zeros until four GiB and more were taken.
fn past_the_limit(mut state: impl Arrives, longest: &[u8], expected: Vec<Digest>) {
    for piece in longest.chunks(1 << 16) {
        state.feed(piece, u64::MAX);
    }
    assert_eq!(state.taken(), MAX_IMAGE_LENGTH as u64);
    assert_eq!(state.clone().digests(), Ok(expected));
    state.feed(&[0], 1);
    assert_eq!(state.clone().digests().map_err(parts), Err(TOO_LONG));
    let zeros = vec![0; 1 << 20];
    let end = 4 * MAX_IMAGE_LENGTH as u64 + 1;
    while state.taken() < end {
        let left = end - state.taken();
        state.feed(&zeros, left);
    }
    assert_eq!(state.digests().map_err(parts), Err(TOO_LONG));
}

/// The three states of an arriving image answer at the limit as the calls on the whole image do, and refuse all beyond.
#[test]
#[ignore = "a minute and 1 GiB: make test-large"]
fn large_arriving_states_past_the_limit() {
    let longest = zero_image(MAX_IMAGE_LENGTH);
    past_the_limit(Arriving::new(), &longest, Vec::new());
    let registers = eif::registers(&longest).unwrap().0.to_vec();
    past_the_limit(ArrivingRegisters::new(), &longest, registers);
    let fingerprint = eif::fingerprint(&longest).unwrap().0;
    past_the_limit(ArrivingFingerprint::new(), &longest, vec![fingerprint]);
}
