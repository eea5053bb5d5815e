//! Transfers: every order, what the calls promise, and a long soak beside the twin.
//!
//! The environment variable EIF_SEED is that of `differential.rs`.

use eif::assembler::{self, close_record, open_record, piece_record, PIECE_LENGTH};
use eif::raw::assembler::{assembler_new, assembler_step, State};
use eif::{Assembler, MAX_IMAGE_LENGTH};
use eif_cases::{KIND_AT, NUMBERED_HEADER};
use eif_check::*;

const SEED: u64 = 0x2024_0621;
const SOAK: usize = 100_000;
/// Where the second piece starts; twice as far, the third.
const PIECE: u64 = PIECE_LENGTH as u64;

/// Shuffles in place.
fn shuffle<T>(rng: &mut Rng, items: &mut [T]) {
    for at in (1..items.len()).rev() {
        items.swap(at, rng.below(at + 1));
    }
}

/// A transfer and its buffers, which the test looks at after each call.
struct Station {
    state: Assembler,
    image: Vec<u8>,
    marks: Vec<u8>,
}

impl Station {
    fn new(image: usize, marks: usize) -> Station {
        Station {
            state: Assembler::new(),
            image: vec![0xee; image],
            marks: vec![0xee; marks],
        }
    }

    fn take(&mut self, sent: &[u8]) -> Result<Option<usize>, u8> {
        let taken = self.state.step(sent, &mut self.image, &mut self.marks);
        taken.map_err(|refusal| {
            assert_eq!((refusal.index(), refusal.position()), (0, 0));
            refusal.number()
        })
    }
}

/// 100,000 records of one transfer after the other, in every order and with repeats, contradictions, damage and early
/// closes between them: at each close that is taken the image is the one that was sent.
#[test]
fn soak() {
    let mut rng = Rng::of_input(variable("EIF_SEED", SEED), u64::MAX);
    let mut tally = Tally::default();
    let (room, places) = (40 * PIECE_LENGTH, 40);
    let mut buffers = TransferBuffers::new(&mut rng, room, places);
    let mut state = assembler_new();
    let (mut handed, mut closed) = (0, 0);
    while handed < SOAK {
        let length = rng.below(room + 1);
        let content = rng.bytes(length);
        let mut records: Vec<Vec<u8>> = assembler::records(&content).collect();
        let last = records.len() - 1;
        let repeats: Vec<Vec<u8>> = records[..last].to_vec();
        let noise = repeats.iter().map(|sent| spoilt(&mut rng, sent));
        let noise: Vec<Vec<u8>> = noise.collect();
        records.truncate(last);
        records.extend(repeats);
        records.extend([close_record(), open_record(7)]);
        shuffle(&mut rng, &mut records[1..]);
        let mut number = 0;
        // Noise comes after the pieces, so that those that it contradicts are held.
        for sent in records.iter().chain(&noise).chain([&close_record()]) {
            let lent = (room, places);
            let done = compare_transfer_call(0, state, sent, &mut buffers, lent, &mut tally);
            state = done.state;
            number = done.number;
            handed += 1;
            if state == assembler_new() {
                assert_eq!((number, done.length), (0, length as u64));
                assert_eq!(buffers.image(length), &content[..]);
                closed += 1;
                break;
            }
        }
        assert_eq!((number, state.opened), (0, 0));
    }
    assert!(handed >= SOAK && closed > 100, "{handed} {closed}");
}

/// A record that is refused, or repeats what is held.
fn spoilt(rng: &mut Rng, sent: &[u8]) -> Vec<u8> {
    let mut sent = sent.to_vec();
    match rng.below(4) {
        0 => sent.truncate(rng.below(sent.len())),
        1 => sent.push(0),
        2 if sent.len() > NUMBERED_HEADER => {
            let at = NUMBERED_HEADER + rng.below(sent.len() - NUMBERED_HEADER);
            sent[at] ^= 1;
        }
        2 => sent[KIND_AT] = 9,
        _ => {}
    }
    sent
}

/// The order of refusals: of two faults the first is told.
#[test]
fn order_of_refusals() {
    let mut station = Station::new(3 * PIECE_LENGTH, 3);
    not_open(&mut station);
    out_of_place(&mut station);
    assert_eq!(station.take(&piece_record(2 * PIECE, &[7; 3])), Ok(None));
    assert_eq!(station.take(&piece_record(2 * PIECE, &[7; 3])), Ok(None));
    assert_eq!(station.take(&piece_record(2 * PIECE, &[8; 3])), Err(25));
    assert_eq!(station.take(&close_record()), Err(26));
    assert_eq!(station.marks, [0, 0, 1]);
    shorter_buffers(&mut station);
    assert_eq!(station.take(&piece_record(0, &[1; PIECE_LENGTH])), Ok(None));
    assert_eq!(
        station.take(&piece_record(PIECE, &[2; PIECE_LENGTH])),
        Ok(None)
    );
    assert_eq!(
        station.take(&close_record()),
        Ok(Some(2 * PIECE_LENGTH + 3))
    );
    closed_again(&mut station);
}

/// Before an open: 23, and 22 before it; then what an open itself can get.
fn not_open(station: &mut Station) {
    let most = MAX_IMAGE_LENGTH as u64;
    assert_eq!(station.take(&piece_record(0, &[])), Err(23));
    assert_eq!(station.take(&close_record()), Err(23));
    assert_eq!(station.take(&[&close_record()[..], &[0]].concat()), Err(22));
    assert_eq!(station.take(&open_record(u64::MAX)), Err(1));
    assert_eq!(station.take(&open_record(most + 1)), Err(1));
    assert_eq!(station.take(&open_record(most)), Err(24));
    assert_eq!(station.take(&open_record(3 * PIECE + 1)), Err(24));
    assert_eq!(station.take(&open_record(2 * PIECE + 3)), Ok(None));
    assert_eq!(station.marks, [0, 0, 0]);
    assert_eq!(station.take(&open_record(u64::MAX)), Err(23));
}

/// Pieces that stand at no place of an image of two pieces and 3 bytes, or are not as long as theirs.
fn out_of_place(station: &mut Station) {
    for (start, length) in [
        (1, PIECE_LENGTH),
        (PIECE - 1, PIECE_LENGTH),
        (3 * PIECE, 3),
        (PIECE.wrapping_neg(), PIECE_LENGTH),
    ] {
        assert_eq!(
            station.take(&piece_record(start, &vec![7; length])),
            Err(22)
        );
    }
    for length in [0, PIECE_LENGTH - 1, PIECE_LENGTH + 1] {
        assert_eq!(station.take(&piece_record(0, &vec![7; length])), Err(22));
    }
    for length in [0, 2, 4, PIECE_LENGTH] {
        assert_eq!(
            station.take(&piece_record(2 * PIECE, &vec![7; length])),
            Err(22)
        );
    }
}

/// 24 before 25 and 26, and 22 before 24.
fn shorter_buffers(station: &mut Station) {
    let marks = station.marks.pop();
    assert_eq!(station.take(&piece_record(2 * PIECE, &[8; 3])), Err(24));
    assert_eq!(station.take(&piece_record(2 * PIECE + 1, &[8; 3])), Err(22));
    assert_eq!(station.take(&close_record()), Err(24));
    station.marks.extend(marks);
    station.image.truncate(2 * PIECE_LENGTH + 3);
    assert_eq!(
        station.take(&close_record()),
        Err(24),
        "shorter than at open"
    );
    station.image.resize(5 * PIECE_LENGTH, 0);
}

/// After a close nothing is open, until the next open.
fn closed_again(station: &mut Station) {
    assert_eq!(station.take(&close_record()), Err(23));
    assert_eq!(station.take(&piece_record(0, &[1; PIECE_LENGTH])), Err(23));
    assert_eq!(station.take(&open_record(0)), Ok(None));
    assert_eq!(
        station.marks,
        [1, 1, 1],
        "an image of no bytes has no marks to zero"
    );
    assert_eq!(station.take(&piece_record(0, &[])), Err(22));
    assert_eq!(station.take(&close_record()), Ok(Some(0)));
}

/// The longest image has its own boundary: one byte less or more, in buffers of which no page is touched.
#[test]
fn lengths_about_the_limit() {
    let room = vec![0; MAX_IMAGE_LENGTH];
    let mut station = Station::new(0, 0);
    station.image = room;
    station.marks = vec![9; MAX_IMAGE_LENGTH / PIECE_LENGTH];
    let most = MAX_IMAGE_LENGTH as u64;
    assert_eq!(station.take(&open_record(most + 1)), Err(1));
    station.marks.pop();
    assert_eq!(station.take(&open_record(most)), Err(24));
    assert_eq!(station.take(&open_record(most - PIECE)), Ok(None));
    station.state = Assembler::new();
    station.marks.push(9);
    assert_eq!(station.take(&open_record(most)), Ok(None));
    assert!(station.marks.iter().all(|&mark| mark == 0));
    let last = most - PIECE;
    assert_eq!(
        station.take(&piece_record(most, &[1; PIECE_LENGTH])),
        Err(22)
    );
    assert_eq!(
        station.take(&piece_record(last, &[1; PIECE_LENGTH])),
        Ok(None)
    );
    assert_eq!(station.marks.last(), Some(&1));
    assert_eq!(station.take(&close_record()), Err(26));
}

/// Every order of a small transfer's pieces, each with one of them repeated at every place.
#[test]
fn every_order() {
    let content: Vec<u8> = (0..3 * PIECE + 5).map(|at| (at % 253) as u8).collect();
    let records: Vec<Vec<u8>> = assembler::records(&content).collect();
    for first in 0..4usize.pow(5) {
        let order: Vec<usize> = (0..5).map(|at| first / 4usize.pow(at) % 4).collect();
        let mut station = Station::new(content.len() + 9, 6);
        assert_eq!(station.take(&records[0]), Ok(None));
        for &place in &order {
            let (image, marks) = (station.image.clone(), station.marks.clone());
            assert_eq!(station.take(&records[1 + place]), Ok(None));
            if marks[place] == 1 {
                assert_eq!(
                    (station.image.clone(), station.marks.clone()),
                    (image, marks)
                );
            }
        }
        let complete = (0..4).all(|place| order.contains(&place));
        let expected = if complete {
            Ok(Some(content.len()))
        } else {
            Err(26)
        };
        assert_eq!(station.take(&records[5]), expected, "{order:?}");
        if complete {
            assert_eq!(station.image[..content.len()], content[..]);
        }
        assert!(station.image[content.len()..]
            .iter()
            .all(|&byte| byte == 0xee));
        assert_eq!(station.marks[4..], [0xee; 2]);
    }
}

/// Any mark but 0 is held, and a repeat leaves it as it is.
#[test]
fn marks_of_other_values() {
    for mark in 1..=255 {
        let (mut image, mut marks) = ([5; 8], [mark, 7]);
        let state = State {
            opened: 1,
            length: 8,
            room: 8,
            places: 1,
        };
        let sent = piece_record(0, &[5; 8]);
        let repeated = assembler_step(state, &sent, &mut image, &mut marks);
        assert_eq!(
            (repeated.number, repeated.state, marks),
            (0, state, [mark, 7])
        );
        let other = assembler_step(state, &piece_record(0, &[6; 8]), &mut image, &mut marks);
        assert_eq!((other.number, other.state, image), (25, state, [5; 8]));
        let closed = assembler_step(state, &close_record(), &mut image, &mut marks);
        assert_eq!(
            (closed.number, closed.length, closed.state),
            (0, 8, assembler_new())
        );
    }
}

/// The records as bytes, in the layout that FORMAT.md gives.
#[test]
fn records_as_bytes() {
    let all: Vec<Vec<u8>> = assembler::records(&[0x61; PIECE_LENGTH + 1]).collect();
    assert_eq!(all.len(), 4);
    assert_eq!(
        all[0],
        [8, 0, 0, 0, 0, 0, 0, 0, 1, 0, 1, 16, 0, 0, 0, 0, 0, 0]
    );
    assert_eq!(
        all[1][..NUMBERED_HEADER],
        [8, 16, 0, 0, 0, 0, 0, 0, 2, 0, 0, 0, 0, 0, 0, 0, 0, 0]
    );
    assert_eq!(all[1].len(), assembler::MAX_RECORD_LENGTH);
    assert_eq!(
        all[2],
        [9, 0, 0, 0, 0, 0, 0, 0, 2, 0, 0, 16, 0, 0, 0, 0, 0, 0, 0x61]
    );
    assert_eq!(all[3], [0, 0, 0, 0, 0, 0, 0, 0, 3, 0]);
    assert_eq!(
        assembler::records(&[]).collect::<Vec<_>>(),
        [open_record(0), close_record()]
    );
    let lengths = [0, 1, PIECE_LENGTH, PIECE_LENGTH + 1];
    assert_eq!(lengths.map(assembler::pieces), [0, 1, 1, 2]);
    assert_eq!(assembler::announced(&open_record(u64::MAX)), Some(u64::MAX));
    for sent in [
        close_record(),
        piece_record(0, &[]),
        vec![],
        open_record(1)[..NUMBERED_HEADER - 1].to_vec(),
    ] {
        assert_eq!(assembler::announced(&sent), None);
    }
}
