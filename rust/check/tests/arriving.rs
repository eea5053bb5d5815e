//! Images that arrive in pieces: the examples of docs/FORMAT.md, every cut, and what the calls promise.

use eif::raw::{self, Arriving as State};
use eif::{Arriving, Reading, Refusal, Span};
use eif_cases::{image_cases, worked_image, Layout, Section, ACCEPTED};
use eif_check::{parts, state_of, LENGTHS};
use std::io::{self, Write};

type Answer = Result<Reading, Refusal>;

fn arrived<'a>(pieces: impl IntoIterator<Item = &'a [u8]>) -> Answer {
    let mut arriving = Arriving::new();
    for piece in pieces {
        assert_eq!(arriving.feed(piece), piece.len());
    }
    arriving.finish()
}

fn read(image: &[u8]) -> Answer {
    eif::read(image).map(|image| (*image).clone())
}

#[test]
fn examples_in_pieces_of_every_length() {
    for case in image_cases() {
        let whole = read(&case.image);
        let verdict = whole
            .as_ref()
            .map_or_else(|&refusal| parts(refusal), |_| ACCEPTED);
        assert_eq!(verdict, case.answer, "{}", case.name);
        for length in LENGTHS.into_iter().filter(|&length| length > 0) {
            let answer = arrived(case.image.chunks(length));
            assert_eq!(answer, whole, "{} by {length}", case.name);
            // An empty piece counts as a piece and changes nothing.
            let with_empty = case.image.chunks(length).flat_map(|piece| [piece, &[]]);
            assert_eq!(arrived(with_empty), whole, "{} by {length}", case.name);
        }
    }
}

#[test]
fn every_cut_in_two_and_in_three() {
    let image = worked_image();
    let whole = read(&image);
    for first in 0..=image.len() {
        let (start, rest) = image.split_at(first);
        assert_eq!(arrived([start, rest]), whole, "{first}");
        for second in (0..=rest.len()).step_by(7) {
            let (middle, end) = rest.split_at(second);
            assert_eq!(arrived([start, middle, end]), whole, "{first} {second}");
        }
    }
}

/// Wherever the file ends, the answer is that of the whole reader on what has come.
#[test]
fn a_file_that_stops_anywhere() {
    let image = worked_image();
    let mut arriving = Arriving::new();
    for taken in 0..=image.len() {
        let so_far = &image[..taken];
        assert_eq!(arriving.taken(), taken as u64);
        assert_eq!(State::from(arriving.clone()), state_of(so_far), "{taken}");
        assert_eq!(arriving.clone().finish(), read(so_far), "{taken}");
        arriving.feed(&image[taken..image.len().min(taken + 1)]);
    }
}

#[test]
fn n_bytes_end_within_n_calls() {
    let image = worked_image();
    for allowance in 1..20 {
        let mut arriving = Arriving::new();
        let (mut at, mut calls) = (0, 0);
        while at < image.len() {
            let count = arriving.feed_at_most(&image[at..], allowance);
            assert_eq!(count, (image.len() - at).min(allowance as usize));
            at += count;
            calls += 1;
        }
        assert!(calls <= image.len());
        assert_eq!(arriving.feed_at_most(b"more", 0), 0);
        assert_eq!(arriving.finish(), read(&image));
    }
}

#[test]
fn nothing_is_taken_after_the_end() -> io::Result<()> {
    let mut arriving = Arriving::new();
    io::copy(&mut &worked_image()[..], &mut arriving)?;
    let answer = arriving.finish();
    assert!(answer.is_ok());
    let ended = arriving.clone();
    for piece in [&b""[..], b"x", &[0; 600]] {
        assert_eq!(arriving.feed(piece), 0);
        assert_eq!(arriving, ended);
        assert_eq!(arriving.finish(), answer);
    }
    let error = arriving.write_all(b"x").unwrap_err();
    assert_eq!(error.kind(), io::ErrorKind::WriteZero);
    arriving.flush()
}

/// The spans of the worked example that FORMAT.md lists, of the next thousand bytes.
#[test]
fn spans_of_the_worked_example() {
    let image = worked_image();
    for (taken, section, length, begun) in [
        (0, None, 548, 0),
        (547, None, 1, 0),
        (548, None, 12, 0),
        (560, Some(0), 1, 1),
        (561, None, 12, 1),
        (573, Some(1), 1, 2),
        (574, None, 12, 2),
        (586, None, 1000, 3),
    ] {
        let mut arriving = Arriving::new();
        arriving.feed(&image[..taken]);
        let expected = Span {
            section,
            length,
            begun,
        };
        assert_eq!(arriving.next(1000), expected, "{taken}");
    }
}

/// Wherever the file is cut, the parts of a section are its data, and a caller may stop inside a piece.
#[test]
fn parts_at_every_cut() {
    let sections = [(1, "kernel"), (3, "disk"), (2, ""), (3, "x")];
    let sections = sections.map(|(kind, data)| Section::new(kind, data.as_bytes()));
    let image = Layout::new(2, sections.to_vec()).image();
    for cut in 0..=image.len() {
        for most in [1, usize::MAX] {
            let mut arriving = Arriving::new();
            let mut given = vec![Vec::new(); sections.len()];
            let (start, rest) = image.split_at(cut);
            for mut piece in [start, rest] {
                while !piece.is_empty() {
                    let before = arriving.taken();
                    for (section, bytes) in arriving.parts(piece).take(most) {
                        if let Some(index) = section {
                            given[index].extend_from_slice(bytes);
                        }
                    }
                    piece = &piece[(arriving.taken() - before) as usize..];
                }
            }
            let data: Vec<Vec<u8>> = sections.iter().map(|s| s.data.clone()).collect();
            assert_eq!(given, data, "{cut}");
            assert_eq!(arriving.finish(), read(&image));
            assert_eq!(arriving.parts(&image).count(), 0);
        }
    }
}

/// The counter stops at its end: bytes are still taken, and the answer is 1.
#[test]
fn the_counter_does_not_wrap() {
    for room in [0, 1, 5, 600] {
        let full = State {
            taken: u64::MAX - room,
            ..state_of(&worked_image())
        };
        let mut arriving = Arriving::from(full);
        for _ in 0..3 {
            assert_eq!(arriving.feed(&[7; 600]), 600);
            assert_eq!(arriving.taken(), u64::MAX);
        }
        assert_eq!(arriving.finish().unwrap_err().number(), 1);
    }
    let full = State {
        taken: u64::MAX,
        ..raw::arriving_begin()
    };
    let fed = raw::arriving_feed(full, b"x", u64::MAX);
    assert_eq!((fed.state, fed.count), (full, 1));
}
