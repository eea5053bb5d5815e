//! Every call on an image that is refused.

use crate::{parts, refused, refused_reading};
use eif::raw::fingerprint::{
    fingerprinting_begin, fingerprinting_feed, fingerprinting_finish, image_fingerprint,
    FingerprintAnswer,
};
use eif::raw::measuring::{measuring_begin, measuring_feed, measuring_finish};
use eif::{
    raw, staged, Arriving, ArrivingFingerprint, ArrivingRegisters, Digest, Refusal, Stream,
    StreamPosition,
};
use eif_cases::Answer;

/// What every call answers, by name. What each is handed beside the image is at fault too: a position past the end of the
/// stream, a buffer too short for a roll, section numbers past the count.
fn every_answer(image: &[u8], out: &mut [u8]) -> Vec<(&'static str, Result<(), Refusal>)> {
    let mut arriving = Arriving::new();
    arriving.feed(image);
    let mut measuring = ArrivingRegisters::new();
    measuring.feed(image);
    let mut fingerprinting = ArrivingFingerprint::new();
    fingerprinting.feed(image);
    let past = usize::MAX;
    let mut answers = vec![
        ("read", eif::read(image).map(|_| ())),
        ("strict", eif::read_strict(image).map(|_| ())),
        ("arriving", arriving.finish().map(|_| ())),
        ("registers", eif::registers(image).map(|_| ())),
        ("arriving registers", measuring.finish().map(|_| ())),
        ("fingerprint", eif::fingerprint(image).map(|_| ())),
        ("arriving fingerprint", fingerprinting.finish().map(|_| ())),
        ("roll length", eif::roll_length(image).map(|_| ())),
        ("roll", eif::write_roll(image, out).map(|_| ())),
        ("roll to Vec", eif::roll_to_vec(image).map(|_| ())),
        (
            "staged section",
            staged::section(image, b"new", past, past).map(|_| ()),
        ),
        (
            "staged roll length",
            staged::roll_length(image, b"new", past).map(|_| ()),
        ),
        (
            "staged roll",
            staged::write_roll(image, b"new", past, out).map(|_| ()),
        ),
        (
            "staged registers",
            staged::registers(image, b"new", past).map(|_| ()),
        ),
        (
            "staged fingerprint",
            staged::fingerprint(image, b"new", past).map(|_| ()),
        ),
        (
            "staged image",
            staged::write_to_vec(image, b"new", past).map(|_| ()),
        ),
        (
            "staged image in pieces",
            staged::Writing::begin(image, b"new", past, 7).map(|_| ()),
        ),
        (
            "staged image, read",
            staged::Reader::new(image, b"new", past).map(|_| ()),
        ),
    ];
    for stream in Stream::ALL {
        let length = eif::stream_length(image, stream);
        answers.push(("stream length", length.map(|_| ())));
        let past = StreamPosition(u64::MAX);
        let copied = eif::copy_stream(image, stream, past, out);
        answers.push(("stream", copied.map(|_| ())));
        let whole = eif::stream_to_vec(image, stream);
        answers.push(("stream to Vec", whole.map(|_| ())));
    }
    answers
}

/// The same of the C interface: number, index and position, and zeros beside them.
fn check_raw(name: &str, image: &[u8], answer: Answer, out: &mut [u8]) {
    let reading = refused_reading(answer);
    assert_eq!(raw::read(image), reading, "{name}");
    assert_eq!(raw::read_strict(image), reading, "{name}");
    let arrived = raw::arriving_feed(raw::arriving_begin(), image, u64::MAX);
    let arrived = raw::arriving_finish(arrived.state);
    assert_eq!(arrived.reading, reading, "{name}");
    let measured = measuring_feed(measuring_begin(), image, u64::MAX);
    let measured = measuring_finish(measured.state);
    assert_eq!(measured.reading, reading, "{name}");
    assert_eq!(measured.registers, [Digest::default(); 3], "{name}");
    let fingerprinted = fingerprinting_feed(fingerprinting_begin(), image, u64::MAX);
    let fingerprinted = fingerprinting_finish(fingerprinted.state);
    assert_eq!(fingerprinted.reading, reading, "{name}");
    assert_eq!(fingerprinted.digest, Digest::default(), "{name}");
    let (most, length) = (u64::MAX, refused!(raw::Answer, answer));
    let lengths = [
        raw::roll_length(image),
        raw::roll_write(image, out),
        raw::staged::staged_roll_length(image, b"new", most),
        raw::staged::staged_roll_write(image, b"new", most, out),
        raw::staged_writing::staged_writing_begin(image, b"new", most, 7).answer,
    ];
    assert_eq!(lengths, [length; 5], "{name}");
    for stream in Stream::ALL {
        let copied = raw::copy_stream(image, stream, StreamPosition(most), out);
        let lengths = [raw::stream_length(image, stream), copied];
        assert_eq!(lengths, [length; 2], "{name}, {stream}");
        let list = raw::stream_sections(raw::read(image), stream);
        assert_eq!(list, raw::StreamSections::default(), "{name}, {stream}");
    }
    let registers = refused!(raw::RegistersAnswer, answer);
    assert_eq!(raw::registers(image), registers, "{name}");
    let fingerprint = refused!(FingerprintAnswer, answer);
    assert_eq!(image_fingerprint(image), fingerprint, "{name}");
    let staged = raw::staged::staged_registers(image, b"new", most);
    assert_eq!(staged, registers, "{name}");
    let staged = raw::staged::staged_fingerprint(image, b"new", most);
    assert_eq!(staged, fingerprint, "{name}");
    let part = refused!(raw::staged::StagedPart, answer);
    // The replacement is longer than the longest image too, also for a section that the image has.
    for number in [most, 0] {
        let staged = raw::staged::staged_part(image, most, number, number);
        assert_eq!(staged, part, "{name}");
    }
}

/// Holds every call on an image to one refusal: number, index, position, zeros beside them, and an output buffer of which
/// no byte has changed.
///
/// # Panics
///
/// If a call answers anything else.
pub fn check_refused_image(name: &str, image: &[u8], answer: Answer) {
    let mut out = [0xaa; 16];
    for (call, answered) in every_answer(image, &mut out) {
        assert_eq!(answered.map_err(parts), Err(answer), "{name}, {call}");
    }
    check_raw(name, image, answer, &mut out);
    assert_eq!(out, [0xaa; 16], "{name}");
}
