//! The library's answers held to the twin's: every field and every byte of the output.

use crate::strict::compare_strict;
use crate::{Call, Message, Output, PlanInput, ReadingInput, Rng, Tally};
use eif::raw::fingerprint::{image_fingerprint, FingerprintAnswer};
use eif::raw::staged::staged_part;
use eif::raw::{self, readings, Answer, Reading, RegistersAnswer, RollReading, StreamSections};
use eif::{
    DataLength, Digest, FilePosition, Fingerprint, Refusal, Registers, RollPosition, SectionType,
    Stream, StreamPosition, DIGEST_LENGTH, REGISTERS,
};
use eif_cases::MAX_SECTIONS;
use eif_twin as twin;
use std::fmt::{self, Debug, Display};
use std::io::Read;

/// Names an input in a message.
pub(crate) struct Input<'a> {
    pub(crate) kind: &'static str,
    pub(crate) ordinal: u64,
    /// Of a plan, the lent data.
    pub(crate) bytes: &'a [u8],
    /// A plan, a reading and a list, or a state and an allowance.
    pub(crate) other: Option<&'a dyn Debug>,
}

impl Display for Input<'_> {
    fn fmt(&self, f: &mut fmt::Formatter<'_>) -> fmt::Result {
        let length = self.bytes.len();
        write!(f, "{} {}, ", self.kind, self.ordinal)?;
        if let Some(other) = self.other {
            write!(f, "{other:?}, ")?;
        }
        write!(f, "{length} bytes:")?;
        for byte in self.bytes.iter().take(4096) {
            write!(f, " {byte:02x}")?;
        }
        Ok(())
    }
}

pub(crate) fn same<T: PartialEq + Debug>(input: &Input, what: &str, library: T, twin: T) {
    assert!(
        library == twin,
        "{what}: the library has {library:?}, the twin {twin:?}, for {input}"
    );
}

/// A refusal's number, index and position.
pub type Parts = (u8, u64, u64);

/// The parts of the library's refusal.
pub fn parts(refusal: Refusal) -> Parts {
    (refusal.number(), refusal.index(), refusal.position())
}

/// The answer of this type beside a refusal with these [`Parts`]: all else is zero.
#[macro_export]
macro_rules! refused {
    ($answer:path, $parts:expr) => {{
        let (number, index, position) = $parts;
        $answer {
            number,
            index,
            position,
            ..Default::default()
        }
    }};
}

pub(crate) fn twin_parts(refusal: twin::Refusal) -> Parts {
    (refusal.number, refusal.index, refusal.position)
}

/// What the Rust interface answers where the C interface answers these numbers and, accepted, this value.
pub(crate) fn in_rust<T>(value: T, numbers: Parts) -> Result<T, Parts> {
    match numbers {
        (0, ..) => Ok(value),
        refusal => Err(refusal),
    }
}

pub(crate) fn twin_answer(answer: Result<u64, twin::Refusal>) -> Answer {
    match answer.map_err(twin_parts) {
        Ok(length) => Answer {
            length,
            ..Answer::default()
        },
        Err(parts) => refused!(Answer, parts),
    }
}

/// Sections as an answer has them, zeros after them.
fn in_places(list: &[twin::Section]) -> [raw::Section; MAX_SECTIONS] {
    let mut sections = [raw::Section::default(); MAX_SECTIONS];
    for (to, from) in sections.iter_mut().zip(list) {
        *to = raw::Section {
            section_type: SectionType(from.kind),
            flags: from.flags,
            position: FilePosition(from.position as u64),
            length: DataLength(from.length as u64),
            ..raw::Section::default()
        };
    }
    sections
}

fn twin_section(section: &raw::Section) -> twin::Section {
    twin::Section {
        kind: section.section_type.0,
        flags: section.flags,
        position: section.position.0 as usize,
        length: section.length.0 as usize,
    }
}

fn twin_stream(stream: Stream) -> twin::Stream {
    match stream {
        Stream::Whole => twin::Stream::Whole,
        Stream::Boot => twin::Stream::Boot,
        Stream::App => twin::Stream::App,
    }
}

/// The reading beside a refusal: all else is zero, and there is no first ramdisk.
pub fn refused_reading(parts: Parts) -> Reading {
    Reading {
        first_ramdisk: raw::NO_RAMDISK,
        ..refused!(Reading, parts)
    }
}

pub(crate) fn twin_reading(answer: &Result<twin::Reading, twin::Refusal>) -> Reading {
    let reading = match answer {
        Ok(reading) => reading,
        Err(refusal) => return refused_reading(twin_parts(*refusal)),
    };
    Reading {
        version: reading.version,
        flags: reading.flags,
        default_mem: reading.default_mem,
        default_cpus: reading.default_cpus,
        count: reading.sections.len() as u16,
        ramdisk_mark: reading.ramdisk_mark(),
        ramdisk_count: reading.ramdisk_count() as u32,
        first_ramdisk: reading
            .first_ramdisk()
            .map_or(raw::NO_RAMDISK, |i| i as u32),
        architecture: reading.architecture(),
        sections: in_places(&reading.sections),
        ..Reading::default()
    }
}

fn twin_roll_reading(answer: &Result<twin::Roll, twin::Refusal>) -> RollReading {
    let roll = match answer {
        Ok(roll) => roll,
        Err(refusal) => return refused!(RollReading, twin_parts(*refusal)),
    };
    let mut records = [raw::RollRecord::default(); MAX_SECTIONS];
    for (to, from) in records.iter_mut().zip(&roll.records) {
        *to = raw::RollRecord {
            section_type: SectionType(from.kind),
            position: RollPosition(from.position as u64),
            length: DataLength(from.length as u64),
            ..raw::RollRecord::default()
        };
    }
    RollReading {
        flags: roll.flags,
        count: roll.records.len() as u64,
        records,
        ..RollReading::default()
    }
}

type TwinRegisters = Result<[[u8; DIGEST_LENGTH]; REGISTERS], twin::Refusal>;

fn twin_registers(answer: TwinRegisters) -> RegistersAnswer {
    match answer.map_err(twin_parts) {
        Ok(registers) => RegistersAnswer {
            registers: registers.map(Digest),
            ..RegistersAnswer::default()
        },
        Err(parts) => refused!(RegistersAnswer, parts),
    }
}

pub(crate) fn twin_state(state: raw::Sha384) -> twin::Sha384 {
    let raw::Sha384 {
        words,
        block,
        total,
    } = state;
    twin::Sha384 {
        words,
        block,
        total,
    }
}

/// Runs a call with an output three times, by the C interface, the Rust interface and the twin.
/// Answers the answer number.
pub(crate) fn compare_output(
    input: &Input,
    what: &str,
    (length, salt): (usize, u8),
    c: impl FnOnce(&mut [u8]) -> Answer,
    rust: impl FnOnce(&mut [u8]) -> Result<usize, Refusal>,
    twin: impl FnOnce(&mut [u8]) -> Result<usize, twin::Refusal>,
) -> u8 {
    let (answer, output) = compare_c_output(input, what, (length, salt), c, twin);
    let mut rust_output = Output::new(length, salt);
    let rust_answer = rust(rust_output.lend());
    let same_bytes = output == rust_output;
    assert!(same_bytes, "{what}: other output bytes, for {input}");
    let numbers = (answer.number, answer.index, answer.position);
    let expected = in_rust(answer.length as usize, numbers);
    same(input, what, rust_answer.map_err(parts), expected);
    answer.number
}

/// The same by the C interface and the twin alone. Answers the answer and the output.
pub(crate) fn compare_c_output(
    input: &Input,
    what: &str,
    (length, salt): (usize, u8),
    c: impl FnOnce(&mut [u8]) -> Answer,
    twin: impl FnOnce(&mut [u8]) -> Result<usize, twin::Refusal>,
) -> (Answer, Output) {
    let [mut output, mut twin_output] = [(); 2].map(|()| Output::new(length, salt));
    let answer = c(output.lend());
    let twin_answer = twin_answer(twin(twin_output.lend()).map(|length| length as u64));
    same(input, what, answer, twin_answer);
    let same_bytes = output == twin_output;
    assert!(same_bytes, "{what}: other output bytes, for {input}");
    let start = answer.length as usize;
    let rest_stays = output.only_start_changed(start);
    assert!(
        rest_stays,
        "{what}: bytes past {start} changed, for {input}"
    );
    (answer, output)
}

/// Holds a length to the twin's, by the C interface and the Rust interface. Answers the answer number.
pub(crate) fn compare_length(
    input: &Input,
    what: &str,
    c: Answer,
    rust: Result<usize, Refusal>,
    twin: Result<usize, twin::Refusal>,
) -> u8 {
    same(
        input,
        what,
        c,
        twin_answer(twin.map(|length| length as u64)),
    );
    same(input, what, rust.map_err(parts), twin.map_err(twin_parts));
    c.number
}

/// Holds registers to the twin's, by the C interface and the Rust interface. Answers the answer number.
pub(crate) fn compare_registers(
    input: &Input,
    what: &str,
    c: RegistersAnswer,
    rust: Result<Registers, Refusal>,
    twin: TwinRegisters,
) -> u8 {
    same(input, what, c, twin_registers(twin));
    let expected = in_rust(c.registers, (c.number, c.index, c.position));
    let rust = rust.map(|registers| registers.0).map_err(parts);
    same(input, what, rust, expected);
    c.number
}

/// Reads an image, takes its streams, writes its roll and computes its registers.
pub fn compare_image(rng: &mut Rng, ordinal: u64, image: &[u8], tally: &mut Tally) {
    let input = &Input {
        kind: "image",
        ordinal,
        bytes: image,
        other: None,
    };
    tally.add_input();
    let twin_answer = twin::read(image);
    let reading = raw::read(image);
    same(input, "read", reading, twin_reading(&twin_answer));
    tally.add(Call::Read, reading.number);
    compare_image_view(input, &twin_answer);
    compare_strict(input, tally);

    for stream in Stream::ALL {
        compare_stream(rng, input, stream, tally);
        compare_sections(input, &reading, stream);
        if let Ok(read) = eif::read(image) {
            compare_stream_view(rng, input, &read, stream, tally);
        }
    }

    compare_roll_of(rng, input, tally);
    let number = compare_registers(
        input,
        "registers",
        raw::registers(image),
        eif::registers(image),
        twin::registers(image),
    );
    tally.add(Call::Registers, number);
    compare_fingerprint(input, tally);
    compare_read_calls(input, reading);
}

/// The calls over the image's own reading, with the calls that read the image. The latter are held to the twin's.
fn compare_read_calls(input: &Input, reading: Reading) {
    let image = input.bytes;
    let fingerprint = readings::read_fingerprint(image, reading);
    let expected = image_fingerprint(image);
    same(input, "fingerprint from a reading", fingerprint, expected);
    let length = readings::read_roll_length(image, reading);
    let expected = raw::roll_length(image);
    same(input, "roll length from a reading", length, expected);
    let room = length.length as usize;
    for room in [room.saturating_sub(1), room, room + 1] {
        let (mut out, mut expected_out) = (vec![0x55; room], vec![0x55; room]);
        let written = readings::read_roll_write(image, reading, &mut out);
        let expected = raw::roll_write(image, &mut expected_out);
        same(
            input,
            "roll from a reading",
            (written, out),
            (expected, expected_out),
        );
    }
    let (end, size) = (image.len() as u64, input.ordinal);
    for shown in 0..=u64::from(reading.count) {
        let part = readings::read_staged_part(reading, end, size, 1, shown);
        let expected = staged_part(image, size, 1, shown);
        same(input, "staged part from a reading", part, expected);
    }
}

/// The fingerprint of an image, by the C interface, the Rust interface and the twin.
fn compare_fingerprint(input: &Input, tally: &mut Tally) {
    let number = compare_fingerprints(
        input,
        "fingerprint",
        image_fingerprint(input.bytes),
        eif::fingerprint(input.bytes),
        twin::fingerprint(input.bytes),
    );
    let expected = eif::fingerprint(input.bytes).map_err(parts);
    let read = eif::read(input.bytes).map_err(parts);
    let of_image = read.map(|image| image.fingerprint());
    same(input, "fingerprint of an image read", of_image, expected);
    tally.add(Call::Fingerprint, number);
}

/// One fingerprint of the C interface, the Rust interface and the twin. Answers the number.
pub(crate) fn compare_fingerprints(
    input: &Input,
    what: &str,
    answer: FingerprintAnswer,
    rust: Result<Fingerprint, Refusal>,
    twin: Result<[u8; 48], twin::Refusal>,
) -> u8 {
    let expected = match twin.map_err(twin_parts) {
        Ok(digest) => FingerprintAnswer {
            digest: Digest(digest),
            ..FingerprintAnswer::default()
        },
        Err(parts) => refused!(FingerprintAnswer, parts),
    };
    same(input, what, answer, expected);
    let numbers = (answer.number, answer.index, answer.position);
    let expected = in_rust(Fingerprint(answer.digest), numbers);
    same(input, what, rust.map_err(parts), expected);
    answer.number
}

/// Measures and writes the roll of an image.
fn compare_roll_of(rng: &mut Rng, input: &Input, tally: &mut Tally) {
    let image = input.bytes;
    let roll_length = twin::roll_length(image);
    let number = compare_length(
        input,
        "roll length",
        raw::roll_length(image),
        eif::roll_length(image),
        roll_length,
    );
    tally.add(Call::RollLength, number);
    let number = compare_output(
        input,
        "roll write",
        (
            rng.output_length(roll_length.unwrap_or(60)),
            rng.next() as u8,
        ),
        |out| raw::roll_write(image, out),
        |out| eif::write_roll(image, out),
        |out| twin::write_roll(image, out),
    );
    tally.add(Call::RollWrite, number);
}

/// The Rust interface's view of an image.
fn compare_image_view(input: &Input, twin: &Result<twin::Reading, twin::Refusal>) {
    match (eif::read(input.bytes), twin) {
        (Ok(image), Ok(reading)) => {
            let sections = reading.sections.iter();
            let data = sections.map(|s| &input.bytes[s.position..s.position + s.length]);
            let data: Vec<&[u8]> = data.collect();
            let count = image.sections().len();
            let view: Vec<&[u8]> = (0..count).filter_map(|i| image.section_data(i)).collect();
            same(input, "section data", view, data);
            let past = [count, MAX_SECTIONS, usize::MAX].map(|i| image.section_data(i));
            same(input, "no section", past, [None; 3]);
            let header = (image.version(), image.flags(), image.default_mem());
            let twin_header = (reading.version, reading.flags, reading.default_mem);
            same(input, "header", header, twin_header);
            same(input, "cpus", image.default_cpus(), reading.default_cpus);
            let architecture = image.architecture().flags();
            same(input, "architecture", architecture, reading.architecture());
            same(input, "mark", image.ramdisk_mark(), reading.ramdisk_mark());
            let ramdisks = (image.ramdisk_count(), image.first_ramdisk());
            let twin_ramdisks = (reading.ramdisk_count(), reading.first_ramdisk());
            same(input, "ramdisks", ramdisks, twin_ramdisks);
        }
        (Err(refusal), Err(twin)) => same(input, "refusal", parts(refusal), twin_parts(*twin)),
        (view, _) => panic!("the Rust interface has {view:?}, the twin {twin:?}, for {input}"),
    }
}

/// A position in, at the end of or past a stream of this length.
fn any_position(rng: &mut Rng, length: u64) -> u64 {
    match rng.below(6) {
        0 | 1 => 0,
        2 => rng.below(length as usize + 1) as u64,
        3 => length,
        4 => length + 1,
        _ => rng.hostile(length),
    }
}

fn compare_stream(rng: &mut Rng, input: &Input, stream: Stream, tally: &mut Tally) {
    let image = input.bytes;
    let twin_stream = twin_stream(stream);
    let length = twin::stream_length(image, twin_stream);
    let number = compare_length(
        input,
        "stream length",
        raw::stream_length(image, stream),
        eif::stream_length(image, stream).map(|length| length.0 as usize),
        length.map(|length| length as usize),
    );
    tally.add(Call::Length, number);

    let length = length.unwrap_or(20);
    let from = any_position(rng, length);
    tally.add_input();
    let rest = length.saturating_sub(from) as usize;
    let number = compare_output(
        input,
        "stream copy",
        (rng.output_length(rest), rng.next() as u8),
        |out| raw::copy_stream(image, stream, StreamPosition(from), out),
        |out| eif::copy_stream(image, stream, StreamPosition(from), out),
        |out| twin::copy_stream(image, twin_stream, from, out),
    );
    tally.add(Call::Copy, number);
}

/// The sections of a stream, of any reading.
fn compare_sections(input: &Input, reading: &Reading, stream: Stream) -> StreamSections {
    let list = raw::stream_sections(*reading, stream);
    let all = reading.sections.each_ref().map(twin_section);
    let kept = twin::stream_sections(&all, twin_stream(stream));
    let twin = StreamSections {
        count: kept.len() as u64,
        sections: in_places(&kept),
    };
    same(input, "stream sections", list, twin);
    list
}

/// Copies from any list of sections.
fn compare_list(rng: &mut Rng, input: &Input, list: &StreamSections, tally: &mut Tally) {
    let image = input.bytes;
    let used = list
        .sections
        .iter()
        .take(list.count.min(MAX_SECTIONS as u64) as usize);
    let sections: Vec<_> = used.map(twin_section).collect();
    let parts = sections.iter().map(|section| {
        let rest = image.len().saturating_sub(section.position);
        section.length.min(rest)
    });
    let length = parts.sum::<usize>() as u64;
    let from = any_position(rng, length);
    tally.add_input();
    let rest = length.saturating_sub(from) as usize;
    let (answer, _) = compare_c_output(
        input,
        "copy from sections",
        (rng.output_length(rest), rng.next() as u8),
        |out| raw::copy_sections(image, *list, StreamPosition(from), out),
        |out| twin::copy_sections(image, &sections, from, out),
    );
    tally.add(Call::CopyListed, answer.number);
}

/// The streams of an image that was read, in Rust.
fn compare_stream_view(
    rng: &mut Rng,
    input: &Input,
    image: &eif::Image,
    stream: Stream,
    tally: &mut Tally,
) {
    let twin_stream = twin_stream(stream);
    let length = twin::stream_length(input.bytes, twin_stream).unwrap_or(0);
    let mut bytes = vec![0; length as usize];
    let copied = twin::copy_stream(input.bytes, twin_stream, 0, &mut bytes);
    same(input, "stream", copied.ok(), Some(bytes.len()));
    let sections: Vec<&[u8]> = image.stream_sections(stream).collect();
    same(input, "sections joined", &sections.concat(), &bytes);
    let mut read = Vec::new();
    let done = image.stream_reader(stream).read_to_end(&mut read);
    same(input, "stream read", done.ok(), Some(bytes.len()));
    same(input, "bytes read", &read, &bytes);

    let from = any_position(rng, length);
    tally.add_input();
    let rest = length.saturating_sub(from) as usize;
    let list = compare_sections(input, &raw::read(input.bytes), stream);
    let number = compare_output(
        input,
        "stream copy of an image that was read",
        (rng.output_length(rest), rng.next() as u8),
        |out| raw::copy_sections(input.bytes, list, StreamPosition(from), out),
        |out| image.copy_stream(stream, StreamPosition(from), out),
        |out| twin::copy_stream(input.bytes, twin_stream, from, out),
    );
    tally.add(Call::CopyListed, number);
}

/// Takes the streams' sections of a reading, and copies from them and from a list, whatever they are.
pub fn compare_reading(rng: &mut Rng, ordinal: u64, given: &ReadingInput, tally: &mut Tally) {
    let input = &Input {
        kind: "reading",
        ordinal,
        bytes: &given.image,
        other: Some(&(given.reading, given.list)),
    };
    tally.add_input();
    for stream in Stream::ALL {
        let list = compare_sections(input, &given.reading, stream);
        compare_list(rng, input, &list, tally);
    }
    compare_list(rng, input, &given.list, tally);
}

pub(crate) fn twin_plan(plan: &raw::Plan) -> twin::Plan {
    let place = |place: eif::Place| twin::Place {
        kind: place.section_type.0,
        flags: place.flags,
        length: place.length.0,
    };
    twin::Plan {
        version: plan.version,
        flags: plan.flags,
        default_mem: plan.default_mem,
        default_cpus: plan.default_cpus,
        count: plan.count,
        places: plan.places.map(place),
    }
}

/// The Rust interface has as many places as the count says.
fn rust_plan(plan: &raw::Plan) -> eif::Plan {
    let places = plan.places.iter().chain(std::iter::repeat(&plan.places[0]));
    eif::Plan {
        version: plan.version,
        flags: plan.flags,
        default_mem: plan.default_mem,
        default_cpus: plan.default_cpus,
        places: places.take(usize::from(plan.count)).copied().collect(),
    }
}

/// Writes a plan.
pub fn compare_plan(rng: &mut Rng, ordinal: u64, given: &PlanInput, tally: &mut Tally) {
    let input = &Input {
        kind: "plan",
        ordinal,
        bytes: &given.data,
        other: Some(&given.plan),
    };
    tally.add_input();
    let plan = given.plan;
    let (twin_plan, rust_plan) = (twin_plan(&plan), rust_plan(&plan));
    let number = compare_length(
        input,
        "plan length",
        raw::plan_length(plan),
        eif::plan_length(&rust_plan),
        twin::plan_length(&twin_plan),
    );
    tally.add(Call::PlanLength, number);
    let number = compare_output(
        input,
        "write",
        (given.output, rng.next() as u8),
        |out| raw::write(plan, &given.data, out),
        |out| eif::write(&rust_plan, &given.data, out),
        |out| twin::write(&twin_plan, &given.data, out),
    );
    tally.add(Call::Write, number);
}

/// Hashes a message piece by piece, by the C interface, the Rust interface and the twin. After each
/// piece, taken or refused, the states are the same.
pub fn compare_message(ordinal: u64, message: &Message, tally: &mut Tally) {
    let input = &Input {
        kind: "message",
        ordinal,
        bytes: &message.pieces.concat(),
        other: None,
    };
    tally.add_input();
    let mut state = message.state.unwrap_or_else(raw::sha384_begin);
    let mut rust = message.state.map_or_else(eif::Sha384::new, Into::into);
    let mut twin = message.state.map_or_else(twin::Sha384::new, twin_state);
    same(input, "begun", twin_state(state), twin);
    for piece in &message.pieces {
        let fed = raw::sha384_update(state, piece);
        let twin_answer = twin.update(piece).map_err(twin_parts);
        let expected = twin_answer.err().unwrap_or_default();
        let answer = (fed.number, fed.index, fed.position);
        same(input, "update", answer, expected);
        same(input, "reserved", fed.reserved, [0; 7]);
        same(input, "state", twin_state(fed.state), twin);
        if fed.number != 0 {
            same(input, "state beside a refusal", fed.state, state);
        }
        state = fed.state;
        let rust_answer = rust.update(piece).map_err(parts);
        same(input, "update", rust_answer, twin_answer);
        same(input, "state", rust.clone().into(), state);
        tally.add(Call::Update, fed.number);
    }
    let digest = raw::sha384_finish(state);
    same(input, "digest", digest, Digest(twin.finish()));
    same(input, "digest", rust.finish(), digest);
}

/// Reads a roll.
pub fn compare_roll(ordinal: u64, roll: &[u8], tally: &mut Tally) {
    let input = &Input {
        kind: "roll",
        ordinal,
        bytes: roll,
        other: None,
    };
    tally.add_input();
    let twin_answer = twin::read_roll(roll);
    let reading = raw::roll_read(roll);
    same(input, "roll read", reading, twin_roll_reading(&twin_answer));
    tally.add(Call::RollRead, reading.number);

    match (eif::read_roll(roll), twin_answer) {
        (Ok(view), Ok(twin)) => {
            let list = twin.records.iter();
            let data = list.map(|r| &roll[r.position..r.position + r.length]);
            let data: Vec<&[u8]> = data.collect();
            same(input, "flags", view.flags(), twin.flags);
            let architecture = view.architecture().flags();
            same(input, "architecture", architecture, twin.flags & 1);
            let count = view.records().len();
            let past = [count, MAX_SECTIONS, usize::MAX].map(|i| view.record_data(i));
            same(input, "no record", past, [None; 3]);
            let view: Vec<&[u8]> = (0..count).filter_map(|i| view.record_data(i)).collect();
            same(input, "record data", view, data);
        }
        (Err(refusal), Err(twin)) => same(input, "refusal", parts(refusal), twin_parts(twin)),
        (view, twin) => panic!("the Rust interface has {view:?}, the twin {twin:?}, for {input}"),
    }
}
