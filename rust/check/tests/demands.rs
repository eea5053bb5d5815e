//! The demands, tried on generated images: round trips, and what a roll tells of its image.

use eif::{
    Arriving, Image, Reading, Refusal, Roll, RollRecord, SectionType, Stream, StreamPosition,
};
use eif_cases::{
    flags_record, offset_entry, put_checksum, record, size_entry, Layout, Section, CHECKSUM_AT,
    COUNT_AT, HEADER, MAX_SECTIONS, RECORD_HEAD, RESERVED_AFTER_AT, RESERVED_AT,
};
use eif_check::{accepted_layout, accepted_plan, any_image, any_image_of, any_roll, Rng};
use std::io::Read;

const TIMES: u64 = 2_000;

fn roll_of(image: &[u8]) -> Vec<u8> {
    let mut roll = vec![0; image.len()];
    let length = eif::write_roll(image, &mut roll).unwrap();
    assert!(length < image.len());
    roll.truncate(length);
    roll
}

/// Type and data of every section of type 1, 2 or 3, in file order.
fn listed<'a>(image: &Image<'a>) -> Vec<(u16, &'a [u8])> {
    let all = image.iter().map(|(s, data)| (s.section_type.0, data));
    all.filter(|(kind, _)| *kind <= 3).collect()
}

fn stream_of(image: &[u8], stream: Stream) -> Vec<u8> {
    let mut out = vec![0; eif::stream_length(image, stream).unwrap().0 as usize];
    let copied = eif::copy_stream(image, stream, StreamPosition(0), &mut out);
    assert_eq!(copied, Ok(out.len()));
    out
}

/// Copies in pieces of one length until nothing is left.
fn joined(length: usize, copy: impl Fn(StreamPosition, &mut [u8]) -> usize) -> Vec<u8> {
    let (mut joined, mut piece) = (Vec::new(), vec![0; length]);
    loop {
        match copy(StreamPosition(joined.len() as u64), &mut piece) {
            0 => return joined,
            copied => joined.extend_from_slice(&piece[..copied]),
        }
    }
}

#[test]
fn a_plan_is_read_back() {
    for ordinal in 0..TIMES {
        let given = accepted_plan(&mut Rng::of_input(1, ordinal));
        let plan = eif::Plan {
            version: given.plan.version,
            flags: given.plan.flags,
            default_mem: given.plan.default_mem,
            default_cpus: given.plan.default_cpus,
            places: given.plan.places[..usize::from(given.plan.count)].to_vec(),
        };
        let mut out = vec![0; given.output];
        let length = eif::write(&plan, &given.data, &mut out).unwrap();
        let image = eif::read(&out[..length]).unwrap();
        assert_eq!(image.plan(), plan);
        assert_eq!(image.joined_data(), given.data);
    }
}

/// Whether the reserved fields and the unused table entries of an accepted image are zero.
fn is_plain(bytes: &[u8], count: usize) -> bool {
    let ignored = [
        RESERVED_AT..COUNT_AT,
        offset_entry(count)..offset_entry(MAX_SECTIONS),
        size_entry(count)..size_entry(MAX_SECTIONS),
        RESERVED_AFTER_AT..CHECKSUM_AT,
    ];
    let ignored = ignored.into_iter().flat_map(|range| &bytes[range]);
    ignored.into_iter().all(|&byte| byte == 0)
}

/// An accepted image is plain, so written again as it was, exactly when what the reader ignores is zero.
#[test]
fn a_plain_image_is_written_again() {
    let (mut plain, mut others) = (0, 0);
    for ordinal in 0..TIMES {
        let mut rng = Rng::of_input(2, ordinal);
        let layout = accepted_layout(&mut rng);
        let bytes = any_image_of(&mut rng, &layout);
        let image = eif::read(&bytes).unwrap();
        let mut out = vec![0; bytes.len()];
        let written = eif::write(&image.plan(), &image.joined_data(), &mut out);
        assert_eq!(written, Ok(bytes.len()));
        assert_eq!(out, layout.image());
        let again = is_plain(&bytes, image.sections().len());
        assert_eq!(out == bytes, again);
        *(if again { &mut plain } else { &mut others }) += 1;
    }
    assert!(plain > 100 && others > 100, "{plain} {others}");
}

/// Every byte of an accepted image is in its header or in a section.
#[test]
fn an_accepted_image_has_no_other_room() {
    let mut accepted = 0;
    for ordinal in 0..TIMES {
        let bytes = any_image(&mut Rng::of_input(12, ordinal));
        let Ok(image) = eif::read(&bytes) else {
            continue;
        };
        let mut end = HEADER as u64;
        for section in image.sections() {
            assert_eq!(section.offset().0, end);
            end = section.position.0 + section.length.0;
        }
        assert_eq!(end, bytes.len() as u64);
        accepted += 1;
    }
    assert!(accepted > 100, "{accepted}");
}

/// One byte more anywhere outside the sections, whatever it is, and with the right checksum or a stale one.
#[test]
fn a_byte_outside_the_sections_is_refused() {
    for ordinal in 0..TIMES {
        let mut rng = Rng::of_input(13, ordinal);
        let mut layout = accepted_layout(&mut rng);
        let index = rng.below(layout.sections.len() + 1);
        let (mut image, place, position) = match layout.sections.get_mut(index) {
            Some(section) => {
                section.gap = 1;
                (any_image_of(&mut rng, &layout), index, offset_entry(index))
            }
            None => {
                let mut image = any_image_of(&mut rng, &layout);
                let end = image.len();
                image.push(rng.next() as u8);
                (image, 0, end)
            }
        };
        if rng.once_in(2) {
            put_checksum(&mut image);
        }
        let refusal = eif::read(&image).unwrap_err();
        assert_eq!((refusal.number(), refusal.index()), (20, place as u64));
        assert_eq!(refusal.position(), position as u64);
    }
}

/// Where each record of an accepted roll starts, flags record and end record too.
fn record_starts(roll: &Roll) -> Vec<u64> {
    let head = RECORD_HEAD as u64;
    let records = roll.records().iter();
    let starts = records.map(|record| record.position.0 - head);
    let starts = [0].into_iter().chain(starts);
    starts.chain([roll.bytes().len() as u64 - head]).collect()
}

#[test]
fn a_roll_lists_its_image() {
    for ordinal in 0..TIMES {
        let bytes = accepted_layout(&mut Rng::of_input(3, ordinal)).image();
        let image = eif::read(&bytes).unwrap();
        let roll = roll_of(&bytes);
        let view = eif::read_roll(&roll).unwrap();
        let records = view.iter().map(|(r, data)| (r.section_type.0, data));
        let list: Vec<_> = records.collect();
        assert_eq!(list, listed(&image));
        assert_eq!(view.flags(), image.flags());
        let starts = record_starts(&view);
        for cut in 0..roll.len() {
            let refusal = eif::read_roll(&roll[..cut]).unwrap_err();
            assert_eq!(refusal.number(), 16);
            // The last record that starts where the roll was cut or before it.
            let index = starts.iter().rposition(|&start| start <= cut as u64);
            let index = index.expect("the first starts at 0");
            assert_eq!(refusal.index(), index as u64);
            assert_eq!(refusal.position(), starts[index]);
        }
        let longer = [&roll[..], &[0]].concat();
        let refusal = eif::read_roll(&longer).unwrap_err();
        assert_eq!((refusal.number(), refusal.index()), (18, 0));
        assert_eq!(refusal.position(), roll.len() as u64);
    }
}

/// Another image that is close to the first in what a roll must tell or must not tell.
fn neighbour(rng: &mut Rng, layout: &Layout) -> Layout {
    let mut other = layout.clone();
    let count = other.sections.len();
    match rng.below(6) {
        0 => {
            // What does not enter the roll.
            other.default_mem = rng.next();
            for section in &mut other.sections {
                section.flags = rng.next() as u16;
            }
        }
        1 => {
            // A version without metadata, and with no signature.
            other.version = 2;
            other.sections.retain(|s| s.kind <= 3);
        }
        2 => other.sections.swap(rng.below(count), rng.below(count)),
        3 => other.flags ^= 1 << rng.below(16),
        4 => {
            // A byte moved from one section's end to the next one's start.
            let place = rng.below(count - 1);
            if let Some(byte) = other.sections[place].data.pop() {
                other.sections[place + 1].data.insert(0, byte);
            }
        }
        _ if count < MAX_SECTIONS => other.sections.push(Section::new(3, &[])),
        _ => {}
    }
    other
}

#[test]
fn rolls_are_equal_exactly_when_flags_and_listed_sections_are() {
    let (mut equal, mut different) = (0, 0);
    for ordinal in 0..TIMES {
        let mut rng = Rng::of_input(4, ordinal);
        let layout = accepted_layout(&mut rng);
        let other = neighbour(&mut rng, &layout);
        let [one, other] = [&layout, &other].map(|layout| any_image_of(&mut rng, layout));
        let Ok(view) = eif::read(&other) else {
            continue;
        };
        let first = eif::read(&one).unwrap();
        let same = first.flags() == view.flags() && listed(&first) == listed(&view);
        let (one, other) = (roll_of(&one), roll_of(&other));
        assert_eq!(one == other, same);
        assert_eq!(one.starts_with(&other) || other.starts_with(&one), same);
        *(if same { &mut equal } else { &mut different }) += 1;
    }
    assert!(equal > 100 && different > 100, "{equal} {different}");
}

#[test]
fn an_accepted_roll_is_the_roll_of_an_image() {
    let mut accepted = 0;
    for ordinal in 0..TIMES {
        let bytes = any_roll(&mut Rng::of_input(5, ordinal));
        let Ok(roll) = eif::read_roll(&bytes) else {
            continue;
        };
        let sections = roll.iter();
        let sections = sections.map(|(r, data)| Section::new(r.section_type.0, data));
        let layout = Layout {
            flags: roll.flags(),
            ..Layout::new(2, sections.collect())
        };
        assert_eq!(roll_of(&layout.image()), bytes);
        accepted += 1;
    }
    assert!(accepted > 100, "{accepted}");
}

#[test]
fn whole_is_the_roll_with_its_heads_taken_out() {
    for ordinal in 0..TIMES {
        let image = accepted_layout(&mut Rng::of_input(6, ordinal)).image();
        let roll = roll_of(&image);
        let roll = eif::read_roll(&roll).unwrap();
        let data = |records: &[(RollRecord, &[u8])]| -> Vec<u8> {
            let data = records.iter().map(|(_, data)| *data);
            data.collect::<Vec<_>>().concat()
        };
        let records: Vec<_> = roll.iter().collect();
        assert_eq!(stream_of(&image, Stream::Whole), data(&records));
        // Boot and App are what they keep of it.
        let mut ramdisks = 0;
        let (app, boot): (Vec<_>, Vec<_>) = records.into_iter().partition(|(record, _)| {
            ramdisks += usize::from(record.section_type == SectionType::RAMDISK);
            record.section_type == SectionType::RAMDISK && ramdisks > 1
        });
        assert_eq!(stream_of(&image, Stream::Boot), data(&boot));
        assert_eq!(stream_of(&image, Stream::App), data(&app));
    }
}

/// Boot and App have the sections of Whole, each once, and Whole is Boot and then App where the command
/// line stands before the second ramdisk.
#[test]
fn boot_and_app_share_out_whole() {
    let (mut in_turn, mut mixed) = (0, 0);
    for ordinal in 0..TIMES {
        let bytes = accepted_layout(&mut Rng::of_input(11, ordinal)).image();
        let image = eif::read(&bytes).unwrap();
        let [whole, boot, app] =
            Stream::ALL.map(|stream| image.stream_sections(stream).collect::<Vec<_>>());
        let mut both = [boot, app].concat();
        let types: Vec<u16> = listed(&image).iter().map(|(kind, _)| *kind).collect();
        let command_line = types.iter().position(|&kind| kind == 2).unwrap();
        let ramdisks = types[..command_line].iter().filter(|&&kind| kind == 3);
        if ramdisks.count() < 2 {
            assert_eq!(both, whole);
            in_turn += 1;
        } else {
            // In the order of their places in the file.
            both.sort_by_key(|data| data.as_ptr());
            assert_eq!(both, whole);
            mixed += 1;
        }
        let lengths = Stream::ALL.map(|stream| eif::stream_length(&bytes, stream).unwrap().0);
        assert_eq!(lengths[0], lengths[1] + lengths[2]);
    }
    assert!(in_turn > 100 && mixed > 100, "{in_turn} {mixed}");
}

#[test]
fn a_stream_copied_in_pieces_is_the_stream() {
    for ordinal in 0..TIMES / 10 {
        let mut rng = Rng::of_input(7, ordinal);
        let bytes = accepted_layout(&mut rng).image();
        let image = eif::read(&bytes).unwrap();
        let length = 1 + rng.below(30);
        for stream in Stream::ALL {
            let whole = stream_of(&bytes, stream);
            let again = joined(length, |from, out| {
                eif::copy_stream(&bytes, stream, from, out).unwrap()
            });
            assert_eq!(again, whole);
            let from_reading = joined(length, |from, out| {
                image.copy_stream(stream, from, out).unwrap()
            });
            assert_eq!(from_reading, whole);
            let mut read = Vec::new();
            image.stream_reader(stream).read_to_end(&mut read).unwrap();
            assert_eq!(read, whole);
            assert_eq!(eif::stream_to_vec(&bytes, stream).unwrap(), whole);
        }
    }
}

fn arrived(image: &[u8]) -> Result<Reading, Refusal> {
    let mut arriving = Arriving::new();
    arriving.feed(image);
    arriving.finish()
}

/// Number, index and position.
#[test]
fn a_refused_image_gives_one_refusal_everywhere() {
    for ordinal in 0..TIMES {
        let image = any_image(&mut Rng::of_input(8, ordinal));
        let Err(refusal) = eif::read(&image) else {
            continue;
        };
        let mut out = [0xaa; 64];
        assert_eq!(arrived(&image), Err(refusal));
        assert_eq!(eif::registers(&image), Err(refusal));
        assert_eq!(eif::roll_length(&image), Err(refusal));
        assert_eq!(eif::write_roll(&image, &mut out), Err(refusal));
        for stream in Stream::ALL {
            assert_eq!(eif::stream_length(&image, stream), Err(refusal));
            let past = StreamPosition(u64::MAX);
            let answer = eif::copy_stream(&image, stream, past, &mut out);
            assert_eq!(answer, Err(refusal));
        }
        assert_eq!(out, [0xaa; 64]);
    }
}

#[test]
fn a_roll_has_at_most_32_records() {
    let mut records = [flags_record(0), record(0, 1, &[]), record(0, 2, &[])].concat();
    for _ in 2..MAX_SECTIONS {
        records.extend(record(0, 3, &[]));
    }
    let roll = [&records[..], &record(0, 0, &[])].concat();
    assert_eq!(eif::read_roll(&roll).unwrap().records().len(), MAX_SECTIONS);
    // A 33rd record is 5 whatever its length, unless its header is cut or bad.
    for (last, number, index) in [
        (record(0, 3, &[]), 5, 0),
        (record(u64::MAX, 1, &[]), 5, 0),
        (record(u64::MAX, 4, &[]), 17, 33),
        (flags_record(0), 17, 33),
        (record(1, 0, &[]), 17, 33),
        (vec![0; RECORD_HEAD - 1], 16, 33),
    ] {
        let refusal = eif::read_roll(&[&records[..], &last].concat()).unwrap_err();
        assert_eq!((refusal.number(), refusal.index()), (number, index));
        assert_eq!(refusal.position(), records.len() as u64);
    }
}
