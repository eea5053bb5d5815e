//! One section replaced: the demands on it, its examples, and the longest image.

use eif::raw::staged::{staged_part, staged_registers, staged_roll_write, StagedPart};
use eif::raw::RegistersAnswer;
use eif::{staged, DataLength, Image, Plan, MAX_IMAGE_LENGTH};
use eif_cases::{
    put_checksum, worked_image, zero_image, Answer, Layout, Section, FLAGS_RECORD, HEADER,
    RECORD_HEAD, SECTION_HEADER, SHORTEST, VERSION_AT, WORKED_OFFSETS,
};
use eif_check::{accepted_layout, any_image, any_image_of, is_part, parts, refused, Rng};

const TIMES: u64 = 1_000;
const TOO_LONG: Answer = (1, 0, 0);
const NO_SECTION: Answer = (27, 0, 0);

/// The plan of an image with the length of one place changed, and the data joined, the replacement in its
/// place.
fn plan_of(image: &Image, replacement: &[u8], replaced: usize) -> (Plan, Vec<u8>) {
    let mut plan = image.plan();
    plan.places[replaced].length = DataLength(replacement.len() as u64);
    let data = image.iter().enumerate().map(
        |(index, (_, data))| {
            if index == replaced {
                replacement
            } else {
                data
            }
        },
    );
    (plan, data.collect::<Vec<_>>().concat())
}

/// Holds what is staged to the image written afresh.
fn check_afresh(base: &[u8], replacement: &[u8], replaced: usize) {
    let image = eif::read(base).unwrap();
    let (plan, data) = plan_of(&image, replacement, replaced);
    let bytes = eif::write_to_vec(&plan, &data).unwrap();
    let written = staged::write_to_vec(base, replacement, replaced);
    assert_eq!(written.as_ref(), Ok(&bytes));

    let afresh = eif::read(&bytes).unwrap();
    let roll = staged::roll_to_vec(base, replacement, replaced).unwrap();
    assert_eq!(roll, eif::roll_to_vec(&bytes).unwrap());
    let registers = staged::registers(base, replacement, replaced);
    assert_eq!(registers, eif::registers(&bytes));
    let fingerprint = staged::fingerprint(base, replacement, replaced);
    assert_eq!(fingerprint, eif::fingerprint(&bytes));
    for shown in 0..afresh.sections().len() {
        let data = staged::section(base, replacement, replaced, shown).unwrap();
        assert_eq!(Some(data), afresh.section_data(shown));
        let whole = if shown == replaced { replacement } else { base };
        assert!(is_part(data, whole), "a copy");
    }
}

#[test]
fn the_image_written_afresh_has_the_staged_roll_and_registers() {
    for ordinal in 0..TIMES {
        let mut rng = Rng::of_input(130, ordinal);
        let layout = accepted_layout(&mut rng);
        let base = any_image_of(&mut rng, &layout);
        let replaced = rng.below(layout.sections.len());
        let own = &layout.sections[replaced].data;
        let longer = 1 + rng.below(60);
        let longer = [&own[..], &rng.bytes(longer)].concat();
        let shorter = &own[..own.len() / 2];
        for replacement in [own, shorter, &longer, &[], &rng.bytes(own.len())] {
            check_afresh(&base, replacement, replaced);
        }
    }
}

/// The base's roll, registers and sections; where it is plain, the base itself.
#[test]
fn own_data_changes_nothing() {
    for ordinal in 0..TIMES {
        let mut rng = Rng::of_input(131, ordinal);
        let layout = accepted_layout(&mut rng);
        let base = any_image_of(&mut rng, &layout);
        for (replaced, section) in layout.sections.iter().enumerate() {
            let own = &section.data;
            let roll = staged::roll_to_vec(&base, own, replaced);
            assert_eq!(roll, eif::roll_to_vec(&base));
            let registers = staged::registers(&base, own, replaced);
            assert_eq!(registers, eif::registers(&base));
            let fingerprint = staged::fingerprint(&base, own, replaced);
            assert_eq!(fingerprint, eif::fingerprint(&base));
            let written = staged::write_to_vec(&base, own, replaced);
            assert_eq!(written, Ok(layout.image()));
            for (shown, section) in layout.sections.iter().enumerate() {
                let data = staged::section(&base, own, replaced, shown);
                assert_eq!(data, Ok(&section.data[..]));
            }
        }
    }
}

/// A refused base is refused as the reader does, whatever the numbers and however short the output.
#[test]
fn the_base_is_judged_first() {
    let mut refused = 0;
    for ordinal in 0..4 * TIMES {
        let mut rng = Rng::of_input(132, ordinal);
        let base = any_image(&mut rng);
        let Err(refusal) = eif::read(&base) else {
            continue;
        };
        let expected = parts(refusal);
        for replaced in [0, 32, usize::MAX] {
            let shown = staged::section(&base, b"new", replaced, rng.below(40));
            assert_eq!(shown.map_err(parts), Err(expected));
            let roll = staged::write_roll(&base, b"new", replaced, &mut []);
            assert_eq!(roll.map_err(parts), Err(expected));
            let registers = staged::registers(&base, b"new", replaced);
            assert_eq!(registers.map_err(parts), Err(expected));
            let size = staged_part(&base, u64::MAX, replaced as u64, 0);
            assert_eq!((size.number, size.index, size.position), expected);
        }
        refused += 1;
    }
    assert!(refused > 500, "{refused}");
}

/// At the count and past it, for both numbers, before 1 and before 14.
#[test]
fn then_the_numbers() {
    for ordinal in 0..TIMES {
        let mut rng = Rng::of_input(133, ordinal);
        let layout = accepted_layout(&mut rng);
        let base = layout.image();
        let count = layout.sections.len() as u64;
        let any = rng.next().max(count);
        for wrong in [count, count + 1, 32, 256 + count, 1 << 32, any, u64::MAX] {
            for (replaced, shown) in [(wrong, 0), (0, wrong), (wrong, wrong)] {
                for size in [0, 3, u64::MAX] {
                    let part = staged_part(&base, size, replaced, shown);
                    assert_eq!(part, refused!(StagedPart, NO_SECTION));
                }
            }
            let mut out = [0xaa; 8];
            let roll = staged_roll_write(&base, b"new", wrong, &mut out);
            assert_eq!((roll.number, roll.index, roll.position), NO_SECTION);
            assert_eq!((roll.length, out), (0, [0xaa; 8]));
            let registers = staged_registers(&base, b"new", wrong);
            assert_eq!(registers, refused!(RegistersAnswer, NO_SECTION));
        }
    }
}

/// Exactly where the buffer is shorter than the roll of the image written afresh; then no byte changes.
#[test]
fn then_the_room() {
    for ordinal in 0..TIMES {
        let mut rng = Rng::of_input(134, ordinal);
        let layout = accepted_layout(&mut rng);
        let base = layout.image();
        let replaced = rng.below(layout.sections.len());
        let length = rng.below(80);
        let replacement = rng.bytes(length);
        let length = staged::roll_length(&base, &replacement, replaced).unwrap();
        let mut out = vec![0xaa; length + 1];
        let short = staged::write_roll(&base, &replacement, replaced, &mut out[..length - 1]);
        assert_eq!(short.map_err(parts), Err((14, 0, 0)));
        assert!(out.iter().all(|&byte| byte == 0xaa));
        let exact = staged::write_roll(&base, &replacement, replaced, &mut out[..length]);
        assert_eq!((exact, out[length]), (Ok(length), 0xaa));
    }
}

/// The worked example with its empty ramdisk replaced (docs/FORMAT.md, Staging).
#[test]
fn the_example() {
    let base = worked_image();
    let roll = [
        [2, 0, 0, 0, 0, 0, 0, 0, 0, 1, 0, 0].to_vec(),
        [1, 0, 0, 0, 0, 0, 0, 0, 1, 0, 0x4b].to_vec(),
        [1, 0, 0, 0, 0, 0, 0, 0, 2, 0, 0x61].to_vec(),
        [2, 0, 0, 0, 0, 0, 0, 0, 3, 0, 0x72, 0x73].to_vec(),
        [0, 0, 0, 0, 0, 0, 0, 0, 0, 0].to_vec(),
    ];
    let found = staged::roll_to_vec(&base, b"rs", 2).unwrap();
    assert_eq!(found, roll.concat());
    let part = |in_replacement, start, length| StagedPart {
        in_replacement,
        start,
        length: DataLength(length),
        ..StagedPart::default()
    };
    let [kernel, command_line, ramdisk] =
        WORKED_OFFSETS.map(|offset| (offset + SECTION_HEADER) as u64);
    assert_eq!(staged_part(&base, 2, 2, 0), part(0, kernel, 1));
    assert_eq!(staged_part(&base, 2, 2, 1), part(0, command_line, 1));
    assert_eq!(staged_part(&base, 2, 2, 2), part(1, 0, 2));
    assert_eq!(staged_part(&base, 0, 0, 2), part(0, ramdisk, 0));
    assert_eq!(staged_part(&base, 2, 3, 0).number, 27);
    assert_eq!(staged_part(&base, 2, 0, 3).number, 27);
    let mut damaged = base.clone();
    damaged[VERSION_AT + 1] = 5;
    put_checksum(&mut damaged);
    let part = staged_part(&damaged, 2, 3, 3);
    let expected = (4, 0, VERSION_AT as u64);
    assert_eq!((part.number, part.index, part.position), expected);
}

/// A section that no roll lists: the image is another, its roll and registers are the base's.
#[test]
fn metadata_is_not_in_the_roll() {
    let sections = [(1, "kernel"), (2, "quiet"), (5, "{}"), (3, "files")];
    let sections = sections.map(|(kind, data)| Section::new(kind, data.as_bytes()));
    let base = Layout::new(4, sections.to_vec()).image();
    check_afresh(&base, b"{\"a\": 1}", 2);
    let roll = staged::roll_to_vec(&base, b"{\"a\": 1}", 2);
    assert_eq!(roll, eif::roll_to_vec(&base));
    let registers = staged::registers(&base, b"{\"a\": 1}", 2);
    assert_eq!(registers, eif::registers(&base));
    // The limit is the image's all the same.
    let most = MAX_IMAGE_LENGTH - (base.len() - 2);
    assert_eq!(staged_part(&base, most as u64, 2, 0).number, 0);
    assert_eq!(staged_part(&base, most as u64 + 1, 2, 0).number, 1);
}

/// The replacement's size alone decides, so that none of that size is needed.
#[test]
fn the_longest_image() {
    let base = worked_image();
    for replaced in 0..3 {
        let own = [1, 1, 0][replaced];
        let most = (MAX_IMAGE_LENGTH - base.len() + own) as u64;
        let limit = staged_part(&base, most, replaced as u64, replaced as u64);
        assert_eq!((limit.number, limit.length), (0, DataLength(most)));
        let wraps = u64::MAX - HEADER as u64;
        for size in [most + 1, 1 << 32, 1 << 63, wraps, u64::MAX] {
            for shown in 0..3 {
                let part = staged_part(&base, size, replaced as u64, shown);
                assert_eq!((part.number, part.index, part.position), TOO_LONG);
                assert_eq!((part.start, part.length), (0, DataLength(0)));
            }
        }
    }
}

/// A replacement that is too long is refused without a look at it; its zeros take no memory.
#[test]
fn a_replacement_that_is_too_long() {
    let base = worked_image();
    let longer = vec![0; MAX_IMAGE_LENGTH - base.len() + 1];
    let mut out = [0xaa; 8];
    let roll = staged::write_roll(&base, &longer, 2, &mut out);
    assert_eq!((roll.map_err(parts), out), (Err(TOO_LONG), [0xaa; 8]));
    let length = staged::roll_length(&base, &longer, 2);
    assert_eq!(length.map_err(parts), Err(TOO_LONG));
    let registers = staged::registers(&base, &longer, 2);
    assert_eq!(registers.map_err(parts), Err(TOO_LONG));
    let fingerprint = staged::fingerprint(&base, &longer, 2);
    assert_eq!(fingerprint.map_err(parts), Err(TOO_LONG));
    let written = staged::write_to_vec(&base, &longer, 2);
    assert_eq!(written.map_err(parts), Err(TOO_LONG));
}

/// The base has an empty command line and a kernel of zeros, and no byte more can be added; the kernel can be
/// made shorter.
#[test]
fn a_base_at_the_limit() {
    let base = zero_image(MAX_IMAGE_LENGTH);
    let kernel = (MAX_IMAGE_LENGTH - SHORTEST) as u64;
    assert_eq!(staged_part(&base, 1, 0, 1).number, 1);
    assert_eq!(staged_part(&base, kernel, 1, 1).length, DataLength(kernel));
    let mut roll = [0; FLAGS_RECORD + 3 * RECORD_HEAD + 3];
    let written = staged::write_roll(&base, b"new", 1, &mut roll);
    assert_eq!(written, Ok(roll.len()));
    let list = eif::read_roll(&roll).unwrap();
    assert_eq!(list.record_data(0), Some(&b""[..]));
    assert_eq!(list.record_data(1), Some(&b"new"[..]));
    let longer = zero_image(MAX_IMAGE_LENGTH + 1);
    let part = staged::section(&longer, b"new", 1, 0);
    assert_eq!(part.map_err(parts), Err(TOO_LONG));
}
