//! An image written in pieces, in the twin: cut in several ways, and from states that no begin gives.

use eif_cases::{worked_image, CHECKSUM_AT, HEADER, WORKED_LENGTH};
use eif_twin::*;

const UNWRITTEN: u8 = 0xaa;
const MISSING: Result<u32, Refusal> = Err(Refusal {
    number: 15,
    index: 0,
    position: 0,
});

fn plan(version: u16, sections: &[(u16, u16, u64)]) -> Plan {
    let mut places = [Place::default(); 32];
    for (place, &(kind, flags, length)) in places.iter_mut().zip(sections) {
        *place = Place {
            kind,
            flags,
            length,
        };
    }
    Plan {
        version,
        flags: 1,
        default_mem: 2,
        default_cpus: 3,
        count: sections.len() as u16,
        places,
    }
}

fn worked_plan() -> Plan {
    Plan {
        flags: 0,
        default_mem: 0,
        default_cpus: 0,
        ..plan(2, &[(1, 0, 1), (2, 0, 1), (3, 0, 0)])
    }
}

/// A state that writes nothing; the checksum is that of no bytes.
fn idle() -> Writing {
    Writing {
        header_written: 548,
        sections_begun: 0,
        section_left: 0,
        data_left: 0,
        count: 0,
        places: [Place::default(); 32],
        header: std::array::from_fn(|at| at as u8),
        checksum: 0xffff_ffff,
    }
}

fn step(taken: u64, written: u64) -> Step {
    Step { taken, written }
}

/// A step with this much room: the state after it, its answer, and the bytes written. The rest of the buffer must be
/// as it was.
fn stepped(mut state: Writing, data: &[u8], room: usize) -> (Writing, Step, Vec<u8>) {
    let mut out = vec![UNWRITTEN; room];
    let answer = state.step(data, &mut out);
    let rest = out.split_off(answer.written as usize);
    assert!(rest.iter().all(|&byte| byte == UNWRITTEN));
    (state, answer, out)
}

/// All steps of a plan, at most `cut` bytes of data and `room` bytes of buffer at a time: the bytes written and the
/// checksum.
fn run(plan: &Plan, checksum: u32, data: &[u8], cut: usize, room: usize) -> (Vec<u8>, u32) {
    let (mut state, length) = Writing::begin(plan, checksum);
    let mut rest = data;
    let mut image = Vec::new();
    while image.len() < length.unwrap() {
        let (after, answer, written) = stepped(state, &rest[..cut.min(rest.len())], room);
        assert!(answer.written > 0);
        state = after;
        rest = &rest[answer.taken as usize..];
        image.extend(written);
    }
    assert_eq!(stepped(state, b"more", room), (state, step(0, 0), vec![]));
    (image, state.finish().unwrap())
}

#[test]
fn the_worked_image_step_by_step() {
    let (mut state, length) = Writing::begin(&worked_plan(), 0);
    assert_eq!(length, Ok(WORKED_LENGTH));
    let steps = [
        ("Ka", 500, step(0, 500)),
        ("Ka", 500, step(0, 48)),
        ("Ka", 11, step(0, 0)),
        ("Ka", 500, step(0, 12)),
        ("Ka", 0, step(0, 0)),
        ("", 500, step(0, 0)),
        ("Ka", 500, step(1, 1)),
        ("a", 12, step(0, 12)),
        ("a", 12, step(1, 1)),
        ("", 12, step(0, 12)),
        ("more", 12, step(0, 0)),
    ];
    let mut image = Vec::new();
    for (data, room, expected) in steps {
        let (after, answer, written) = stepped(state, data.as_bytes(), room);
        assert_eq!(answer, expected, "{data} {room}");
        // The checksum is known when both bytes of data were taken, before the last own header is written.
        let known = after.data_left == 0;
        let checksum = if known { Ok(0x86c2_2731) } else { MISSING };
        assert_eq!(after.finish(), checksum);
        state = after;
        image.extend(written);
    }
    assert_eq!(image[CHECKSUM_AT..HEADER], [0; 4]);
    image[CHECKSUM_AT..HEADER].copy_from_slice(&[0x86, 0xc2, 0x27, 0x31]);
    assert_eq!(image, worked_image());
}

#[test]
fn the_state_after_begin() {
    let (state, _) = Writing::begin(&worked_plan(), 0x86c2_2731);
    let mut expected = Writing {
        header_written: 0,
        data_left: 2,
        count: 3,
        places: worked_plan().places,
        checksum: 0xced9_b28e,
        ..idle()
    };
    expected.header.copy_from_slice(&worked_image()[..HEADER]);
    assert_eq!(state, expected);
    assert_eq!(state.finish(), MISSING);
}

#[test]
fn places_past_the_count_are_kept_and_not_used() {
    let mut plan = worked_plan();
    plan.places[3] = Place {
        kind: 9,
        flags: 8,
        length: u64::MAX,
    };
    let (state, length) = Writing::begin(&plan, 0);
    assert_eq!((length, state.data_left), (Ok(WORKED_LENGTH), 2));
    assert_eq!(state.places[3].length, u64::MAX);
    let (image, checksum) = run(&plan, 0x86c2_2731, b"Ka", 2, 600);
    assert_eq!((image, checksum), (worked_image(), 0x86c2_2731));
}

#[test]
fn a_refused_plan() {
    let refused = Writing {
        header: [0; HEADER],
        checksum: 0,
        ..idle()
    };
    let cases = [
        (plan(5, &[(1, 0, 1), (2, 0, 1)]), (4, 0)),
        (plan(2, &[(1, 0, 1)]), (5, 0)),
        (plan(2, &[(1, 0, 1), (4, 0, 1)]), (9, 1)),
        (plan(2, &[(2, 0, 1), (3, 0, 1), (1, 0, 1)]), (10, 1)),
        (plan(2, &[(1, 0, 1), (2, 0, 1), (1, 0, 1)]), (11, 2)),
        (plan(4, &[(1, 0, 1), (2, 0, 1)]), (12, 0)),
        (plan(2, &[(1, 0, u64::MAX), (2, 0, u64::MAX)]), (1, 0)),
        (plan(2, &[(1, 0, 1_073_741_253), (2, 0, 0)]), (1, 0)),
    ];
    for (plan, (number, index)) in cases {
        let (state, answer) = Writing::begin(&plan, 7);
        assert_eq!(state, refused);
        assert_eq!(answer, plan_length(&plan));
        let refusal = answer.unwrap_err();
        assert_eq!((refusal.number, refusal.index), (number, index));
    }
    let nothing = (refused, step(0, 0), vec![]);
    assert_eq!(stepped(refused, b"data", 600), nothing);
    assert_eq!(refused.finish(), MISSING);
    let longest = plan(2, &[(1, 0, 1_073_741_252), (2, 0, 0)]);
    assert_eq!(Writing::begin(&longest, 7).1, Ok(MAX_IMAGE));
}

#[test]
fn every_cut_gives_the_whole_image() {
    let data: Vec<u8> = (100..137).collect();
    let plans = [
        plan(2, &[(1, 9, 20), (2, 8, 17)]),
        plan(3, &[(4, 0, 0), (1, 7, 1), (3, 0, 36), (2, 6, 0)]),
        plan(4, &[(2, 0, 0), (1, 0, 13), (5, 0, 24)]),
        plan(4, &[(1, 0, 36), (3, 1, 0), (2, 0, 1), (3, 2, 0), (5, 0, 0)]),
    ];
    for plan in plans {
        let mut whole = vec![0; plan_length(&plan).unwrap()];
        write(&plan, &data, &mut whole).unwrap();
        let right: [u8; 4] = whole[CHECKSUM_AT..HEADER].try_into().unwrap();
        let right = u32::from_be_bytes(right);
        for cut in [1, 2, 3, 16, 17, 36, 37, 38, 1000] {
            for room in [12, 13, 20, 36, 547, 548, 549, 700] {
                let (image, checksum) = run(&plan, 0, &data, cut, room);
                assert_eq!(checksum, right);
                assert_eq!(image[CHECKSUM_AT..HEADER], [0; 4]);
                assert_eq!(image[..CHECKSUM_AT], whole[..CHECKSUM_AT]);
                assert_eq!(image[HEADER..], whole[HEADER..]);
                assert_eq!(
                    run(&plan, checksum, &data, cut, room),
                    (whole.clone(), right)
                );
            }
        }
    }
}

#[test]
fn sections_with_no_data_need_none() {
    let plan = Plan {
        flags: 0,
        default_mem: 0,
        default_cpus: 0,
        ..plan(2, &[(1, 0, 0), (2, 0, 0)])
    };
    let (state, length) = Writing::begin(&plan, 0);
    assert_eq!((length, state.finish()), (Ok(572), Ok(0x0e35_6905)));
    let (image, checksum) = run(&plan, 0, b"", 0, 12);
    assert_eq!((image.len(), checksum), (572, 0x0e35_6905));
}

#[test]
fn first_row_data() {
    // Row 1 goes before the others, whatever else the state says.
    let state = Writing {
        header_written: 0,
        section_left: 9,
        data_left: 20,
        count: 2,
        ..idle()
    };
    let (after, answer, written) = stepped(state, b"123456789more", 600);
    assert_eq!((answer, &written[..]), (step(9, 9), &b"123456789"[..]));
    let expected = Writing {
        section_left: 0,
        data_left: 11,
        checksum: !0xcbf4_3926,
        ..state
    };
    assert_eq!(after, expected);

    // Where data or room is missing, the other rows are not asked either.
    assert_eq!(stepped(state, b"", 600), (state, step(0, 0), vec![]));
    assert_eq!(stepped(state, b"1", 0), (state, step(0, 0), vec![]));
    let (half, answer, _) = stepped(state, b"1234", 600);
    assert_eq!(answer, step(4, 4));
    assert_eq!((half.section_left, half.data_left), (5, 16));
    let (rest, answer, _) = stepped(half, b"56789", 4);
    assert_eq!(answer, step(4, 4));
    assert_eq!((rest.section_left, rest.data_left), (1, 12));
    assert_eq!(stepped(rest, b"9", 1).0, expected);
}

#[test]
fn first_row_numbers_at_their_ends() {
    let state = Writing {
        section_left: u64::MAX,
        data_left: 8,
        ..idle()
    };
    let (after, answer, _) = stepped(state, b"123456789", 9);
    let expected = Writing {
        section_left: u64::MAX - 9,
        data_left: 0,
        checksum: !0xcbf4_3926,
        ..state
    };
    assert_eq!((after, answer), (expected, step(9, 9)));
    let one = Writing {
        section_left: 1,
        data_left: u64::MAX,
        ..idle()
    };
    let (after, answer, written) = stepped(one, b"123456789", 9);
    assert_eq!((answer, written), (step(1, 1), vec![b'1']));
    assert_eq!((after.section_left, after.data_left), (0, u64::MAX - 1));
}

#[test]
fn second_row_header() {
    let state = Writing {
        header_written: 547,
        sections_begun: 1,
        data_left: 5,
        count: 2,
        ..idle()
    };
    // Byte 547 of this header is 547 modulo 256.
    let after = Writing {
        header_written: 548,
        ..state
    };
    assert_eq!(stepped(state, b"data", 600), (after, step(0, 1), vec![35]));
    assert_eq!(stepped(state, b"data", 1), (after, step(0, 1), vec![35]));
    assert_eq!(stepped(state, b"data", 0), (state, step(0, 0), vec![]));
    for (from, room, written) in [(0, 0, 0), (0, 11, 11), (0, 548, 548), (3, 600, 545)] {
        let state = Writing {
            header_written: from,
            ..state
        };
        let (after, answer, bytes) = stepped(state, b"data", room);
        assert_eq!(answer, step(0, written));
        assert_eq!(
            bytes,
            state.header[from as usize..(from + written) as usize]
        );
        assert_eq!(after.header_written, from + written);
        assert_eq!((after.sections_begun, after.checksum), (1, 0xffff_ffff));
    }
    for header_written in [548, 549, u64::MAX] {
        let state = Writing {
            header_written,
            count: 1,
            ..state
        };
        assert_eq!(stepped(state, b"data", 600), (state, step(0, 0), vec![]));
    }
}

/// A state with one section at place `first` and, if there is a place after it, one of 2 to the 64 less 1 bytes there.
fn own_headers(first: usize) -> Writing {
    let mut state = idle();
    state.places[first] = Place {
        kind: 1,
        flags: 2,
        length: 0x0102_0304_0506_0708,
    };
    if let Some(place) = state.places.get_mut(first + 1) {
        *place = Place {
            kind: 0x1234,
            flags: 0x5678,
            length: u64::MAX,
        };
    }
    state
}

#[test]
fn third_row_own_headers() {
    let state = Writing {
        header_written: u64::MAX,
        data_left: 4,
        count: 2,
        ..own_headers(0)
    };
    for room in [0, 11] {
        assert_eq!(stepped(state, b"data", room), (state, step(0, 0), vec![]));
    }
    let after = Writing {
        sections_begun: 1,
        section_left: 0x0102_0304_0506_0708,
        checksum: !0xce45_6685,
        ..state
    };
    let own = vec![0, 1, 0, 2, 1, 2, 3, 4, 5, 6, 7, 8];
    for room in [12, 13, 600] {
        assert_eq!(
            stepped(state, b"data", room),
            (after, step(0, 12), own.clone())
        );
    }
    let second = Writing {
        section_left: 0,
        ..after
    };
    let (after, answer, own) = stepped(second, b"data", 12);
    assert_eq!(answer, step(0, 12));
    assert_eq!(
        own,
        [0x12, 0x34, 0x56, 0x78, 255, 255, 255, 255, 255, 255, 255, 255]
    );
    let expected = Writing {
        sections_begun: 2,
        section_left: u64::MAX,
        checksum: !0xf0c1_4a90,
        ..second
    };
    assert_eq!(after, expected);
}

#[test]
fn third_row_counts() {
    for (begun, count) in [(31, 32), (31, 33), (31, u64::MAX)] {
        let state = Writing {
            sections_begun: begun,
            count,
            ..own_headers(31)
        };
        let (after, answer, _) = stepped(state, b"data", 12);
        let expected = Writing {
            sections_begun: 32,
            section_left: 0x0102_0304_0506_0708,
            checksum: !0xce45_6685,
            ..state
        };
        assert_eq!((after, answer), (expected, step(0, 12)));
    }
    let most = u64::MAX;
    for (begun, count) in [(31, 31), (32, 32), (32, 33), (33, most), (most, most)] {
        let state = Writing {
            sections_begun: begun,
            count,
            ..own_headers(31)
        };
        assert_eq!(stepped(state, b"data", 600), (state, step(0, 0), vec![]));
    }
}

#[test]
fn finish_of_any_state() {
    let finish = |sections_begun, count, state: Writing| {
        let state = Writing {
            sections_begun,
            count,
            ..state
        };
        state.finish()
    };
    let state = own_headers(0);
    assert_eq!(finish(0, 0, state), MISSING);
    assert_eq!(finish(u64::MAX, 0, state), MISSING);
    // No bytes at all, then one own header, then both.
    assert_eq!(finish(2, 2, state), Ok(0));
    assert_eq!(finish(u64::MAX, 2, state), Ok(0));
    assert_eq!(finish(0, 1, state), Ok(0xce45_6685));
    assert_eq!(finish(1, 2, state), Ok(0xb852_1a25));
    assert_eq!(finish(0, 2, state), Ok(0xf0c1_4a90));
    // At most 32 places: 32 own headers of zeros, or one.
    for count in [32, 33, u64::MAX] {
        assert_eq!(finish(0, count, idle()), Ok(0x88ba_d147));
        assert_eq!(finish(31, count, idle()), Ok(0x7bd5_c66f));
        assert_eq!(finish(32, count, idle()), Ok(0));
    }
    for data_left in [1, u64::MAX] {
        let missing = Writing { data_left, ..state };
        assert_eq!(finish(2, 2, missing), MISSING);
    }
    // Only data_left says whether data is missing, and no byte of the header needs to be written.
    let other = Writing {
        header_written: 0,
        section_left: 7,
        ..state
    };
    assert_eq!(finish(1, 2, other), Ok(0xb852_1a25));
}
