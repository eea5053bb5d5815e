//! Inputs to which two rules of an order apply, through every call: the first rule's refusal is the answer.

use eif::raw::staged_writing::staged_writing_begin;
use eif::raw::{self, assembler, sign1, staged};
use eif::{Assembler, DataLength, Digest, Place, Plan, SectionType};
use eif_cases::{
    image_orders, long_image_orders, long_roll_orders, orders, plan_orders, roll_orders,
    short_buffers, sign1_orders, staged_roll_orders, staged_view_orders, transfer_orders,
    worked_image, OrderCase, PlanCase, Replacement,
};
use eif_check::{check_refused_image, parts, refused, Call};

/// The calls of the differential test that have the order of this name.
fn calls(order: &str) -> &'static [Call] {
    match order {
        "reading an image" => &[
            Call::Read,
            Call::Arrive,
            Call::Length,
            Call::RollLength,
            Call::Registers,
            Call::RegistersArriving,
            Call::Fingerprint,
            Call::FingerprintArriving,
        ],
        "stricter reading" => &[Call::ReadStrict],
        "copying from a stream" => &[Call::Copy],
        "writing a roll" => &[Call::RollWrite],
        "the length of a plan" => &[Call::PlanLength, Call::WritingBegin],
        "writing an image" => &[Call::Write],
        "reading a roll" => &[Call::RollRead],
        "a transfer's record" => &[Call::Assemble],
        "the data of a staged section" => &[Call::StagedPart],
        "the length of a staged roll, the registers and the fingerprint" => &[
            Call::StagedRollLength,
            Call::StagedRegisters,
            Call::StagedFingerprint,
            Call::StagedWritingBegin,
        ],
        "writing a staged roll" => &[Call::StagedRollWrite],
        "writing a COSE_Sign1" => &[Call::Sign1Write],
        _ => panic!("no call has the order of {order}"),
    }
}

/// A call that gains a number in `Call::numbers` has it in its order too, where it then needs a case.
#[test]
fn orders_have_the_numbers_of_their_calls() {
    let mut found = Vec::new();
    for order in orders() {
        for &call in calls(order.name) {
            let numbers = [vec![0], order.numbers()].concat();
            assert_eq!(numbers, call.numbers(), "{}: {call:?}", order.name);
            found.push(call);
        }
    }
    // The others have one number, so no order.
    let others = Call::ALL.into_iter().filter(|call| !found.contains(call));
    for call in others {
        assert_eq!(call.numbers().len(), 2, "{call:?}");
    }
}

#[test]
fn images() {
    for case in image_orders().into_iter().chain(long_image_orders()) {
        check_refused_image(&format!("{:?}", case.rules), &case.input, case.answer);
    }
}

#[test]
fn rolls() {
    for case in roll_orders().into_iter().chain(long_roll_orders()) {
        let answer = eif::read_roll(&case.input).map(|_| ()).map_err(parts);
        assert_eq!(answer, Err(case.answer), "{:?}", case.rules);
        let refused = refused!(raw::RollReading, case.answer);
        assert_eq!(raw::roll_read(&case.input), refused, "{:?}", case.rules);
    }
}

fn plan_of(case: &PlanCase) -> Plan {
    let place = |&(kind, length): &(u16, u64)| Place::new(SectionType(kind), DataLength(length));
    Plan {
        version: case.version,
        places: case.sections.iter().map(place).collect(),
        ..Plan::default()
    }
}

/// The same plan for C. Places past the 32nd are counted and not held.
fn raw_plan_of(case: &PlanCase) -> raw::Plan {
    let mut plan = raw::Plan {
        version: case.version,
        count: case.sections.len() as u16,
        ..raw::Plan::default()
    };
    for (to, from) in plan.places.iter_mut().zip(plan_of(case).places) {
        *to = from;
    }
    plan
}

#[test]
fn plans() {
    for case in plan_orders() {
        let (plan, raw_plan) = (plan_of(&case.input), raw_plan_of(&case.input));
        let (data, mut out) = (vec![7; case.input.data], vec![0xaa; case.input.room]);
        let refused = refused!(raw::Answer, case.answer);
        let written = eif::write(&plan, &data, &mut out);
        assert_eq!(written.map_err(parts), Err(case.answer), "{:?}", case.rules);
        let written = raw::write(raw_plan, &data, &mut out);
        assert_eq!(written, refused, "{:?}", case.rules);
        assert!(out.iter().all(|&byte| byte == 0xaa), "{:?}", case.rules);
        // The length alone, and the first call of writing in pieces, have the same order without 15 and 14.
        let length = eif::plan_length(&plan).map_err(parts);
        let begun = eif::Writing::begin(&plan, 0).map(|(_, length)| length);
        assert_eq!(begun.map_err(parts), length, "{:?}", case.rules);
        if case.answer.0 == 15 {
            assert_eq!(length, Ok(574), "{:?}", case.rules);
        } else {
            assert_eq!(length, Err(case.answer), "{:?}", case.rules);
            assert_eq!(raw::plan_length(raw_plan), refused, "{:?}", case.rules);
            let begun = raw::writing::writing_begin(raw_plan, 7);
            assert_eq!(begun.answer, refused, "{:?}", case.rules);
        }
    }
}

/// Beside a refusal neither the state nor a byte of a buffer has changed.
#[test]
fn transfers() {
    for case in transfer_orders().into_iter().chain(short_buffers()) {
        let input = &case.input;
        let [opened, length, room, places] = input.state;
        let state = assembler::State {
            opened,
            length,
            room,
            places,
        };
        let (mut image, mut marks) = (input.image.clone(), input.marks.clone());
        let refused = assembler::Stepped {
            state,
            ..refused!(assembler::Stepped, case.answer)
        };
        let stepped = assembler::assembler_step(state, &input.record, &mut image, &mut marks);
        assert_eq!(stepped, refused, "{:?}", case.rules);
        let mut transfer = Assembler::from(state);
        let stepped = transfer.step(&input.record, &mut image, &mut marks);
        assert_eq!(stepped.map_err(parts), Err(case.answer), "{:?}", case.rules);
        assert_eq!(transfer, Assembler::from(state), "{:?}", case.rules);
        let buffers = (&input.image, &input.marks);
        assert_eq!((&image, &marks), buffers, "{:?}", case.rules);
    }
}

/// Both calls for the data of a section give the case's answer.
fn check_view(base: &[u8], replacement: &[u8], case: &OrderCase<Replacement>) {
    let (input, size) = (&case.input, replacement.len() as u64);
    let [replaced, shown] = [input.replaced, input.shown].map(|number| number as usize);
    let part = eif::staged::section(base, replacement, replaced, shown);
    assert_eq!(
        part.map(|_| ()).map_err(parts),
        Err(case.answer),
        "{:?}",
        case.rules
    );
    let part = staged::staged_part(base, size, input.replaced, input.shown);
    let refused = refused!(staged::StagedPart, case.answer);
    assert_eq!(part, refused, "{:?}", case.rules);
}

/// The first call of writing in pieces gives the case's answer.
fn check_begun(base: &[u8], replacement: &[u8], case: &OrderCase<Replacement>) {
    let replaced = case.input.replaced;
    let begun = eif::staged::Writing::begin(base, replacement, replaced as usize, 7);
    let begun = begun.map(|_| ()).map_err(parts);
    assert_eq!(begun, Err(case.answer), "{:?}", case.rules);
    let begun = staged_writing_begin(base, replacement, replaced, 7);
    let refused = refused!(raw::Answer, case.answer);
    assert_eq!(begun.answer, refused, "{:?}", case.rules);
}

/// The replacement's zeros take no memory, since none of them is read.
#[test]
fn replacements() {
    let base = worked_image();
    for case in staged_view_orders() {
        check_view(&base, &vec![0; case.input.size], &case);
    }
    for case in staged_roll_orders() {
        let (input, expected) = (&case.input, Err(case.answer));
        let (replacement, mut out) = (vec![0; input.size], vec![0xaa; input.room]);
        let replaced = input.replaced as usize;
        check_view(&base, &replacement, &case);
        check_begun(&base, &replacement, &case);
        let roll = eif::staged::write_roll(&base, &replacement, replaced, &mut out);
        assert_eq!(
            roll.map(|_| ()).map_err(parts),
            expected,
            "{:?}",
            case.rules
        );
        let length = eif::staged::roll_length(&base, &replacement, replaced);
        assert_eq!(
            length.map(|_| ()).map_err(parts),
            expected,
            "{:?}",
            case.rules
        );
        let registers = eif::staged::registers(&base, &replacement, replaced);
        assert_eq!(
            registers.map(|_| ()).map_err(parts),
            expected,
            "{:?}",
            case.rules
        );

        let fingerprint = eif::staged::fingerprint(&base, &replacement, replaced);
        assert_eq!(
            fingerprint.map(|_| ()).map_err(parts),
            expected,
            "{:?}",
            case.rules
        );

        let refused = refused!(raw::Answer, case.answer);
        let roll = staged::staged_roll_write(&base, &replacement, input.replaced, &mut out);
        assert_eq!(roll, refused, "{:?}", case.rules);
        let length = staged::staged_roll_length(&base, &replacement, input.replaced);
        assert_eq!(length, refused, "{:?}", case.rules);
        let registers = staged::staged_registers(&base, &replacement, input.replaced);
        assert_eq!(registers, refused!(raw::RegistersAnswer, case.answer));
        let fingerprint = staged::staged_fingerprint(&base, &replacement, input.replaced);
        let refused = refused!(raw::fingerprint::FingerprintAnswer, case.answer);
        assert_eq!(fingerprint, refused, "{:?}", case.rules);
        assert!(out.iter().all(|&byte| byte == 0xaa), "{:?}", case.rules);
    }
}

/// The Rust interface has no claim with an algorithm that is none of the three.
#[test]
fn claims() {
    for case in sign1_orders() {
        let (parts, mut out) = (&case.input.parts, vec![0xaa; case.input.room]);
        let claim = sign1::Sign1Claim {
            algorithm: parts.algorithm,
            register_index: parts.index,
            register_value: Digest(parts.value),
        };
        let written = sign1::sign1_write(claim, &parts.signature, &mut out);
        assert_eq!(written, refused!(raw::Answer, case.answer));
        assert!(out.iter().all(|&byte| byte == 0xaa));
    }
}
