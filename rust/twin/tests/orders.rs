//! Inputs to which two rules of an order apply, through the twin: the first rule's refusal is the answer.

use eif_cases::{
    image_orders, long_image_orders, long_roll_orders, plan_orders, roll_orders, short_buffers,
    sign1_orders, staged_roll_orders, staged_view_orders, transfer_orders, worked_image, Answer,
};
use eif_twin::*;

/// The refusal that is answered.
fn refused<T>(answer: Result<T, Refusal>) -> Option<Answer> {
    let refusal = answer.err()?;
    Some((refusal.number, refusal.index, refusal.position))
}

#[test]
fn images() {
    for case in image_orders().into_iter().chain(long_image_orders()) {
        let (image, expected) = (&case.input, Some(case.answer));
        let answers = [
            refused(read(image)),
            refused(read_strict(image)),
            refused(registers(image)),
            refused(roll_length(image)),
            refused(write_roll(image, &mut [])),
            refused(stream_length(image, Stream::Whole)),
            refused(copy_stream(image, Stream::App, u64::MAX, &mut [])),
            refused(staged_part(image, u64::MAX, u64::MAX, u64::MAX)),
            refused(staged_part(image, u64::MAX, 0, 0)),
            refused(write_staged_roll(image, b"new", u64::MAX, &mut [])),
            refused(staged_registers(image, b"new", u64::MAX)),
        ];
        assert_eq!(answers, [expected; 11], "{:?}", case.rules);
    }
}

#[test]
fn rolls() {
    for case in roll_orders().into_iter().chain(long_roll_orders()) {
        let answer = refused(read_roll(&case.input));
        assert_eq!(answer, Some(case.answer), "{:?}", case.rules);
    }
}

#[test]
fn plans() {
    for case in plan_orders() {
        let mut places = [Place::default(); 32];
        for (place, &(kind, length)) in places.iter_mut().zip(&case.input.sections) {
            *place = Place {
                kind,
                flags: 0,
                length,
            };
        }
        let plan = Plan {
            version: case.input.version,
            flags: 0,
            default_mem: 0,
            default_cpus: 0,
            count: case.input.sections.len() as u16,
            places,
        };
        let (data, mut out) = (vec![7; case.input.data], vec![7; case.input.room]);
        let written = refused(write(&plan, &data, &mut out));
        assert_eq!(written, Some(case.answer), "{:?}", case.rules);
        let expected = (case.answer.0 != 15).then_some(case.answer);
        assert_eq!(refused(plan_length(&plan)), expected, "{:?}", case.rules);
    }
}

#[test]
fn transfers() {
    for case in transfer_orders().into_iter().chain(short_buffers()) {
        let input = &case.input;
        let [opened, length, room, places] = input.state;
        let state = Transfer {
            opened,
            length,
            room,
            places,
        };
        let (mut transfer, mut image, mut marks) =
            (state, input.image.clone(), input.marks.clone());
        let taken = refused(transfer.take(&input.record, &mut image, &mut marks));
        assert_eq!(taken, Some(case.answer), "{:?}", case.rules);
        assert_eq!(
            (transfer, &image, &marks),
            (state, &input.image, &input.marks)
        );
    }
}

#[test]
fn replacements() {
    let base = worked_image();
    for case in staged_view_orders() {
        let input = &case.input;
        let size = input.size as u64;
        let part = refused(staged_part(&base, size, input.replaced, input.shown));
        assert_eq!(part, Some(case.answer), "{:?}", case.rules);
    }
    for case in staged_roll_orders() {
        let input = &case.input;
        let (replacement, mut out) = (vec![0; input.size], vec![0; input.room]);
        let answers = [
            refused(staged_part(
                &base,
                input.size as u64,
                input.replaced,
                input.shown,
            )),
            refused(write_staged_roll(
                &base,
                &replacement,
                input.replaced,
                &mut out,
            )),
            refused(staged_registers(&base, &replacement, input.replaced)),
            refused(staged_fingerprint(&base, &replacement, input.replaced)),
        ];
        assert_eq!(answers, [Some(case.answer); 4], "{:?}", case.rules);
    }
}

#[test]
fn claims() {
    for case in sign1_orders() {
        let parts = &case.input.parts;
        let claim = Claim {
            algorithm: parts.algorithm,
            index: parts.index,
            value: parts.value,
        };
        let written = write_sign1(&claim, &parts.signature, &mut vec![0; case.input.room]);
        assert_eq!(refused(written), Some(case.answer));
    }
}
