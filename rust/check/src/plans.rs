//! Plans: valid and hostile, with the data and the output that go with them.

use crate::{accepted_layout, Rng};
use eif::raw::Plan;
use eif::{DataLength, Place, SectionType};
use eif_cases::{HEADER, MAX_SECTIONS, SECTION_HEADER};

/// What a writer is handed.
#[derive(Clone, Debug)]
pub struct PlanInput {
    /// The plan.
    pub plan: Plan,
    /// The lent data.
    pub data: Vec<u8>,
    /// The output's length.
    pub output: usize,
}

/// A plan that is not refused, its data, and an output that is long enough.
pub fn accepted_plan(rng: &mut Rng) -> PlanInput {
    let layout = accepted_layout(rng);
    let mut plan = Plan {
        version: layout.version,
        flags: layout.flags,
        default_mem: layout.default_mem,
        default_cpus: layout.default_cpus,
        count: layout.sections.len() as u16,
        ..Plan::default()
    };
    let mut data = Vec::new();
    for (place, section) in plan.places.iter_mut().zip(&layout.sections) {
        *place = Place {
            section_type: SectionType(section.kind),
            flags: section.flags,
            length: DataLength(section.data.len() as u64),
        };
        data.extend_from_slice(&section.data);
    }
    let output = image_length(&plan) as usize + rng.below(40);
    PlanInput { plan, data, output }
}

fn used(plan: &Plan) -> &[Place] {
    &plan.places[..usize::from(plan.count).min(plan.places.len())]
}

/// The length of the plan's image, exact.
fn image_length(plan: &Plan) -> u128 {
    let places = used(plan).iter();
    let sections = places.map(|p| SECTION_HEADER as u128 + u128::from(p.length.0));
    HEADER as u128 + sections.sum::<u128>()
}

fn any_place(rng: &mut Rng) -> Place {
    Place {
        section_type: SectionType(rng.pick(&[0, 1, 2, 3, 4, 5, 6, 0x0100, 0xffff])),
        flags: rng.next() as u16,
        length: DataLength(rng.hostile(16)),
    }
}

fn damage_plan(rng: &mut Rng, plan: &mut Plan) {
    let count = usize::from(plan.count).clamp(1, MAX_SECTIONS);
    let chosen = rng.below(count);
    match rng.below(8) {
        0 => plan.version = rng.pick(&[0, 1, 2, 3, 4, 5, 0x0200, 0xffff]),
        1 => plan.count = rng.pick(&[0, 1, 2, 3, 31, 32, 33, 256, 0xffff]),
        2 | 3 => plan.places[chosen].section_type = any_place(rng).section_type,
        4 => plan.places.swap(chosen, rng.below(count)),
        5 => plan.places[..count].rotate_left(chosen),
        6 => {
            let near = plan.places[chosen].length.0;
            plan.places[chosen].length = DataLength(rng.hostile(near));
        }
        _ => wrap_sum(rng, &mut plan.places[..count]),
    }
}

/// Changes two lengths so that their sum in 64 bits stays, though the exact sum is past 2 to the 64.
fn wrap_sum(rng: &mut Rng, places: &mut [Place]) {
    let [one, other] = [rng.below(places.len()), rng.below(places.len())];
    let any = rng.next() | 1 << 62;
    let huge = rng.pick(&[1 << 63, u64::MAX, u64::MAX - 24, any]);
    places[one].length.0 = places[one].length.0.wrapping_add(huge);
    places[other].length.0 = places[other].length.0.wrapping_sub(huge);
}

/// Gives the plan's image a length close to the most that is allowed, by its last place.
fn near_limit(rng: &mut Rng, plan: &mut Plan) {
    let last = usize::from(plan.count) - 1;
    plan.places[last].length.0 = 0;
    let rest = eif::MAX_IMAGE_LENGTH - image_length(plan) as usize;
    plan.places[last].length.0 = (rest + rng.below(3)) as u64;
}

/// Any plan, with data and an output that fit it more often than not.
pub fn any_plan(rng: &mut Rng) -> PlanInput {
    let mut input = accepted_plan(rng);
    // Places past the count are ignored.
    if rng.once_in(2) {
        for place in &mut input.plan.places[usize::from(input.plan.count)..] {
            *place = any_place(rng);
        }
    }
    if rng.once_in(40) {
        // With data of another length, so that nothing of that length is written.
        near_limit(rng, &mut input.plan);
        return input;
    }
    let before = input.plan;
    for _ in 0..rng.pick(&[0, 0, 1, 1, 2]) {
        damage_plan(rng, &mut input.plan);
    }
    let lengths = used(&input.plan).iter().map(|p| u128::from(p.length.0));
    let sum = lengths.sum::<u128>();
    if sum < 100_000 && input.plan != before {
        input.data = rng.bytes(sum as usize);
    }
    match rng.below(12) {
        0 => input.data.push(0),
        1 => {
            input.data.pop();
        }
        _ => {}
    }
    let wanted = image_length(&input.plan).min(100_000) as usize;
    input.output = rng.output_length(wanted);
    input
}
