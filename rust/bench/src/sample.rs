//! The images that are measured.

use eif::{DataLength, Place, SectionType};
use eif_cases::{Layout, Section, HEADER, SECTION_HEADER};
use eif_twin as twin;

/// Kernel, command line, metadata and four ramdisks; kernel and command line where there is no room for more.
const TYPES: [u16; 7] = [1, 2, 5, 3, 3, 3, 3];
const FEW_TYPES: [u16; 2] = [1, 2];
const ROOM: usize = 4096;

/// The version, the types and the lengths of the data of an image of `length` bytes.
fn shape(length: usize) -> (u16, &'static [u16], Vec<usize>) {
    if length < ROOM {
        let total = length - HEADER - FEW_TYPES.len() * SECTION_HEADER;
        return (2, &FEW_TYPES, vec![total - total / 8, total / 8]);
    }
    // The command line and the metadata are short, and the rest is shared out.
    let rest = length - HEADER - TYPES.len() * SECTION_HEADER - 1000;
    let share = rest / 5;
    let last = rest - 4 * share;
    (4, &TYPES, vec![share, 200, 800, share, share, share, last])
}

/// One image and all that is made of it.
pub struct Sample {
    pub data: Vec<u8>,
    pub image: Vec<u8>,
    pub roll: Vec<u8>,
    pub plan: eif::Plan,
    pub twin_plan: twin::Plan,
}

impl Sample {
    /// A plain image of exactly `length` bytes.
    pub fn new(length: usize) -> Self {
        let (version, types, lengths) = shape(length);
        let data = bytes(lengths.iter().sum());
        let mut rest = &data[..];
        let sections = types.iter().zip(&lengths).map(|(&kind, &length)| {
            let (section, others) = rest.split_at(length);
            rest = others;
            Section::new(kind, section)
        });
        let image = Layout::new(version, sections.collect()).image();
        assert_eq!(image.len(), length);

        let mut roll = vec![0; length];
        let roll_length = twin::write_roll(&image, &mut roll).expect("an accepted image");
        roll.truncate(roll_length);
        Sample {
            data,
            image,
            roll,
            plan: plan(version, types, &lengths),
            twin_plan: twin_plan(version, types, &lengths),
        }
    }
}

fn plan(version: u16, types: &[u16], lengths: &[usize]) -> eif::Plan {
    let places = types.iter().zip(lengths);
    let places =
        places.map(|(&kind, &length)| Place::new(SectionType(kind), DataLength(length as u64)));
    eif::Plan {
        version,
        places: places.collect(),
        ..eif::Plan::default()
    }
}

fn twin_plan(version: u16, types: &[u16], lengths: &[usize]) -> twin::Plan {
    let mut places = [twin::Place::default(); 32];
    for (place, (&kind, &length)) in places.iter_mut().zip(types.iter().zip(lengths)) {
        *place = twin::Place {
            kind,
            flags: 0,
            length: length as u64,
        };
    }
    twin::Plan {
        version,
        flags: 0,
        default_mem: 0,
        default_cpus: 0,
        count: types.len() as u16,
        places,
    }
}

/// Bytes with no pattern that a checksum or a copy could gain from.
pub fn bytes(length: usize) -> Vec<u8> {
    let byte = |at: u64| (at.wrapping_mul(0x9E37_79B9_7F4A_7C15) >> 56) as u8;
    (0..length as u64).map(byte).collect()
}
