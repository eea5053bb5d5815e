//! Writing the plain image of a plan in pieces.

use crate::crc32::Crc32;
use crate::plan::{header, plan_length, put, section_header, Place, Plan};
use crate::rules::*;

/// The state of an image that is written in pieces. Any value is one.
#[derive(Clone, Copy, Debug, PartialEq, Eq)]
pub struct Writing {
    /// How many bytes of the header were written.
    pub header_written: u64,
    /// How many sections' own headers were written.
    pub sections_begun: u64,
    /// How many bytes of data the section begun last still needs.
    pub section_left: u64,
    /// How many bytes of data all sections together still need.
    pub data_left: u64,
    /// How many of `places` are used.
    pub count: u64,
    /// The sections in file order.
    pub places: [Place; MAX_SECTIONS],
    /// The image's header, with the number that begin was given in its checksum field.
    pub header: [u8; HEADER],
    /// CRC-32 over the header's first 544 bytes and the bytes written after the header, before the final inversion.
    pub checksum: u32,
}

/// What a step did.
#[derive(Clone, Copy, Debug, Default, PartialEq, Eq)]
pub struct Step {
    /// How many bytes of the data it took.
    pub taken: u64,
    /// How many bytes it wrote over the buffer's start.
    pub written: u64,
}

impl Writing {
    /// The state before the first step, with `checksum` in the checksum field, and the image's length.
    pub fn begin(plan: &Plan, checksum: u32) -> (Self, Result<usize, Refusal>) {
        let answer = plan_length(plan);
        let state = match answer {
            Ok(_) => Self::accepted(plan, checksum),
            Err(_) => Self::refused(),
        };
        (state, answer)
    }

    /// The state before the first step of an accepted plan.
    fn accepted(plan: &Plan, checksum: u32) -> Self {
        let mut header = header(plan);
        put(&mut header, CHECKSUM_AT, &checksum.to_be_bytes());
        let used = &plan.places[..usize::from(plan.count)];
        Writing {
            header_written: 0,
            sections_begun: 0,
            section_left: 0,
            data_left: used.iter().map(|place| place.length).sum(),
            count: u64::from(plan.count),
            places: plan.places,
            header,
            checksum: Crc32::new().update(&header[..CHECKSUM_AT]).remainder(),
        }
    }

    /// The state of a plan that is refused. It writes nothing.
    pub(crate) fn refused() -> Self {
        Writing {
            header_written: HEADER as u64,
            sections_begun: 0,
            section_left: 0,
            data_left: 0,
            count: 0,
            places: [Place::default(); MAX_SECTIONS],
            header: [0; HEADER],
            checksum: 0,
        }
    }

    /// Writes over the start of `out`: data, or bytes of the header, or a section's own header, or nothing.
    pub fn step(&mut self, data: &[u8], out: &mut [u8]) -> Step {
        if self.section_left != 0 {
            self.write_data(data, out)
        } else if self.header_written < HEADER as u64 {
            self.write_header(out)
        } else if self.sections_begun < self.used() && out.len() >= SECTION_HEADER {
            self.write_section_header(out)
        } else {
            Step::default()
        }
    }

    fn write_data(&mut self, data: &[u8], out: &mut [u8]) -> Step {
        let most = data.len().min(out.len()) as u64;
        let n = self.section_left.min(most);
        let bytes = &data[..n as usize];
        put(out, 0, bytes);
        self.section_left -= n;
        self.data_left = self.data_left.saturating_sub(n);
        self.add(bytes);
        Step {
            taken: n,
            written: n,
        }
    }

    fn write_header(&mut self, out: &mut [u8]) -> Step {
        let rest = &self.header[self.header_written as usize..];
        let n = rest.len().min(out.len());
        put(out, 0, &rest[..n]);
        self.header_written += n as u64;
        Step {
            taken: 0,
            written: n as u64,
        }
    }

    fn write_section_header(&mut self, out: &mut [u8]) -> Step {
        let place = self.places[self.sections_begun as usize];
        let bytes = section_header(&place);
        put(out, 0, &bytes);
        self.sections_begun += 1;
        self.section_left = place.length;
        self.add(&bytes);
        Step {
            taken: 0,
            written: SECTION_HEADER as u64,
        }
    }

    /// How many places are used.
    fn used(&self) -> u64 {
        self.count.min(MAX_SECTIONS as u64)
    }

    /// The checksum goes on over these bytes.
    fn add(&mut self, bytes: &[u8]) {
        self.checksum = Crc32::of_remainder(self.checksum).update(bytes).remainder();
    }

    /// The checksum of the image, or 15 where data is missing.
    pub fn finish(&self) -> Result<u32, Refusal> {
        if self.count == 0 || self.data_left != 0 {
            return refuse(15, 0);
        }
        let mut rest = *self;
        for place in self.sections_begun..self.used() {
            rest.add(&section_header(&self.places[place as usize]));
        }
        Ok(Crc32::of_remainder(rest.checksum).finish())
    }
}
