//! Images for the stricter reading: metadata that is JSON and metadata that is not.

use crate::images::{refused, Answer, ImageCase, ACCEPTED};
use crate::layout::*;
use crate::texts::nested;

/// A layout of version 4 with its metadata in the place `index`, of four.
fn layout_with(index: usize, metadata: &[u8]) -> Layout {
    let mut sections = vec![
        Section::new(1, b"k"),
        Section::new(2, b"quiet"),
        Section::new(3, b"files"),
    ];
    sections.insert(index, Section::new(5, metadata));
    Layout::new(4, sections)
}

/// Its image.
fn with_metadata(index: usize, metadata: &[u8]) -> Vec<u8> {
    layout_with(index, metadata).image()
}

/// That the metadata in this place is refused.
fn refused_at(index: usize) -> Answer {
    let offset = layout_with(index, b"").offsets()[index];
    refused(21, index, offset + SECTION_HEADER)
}

/// What the stricter reading answers.
pub fn strict_cases() -> Vec<ImageCase> {
    let mut cases = Vec::new();
    let mut case = |name, image, answer: Answer| cases.push(ImageCase::new(name, image, answer));
    let whole: &[u8] = br#"{"ImageName": "river-road", "ImageVersion": "1"}"#;
    for index in 0..4 {
        let refused = refused_at(index);
        case("metadata is JSON", with_metadata(index, whole), ACCEPTED);
        for length in 0..whole.len() {
            let image = with_metadata(index, &whole[..length]);
            case("metadata cut off", image, refused);
        }
        let image = with_metadata(index, b"river-road");
        case("no JSON at all", image, refused);
    }
    let refused = refused_at(2);
    case(
        "32 open",
        with_metadata(2, &nested(false, 32, 32)),
        ACCEPTED,
    );
    case("33 open", with_metadata(2, &nested(false, 33, 33)), refused);
    case("two texts", with_metadata(2, b"{}{}"), refused);
    case("a zero byte after it", with_metadata(2, b"{}\0"), refused);
    let other = Layout::new(
        3,
        vec![
            Section::new(1, b"{"),
            Section::new(2, b"["),
            Section::new(4, b"x"),
        ],
    );
    case("no metadata in version 3", other.image(), ACCEPTED);
    cases.extend(judged_before());
    cases
}

/// Metadata that is cut off, in images that are refused for something judged before it.
fn judged_before() -> Vec<ImageCase> {
    let mut cases = Vec::new();
    let mut case = |name, image, answer: Answer| cases.push(ImageCase::new(name, image, answer));
    let mut image = with_metadata(2, b"{");
    image[CHECKSUM_AT] ^= 1;
    let answer = refused(13, 0, CHECKSUM_AT);
    case("metadata cut off, and 13", image, answer);
    let mut image = with_metadata(2, b"{");
    image.push(0);
    put_checksum(&mut image);
    let answer = refused(20, 0, image.len() - 1);
    case("metadata cut off, and 20", image, answer);
    let mut image = with_metadata(2, b"{");
    image.truncate(image.len() - 1);
    put_checksum(&mut image);
    let answer = refused(7, 3, offset_entry(3));
    case("metadata cut off, and 7", image, answer);
    cases
}
