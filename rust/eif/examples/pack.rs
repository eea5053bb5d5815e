//! Packs an image in memory, writes its roll and reads both back: `cargo run --example pack`.

use eif::{DataLength, Place, Plan, Refusal, SectionType};

/// The plan and the joined data of an image with these sections, in this order.
fn plan_of(parts: &[(SectionType, &[u8])]) -> (Plan, Vec<u8>) {
    let place = |(section_type, data): &(SectionType, &[u8])| {
        Place::new(*section_type, DataLength(data.len() as u64))
    };
    let plan = Plan {
        version: 3,
        places: parts.iter().map(place).collect(),
        ..Plan::default()
    };
    let data: Vec<&[u8]> = parts.iter().map(|(_, data)| *data).collect();
    (plan, data.concat())
}

fn main() -> Result<(), Refusal> {
    let (plan, data) = plan_of(&[
        (SectionType::KERNEL, b"a kernel"),
        (SectionType::COMMAND_LINE, b"quiet"),
        (SectionType::RAMDISK, b"the first files"),
        (SectionType::RAMDISK, b"the files that win"),
    ]);
    let bytes = eif::write_to_vec(&plan, &data)?;
    let image = eif::read(&bytes)?;
    let roll = eif::roll_to_vec(&bytes)?;
    let records = eif::read_roll(&roll)?;
    let ramdisks = image.ramdisk_count();
    println!("an image of {} bytes with {ramdisks} ramdisks", bytes.len());
    for (record, data) in records.iter() {
        println!("{}: {} bytes", record.section_type, data.len());
    }
    Ok(())
}
