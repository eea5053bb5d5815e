//! `eif show`: what an image or a roll holds.

use super::Command;
use crate::args::{Args, Options};
use crate::content::{self, Content, Neither};
use crate::input::{self, Arrived, Keep};
use crate::json::{self, Object};
use crate::status::{Status, Trouble};
use crate::{help, objects, output, words};
use eif::json::Fault;
use eif::{Reading, Reason, Roll, RollRecord, Section, SectionType};

pub const COMMAND: Command = Command {
    name: "show",
    summary: "show what an image or a roll holds",
    help: &[
        "\
usage: eif show [--strict] [--json] FILE..

Shows each file: of an image its header fields and a row for each section in file
order (index, type, offset of the section in the file, size of its data); of a
boot roll its flags, which are record 0, and a row for each record after it
(index, type, position of its data, size). Of a
file that is refused: the answer number, the index of the section or record, the
byte at which the fault is, what the number means, what stands at that byte, and
what to do.

  --strict  refuse an image whose metadata is not one JSON text too, by 21, and say
            where in the metadata; this needs memory for the image
",
        help::JSON,
        help::ACCEPTED,
    ],
    options: Options {
        flags: &[input::STRICT, json::FLAG],
        values: &[],
    },
    run,
};

type Answer<'a> = Result<Content<'a>, Neither>;

fn run(args: Args) -> Result<Status, Trouble> {
    let names = args.some_operands("FILE")?;
    // The registers, which the objects have, are computed from the bytes.
    let (form, keep): (fn(&Arrived, &Answer) -> Vec<u8>, _) = if args.has(json::FLAG) {
        (object, Keep::All)
    } else {
        (text, Keep::Rolls)
    };
    input::each(names, input::reader(&args, keep), |arrived| {
        let answer = content::of(arrived);
        output::print(&form(arrived, &answer))?;
        Ok(answer.map_or(Status::Refused, |_| Status::Fine))
    })
}

fn text(arrived: &Arrived, answer: &Answer) -> Vec<u8> {
    let name = &arrived.name;
    match answer {
        Ok(Content::Image(image)) => words::about(name, &image_text(image)),
        Ok(Content::Roll(roll)) => words::about(name, &roll_text(roll)),
        Err(neither) => {
            let mut lines = neither.lines(name);
            if let Some(fault) = metadata_fault(arrived, neither) {
                lines.extend(format!("  in the metadata: {fault}\n").into_bytes());
            }
            lines
        }
    }
}

/// Where the metadata stops being JSON, of an image that is refused for that.
fn metadata_fault(arrived: &Arrived, neither: &Neither) -> Option<Fault> {
    if neither.image.reason() != Reason::MetadataNotJson {
        return None;
    }
    let image = eif::read(&arrived.bytes).ok()?;
    eif::json::check(image.metadata()?).err()
}

fn image_text(image: &Reading) -> String {
    let mut text = format!(
        "image\n  version       {}\n  flags         {}\n  default_mem   {}\n  default_cpus  {}\n",
        image.version(),
        words::flags(image.flags(), image.architecture()),
        image.default_mem(),
        image.default_cpus(),
    );
    text += &row("index", "type", "offset", "size");
    for (index, section) in image.sections().iter().enumerate() {
        let Section {
            section_type,
            length,
            ..
        } = section;
        text += &row(index, section_type, section.offset().0, length.0);
    }
    text
}

/// The records of a roll, each with its index. The flags record is record 0.
fn numbered<'a>(roll: &'a Roll) -> impl Iterator<Item = (usize, &'a RollRecord)> + 'a {
    (1..).zip(roll.records())
}

fn roll_text(roll: &Roll) -> String {
    let flags = words::flags(roll.flags(), roll.architecture());
    let mut text = format!("boot roll\n  flags         {flags}\n");
    text += &row("index", "type", "position", "size");
    for (index, record) in numbered(roll) {
        text += &row(
            index,
            record.section_type,
            record.position.0,
            record.length.0,
        );
    }
    text
}

fn row(
    index: impl std::fmt::Display,
    kind: impl std::fmt::Display,
    place: impl std::fmt::Display,
    size: impl std::fmt::Display,
) -> String {
    format!("  {index:>5}  {kind:12}  {place:>10}  {size:>10}\n")
}

fn object(arrived: &Arrived, answer: &Answer) -> Vec<u8> {
    let name = &arrived.name;
    let object = match answer {
        Ok(Content::Image(image)) => image_object(arrived, image),
        Ok(Content::Roll(roll)) => {
            let records = numbered(roll).map(|(index, record)| record_object(index, record));
            objects::on_file(name, true)
                .put("flags", roll.flags())
                .put("architecture", json::string(roll.architecture().name()))
                .put("records", json::list(records))
        }
        Err(neither) => {
            let refused = objects::refused(name, &neither.image);
            match metadata_fault(arrived, neither) {
                Some(fault) => refused.put("place", fault.place()),
                None => refused,
            }
        }
    };
    (object.text() + "\n").into_bytes()
}

fn image_object(arrived: &Arrived, image: &Reading) -> Object {
    let sections = image.sections().iter().enumerate();
    let sections = sections.map(|(index, section)| section_object(index, section));
    let object = objects::on_file(&arrived.name, true)
        .put("version", image.version())
        .put("flags", image.flags())
        .put("architecture", json::string(image.architecture().name()))
        .put("default_mem", image.default_mem())
        .put("default_cpus", image.default_cpus())
        .put("sections", json::list(sections));
    match eif::registers(&arrived.bytes) {
        Ok(registers) => objects::put_measurements(object, &registers),
        // These bytes were accepted, so there is no refusal.
        Err(refusal) => objects::refused(&arrived.name, &refusal),
    }
}

fn section_object(index: usize, section: &Section) -> String {
    typed_object(index, section.section_type)
        .put("flags", section.flags)
        .put("offset", section.offset().0)
        .put("position", section.position.0)
        .put("length", section.length.0)
        .text()
}

fn record_object(index: usize, record: &RollRecord) -> String {
    typed_object(index, record.section_type)
        .put("position", record.position.0)
        .put("length", record.length.0)
        .text()
}

fn typed_object(index: usize, section_type: SectionType) -> Object {
    Object::default()
        .put("index", index)
        .put("type", section_type.0)
        .put("name", json::string(&section_type.to_string()))
}
