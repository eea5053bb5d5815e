//! `eif pack`: an image from its parts, in the order given.

use super::Command;
use crate::args::{Args, Options};
use crate::output::{self, Output};
use crate::status::{complain, Status, Trouble};
use crate::{input, words};
use eif::{Architecture, DataLength, ImageWriter, Place, Plan, SectionType};
use std::ffi::{OsStr, OsString};
use std::io::{self, Write};
use std::os::unix::ffi::OsStringExt;

pub const COMMAND: Command = Command {
    name: "pack",
    summary: "pack an image from its parts, in the order given",
    help: &["\
usage: eif pack --kernel FILE --cmdline TEXT --ramdisk FILE [--ramdisk FILE ..]
                --output FILE [--force] [--metadata FILE] [--no-check]
                [--arch x86_64|aarch64] [--format 2|3|4]

Packs an image: kernel, command line, metadata if given, then the ramdisks in the
order in which they are named, never sorted.

  --kernel FILE     the kernel
  --cmdline TEXT    the kernel's command line, as it is
  --ramdisk FILE    a ramdisk; give it once for each
  --metadata FILE   the metadata, which format 4 must have: one JSON text
  --no-check        take the metadata as it is, JSON or not
  --arch NAME       x86_64, unless this says aarch64
  --format NUMBER   the format's version: 4 with --metadata and otherwise 3,
                    unless this says another
  --output FILE     write to FILE, whole or not at all; - is standard output
  --force           replace FILE if it exists

Exit status: 0 written, 1 refused, 2 wrong usage, input or output trouble.
"],
    options: Options {
        flags: &[output::FLAG, NO_CHECK],
        values: &[
            "--kernel",
            "--cmdline",
            "--ramdisk",
            "--metadata",
            "--arch",
            "--format",
            output::VALUE,
        ],
    },
    run,
};

const NO_CHECK: &str = "--no-check";

/// The parts as the command line names them.
struct Parts {
    kernel: OsString,
    command_line: OsString,
    ramdisks: Vec<OsString>,
    metadata: Option<OsString>,
    flags: u16,
    version: u16,
}

fn run(args: Args) -> Result<Status, Trouble> {
    args.operands([])?;
    let output_name = args.needed(output::VALUE)?;
    let parts = named_parts(&args)?;
    let output = Output::of(&args)?;
    let sections = read_sections(&parts)?;
    let plan = plan(&parts, &sections);
    let refused = |lines: &[u8]| {
        complain(lines);
        Ok(Status::Refused)
    };
    if let Err(refusal) = eif::plan_length(&plan) {
        return refused(&words::about(&output_name, &format!("{refusal}\n")));
    }
    if !args.has(NO_CHECK) {
        if let Some(lines) = metadata_fault(&parts, &sections) {
            return refused(&lines);
        }
    }
    // The parts are passed twice: the first time for the checksum, which stands before them.
    let checksum = write_image(&plan, &sections, &mut io::sink(), 0);
    let checksum = checksum.map_err(|error| Trouble::system(&output_name, error))?;
    let image = &mut |out: &mut dyn Write| write_image(&plan, &sections, out, checksum).map(|_| ());
    output.write_content(image).map(|()| Status::Fine)
}

/// Writes the image with this number in its checksum field, and answers the right one.
fn write_image(
    plan: &Plan,
    sections: &[(SectionType, Vec<u8>)],
    out: &mut dyn Write,
    checksum: u32,
) -> io::Result<u32> {
    let mut writer = ImageWriter::with_checksum(out, plan, checksum)?;
    for (_, data) in sections {
        writer.write_all(data)?;
    }
    writer.finish()
}

/// What is wrong with metadata that is no JSON text.
fn metadata_fault(parts: &Parts, sections: &[(SectionType, Vec<u8>)]) -> Option<Vec<u8>> {
    let name = parts.metadata.as_ref()?;
    let (_, metadata) = sections
        .iter()
        .find(|(kind, _)| *kind == SectionType::METADATA)?;
    let fault = eif::json::check(metadata).err()?;
    let lines = format!(
        "not one JSON text: {fault}\n  what to do: mend it; {NO_CHECK} packs it as it is\n"
    );
    Some(words::about(name, &lines))
}

fn named_parts(args: &Args) -> Result<Parts, Trouble> {
    let metadata = args.one("--metadata")?;
    let parts = Parts {
        kernel: args.needed("--kernel")?,
        command_line: args.needed("--cmdline")?,
        ramdisks: args.all("--ramdisk"),
        flags: architecture(args)?.flags(),
        version: version(args)?.unwrap_or(if metadata.is_some() { 4 } else { 3 }),
        metadata,
    };
    if parts.ramdisks.is_empty() {
        return Err(Trouble::usage("--ramdisk is missing"));
    }
    let files = [&parts.kernel].into_iter().chain(&parts.ramdisks);
    input::one_standard_input(files.chain(&parts.metadata))?;
    Ok(parts)
}

fn architecture(args: &Args) -> Result<Architecture, Trouble> {
    let Some(name) = args.one("--arch")? else {
        return Ok(Architecture::default());
    };
    let name = words::shown_text(&name);
    name.parse()
        .map_err(|_| Trouble::usage(format!("no architecture {name}: x86_64 or aarch64")))
}

/// The number given; whether there is such a format is for the library to say.
fn version(args: &Args) -> Result<Option<u16>, Trouble> {
    let Some(word) = args.one("--format")? else {
        return Ok(None);
    };
    let word = words::shown_text(&word);
    let number = word.parse().map(Some);
    number.map_err(|_| Trouble::usage(format!("--format is no number: {word}")))
}

/// The sections in the order of the image.
fn read_sections(parts: &Parts) -> Result<Vec<(SectionType, Vec<u8>)>, Trouble> {
    let file = |section_type, name: &OsStr| Ok((section_type, input::read(name)?.bytes));
    let mut sections = vec![
        file(SectionType::KERNEL, &parts.kernel)?,
        (
            SectionType::COMMAND_LINE,
            parts.command_line.clone().into_vec(),
        ),
    ];
    if let Some(name) = &parts.metadata {
        sections.push(file(SectionType::METADATA, name)?);
    }
    for name in &parts.ramdisks {
        sections.push(file(SectionType::RAMDISK, name)?);
    }
    Ok(sections)
}

fn plan(parts: &Parts, sections: &[(SectionType, Vec<u8>)]) -> Plan {
    let place = |(section_type, data): &(SectionType, Vec<u8>)| {
        Place::new(*section_type, DataLength(data.len() as u64))
    };
    Plan {
        version: parts.version,
        flags: parts.flags,
        places: sections.iter().map(place).collect(),
        ..Plan::default()
    }
}
