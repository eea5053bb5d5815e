//! `eif signature`: what an image's signature section claims.

mod section;

use super::Command;
use crate::args::{Args, Options};
use crate::json::{self, Object};
use crate::status::{Status, Trouble};
use crate::{help, input, objects, output, words};
use eif::sign1::Claim;
use eif::{Digest, Image, Reason, Refusal, Registers, SectionType};
use section::{take_apart, Pair};
use std::ffi::OsStr;

pub const COMMAND: Command = Command {
    name: "signature",
    summary: "show what the signature section of an image claims",
    help: &[
        "\
usage: eif signature [--json] FILE..

Shows what the signature section of each image claims. NO SIGNATURE IS VERIFIED:
whoever can change an image can also write such a claim. For each signature:
    signature 0: ES384, certificate of 664 bytes
      claimed   PCR0 HEX
      computed  PCR0 HEX
      equal, not verified
or differs, not verified. PCR0, PCR1 and PCR2 are computed; a claim on another
register, as PCR8, is shown and not compared. Of a section that is not of the
published structure: where in the file, and what should stand there. Of a
COSE_Sign1 or of a file that is refused: the answer number, where, what it means
and what to do.

",
        help::JSON,
        "\n\
Exit status: 0 each image has a signature, and all that its signatures claim is
equal to what is computed; 1 one has none, or one that differs, is not compared
or is not of the form, or one image is refused; 2 one cannot be read.
",
    ],
    options: Options {
        flags: &[json::FLAG],
        values: &[],
    },
    run,
};

/// The signature section of an accepted image.
struct Section {
    index: usize,
    signatures: Result<Vec<Signature>, Fault>,
}

/// Where the section's structure is at fault in the file, and what should be there.
struct Fault {
    position: u64,
    wanted: &'static str,
}

/// One of its signatures.
struct Signature {
    certificate_length: usize,
    answer: Result<Claimed, Refusal>,
}

/// What a signature claims, and the image's own register, where it is one of those that are computed.
struct Claimed {
    claim: Claim,
    computed: Option<Digest>,
}

type Answer = Result<Option<Section>, Refusal>;

fn run(args: Args) -> Result<Status, Trouble> {
    let names = args.some_operands("FILE")?;
    let form = match args.has(json::FLAG) {
        true => object,
        false => text,
    };
    input::each(names, input::read, |input| {
        let answer = answer(&input.bytes);
        output::print(&form(&input.name, &answer))?;
        Ok(status(&answer))
    })
}

fn answer(bytes: &[u8]) -> Answer {
    let image = eif::read(bytes)?;
    let registers = eif::registers(bytes)?;
    Ok(section_of(&image, &registers))
}

fn section_of(image: &Image, registers: &Registers) -> Option<Section> {
    let mut sections = image.iter().enumerate();
    let (index, (section, data)) =
        sections.find(|(_, (section, _))| section.section_type == SectionType::SIGNATURE)?;
    let signatures = take_apart(data).map_err(|fault| Fault {
        position: section.position.0 + fault.position as u64,
        wanted: fault.wanted,
    });
    let signature = |pair: &Pair| Signature {
        certificate_length: pair.certificate.len(),
        answer: claimed(&pair.signature, registers),
    };
    Some(Section {
        index,
        signatures: signatures.map(|pairs| pairs.iter().map(signature).collect()),
    })
}

fn claimed(sign1: &[u8], registers: &Registers) -> Result<Claimed, Refusal> {
    let claim = eif::sign1::read(sign1)?.claim;
    let index = usize::try_from(claim.register_index).ok();
    let computed = index.and_then(|index| registers.0.get(index).copied());
    Ok(Claimed { claim, computed })
}

impl Claimed {
    fn is_equal(&self) -> bool {
        self.computed == Some(self.claim.register_value)
    }

    /// How the claim compares with the image.
    fn comparison(&self) -> &'static str {
        match self.computed {
            None => "not compared",
            Some(_) if self.is_equal() => "equal",
            Some(_) => "differs",
        }
    }

    fn lines(&self) -> String {
        let Claimed { claim, computed } = self;
        let register = claim.register_index;
        let computed = match computed {
            Some(value) => format!("computed  PCR{register} {value}"),
            None => format!("PCR{register} is not computed here: only PCR0, PCR1 and PCR2 are"),
        };
        format!(
            "    claimed   PCR{register} {}\n    {computed}\n    {}, not verified\n",
            claim.register_value,
            self.comparison()
        )
    }
}

/// Fine where there are signatures, and what they claim is what the image has.
fn status(answer: &Answer) -> Status {
    let equal = |signature: &Signature| signature.answer.as_ref().is_ok_and(Claimed::is_equal);
    match answer {
        Ok(Some(Section {
            signatures: Ok(signatures),
            ..
        })) if !signatures.is_empty() && signatures.iter().all(equal) => Status::Fine,
        _ => Status::Refused,
    }
}

fn text(name: &OsStr, answer: &Answer) -> Vec<u8> {
    match answer {
        Err(refusal) => words::refusal(name, refusal),
        Ok(None) => words::about(name, "no signature section\n"),
        Ok(Some(section)) => words::about(name, &section_text(section)),
    }
}

fn section_text(section: &Section) -> String {
    let index = section.index;
    match &section.signatures {
        Err(Fault { position, wanted }) => format!(
            "signature section {index} is not of the published structure: at byte {position} there \
             should be {wanted}\n  what to do: {}\n",
            Reason::NotSign1.advice()
        ),
        Ok(signatures) => {
            let count = match signatures.len() {
                1 => "1 signature".to_string(),
                count => format!("{count} signatures"),
            };
            let texts = signatures.iter().enumerate();
            let texts: String = texts.map(|(i, s)| signature_text(i, s)).collect();
            format!("signature section {index}, {count}\n{texts}")
        }
    }
}

fn signature_text(index: usize, signature: &Signature) -> String {
    match &signature.answer {
        Ok(claimed) => {
            let algorithm = claimed.claim.algorithm;
            let certificate = words::bytes(signature.certificate_length as u64);
            let lines = claimed.lines();
            format!("  signature {index}: {algorithm}, certificate of {certificate}\n{lines}")
        }
        Err(refusal) => {
            let advice = refusal.reason().advice();
            format!("  signature {index}: {refusal}\n    what to do: {advice}\n")
        }
    }
}

fn object(name: &OsStr, answer: &Answer) -> Vec<u8> {
    let object = match answer {
        Err(refusal) => objects::refused(name, refusal),
        Ok(None) => objects::on_file(name, true).put("signatures", "[]"),
        Ok(Some(section)) => {
            let object = objects::on_file(name, true).put("section", section.index);
            put_signatures(object, &section.signatures)
        }
    };
    (object.text() + "\n").into_bytes()
}

fn put_signatures(object: Object, signatures: &Result<Vec<Signature>, Fault>) -> Object {
    match signatures {
        Ok(signatures) => {
            let signatures = signatures.iter().enumerate();
            let signatures = signatures.map(|(index, one)| signature_object(index, one));
            object.put("signatures", json::list(signatures))
        }
        Err(Fault { position, wanted }) => object
            .put("position", position)
            .put("expected", json::string(wanted)),
    }
}

fn signature_object(index: usize, signature: &Signature) -> String {
    let object = Object::default()
        .put("index", index)
        .put("certificate_length", signature.certificate_length)
        .put("accepted", signature.answer.is_ok());
    let object = match &signature.answer {
        Ok(claimed) => put_claimed(object, claimed),
        Err(refusal) => object
            .put("number", refusal.number())
            .put("meaning", json::string(refusal.reason().meaning())),
    };
    object.put("verified", false).text()
}

fn put_claimed(object: Object, claimed: &Claimed) -> Object {
    let hex = |digest: &Digest| json::string(&digest.to_string());
    let Claimed { claim, computed } = claimed;
    let object = object
        .put("algorithm", json::string(claim.algorithm.name()))
        .put("register_index", claim.register_index)
        .put("register_value", hex(&claim.register_value));
    let object = match computed {
        Some(value) => object.put("computed", hex(value)),
        None => object,
    };
    object.put("comparison", json::string(claimed.comparison()))
}
