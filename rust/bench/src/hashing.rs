//! SHA-384 and registers, beside the twin and OpenSSL.

use crate::sample::{bytes, Sample};
use crate::scratch::Scratch;
use crate::table::row;
use crate::timing::{compare, times};
use eif::{Digest, Sha384, Stream, DIGEST_LENGTH};
use eif_twin as twin;
use std::fs::File;
use std::hint::black_box;
use std::io::{self, Read};
use std::path::Path;
use std::process::Command;

/// A number that stands for a digest.
pub fn first_word(digest: &[u8]) -> usize {
    usize::from_be_bytes(digest[..8].try_into().unwrap())
}

fn digest(message: &[u8]) -> Digest {
    let mut hash = Sha384::new();
    hash.update(message).expect("a message within the limit");
    hash.finish()
}

fn twin_digest(message: &[u8]) -> [u8; DIGEST_LENGTH] {
    let mut hash = twin::Sha384::new();
    hash.update(message).expect("a message within the limit");
    hash.finish()
}

/// Hashing `length` bytes that are in memory.
pub fn memory(length: usize) {
    let message = bytes(length);
    let times = compare(
        || first_word(&digest(black_box(&message)).0),
        || first_word(&twin_digest(black_box(&message))),
    );
    row("SHA-384", length, times);
}

/// The registers of an image of `length` bytes.
pub fn registers(length: usize) {
    let image = Sample::new(length).image;
    let times = compare(
        || eif::registers(black_box(&image)).map_or(0, |r| first_word(&r.0[2].0)),
        || twin::registers(black_box(&image)).map_or(0, |r| first_word(&r[2])),
    );
    row("registers", length, times);
}

/// The registers of an image of `length` bytes beside their parts: reading the image, and hashing Whole and
/// App once.
pub fn registers_beside_parts(length: usize) {
    let image = Sample::new(length).image;
    let streams = [Stream::Whole, Stream::App];
    let streams = streams.map(|stream| eif::stream_to_vec(&image, stream).expect("accepted"));
    let [registers, read, hashed] = times([
        &mut || eif::registers(black_box(&image)).map_or(0, |r| first_word(&r.0[2].0)),
        &mut || eif::read(black_box(&image)).map_or(0, |image| image.sections().len()),
        &mut || {
            let digests = streams.iter().map(|stream| digest(black_box(stream)));
            digests
                .map(|digest| first_word(&digest.0))
                .fold(0, usize::wrapping_add)
        },
    ]);
    row("registers", length, (registers, read + hashed));
}

fn file_digest(file: &Path) -> io::Result<Digest> {
    let mut file = File::open(file)?;
    let mut hash = Sha384::new();
    let mut piece = vec![0; 1 << 16];
    loop {
        match file.read(&mut piece)? {
            0 => return Ok(hash.finish()),
            length => hash.update(&piece[..length]).map_err(io::Error::other)?,
        }
    }
}

/// What OpenSSL keeps from using of the processor: all that its code for SHA-384 could use but plain
/// 64-bit words. The variable is OpenSSL's own.
const NO_SIMD: (&str, &str) = ("OPENSSL_ia32cap", "0x0:0x0");

/// What `openssl dgst -sha384` prints of a file, its digest in hexadecimal at the end.
fn openssl(file: &Path, simd: bool) -> io::Result<String> {
    let mut command = Command::new("openssl");
    command.args(["dgst", "-sha384"]).arg(file);
    if !simd {
        command.env(NO_SIMD.0, NO_SIMD.1);
    }
    let output = command.output()?;
    if !output.status.success() {
        return Err(io::Error::other("openssl dgst failed"));
    }
    Ok(String::from_utf8_lossy(&output.stdout)
        .trim_end()
        .to_string())
}

/// The digest of a file of `length` bytes beside OpenSSL's, with SIMD instructions and without.
pub fn file(length: usize) -> io::Result<()> {
    let empty = Scratch::new("empty", &[])?;
    let full = Scratch::new("full", &bytes(length))?;
    let said = openssl(full.path(), false)?;
    let digest = file_digest(full.path())?.to_string();
    assert!(
        said.ends_with(&digest),
        "OpenSSL says {said}, the library {digest}"
    );
    let call = |file: &Path, simd| openssl(file, simd).map_or(0, |said| said.len());
    let [library, start, plain, simd] = times([
        &mut || file_digest(full.path()).map_or(0, |digest| first_word(&digest.0)),
        &mut || call(empty.path(), false),
        &mut || call(full.path(), false),
        &mut || call(full.path(), true),
    ]);
    row(
        "SHA-384 of a file, OpenSSL without SIMD",
        length,
        (library, plain - start),
    );
    row(
        "SHA-384 of a file, OpenSSL as it comes",
        length,
        (library, simd - start),
    );
    Ok(())
}
