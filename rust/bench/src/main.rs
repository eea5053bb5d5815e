//! The speed of the proved library beside the twin's, and beside zlib, libdeflate, OpenSSL and, for JSON texts,
//! common programs where the machine has them: tables in Markdown, and plots.
//!
//! All that stand in one row are called on the same inputs in one run, in turn, and the one that goes first
//! changes from round to round. The word `checksum`, `writing` or `json` on the command line measures that alone.

mod arriving;
mod checksum;
mod foreign;
mod hashing;
mod images;
mod json;
mod pieces;
mod plot;
mod reading;
mod sample;
mod scratch;
mod table;
mod timing;
mod writing;

use eif_cases::{HEADER, SHORTEST};
use std::path::PathBuf;
use std::process::Command;
use std::{env, fs, io};

/// The machine, as the kernel describes it.
fn machine() -> String {
    let text = fs::read_to_string("/proc/cpuinfo").unwrap_or_default();
    let field = |name: &str| {
        let line = text.lines().find(|line| line.starts_with(name));
        let value = line.and_then(|line| line.split_once(':'));
        value.map_or("unknown", |(_, value)| value.trim())
    };
    let processors = text.lines().filter(|line| line.starts_with("processor"));
    let load = fs::read_to_string("/proc/loadavg").unwrap_or_default();
    format!(
        "{} (family {}, model {}), {} processors, {} MHz, cache {}; load average at the start {}",
        field("model name"),
        field("cpu family"),
        field("model\t"),
        processors.count(),
        field("cpu MHz"),
        field("cache size"),
        load.split(' ').next().unwrap_or("unknown"),
    )
}

const KIB: usize = 1 << 10;
const MIB: usize = 1 << 20;

/// The longest image where BENCH_LARGE is set, which takes minutes and 6 GiB.
fn longest() -> Option<usize> {
    let large = env::var_os("BENCH_LARGE").is_some_and(|value| !value.is_empty());
    large.then_some(eif::MAX_IMAGE_LENGTH)
}

/// The lengths of the images that every call is measured on.
fn lengths() -> Vec<usize> {
    let usual = [MIB, 16 * MIB, 64 * MIB].into_iter();
    usual.chain(longest()).collect()
}

/// The lengths of the images that are read.
fn reading_lengths() -> Vec<usize> {
    let short = [
        SHORTEST,
        KIB,
        2 * KIB,
        4 * KIB,
        16 * KIB,
        64 * KIB,
        256 * KIB,
    ];
    let long = [MIB, 4 * MIB, 16 * MIB, 64 * MIB];
    short.into_iter().chain(long).chain(longest()).collect()
}

fn main() -> io::Result<()> {
    let folder = PathBuf::from(env::var_os("BENCH_PLOTS").unwrap_or_else(|| ".".into()));
    fs::create_dir_all(&folder)?;
    println!("Machine: {}.", machine());
    let asked_for = |part: &str| env::args().any(|word| word == part);
    if asked_for("checksum") {
        checksum_alone();
        return Ok(());
    }
    if asked_for("writing") {
        writing_in_pieces();
        return Ok(());
    }
    if asked_for("json") {
        texts_beside_twin();
        texts_beside_programs();
        return Ok(());
    }
    println!();
    println!(
        "{} rounds, {} where a call takes longer than half a second; all built for release. A time is the median over the rounds; behind it\n\
         stand the least and the upper quartile. A ratio is that of the medians, and behind it that of the least times. The twin computes the\n\
         checksum by a table of 256 entries, SHA-384 by the standard's loops, and for the registers hashes all three streams. Each has an output\n\
         buffer of its own, which its first, untimed call fills and which is not cleared between calls; inputs are the same bytes in the same\n\
         place, in the caches as the call before left them.",
        timing::ROUNDS,
        timing::FEW_ROUNDS,
    );
    println!();
    println!("Reading an image, beside the checksum alone of other libraries over as many bytes.");
    reading::by_length(&reading_lengths(), &folder)?;
    checksum_alone();
    arriving_in_pieces();
    writing_in_pieces();
    copying();
    hashing_beside_twin();
    pieces_beside_rereading();
    registers_beside_parts();
    files_beside_openssl();
    texts_beside_twin();
    texts_beside_programs();
    Ok(())
}

fn checksum_alone() {
    println!();
    println!(
        "The checksum alone: what feeding a slice to an arriving image takes, past the headers that it keeps, less feeding \
         it nothing."
    );
    let [short, long] = [[8, 64, 200, HEADER], [4 * KIB, 16 * KIB, 64 * KIB, MIB]];
    checksum::by_length(&[&short[..], &long, &[16 * MIB]].concat());
}

fn texts_beside_twin() {
    println!();
    println!("JSON texts of four kinds. The twin's checker is a recursive descent.");
    table::head("twin");
    for length in [MIB, 16 * MIB] {
        json::beside_twin(length);
    }
}

fn texts_beside_programs() {
    for (program, words) in json::PROGRAMS {
        println!();
        println!(
            "A file of JSON records, read and checked, beside `{program} {}`, which also keeps the values, \
             less that command's time on a file of two bytes.",
            words.join(" ")
        );
        table::head(program);
        for length in [MIB, 16 * MIB] {
            if let Err(error) = json::beside_program(program, words, length) {
                println!("It is not compared: {error}.");
                break;
            }
        }
    }
}

fn arriving_in_pieces() {
    println!();
    println!(
        "An image that arrives in pieces, read and measured, beside the same calls on the whole image. Each piece is handed \
         over where it lies; none is copied."
    );
    arriving::head();
    for length in lengths() {
        arriving::measure(length);
    }
}

fn writing_in_pieces() {
    println!();
    println!(
        "An image that is written in pieces, beside the call that writes it whole from all its data. {}",
        writing::memory()
    );
    table::head("write");
    for length in lengths() {
        writing::measure(length);
    }
}

fn copying() {
    println!();
    println!(
        "Calls that read an image, or take its checksum, and copy. Without the reading is the call's time less that of reading the image,\n\
         and stands beside a plain copy (`copy_from_slice`) of as many bytes."
    );
    images::head();
    for length in lengths() {
        images::measure(length);
    }
    table::head("plain copy");
    for length in lengths() {
        images::copy_alone(length);
    }
}

fn hashing_beside_twin() {
    println!();
    println!("Registers, SHA-384, streams by pieces from one reading, and rolls, beside the twin.");
    table::head("twin");
    for length in lengths() {
        hashing::registers(length);
        pieces::beside_twin(length);
        images::roll(length);
    }
    for length in [MIB, 64 * MIB] {
        hashing::memory(length);
    }
}

fn pieces_beside_rereading() {
    println!();
    println!(
        "The stream Whole copied in pieces of 64 KiB: from one reading of the image, which is \
         counted, beside a reading for each piece; {} rounds.",
        pieces::ROUNDS
    );
    table::head("re-reading");
    for length in [MIB, 16 * MIB] {
        pieces::beside_rereading(length);
    }
}

fn registers_beside_parts() {
    println!();
    println!(
        "The three registers beside their parts: the library's reading of the image, and its \
         SHA-384 of the streams Whole and App, each hashed once."
    );
    table::head("parts");
    for length in [MIB, 16 * MIB] {
        hashing::registers_beside_parts(length);
    }
}

fn files_beside_openssl() {
    println!();
    let version = match Command::new("openssl").arg("version").output() {
        Ok(output) => String::from_utf8_lossy(&output.stdout).to_string(),
        Err(error) => {
            println!("OpenSSL is not compared: the command openssl does not run ({error}).");
            return;
        }
    };
    let version = version.split(" (").next().unwrap_or_default().trim();
    println!(
        "SHA-384 of a file: the library, handed pieces of 64 KiB, beside `openssl dgst -sha384` \
         ({version}), less that command's time on an empty file."
    );
    table::head("OpenSSL");
    for length in [MIB, 64 * MIB] {
        if let Err(error) = hashing::file(length) {
            println!("A file of {length} bytes could not be measured: {error}.");
        }
    }
}
