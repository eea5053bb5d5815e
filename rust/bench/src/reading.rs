//! Reading an image, by its length: beside the twin, and beside the checksum alone of other libraries.

use crate::foreign::Checksum;
use crate::plot::{Curve, Plot};
use crate::sample::Sample;
use crate::table;
use crate::timing::{times, Time};
use eif_twin as twin;
use std::hint::black_box;
use std::io;
use std::path::Path;

/// The names of those that are measured, in the order of [`measure`].
const NAMES: [&str; 4] = [
    "library",
    "twin",
    "zlib's crc32 alone",
    "libdeflate's crc32 alone",
];

/// The times of one length; those of a library that is not there are missing.
struct Measured {
    length: usize,
    times: [Option<Time>; 4],
}

fn measure(length: usize, others: [Option<Checksum>; 2]) -> Measured {
    let image = Sample::new(length).image;
    let wanted = twin::Crc32::new().update(&image).finish();
    for other in others.into_iter().flatten() {
        assert_eq!(other.of(&image), wanted, "one checksum");
    }
    let alone =
        |other: Option<Checksum>| other.map_or(0, |crc32| crc32.of(black_box(&image)) as usize);
    let [library, twin, zlib, libdeflate] = times([
        &mut || eif::read(black_box(&image)).map_or(0, |image| image.sections().len()),
        &mut || twin::read(black_box(&image)).map_or(0, |reading| reading.sections.len()),
        &mut || alone(others[0]),
        &mut || alone(others[1]),
    ]);
    Measured {
        length,
        times: [
            Some(library),
            Some(twin),
            others[0].map(|_| zlib),
            others[1].map(|_| libdeflate),
        ],
    }
}

fn line(measured: &Measured) {
    let [Some(library), Some(twin), ..] = measured.times else {
        return;
    };
    let beside = |other: Option<Time>| match other {
        Some(other) => [table::cell(other), table::ratio(other, library)],
        None => ["not here".to_string(), "-".to_string()],
    };
    let mut cells = vec![
        table::length(measured.length),
        table::cell(library),
        format!("{:.2}", gigabytes(measured.length, library)),
        table::cell(twin),
        table::ratio(twin, library),
    ];
    cells.extend(beside(measured.times[2]));
    cells.extend(beside(measured.times[3]));
    table::line(&cells);
}

/// 10^9 bytes a second.
fn gigabytes(length: usize, time: Time) -> f64 {
    length as f64 / time.median / 1e9
}

/// Reads images of each length, prints a table, and draws throughput and time by length.
pub fn by_length(lengths: &[usize], folder: &Path) -> io::Result<()> {
    let others = [Checksum::zlib(), Checksum::libdeflate()];
    table::columns(&[
        "bytes",
        "library",
        "GB/s",
        "twin",
        "twin / library",
        NAMES[2],
        "zlib / library",
        NAMES[3],
        "libdeflate / library",
    ]);
    let measured: Vec<Measured> = lengths
        .iter()
        .map(|&length| measure(length, others))
        .collect();
    measured.iter().for_each(line);
    println!();
    println!("{}", growth(&measured));
    draw(&measured, folder)
}

/// How time grows with length, in a sentence: the power that fits best.
fn growth(measured: &[Measured]) -> String {
    let long = measured
        .iter()
        .filter(|measured| measured.length >= 1 << 20);
    let points: Vec<(f64, f64)> = long
        .filter_map(|measured| {
            let time = measured.times[0]?;
            Some(((measured.length as f64).ln(), time.median.ln()))
        })
        .collect();
    let count = points.len() as f64;
    let mean = |of: fn(&(f64, f64)) -> f64| points.iter().map(of).sum::<f64>() / count;
    let (x, y) = (mean(|point| point.0), mean(|point| point.1));
    let above: f64 = points
        .iter()
        .map(|point| (point.0 - x) * (point.1 - y))
        .sum();
    let below: f64 = points.iter().map(|point| (point.0 - x).powi(2)).sum();
    format!(
        "From 1 MiB on the library's time grows as the length to the power {:.2}; a straight line has 1.",
        above / below
    )
}

fn draw(measured: &[Measured], folder: &Path) -> io::Result<()> {
    let curves = |value: fn(usize, Time) -> f64| {
        let curve = |at: usize| Curve {
            name: NAMES[at],
            points: measured
                .iter()
                .filter_map(|m| Some((m.length as f64, value(m.length, m.times[at]?))))
                .collect(),
        };
        (0..NAMES.len()).map(curve).collect()
    };
    let throughput = Plot {
        title: "Reading an image: throughput by its length",
        unit: "GB/s",
        curves: curves(gigabytes),
    };
    let time = Plot {
        title: "Reading an image: time by its length",
        unit: "ms",
        curves: curves(|_, time| time.median * 1e3),
    };
    throughput.write(&folder.join("throughput.svg"))?;
    time.write(&folder.join("time.svg"))
}
