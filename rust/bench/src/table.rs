//! Rows of a table in Markdown.

use crate::timing::Time;

/// A time.
fn seconds(seconds: f64) -> String {
    match seconds {
        s if s >= 1e-3 => format!("{:.2} ms", s * 1e3),
        s if s >= 1e-6 => format!("{:.2} µs", s * 1e6),
        s => format!("{:.0} ns", s * 1e9),
    }
}

/// A median, the least time and the quartile above the median.
pub fn cell(time: Time) -> String {
    let [median, least, high] = [time.median, time.least, time.high].map(seconds);
    format!("{median} ({least}, {high})")
}

fn digits(ratio: f64) -> String {
    let digits = match ratio.abs() {
        r if r >= 10.0 => 1,
        r if r >= 0.1 => 2,
        _ => 4,
    };
    format!("{ratio:.digits$}")
}

/// The ratio of two medians and, behind it, that of the least times.
pub fn ratio(one: Time, other: Time) -> String {
    let medians = digits(one.median / other.median);
    let least = digits(one.least / other.least);
    format!("{medians} ({least})")
}

/// A length as people say it.
pub fn length(bytes: usize) -> String {
    match bytes {
        b if b >= 1 << 30 && b % (1 << 30) == 0 => format!("{} GiB", b >> 30),
        b if b >= 1 << 20 && b % (1 << 20) == 0 => format!("{} MiB", b >> 20),
        b if b >= 1 << 10 && b % (1 << 10) == 0 => format!("{} KiB", b >> 10),
        b => b.to_string(),
    }
}

/// A line of a table.
pub fn line(cells: &[String]) {
    println!("| {} |", cells.join(" | "));
}

/// The head of a table.
pub fn columns(names: &[&str]) {
    println!();
    println!("| {} |", names.join(" | "));
    println!("|{}", "---|".repeat(names.len()));
}

/// A row: what was measured on how many bytes, the library's time, the time beside it, and the ratio.
pub fn row(call: &str, bytes: usize, (library, other): (Time, Time)) {
    line(&[
        call.to_string(),
        length(bytes),
        cell(library),
        cell(other),
        ratio(library, other),
    ]);
}

/// The head of a table whose rows are those of [`row`].
pub fn head(other: &str) {
    columns(&[
        "call",
        "bytes",
        "library",
        other,
        &format!("library / {other}"),
    ]);
}
