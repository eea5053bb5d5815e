//! A plot with two logarithmic axes, as SVG.

use std::fmt::Write;
use std::path::Path;
use std::{fs, io};

const WIDTH: f64 = 720.0;
const HEIGHT: f64 = 440.0;
const LEFT: f64 = 64.0;
const RIGHT: f64 = 200.0;
const TOP: f64 = 40.0;
const BOTTOM: f64 = 48.0;
const COLOURS: [&str; 4] = ["#0b5cad", "#c2410c", "#4d7c0f", "#7e22ce"];

/// Named points, of which both coordinates are above zero.
pub struct Curve {
    pub name: &'static str,
    pub points: Vec<(f64, f64)>,
}

/// Curves over lengths in bytes.
pub struct Plot {
    pub title: &'static str,
    pub unit: &'static str,
    pub curves: Vec<Curve>,
}

/// An axis from one power of a base to another, over so many units of the drawing.
struct Axis {
    base: f64,
    from: i32,
    to: i32,
    start: f64,
    end: f64,
}

impl Axis {
    fn over(values: impl Iterator<Item = f64>, base: f64, (start, end): (f64, f64)) -> Axis {
        let powers: Vec<f64> = values.map(|value| value.log(base)).collect();
        let low = powers.iter().copied().fold(f64::INFINITY, f64::min);
        let high = powers.iter().copied().fold(f64::NEG_INFINITY, f64::max);
        Axis {
            base,
            from: low.floor() as i32,
            to: (high.ceil() as i32).max(low.floor() as i32 + 1),
            start,
            end,
        }
    }

    fn at(&self, value: f64) -> f64 {
        let part = (value.log(self.base) - f64::from(self.from)) / f64::from(self.to - self.from);
        self.start + part * (self.end - self.start)
    }

    fn ticks(&self) -> impl Iterator<Item = f64> + '_ {
        (self.from..=self.to).map(|power| self.base.powi(power))
    }
}

/// A length in bytes, a power of four.
fn bytes(length: f64) -> String {
    match length as u64 {
        b if b >= 1 << 30 => format!("{} GiB", b >> 30),
        b if b >= 1 << 20 => format!("{} MiB", b >> 20),
        b if b >= 1 << 10 => format!("{} KiB", b >> 10),
        b => format!("{b} B"),
    }
}

impl Plot {
    pub fn write(&self, file: &Path) -> io::Result<()> {
        fs::write(file, self.svg())
    }

    fn svg(&self) -> String {
        let points = || self.curves.iter().flat_map(|curve| curve.points.iter());
        let x = Axis::over(points().map(|p| p.0), 4.0, (LEFT, WIDTH - RIGHT));
        let y = Axis::over(points().map(|p| p.1), 10.0, (HEIGHT - BOTTOM, TOP));
        let mut svg = format!(
            "<svg xmlns=\"http://www.w3.org/2000/svg\" viewBox=\"0 0 {WIDTH} {HEIGHT}\" \
             font-family=\"sans-serif\" font-size=\"12\">\n\
             <rect width=\"{WIDTH}\" height=\"{HEIGHT}\" fill=\"white\"/>\n\
             <text x=\"{LEFT}\" y=\"22\" font-size=\"15\">{}</text>\n",
            self.title
        );
        self.grid(&mut svg, &x, &y);
        for (number, curve) in self.curves.iter().enumerate() {
            draw(&mut svg, curve, COLOURS[number % COLOURS.len()], &x, &y);
        }
        self.names(&mut svg);
        svg.push_str("</svg>\n");
        svg
    }

    fn grid(&self, svg: &mut String, x: &Axis, y: &Axis) {
        let (right, bottom) = (WIDTH - RIGHT, HEIGHT - BOTTOM);
        for length in x.ticks() {
            let (at, label) = (x.at(length), bytes(length));
            let _ = writeln!(
                svg,
                "<path d=\"M{at:.1} {TOP}V{bottom}\" stroke=\"#ddd\"/>\
                 <text x=\"{at:.1}\" y=\"{:.1}\" text-anchor=\"middle\" font-size=\"10\">{label}</text>",
                bottom + 18.0
            );
        }
        for value in y.ticks() {
            let at = y.at(value);
            let _ = writeln!(
                svg,
                "<path d=\"M{LEFT} {at:.1}H{right}\" stroke=\"#ddd\"/>\
                 <text x=\"{:.1}\" y=\"{:.1}\" text-anchor=\"end\">{value}</text>",
                LEFT - 6.0,
                at + 4.0
            );
        }
        let _ = writeln!(
            svg,
            "<text x=\"{LEFT}\" y=\"{:.1}\" text-anchor=\"end\">{}</text>",
            TOP - 8.0,
            self.unit
        );
    }

    fn names(&self, svg: &mut String) {
        let shown = self.curves.iter().enumerate();
        for (number, curve) in shown.filter(|(_, curve)| !curve.points.is_empty()) {
            let (at, down) = (WIDTH - RIGHT + 16.0, TOP + 18.0 * number as f64);
            let _ = writeln!(
                svg,
                "<path d=\"M{at:.1} {down:.1}h18\" stroke=\"{}\" stroke-width=\"2\"/>\
                 <text x=\"{:.1}\" y=\"{:.1}\">{}</text>",
                COLOURS[number % COLOURS.len()],
                at + 24.0,
                down + 4.0,
                curve.name
            );
        }
    }
}

fn draw(svg: &mut String, curve: &Curve, colour: &str, x: &Axis, y: &Axis) {
    let place = |point: &(f64, f64)| format!("{:.1},{:.1}", x.at(point.0), y.at(point.1));
    let places: Vec<String> = curve.points.iter().map(place).collect();
    let _ = writeln!(
        svg,
        "<polyline points=\"{}\" fill=\"none\" stroke=\"{colour}\" stroke-width=\"2\"/>",
        places.join(" ")
    );
}
