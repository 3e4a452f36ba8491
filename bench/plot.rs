//! Lines over logarithmic axes, as an SVG in plain text.

use std::fmt::Write;

pub struct Series {
    pub name: String,
    pub colour: &'static str,
    pub dashed: bool,
    pub points: Vec<(f64, f64)>,
}

const WIDTH: f64 = 760.0;
const HEIGHT: f64 = 480.0;
const LEFT: f64 = 80.0;
const RIGHT: f64 = 20.0;
const TOP: f64 = 40.0;
const BOTTOM: f64 = 60.0;

/// One axis: powers of `base` from `first` to `last`, over pixels from `start` to `end`.
struct Axis {
    base: f64,
    first: i32,
    last: i32,
    start: f64,
    end: f64,
}

impl Axis {
    fn over(values: impl Iterator<Item = f64>, base: f64, start: f64, end: f64) -> Axis {
        let (mut low, mut high) = (f64::INFINITY, f64::NEG_INFINITY);
        for power in values.map(|value| value.max(1.0).ln() / base.ln()) {
            low = low.min(power);
            high = high.max(power);
        }
        let first = low.floor() as i32;
        Axis { base, first, last: (high.ceil() as i32).max(first + 1), start, end }
    }

    fn place(&self, value: f64) -> f64 {
        let power = value.max(1.0).ln() / self.base.ln();
        let part = (power - self.first as f64) / (self.last - self.first) as f64;
        self.start + part * (self.end - self.start)
    }

    fn ticks(&self) -> impl Iterator<Item = f64> + '_ {
        (self.first..=self.last).map(|power| self.base.powi(power))
    }
}

fn text(out: &mut String, x: f64, y: f64, anchor: &str, words: &str) {
    writeln!(out, r#"<text x="{x:.1}" y="{y:.1}" text-anchor="{anchor}">{words}</text>"#).unwrap();
}

fn line(out: &mut String, from: (f64, f64), to: (f64, f64), colour: &str) {
    let ((x1, y1), (x2, y2)) = (from, to);
    writeln!(out, r#"<line x1="{x1:.1}" y1="{y1:.1}" x2="{x2:.1}" y2="{y2:.1}" stroke="{colour}"/>"#).unwrap();
}

fn grid(out: &mut String, across: &Axis, up: &Axis) {
    for value in across.ticks() {
        let x = across.place(value);
        line(out, (x, up.start), (x, up.end), "#dddddd");
        text(out, x, up.start + 18.0, "middle", &value.to_string());
    }
    for value in up.ticks() {
        let y = up.place(value);
        line(out, (across.start, y), (across.end, y), "#dddddd");
        text(out, across.start - 8.0, y + 4.0, "end", &value.to_string());
    }
}

fn curve(out: &mut String, across: &Axis, up: &Axis, series: &Series) {
    let dashes = if series.dashed { r#" stroke-dasharray="6 4""# } else { "" };
    let colour = series.colour;
    let places: Vec<(f64, f64)> = series.points.iter().map(|&(x, y)| (across.place(x), up.place(y))).collect();
    let corners: Vec<String> = places.iter().map(|(x, y)| format!("{x:.1},{y:.1}")).collect();
    let corners = corners.join(" ");
    writeln!(out, r#"<polyline points="{corners}" fill="none" stroke="{colour}" stroke-width="2"{dashes}/>"#).unwrap();
    for (x, y) in places {
        writeln!(out, r#"<circle cx="{x:.1}" cy="{y:.1}" r="3" fill="{colour}"/>"#).unwrap();
    }
}

fn legend(out: &mut String, across: &Axis, up: &Axis, all: &[Series]) {
    for (row, series) in all.iter().enumerate() {
        let y = up.end + 20.0 + 20.0 * row as f64;
        let x = across.start + 14.0;
        let dashes = if series.dashed { r#" stroke-dasharray="6 4""# } else { "" };
        let (end, colour) = (x + 32.0, series.colour);
        writeln!(out, r#"<line x1="{x}" y1="{y}" x2="{end}" y2="{y}" stroke="{colour}" stroke-width="2"{dashes}/>"#)
            .unwrap();
        text(out, x + 40.0, y + 4.0, "start", &series.name);
    }
}

/// The drawing; `axes` are what the axes are called, across and up.
pub fn svg(title: &str, axes: (&str, &str), all: &[Series]) -> String {
    let points = || all.iter().flat_map(|series| &series.points);
    let across = Axis::over(points().map(|point| point.0), 2.0, LEFT, WIDTH - RIGHT);
    let up = Axis::over(points().map(|point| point.1), 10.0, HEIGHT - BOTTOM, TOP);
    let mut out = String::new();
    writeln!(
        out,
        r#"<svg xmlns="http://www.w3.org/2000/svg" width="{WIDTH}" height="{HEIGHT}" viewBox="0 0 {WIDTH} {HEIGHT}" font-family="sans-serif" font-size="13">"#
    )
    .unwrap();
    writeln!(out, r#"<rect width="{WIDTH}" height="{HEIGHT}" fill="white"/>"#).unwrap();
    text(&mut out, WIDTH / 2.0, 24.0, "middle", title);
    grid(&mut out, &across, &up);
    all.iter().for_each(|series| curve(&mut out, &across, &up, series));
    legend(&mut out, &across, &up, all);
    text(&mut out, (across.start + across.end) / 2.0, HEIGHT - 16.0, "middle", axes.0);
    let middle = (up.start + up.end) / 2.0;
    writeln!(
        out,
        r#"<text x="20" y="{middle:.1}" text-anchor="middle" transform="rotate(-90 20 {middle:.1})">{}</text>"#,
        axes.1
    )
    .unwrap();
    out.push_str("</svg>\n");
    out
}
