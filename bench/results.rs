//! The measured times as text and as a drawing.

use crate::calls::{Geometry, FUNCTIONS};
use crate::day::{Sort, SORTS, TABLES};
use crate::plot;
use crate::timing::{mean, Times};
use std::fmt::Write;

/// The goal: at most so many times the Rust engine.
const GOAL: f64 = 1.1;

/// The sorts that make up an ordinary call in the plot.
const ORDINARY: [Sort; 3] = [Sort::ReadFetched, Sort::Write, Sort::Evict];

pub fn is_plotted(sort: Sort) -> bool {
    sort == Sort::LostMixed || ORDINARY.contains(&sort)
}

/// What was measured at one geometry.
pub struct Measured {
    pub geometry: Geometry,
    /// How many tables of each sort were timed in turn.
    pub tables: usize,
    pub times: Vec<(Sort, Times)>,
    /// The deepest stack of each function, where it was measured.
    pub stack: Option<[usize; FUNCTIONS.len()]>,
}

impl Measured {
    fn of(&self, sort: Sort) -> Times {
        let found = self.times.iter().find(|(timed, _)| *timed == sort);
        found.expect("the sort is timed").1
    }

    fn ordinary(&self, part: fn(&Times) -> f64) -> f64 {
        mean(ORDINARY.iter().map(|sort| part(&self.of(*sort))))
    }

    fn floor(&self) -> f64 {
        mean(self.times.iter().map(|(_, times)| times.floor))
    }

    fn size(&self) -> String {
        let Geometry { nodes, items, frames } = self.geometry;
        format!("{nodes} × {items} × {frames}")
    }

    /// The rows that the goal is for, the largest ratio first. The engine that fills the table stores in
    /// another order than document 01's.
    fn ratios(&self) -> Vec<(Sort, f64)> {
        let bound = self.times.iter().filter(|(sort, _)| *sort != Sort::FormatFilled);
        let mut ratios: Vec<(Sort, f64)> = bound.map(|(sort, times)| (*sort, times.ratio)).collect();
        ratios.sort_by(|one, other| other.1.total_cmp(&one.1));
        ratios
    }
}

fn name(sort: Sort) -> &'static str {
    SORTS[sort as usize].1
}

fn processor() -> String {
    let text = std::fs::read_to_string("/proc/cpuinfo").unwrap_or_default();
    let name = text.lines().find(|line| line.starts_with("model name")).and_then(|line| line.split_once(':'));
    name.map_or("an unnamed processor".to_string(), |(_, name)| name.trim().to_string())
}

fn library_name() -> &'static str {
    if cfg!(stand_in) {
        "stand-in"
    } else {
        "library"
    }
}

/// The tables of the geometries in full, then what is said of them together.
pub fn markdown(measured: &[&Measured]) -> String {
    let mut text = String::new();
    head(&mut text).unwrap();
    measured.iter().for_each(|one| one_geometry(&mut text, one).unwrap());
    stack(&mut text, measured).unwrap();
    summary(&mut text, measured).unwrap();
    text
}

fn head(text: &mut String) -> std::fmt::Result {
    let name = library_name();
    writeln!(text, "Nanoseconds for a whole call, on {}. The ratio is {name} to Rust.", processor())?;
    writeln!(text, "\"Floors\" is the {name}'s time as a multiple of the time to read the table once.")?;
    writeln!(text, "Each row goes over many different tables in turn.")?;
    writeln!(text, "\n{TABLES}")
}

fn one_geometry(text: &mut String, one: &Measured) -> std::fmt::Result {
    let Geometry { nodes, items, frames } = one.geometry;
    writeln!(text, "\n### {nodes} nodes × {items} items × {frames} frames\n")?;
    let (words, floor) = (one.geometry.words(), one.floor());
    writeln!(text, "{} tables in turn. Reading a table's {words} words once: {floor:.0} ns.\n", one.tables)?;
    writeln!(text, "| Call | {}, ns | Rust, ns | Ratio | Floors |\n|---|---:|---:|---:|---:|", library_name())?;
    for (sort, times) in &one.times {
        let (library, native, ratio) = (times.library, times.native, times.ratio);
        let floors = library / times.floor;
        writeln!(text, "| {} | {library:.0} | {native:.0} | {ratio:.2} | {floors:.1} |", name(*sort))?;
    }
    Ok(())
}

fn stack(text: &mut String, measured: &[&Measured]) -> std::fmt::Result {
    let depths: Vec<_> = measured.iter().filter_map(|one| Some((one.size(), one.stack?))).collect();
    writeln!(text, "\n### Deepest stack\n")?;
    writeln!(text, "Bytes of stack that a call of the {} writes to, the most of all kept calls.\n", library_name())?;
    let sizes: String = depths.iter().map(|(size, _)| format!(" {size} |")).collect();
    writeln!(text, "| Call |{sizes}\n|---|{}", "---:|".repeat(depths.len()))?;
    for (k, function) in FUNCTIONS.iter().enumerate() {
        let bytes: String = depths.iter().map(|(_, most)| format!(" {} |", most[k])).collect();
        writeln!(text, "| {function} |{bytes}")?;
    }
    Ok(())
}

fn summary(text: &mut String, measured: &[&Measured]) -> std::fmt::Result {
    writeln!(text, "\n### Largest ratios\n")?;
    writeln!(text, "Without the row \"{}\", whose engine stores in another order.\n", name(Sort::FormatFilled))?;
    writeln!(text, "| Geometry | Largest | Row | Rows over {GOAL} |\n|---|---:|---|---|")?;
    for one in measured {
        let ratios = one.ratios();
        let over: Vec<String> = ratios
            .iter()
            .filter(|(_, ratio)| *ratio > GOAL)
            .map(|(sort, ratio)| format!("{} {ratio:.2}", name(*sort)))
            .collect();
        let over = if over.is_empty() { "none".to_string() } else { over.join("; ") };
        let (sort, ratio) = ratios[0];
        writeln!(text, "| {} | {ratio:.2} | {} | {over} |", one.size(), name(sort))?;
    }
    Ok(())
}

pub fn drawing(measured: &[&Measured]) -> String {
    let axes = ("N × M (nodes × items)", "nanoseconds for a call");
    plot::svg("Time of a call against the size of the table", axes, &series(measured))
}

fn series(measured: &[&Measured]) -> Vec<plot::Series> {
    let line = |name: &str, colour, dashed, time: &dyn Fn(&Measured) -> f64| plot::Series {
        name: name.to_string(),
        colour,
        dashed,
        points: measured.iter().map(|one| ((one.geometry.nodes * one.geometry.items) as f64, time(one))).collect(),
    };
    let (library, recovery) = (library_name(), name(Sort::LostMixed));
    vec![
        line(&format!("{library}: {recovery}"), "#b2182b", false, &|one| one.of(Sort::LostMixed).library),
        line(&format!("Rust: {recovery}"), "#b2182b", true, &|one| one.of(Sort::LostMixed).native),
        line(&format!("{library}: read, write, evict"), "#2166ac", false, &|one| one.ordinary(|times| times.library)),
        line("Rust: read, write, evict", "#2166ac", true, &|one| one.ordinary(|times| times.native)),
        line("reading the table once", "#555555", false, &|one| one.floor()),
    ]
}
