//! The library against the tuned Rust engine: the same calls on the same buffers, by turns.
//!
//! For every geometry a random day is run, which keeps calls of each sort with the table before them
//! (`day.rs`), each of another table, and so many that a branch predictor cannot learn the tables. They
//! are timed in turn (`timing.rs`), some in each round: the buffers are filled, the calls are made by one
//! engine, the buffers are filled again, the calls are made by the other, and so on many times, the order
//! changing each time. The time of a sort is the median over the rounds, and its ratio the median of the
//! quotients of the two times of a round, which a machine that slows down for a while does not change.
//! Small tables are timed in batches, so that the clock does not weigh in.
//!
//! The floor is the time to read the table's words once. The deepest stack of each of the library's
//! functions is measured on the kept calls too (`stack.rs`).
//!
//! Usage: bench FOLDER    writes results.md and plot.svg to the folder.
//!
//! Compiled with `--cfg stand_in`, the tuned Rust engine is behind the C functions too.

mod calls;
mod day;
#[path = "../embed/differential/library.rs"]
mod library;
#[allow(dead_code)]
mod native;
mod plot;
#[allow(dead_code)]
#[path = "../embed/differential/random.rs"]
mod random;
mod results;
mod stack;
#[cfg(stand_in)]
#[allow(dead_code)]
#[path = "../embed/differential/stand_in.rs"]
mod stand_in;
mod timing;

use calls::Geometry;
use day::{Day, Kept, Sort, SORTS};
use results::Measured;
use std::time::Duration;
use timing::{Buffers, Samples, Times};

/// The sorts of a geometry are gone through so many times, so that a disturbance does not weigh on one.
const PASSES: usize = 8;
/// The time that each sort is timed for in a pass.
const BUDGET: Duration = Duration::from_millis(120);

/// The geometries in the results' tables.
const TABLED: [Geometry; 5] = [
    Geometry::roomy(4, 16),
    Geometry::roomy(8, 64),
    Geometry::roomy(16, 256),
    Geometry::scarce(7, 40, 40),
    Geometry::scarce(16, 256, 300),
];
/// Those of them that the stack is measured at: the largest.
const STACKED: [Geometry; 2] = [Geometry::roomy(16, 256), Geometry::scarce(16, 256, 300)];
const PLOTTED: [Geometry; 7] = [
    Geometry::roomy(3, 4),
    Geometry::roomy(4, 16),
    Geometry::roomy(4, 64),
    Geometry::roomy(8, 64),
    Geometry::roomy(8, 128),
    Geometry::roomy(16, 128),
    Geometry::roomy(16, 256),
];

fn compare_all(geometry: Geometry, kept: &Kept) {
    for ((_, name), kept) in SORTS.iter().zip(kept) {
        kept.iter().for_each(|kept| kept.compare(geometry, name));
    }
}

/// Of a geometry that is only plotted, the sorts that are plotted.
fn timed_sorts(geometry: Geometry) -> Vec<Sort> {
    let timed = |sort: &Sort| TABLED.contains(&geometry) || results::is_plotted(*sort);
    SORTS.iter().map(|(sort, _)| *sort).filter(timed).collect()
}

fn time(geometry: Geometry, kept: &Kept) -> Vec<(Sort, Times)> {
    let mut buffers = Buffers::new(geometry);
    let mut timed: Vec<(Sort, Samples)> =
        timed_sorts(geometry).into_iter().map(|sort| (sort, Samples::default())).collect();
    for _ in 0..PASSES {
        for (sort, samples) in &mut timed {
            samples.add(&mut buffers, &kept[*sort as usize], BUDGET);
        }
    }
    timed.into_iter().map(|(sort, samples)| (sort, samples.times())).collect()
}

fn measure(geometry: Geometry) -> Measured {
    let tables = timing::tables_in_turn(geometry);
    let kept = Day::new(geometry).run(tables);
    compare_all(geometry, &kept);
    let stack = STACKED.contains(&geometry).then(|| stack::deepest(geometry, &kept));
    Measured { geometry, tables, times: time(geometry, &kept), stack }
}

/// What was measured at these geometries, in their order.
fn chosen<'a>(measured: &'a [Measured], geometries: &[Geometry]) -> Vec<&'a Measured> {
    geometries.iter().filter_map(|geometry| measured.iter().find(|one| one.geometry == *geometry)).collect()
}

fn main() {
    let Some(folder) = std::env::args().nth(1) else {
        eprintln!("usage: bench FOLDER");
        std::process::exit(2)
    };
    let only_plotted = PLOTTED.into_iter().filter(|geometry| !TABLED.contains(geometry));
    let measured: Vec<Measured> = TABLED.into_iter().chain(only_plotted).map(measure).collect();
    let table = results::markdown(&chosen(&measured, &TABLED));
    print!("{table}");
    let written = std::fs::write(format!("{folder}/results.md"), &table)
        .and_then(|()| std::fs::write(format!("{folder}/plot.svg"), results::drawing(&chosen(&measured, &PLOTTED))));
    if let Err(error) = written {
        eprintln!("the results could not be written to {folder}: {error}");
        std::process::exit(1);
    }
}
