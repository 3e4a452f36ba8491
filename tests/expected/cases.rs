//! The single calls of vectors.bin, part by part.

mod arguments;
mod changed;
mod disorder;
mod documented;
mod frames;
mod outcomes;
mod recoveries;
mod reserved;

use crate::built;
use crate::calls::Call;
use crate::choices::{self, WHOLE};
use crate::random::Random;
use crate::runs::{self, foreseen};
use crate::tables::Geometry;
use crate::vectors::Vectors;
use arguments::{arguments, formats, unfit_tables};
use changed::single_changes;
use disorder::{damaged, disorder, large};
use documented::documented;
use frames::{about_edges, already_formatted};
use outcomes::{checkpoints, limits, outcomes, scarce_homes};
use recoveries::{scarce_frames, scattered, strikes};
use reserved::{too_few_frames, whole_saves};

/// A part: what it has, its seed, and the function that makes it. Each part draws from its own seed.
type Part = (&'static str, u64, fn(&mut Vectors));

const PARTS: [Part; 19] = [
    ("the cases that document 01 lists", 1, documented),
    ("every single change of a small table", 2, single_changes),
    ("tables without a geometry, or too short for it", 3, unfit_tables),
    ("formats", 4, formats),
    ("formats about the fewest and the most frames", 16, about_edges),
    ("tables with more frames than places", 17, already_formatted),
    ("tables with too few frames for four copies", 18, too_few_frames),
    ("nodes, items and scratch beyond the table's", 5, arguments),
    ("every outcome on tables reached and built", 6, outcomes),
    ("homes that drop a copy, no home, and no frame", 7, scarce_homes),
    ("checkpoints, call by call", 8, checkpoints),
    ("whole saves while at most one node is dead", 19, whole_saves),
    ("every limit of a list", 9, limits),
    ("recoveries from cut calls", 10, strikes),
    ("recoveries with the fewest frames", 11, scarce_frames),
    ("recoveries of entries at random", 12, scattered),
    ("damaged tables", 13, damaged),
    ("words without any order", 14, disorder),
    ("large tables", 15, large),
];

/// Makes all parts, and prints how many calls each has.
pub fn all() -> Vectors {
    let mut vectors = Vectors::new();
    for (name, seed, make) in PARTS {
        let before = vectors.tally.total();
        vectors.random = Random::new(seed);
        make(&mut vectors);
        println!("  {:5} {name}", vectors.tally.total() - before);
    }
    vectors
}

/// The most words of a table that is not among the large ones.
const SMALL: usize = 66;

// What the parts share.

fn pick<T: Copy>(random: &mut Random, choices: &[T]) -> T {
    choices[random.index(choices.len())]
}

/// A limit that may cut a list of so many stores; or a large one, whose last bits are a small one.
fn limit_near(random: &mut Random, stores: u64) -> u64 {
    match random.below(8) {
        0..=3 => WHOLE,
        4..=6 => random.below(stores + 2),
        _ => random.one_of(&[0, 256, 1 << 16, 1 << 32, (1 << 32) + 2, WHOLE - 1]),
    }
}

/// Makes a vector of a call at a limit that may cut it.
fn call_near(vectors: &mut Vectors, table: &[u64], call: Call) {
    let limit = limit_near(&mut vectors.random, foreseen(table, call).2);
    vectors.call(table, call, limit);
}

/// A table reached or built.
fn some_table(random: &mut Random) -> Vec<u64> {
    if random.percent(50) {
        runs::reached(random, SMALL)
    } else {
        built::sound(random, SMALL)
    }
}

/// No node lost, and each node of the table.
fn losses(table: &[u64]) -> Vec<Option<u64>> {
    let nodes = Geometry::of_table(table).nodes;
    std::iter::once(None).chain((0..nodes).map(Some)).collect()
}

/// One call of each kind but Format.
fn one_of_each(random: &mut Random, nodes: u64, items: u64, scratch: usize) -> [Call; 10] {
    let (node, item) = (random.below(nodes), random.below(items));
    [
        Call::Check,
        Call::Stretch { node },
        Call::Read { node, item },
        Call::Write { node, item, value: choices::any_value(random) },
        Call::Evict { node, item, place: random.below(2) },
        Call::Open,
        Call::Create,
        Call::Commit,
        Call::Abandon,
        Call::Recover { none: random.below(2), lost: node, scratch },
    ]
}
