//! Frames for four copies of every item while a point is made: tables that lack them, and saves, which rest on them.

use super::{one_of_each, some_table};
use crate::calls::Call;
use crate::choices::WHOLE;
use crate::operations::NO_GEOMETRY;
use crate::random::Random;
use crate::runs;
use crate::saves::{Save, NOTHING_LEFT};
use crate::tables::{geometry_word, Geometry};
use crate::vectors::Vectors;

// Tables with too few frames for four copies.

/// Each is laid out as any table, with frames for the two copies of every item that it has; but no call takes it.
const TOO_FEW: [(u64, u64, u64); 12] = [
    (3, 1, 1),
    (3, 2, 3),
    (3, 2, 5),
    (3, 2, 6),
    (3, 3, 10),
    (4, 2, 2),
    (4, 2, 3),
    (5, 2, 2),
    (6, 3, 2),
    (16, 18, 3),
    (16, 18, 5),
    (4, 64, 127),
];

pub fn too_few_frames(vectors: &mut Vectors) {
    for (nodes, items, frames) in TOO_FEW {
        let geometry = Geometry { nodes, items, frames: 2 * items };
        let mut table = runs::formatted(&mut vectors.random, geometry);
        table[0] = geometry_word(nodes, items, frames);
        let format = Call::Format { nodes, items, frames };
        let others = one_of_each(&mut vectors.random, nodes, items, (nodes + items) as usize);
        for call in others.into_iter().chain([format]) {
            assert_eq!(vectors.call(&table, call, WHOLE), (NO_GEOMETRY, 0, 0));
        }
    }
}

// Whole saves while at most one node is dead.

pub fn whole_saves(vectors: &mut Vectors) {
    for _ in 0..60 {
        let (table, save) = to_be_saved(&mut vectors.random);
        save_whole(vectors, table, &save);
    }
}

/// A table on which no save may be refused, with something to save.
fn to_be_saved(random: &mut Random) -> (Vec<u64>, Save) {
    loop {
        let table = some_table(random);
        match Save::of(&table) {
            Some(save) if save.dirty > 0 => return (table, save),
            _ => (),
        }
    }
}

fn save_whole(vectors: &mut Vectors, mut table: Vec<u64>, save: &Save) {
    let creates = (0..save.dirty).map(|_| (Call::Create, 0));
    let first = std::iter::once((Call::Open, 0));
    let last = [(Call::Create, NOTHING_LEFT), (Call::Commit, 0)];
    for (call, answer) in first.chain(creates).chain(last) {
        assert_eq!(vectors.step(&mut table, call, WHOLE).0, answer, "{call:?} in a save");
    }
    assert!(save.stands_in(&table), "all items are clean, with their values");
}
