//! The cases that document 01 lists.

use super::losses;
use crate::calls::Call;
use crate::choices::WHOLE;
use crate::operations::{NO_FRAME, NO_GEOMETRY};
use crate::runs::recovery;
use crate::saves::NO_HOME;
use crate::tables::Geometry;
use crate::vectors::Vectors;

pub fn documented(vectors: &mut Vectors) {
    let mut table = vec![0; 13];
    vectors.step(&mut table, Call::Format { nodes: 3, items: 1, frames: 2 }, WHOLE);
    vectors.step(&mut table, Call::Write { node: 2, item: 0, value: 7 }, WHOLE);
    evicted_owner(vectors, table.clone());
    vectors.step(&mut table, Call::Read { node: 0, item: 0 }, WHOLE);
    vectors.step(&mut table, Call::Open, WHOLE);
    vectors.step(&mut table, Call::Create, WHOLE);
    cut_commits(vectors, &table);
    vectors.step(&mut table, Call::Commit, WHOLE);
    vectors.step(&mut table, Call::Write { node: 0, item: 0, value: 9 }, WHOLE);
    let lost = recovery(&table, Some(2));
    vectors.step(&mut table, lost, WHOLE);
    read_everywhere(vectors, &table);
    one_frame(vectors);
    fewest_frames(vectors);
}

fn read_everywhere(vectors: &mut Vectors, table: &[u64]) {
    for node in 0..3 {
        vectors.call(table, Call::Read { node, item: 0 }, WHOLE);
    }
}

fn evicted_owner(vectors: &mut Vectors, mut table: Vec<u64>) {
    vectors.step(&mut table, Call::Evict { node: 2, item: 0, place: 0 }, WHOLE);
    vectors.call(&table, Call::Check, WHOLE);
    read_everywhere(vectors, &table);
}

/// The commit cut after one store and after two, and whoever is lost then.
fn cut_commits(vectors: &mut Vectors, created: &[u64]) {
    for limit in [1, 2] {
        let mut cut = created.to_vec();
        vectors.step(&mut cut, Call::Commit, limit);
        for lost in losses(&cut) {
            let mut table = cut.clone();
            vectors.step(&mut table, recovery(&cut, lost), WHOLE);
            read_everywhere(vectors, &table);
        }
    }
}

/// A frame on each of five nodes: it takes two losses until a create finds no home.
fn one_frame(vectors: &mut Vectors) {
    let mut table = vec![0; 21];
    let mut step = |call, answer| assert_eq!(vectors.step(&mut table, call, WHOLE).0, answer, "{call:?}");
    let write = |node| Call::Write { node, item: 0, value: 7 };
    let lose = |lost| Call::Recover { none: 0, lost, scratch: 6 };
    step(Call::Format { nodes: 5, items: 1, frames: 1 }, 0);
    step(write(0), NO_FRAME);
    step(write(2), 0);
    for lost in [3, 4] {
        step(Call::Open, 0);
        step(Call::Create, 0);
        step(lose(lost), 0);
        step(write(2), 0);
    }
    step(Call::Evict { node: 2, item: 0, place: 0 }, NO_HOME);
    step(Call::Evict { node: 0, item: 0, place: 1 }, NO_HOME);
    step(Call::Open, 0);
    step(Call::Create, NO_HOME);
}

/// The fewest frames, and one less; as many frames as places, and one less.
fn fewest_frames(vectors: &mut Vectors) {
    let allowed = [(3, 1, 2), (4, 256, 512), (16, 18, 6)];
    let refused = [(3, 1, 1), (4, 256, 511), (4, 256, 256), (4, 256, 255), (16, 18, 5), (16, 18, 3), (16, 18, 2)];
    for (geometries, answer) in [(allowed.as_slice(), 0), (&refused, NO_GEOMETRY)] {
        for &(nodes, items, frames) in geometries {
            let words = Geometry { nodes, items, frames }.words();
            let said = vectors.call(&vec![0; words], Call::Format { nodes, items, frames }, WHOLE);
            assert_eq!(said.0, answer, "{nodes}, {items}, {frames}");
        }
    }
}
