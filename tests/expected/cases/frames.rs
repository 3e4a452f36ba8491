//! The fewest frames and the most. A node has two places for each item: a format with more frames is refused, and a
//! table that has them already goes on working.

use super::arguments::any_words;
use super::{limit_near, losses, pick};
use crate::calls::Call;
use crate::choices::WHOLE;
use crate::operations::TOO_MANY_FRAMES;
use crate::runs::{self, foreseen, recovery};
use crate::tables::{self, Geometry};
use crate::vectors::Vectors;
use std::collections::BTreeSet;

// Formats about the fewest and the most frames.

pub fn about_edges(vectors: &mut Vectors) {
    for (nodes, items) in [(3, 1), (3, 2), (3, 5), (4, 2), (5, 1), (5, 3), (6, 2), (16, 3), (16, 4)] {
        let enough = tables::enough_frames(nodes, items);
        let edges = [enough - 1, enough, enough + 1, 2 * items - 1, 2 * items, 2 * items + 1, 511, 512, 513];
        for frames in BTreeSet::from(edges) {
            format_on_each(vectors, Geometry { nodes, items, frames });
        }
    }
    for (items, frames) in [(128, 511), (129, 512), (255, 510), (256, 511), (256, 512), (256, 513)] {
        format_on_each(vectors, Geometry { nodes: 3, items, frames });
    }
}

/// On slices too short, just long enough and longer, which hold anything.
fn format_on_each(vectors: &mut Vectors, geometry: Geometry) {
    let Geometry { nodes, items, frames } = geometry;
    let call = Call::Format { nodes, items, frames };
    let words = geometry.words();
    for length in [0, 1, words - 1, words, words + 2] {
        let table = any_words(&mut vectors.random, length);
        let limit = limit_near(&mut vectors.random, foreseen(&table, call).2);
        vectors.call(&table, call, limit);
    }
}

// Tables with more frames than places.

pub fn already_formatted(vectors: &mut Vectors) {
    for (nodes, items, frames) in [(3, 1, 3), (3, 1, 512), (3, 2, 7), (4, 2, 9), (5, 3, 40)] {
        let geometry = Geometry { nodes, items, frames };
        assert!(geometry.has_unusable_frames());
        let table = runs::formatted(&mut vectors.random, geometry);
        every_call(vectors, &table);
        let written = write_all(vectors, table);
        every_call(vectors, &written);
        save_and_lose(vectors, written);
    }
}

/// Every call with every node, item and place, Format too, which alone is refused for the frames.
fn every_call(vectors: &mut Vectors, table: &[u64]) {
    let Geometry { nodes, items, frames } = Geometry::of_table(table);
    let again = vectors.call(table, Call::Format { nodes, items, frames }, WHOLE);
    assert_eq!(again, (TOO_MANY_FRAMES, 0, 0));
    assert_eq!(vectors.call(table, Call::Check, WHOLE).0, 0);
    for node in 0..nodes {
        assert_eq!(vectors.call(table, Call::Stretch { node }, WHOLE).0, 0);
        for item in 0..items {
            let value = vectors.random.word();
            assert_eq!(vectors.call(table, Call::Read { node, item }, WHOLE).0, 0, "there is a frame for every place");
            assert_eq!(vectors.call(table, Call::Write { node, item, value }, WHOLE).0, 0);
            vectors.call(table, Call::Evict { node, item, place: 0 }, WHOLE);
            vectors.call(table, Call::Evict { node, item, place: 1 }, WHOLE);
        }
    }
    for call in [Call::Open, Call::Create, Call::Commit, Call::Abandon] {
        vectors.call(table, call, WHOLE);
    }
    for lost in losses(table) {
        vectors.call(table, recovery(table, lost), WHOLE);
    }
}

fn write_all(vectors: &mut Vectors, mut table: Vec<u64>) -> Vec<u64> {
    let Geometry { nodes, items, .. } = Geometry::of_table(&table);
    for item in 0..items {
        let node = vectors.random.below(nodes);
        vectors.step(&mut table, Call::Write { node, item, value: 100 + item }, WHOLE);
    }
    table
}

/// A save, and the strikes in which its commit is cut at every store, whoever is lost; then the save stands, a node is
/// lost, and the table goes on.
fn save_and_lose(vectors: &mut Vectors, mut table: Vec<u64>) {
    vectors.step(&mut table, Call::Open, WHOLE);
    while vectors.step(&mut table, Call::Create, WHOLE).0 == 0 {}
    vectors.call(&table, Call::Abandon, WHOLE);
    for limit in 0..=foreseen(&table, Call::Commit).2 {
        let mut cut = table.clone();
        vectors.step(&mut cut, Call::Commit, limit);
        let lost = pick(&mut vectors.random, &losses(&cut));
        struck(vectors, cut, lost);
    }
    assert_eq!(vectors.step(&mut table, Call::Commit, WHOLE).0, 0);
    let lost = recovery(&table, Some(1));
    assert_eq!(vectors.step(&mut table, lost, WHOLE).0, 0);
    let item = vectors.random.below(Geometry::of_table(&table).items);
    assert_eq!(vectors.step(&mut table, Call::Write { node: 2, item, value: 7 }, WHOLE).0, 0);
    assert_eq!(vectors.step(&mut table, Call::Read { node: 0, item }, WHOLE).1, 7);
}

/// The lost node's words hold anything; a recovery that is cut, and a whole one.
fn struck(vectors: &mut Vectors, mut table: Vec<u64>, lost: Option<u64>) {
    if let Some(node) = lost {
        tables::hit(&mut vectors.random, &mut table, node);
    }
    let call = recovery(&table, lost);
    let stores = foreseen(&table, call).2;
    let limit = pick(&mut vectors.random, &[1, stores / 2, stores.saturating_sub(1)]);
    vectors.step(&mut table, call, limit);
    assert_eq!(vectors.step(&mut table, call, WHOLE).0, 0, "one node of three or more is lost");
    let item = vectors.random.below(Geometry::of_table(&table).items);
    let node = if lost == Some(0) { 1 } else { 0 };
    vectors.call(&table, Call::Read { node, item }, WHOLE);
}
