//! Arguments and tables that are refused for their size, and formats.

use super::changed::{small_table, with_word};
use super::{call_near, one_of_each, pick, SMALL};
use crate::calls::Call;
use crate::choices::WHOLE;
use crate::random::Random;
use crate::runs;
use crate::tables::{self, geometry_word, Geometry};
use crate::vectors::Vectors;

// Tables without a geometry, or too short for it.

pub fn unfit_tables(vectors: &mut Vectors) {
    let table = small_table(&[]);
    for word in unfit_words(table[0]) {
        every_kind(vectors, &with_word(&table, 0, word));
    }
    for length in [0, 1, 3, 4, 12, 13] {
        every_kind(vectors, &table[..length]);
    }
    let wider = runs::formatted(&mut Random::new(0), Geometry { nodes: 4, items: 2, frames: 4 });
    every_kind(vectors, &wider[..28]);
}

fn every_kind(vectors: &mut Vectors, table: &[u64]) {
    for call in one_of_each(&mut vectors.random, 3, 1, 272) {
        call_near(vectors, table, call);
    }
}

/// First words out of form, and of geometries that are not allowed.
fn unfit_words(good: u64) -> Vec<u64> {
    let geometries = [
        (0, 0, 0),
        (2, 1, 2),
        (17, 1, 2),
        (31, 1, 2),
        (3, 0, 2),
        (4, 257, 512),
        (3, 511, 1023),
        (3, 1, 0),
        (3, 1, 513),
        (3, 1, 1),
        (3, 2, 2),
        (3, 2, 5),
        (3, 256, 511),
        (4, 256, 511),
        (16, 18, 5),
    ];
    let words = geometries.map(|(nodes, items, frames)| geometry_word(nodes, items, frames));
    words.into_iter().chain([good | 1, good | 1 << 35, good | 1 << 60, good | 1 << 63, u64::MAX]).collect()
}

// Formats.

pub fn formats(vectors: &mut Vectors) {
    for (nodes, items, frames) in geometries_one_off() {
        format_on(vectors, Geometry { nodes, items, frames }, 22);
    }
    for _ in 0..70 {
        let geometry = runs::geometry_within(&mut vectors.random, SMALL);
        let words = geometry.words();
        let length = pick(&mut vectors.random, &[0, 1, words - 1, words, words, words, words + 1, words + 7]);
        format_on(vectors, geometry, length);
    }
    for _ in 0..40 {
        let geometry = tables::any_geometry(&mut vectors.random);
        let length = vectors.random.index(40);
        format_on(vectors, geometry, length);
    }
    for limit in 0..15 {
        let table = any_words(&mut vectors.random, 14);
        vectors.call(&table, Call::Format { nodes: 3, items: 1, frames: 2 }, limit);
    }
}

fn format_on(vectors: &mut Vectors, geometry: Geometry, length: usize) {
    let Geometry { nodes, items, frames } = geometry;
    let table = any_words(&mut vectors.random, length);
    call_near(vectors, &table, Call::Format { nodes, items, frames });
}

pub fn any_words(random: &mut Random, count: usize) -> Vec<u64> {
    (0..count).map(|_| random.word()).collect()
}

/// Geometries that mostly differ from 3, 1, 2 in one number: at the limits, or in bits that no word of a table has.
fn geometries_one_off() -> Vec<(u64, u64, u64)> {
    let high = [5, 8, 9, 10, 16, 32, 63].map(|bit| 1 << bit);
    let nodes = [0, 1, 2, 4, 5, 16, 17].into_iter().chain(high.map(|bit| bit + 3));
    let items = [0, 2, 256, 257].into_iter().chain(high.map(|bit| bit + 1));
    let frames = [0, 1, 3, 511, 512, 513].into_iter().chain(high.map(|bit| bit + 2));
    let mut geometries: Vec<(u64, u64, u64)> = nodes.map(|nodes| (nodes, 1, 2)).collect();
    geometries.extend(items.map(|items| (3, items, 2)));
    geometries.extend(frames.map(|frames| (3, 1, frames)));
    geometries.extend([(4, 257, 512), (4, 256, 513), (u64::MAX, u64::MAX, u64::MAX)]);
    geometries
}

// Nodes, items and scratch beyond the table's.

pub fn arguments(vectors: &mut Vectors) {
    for table in addressed_tables() {
        let Geometry { nodes, items, .. } = Geometry::of_table(&table);
        for node in beyond(nodes) {
            call_at(vectors, &table, node, 0);
            let scratch = pick(&mut vectors.random, &[0, 272]);
            vectors.call(&table, Call::Stretch { node }, WHOLE);
            vectors.call(&table, Call::Recover { none: 0, lost: node, scratch }, WHOLE);
            vectors.call(&table, Call::Recover { none: 1, lost: node, scratch }, WHOLE);
        }
        for item in beyond(items) {
            let node = vectors.random.below(nodes);
            call_at(vectors, &table, node, item);
        }
        call_at(vectors, &table, nodes, items);
        for node in 0..nodes {
            vectors.call(&table, Call::Stretch { node }, WHOLE);
        }
        call_at(vectors, &table, 1, 0);
        scratches(vectors, &table);
    }
}

/// Node 1 is dead: running, with a checkpoint open, and with a state out of form.
fn addressed_tables() -> [Vec<u64>; 3] {
    let write = Call::Write { node: 2, item: 0, value: 5 };
    let lose = Call::Recover { none: 0, lost: 1, scratch: 4 };
    let running = small_table(&[lose, write]);
    let open = small_table(&[lose, write, Call::Open]);
    let out_of_form = with_word(&running, 4, running[4] | 1);
    [running, open, out_of_form]
}

/// Numbers from this one on; many have small numbers in their last bits.
fn beyond(count: u64) -> [u64; 10] {
    [count, count + 1, 16, 256, 1 << 16, (1 << 16) + 1, 1 << 32, (1 << 32) + 2, 1 << 63, u64::MAX]
}

fn call_at(vectors: &mut Vectors, table: &[u64], node: u64, item: u64) {
    vectors.call(table, Call::Read { node, item }, WHOLE);
    vectors.call(table, Call::Write { node, item, value: 3 }, WHOLE);
    vectors.call(table, Call::Evict { node, item, place: 0 }, WHOLE);
    vectors.call(table, Call::Evict { node, item, place: 1 }, WHOLE);
}

/// Scratch of every length about enough.
fn scratches(vectors: &mut Vectors, table: &[u64]) {
    let Geometry { nodes, items, .. } = Geometry::of_table(table);
    let enough = (nodes + items) as usize;
    for scratch in [0, 1, nodes as usize, enough - 1, enough, enough + 1, 300] {
        let (none, lost) = (vectors.random.below(2), vectors.random.below(nodes));
        vectors.call(table, Call::Recover { none, lost, scratch }, WHOLE);
    }
}
