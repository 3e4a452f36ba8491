//! Damaged tables, words without any order, and large tables.

use super::{pick, some_table};
use crate::calls::Call;
use crate::choices::{self, WHOLE};
use crate::random::Random;
use crate::runs::{self, recovery, run};
use crate::tables::{self, Geometry};
use crate::vectors::{has_vector, Vectors, MOST_WORDS};

// Damaged tables.

pub fn damaged(vectors: &mut Vectors) {
    for _ in 0..350 {
        let mut table = some_table(&mut vectors.random);
        tables::damage(&mut vectors.random, &mut table);
        let call = any_call(&mut vectors.random, &table);
        let limit = choices::any_limit(&mut vectors.random);
        vectors.call(&table, call, limit);
    }
}

/// Any call that a vector can be made of.
fn any_call(random: &mut Random, table: &[u64]) -> Call {
    loop {
        let call = choices::any_call(random, table);
        if has_vector(&call) {
            return call;
        }
    }
}

// Words without any order.

pub fn disorder(vectors: &mut Vectors) {
    for _ in 0..100 {
        let table = tables::noise(&mut vectors.random);
        let call = any_call(&mut vectors.random, &table);
        let limit = choices::any_limit(&mut vectors.random);
        vectors.call(&table, call, limit);
    }
}

// Large tables.

pub fn large(vectors: &mut Vectors) {
    for (nodes, items, frames) in [(16, 166, 48), (3, 256, 512), (16, 40, 80), (6, 60, 60)] {
        let geometry = Geometry { nodes, items, frames };
        assert!(geometry.words() + 5 <= MOST_WORDS);
        large_run(vectors, geometry);
    }
}

/// The last calls of a run: a whole checkpoint, cut, and a recovery from it.
fn large_run(vectors: &mut Vectors, geometry: Geometry) {
    let mut table = runs::formatted(&mut vectors.random, geometry);
    for _ in 0..150 {
        let node = vectors.random.below(geometry.nodes);
        let item = vectors.random.below(geometry.items);
        let value = vectors.random.word();
        let call = pick(&mut vectors.random, &[Call::Read { node, item }, Call::Write { node, item, value }]);
        run(&mut table, call, WHOLE);
    }
    vectors.call(&table, Call::Check, WHOLE);
    let mut created = runs::prepared(table);
    vectors.step(&mut created, Call::Commit, 130);
    let lost = vectors.random.below(geometry.nodes);
    vectors.call(&created, recovery(&created, Some(lost)), WHOLE);
}
