//! Recoveries: from cut calls, with the fewest frames, of entries at random.

use super::outcomes::{storing_calls, sweep};
use super::{call_near, losses, pick, some_table, SMALL};
use crate::calls::Call;
use crate::choices::WHOLE;
use crate::random::Random;
use crate::runs::{self, foreseen, recovery, run};
use crate::tables::{self, Geometry};
use crate::vectors::Vectors;

// Recoveries from cut calls.

pub fn strikes(vectors: &mut Vectors) {
    for _ in 0..8 {
        let table = some_table(&mut vectors.random);
        for call in storing_calls(&mut vectors.random, &table) {
            strike(vectors, &table, call);
        }
        let created = runs::prepared(table);
        for _ in 0..3 {
            strike(vectors, &created, Call::Commit);
        }
    }
}

/// Cuts the call at each limit, and recovers from each cut.
fn strike(vectors: &mut Vectors, table: &[u64], call: Call) {
    for limit in 0..=foreseen(table, call).2 {
        let mut cut = table.to_vec();
        run(&mut cut, call, limit);
        recover_from(vectors, cut);
    }
}

/// Somebody is lost or nobody, and the lost node's words may hold anything; the recovery may be broken off.
fn recover_from(vectors: &mut Vectors, mut table: Vec<u64>) {
    let lost = pick(&mut vectors.random, &losses(&table));
    if let (Some(node), true) = (lost, vectors.random.percent(60)) {
        tables::hit(&mut vectors.random, &mut table, node);
    }
    call_near(vectors, &table, recovery(&table, lost));
}

// Recoveries with the fewest frames.

pub fn scarce_frames(vectors: &mut Vectors) {
    for _ in 0..40 {
        let table = clean_and_tight(&mut vectors.random);
        recover_from(vectors, table.clone());
        recover_from(vectors, table);
    }
}

/// A clean table with the fewest frames, its copies moved about before each loss of a node.
fn clean_and_tight(random: &mut Random) -> Vec<u64> {
    let (nodes, items) = (random.between(4, 7), random.between(2, 4));
    let frames = tables::fewest_frames(nodes, items);
    let mut table = runs::formatted(random, Geometry { nodes, items, frames });
    for _ in 0..random.between(1, nodes - 2) {
        for _ in 0..12 {
            let (node, item) = (random.below(nodes), random.below(items));
            run(&mut table, Call::Evict { node, item, place: 0 }, WHOLE);
        }
        let lost = recovery(&table, Some(random.below(nodes)));
        run(&mut table, lost, WHOLE);
    }
    table
}

// Recoveries of entries at random.

/// How many recoveries are made for each answer: 0 carried out, 2 not in form, 14 too few survivors, 15 no copy.
const SCATTERED: [(u64, u64); 4] = [(0, 180), (2, 20), (14, 40), (15, 60)];

pub fn scattered(vectors: &mut Vectors) {
    for (wanted, count) in SCATTERED {
        for _ in 0..count {
            let (table, call) = scattered_with(&mut vectors.random, wanted);
            call_near(vectors, &table, call);
        }
    }
    for _ in 0..12 {
        let (table, call) = longest_of_ten(&mut vectors.random);
        sweep(vectors, &table, call);
    }
}

/// Of ten recoveries that are carried out, the one that stores most.
fn longest_of_ten(random: &mut Random) -> (Vec<u64>, Call) {
    let ten = (0..10).map(|_| scattered_with(random, 0));
    ten.max_by_key(|(table, call)| foreseen(table, *call).2).expect("ten recoveries")
}

/// A table of arbitrary entries and a recovery that gives this answer.
fn scattered_with(random: &mut Random, wanted: u64) -> (Vec<u64>, Call) {
    loop {
        let geometry = runs::geometry_within(random, SMALL);
        let mut table = runs::formatted(random, geometry);
        tables::scatter(random, &mut table);
        let dying = random.one_of(&[10, 10, 50]);
        for node in 0..geometry.nodes as usize {
            if random.percent(dying) {
                table[1 + node] = 0;
            }
        }
        let lost = pick(random, &losses(&table));
        let call = recovery(&table, lost);
        if foreseen(&table, call).0 == wanted {
            return (table, call);
        }
    }
}
