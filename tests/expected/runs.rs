//! Calls on the reference, and the tables that runs of them reach.

use crate::calls::{on_reference, Call, Said};
use crate::choices::{self, WHOLE};
use crate::random::Random;
use crate::reference;
use crate::tables::{self, Geometry};

/// Answer, value and stores of a call. Where a stretch is, neither file says.
pub fn carry_out(table: &mut [u64], call: Call, scratch: &mut [u64], limit: u64) -> Said {
    let said = on_reference(call, table, scratch, limit);
    match call {
        Call::Stretch { .. } => (said.0, 0, 0),
        _ => said,
    }
}

/// Carries out a call with a scratch of its own.
pub fn run(table: &mut [u64], call: Call, limit: u64) -> Said {
    carry_out(table, call, &mut vec![0; call.scratch_length()], limit)
}

/// What the call would say, uncut.
pub fn foreseen(table: &[u64], call: Call) -> Said {
    run(&mut table.to_vec(), call, WHOLE)
}

/// A recovery with just enough scratch.
pub fn recovery(table: &[u64], lost: Option<u64>) -> Call {
    let geometry = Geometry::of_table(table);
    let scratch = (geometry.nodes + geometry.items) as usize;
    Call::Recover { none: lost.is_none() as u64, lost: lost.unwrap_or(0), scratch }
}

/// A geometry whose table has at most so many words.
pub fn geometry_within(random: &mut Random, most_words: usize) -> Geometry {
    loop {
        let geometry = tables::allowed_geometry(random);
        if geometry.words() <= most_words {
            return geometry;
        }
    }
}

/// A formatted table, perhaps with words to spare, which hold anything; a layout with more frames than places, which a
/// format refuses, is laid out.
pub fn formatted(random: &mut Random, geometry: Geometry) -> Vec<u64> {
    let words = geometry.words() + random.one_of(&[0, 0, 0, 1, 5]) as usize;
    let mut table: Vec<u64> = (0..words).map(|_| random.word()).collect();
    let Geometry { nodes, items, frames } = geometry;
    if geometry.has_unusable_frames() {
        reference::lay_out(&mut table, nodes, items, frames);
    } else {
        assert_eq!(run(&mut table, Call::Format { nodes, items, frames }, WHOLE).0, 0);
    }
    table
}

/// Recoveries that name any nodes, so that those left have few frames; three nodes or more are left.
pub fn some_losses(random: &mut Random, table: &[u64]) -> Vec<Call> {
    let nodes = Geometry::of_table(table).nodes;
    (0..random.below(nodes - 2)).map(|_| recovery(table, Some(random.below(nodes)))).collect()
}

/// A table that a run of whole calls leaves; its geometry may have changed on the way.
pub fn reached(random: &mut Random, most_words: usize) -> Vec<u64> {
    let geometry = geometry_within(random, most_words);
    let mut table = formatted(random, geometry);
    if random.percent(10) {
        tables::age(random, &mut table);
    }
    if random.percent(30) {
        for lost in some_losses(random, &table) {
            run(&mut table, lost, WHOLE);
        }
    }
    for _ in 0..random.one_of(&[0, 3, 10, 30, 60]) {
        let call = choices::likely_call(random, &table);
        run(&mut table, call, WHOLE);
    }
    table
}

/// The table with a checkpoint open and every item created that can be, where it lets that be done.
pub fn prepared(mut table: Vec<u64>) -> Vec<u64> {
    run(&mut table, Call::Open, WHOLE);
    while run(&mut table, Call::Create, WHOLE).0 == 0 {}
    table
}
