//! Calls on sound tables: every outcome, homes, checkpoints, limits.

use super::{call_near, losses, pick, some_table, SMALL};
use crate::built;
use crate::calls::{Call, Said};
use crate::choices::{self, WHOLE};
use crate::operations::{self, NO_FRAME};
use crate::random::Random;
use crate::runs::{self, foreseen, recovery, run};
use crate::saves::NO_HOME;
use crate::tables::{self, Geometry};
use crate::vectors::Vectors;
use std::collections::BTreeMap;

// Every outcome on tables reached and built.

pub fn outcomes(vectors: &mut Vectors) {
    for _ in 0..28 {
        let table = some_table(&mut vectors.random);
        for calls in by_outcome(&mut vectors.random, &table).values() {
            let call = pick(&mut vectors.random, calls);
            call_near(vectors, &table, call);
        }
    }
}

/// What a call does, as far as it is seen from outside: operation, place, the state that it finds at its node and item,
/// answer and stores.
type Outcome = (u64, u64, u64, u64, u64);

/// The calls that the table can be given, by their outcome.
fn by_outcome(random: &mut Random, table: &[u64]) -> BTreeMap<Outcome, Vec<Call>> {
    let mut calls: BTreeMap<Outcome, Vec<Call>> = BTreeMap::new();
    for call in every_call(random, table) {
        let (answer, _, stores) = foreseen(table, call);
        let (place, state) = met(table, &call);
        calls.entry((operations::number(&call), place, state, answer, stores)).or_default().push(call);
    }
    calls
}

/// Every call but Format, with every node, item and place of the table.
fn every_call(random: &mut Random, table: &[u64]) -> Vec<Call> {
    let Geometry { nodes, items, .. } = Geometry::of_table(table);
    let mut calls = vec![Call::Check, Call::Open, Call::Create, Call::Commit, Call::Abandon];
    for node in 0..nodes {
        calls.push(Call::Stretch { node });
        for item in 0..items {
            calls.push(Call::Read { node, item });
            calls.push(Call::Write { node, item, value: choices::any_value(random) });
            calls.push(Call::Evict { node, item, place: 0 });
            calls.push(Call::Evict { node, item, place: 1 });
        }
    }
    calls.extend(losses(table).into_iter().map(|lost| recovery(table, lost)));
    calls
}

/// The place that the call names, and the state at its node and item; 0 where it names none.
fn met(table: &[u64], call: &Call) -> (u64, u64) {
    let state = |node, item| table[Geometry::of_table(table).entry(node, item)];
    match *call {
        Call::Read { node, item } | Call::Write { node, item, .. } => (0, state(node, item)),
        Call::Evict { node, item, place } => (place, state(node, item)),
        _ => (0, 0),
    }
}

// Homes that drop a copy, no home, and no frame.

pub fn scarce_homes(vectors: &mut Vectors) {
    for _ in 0..40 {
        call_with(vectors, |call, (_, _, stores)| {
            stores == DROPPING && matches!(call, Call::Evict { .. } | Call::Create)
        });
    }
    for _ in 0..10 {
        call_with(vectors, |call, (answer, _, _)| answer == NO_HOME && matches!(call, Call::Evict { .. }));
        call_with(vectors, |call, (answer, _, _)| answer == NO_HOME && matches!(call, Call::Create));
        call_with(vectors, |_, (answer, _, _)| answer == NO_FRAME);
    }
}

/// The stores of a copy that leaves: a Shared copy dropped at its home, the value and the state there, and the state
/// that it leaves.
const DROPPING: u64 = 4;

/// Up to three calls that are wanted, on a table built for it.
fn call_with(vectors: &mut Vectors, wanted: Wanted) {
    let (table, calls) = table_with(&mut vectors.random, wanted);
    for _ in 0..calls.len().min(3) {
        let call = pick(&mut vectors.random, &calls);
        call_near(vectors, &table, call);
    }
}

/// Whether a call and what it says are wanted.
type Wanted = fn(&Call, Said) -> bool;

/// A table with calls that are wanted, and all of them.
fn table_with(random: &mut Random, wanted: Wanted) -> (Vec<u64>, Vec<Call>) {
    loop {
        let table = built::sound(random, SMALL);
        let mut calls = every_call(random, &table);
        calls.retain(|call| wanted(call, foreseen(&table, *call)));
        if !calls.is_empty() {
            return (table, calls);
        }
    }
}

// Checkpoints, call by call.

pub fn checkpoints(vectors: &mut Vectors) {
    for _ in 0..50 {
        let mut table = some_table(&mut vectors.random);
        open_late(vectors, table.clone());
        vectors.step(&mut table, Call::Open, WHOLE);
        while create_next(vectors, &mut table) {}
        vectors.call(&table, Call::Commit, WHOLE);
        vectors.call(&table, Call::Abandon, WHOLE);
    }
}

/// Opens the table with a number near the last one.
fn open_late(vectors: &mut Vectors, mut table: Vec<u64>) {
    tables::age(&mut vectors.random, &mut table);
    vectors.call(&table, Call::Open, WHOLE);
}

/// A Create that may be cut; then the table is as the whole one leaves it. Whether it was carried out.
fn create_next(vectors: &mut Vectors, table: &mut [u64]) -> bool {
    call_near(vectors, table, Call::Create);
    run(table, Call::Create, WHOLE).0 == 0
}

// Every limit of a list.

pub fn limits(vectors: &mut Vectors) {
    for _ in 0..7 {
        let table = some_table(&mut vectors.random);
        for call in storing_calls(&mut vectors.random, &table) {
            sweep(vectors, &table, call);
        }
        let created = runs::prepared(table);
        sweep(vectors, &created, Call::Commit);
        sweep(vectors, &created, Call::Abandon);
    }
}

/// For each outcome with stores, a call; but Recover only once.
pub fn storing_calls(random: &mut Random, table: &[u64]) -> Vec<Call> {
    let mut outcomes = by_outcome(random, table);
    outcomes.retain(|(_, _, _, answer, stores), _| *answer == 0 && (1..MOST_SWEPT).contains(stores));
    let chosen = outcomes.values().map(|calls| pick(random, calls));
    let (recoveries, mut others): (Vec<Call>, Vec<Call>) =
        chosen.partition(|call| matches!(call, Call::Recover { .. }));
    others.extend(recoveries.last());
    others
}

/// Lists of so many stores are not swept.
const MOST_SWEPT: u64 = 40;

pub fn sweep(vectors: &mut Vectors, table: &[u64], call: Call) {
    for limit in 0..=foreseen(table, call).2 {
        vectors.call(table, call, limit);
    }
}
