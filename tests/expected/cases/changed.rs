//! Every single change of a small table.

use super::{one_of_each, pick};
use crate::calls::Call;
use crate::choices::WHOLE;
use crate::runs::run;
use crate::tables::{mark, state, Geometry, LARGEST_NUMBER};
use crate::vectors::Vectors;

pub fn single_changes(vectors: &mut Vectors) {
    for table in small_tables() {
        for changed in changes(&table).into_iter().chain(remarked(&table)) {
            check_twice(vectors, &changed);
        }
    }
    let table = small_table(&[]);
    for bit in 0..64 {
        check_twice(vectors, &with_word(&table, 0, table[0] ^ 1 << bit));
    }
}

/// Two calls on a table of one item: a recovery, and another that checks the table.
fn check_twice(vectors: &mut Vectors, table: &[u64]) {
    let nodes = (table.len() as u64 - 1) / 4;
    let [check, _, others @ .., recover] = one_of_each(&mut vectors.random, nodes, 1, nodes as usize + 1);
    let other = if vectors.random.percent(40) { check } else { pick(&mut vectors.random, &others) };
    vectors.call(table, other, WHOLE);
    vectors.call(table, recover, WHOLE);
}

/// One item. On three nodes: owned and shared by one or by all, dirty and created in an open checkpoint, modified
/// beside a dead node. On five nodes with a frame each: clean and shared; modified, with two nodes dead and no frame
/// left.
fn small_tables() -> [Vec<u64>; 7] {
    let write = Call::Write { node: 2, item: 0, value: 7 };
    let read = |node| Call::Read { node, item: 0 };
    let lose = |lost| Call::Recover { none: 0, lost, scratch: 6 };
    [
        small_table(&[write, read(0)]),
        small_table(&[write, read(0), read(1)]),
        small_table(&[write, Call::Open]),
        small_table(&[write, read(0), read(1), Call::Open, Call::Create]),
        small_table(&[lose(1), write]),
        tight_table(&[read(2)]),
        tight_table(&[lose(3), lose(4), write]),
    ]
}

/// Three nodes, with as many frames as places.
pub fn small_table(calls: &[Call]) -> Vec<u64> {
    table_of(Geometry { nodes: 3, items: 1, frames: 2 }, calls)
}

/// Five nodes, with a frame each.
fn tight_table(calls: &[Call]) -> Vec<u64> {
    table_of(Geometry { nodes: 5, items: 1, frames: 1 }, calls)
}

fn table_of(geometry: Geometry, calls: &[Call]) -> Vec<u64> {
    let Geometry { nodes, items, frames } = geometry;
    let mut table = vec![0; geometry.words()];
    for &call in [Call::Format { nodes, items, frames }].iter().chain(calls) {
        assert_eq!(run(&mut table, call, WHOLE).0, 0);
    }
    level(&mut table);
    table
}

/// The places of the nodes' entries for the only item.
fn entries_of(table: &[u64]) -> Vec<usize> {
    let geometry = Geometry::of_table(table);
    (0..geometry.nodes).map(|node| geometry.entry(node, 0)).collect()
}

/// Gives Invalid places, whose values are free, the values that the item has: a state that is changed then decides
/// alone whether the table is sound.
fn level(table: &mut [u64]) {
    let entries = entries_of(table);
    let has_current = |entry: &&usize| table[**entry] >> 60 != 0;
    let has_kept = |entry: &&usize| table[**entry] >> 58 & 3 != 0;
    let value = entries.iter().find(has_current).map_or(0, |entry| table[entry + 1]);
    let kept_value = entries.iter().find(has_kept).map_or(value, |entry| table[entry + 2]);
    for entry in entries {
        if table[entry] >> 60 == 0 {
            table[entry + 1] = value;
        }
        if table[entry] >> 58 & 3 == 0 {
            table[entry + 2] = kept_value;
        }
    }
}

/// The table with one word changed: another mark, another state, one bit of a value.
fn changes(table: &[u64]) -> Vec<Vec<u64>> {
    let mut words: Vec<(usize, u64)> = Vec::new();
    let entries = entries_of(table);
    for node in 1..=entries.len() {
        words.extend(marks_for(table[node]).into_iter().map(|mark| (node, mark)));
    }
    for entry in entries {
        words.extend(states_for(table[entry]).into_iter().map(|state| (entry, state)));
        for bit in [0, 32, 63] {
            words.extend([entry + 1, entry + 2].map(|place| (place, table[place] ^ 1 << bit)));
        }
    }
    let differ = words.into_iter().filter(|&(place, word)| table[place] != word);
    differ.map(|(place, word)| with_word(table, place, word)).collect()
}

pub fn with_word(table: &[u64], place: usize, word: u64) -> Vec<u64> {
    let mut changed = table.to_vec();
    changed[place] = word;
    changed
}

/// Dead, without its live bit, each phase, other numbers, bits after the last field.
fn marks_for(old: u64) -> Vec<u64> {
    let (phase, number) = (old >> 61 & 3, old >> 29 & LARGEST_NUMBER);
    let mut marks: Vec<u64> = (0..4).map(|phase| mark(phase, number)).collect();
    marks.extend([mark(phase, number + 1), mark(phase, LARGEST_NUMBER)]);
    marks.extend([0, 1, old ^ 1 << 63, old | 1, old | 1 << 28]);
    marks
}

/// The table with the same phase and number on every live mark.
fn remarked(table: &[u64]) -> Vec<Vec<u64>> {
    let numbers = [1, LARGEST_NUMBER - 1, LARGEST_NUMBER];
    let marks = (0..4).flat_map(|phase| numbers.map(|number| mark(phase, number)));
    let with_mark = |mark| {
        let mut changed = table.to_vec();
        changed[1..=entries_of(table).len()].iter_mut().filter(|word| **word != 0).for_each(|word| *word = mark);
        changed
    };
    marks.map(with_mark).collect()
}

/// Every pair of codes, codes that no place has, bits after the last field.
fn states_for(old: u64) -> Vec<u64> {
    let pairs = (0..8).flat_map(|current| (0..4).map(move |kept| state(current, kept)));
    pairs.chain([state(8, 0), state(15, 3), old | 1, old | 1 << 57]).collect()
}
