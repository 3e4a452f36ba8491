//! Random calls, with arguments that suit a table or that do not.

use crate::calls::Call;
use crate::random::Random;
use crate::tables::{self, Geometry};

/// A limit that no list of stores reaches.
pub const WHOLE: u64 = u64::MAX;

const RUNNING: u64 = 0;
const CREATING: u64 = 1;

/// A limit that may cut the call off.
pub fn any_limit(random: &mut Random) -> u64 {
    match random.below(8) {
        0..=1 => WHOLE,
        2..=4 => random.below(6),
        5..=6 => random.below(40),
        _ => random.one_of(&[0, 1, 1 << 16, 1 << 32, WHOLE - 1]),
    }
}

/// Often a small one, so that values meet again.
pub fn any_value(random: &mut Random) -> u64 {
    if random.percent(50) {
        random.below(4)
    } else {
        random.word()
    }
}

/// A node, mostly one that the table has.
fn any_node(random: &mut Random, table: &[u64]) -> u64 {
    let nodes = Geometry::of_table(table).nodes;
    match random.below(10) {
        0 => random.one_of(&[nodes, nodes + 1, 16, 255, 1 << 32, u64::MAX]),
        _ => random.below(nodes.max(1)),
    }
}

/// An item, mostly one that the table has.
fn any_item(random: &mut Random, table: &[u64]) -> u64 {
    let items = Geometry::of_table(table).items;
    match random.below(10) {
        0 => random.one_of(&[items, items + 1, 256, 1 << 32, u64::MAX]),
        _ => random.below(items.max(1)),
    }
}

/// A recovery with any scratch.
pub fn recovery(random: &mut Random, table: &[u64]) -> Call {
    let geometry = Geometry::of_table(table);
    let enough = (geometry.nodes + geometry.items) as usize;
    let scratch = match random.below(12) {
        0 => enough.saturating_sub(1),
        1 => random.index(enough + 1),
        2..=4 => enough + random.index(9),
        _ => enough,
    };
    let none = if random.percent(2) { random.one_of(&[2, 3, 1 << 32, u64::MAX]) } else { random.percent(40) as u64 };
    Call::Recover { none, lost: any_node(random, table), scratch }
}

fn eviction(random: &mut Random, table: &[u64]) -> Call {
    let place = if random.percent(3) { random.one_of(&[2, 3, 1 << 32, u64::MAX]) } else { random.below(2) };
    Call::Evict { node: any_node(random, table), item: any_item(random, table), place }
}

fn formatting(random: &mut Random) -> Call {
    let geometry = match random.below(4) {
        0 => tables::allowed_geometry(random).usable(),
        1 => tables::allowed_geometry(random),
        2 => tables::edge_geometry(random),
        _ => tables::any_geometry(random),
    };
    Call::Format { nodes: geometry.nodes, items: geometry.items, frames: geometry.frames }
}

/// Any call with any arguments.
pub fn any_call(random: &mut Random, table: &[u64]) -> Call {
    match random.below(20) {
        0 => {
            let geometry = tables::any_geometry(random);
            Call::Words { nodes: geometry.nodes, items: geometry.items }
        }
        1 => Call::Check,
        2 => Call::Stretch { node: any_node(random, table) },
        3 => formatting(random),
        4..=5 => Call::Read { node: any_node(random, table), item: any_item(random, table) },
        6..=7 => Call::Write { node: any_node(random, table), item: any_item(random, table), value: any_value(random) },
        8..=9 => eviction(random, table),
        10 => Call::Open,
        11..=12 => Call::Create,
        13 => Call::Commit,
        14 => Call::Abandon,
        _ => recovery(random, table),
    }
}

/// A node and an item; if it can be found soon, ones whose copy suits.
fn look_for(random: &mut Random, table: &[u64], suits: impl Fn(u64) -> bool) -> (u64, u64) {
    let geometry = Geometry::of_table(table);
    let mut found = (0, 0);
    for _ in 0..8 {
        found = (random.below(geometry.nodes), random.below(geometry.items));
        if suits(table[geometry.entry(found.0, found.1)]) {
            break;
        }
    }
    found
}

/// A call that a table between checkpoints will mostly carry out.
fn running_call(random: &mut Random, table: &[u64]) -> Call {
    match random.below(100) {
        0..=34 => {
            let (node, item) = look_for(random, table, |word| word >> 60 == 0);
            Call::Read { node, item }
        }
        35..=59 => {
            let (node, item) = look_for(random, table, |_| true);
            Call::Write { node, item, value: any_value(random) }
        }
        60..=72 => {
            let (node, item) = look_for(random, table, |word| word >> 60 > 1);
            Call::Evict { node, item, place: 0 }
        }
        73..=82 => {
            let (node, item) = look_for(random, table, |word| word >> 58 & 3 != 0);
            Call::Evict { node, item, place: 1 }
        }
        83..=92 => Call::Open,
        _ => any_call(random, table),
    }
}

/// A call that a table with an open checkpoint will mostly carry out.
fn creating_call(random: &mut Random, table: &[u64]) -> Call {
    match random.below(100) {
        0..=64 => Call::Create,
        65..=84 => Call::Commit,
        85..=89 => Call::Abandon,
        _ => any_call(random, table),
    }
}

/// A call that the table will mostly carry out.
pub fn likely_call(random: &mut Random, table: &[u64]) -> Call {
    let geometry = Geometry::of_table(table);
    let marks = &table[1..=geometry.nodes as usize];
    let phase = marks.iter().find(|mark| **mark != 0).map_or(RUNNING, |mark| mark >> 61 & 3);
    if phase == CREATING {
        creating_call(random, table)
    } else {
        running_call(random, table)
    }
}
