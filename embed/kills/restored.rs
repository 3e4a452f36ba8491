//! A restored table, item by item, against the plain memory.

use crate::choices::WHOLE;
use crate::library;
use crate::memory::Memory;
use crate::random::Random;
use crate::tables::{self, Geometry};

const INVALID: u64 = 0;
const SHARED_CK1: u64 = 4;
const SHARED_CK2: u64 = 5;
const NO_FRAME: u64 = 9;

pub fn live_nodes(table: &[u64]) -> Vec<u64> {
    let nodes = Geometry::of_table(table).nodes;
    (0..nodes).filter(|&node| table[1 + node as usize] != 0).collect()
}

/// The live nodes but the lost one.
pub fn survivors(table: &[u64], lost: Option<u64>) -> Vec<u64> {
    live_nodes(table).into_iter().filter(|&node| Some(node) != lost).collect()
}

/// The item that a word of the table is about, if it is about one.
pub fn item_at(table: &[u64], place: usize) -> Option<u64> {
    let geometry = Geometry::of_table(table);
    let entries = geometry.entry(0, 0)..geometry.words();
    entries.contains(&place).then(|| (place - entries.start) as u64 / 3 % geometry.items)
}

/// The live nodes with a copy of the item.
pub fn holders(table: &[u64], item: u64) -> Vec<u64> {
    let geometry = Geometry::of_table(table);
    live_nodes(table).into_iter().filter(|&node| table[geometry.entry(node, item)] != 0).collect()
}

/// The save's number in a node's mark.
pub fn number_of(table: &[u64], node: u64) -> u64 {
    table[1 + node as usize] >> 29 & tables::LARGEST_NUMBER
}

/// Too few to hold two copies of everything.
pub fn are_too_few(table: &[u64], survivors: &[u64]) -> bool {
    let Geometry { items, frames, .. } = Geometry::of_table(table);
    let left = survivors.len() as u64;
    left < 2 || (left - 1) * frames < 2 * items - 1
}

/// The survivors are live and agreed, and each item lies twice on them with its saved value, and nothing else does.
pub fn check(table: &[u64], memory: &Memory, survivors: &[u64]) -> Result<(), String> {
    if live_nodes(table) != survivors {
        return Err(format!("live nodes are {:?}, survivors {survivors:?}", live_nodes(table)));
    }
    let agreed = tables::mark(0, memory.commits());
    if let Some(node) = survivors.iter().find(|&&node| table[1 + node as usize] != agreed) {
        return Err(format!("node {node} has mark {:016x}, not {agreed:016x}", table[1 + *node as usize]));
    }
    if Geometry::of_table(table).items as usize != memory.saved().len() {
        return Err(format!("the table has {} items", Geometry::of_table(table).items));
    }
    memory.saved().iter().enumerate().try_for_each(|(item, &saved)| check_item(table, survivors, item as u64, saved))
}

fn check_item(table: &[u64], survivors: &[u64], item: u64, saved: u64) -> Result<(), String> {
    let geometry = Geometry::of_table(table);
    let mut copies = Vec::new();
    for &node in survivors {
        let at = geometry.entry(node, item);
        match table[at] {
            word if word == tables::state(INVALID, INVALID) => (),
            word => copies.push((word, table[at + 1])),
        }
    }
    copies.sort();
    let promised = [(tables::state(SHARED_CK1, INVALID), saved), (tables::state(SHARED_CK2, INVALID), saved)];
    if copies != promised {
        return Err(format!("item {item} has (state, value) {copies:x?}, saved is {saved:x}"));
    }
    Ok(())
}

/// Reads every item at a live node, through the library, on a copy of the table.
pub fn read_back(random: &mut Random, table: &[u64], memory: &Memory) -> Result<(), String> {
    let mut copy = table.to_vec();
    let live = live_nodes(table);
    for (item, &saved) in memory.saved().iter().enumerate() {
        let node = live[random.index(live.len())];
        let full = frames_used(&copy, node) == Geometry::of_table(&copy).frames;
        let (answer, value, _) = library::read(&mut copy, node, item as u64, WHOLE);
        let right = (answer == 0 && value == saved) || (answer == NO_FRAME && full);
        if !right {
            return Err(format!("read of item {item} at node {node}: answer {answer}, value {value:x}, not {saved:x}"));
        }
    }
    Ok(())
}

fn frames_used(table: &[u64], node: u64) -> u64 {
    let geometry = Geometry::of_table(table);
    let states = (0..geometry.items).map(|item| table[geometry.entry(node, item)]);
    states.map(|word| (word >> 60 != 0) as u64 + (word >> 58 & 3 != 0) as u64).sum()
}
