//! Whole saves: while at most one node is dead, every step of one is carried out.

use crate::reference;
use crate::tables::{self, Geometry, LARGEST_NUMBER};

// The answers of a create that is not carried out.
pub const NO_HOME: u64 = 11;
pub const NOTHING_LEFT: u64 = 17;

/// Whether a create gave an answer on this table that it never gives: no home, though at most one node is dead, or
/// though a node has a frame for every place.
pub fn lacks_home(answer: u64, table: &[u64]) -> bool {
    let Geometry { items, frames, .. } = Geometry::of_table(table);
    answer == NO_HOME && (tables::dead_nodes(table) <= 1 || frames >= 2 * items)
}

const INVALID: u64 = 0;
const SHARED: u64 = 1;
const OWNER: u64 = 2;
const MODIFIED: u64 = 3;
const SHARED_CK1: u64 = 4;
const SHARED_CK2: u64 = 5;

/// What a save has to do with a table.
pub struct Save {
    /// The items written since the last save: so many are created.
    pub dirty: u64,
    /// Every item's value.
    values: Vec<u64>,
    /// The marks after the save.
    marks: Vec<u64>,
}

impl Save {
    /// Of a sound table; nothing where a save may be refused: with a checkpoint open, with the last number, or with
    /// two or more nodes dead.
    pub fn of(table: &[u64]) -> Option<Save> {
        if reference::check(table) != 0 || tables::dead_nodes(table) > 1 {
            return None;
        }
        let geometry = Geometry::of_table(table);
        let marks = &table[1..=geometry.nodes as usize];
        let mark = *marks.iter().find(|mark| **mark != 0)?;
        let number = mark >> 29 & LARGEST_NUMBER;
        if mark != tables::mark(0, number) || number == LARGEST_NUMBER {
            return None;
        }
        let saved = |old: &u64| if *old == 0 { 0 } else { tables::mark(0, number + 1) };
        let owners = (0..geometry.items).map(|item| owner_of(table, item));
        let (codes, values): (Vec<u64>, Vec<u64>) = owners.unzip();
        let dirty = codes.iter().filter(|code| **code != SHARED_CK1).count() as u64;
        Some(Save { dirty, values, marks: marks.iter().map(saved).collect() })
    }

    /// Whether the table is as the save must leave it: its marks, and every item clean, with its value.
    pub fn stands_in(&self, table: &[u64]) -> bool {
        let is_clean = |(item, value): (usize, &u64)| is_clean(table, item as u64, *value);
        table[1..=self.marks.len()] == self.marks && self.values.iter().enumerate().all(is_clean)
    }
}

/// The state words and current values of the item on the live nodes.
fn copies(table: &[u64], item: u64) -> impl Iterator<Item = (u64, u64)> + '_ {
    let geometry = Geometry::of_table(table);
    let live = (0..geometry.nodes).filter(|node| table[1 + *node as usize] != 0);
    live.map(move |node| geometry.entry(node, item)).map(|at| (table[at], table[at + 1]))
}

/// The current place's code and value where the item is owned, or its first recovery copy.
fn owner_of(table: &[u64], item: u64) -> (u64, u64) {
    let mut places = copies(table, item).map(|(state, value)| (state >> 60, value));
    let owner = places.find(|(code, _)| [OWNER, MODIFIED, SHARED_CK1].contains(code));
    owner.expect("a sound item has an owner or is clean")
}

/// One Shared-CK1 and one Shared-CK2, the others Shared or Invalid, all with this value, nothing kept.
fn is_clean(table: &[u64], item: u64, value: u64) -> bool {
    let number_of = |code| copies(table, item).filter(|copy| *copy == (tables::state(code, INVALID), value)).count();
    let empty = copies(table, item).filter(|(state, _)| *state == tables::state(INVALID, INVALID)).count();
    let (first, second) = (number_of(SHARED_CK1), number_of(SHARED_CK2));
    first == 1 && second == 1 && first + second + number_of(SHARED) + empty == copies(table, item).count()
}
