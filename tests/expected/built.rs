//! Sound tables built entry by entry.

use crate::choices;
use crate::random::Random;
use crate::reference;
use crate::runs::geometry_within;
use crate::tables::{self, Geometry, LARGEST_NUMBER};

/// A table as hardly any run leaves it: copies on any nodes, some nodes dead.
pub fn sound(random: &mut Random, most_words: usize) -> Vec<u64> {
    loop {
        let geometry = geometry_within(random, most_words);
        if let Some(table) = Builder::new(random, geometry).build() {
            assert_eq!(reference::check(&table), 0, "a table built to be sound");
            return table;
        }
    }
}

const SHARED: u64 = 1;
const OWNER: u64 = 2;
const MODIFIED: u64 = 3;
const SHARED_CK: [u64; 2] = [4, 5];
const PRECOMMIT: [u64; 2] = [6, 7];
const INV_CK: [u64; 2] = [1, 2];

struct Builder<'a> {
    random: &'a mut Random,
    geometry: Geometry,
    live: Vec<u64>,
    creating: bool,
    /// Of a hundred nodes that may share an item, how many do.
    sharing: u64,
    table: Vec<u64>,
    used: Vec<u64>,
}

impl Builder<'_> {
    fn new(random: &mut Random, geometry: Geometry) -> Builder<'_> {
        let dying = random.one_of(&[0, 0, 10, 30, 50]);
        let live = (0..geometry.nodes).filter(|_| !random.percent(dying)).collect();
        let creating = random.percent(40);
        let sharing = random.one_of(&[0, 30, 100]);
        let table = (0..geometry.words()).map(|_| random.word()).collect();
        Builder { random, geometry, live, creating, sharing, table, used: vec![0; geometry.nodes as usize] }
    }

    /// Nothing where copies find no frame.
    fn build(mut self) -> Option<Vec<u64>> {
        let Geometry { nodes, items, frames } = self.geometry;
        self.table[0] = tables::geometry_word(nodes, items, frames);
        self.put_marks();
        for item in 0..items {
            self.empty(item);
            match self.random.below(if self.creating { 4 } else { 3 }) {
                0 => self.clean(item)?,
                1 => self.modified(item)?,
                2 => self.owned(item)?,
                _ => self.created(item)?,
            }
        }
        Some(self.table)
    }

    fn put_marks(&mut self) {
        let last = if self.creating { LARGEST_NUMBER - 1 } else { LARGEST_NUMBER };
        let number = self.random.one_of(&[0, 1, 1 << 31, last - 1, last]);
        for node in 0..self.geometry.nodes {
            let is_live = self.live.contains(&node);
            self.table[1 + node as usize] = if is_live { tables::mark(self.creating as u64, number) } else { 0 };
        }
    }

    /// Both places of the live nodes' entries become Invalid; their values hold anything, as the dead nodes' words do.
    fn empty(&mut self, item: u64) {
        for &node in &self.live {
            self.table[self.geometry.entry(node, item)] = 0;
        }
    }

    /// A live node with a free frame whose place, found by its offset in the entry, is Invalid.
    fn room(&mut self, item: u64, place: Place) -> Option<u64> {
        let free = |node: &&u64| {
            let state = self.table[self.geometry.entry(**node, item)];
            self.used[**node as usize] < self.geometry.frames && place.code(state) == 0
        };
        let nodes: Vec<u64> = self.live.iter().filter(free).copied().collect();
        (!nodes.is_empty()).then(|| nodes[self.random.index(nodes.len())])
    }

    fn put(&mut self, node: u64, item: u64, place: Place, code: u64, value: u64) {
        let at = self.geometry.entry(node, item);
        self.table[at] |= place.state(code);
        self.table[at + place.offset()] = value;
        self.used[node as usize] += 1;
    }

    fn put_somewhere(&mut self, item: u64, place: Place, code: u64, value: u64) -> Option<()> {
        let node = self.room(item, place)?;
        self.put(node, item, place, code, value);
        Some(())
    }

    fn share(&mut self, item: u64, value: u64) {
        for node in self.live.clone() {
            let empty = Place::Current.code(self.table[self.geometry.entry(node, item)]) == 0;
            let has_frame = self.used[node as usize] < self.geometry.frames;
            if empty && has_frame && self.random.percent(self.sharing) {
                self.put(node, item, Place::Current, SHARED, value);
            }
        }
    }

    fn put_pair(&mut self, item: u64, place: Place, codes: [u64; 2], value: u64) -> Option<()> {
        self.put_somewhere(item, place, codes[0], value)?;
        self.put_somewhere(item, place, codes[1], value)
    }

    fn clean(&mut self, item: u64) -> Option<()> {
        let value = choices::any_value(self.random);
        self.put_pair(item, Place::Current, SHARED_CK, value)?;
        self.share(item, value);
        Some(())
    }

    fn keep(&mut self, item: u64) -> Option<()> {
        let value = choices::any_value(self.random);
        self.put_pair(item, Place::Kept, INV_CK, value)
    }

    fn modified(&mut self, item: u64) -> Option<()> {
        self.keep(item)?;
        let value = choices::any_value(self.random);
        self.put_somewhere(item, Place::Current, MODIFIED, value)
    }

    fn owned(&mut self, item: u64) -> Option<()> {
        self.keep(item)?;
        let value = choices::any_value(self.random);
        self.put_somewhere(item, Place::Current, OWNER, value)?;
        self.share(item, value);
        Some(())
    }

    fn created(&mut self, item: u64) -> Option<()> {
        self.keep(item)?;
        let value = choices::any_value(self.random);
        self.put_pair(item, Place::Current, PRECOMMIT, value)?;
        self.share(item, value);
        Some(())
    }
}

#[derive(Clone, Copy)]
enum Place {
    Current,
    Kept,
}

impl Place {
    /// The place's code in a state word.
    fn code(self, state: u64) -> u64 {
        match self {
            Place::Current => state >> 60,
            Place::Kept => state >> 58 & 3,
        }
    }

    /// A state word with this code in the place.
    fn state(self, code: u64) -> u64 {
        match self {
            Place::Current => tables::state(code, 0),
            Place::Kept => tables::state(0, code),
        }
    }

    /// Where the entry has the place's value.
    fn offset(self) -> usize {
        match self {
            Place::Current => 1,
            Place::Kept => 2,
        }
    }
}
