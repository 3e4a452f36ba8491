//! Holds the layout of the wrapper to the library and to the second engine's own tables, for every
//! number of nodes and items: places, owners, the fields of every kind of word; and, with every number
//! of frames, whether it is allowed.

#[allow(dead_code)]
mod linkspan;
#[allow(dead_code)]
#[path = "../differential/random.rs"]
mod random;
#[allow(dead_code)]
#[path = "../differential/tables.rs"]
mod tables;

use linkspan::layout::{self, Current, Kept, Phase};
use linkspan::{Answer, Refusal, Table};
use tables::{Geometry, LARGEST_NUMBER};

const MOST_WORDS: usize = 1 + 16 + 3 * 16 * 256;

/// How many comparisons were made; the first that fails ends the program.
struct Compared(u64);

impl Compared {
    fn same<T: PartialEq + std::fmt::Debug>(&mut self, what: &str, found: T, expected: T) {
        self.0 += 1;
        assert!(found == expected, "{what}: {found:?}, not {expected:?}");
    }

    fn geometry(&mut self, Geometry { nodes, items, frames }: Geometry) {
        let word = tables::geometry_word(nodes, items, frames);
        let found = (layout::nodes_in(word), layout::items_in(word), layout::frames_in(word));
        self.same("the numbers in word 0", found, (nodes, items, frames));
    }

    /// The rows and the entries by the second engine's tables, the rows by the library too.
    fn places(&mut self, geometry: Geometry, table: &Table) {
        let Geometry { nodes, items, .. } = geometry;
        for node in 0..nodes {
            let row = layout::row(nodes, items, node);
            let stretch = table.stretch(node).expect("the node has a stretch");
            self.same("a row by the library", table.words()[row.clone()].as_ptr_range(), stretch.as_ptr_range());
            self.same("words of a row", row.len(), layout::row_words(items));
            for item in 0..items {
                self.same("an entry", layout::entry_at(nodes, items, node, item), geometry.entry(node, item));
            }
        }
        self.same("the end", layout::row(nodes, items, nodes - 1).end, geometry.words());
        self.same("the end by the library", linkspan::words(nodes, items), Some(geometry.words()));
    }

    /// A format that is lent no words, and a table of word 0 alone: the frames are judged before the length.
    fn frames(&mut self, Geometry { nodes, items, frames }: Geometry) {
        let allowed = tables::allowed_frames(nodes, items, frames) == frames;
        let refusal = if allowed { Refusal::TooShort } else { Refusal::NoGeometry };
        let too_many = allowed && frames > 2 * items;
        let of_format = if too_many { Refusal::TooManyFrames } else { refusal };
        let formatted = Table::new(&mut []).format(nodes, items, frames);
        self.same("a format without words", formatted, Answer::Refused(of_format));
        let mut word = [tables::geometry_word(nodes, items, frames)];
        self.same("a check of word 0", Table::new(&mut word).check(), Err(refusal));
        self.same("a recovery of word 0", Table::new(&mut word).recover(None, &mut [0]), Answer::Refused(refusal));
    }

    fn owners(&mut self, geometry: Geometry) {
        let Geometry { nodes, items, .. } = geometry;
        let owner = |place| layout::owner_of(nodes, items, place);
        self.same("the owner of word 0", owner(layout::GEOMETRY_AT), None);
        for node in 0..nodes {
            self.same("the owner of a mark", owner(layout::mark_at(node)), Some(node));
            for place in geometry.entry(node, 0)..geometry.entry(node, items) {
                self.same("the owner of a word of a row", owner(place), Some(node));
            }
        }
    }

    fn marks(&mut self) {
        for phase in [Phase::Running, Phase::Creating, Phase::Committing] {
            for number in [0, 1, 1 << 31, LARGEST_NUMBER] {
                let mark = tables::mark(phase as u64, number);
                self.same("a live mark", layout::mark_live(mark), true);
                self.same("a mark's phase", layout::mark_phase(mark), phase as u64);
                self.same("a mark's number", layout::mark_number(mark), number);
            }
        }
        self.same("a dead node's mark", layout::mark_live(0), false);
    }

    fn states(&mut self) {
        for current in 0..16 {
            for kept in 0..4 {
                let state = tables::state(current, kept);
                let found = (layout::current_in(state), layout::kept_in(state));
                self.same("the places of a state word", found, (current, kept));
            }
        }
    }

    /// Item 0's entry on the node, in a table of 3 nodes and 1 item.
    fn entry(&mut self, table: &Table, node: u64, current: Current, kept: Kept) {
        let state = table.words()[layout::entry_at(3, 1, node, 0) + layout::STATE];
        let found = (layout::current_in(state), layout::kept_in(state));
        self.same("an entry after calls", found, (current as u64, kept as u64));
    }

    fn value(&mut self, table: &Table, node: u64, word: usize, expected: u64) {
        self.same("a value after calls", table.words()[layout::entry_at(3, 1, node, 0) + word], expected);
    }

    fn phase(&mut self, table: &Table, node: u64, phase: Phase) {
        let mark = table.words()[layout::mark_at(node)];
        self.same("a phase after calls", layout::mark_phase(mark), phase as u64);
    }

    /// Every phase and every code of a place, as the library's calls leave them.
    fn codes(&mut self) {
        let mut words = [u64::MAX; 13];
        let mut table = Table::new(&mut words);
        assert!(table.format(3, 1, 2).is_done());
        self.entry(&table, 0, Current::SharedCk1, Kept::Invalid);
        self.entry(&table, 1, Current::SharedCk2, Kept::Invalid);
        self.entry(&table, 2, Current::Invalid, Kept::Invalid);
        assert!(table.write(1, 0, 7).is_done());
        self.entry(&table, 0, Current::Invalid, Kept::InvCk1);
        self.entry(&table, 1, Current::Modified, Kept::InvCk2);
        assert!(table.read(2, 0).is_done());
        self.entry(&table, 1, Current::Owner, Kept::InvCk2);
        self.entry(&table, 2, Current::Shared, Kept::Invalid);
        self.phase(&table, 0, Phase::Running);
        assert!(table.open().is_done() && table.create().is_done());
        self.entry(&table, 1, Current::Precommit1, Kept::InvCk2);
        self.entry(&table, 2, Current::Precommit2, Kept::Invalid);
        self.phase(&table, 1, Phase::Creating);
        assert!(table.cut_after(1).commit().is_done());
        self.phase(&table, 0, Phase::Committing);
        assert!(table.recover(None, &mut [0; 4]).is_done() && table.write(2, 0, 9).is_done());
        self.value(&table, 2, layout::CURRENT_VALUE, 9);
        self.value(&table, 2, layout::KEPT_VALUE, 7);
    }
}

fn main() {
    let mut compared = Compared(0);
    let mut words = vec![0; MOST_WORDS];
    for nodes in 3..=16 {
        for items in 1..=256 {
            let fewest = tables::fewest_frames(nodes, items);
            let mut table = Table::new(&mut words);
            assert!(table.format(nodes, items, 2 * items).is_done());
            assert!(table.format(nodes, items, fewest).is_done());
            let geometry = Geometry { nodes, items, frames: fewest };
            compared.places(geometry, &table);
            compared.owners(geometry);
            for frames in 0..=513 {
                compared.geometry(Geometry { frames, ..geometry });
                compared.frames(Geometry { frames, ..geometry });
            }
        }
    }
    compared.marks();
    compared.states();
    compared.codes();
    println!("{} places, fields and codes compared", compared.0);
}
