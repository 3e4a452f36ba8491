//! vectors.bin: single calls, each with its table and what it must leave.
//!
//! Big-endian words of 64 bits. A vector is a header of twelve (operation, three arguments, a choice of two, limit;
//! words of the table, words that change, words of the scratch; answer, value, stores), then the table, the places of
//! the words that change, their new words, the scratch before and the scratch after.

use crate::calls::{Call, Said};
use crate::operations::{self, Tally};
use crate::random::Random;
use crate::runs::carry_out;

/// The longest table and the longest scratch that `vectors` takes.
pub const MOST_WORDS: usize = 8000;
pub const MOST_SCRATCH: usize = 300;

pub struct Vectors {
    pub random: Random,
    pub tally: Tally,
    pub bytes: Vec<u8>,
}

impl Vectors {
    pub fn new() -> Vectors {
        Vectors { random: Random::new(0), tally: Tally::default(), bytes: Vec::new() }
    }

    /// Makes a vector of a call on this table.
    pub fn call(&mut self, table: &[u64], call: Call, limit: u64) -> Said {
        self.step(&mut table.to_vec(), call, limit)
    }

    /// Makes a vector of a call, which changes the table.
    pub fn step(&mut self, table: &mut [u64], call: Call, limit: u64) -> Said {
        let given = table.to_vec();
        let scratch = self.scratch_for(&call);
        let mut scratch_left = scratch.clone();
        let (answer, value, stores) = carry_out(table, call, &mut scratch_left, limit);
        let places: Vec<usize> = (0..given.len()).filter(|&place| given[place] != table[place]).collect();
        let [first, second, third, choice] = arguments(&call);
        let operation = operations::number(&call);
        self.tally.note(operation, answer, table);
        self.put(&[operation, first, second, third, choice, limit]);
        self.put(&[given.len() as u64, places.len() as u64, scratch.len() as u64, answer, value, stores]);
        self.put(&given);
        self.put(&places.iter().map(|&place| place as u64).collect::<Vec<u64>>());
        self.put(&places.iter().map(|&place| table[place]).collect::<Vec<u64>>());
        self.put(&scratch);
        self.put(&scratch_left);
        (answer, value, stores)
    }

    /// Any words, as many as the call takes; a call that takes none is lent some now and then, and must leave them.
    fn scratch_for(&mut self, call: &Call) -> Vec<u64> {
        let length = match call {
            Call::Recover { scratch, .. } => *scratch,
            _ if self.random.percent(5) => 5,
            _ => 0,
        };
        assert!(length <= MOST_SCRATCH);
        (0..length).map(|_| self.random.word()).collect()
    }

    fn put(&mut self, words: &[u64]) {
        self.bytes.extend(words.iter().flat_map(|word| word.to_be_bytes()));
    }
}

/// Whether a vector can be made of the call: the C library has more calls and more choices.
pub fn has_vector(call: &Call) -> bool {
    match call {
        Call::Words { .. } | Call::CommitLength => false,
        Call::Evict { place, .. } => *place <= 1,
        Call::Recover { none, scratch, .. } => *none <= 1 && *scratch <= MOST_SCRATCH,
        _ => true,
    }
}

/// Three arguments and a choice of two; an argument that the call does not have is 0.
fn arguments(call: &Call) -> [u64; 4] {
    match *call {
        Call::Format { nodes, items, frames } => [nodes, items, frames, 0],
        Call::Read { node, item } => [node, item, 0, 0],
        Call::Write { node, item, value } => [node, item, value, 0],
        Call::Evict { node, item, place } => [node, item, 0, place],
        Call::Recover { none, lost, .. } => [lost, 0, 0, none],
        Call::Stretch { node } => [node, 0, 0, 0],
        _ => [0; 4],
    }
}
