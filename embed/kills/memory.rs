//! The plain memory of document 01: values and saved values, fed with finished calls and their answers.

use crate::calls::{Call, Said};

#[derive(Clone)]
pub struct Memory {
    values: Vec<u64>,
    saved: Vec<u64>,
    /// Commits finished since the formatting.
    commits: u64,
}

impl Memory {
    pub fn formatted(items: u64) -> Memory {
        let zeros = vec![0; items as usize];
        Memory { values: zeros.clone(), saved: zeros, commits: 0 }
    }

    /// A finished call and what it said; false if a read said another value than the item's.
    pub fn feed(&mut self, call: Call, said: Said) -> bool {
        let (answer, value, _) = said;
        match call {
            _ if answer != 0 => (),
            Call::Format { items, .. } => *self = Memory::formatted(items),
            Call::Read { item, .. } => return value == self.values[item as usize],
            Call::Write { item, value, .. } => self.values[item as usize] = value,
            Call::Commit => self.commit(),
            Call::Recover { .. } => self.recover(),
            _ => (),
        }
        true
    }

    pub fn commit(&mut self) {
        self.saved.clone_from(&self.values);
        self.commits += 1;
    }

    pub fn recover(&mut self) {
        self.values.clone_from(&self.saved);
    }

    pub fn commits(&self) -> u64 {
        self.commits
    }

    pub fn saved(&self) -> &[u64] {
        &self.saved
    }
}
