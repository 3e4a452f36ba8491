//! One call, made on the library and on the reference, each with a table of its own.

use crate::calls::{on_reference, Call, Said};
use crate::on_library::{on_library, SCRATCH_WORD};

/// Words before and after each lent slice, which no call may touch.
const GUARD: usize = 4;
const GUARD_WORD: u64 = 0x5afe_5afe_5afe_5afe;

/// A slice to lend, between guards.
#[derive(Clone, PartialEq, Eq)]
pub struct Lent {
    words: Vec<u64>,
}

impl Lent {
    pub fn new(contents: &[u64]) -> Lent {
        let mut words = vec![GUARD_WORD; GUARD];
        words.extend_from_slice(contents);
        words.extend([GUARD_WORD; GUARD]);
        Lent { words }
    }

    fn filled(length: usize, word: u64) -> Lent {
        Lent::new(&vec![word; length])
    }

    pub fn slice(&self) -> &[u64] {
        &self.words[GUARD..self.words.len() - GUARD]
    }

    pub fn slice_mut(&mut self) -> &mut [u64] {
        let end = self.words.len() - GUARD;
        &mut self.words[GUARD..end]
    }

    fn copy_from(&mut self, other: &Lent) {
        self.words.clone_from(&other.words);
    }
}

/// The same table twice: one for the library, one for the reference.
pub struct Twins {
    pub library: Lent,
    pub reference: Lent,
    /// What the library said last, if it was asked how long a commit of these very tables will be.
    told: Option<Said>,
}

/// What came of a call on both.
pub struct Compared {
    pub library: Said,
    pub reference: Said,
    pub same: bool,
    /// Whether a commit was as long as told before; nothing, if nothing was told of it.
    pub as_told: Option<bool>,
}

impl Twins {
    pub fn new(contents: &[u64]) -> Twins {
        Twins { library: Lent::new(contents), reference: Lent::new(contents), told: None }
    }

    pub fn table(&self) -> &[u64] {
        self.reference.slice()
    }

    /// Gives both tables these words, which may be more or fewer than before.
    pub fn set(&mut self, contents: &[u64]) {
        self.reference = Lent::new(contents);
        self.library.copy_from(&self.reference);
        self.told = None;
    }

    pub fn call(&mut self, call: Call, limit: u64) -> Compared {
        let mut library_scratch = Lent::filled(call.scratch_length(), SCRATCH_WORD);
        let mut reference_scratch = library_scratch.clone();
        let library = on_library(call, self.library.slice_mut(), library_scratch.slice_mut(), limit);
        let reference = on_reference(call, self.reference.slice_mut(), reference_scratch.slice_mut(), limit);
        let same = library == reference && self.library == self.reference && library_scratch == reference_scratch;
        Compared { library, reference, same, as_told: self.as_told(call, limit, library) }
    }

    /// Keeps what is told of a commit's length, and holds the commit that follows to it.
    fn as_told(&mut self, call: Call, limit: u64, said: Said) -> Option<bool> {
        let told = self.told.take();
        match call {
            Call::CommitLength => self.told = Some(said),
            Call::Commit => return told.map(|(answer, length, _)| said == (answer, 0, length.min(limit))),
            _ => (),
        }
        None
    }

    /// The first places where the tables differ: place, library's word, reference's word.
    pub fn differing(&self) -> Vec<(usize, u64, u64)> {
        let pairs = self.library.slice().iter().zip(self.reference.slice());
        let differing = pairs.enumerate().filter(|(_, (ours, theirs))| ours != theirs);
        differing.map(|(place, (ours, theirs))| (place, *ours, *theirs)).take(4).collect()
    }
}
