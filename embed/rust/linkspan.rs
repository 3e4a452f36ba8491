//! A safe wrapper of the library: a [`Table`] over words of the caller's, calls that say an
//! [`Answer`].
//!
//! Add this file to a program (`mod linkspan;`) and link `liblinkspan.a`:
//! `rustc --edition 2021 -L FOLDER -l static=linkspan program.rs`. It needs `core` only.

/// The library's functions as they are in C; `linkspan.h` says what each does.
pub(crate) mod ffi {
    extern "C" {
        pub fn linkspan_words(nodes: u64, items: u64) -> u64;
        pub fn linkspan_check(table: *const u64, len: usize) -> u64;
        pub fn linkspan_stretch(table: *const u64, len: usize, node: u64, start: *mut u64, words: *mut u64) -> u64;
        pub fn linkspan_format(
            table: *mut u64,
            len: usize,
            nodes: u64,
            items: u64,
            frames: u64,
            limit: u64,
            value: *mut u64,
            stores: *mut u64,
        ) -> u64;
        pub fn linkspan_read(
            table: *mut u64,
            len: usize,
            node: u64,
            item: u64,
            limit: u64,
            value: *mut u64,
            stores: *mut u64,
        ) -> u64;
        pub fn linkspan_write(
            table: *mut u64,
            len: usize,
            node: u64,
            item: u64,
            new_value: u64,
            limit: u64,
            value: *mut u64,
            stores: *mut u64,
        ) -> u64;
        pub fn linkspan_evict(
            table: *mut u64,
            len: usize,
            node: u64,
            item: u64,
            place: u64,
            limit: u64,
            value: *mut u64,
            stores: *mut u64,
        ) -> u64;
        pub fn linkspan_open(table: *mut u64, len: usize, limit: u64, value: *mut u64, stores: *mut u64) -> u64;
        pub fn linkspan_create(table: *mut u64, len: usize, limit: u64, value: *mut u64, stores: *mut u64) -> u64;
        pub fn linkspan_commit(table: *mut u64, len: usize, limit: u64, value: *mut u64, stores: *mut u64) -> u64;
        pub fn linkspan_commit_length(table: *const u64, len: usize, length: *mut u64) -> u64;
        pub fn linkspan_abandon(table: *mut u64, len: usize, limit: u64, value: *mut u64, stores: *mut u64) -> u64;
        pub fn linkspan_recover(
            table: *mut u64,
            len: usize,
            none: u64,
            lost: u64,
            scratch: *mut u64,
            scratch_len: usize,
            limit: u64,
            value: *mut u64,
            stores: *mut u64,
        ) -> u64;
    }
}

/// Why a call was turned down. Table and scratch are then as they were.
#[derive(Clone, Copy, PartialEq, Eq, Debug)]
#[repr(u64)]
pub enum Refusal {
    /// The table is empty, or shorter than its geometry needs.
    TooShort = 1,
    /// The table is not sound; in a recovery, a survivor's words are out of form or it uses more
    /// frames than it has.
    NotSound = 2,
    /// No allowed geometry in the table's first word, or asked for.
    NoGeometry = 3,
    NoSuchNode = 4,
    NoSuchItem = 5,
    NodeDead = 6,
    /// A checkpoint is open: commit or abandon it first.
    CheckpointOpen = 7,
    NoCheckpointOpen = 8,
    /// The node needs a frame and has none free: evict something.
    NoFrame = 9,
    /// There is no copy in that place.
    PlaceInvalid = 10,
    /// No other live node can take the copy. A create has this answer only where two or more nodes are dead and a node
    /// has fewer frames than places.
    NoHome = 11,
    /// A dirty item has not been created yet.
    NotAllCreated = 12,
    /// The table has had its last save.
    LastNumber = 13,
    /// The survivors cannot hold two copies of everything.
    TooFewSurvivors = 14,
    /// An item has no recovery copy among the survivors, or two that differ.
    NoRecoveryCopy = 15,
    /// The scratch is shorter than items + nodes words.
    ShortScratch = 16,
    /// A format with more frames than a node has places, which are two for each item.
    TooManyFrames = 20,
}

impl Refusal {
    const ALL: [Refusal; 17] = [
        Refusal::TooShort,
        Refusal::NotSound,
        Refusal::NoGeometry,
        Refusal::NoSuchNode,
        Refusal::NoSuchItem,
        Refusal::NodeDead,
        Refusal::CheckpointOpen,
        Refusal::NoCheckpointOpen,
        Refusal::NoFrame,
        Refusal::PlaceInvalid,
        Refusal::NoHome,
        Refusal::NotAllCreated,
        Refusal::LastNumber,
        Refusal::TooFewSurvivors,
        Refusal::NoRecoveryCopy,
        Refusal::ShortScratch,
        Refusal::TooManyFrames,
    ];

    /// The refusal's number, as the C functions return it.
    pub fn number(self) -> u64 {
        self as u64
    }

    fn of_number(number: u64) -> Refusal {
        let found = Refusal::ALL.into_iter().find(|refusal| refusal.number() == number);
        found.unwrap_or_else(|| panic!("the library answered {number}, which no call through this wrapper can give"))
    }
}

/// What a call says.
#[derive(Clone, Copy, PartialEq, Eq, Debug)]
#[must_use]
pub enum Answer {
    /// Carried out: the value read (0 for every call but a read), and how many words were stored.
    Done {
        value: u64,
        stores: u64,
    },
    /// Create alone: every dirty item has been created.
    NothingLeft,
    Refused(Refusal),
}

impl Answer {
    pub fn is_done(self) -> bool {
        matches!(self, Answer::Done { .. })
    }
}

/// The place of an entry that a copy is evicted from.
#[derive(Clone, Copy, PartialEq, Eq, Debug)]
#[repr(u64)]
pub enum Place {
    Current = 0,
    Kept = 1,
}

/// The limit of a call that is made whole.
const WHOLE: u64 = u64::MAX;

const NOTHING_LEFT: u64 = 17;

/// Makes the call, with places for its value and its stores.
fn answer(call: impl FnOnce(*mut u64, *mut u64) -> u64) -> Answer {
    let (mut value, mut stores) = (0, 0);
    match call(&mut value, &mut stores) {
        0 => Answer::Done { value, stores },
        NOTHING_LEFT => Answer::NothingLeft,
        number => Answer::Refused(Refusal::of_number(number)),
    }
}

/// The words that a table of so many nodes and items has, if there is a geometry with them.
pub fn words(nodes: u64, items: u64) -> Option<usize> {
    match unsafe { ffi::linkspan_words(nodes, items) } {
        0 => None,
        words => Some(words as usize),
    }
}

/// Which word of a table is whose, and what its bits say, for a program that keeps each machine's words
/// on that machine: word 0, which has the geometry and is everybody's, a node's mark, and its row, which
/// has an entry for each item, ascending. `linkspan.h` says under A TABLE BY ITS OWNERS how such a
/// program makes a call.
///
/// The functions are plain arithmetic and test nothing. Where they take nodes, items, a node, an item or
/// a place, these are: nodes 3 to 16, items 1 to 256, node < nodes, item < items, and a place of the
/// table's. Where they take a word, it may be any word: what they give is the bits that stand there.
pub mod layout {
    use core::ops::Range;

    /// The place of word 0, the geometry.
    pub const GEOMETRY_AT: usize = 0;

    /// The words of an entry: state, current value and kept value, at these places from its first.
    pub const ENTRY_WORDS: usize = 3;
    pub const STATE: usize = 0;
    pub const CURRENT_VALUE: usize = 1;
    pub const KEPT_VALUE: usize = 2;

    /// The phase in a mark.
    #[derive(Clone, Copy, PartialEq, Eq, Debug)]
    #[repr(u64)]
    pub enum Phase {
        Running = 0,
        Creating = 1,
        /// Met in the table of a cut call only.
        Committing = 2,
    }

    /// The codes of the current place.
    #[derive(Clone, Copy, PartialEq, Eq, Debug)]
    #[repr(u64)]
    pub enum Current {
        Invalid = 0,
        Shared = 1,
        /// Others may be sharers.
        Owner = 2,
        /// The owner, and no sharers.
        Modified = 3,
        /// A recovery copy of an item not written since the save.
        SharedCk1 = 4,
        SharedCk2 = 5,
        /// A recovery copy to be, in an open checkpoint.
        Precommit1 = 6,
        Precommit2 = 7,
    }

    /// The codes of the kept place.
    #[derive(Clone, Copy, PartialEq, Eq, Debug)]
    #[repr(u64)]
    pub enum Kept {
        Invalid = 0,
        /// A recovery copy of an item written since the save.
        InvCk1 = 1,
        InvCk2 = 2,
    }

    /// The number of nodes in word 0.
    pub const fn nodes_in(geometry: u64) -> u64 {
        geometry >> 55 & 31
    }

    /// The number of items in word 0.
    pub const fn items_in(geometry: u64) -> u64 {
        geometry >> 46 & 511
    }

    /// The frames of each node in word 0.
    pub const fn frames_in(geometry: u64) -> u64 {
        geometry >> 36 & 1023
    }

    /// The place of a node's mark. A dead node's mark is 0.
    pub const fn mark_at(node: u64) -> usize {
        1 + node as usize
    }

    /// The live bit of a mark.
    pub const fn mark_live(mark: u64) -> bool {
        mark >> 63 == 1
    }

    /// The phase of a mark, as the code of a [`Phase`].
    pub const fn mark_phase(mark: u64) -> u64 {
        mark >> 61 & 3
    }

    /// The number of the save in a mark.
    pub const fn mark_number(mark: u64) -> u64 {
        mark >> 29 & u32::MAX as u64
    }

    /// How many words a node's row has.
    pub const fn row_words(items: u64) -> usize {
        ENTRY_WORDS * items as usize
    }

    /// The places of a node's row.
    pub const fn row(nodes: u64, items: u64, node: u64) -> Range<usize> {
        let start = 1 + nodes as usize + node as usize * row_words(items);
        start..start + row_words(items)
    }

    /// The first place of the node's entry for the item.
    pub const fn entry_at(nodes: u64, items: u64, node: u64, item: u64) -> usize {
        row(nodes, items, node).start + ENTRY_WORDS * item as usize
    }

    /// What is in the current place of an entry with this state word, as the code of a [`Current`].
    pub const fn current_in(state: u64) -> u64 {
        state >> 60
    }

    /// What is in the kept place of an entry with this state word, as the code of a [`Kept`].
    pub const fn kept_in(state: u64) -> u64 {
        state >> 58 & 3
    }

    /// The node whose word this is; none if it is word 0, which is everybody's.
    pub const fn owner_of(nodes: u64, items: u64, place: usize) -> Option<u64> {
        if place == GEOMETRY_AT {
            return None;
        }
        let place = place - 1;
        if place < nodes as usize {
            return Some(place as u64);
        }
        Some(((place - nodes as usize) / row_words(items)) as u64)
    }
}

/// A table in words that the caller lends. The words may hold anything: every call checks them.
pub struct Table<'a> {
    words: &'a mut [u64],
    limit: u64,
}

impl<'a> Table<'a> {
    pub fn new(words: &'a mut [u64]) -> Table<'a> {
        Table { words, limit: WHOLE }
    }

    /// The table as a machine sees it that stops after so many stores: each call made through it
    /// makes only the first `stores` of its stores.
    pub fn cut_after(&mut self, stores: u64) -> Table<'_> {
        Table { words: self.words, limit: stores }
    }

    pub fn words(&self) -> &[u64] {
        self.words
    }

    pub fn words_mut(&mut self) -> &mut [u64] {
        self.words
    }

    /// Whether the table is sound.
    pub fn check(&self) -> Result<(), Refusal> {
        match unsafe { ffi::linkspan_check(self.words.as_ptr(), self.words.len()) } {
            0 => Ok(()),
            number => Err(Refusal::of_number(number)),
        }
    }

    fn stretch_range(&self, node: u64) -> Result<core::ops::Range<usize>, Refusal> {
        let (mut start, mut words) = (0, 0);
        let (table, len) = (self.words.as_ptr(), self.words.len());
        match unsafe { ffi::linkspan_stretch(table, len, node, &mut start, &mut words) } {
            0 => Ok(start as usize..(start + words) as usize),
            number => Err(Refusal::of_number(number)),
        }
    }

    /// The part of the table that holds the node's entries.
    pub fn stretch(&self, node: u64) -> Result<&[u64], Refusal> {
        self.stretch_range(node).map(|range| &self.words[range])
    }

    pub fn stretch_mut(&mut self, node: u64) -> Result<&mut [u64], Refusal> {
        self.stretch_range(node).map(|range| &mut self.words[range])
    }

    /// The table's words, their number and the limit, as every storing call takes them.
    fn lent(&mut self) -> (*mut u64, usize, u64) {
        (self.words.as_mut_ptr(), self.words.len(), self.limit)
    }

    /// Makes a new table in the words, whatever they held. A node has two places for each item, and no more frames; it
    /// needs as many, or (nodes - 2) * frames >= 4 * items - 1.
    pub fn format(&mut self, nodes: u64, items: u64, frames: u64) -> Answer {
        let (table, len, limit) = self.lent();
        answer(|value, stores| unsafe { ffi::linkspan_format(table, len, nodes, items, frames, limit, value, stores) })
    }

    /// The node reads the item.
    pub fn read(&mut self, node: u64, item: u64) -> Answer {
        let (table, len, limit) = self.lent();
        answer(|value, stores| unsafe { ffi::linkspan_read(table, len, node, item, limit, value, stores) })
    }

    /// The node writes the item and becomes its only owner.
    pub fn write(&mut self, node: u64, item: u64, new_value: u64) -> Answer {
        let (table, len, limit) = self.lent();
        answer(|value, stores| unsafe { ffi::linkspan_write(table, len, node, item, new_value, limit, value, stores) })
    }

    /// The node gives up its copy in that place.
    pub fn evict(&mut self, node: u64, item: u64, place: Place) -> Answer {
        let (table, len, limit) = self.lent();
        answer(|value, stores| unsafe {
            ffi::linkspan_evict(table, len, node, item, place as u64, limit, value, stores)
        })
    }

    /// Opens a checkpoint.
    pub fn open(&mut self) -> Answer {
        let (table, len, limit) = self.lent();
        answer(|value, stores| unsafe { ffi::linkspan_open(table, len, limit, value, stores) })
    }

    /// Makes the new recovery copies of the next dirty item.
    pub fn create(&mut self) -> Answer {
        let (table, len, limit) = self.lent();
        answer(|value, stores| unsafe { ffi::linkspan_create(table, len, limit, value, stores) })
    }

    /// Makes the present values the saved ones and closes the checkpoint.
    pub fn commit(&mut self) -> Answer {
        let (table, len, limit) = self.lent();
        answer(|value, stores| unsafe { ffi::linkspan_commit(table, len, limit, value, stores) })
    }

    /// How many stores a whole [`Table::commit`] will make, or why it would be turned down. Stores nothing. `linkspan.h`
    /// says what a scheduler does with it.
    pub fn commit_length(&self) -> Result<u64, Refusal> {
        let mut length = 0;
        match unsafe { ffi::linkspan_commit_length(self.words.as_ptr(), self.words.len(), &mut length) } {
            0 => Ok(length),
            number => Err(Refusal::of_number(number)),
        }
    }

    /// Closes the checkpoint without a save.
    pub fn abandon(&mut self) -> Answer {
        let (table, len, limit) = self.lent();
        answer(|value, stores| unsafe { ffi::linkspan_abandon(table, len, limit, value, stores) })
    }

    /// Brings every item back to its saved value, without the lost node if there is one. The scratch
    /// needs items + nodes words.
    ///
    /// Whoever begins a recovery ends it, with the same name, before anything else is done to the table,
    /// a check included; and until one of `None` has ended, no machine may be lost. `linkspan.h` says
    /// why, under WHEN A MACHINE STOPS.
    pub fn recover(&mut self, lost: Option<u64>, scratch: &mut [u64]) -> Answer {
        let (table, len, limit) = self.lent();
        let none = lost.is_none() as u64;
        let (space, space_len) = (scratch.as_mut_ptr(), scratch.len());
        answer(|value, stores| unsafe {
            ffi::linkspan_recover(table, len, none, lost.unwrap_or(0), space, space_len, limit, value, stores)
        })
    }
}
