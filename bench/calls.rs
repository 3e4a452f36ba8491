//! One call on the library or on the tuned Rust engine.

use crate::{library, native};
use std::arch::asm;
use std::rc::Rc;

/// A limit that no list of stores reaches.
pub const WHOLE: u64 = u64::MAX;

#[derive(Clone, Copy, PartialEq, Eq)]
pub struct Geometry {
    pub nodes: u64,
    pub items: u64,
    pub frames: u64,
}

impl Geometry {
    /// A frame for every place of a node.
    pub const fn roomy(nodes: u64, items: u64) -> Geometry {
        Geometry { nodes, items, frames: 2 * items }
    }

    /// Fewer frames than places.
    pub const fn scarce(nodes: u64, items: u64, frames: u64) -> Geometry {
        assert!(frames < 2 * items && (nodes - 2) * frames >= 4 * items - 1);
        Geometry { nodes, items, frames }
    }

    pub fn words(self) -> usize {
        (1 + self.nodes + 3 * self.nodes * self.items) as usize
    }

    pub fn scratch_words(self) -> usize {
        (self.nodes + self.items) as usize
    }

    pub fn entry(self, node: u64, item: u64) -> usize {
        (1 + self.nodes + 3 * (node * self.items + item)) as usize
    }
}

/// `Nothing` is an empty function: what making a call takes. `FormatFilled` is a format too, by the
/// Rust engine that fills the table with zeros first.
#[derive(Clone, Copy)]
pub enum Call {
    Nothing,
    Words(Geometry),
    Check,
    Stretch { node: u64 },
    Format(Geometry),
    FormatFilled(Geometry),
    Read { node: u64, item: u64 },
    Write { node: u64, item: u64, value: u64 },
    Evict { node: u64, item: u64, place: u64 },
    Open,
    Create,
    Commit,
    CommitLength,
    Abandon,
    Recover { lost: Option<u64> },
}

/// The library's functions, in the header's order.
pub const FUNCTIONS: [&str; 13] = [
    "words",
    "check",
    "stretch",
    "format",
    "read",
    "write",
    "evict",
    "open",
    "create",
    "commit",
    "commit_length",
    "abandon",
    "recover",
];

impl Call {
    /// The library's function that makes the call.
    pub fn function(self) -> &'static str {
        match self {
            Call::Nothing => "",
            Call::Words(_) => "words",
            Call::Check => "check",
            Call::Stretch { .. } => "stretch",
            Call::Format(_) | Call::FormatFilled(_) => "format",
            Call::Read { .. } => "read",
            Call::Write { .. } => "write",
            Call::Evict { .. } => "evict",
            Call::Open => "open",
            Call::Create => "create",
            Call::Commit => "commit",
            Call::CommitLength => "commit_length",
            Call::Abandon => "abandon",
            Call::Recover { .. } => "recover",
        }
    }
}

/// Answer, value and stores.
pub type Said = (u64, u64, u64);

/// Returns a number that the compiler does not know, so that it is called and comes back.
#[inline(never)]
extern "C" fn nothing() -> u64 {
    let mut number = 0;
    unsafe { asm!("/* {0} */", inout(reg) number, options(nomem, nostack, preserves_flags)) };
    number
}

#[inline(never)]
pub fn on_library(call: Call, table: &mut [u64], scratch: &mut [u64], limit: u64) -> Said {
    match call {
        Call::Nothing => (nothing(), 0, 0),
        Call::Words(of) => (0, library::words(of.nodes, of.items), 0),
        Call::Check => (library::check(table), 0, 0),
        Call::Stretch { node } => library::stretch(table, node),
        Call::Format(of) | Call::FormatFilled(of) => library::format(table, of.nodes, of.items, of.frames, limit),
        Call::Read { node, item } => library::read(table, node, item, limit),
        Call::Write { node, item, value } => library::write(table, node, item, value, limit),
        Call::Evict { node, item, place } => library::evict(table, node, item, place, limit),
        Call::Open => library::open(table, limit),
        Call::Create => library::create(table, limit),
        Call::Commit => library::commit(table, limit),
        Call::CommitLength => library::commit_length(table),
        Call::Abandon => library::abandon(table, limit),
        Call::Recover { lost } => library::recover(table, lost.is_none() as u64, lost.unwrap_or(0), scratch, limit),
    }
}

#[inline(never)]
pub fn on_native(call: Call, table: &mut [u64], scratch: &mut [u64], limit: u64) -> Said {
    let outcome = match call {
        Call::Nothing => return (nothing(), 0, 0),
        Call::Words(of) => return (0, native::words(of.nodes, of.items), 0),
        Call::Check => return (native::check(table), 0, 0),
        Call::Stretch { node } => return native::stretch(table, node),
        Call::Format(of) => native::format(table, of.nodes, of.items, of.frames, limit),
        Call::FormatFilled(of) => native::format_filled(table, of.nodes, of.items, of.frames, limit),
        Call::Read { node, item } => native::read(table, node, item, limit),
        Call::Write { node, item, value } => native::write(table, node, item, value, limit),
        Call::Evict { node, item, place } => native::evict(table, node, item, place, limit),
        Call::Open => native::open(table, limit),
        Call::Create => native::create(table, limit),
        Call::Commit => native::commit(table, limit),
        Call::CommitLength => native::commit_length(table),
        Call::Abandon => native::abandon(table, limit),
        Call::Recover { lost } => native::recover(table, lost, scratch, limit),
    };
    (outcome.answer, outcome.value, outcome.stores)
}

#[derive(Clone, Copy, PartialEq, Eq)]
pub enum Engine {
    Library,
    Native,
}

impl Engine {
    pub fn call(self, call: Call, table: &mut [u64], scratch: &mut [u64]) -> Said {
        match self {
            Engine::Library => on_library(call, table, scratch, WHOLE),
            Engine::Native => on_native(call, table, scratch, WHOLE),
        }
    }
}

/// A call with the table before it.
pub struct KeptCall {
    pub call: Call,
    pub table: Rc<[u64]>,
}

impl KeptCall {
    /// Answer, table and scratch after the call.
    fn outcome(&self, engine: Engine, geometry: Geometry) -> (Said, Vec<u64>, Vec<u64>) {
        let (mut table, mut scratch) = (self.table.to_vec(), vec![1; geometry.scratch_words()]);
        let said = engine.call(self.call, &mut table, &mut scratch);
        (said, table, scratch)
    }

    /// Both engines must carry the call out and do the same: else a time says nothing.
    pub fn compare(&self, geometry: Geometry, name: &str) {
        let library = self.outcome(Engine::Library, geometry);
        let native = self.outcome(Engine::Native, geometry);
        if library != native || native.0 .0 != 0 {
            println!("{name}: the engines differ, or refuse the call: {:?} and {:?}", library.0, native.0);
            std::process::exit(1);
        }
    }
}
