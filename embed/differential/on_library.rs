//! A call made on the library.

use crate::calls::{Call, Said};
use crate::library;

/// What the words of a scratch are before a call.
pub const SCRATCH_WORD: u64 = 0x0123_4567_89ab_cdef;

pub fn on_library(call: Call, table: &mut [u64], scratch: &mut [u64], limit: u64) -> Said {
    match call {
        Call::Words { nodes, items } => (0, library::words(nodes, items), 0),
        Call::Check => (library::check(table), 0, 0),
        Call::Stretch { node } => library::stretch(table, node),
        Call::Format { nodes, items, frames } => library::format(table, nodes, items, frames, limit),
        Call::Read { node, item } => library::read(table, node, item, limit),
        Call::Write { node, item, value } => library::write(table, node, item, value, limit),
        Call::Evict { node, item, place } => library::evict(table, node, item, place, limit),
        Call::Open => library::open(table, limit),
        Call::Create => library::create(table, limit),
        Call::Commit => library::commit(table, limit),
        Call::Abandon => library::abandon(table, limit),
        Call::Recover { none, lost, .. } => library::recover(table, none, lost, scratch, limit),
        Call::CommitLength => library::commit_length(table),
    }
}
