//! A call with its arguments as a value, the answers that it can give, its list of stores, and the call made on the
//! reference.

use crate::reference::{self, Plan};

/// A call and its arguments.
#[derive(Clone, Copy, Debug)]
pub enum Call {
    Words { nodes: u64, items: u64 },
    Check,
    Stretch { node: u64 },
    Format { nodes: u64, items: u64, frames: u64 },
    Read { node: u64, item: u64 },
    Write { node: u64, item: u64, value: u64 },
    Evict { node: u64, item: u64, place: u64 },
    Open,
    Create,
    Commit,
    Abandon,
    Recover { none: u64, lost: u64, scratch: usize },
    CommitLength,
}

/// The calls' names and the answers that each can give.
pub const ANSWERS: [(&str, &[u64]); 13] = [
    ("words", &[0]),
    ("check", &[0, 1, 2, 3]),
    ("stretch", &[0, 1, 3, 4]),
    ("format", &[0, 1, 3, 20]),
    ("read", &[0, 1, 2, 3, 4, 5, 6, 7, 9]),
    ("write", &[0, 1, 2, 3, 4, 5, 6, 7, 9]),
    ("evict", &[0, 1, 2, 3, 4, 5, 6, 7, 10, 11, 18]),
    ("open", &[0, 1, 2, 3, 7, 13]),
    ("create", &[0, 1, 2, 3, 8, 11, 17]),
    ("commit", &[0, 1, 2, 3, 8, 12]),
    ("abandon", &[0, 1, 2, 3, 8]),
    ("recover", &[0, 1, 2, 3, 4, 14, 15, 16, 18]),
    ("length", &[0, 1, 2, 3, 8, 12]),
];

/// How often each call gave each answer, by the call's place in `ANSWERS`.
pub type Met = [[u64; MOST_ANSWER + 1]; ANSWERS.len()];

pub const MOST_ANSWER: usize = 20;

impl Call {
    /// The call's place in `ANSWERS`.
    pub fn name_index(&self) -> usize {
        match self {
            Call::Words { .. } => 0,
            Call::Check => 1,
            Call::Stretch { .. } => 2,
            Call::Format { .. } => 3,
            Call::Read { .. } => 4,
            Call::Write { .. } => 5,
            Call::Evict { .. } => 6,
            Call::Open => 7,
            Call::Create => 8,
            Call::Commit => 9,
            Call::Abandon => 10,
            Call::Recover { .. } => 11,
            Call::CommitLength => 12,
        }
    }

    pub fn scratch_length(&self) -> usize {
        match self {
            Call::Recover { scratch, .. } => *scratch,
            _ => 0,
        }
    }
}

/// The C functions' answer where a choice of two is neither 0 nor 1; the reference takes an Option.
pub const NO_SUCH_CHOICE: u64 = 18;

/// Answer, value, stores (for Stretch: answer, start, words; for Words: 0, words, 0).
pub type Said = (u64, u64, u64);

/// The whole plan of a call: a refusal's number, or the value and every store, in order.
pub fn listed(call: Call, table: &[u64]) -> Plan {
    match call {
        Call::Words { .. } => no_stores(0),
        Call::Check => no_stores(reference::check(table)),
        Call::Stretch { node } => no_stores(reference::stretch(table, node).0),
        Call::Format { nodes, items, frames } => reference::format_plan(table.len(), nodes, items, frames),
        Call::Read { node, item } => reference::read_plan(table, node, item),
        Call::Write { node, item, value } => reference::write_plan(table, node, item, value),
        Call::Evict { node, item, place } => reference::evict_plan(table, node, item, place),
        Call::Open => reference::open_plan(table),
        Call::Create => reference::create_plan(table),
        Call::Commit => reference::commit_plan(table),
        Call::Abandon => reference::abandon_plan(table),
        Call::Recover { none, .. } if none > 1 => Err(NO_SUCH_CHOICE),
        Call::Recover { none, lost, scratch } => reference::recover_plan(table, (none == 0).then_some(lost), scratch),
        Call::CommitLength => reference::commit_length_plan(table),
    }
}

/// A call that stores nothing: carried out, or refused with a number.
fn no_stores(answer: u64) -> Plan {
    match answer {
        0 => Ok((0, Vec::new())),
        refusal => Err(refusal),
    }
}

pub fn on_reference(call: Call, table: &mut [u64], scratch: &mut [u64], limit: u64) -> Said {
    match call {
        Call::Words { nodes, items } => return (0, reference::words(nodes, items), 0),
        Call::Stretch { node } => return reference::stretch(table, node),
        _ => (),
    }
    let plan = listed(call, table);
    if matches!(call, Call::Recover { .. }) && plan.is_ok() {
        reference::clear_scratch(table, scratch);
    }
    let outcome = reference::carry_out(table, plan, limit);
    (outcome.answer, outcome.value, outcome.stores)
}
