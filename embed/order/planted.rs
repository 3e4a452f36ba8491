//! The C functions of the library over the reference, with a fault planted: what a compiler might make of the
//! stores between two limits. The answers and every table that a call leaves stay right, so that only
//! a test that sees each store can find it, or one that stops a call in its middle. PLANTED names the
//! fault: exchanged, dropped, equal, merged, doubled, split, reversed, or none.

#[path = "../differential/calls.rs"]
#[allow(dead_code)]
mod calls;
#[path = "../differential/reference.rs"]
#[allow(dead_code)]
mod reference;

use std::arch::x86_64::{__m128i, _mm_set_epi64x, _mm_storeu_si128};

use calls::{listed, on_reference, Call};

/// A store: the place in the table, and the word.
type Store = (usize, u64);

/// From here on a limit is past every list of stores.
const PAST_EVERY_LIST: u64 = 1 << 16;

unsafe fn store(table: *mut u64, (place, word): Store) {
    table.add(place).write_volatile(word);
}

unsafe fn store_all(table: *mut u64, stores: &[Store]) {
    stores.iter().for_each(|&one| store(table, one));
}

/// Two words that lie side by side, by one instruction.
unsafe fn store_merged(table: *mut u64, (place, word): Store, (_, next): Store) {
    _mm_storeu_si128(table.add(place) as *mut __m128i, _mm_set_epi64x(next as i64, word as i64));
}

/// One word in two halves.
unsafe fn store_split(table: *mut u64, (place, word): Store) {
    let half = table.add(place) as *mut u32;
    half.write_volatile(word as u32);
    half.add(1).write_volatile((word >> 32) as u32);
}

/// All stores but the first one that writes what is there already.
unsafe fn store_without_equal(table: *mut u64, stores: &[Store]) {
    let mut left_out = false;
    for &one in stores {
        if !left_out && *table.add(one.0) == one.1 {
            left_out = true;
        } else {
            store(table, one);
        }
    }
}

/// The last three stores of a Write by a node with a Shared-CK copy: its state with current Invalid, the new value,
/// the state Modified, which covers the first. Most faults are planted there.
fn writers_end(call: Call, stores: &[Store]) -> Option<[Store; 3]> {
    match (call, stores) {
        (Call::Write { .. }, &[.., invalid, value, state]) if invalid.0 == state.0 => Some([invalid, value, state]),
        _ => None,
    }
}

unsafe fn store_with_fault(fault: &str, call: Call, table: *mut u64, stores: &[Store]) {
    match (fault, call, writers_end(call, stores)) {
        ("equal", _, _) => store_without_equal(table, stores),
        ("reversed", Call::Format { .. }, _) => stores.iter().rev().for_each(|&one| store(table, one)),
        ("exchanged" | "dropped" | "merged" | "doubled" | "split", _, Some(end)) => {
            store_all(table, &stores[..stores.len() - end.len()]);
            store_end_with_fault(fault, table, end);
        }
        _ => store_all(table, stores),
    }
}

unsafe fn store_end_with_fault(fault: &str, table: *mut u64, [invalid, value, state]: [Store; 3]) {
    match fault {
        "exchanged" => store_all(table, &[value, invalid, state]),
        "dropped" => store_all(table, &[value, state]),
        "doubled" => store_all(table, &[invalid, value, state, state]),
        "merged" => {
            store(table, invalid);
            store_merged(table, state, value);
        }
        _ => {
            store(table, invalid);
            store_split(table, value);
            store(table, state);
        }
    }
}

/// The call on the caller's slices.
unsafe fn carry_out(call: Call, table: (*mut u64, usize), scratch: (*mut u64, usize), limit: u64) -> (u64, u64, u64) {
    let mut copy = lent(table).to_vec();
    let stores = listed(call, &copy).map_or(Vec::new(), |(_, stores)| stores);
    let said = on_reference(call, &mut copy, lent(scratch), limit);
    if limit < PAST_EVERY_LIST {
        store_all(table.0, &stores[..stores.len().min(limit as usize)]);
    } else {
        let fault = std::env::var("PLANTED").unwrap_or_default();
        store_with_fault(&fault, call, table.0, &stores);
    }
    said
}

unsafe fn lent<'a>((words, length): (*mut u64, usize)) -> &'a mut [u64] {
    if length == 0 {
        return &mut [];
    }
    std::slice::from_raw_parts_mut(words, length)
}

const NO_SCRATCH: (*mut u64, usize) = (std::ptr::null_mut(), 0);

/// Hands a call's value and stores out through pointers.
unsafe fn tell(said: (u64, u64, u64), value: *mut u64, stores: *mut u64) -> u64 {
    *value = said.1;
    *stores = said.2;
    said.0
}

/// A function of the library that stores: the call of its arguments.
macro_rules! function {
    ($name:ident, ($($argument:ident),*), $call:expr) => {
        #[no_mangle]
        pub unsafe extern "C" fn $name(
            table: *mut u64,
            len: usize,
            $($argument: u64,)*
            limit: u64,
            value: *mut u64,
            stores: *mut u64,
        ) -> u64 {
            tell(carry_out($call, (table, len), NO_SCRATCH, limit), value, stores)
        }
    };
}

function!(linkspan_format, (nodes, items, frames), Call::Format { nodes, items, frames });
function!(linkspan_read, (node, item), Call::Read { node, item });
function!(linkspan_write, (node, item, value_written), Call::Write { node, item, value: value_written });
function!(linkspan_evict, (node, item, place), Call::Evict { node, item, place });
function!(linkspan_open, (), Call::Open);
function!(linkspan_create, (), Call::Create);
function!(linkspan_commit, (), Call::Commit);
function!(linkspan_abandon, (), Call::Abandon);

#[no_mangle]
pub unsafe extern "C" fn linkspan_recover(
    table: *mut u64,
    len: usize,
    none: u64,
    lost: u64,
    scratch: *mut u64,
    scratch_len: usize,
    limit: u64,
    value: *mut u64,
    stores: *mut u64,
) -> u64 {
    let call = Call::Recover { none, lost, scratch: scratch_len };
    tell(carry_out(call, (table, len), (scratch, scratch_len), limit), value, stores)
}

#[no_mangle]
pub unsafe extern "C" fn linkspan_commit_length(table: *const u64, len: usize, length: *mut u64) -> u64 {
    let said = carry_out(Call::CommitLength, (table as *mut u64, len), NO_SCRATCH, 0);
    *length = said.1;
    said.0
}

#[no_mangle]
pub extern "C" fn linkspan_words(nodes: u64, items: u64) -> u64 {
    reference::words(nodes, items)
}

#[no_mangle]
pub unsafe extern "C" fn linkspan_check(table: *const u64, len: usize) -> u64 {
    reference::check(lent((table as *mut u64, len)))
}

#[no_mangle]
pub unsafe extern "C" fn linkspan_stretch(
    table: *const u64,
    len: usize,
    node: u64,
    start: *mut u64,
    words: *mut u64,
) -> u64 {
    tell(reference::stretch(lent((table as *mut u64, len)), node), start, words)
}
