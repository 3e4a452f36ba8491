//! The library's C functions, called over slices.

/// Answer, value and stores of a call.
pub type Said = (u64, u64, u64);

// The wrapper's own declarations, so that this test holds them to the library too.
#[allow(dead_code)]
#[path = "../rust/linkspan.rs"]
mod linkspan;

use linkspan::ffi::*;

/// What value and stores hold before a call: a call that leaves them is seen.
const UNSET: u64 = 0xdead_beef_dead_beef;

/// Gives the call places for its value and its stores.
#[inline]
fn said(call: impl FnOnce(*mut u64, *mut u64) -> u64) -> Said {
    let (mut value, mut stores) = (UNSET, UNSET);
    let answer = call(&mut value, &mut stores);
    (answer, value, stores)
}

pub fn words(nodes: u64, items: u64) -> u64 {
    unsafe { linkspan_words(nodes, items) }
}

pub fn check(table: &[u64]) -> u64 {
    unsafe { linkspan_check(table.as_ptr(), table.len()) }
}

/// Answer, start and words.
pub fn stretch(table: &[u64], node: u64) -> Said {
    said(|start, words| unsafe { linkspan_stretch(table.as_ptr(), table.len(), node, start, words) })
}

pub fn format(table: &mut [u64], nodes: u64, items: u64, frames: u64, limit: u64) -> Said {
    said(|value, stores| unsafe {
        linkspan_format(table.as_mut_ptr(), table.len(), nodes, items, frames, limit, value, stores)
    })
}

pub fn read(table: &mut [u64], node: u64, item: u64, limit: u64) -> Said {
    said(|value, stores| unsafe { linkspan_read(table.as_mut_ptr(), table.len(), node, item, limit, value, stores) })
}

pub fn write(table: &mut [u64], node: u64, item: u64, new_value: u64, limit: u64) -> Said {
    said(|value, stores| unsafe {
        linkspan_write(table.as_mut_ptr(), table.len(), node, item, new_value, limit, value, stores)
    })
}

pub fn evict(table: &mut [u64], node: u64, item: u64, place: u64, limit: u64) -> Said {
    said(|value, stores| unsafe {
        linkspan_evict(table.as_mut_ptr(), table.len(), node, item, place, limit, value, stores)
    })
}

pub fn open(table: &mut [u64], limit: u64) -> Said {
    said(|value, stores| unsafe { linkspan_open(table.as_mut_ptr(), table.len(), limit, value, stores) })
}

pub fn create(table: &mut [u64], limit: u64) -> Said {
    said(|value, stores| unsafe { linkspan_create(table.as_mut_ptr(), table.len(), limit, value, stores) })
}

pub fn commit(table: &mut [u64], limit: u64) -> Said {
    said(|value, stores| unsafe { linkspan_commit(table.as_mut_ptr(), table.len(), limit, value, stores) })
}

/// Answer, length and 0: it stores nothing.
pub fn commit_length(table: &[u64]) -> Said {
    let mut length = UNSET;
    let answer = unsafe { linkspan_commit_length(table.as_ptr(), table.len(), &mut length) };
    (answer, length, 0)
}

pub fn abandon(table: &mut [u64], limit: u64) -> Said {
    said(|value, stores| unsafe { linkspan_abandon(table.as_mut_ptr(), table.len(), limit, value, stores) })
}

/// `none`: 1 where no node was lost; `lost` is then not used.
pub fn recover(table: &mut [u64], none: u64, lost: u64, scratch: &mut [u64], limit: u64) -> Said {
    let (table, len) = (table.as_mut_ptr(), table.len());
    let (scratch, scratch_len) = (scratch.as_mut_ptr(), scratch.len());
    said(|value, stores| unsafe {
        linkspan_recover(table, len, none, lost, scratch, scratch_len, limit, value, stores)
    })
}
