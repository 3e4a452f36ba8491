//! The C functions of the library over the tuned Rust engine: a stand-in, so that everything that
//! links the library can itself be tested where the library has not been built.

#[path = "../../bench/native.rs"]
mod native;

use native::Outcome;

/// The answer where a choice of two is neither 0 nor 1.
const NO_SUCH_CHOICE: u64 = 18;

/// # Safety
/// `len` words at `table`, which nobody else holds; an empty slice may have any pointer.
unsafe fn lent<'a>(table: *mut u64, len: usize) -> &'a mut [u64] {
    if len == 0 {
        return &mut [];
    }
    std::slice::from_raw_parts_mut(table, len)
}

unsafe fn tell(outcome: Outcome, value: *mut u64, stores: *mut u64) -> u64 {
    *value = outcome.value;
    *stores = outcome.stores;
    outcome.answer
}

#[no_mangle]
pub extern "C" fn linkspan_words(nodes: u64, items: u64) -> u64 {
    native::words(nodes, items)
}

#[no_mangle]
pub unsafe extern "C" fn linkspan_check(table: *const u64, len: usize) -> u64 {
    native::check(lent(table as *mut u64, len))
}

#[no_mangle]
pub unsafe extern "C" fn linkspan_stretch(
    table: *const u64,
    len: usize,
    node: u64,
    start: *mut u64,
    words: *mut u64,
) -> u64 {
    let (answer, first, length) = native::stretch(lent(table as *mut u64, len), node);
    *start = first;
    *words = length;
    answer
}

#[no_mangle]
pub unsafe extern "C" fn linkspan_format(
    table: *mut u64,
    len: usize,
    nodes: u64,
    items: u64,
    frames: u64,
    limit: u64,
    value: *mut u64,
    stores: *mut u64,
) -> u64 {
    tell(native::format(lent(table, len), nodes, items, frames, limit), value, stores)
}

#[no_mangle]
pub unsafe extern "C" fn linkspan_read(
    table: *mut u64,
    len: usize,
    node: u64,
    item: u64,
    limit: u64,
    value: *mut u64,
    stores: *mut u64,
) -> u64 {
    tell(native::read(lent(table, len), node, item, limit), value, stores)
}

#[no_mangle]
pub unsafe extern "C" fn linkspan_write(
    table: *mut u64,
    len: usize,
    node: u64,
    item: u64,
    new_value: u64,
    limit: u64,
    value: *mut u64,
    stores: *mut u64,
) -> u64 {
    tell(native::write(lent(table, len), node, item, new_value, limit), value, stores)
}

#[no_mangle]
pub unsafe extern "C" fn linkspan_evict(
    table: *mut u64,
    len: usize,
    node: u64,
    item: u64,
    place: u64,
    limit: u64,
    value: *mut u64,
    stores: *mut u64,
) -> u64 {
    tell(native::evict(lent(table, len), node, item, place, limit), value, stores)
}

#[no_mangle]
pub unsafe extern "C" fn linkspan_open(
    table: *mut u64,
    len: usize,
    limit: u64,
    value: *mut u64,
    stores: *mut u64,
) -> u64 {
    tell(native::open(lent(table, len), limit), value, stores)
}

#[no_mangle]
pub unsafe extern "C" fn linkspan_create(
    table: *mut u64,
    len: usize,
    limit: u64,
    value: *mut u64,
    stores: *mut u64,
) -> u64 {
    tell(native::create(lent(table, len), limit), value, stores)
}

#[no_mangle]
pub unsafe extern "C" fn linkspan_commit(
    table: *mut u64,
    len: usize,
    limit: u64,
    value: *mut u64,
    stores: *mut u64,
) -> u64 {
    tell(native::commit(lent(table, len), limit), value, stores)
}

#[no_mangle]
pub unsafe extern "C" fn linkspan_commit_length(table: *const u64, len: usize, length: *mut u64) -> u64 {
    let outcome = native::commit_length(lent(table as *mut u64, len));
    *length = outcome.value;
    outcome.answer
}

#[no_mangle]
pub unsafe extern "C" fn linkspan_abandon(
    table: *mut u64,
    len: usize,
    limit: u64,
    value: *mut u64,
    stores: *mut u64,
) -> u64 {
    tell(native::abandon(lent(table, len), limit), value, stores)
}

#[no_mangle]
pub unsafe extern "C" fn linkspan_recover(
    table: *mut u64,
    len: usize,
    none: u64,
    lost: u64,
    scratch: *mut u64,
    scratch_len: usize,
    limit: u64,
    value: *mut u64,
    stores: *mut u64,
) -> u64 {
    if none > 1 {
        return tell(Outcome { answer: NO_SUCH_CHOICE, value: 0, stores: 0 }, value, stores);
    }
    let lost = (none == 0).then_some(lost);
    tell(native::recover(lent(table, len), lost, lent(scratch, scratch_len), limit), value, stores)
}
