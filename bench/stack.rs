//! How deep the library's calls go into the stack: it is painted, the call is made, and what was
//! painted over is counted.

use crate::calls::{on_library, Call, Geometry, KeptCall, FUNCTIONS, WHOLE};
use std::mem::MaybeUninit;
use std::rc::Rc;

/// Words: more than any call uses.
const PAINTED: usize = 8 * 1024;
const PAINT: u64 = 0x5afe_c0de_5afe_c0de;

/// Paints the words under the caller's frame; the address of the lowest.
#[inline(never)]
fn paint() -> usize {
    let mut words = MaybeUninit::<[u64; PAINTED]>::uninit();
    let lowest = words.as_mut_ptr().cast::<u64>();
    for k in 0..PAINTED {
        unsafe { lowest.add(k).write_volatile(PAINT) };
    }
    lowest as usize
}

/// How many of the painted words, from the lowest one on, have their paint still.
#[inline(never)]
fn untouched(lowest: usize) -> usize {
    let word = |k: &usize| unsafe { (lowest as *const u64).add(*k).read_volatile() };
    (0..PAINTED).take_while(|k| word(k) == PAINT).count()
}

/// Bytes under this function's frame that were written to.
#[inline(never)]
fn depth(call: Call, table: &mut [u64], scratch: &mut [u64]) -> usize {
    let lowest = paint();
    on_library(call, table, scratch, WHOLE);
    8 * (PAINTED - untouched(lowest))
}

/// Bytes of stack that the library's function uses in this call, beside its return address.
fn used(kept: &KeptCall, geometry: Geometry) -> usize {
    let (mut table, mut scratch) = (kept.table.to_vec(), vec![0; geometry.scratch_words()]);
    let nothing = depth(Call::Nothing, &mut table, &mut scratch);
    depth(kept.call, &mut table, &mut scratch).saturating_sub(nothing)
}

/// The calls that are not timed, on this table.
fn untimed(geometry: Geometry, table: &Rc<[u64]>) -> [KeptCall; 2] {
    let calls = [Call::Words(geometry), Call::Stretch { node: geometry.nodes - 1 }];
    calls.map(|call| KeptCall { call, table: table.clone() })
}

/// The most that each of the functions uses in any of these calls.
pub fn deepest(geometry: Geometry, kept: &[Vec<KeptCall>]) -> [usize; FUNCTIONS.len()] {
    let mut most = [0; FUNCTIONS.len()];
    let untimed = untimed(geometry, &kept[0][0].table);
    for kept in kept.iter().flatten().chain(&untimed) {
        let function = FUNCTIONS.iter().position(|name| *name == kept.call.function());
        let function = function.expect("every call is made by a function");
        most[function] = most[function].max(used(kept, geometry));
    }
    most
}
