//! quay as document 01 tells it: the bytes of steps.bin to the lines that are printed.

use crate::calls::{Call, Said};
use crate::choices::WHOLE;
use crate::operations::MALFORMED;
use crate::runs::carry_out;

/// The bytes of a record.
pub const RECORD: usize = 16;

pub const TABLE_WORDS: usize = 8000;

/// Enough for a recovery of any geometry: 256 items and 16 nodes.
const SCRATCH_WORDS: usize = 272;

/// The table, and whether a format was accepted.
pub struct Quay {
    pub table: Vec<u64>,
    pub formatted: bool,
}

impl Quay {
    pub fn new() -> Quay {
        Quay { table: vec![0; TABLE_WORDS], formatted: false }
    }

    /// Answer, value and stores for the bytes of a record, whole or cut off.
    pub fn serve(&mut self, bytes: &[u8]) -> Said {
        match asked(bytes) {
            Some(call) => self.call(call),
            None => (MALFORMED, 0, 0),
        }
    }

    /// Until a format is accepted, every other call is lent an empty table.
    fn call(&mut self, call: Call) -> Said {
        let is_format = matches!(call, Call::Format { .. });
        let lent: &mut [u64] = if is_format || self.formatted { &mut self.table } else { &mut [] };
        let said = carry_out(lent, call, &mut [0; SCRATCH_WORDS], WHOLE);
        self.formatted |= is_format && said.0 == 0;
        said
    }
}

/// The lines of a file.
pub fn lines(bytes: &[u8]) -> String {
    let mut quay = Quay::new();
    let mut line = |(record, bytes): (usize, &[u8])| {
        let (answer, value, stores) = quay.serve(bytes);
        format!("{record} {answer} {value} {stores}\n")
    };
    bytes.chunks(RECORD).enumerate().map(&mut line).collect()
}

// The fields that an operation uses.
const NODE: u8 = 1;
const ITEM: u8 = 2;
const PLACE: u8 = 4;
const VALUE: u8 = 8;

/// What the operation uses; nothing where there is no such operation.
fn used(operation: u64, place: u64) -> Option<u8> {
    match (operation, place) {
        (1, _) => Some(NODE | ITEM),
        (2, _) => Some(NODE | ITEM | VALUE),
        (3, _) => Some(NODE | ITEM | PLACE),
        (4..=7, _) => Some(0),
        (8, 0) => Some(NODE | PLACE),
        (8, _) => Some(PLACE),
        _ => None,
    }
}

/// The call that a record asks for; nothing where it is malformed.
fn asked(bytes: &[u8]) -> Option<Call> {
    let record: &[u8; RECORD] = bytes.try_into().ok()?;
    let both = u128::from_be_bytes(*record);
    let (first, second) = ((both >> 64) as u64, both as u64);
    if first >> 60 == 0 {
        format_asked(first, second)
    } else {
        call_asked(first, second)
    }
}

/// The first word is laid out as the table's word 0: N in 5 bits, M in 9, F in 10.
fn format_asked(first: u64, second: u64) -> Option<Call> {
    let after_fields = first << (4 + 5 + 9 + 10);
    let call = Call::Format { nodes: first >> 55 & 0x1f, items: first >> 46 & 0x1ff, frames: first >> 36 & 0x3ff };
    (after_fields == 0 && second == 0).then_some(call)
}

/// The first word: operation in 4 bits, node in 4, item in 8, place in 1.
fn call_asked(first: u64, value: u64) -> Option<Call> {
    let (operation, node, item, place) = (first >> 60, first >> 56 & 0xf, first >> 48 & 0xff, first >> 47 & 1);
    let after_fields = first << (4 + 4 + 8 + 1);
    let used = used(operation, place)?;
    let fields = [(NODE, node), (ITEM, item), (PLACE, place), (VALUE, value)];
    if after_fields != 0 || fields.iter().any(|(field, content)| used & field == 0 && *content != 0) {
        return None;
    }
    Some(match operation {
        1 => Call::Read { node, item },
        2 => Call::Write { node, item, value },
        3 => Call::Evict { node, item, place },
        4 => Call::Open,
        5 => Call::Create,
        6 => Call::Commit,
        7 => Call::Abandon,
        _ => Call::Recover { none: place, lost: node, scratch: SCRATCH_WORDS },
    })
}
