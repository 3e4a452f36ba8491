//! The operations' numbers in both files, and how often each gave each answer.

use crate::calls::{Call, ANSWERS, NO_SUCH_CHOICE};
use crate::saves;
use std::collections::BTreeMap;

/// quay's operations, and two that only vectors.bin has: Check and Stretch.
const NUMBERS: [(&str, u64); 11] = [
    ("format", 0),
    ("read", 1),
    ("write", 2),
    ("evict", 3),
    ("open", 4),
    ("create", CREATE),
    ("commit", 6),
    ("abandon", 7),
    ("recover", 8),
    ("check", CHECK),
    ("stretch", STRETCH),
];

const CREATE: u64 = 5;
pub const CHECK: u64 = 16;
const STRETCH: u64 = 17;

/// quay's answer to a record that is malformed.
pub const MALFORMED: u64 = 18;

/// The answer to a geometry that is not allowed.
pub const NO_GEOMETRY: u64 = 3;

/// The answer where a frame is needed and none is free.
pub const NO_FRAME: u64 = 9;

/// A format's answer to more frames than a node has places.
pub const TOO_MANY_FRAMES: u64 = 20;

/// Answers that quay never gives, since its table is its own, its calls are whole and its scratch is long enough; and
/// 3, which only a format can give there.
const NOT_IN_QUAY: [u64; 4] = [2, 13, 15, 16];
const FORMAT_ONLY: u64 = 3;

/// The operations that a record can name and quay does not know.
const UNKNOWN: std::ops::RangeInclusive<u64> = 9..=15;

/// The number of a call's operation.
pub fn number(call: &Call) -> u64 {
    let name = ANSWERS[call.name_index()].0;
    NUMBERS.iter().find(|(known, _)| *known == name).expect("a call of the files").1
}

/// An operation and the answers that document 01 allows it.
pub struct Row {
    operation: u64,
    name: &'static str,
    answers: Vec<u64>,
}

/// The answers of single calls.
pub fn rows_of_calls() -> Vec<Row> {
    let row = |(name, operation): &(&'static str, u64)| {
        let allowed = ANSWERS.iter().find(|(known, _)| known == name).expect("an operation is a call").1;
        let answers = allowed.iter().copied().filter(|answer| *answer != NO_SUCH_CHOICE).collect();
        Row { operation: *operation, name, answers }
    };
    NUMBERS.iter().map(row).collect()
}

/// The answers of records.
pub fn rows_of_records() -> Vec<Row> {
    let mut rows: Vec<Row> = rows_of_calls().into_iter().filter(|row| row.operation < CHECK).collect();
    for row in &mut rows {
        let is_format = row.name == "format";
        row.answers.retain(|answer| !NOT_IN_QUAY.contains(answer) && (is_format || *answer != FORMAT_ONLY));
        row.answers.push(MALFORMED);
    }
    rows.extend(UNKNOWN.map(|operation| Row { operation, name: "unknown", answers: vec![MALFORMED] }));
    rows
}

/// How often each operation gave each answer.
#[derive(Default)]
pub struct Tally {
    met: BTreeMap<(u64, u64), u64>,
}

impl Tally {
    /// Notes the answer, given the table that the call left; stops the program where a create has found no home though
    /// at most one node is dead.
    pub fn note(&mut self, operation: u64, answer: u64, table: &[u64]) {
        let homeless = operation == CREATE && saves::lacks_home(answer, table);
        assert!(!homeless, "a create without a home, though at most one node is dead");
        *self.met.entry((operation, answer)).or_default() += 1;
    }

    pub fn total(&self) -> u64 {
        self.met.values().sum()
    }

    /// A line for each operation: its answers, each with how often it was given.
    pub fn print(&self, rows: &[Row]) {
        for row in rows {
            let of_row = self.met.iter().filter(|((operation, _), _)| *operation == row.operation);
            let counts: Vec<String> = of_row.map(|((_, answer), count)| format!("{answer}: {count}")).collect();
            println!("  {:2} {:8} {}", row.operation, row.name, counts.join(", "));
        }
    }

    /// Stops the program unless each operation gave each of its answers, and no other.
    pub fn require(&self, rows: &[Row]) {
        for row in rows {
            for answer in &row.answers {
                let met = self.met.contains_key(&(row.operation, *answer));
                assert!(met, "{} never gave answer {answer}", row.name);
            }
        }
        for (operation, answer) in self.met.keys() {
            let allowed = rows.iter().any(|row| row.operation == *operation && row.answers.contains(answer));
            assert!(allowed, "operation {operation} gave answer {answer}");
        }
    }
}
