//! The library with one of its storing instructions taken out, each in turn: the test must find it.

use std::collections::BTreeMap;
use std::time::{Duration, Instant};

use crate::comparison::{Tally, Watch};
use crate::instructions::Instruction;
use crate::runs::Runs;
use crate::watch::{self, Watched};

/// So many calls are made without an instruction at most, and not longer than that.
const MOST_CALLS: u64 = 40_000;
const MOST_TIME: Duration = Duration::from_secs(30);
const SEED: u64 = 7;

/// Without each instruction that stored to a table there are faults.
pub fn judge(storing: &[Instruction], stored: &BTreeMap<u64, u64>, table: &mut Watched) -> u64 {
    let mut missed = 0;
    for instruction in storing.iter().filter(|instruction| stored.contains_key(&instruction.address)) {
        let Instruction { address, length, function, offset, text } = instruction;
        if !watch::without(*address, *length, || is_found(table)) {
            missed += 1;
            println!("fault: without {function}+{offset:x} {text} nothing was found");
        }
    }
    println!("each of the {} taken out in turn: {missed} were not found", stored.len());
    missed
}

/// Is there a fault within so many calls?
fn is_found(table: &mut Watched) -> bool {
    let until = Instant::now() + MOST_TIME;
    let mut tally = Tally::default();
    let mut runs = Runs::new(SEED);
    let (tally, left) = (&mut tally, MOST_CALLS);
    let mut watch = Watch { seed: SEED, run: 0, shown: 0, table, tally, left, until, said: (0, 0, 0) };
    while !watch.spent() && watch.tally.faults == 0 {
        runs.next(&mut watch);
    }
    watch.tally.faults > 0
}
