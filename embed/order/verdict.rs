//! What the instructions did, and which answers were met.

use std::collections::BTreeMap;

use crate::calls::ANSWERS;
use crate::comparison::Tally;
use crate::instructions::{self, Instruction};
use crate::watch;

/// Functions with instructions that can store and that no call can make run: how many, and why. None today.
const NEVER_RUN: [(&str, usize, &str); 0] = [];

/// Instructions, by their function.
type ByFunction<'a> = BTreeMap<&'a str, Vec<&'a Instruction>>;

fn by_function<'a>(instructions: impl Iterator<Item = &'a Instruction>) -> ByFunction<'a> {
    let mut sorted = ByFunction::new();
    for instruction in instructions {
        sorted.entry(&instruction.function).or_default().push(instruction);
    }
    sorted
}

/// Each instruction that stored to a table is one of the library and stores 8 bytes; their list.
pub fn judge_instructions(storing: &[Instruction], stored: &BTreeMap<u64, u64>) -> u64 {
    let mut faults = 0;
    for address in stored.keys() {
        if !storing.iter().any(|instruction| instruction.address == *address) {
            faults += 1;
            println!("fault: an instruction at {address:x}, none of the library's, stored to a table");
        }
    }
    let ours = || storing.iter().filter(|instruction| stored.contains_key(&instruction.address));
    for instruction in ours().filter(|instruction| !instructions::stores_a_word(&instruction.text)) {
        faults += 1;
        let Instruction { function, offset, text, .. } = instruction;
        println!("fault: {function}+{offset:x} stored to a table, and not one word of 8 bytes: {text}");
    }
    println!("instructions that stored to a table, by function and offset:");
    for (function, instructions) in by_function(ours()) {
        let offsets: Vec<String> = instructions.iter().map(|one| format!("{:x}", one.offset)).collect();
        println!("  {function}: {}", offsets.join(" "));
    }
    faults
}

/// Every instruction that can store was run, but for those that are named.
pub fn judge_reached(storing: &[Instruction]) -> u64 {
    let never = by_function(storing.iter().filter(|instruction| !watch::was_run(instruction.address)));
    let run = storing.len() - never.values().map(Vec::len).sum::<usize>();
    println!("{run} of the {} instructions that can store, other than to their own frame, were run", storing.len());
    let mut faults = 0;
    for (function, number, why) in NEVER_RUN {
        if never.get(function).map(Vec::len) == Some(number) {
            println!("  never run, {number} of {function}: {why}");
        } else {
            faults += 1;
            println!("fault: {function} is said to have {number} that are never run, and has not");
        }
    }
    for (function, instructions) in never {
        if !NEVER_RUN.iter().any(|(name, ..)| *name == function) {
            faults += 1;
            instructions.iter().for_each(|one| println!("fault: not run: {function}+{:x} {}", one.offset, one.text));
        }
    }
    faults
}

/// The answers met; faults are those that a call can give and did not.
pub fn judge_met(tally: &Tally) -> u64 {
    let mut faults = 0;
    println!("answers met, with the number of calls:");
    for (index, (name, answers)) in ANSWERS.iter().enumerate() {
        let met = answers.iter().map(|answer| format!("{answer}: {}", tally.met[index][*answer as usize]));
        println!("  {name:8} {}", met.collect::<Vec<_>>().join(", "));
        for answer in answers.iter().filter(|answer| tally.met[index][**answer as usize] == 0) {
            faults += 1;
            println!("fault: {name} did not answer {answer} in any call");
        }
    }
    faults
}
