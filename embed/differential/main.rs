//! The library against an independent engine written from document 01: the same random calls on
//! both, and after each call the answers, every word of the table and of the scratch, and the words
//! around them are compared.
//!
//! Usage: differential [--calls NUMBER] [SEED ...]
//!
//! Compiled with `--cfg stand_in`, the tuned Rust engine takes the library's place.

mod calls;
mod choices;
mod library;
mod on_library;
mod random;
mod reference;
mod runs;
mod saves;
mod tables;
mod twins;

#[cfg(stand_in)]
#[allow(dead_code)]
mod stand_in;

use calls::{Call, Met, Said, ANSWERS, MOST_ANSWER};
use runs::{Runs, Subject};
use tables::Geometry;
use twins::{Compared, Twins};

const DEFAULT_CALLS: u64 = 2_000_000;
const DEFAULT_SEEDS: [u64; 4] = [1, 2, 3, 4];
const SHOWN: u64 = 10;

/// What has been met so far.
struct Tally {
    calls: u64,
    differences: u64,
    /// Calls carried out that made as many stores as their limit.
    at_limit: u64,
    /// Recoveries that rolled forward.
    forward: u64,
    /// Commits carried out of which was told how long they would be.
    foretold: u64,
    /// Saves carried out whole, of tables on which no save may be refused.
    saves: u64,
    met: Met,
}

/// The runs of one seed, on the library and on the reference.
struct Comparison<'a> {
    seed: u64,
    run: u64,
    twins: Twins,
    tally: &'a mut Tally,
    left: u64,
    /// What the library said last.
    said: Said,
}

impl Subject for Comparison<'_> {
    fn table(&self) -> &[u64] {
        self.twins.table()
    }

    fn set(&mut self, words: &[u64]) {
        self.twins.set(words);
    }

    fn call(&mut self, call: Call, limit: u64) -> bool {
        let entry = self.table().to_vec();
        let compared = self.twins.call(call, limit);
        self.note(call, limit, &entry, &compared);
        self.left = self.left.saturating_sub(1);
        self.said = compared.library;
        let homeless = matches!(call, Call::Create) && saves::lacks_home(self.said.0, &entry);
        let right = compared.same && compared.as_told != Some(false) && !homeless;
        if !right {
            self.report(call, limit, &entry, &compared);
        }
        right
    }

    fn said(&self) -> Said {
        self.said
    }

    fn fault(&mut self, what: &str) {
        self.tally.differences += 1;
        if self.tally.differences <= SHOWN {
            println!("fault in seed {}, run {}: {what}", self.seed, self.run);
        }
    }

    fn saved(&mut self) {
        self.tally.saves += 1;
    }
}

impl Comparison<'_> {
    fn note(&mut self, call: Call, limit: u64, entry: &[u64], compared: &Compared) {
        let (answer, _, stores) = compared.reference;
        self.tally.calls += 1;
        self.tally.met[call.name_index()][answer as usize] += 1;
        self.tally.at_limit += (answer == 0 && stores == limit) as u64;
        self.tally.foretold += (answer == 0 && compared.as_told == Some(true)) as u64;
        if let (Call::Recover { none, lost, .. }, 0) = (call, answer) {
            let nodes = Geometry::of_table(entry).nodes;
            let committing = |node: u64| entry[1 + node as usize] >> 61 & 3 == 2;
            let survivor = |node: u64| none == 1 || node != lost;
            self.tally.forward += (0..nodes).any(|node| survivor(node) && committing(node)) as u64;
        }
    }

    fn report(&mut self, call: Call, limit: u64, entry: &[u64], compared: &Compared) {
        self.tally.differences += 1;
        if self.tally.differences > SHOWN {
            return;
        }
        println!("difference in seed {}, run {}: {call:?}, limit {limit}", self.seed, self.run);
        println!("  library   (answer, value, stores): {:?}", compared.library);
        println!("  reference (answer, value, stores): {:?}", compared.reference);
        if matches!(call, Call::Create) && saves::lacks_home(compared.library.0, entry) {
            println!("  a create without a home, though there is room for one");
        }
        if compared.as_told == Some(false) {
            println!("  another commit than `commit_length` told of");
        }
        for (place, ours, theirs) in self.twins.differing() {
            println!("  word {place}: library {ours:016x}, reference {theirs:016x}");
        }
        if entry.len() <= 100 {
            let words: Vec<String> = entry.iter().map(|word| format!("{word:x}")).collect();
            println!("  table before: {}", words.join(" "));
        }
    }
}

fn run_seed(seed: u64, calls: u64, tally: &mut Tally) {
    let mut runs = Runs::new(seed);
    let mut comparison = Comparison { seed, run: 0, twins: Twins::new(&[]), tally, left: calls, said: (0, 0, 0) };
    runs.rare(&mut comparison);
    while comparison.left > 0 {
        comparison.run += 1;
        runs.next(&mut comparison);
    }
}

fn print_met(tally: &Tally) {
    for (index, (name, answers)) in ANSWERS.iter().enumerate() {
        let met: Vec<String> = (0..=MOST_ANSWER)
            .filter(|answer| tally.met[index][*answer] > 0)
            .map(|answer| format!("{answer}: {}", tally.met[index][answer]))
            .collect();
        println!("  {name:8} {}", met.join(", "));
        for answer in answers.iter().filter(|answer| tally.met[index][**answer as usize] == 0) {
            println!("  {name:8} answer {answer} was not met");
        }
    }
}

fn number(text: &str) -> u64 {
    text.parse().unwrap_or_else(|_| {
        eprintln!("usage: differential [--calls NUMBER] [SEED ...]");
        std::process::exit(2)
    })
}

fn arguments() -> (u64, Vec<u64>) {
    let mut calls = DEFAULT_CALLS;
    let mut seeds = Vec::new();
    let mut rest = std::env::args().skip(1);
    while let Some(argument) = rest.next() {
        match argument.as_str() {
            "--calls" => calls = number(&rest.next().unwrap_or_default()),
            seed => seeds.push(number(seed)),
        }
    }
    if seeds.is_empty() {
        seeds = DEFAULT_SEEDS.to_vec();
    }
    (calls, seeds)
}

fn main() {
    let (calls, seeds) = arguments();
    let mut tally =
        Tally { calls: 0, differences: 0, at_limit: 0, forward: 0, foretold: 0, saves: 0, met: Met::default() };
    let start = std::time::Instant::now();
    for &seed in &seeds {
        run_seed(seed, calls.div_ceil(seeds.len() as u64), &mut tally);
    }
    println!("answers met, with the number of calls:");
    print_met(&tally);
    println!(
        "{} calls, {} made just as many stores as their limit, {} recoveries rolled forward, {} commits of a length that \
         was told before, {} whole saves, seeds {seeds:?}, {:.1} s: {} differences",
        tally.calls,
        tally.at_limit,
        tally.forward,
        tally.foretold,
        tally.saves,
        start.elapsed().as_secs_f64(),
        tally.differences
    );
    std::process::exit((tally.differences > 0 || tally.foretold == 0 || tally.saves == 0) as i32);
}
