//! Every store of the compiled library, watched: the lent table lies in read-only pages, so that each
//! store is seen by itself, with its instruction, in the order in which the processor makes them.
//!
//! For each call the stores must be, one by one, those that document 01 lists (by the reference
//! engine, stores of a word that is there already included), up to the limit; and of a whole call the
//! library's own limits 0, 1, 2, .. must leave the table as the first so many of them do. Every store
//! is of one aligned word of 8 bytes. At the end every instruction of the library that can store was
//! run, or is named in `verdict.rs`; and each that stored to a table is taken out in turn, which must be
//! found.
//!
//! Usage: order [--calls NUMBER] [--seconds NUMBER] [--brief] ARCHIVE [SEED ...]
//!
//! ARCHIVE is the library that this program is linked with. With --brief there are no runs on empty and
//! large tables, no instruction is taken out, and it is not asked whether each was run and every answer
//! met.

#[path = "../differential/calls.rs"]
mod calls;
#[path = "../differential/choices.rs"]
mod choices;
mod comparison;
mod instructions;
#[path = "../differential/library.rs"]
mod library;
#[path = "../differential/on_library.rs"]
mod on_library;
#[path = "../differential/random.rs"]
mod random;
#[path = "../differential/reference.rs"]
mod reference;
#[path = "../differential/runs.rs"]
mod runs;
#[path = "../differential/saves.rs"]
mod saves;
#[path = "../differential/tables.rs"]
mod tables;
mod taken_out;
mod verdict;
mod watch;

use std::time::{Duration, Instant};

use comparison::{Tally, Watch, SIZES};
use runs::Runs;
use watch::Watched;

const DEFAULT_CALLS: u64 = 100_000;
/// For so many calls, and in proportion for more.
const DEFAULT_SECONDS: u64 = 120;
const MOST_SECONDS: u64 = 1_000_000;
const DEFAULT_SEEDS: [u64; 2] = [1, 2];
const SHOWN: u64 = 10;

struct Arguments {
    calls: u64,
    seconds: Option<u64>,
    brief: bool,
    archive: String,
    seeds: Vec<u64>,
}

fn usage() -> ! {
    eprintln!("usage: order [--calls NUMBER] [--seconds NUMBER] [--brief] ARCHIVE [SEED ...]");
    std::process::exit(2)
}

fn number(text: Option<String>) -> u64 {
    text.and_then(|text| text.parse().ok()).unwrap_or_else(|| usage())
}

fn arguments() -> Arguments {
    let mut given = Arguments {
        calls: DEFAULT_CALLS,
        seconds: None,
        brief: false,
        archive: String::new(),
        seeds: Vec::new(),
    };
    let mut rest = std::env::args().skip(1);
    while let Some(argument) = rest.next() {
        match argument.as_str() {
            "--calls" => given.calls = number(rest.next()),
            "--seconds" => given.seconds = Some(number(rest.next())),
            "--brief" => given.brief = true,
            _ if given.archive.is_empty() => given.archive = argument,
            _ => given.seeds.push(number(Some(argument))),
        }
    }
    if given.archive.is_empty() {
        usage();
    }
    if given.seeds.is_empty() {
        given.seeds = DEFAULT_SEEDS.to_vec();
    }
    given
}

/// The runs of one seed, the rare ones first where they are wanted.
fn run_seed(rare: bool, watch: &mut Watch) {
    let mut runs = Runs::new(watch.seed);
    if rare {
        runs.rare(watch);
    }
    while !watch.spent() {
        watch.run += 1;
        runs.next(watch);
    }
}

fn main() {
    let given = arguments();
    let storing = instructions::storing(&given.archive);
    let mut table = Watched::new();
    let mut tally = Tally::default();
    if !given.brief {
        storing.iter().for_each(|instruction| watch::watch_for(instruction.address));
    }
    let start = Instant::now();
    let in_proportion = DEFAULT_SECONDS.saturating_mul(given.calls.div_ceil(DEFAULT_CALLS));
    let until = start + Duration::from_secs(given.seconds.unwrap_or(in_proportion).min(MOST_SECONDS));
    let left = given.calls.div_ceil(given.seeds.len() as u64);
    for &seed in &given.seeds {
        let (table, tally) = (&mut table, &mut tally);
        run_seed(!given.brief, &mut Watch { seed, run: 0, shown: SHOWN, table, tally, left, until, said: (0, 0, 0) });
    }
    let mut faults = tally.faults + verdict::judge_instructions(&storing, &tally.instructions);
    if !given.brief {
        faults += verdict::judge_reached(&storing) + verdict::judge_met(&tally);
        faults += taken_out::judge(&storing, &tally.instructions, &mut table);
    }
    let sizes: Vec<String> = SIZES.iter().zip(tally.sizes).map(|(most, calls)| format!("{most}: {calls}")).collect();
    println!("calls on tables of items up to {}", sizes.join(", "));
    let Tally { calls, stores, equal, limits, saves, .. } = tally;
    println!(
        "{calls} calls watched, {limits} more at limits 0, 1, 2, ..; {stores} stores, {equal} of a word that was \
         there, by {} instructions; {saves} whole saves; {:.1} s: {faults} faults",
        tally.instructions.len(),
        start.elapsed().as_secs_f64(),
    );
    std::process::exit((faults > 0) as i32);
}
