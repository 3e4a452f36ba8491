//! Kills: a child process makes random calls on a table in shared memory and is killed by SIGKILL, at a random
//! moment or at a random instruction. Its parent finds the table at a limit of the call that was cut, lets a strike
//! happen, recovers through the library and compares every item with a plain memory of its own.
//!
//! Usage: kills [--kills NUMBER] [--seconds NUMBER] [SEED ...]
//!
//! Status 1 for a fault, or if a call that stores was never killed in mid-list, which is not asked of fewer kills than
//! there are by default; 2 for bad usage.

#[path = "../differential/calls.rs"]
#[allow(dead_code)]
mod calls;
#[allow(dead_code)]
#[path = "../differential/choices.rs"]
mod choices;
#[path = "../differential/library.rs"]
mod library;
#[path = "../differential/on_library.rs"]
mod on_library;
#[path = "../differential/random.rs"]
mod random;
#[path = "../differential/reference.rs"]
mod reference;
#[allow(dead_code)]
#[path = "../differential/tables.rs"]
mod tables;

mod children;
mod lent;
mod limits;
mod memory;
mod processes;
mod restored;
mod run;
mod script;
mod strike;
mod tally;

use random::Random;
use run::{Place, Run};
use script::{Wish, ABANDON, COMMIT, CREATE, EVICT, FORMAT, OPEN, READ, RECOVER, WRITE};
use std::time::{Duration, Instant};
use tally::Tally;

const DEFAULT_KILLS: u64 = 10_000;
/// For so many kills, and in proportion for more.
const DEFAULT_SECONDS: u64 = 60;
/// A test that still runs so many seconds after its time is ended.
const GRACE: u64 = 60;
const MOST_SECONDS: u64 = 1_000_000;
const DEFAULT_SEEDS: [u64; 4] = [1, 2, 3, 4];
const MOST_ROUNDS: u64 = 6;

/// The calls to cut, one after the other.
const WISHES: [Wish; 12] =
    [COMMIT, WRITE, RECOVER, EVICT, CREATE, COMMIT, READ, OPEN, ABANDON, COMMIT, WRITE, FORMAT];

/// What is asked for.
struct Bounds {
    kills: u64,
    seconds: u64,
    seeds: Vec<u64>,
}

/// The runs of one seed, until the tally has so many kills or the time is over.
fn run_seed(seed: u64, kills: u64, end: Instant, place: &mut Place, tally: &mut Tally) {
    let mut run = 0;
    while tally.kills() < kills && tally.faults < kills && Instant::now() < end {
        run += 1;
        let random = Random::new(seed.wrapping_mul(0x9e37_79b9) ^ run << 32);
        match Run::begin(random, place, tally) {
            Err(fault) => tally.note_fault(seed, run, 0, &fault),
            Ok(begun) => run_rounds(begun, seed, run),
        }
    }
}

fn run_rounds(mut run: Run, seed: u64, number: u64) {
    for round in 1..=run.random.between(1, MOST_ROUNDS) {
        match run.round(WISHES[(number + round) as usize % WISHES.len()]) {
            Ok(true) => (),
            Ok(false) => break,
            Err(fault) => {
                run.tally.note_fault(seed, number, round, &fault);
                break;
            }
        }
    }
}

fn number(text: &str) -> u64 {
    text.parse().unwrap_or_else(|_| {
        eprintln!("usage: kills [--kills NUMBER] [--seconds NUMBER] [SEED ...]");
        std::process::exit(2)
    })
}

fn arguments() -> Bounds {
    let mut bounds = Bounds { kills: DEFAULT_KILLS, seconds: 0, seeds: Vec::new() };
    let mut seconds = None;
    let mut rest = std::env::args().skip(1);
    while let Some(argument) = rest.next() {
        match argument.as_str() {
            "--kills" => bounds.kills = number(&rest.next().unwrap_or_default()),
            "--seconds" => seconds = Some(number(&rest.next().unwrap_or_default())),
            seed => bounds.seeds.push(number(seed)),
        }
    }
    if bounds.seeds.is_empty() {
        bounds.seeds = DEFAULT_SEEDS.to_vec();
    }
    let in_proportion = DEFAULT_SECONDS.saturating_mul(bounds.kills.div_ceil(DEFAULT_KILLS));
    bounds.seconds = seconds.unwrap_or(in_proportion).min(MOST_SECONDS);
    bounds
}

fn main() {
    let Bounds { kills, seconds, seeds } = arguments();
    let start = Instant::now();
    processes::end_after(seconds + GRACE);
    let mut place = Place::new();
    let mut tally = Tally::default();
    let share = seeds.len() as u64;
    for (index, &seed) in (1..).zip(&seeds) {
        let end = start + Duration::from_millis(1000 * seconds * index / share);
        run_seed(seed, kills.saturating_mul(index) / share, end, &mut place, &mut tally);
    }
    tally.print();
    let over = if tally.kills() < kills { ": the time was over before" } else { "" };
    println!("seeds {seeds:?}, {:.1} s, {kills} kills asked for{over}", start.elapsed().as_secs_f64());
    println!("{}", tally.result());
    let too_few_met = kills >= DEFAULT_KILLS && !tally.unmet().is_empty();
    std::process::exit((tally.faults > 0 || too_few_met) as i32);
}
