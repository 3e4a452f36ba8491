//! Times of both engines, by turns over many tables.

use crate::calls::{Engine, Geometry, KeptCall};
use std::hint::black_box;
use std::time::{Duration, Instant};

/// Words that the tables of a round have together, about: short rounds, so that most are not disturbed.
const ROUND_WORDS: usize = 90_000;
const FEWEST_TABLES: usize = 8;
const MOST_TABLES: usize = 500;
/// Rounds until a table has its turn again: so many that a branch predictor does not learn the tables. Those
/// of one round it can learn, and then a call that depends on it looks faster than it is. The number is odd,
/// so that each engine is the first on every table at times.
const TURNS: usize = 9;
/// Words that the buffers of a batch have together, at most, if the table is smaller: they stay in the
/// nearest cache.
const BATCH_WORDS: usize = 3000;

/// How many tables of each sort are timed in turn.
pub fn tables_in_turn(geometry: Geometry) -> usize {
    TURNS * (ROUND_WORDS / geometry.words()).clamp(FEWEST_TABLES, MOST_TABLES)
}

/// Tables that are timed under one start of the clock.
pub struct Buffers {
    tables: Vec<Vec<u64>>,
    scratch: Vec<u64>,
    /// What starting and stopping the clock takes.
    clock: f64,
}

impl Buffers {
    pub fn new(geometry: Geometry) -> Buffers {
        let batch = (BATCH_WORDS / geometry.words()).max(1);
        Buffers {
            tables: vec![vec![0; geometry.words()]; batch],
            scratch: vec![0; geometry.scratch_words()],
            clock: clock_time(),
        }
    }

    /// Puts the tables of a batch in the buffers, and reads them once, so that they are in the cache.
    fn fill(&mut self, batch: &[KeptCall]) {
        for (buffer, kept) in self.tables.iter_mut().zip(batch) {
            buffer.copy_from_slice(&kept.table);
        }
        for buffer in &self.tables {
            black_box(read_once(buffer));
        }
    }

    /// Nanoseconds for each kept call of what is done to its table, filling not timed.
    fn time(&mut self, kept: &[KeptCall], mut work: impl FnMut(&KeptCall, &mut [u64], &mut [u64])) -> f64 {
        let mut passed = 0.0;
        for batch in kept.chunks(self.tables.len()) {
            self.fill(batch);
            let start = Instant::now();
            for (buffer, kept) in self.tables.iter_mut().zip(batch) {
                work(kept, buffer, &mut self.scratch);
            }
            passed += (start.elapsed().as_nanos() as f64 - self.clock).max(0.0);
        }
        passed / kept.len() as f64
    }

    fn time_calls(&mut self, engine: Engine, kept: &[KeptCall]) -> f64 {
        self.time(kept, |kept, table, scratch| {
            black_box(engine.call(black_box(kept.call), table, scratch));
        })
    }

    fn time_reading(&mut self, kept: &[KeptCall]) -> f64 {
        self.time(kept, |_, table, _| {
            black_box(read_once(table));
        })
    }
}

#[inline(never)]
fn read_once(table: &[u64]) -> u64 {
    table.iter().fold(0, |sum, word| sum ^ word)
}

fn median(mut samples: Vec<f64>) -> f64 {
    samples.sort_by(f64::total_cmp);
    samples[samples.len() / 2]
}

pub fn mean(numbers: impl Iterator<Item = f64>) -> f64 {
    let (sum, count) = numbers.fold((0.0, 0), |(sum, count), number| (sum + number, count + 1));
    sum / count as f64
}

fn clock_time() -> f64 {
    median((0..10_001).map(|_| Instant::now().elapsed().as_nanos() as f64).collect())
}

/// The times of one sort, one for each round.
#[derive(Default)]
pub struct Samples {
    library: Vec<f64>,
    native: Vec<f64>,
    floor: Vec<f64>,
}

impl Samples {
    /// Rounds until the time is over, each on the tables whose turn it is.
    pub fn add(&mut self, buffers: &mut Buffers, kept: &[KeptCall], budget: Duration) {
        let end = Instant::now() + budget;
        let mut rounds = kept.chunks(kept.len() / TURNS).cycle().skip(self.floor.len() % TURNS);
        while let Some(tables) = rounds.next().filter(|_| Instant::now() < end) {
            self.round(buffers, tables);
        }
    }

    /// All calls by one engine, all by the other, the order changing each round, and the reading of all
    /// tables.
    fn round(&mut self, buffers: &mut Buffers, kept: &[KeptCall]) {
        let library_first = self.floor.len() % 2 == 0;
        if library_first {
            self.library.push(buffers.time_calls(Engine::Library, kept));
        }
        self.native.push(buffers.time_calls(Engine::Native, kept));
        if !library_first {
            self.library.push(buffers.time_calls(Engine::Library, kept));
        }
        self.floor.push(buffers.time_reading(kept));
    }

    pub fn times(self) -> Times {
        let quotients = self.library.iter().zip(&self.native).map(|(library, native)| library / native);
        let ratio = median(quotients.collect());
        Times { library: median(self.library), native: median(self.native), floor: median(self.floor), ratio }
    }
}

/// Nanoseconds for a call.
#[derive(Clone, Copy)]
pub struct Times {
    pub library: f64,
    pub native: f64,
    /// To read the table's words once.
    pub floor: f64,
    /// Library to native: the median over the rounds, each of which times both one after the other.
    pub ratio: f64,
}
