//! A child that makes a script's calls on the shared table and is killed.

use crate::calls::Said;
use crate::choices::WHOLE;
use crate::lent::Lent;
use crate::on_library::{on_library, SCRATCH_WORD};
use crate::processes::{self, Child, End, From, Pages, PAGE_WORDS};
use crate::random::Random;
use crate::script::{Script, Step, MOST_CALLS};
use std::sync::atomic::AtomicU64;
use std::sync::atomic::Ordering::{Relaxed, SeqCst};
use std::time::{Duration, Instant};

/// What a child tells: written by it alone, in shared memory.
#[repr(C)]
struct Board {
    /// Calls begun, calls ended.
    begun: AtomicU64,
    ended: AtomicU64,
    said: [[AtomicU64; 3]; MOST_CALLS],
}

/// How a child is killed.
#[derive(Clone, Copy, Debug)]
pub enum Kill {
    /// By its parent, so long after its first call began.
    Parent { after: Duration },
    /// By a timer, so long after it was set; the child's first call is made so long after that.
    Timer { after: Duration, wait: Duration },
    /// By itself, at an instruction of its last call.
    Instruction(Aim),
}

/// At which instruction.
#[derive(Clone, Copy, Debug)]
pub enum Aim {
    /// Any one of the call.
    Anywhere { draw: u64 },
    /// Any one from the first store on, among so many.
    Storing { draw: u64, most: u64 },
    /// So many instructions after so many stores to these pages of the table.
    Late { first: usize, pages: usize, stores: u64, instructions: u64 },
}

impl Aim {
    /// Where the counting begins in this table.
    fn start(self, table: &Lent) -> From {
        match self {
            Aim::Anywhere { .. } => From::Here,
            Aim::Storing { .. } => From::Store { pages: table.pages(0, table.page_count()), passes: 0 },
            Aim::Late { first, pages, stores, .. } => From::Store { pages: table.pages(first, pages), passes: stores },
        }
    }
}

/// Which calls a killed child had made.
pub struct Told {
    /// So many calls were finished.
    pub made: u64,
    /// The script was made so often,
    pub laps: u64,
    /// then so many of its calls were finished,
    pub finished: usize,
    /// and one more had begun.
    pub one_cut: bool,
    /// What the calls said, each the last time it was finished.
    pub said: Vec<Said>,
}

/// Room for what a recovery lends.
const SCRATCH: usize = 16 + 256 + 64;

pub struct Children {
    board: *const Board,
    scratch: Vec<u64>,
}

/// Longer than any child takes to begin.
const PATIENCE: Duration = Duration::from_secs(10);

/// The parent looks so long without giving its processor away.
const SPINNING: Duration = Duration::from_micros(200);

impl Children {
    pub fn new() -> Children {
        let pages = Pages::shared(std::mem::size_of::<Board>().div_ceil(8 * PAGE_WORDS));
        Children { board: pages.start() as *const Board, scratch: vec![SCRATCH_WORD; SCRATCH] }
    }

    fn board(&self) -> &Board {
        unsafe { &*self.board }
    }

    /// Lets a child make the calls and kills it; an error where it ended otherwise.
    pub fn killed(&mut self, script: &Script, kill: Kill, table: &mut Lent) -> Result<Told, String> {
        self.clear();
        let Some(child) = Child::fork() else { self.be_child(script, kill, table) };
        if let Kill::Parent { after } = kill {
            self.await_begun();
            spin_until(Instant::now(), after);
            child.kill();
        }
        match child.end() {
            End::Killed => Ok(self.told(script.steps.len())),
            End::Otherwise(signal) => Err(format!("the child ended otherwise than killed: signal {signal}")),
        }
    }

    fn clear(&self) {
        self.board().begun.store(0, SeqCst);
        self.board().ended.store(0, SeqCst);
    }

    fn told(&self, calls: usize) -> Told {
        let board = self.board();
        let (begun, ended) = (board.begun.load(SeqCst) as usize, board.ended.load(SeqCst) as usize);
        let said = |call: &[AtomicU64; 3]| (call[0].load(Relaxed), call[1].load(Relaxed), call[2].load(Relaxed));
        Told {
            made: ended as u64,
            laps: (ended / calls) as u64,
            finished: ended % calls,
            one_cut: begun > ended,
            said: board.said[..ended.min(calls)].iter().map(said).collect(),
        }
    }

    /// Until the child's first call, or until patience ends.
    fn await_begun(&self) {
        let start = Instant::now();
        while self.board().begun.load(SeqCst) == 0 && start.elapsed() < PATIENCE {
            match start.elapsed() < SPINNING {
                true => std::hint::spin_loop(),
                false => std::thread::yield_now(),
            }
        }
    }

    fn be_child(&mut self, script: &Script, kill: Kill, table: &mut Lent) -> ! {
        if let Kill::Timer { after, wait } = kill {
            self.rehearse(script.last(), table);
            let start = Instant::now();
            processes::kill_later(after);
            spin_until(start, wait);
        }
        match (kill, script.again) {
            (Kill::Instruction(aim), _) => self.make_all_aimed(script, aim, table),
            (_, true) => loop {
                self.make_all(script, table)
            },
            (_, false) => self.make_all(script, table),
        }
        match kill {
            Kill::Instruction(_) => processes::kill_self(),
            _ => processes::await_kill(),
        }
    }

    /// Touches every page and makes a call on a copy, so that the calls do not wait for their pages.
    fn rehearse(&mut self, step: &Step, table: &mut Lent) {
        let mut copy = table.private_copy();
        self.call(step, &mut copy);
        table.touch();
        self.clear();
    }

    fn make_all(&mut self, script: &Script, table: &mut Lent) {
        for (index, step) in script.steps.iter().enumerate() {
            self.make(index, step, table);
        }
    }

    fn make_all_aimed(&mut self, script: &Script, aim: Aim, table: &mut Lent) {
        let last = script.steps.len() - 1;
        for (index, step) in script.steps[..last].iter().enumerate() {
            self.make(index, step, table);
        }
        self.make_aimed(last, script.last(), aim, table);
    }

    /// One call, its beginning and its end told.
    fn make(&mut self, index: usize, step: &Step, table: &mut Lent) {
        self.board().begun.fetch_add(1, SeqCst);
        let said = self.call(step, table);
        self.tell_end(index, said);
    }

    fn tell_end(&self, index: usize, said: Said) {
        let place = &self.board().said[index];
        for (word, told) in place.iter().zip([said.0, said.1, said.2]) {
            word.store(told, Relaxed);
        }
        self.board().ended.fetch_add(1, SeqCst);
    }

    fn call(&mut self, step: &Step, table: &mut Lent) -> Said {
        let scratch = &mut self.scratch[..step.call.scratch_length()];
        on_library(step.call, table.slice_mut(), scratch, WHOLE)
    }

    /// The same, killed at an instruction.
    fn make_aimed(&mut self, index: usize, step: &Step, aim: Aim, table: &mut Lent) {
        let last = match aim {
            Aim::Anywhere { draw } => drawn(draw, self.length(step, aim, u64::MAX, table)),
            Aim::Storing { draw, most } => drawn(draw, self.length(step, aim, most, table) + 1),
            Aim::Late { instructions, .. } => instructions,
        };
        self.board().begun.fetch_add(1, SeqCst);
        let said = processes::killed_after(aim.start(table), last, || self.call(step, table));
        self.tell_end(index, said);
    }

    /// The instructions that the call takes on a copy of the table, at most so many.
    fn length(&mut self, step: &Step, aim: Aim, most: u64, table: &Lent) -> u64 {
        let mut copy = table.private_copy();
        processes::counted(aim.start(&copy), most, || {
            self.call(step, &mut copy);
        })
    }
}

/// A number under `end` by a drawn word.
fn drawn(draw: u64, end: u64) -> u64 {
    Random::new(draw).below(end.max(1))
}

fn spin_until(start: Instant, passed: Duration) {
    while start.elapsed() < passed {
        std::hint::spin_loop();
    }
}
