//! Child processes and memory shared with them: processes.c, called from Rust.

use std::ffi::c_void;
use std::time::Duration;

extern "C" {
    fn processes_memory(bytes: usize, shared: i32) -> *mut c_void;
    fn processes_fork(seconds: u32) -> i32;
    fn processes_end_after(seconds: u32);
    fn processes_kill(child: i32);
    fn processes_end(child: i32) -> i32;
    fn processes_kill_self() -> !;
    fn processes_kill_later(nanoseconds: u64) -> i32;
    fn processes_await_kill() -> !;
    fn processes_count_after(pages: *mut c_void, bytes: usize, passes: u64, last: u64, deadly: i32);
    fn processes_count_from_here(last: u64, deadly: i32);
    fn processes_stop_counting() -> u64;
}

const PAGE_BYTES: usize = 4096;
pub const PAGE_WORDS: usize = PAGE_BYTES / 8;

/// Seconds after which a child ends by itself.
const CHILD_SECONDS: u32 = 10;

/// Pages of memory of this process, or shared with its children; they are never given back.
#[derive(Clone, Copy)]
pub struct Pages {
    start: *mut u64,
    pages: usize,
}

impl Pages {
    fn new(pages: usize, shared: bool) -> Pages {
        let start = unsafe { processes_memory(pages * PAGE_BYTES, shared as i32) } as *mut u64;
        assert!(!start.is_null(), "no memory");
        Pages { start, pages }
    }

    pub fn shared(pages: usize) -> Pages {
        Pages::new(pages, true)
    }

    pub fn private(pages: usize) -> Pages {
        Pages::new(pages, false)
    }

    pub fn start(&self) -> *mut u64 {
        self.start
    }

    pub fn words(&self) -> usize {
        self.pages * PAGE_WORDS
    }

    /// Some of the pages.
    pub fn part(&self, first: usize, pages: usize) -> Pages {
        assert!(first + pages <= self.pages);
        Pages { start: unsafe { self.start.add(first * PAGE_WORDS) }, pages }
    }
}

/// A child process that has not been waited for.
pub struct Child(i32);

/// How a child ended.
#[derive(Clone, Copy, PartialEq, Eq)]
pub enum End {
    Killed,
    Otherwise(i32),
}

const SIGKILL: i32 = 9;

impl Child {
    /// Nothing in the child itself.
    pub fn fork() -> Option<Child> {
        let number = unsafe { processes_fork(CHILD_SECONDS) };
        assert!(number >= 0, "no child process");
        (number > 0).then_some(Child(number))
    }

    pub fn kill(&self) {
        unsafe { processes_kill(self.0) }
    }

    pub fn end(self) -> End {
        match unsafe { processes_end(self.0) } {
            SIGKILL => End::Killed,
            other => End::Otherwise(other),
        }
    }
}

/// This process ends when the time is over, whatever it does.
pub fn end_after(seconds: u64) {
    unsafe { processes_end_after(seconds.min(u32::MAX as u64) as u32) }
}

pub fn kill_self() -> ! {
    unsafe { processes_kill_self() }
}

/// This process is killed when the time is over.
pub fn kill_later(time: Duration) {
    let answer = unsafe { processes_kill_later(time.as_nanos() as u64) };
    assert!(answer == 0, "no timer");
}

pub fn await_kill() -> ! {
    unsafe { processes_await_kill() }
}

/// Where the counting of instructions begins.
#[derive(Clone, Copy)]
pub enum From {
    Here,
    /// At a store to these pages, after so many others, before it happens.
    Store { pages: Pages, passes: u64 },
}

/// Counts this process's instructions up to a last one, and then kills it or stops counting.
fn count(from: From, last: u64, deadly: bool) {
    match from {
        From::Here => unsafe { processes_count_from_here(last, deadly as i32) },
        From::Store { pages, passes } => unsafe {
            processes_count_after(pages.start as *mut c_void, pages.pages * PAGE_BYTES, passes, last, deadly as i32)
        },
    }
}

/// The number of instructions that the call takes, at most so many.
pub fn counted(from: From, most: u64, call: impl FnOnce()) -> u64 {
    count(from, most, false);
    call();
    unsafe { processes_stop_counting() }
}

/// Makes the call, in which the process is killed if it takes more instructions than `last`.
pub fn killed_after<T>(from: From, last: u64, call: impl FnOnce() -> T) -> T {
    count(from, last, true);
    let result = call();
    unsafe { processes_stop_counting() };
    result
}
