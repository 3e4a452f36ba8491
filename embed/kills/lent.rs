//! The table in memory shared with the children, between guard words.

use crate::processes::{Pages, PAGE_WORDS};

const GUARD_WORD: u64 = 0x5afe_5afe_5afe_5afe;

/// Room for the largest table, words to spare and guards.
const MOST_PAGES: usize = 26;

/// Words before and after the slice that no call may touch, at least so many.
const GUARD: usize = 16;

/// A slice to lend, somewhere in pages of its own.
#[derive(Clone, Copy)]
pub struct Lent {
    pages: Pages,
    lead: usize,
    length: usize,
}

impl Lent {
    pub fn shared() -> Lent {
        Lent { pages: Pages::shared(MOST_PAGES), lead: 0, length: 0 }
    }

    /// The same slice in memory of this process alone, with the same words.
    pub fn private_copy(&self) -> Lent {
        let mut copy = Lent { pages: Pages::private(MOST_PAGES), ..*self };
        copy.slice_mut().copy_from_slice(self.slice());
        copy
    }

    /// Lends a slice with these words, `shift` words off the least place.
    pub fn place(&mut self, shift: usize, words: &[u64]) {
        self.lead = GUARD + shift;
        self.length = words.len();
        self.all_mut().fill(GUARD_WORD);
        self.slice_mut().copy_from_slice(words);
    }

    fn all_mut(&mut self) -> &mut [u64] {
        unsafe { std::slice::from_raw_parts_mut(self.pages.start(), self.pages.words()) }
    }

    fn all(&self) -> &[u64] {
        unsafe { std::slice::from_raw_parts(self.pages.start(), self.pages.words()) }
    }

    pub fn slice(&self) -> &[u64] {
        &self.all()[self.lead..self.lead + self.length]
    }

    pub fn slice_mut(&mut self) -> &mut [u64] {
        let (start, end) = (self.lead, self.lead + self.length);
        &mut self.all_mut()[start..end]
    }

    /// The words around the slice are as they were.
    pub fn guards_stand(&self) -> bool {
        let (before, rest) = self.all().split_at(self.lead);
        let after = &rest[self.length..];
        before.iter().chain(after).all(|word| *word == GUARD_WORD)
    }

    /// Writes to each page without changing it, so that no later store waits for its page.
    pub fn touch(&mut self) {
        for page in self.all_mut().chunks_mut(PAGE_WORDS) {
            let word = &mut page[0] as *mut u64;
            unsafe { word.write_volatile(word.read_volatile()) };
        }
    }

    /// The number of pages that the slice lies in.
    pub fn page_count(&self) -> usize {
        (self.lead + self.length).div_ceil(PAGE_WORDS)
    }

    /// Some of the pages that the slice lies in.
    pub fn pages(&self, first: usize, count: usize) -> Pages {
        self.pages.part(first, count)
    }
}
