//! Watched memory, from `watch.c`: a table to lend of which no store is missed.

/// One store, as it was seen.
#[repr(C)]
#[derive(Clone, Copy, Default)]
pub struct Note {
    /// The address of the instruction that stored.
    pub instruction: u64,
    /// The address of the first byte stored to.
    address: u64,
    /// The word there once the instruction had run.
    pub word: u64,
    wrong: u64,
}

extern "C" {
    fn watch_init() -> i32;
    fn watch_area(words: usize, own: *mut *mut u64) -> *mut u64;
    fn watch_start(notes: *mut Note, room: u64);
    fn watch_stop() -> u64;
    fn watch_instruction(address: u64) -> i32;
    fn watch_was_run(address: u64) -> i32;
    fn watch_exchange(address: u64, bytes: *mut u8, count: u64) -> i32;
}

impl Note {
    /// What is wrong with the store beside its place and word.
    pub fn wrong(&self) -> Option<&'static str> {
        const WRONG: [(u64, &str); 3] = [
            (1, "begins within a word"),
            (2, "changes more than one word"),
            (4, "stores to two pages by one instruction"),
        ];
        WRONG.iter().find(|(bit, _)| self.wrong & bit != 0).map(|(_, text)| *text)
    }
}

/// Longer than any list of stores: document 01's longest is Format's, 12,305.
const ROOM: usize = 1 << 14;
/// Words before and after the lent slice, which are watched too.
const GUARD: usize = 8;
/// The words of the longest table, some to spare, and the guards.
const AREA: usize = 12_305 + 64 + 2 * GUARD;

/// A lent table in watched memory.
pub struct Watched {
    lent: *mut u64,
    own: *mut u64,
    length: usize,
    notes: Vec<Note>,
}

impl Watched {
    pub fn new() -> Watched {
        let mut own = std::ptr::null_mut();
        let lent = unsafe {
            assert_eq!(watch_init(), 0, "the signals cannot be taken over");
            watch_area(AREA, &mut own)
        };
        assert!(!lent.is_null(), "no memory to watch");
        Watched { lent, own, length: 0, notes: vec![Note::default(); ROOM] }
    }

    pub fn table(&self) -> &[u64] {
        unsafe { std::slice::from_raw_parts(self.own.add(GUARD), self.length) }
    }

    pub fn set(&mut self, words: &[u64]) {
        assert!(words.len() + 2 * GUARD <= AREA, "a table that is too long to watch");
        self.length = words.len();
        unsafe { std::slice::from_raw_parts_mut(self.own.add(GUARD), words.len()) }.copy_from_slice(words);
    }

    /// Lends the table; what the call says, and every store that it made.
    pub fn lend<Said>(&mut self, call: impl FnOnce(&mut [u64]) -> Said) -> (Said, &[Note]) {
        let (said, stores) = unsafe {
            watch_start(self.notes.as_mut_ptr(), ROOM as u64);
            let said = call(std::slice::from_raw_parts_mut(self.lent.add(GUARD), self.length));
            (said, watch_stop() as usize)
        };
        assert!(stores <= ROOM, "{stores} stores by one call");
        (said, &self.notes[..stores])
    }

    /// The place in the table of the word that was stored to; one before or past the table is none.
    pub fn place(&self, note: &Note) -> i64 {
        (note.address as i64 - self.lent as i64).div_euclid(8) - GUARD as i64
    }
}

/// From here on it is noted whether the instruction at the address is run.
pub fn watch_for(address: u64) {
    assert_eq!(unsafe { watch_instruction(address) }, 0, "the instruction at {address:x} cannot be watched for");
}

pub fn was_run(address: u64) -> bool {
    unsafe { watch_was_run(address) != 0 }
}

/// An instruction that does nothing, of one byte.
const DOES_NOTHING: u8 = 0x90;

/// Does something while the instruction at the address, of so many bytes, does nothing.
pub fn without<Done>(address: u64, length: usize, does: impl FnOnce() -> Done) -> Done {
    let mut bytes = vec![DOES_NOTHING; length];
    let mut exchange = || {
        let exchanged = unsafe { watch_exchange(address, bytes.as_mut_ptr(), length as u64) };
        assert_eq!(exchanged, 0, "the instruction at {address:x} cannot be taken out");
    };
    exchange();
    let done = does();
    exchange();
    done
}
