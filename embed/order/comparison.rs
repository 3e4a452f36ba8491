//! A call on the watched table, held to document 01's list and to the library's own limits.

use std::collections::BTreeMap;
use std::time::Instant;

use crate::calls::{listed, on_reference, Call, Met, Said};
use crate::choices::WHOLE;
use crate::on_library::{on_library, SCRATCH_WORD};
use crate::runs::Subject;
use crate::saves;
use crate::tables::Geometry;
use crate::watch::Watched;

/// The most items of a table, by class.
pub const SIZES: [u64; 3] = [16, 64, 256];

/// A store: the place in the table, and the word.
type Store = (i64, u64);

/// What has been met so far.
#[derive(Default)]
pub struct Tally {
    pub calls: u64,
    /// Calls at the library's own limits.
    pub limits: u64,
    pub stores: u64,
    /// Stores of a word that was there already.
    pub equal: u64,
    pub faults: u64,
    /// Saves carried out whole, of tables on which no save may be refused.
    pub saves: u64,
    /// Calls on tables of up to so many items.
    pub sizes: [u64; SIZES.len()],
    /// How often each instruction stored to a table, by its address.
    pub instructions: BTreeMap<u64, u64>,
    pub met: Met,
}

/// The runs of one seed, on a watched table.
pub struct Watch<'a> {
    pub seed: u64,
    pub run: u64,
    /// So many faults are shown.
    pub shown: u64,
    pub table: &'a mut Watched,
    pub tally: &'a mut Tally,
    pub left: u64,
    pub until: Instant,
    /// What the library said last.
    pub said: Said,
}

impl Subject for Watch<'_> {
    fn table(&self) -> &[u64] {
        self.table.table()
    }

    fn set(&mut self, words: &[u64]) {
        self.table.set(words);
    }

    fn call(&mut self, call: Call, limit: u64) -> bool {
        let entry = self.table().to_vec();
        self.left = self.left.saturating_sub(1);
        let fault = self.watched(call, limit, &entry);
        if let Err(text) = &fault {
            self.report(call, limit, text);
        }
        fault.is_ok() && !self.spent()
    }

    fn said(&self) -> Said {
        self.said
    }

    fn fault(&mut self, what: &str) {
        self.tally.faults += 1;
        if self.tally.faults <= self.shown {
            println!("fault in seed {}, run {}: {what}", self.seed, self.run);
        }
    }

    fn saved(&mut self) {
        self.tally.saves += 1;
    }
}

impl Watch<'_> {
    pub fn spent(&self) -> bool {
        self.left == 0 || Instant::now() > self.until
    }

    /// One call, and what is wrong with it.
    fn watched(&mut self, call: Call, limit: u64, entry: &[u64]) -> Result<(), String> {
        let listed = listed(call, entry).map_or(Vec::new(), |(_, stores)| stores);
        let listed: Vec<Store> = listed.into_iter().map(|(place, word)| (place as i64, word)).collect();
        let made = &listed[..limit.min(listed.len() as u64) as usize];
        let (expected, after) = by_reference(call, limit, entry);
        let said = self.lend(call, limit, entry, made)?;
        self.said = said;
        self.tally.calls += 1;
        self.tally.met[call.name_index()][expected.0 as usize] += 1;
        if let Some(size) = size_class(entry) {
            self.tally.sizes[size] += 1;
        }
        if said != expected {
            return Err(format!("says {said:?} (answer, value, stores), expected {expected:?}"));
        }
        if matches!(call, Call::Create) && saves::lacks_home(said.0, entry) {
            return Err("no home, though there is room for one".to_string());
        }
        if self.table() != after {
            return Err("the table is another one".to_string());
        }
        if limit == WHOLE {
            self.own_limits(call, entry, &listed)?;
        }
        Ok(())
    }

    /// The call on the watched table; its stores must be those of the list.
    fn lend(&mut self, call: Call, limit: u64, entry: &[u64], listed: &[Store]) -> Result<Said, String> {
        let mut scratch = vec![SCRATCH_WORD; call.scratch_length()];
        let (said, notes) = self.table.lend(|table| on_library(call, table, &mut scratch, limit));
        let notes = notes.to_vec();
        let stores: Vec<Store> = notes.iter().map(|note| (self.table.place(note), note.word)).collect();
        for note in &notes {
            *self.tally.instructions.entry(note.instruction).or_default() += 1;
        }
        self.tally.stores += stores.len() as u64;
        self.tally.equal += equal_words(entry, &stores);
        if let Some((at, wrong)) = notes.iter().enumerate().find_map(|(at, note)| Some((at, note.wrong()?))) {
            return Err(format!("store {at}, at place {}, {wrong}", stores[at].0));
        }
        first_difference(&stores, listed).map_or(Ok(said), Err)
    }

    /// At limits 0, 1, 2, .. the library leaves the table as the first so many stores do.
    fn own_limits(&mut self, call: Call, entry: &[u64], stores: &[Store]) -> Result<(), String> {
        let mut expected = entry.to_vec();
        let mut table = entry.to_vec();
        let mut scratch = vec![SCRATCH_WORD; call.scratch_length()];
        for limit in 0..stores.len() {
            table.copy_from_slice(entry);
            let (_, _, made) = on_library(call, &mut table, &mut scratch, limit as u64);
            self.tally.limits += 1;
            if made != limit as u64 || table != expected {
                return Err(format!("at limit {limit} the library leaves another table than its first {limit} stores"));
            }
            let (place, word) = stores[limit];
            expected[place as usize] = word;
        }
        Ok(())
    }

    fn report(&mut self, call: Call, limit: u64, text: &str) {
        self.fault(&format!("{call:?}, limit {limit}: {text}"));
    }
}

/// The class of the items in the table's first word, where it is one of a table's.
fn size_class(table: &[u64]) -> Option<usize> {
    let items = Geometry::of_table(table).items;
    SIZES.iter().position(|most| items <= *most)
}

/// What the reference says, and the table that it leaves.
fn by_reference(call: Call, limit: u64, entry: &[u64]) -> (Said, Vec<u64>) {
    let mut table = entry.to_vec();
    let mut scratch = vec![SCRATCH_WORD; call.scratch_length()];
    let said = on_reference(call, &mut table, &mut scratch, limit);
    (said, table)
}

/// How many of the stores write what is there already.
fn equal_words(entry: &[u64], stores: &[Store]) -> u64 {
    let mut table = entry.to_vec();
    let mut equal = 0;
    for &(place, word) in stores {
        if let Some(at) = usize::try_from(place).ok().and_then(|place| table.get_mut(place)) {
            equal += (*at == word) as u64;
            *at = word;
        }
    }
    equal
}

/// The first store that is not the listed one.
fn first_difference(stores: &[Store], listed: &[Store]) -> Option<String> {
    let at = (0..stores.len().max(listed.len())).find(|&at| stores.get(at) != listed.get(at))?;
    let told = |store: Option<&Store>| {
        store.map_or("none".to_string(), |(place, word)| format!("{word:016x} at place {place}"))
    };
    let number = match stores.len().cmp(&listed.len()) {
        std::cmp::Ordering::Less => "fewer stores than listed",
        std::cmp::Ordering::Equal => "as many stores as listed",
        std::cmp::Ordering::Greater => "more stores than listed",
    };
    Some(format!("{number}; store {at} is {}, listed is {}", told(stores.get(at)), told(listed.get(at))))
}
