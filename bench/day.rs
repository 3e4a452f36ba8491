//! The tables and calls that are timed: a random day at one geometry, which keeps some of its calls.

use crate::calls::{on_native, Call, Geometry, KeptCall, Said, WHOLE};
use crate::random::Random;
use std::rc::Rc;

/// The sorts of calls, with their names in the results.
macro_rules! sorts {
    ($($sort:ident $name:literal,)*) => {
        #[derive(Clone, Copy, PartialEq, Eq)]
        pub enum Sort { $($sort),* }
        pub const SORTS: &[(Sort, &str)] = &[$((Sort::$sort, $name)),*];
    };
}

sorts! {
    CheckClean "check, clean",
    CheckDirty "check, dirty",
    CheckMixed "check, mixed",
    CheckShared "check, shared",
    ReadHeld "read, copy held",
    ReadFetched "read, copy fetched",
    Write "write",
    Evict "evict",
    Open "open",
    Create "create",
    Commit "commit",
    Length "a commit's length",
    Abandon "abandon",
    NoneClean "recover, none lost, clean",
    NoneMixed "recover, none lost, mixed",
    NoneSurplus "recover, none lost, surplus",
    LostClean "recover, a node lost, clean",
    LostDirty "recover, a node lost, dirty",
    LostMixed "recover, a node lost, mixed",
    LostSurplus "recover, a node lost, surplus",
    LostForward "recover, rolled forward",
    Format "format",
    FormatFilled "format, Rust filling",
}

/// What the names of the sorts say of the tables.
pub const TABLES: &str = "\
Clean: two recovery copies of each item and nothing else. Dirty: every item written since the save, by any node. \
Mixed: after random reads, writes and evictions. Shared: mixed, and each item read by three nodes of four, as far as \
there are frames. Surplus: mixed, and one item has two recovery copies of one number, as a cut eviction leaves it. \
Rolled forward: a node lost in a commit that was cut off. All other calls are made on mixed tables.";

/// The kept calls of each sort.
pub type Kept = [Vec<KeptCall>; SORTS.len()];

/// Rounds before the first kept call: they scatter the copies.
const WARMING: usize = 8;
/// Random calls before one of a sort is given up in a round.
const TRIES: usize = 100_000;

pub struct Day {
    geometry: Geometry,
    random: Random,
    table: Vec<u64>,
    scratch: Vec<u64>,
    kept: Kept,
}

fn current(state: u64) -> u64 {
    state >> 60
}

fn kept(state: u64) -> u64 {
    state >> 58 & 3
}

/// The number of the recovery copy in the place, 0 where there is none.
fn copy_number(state: u64, place: u64) -> u64 {
    match (place, current(state)) {
        (0, code @ 4..=5) => code - 3,
        (0, _) => 0,
        _ => kept(state),
    }
}

impl Day {
    pub fn new(geometry: Geometry) -> Day {
        let mut day = Day {
            geometry,
            random: Random::new(1),
            table: vec![0; geometry.words()],
            scratch: vec![0; geometry.scratch_words()],
            kept: Default::default(),
        };
        day.call(Call::Format(geometry));
        day
    }

    /// So many kept calls of each sort, each from a round of its own.
    pub fn run(mut self, rounds: usize) -> Kept {
        for _ in 0..WARMING {
            self.round();
        }
        self.kept = Default::default();
        for _ in 0..rounds {
            self.round();
        }
        for ((_, name), kept) in SORTS.iter().zip(&self.kept) {
            assert!(kept.len() == rounds, "the sort '{name}' has {} calls in {rounds} rounds", kept.len());
        }
        self.kept
    }

    /// From a save to the next: one call of each sort is kept.
    fn round(&mut self) {
        for _ in 0..3 * self.geometry.items {
            let (_, call) = self.any_ordinary();
            self.call(call);
        }
        self.keep_ordinary();
        self.keep_mixed();
        self.aside(Day::keep_shared);
        self.aside(Day::keep_surplus);
        self.save();
        self.aside(Day::keep_clean_and_dirty);
    }

    fn call(&mut self, call: Call) -> Said {
        self.call_cut(call, WHOLE)
    }

    fn call_cut(&mut self, call: Call, limit: u64) -> Said {
        on_native(call, &mut self.table, &mut self.scratch, limit)
    }

    /// Does something to the table that is undone afterwards.
    fn aside(&mut self, work: impl FnOnce(&mut Day)) {
        let table = self.table.clone();
        work(self);
        self.table = table;
    }

    /// Keeps calls on a table without making them.
    fn keep_on(&mut self, table: &[u64], calls: &[(Sort, Call)]) {
        let table: Rc<[u64]> = table.into();
        for &(sort, call) in calls {
            self.kept[sort as usize].push(KeptCall { call, table: table.clone() });
        }
    }

    /// Keeps calls on the table as it is.
    fn keep(&mut self, calls: &[(Sort, Call)]) {
        let table = std::mem::take(&mut self.table);
        self.keep_on(&table, calls);
        self.table = table;
    }

    fn any_node(&mut self) -> u64 {
        self.random.below(self.geometry.nodes)
    }

    fn any_lost(&mut self) -> Call {
        Call::Recover { lost: Some(self.any_node()) }
    }

    fn state(&self, node: u64, item: u64) -> u64 {
        self.table[self.geometry.entry(node, item)]
    }

    /// A read, a write or an eviction of any entry, which may be refused; dropping a sharer's copy is
    /// of no sort.
    fn any_ordinary(&mut self) -> (Option<Sort>, Call) {
        let (node, item) = (self.any_node(), self.random.below(self.geometry.items));
        match self.random.below(10) {
            0..=4 if current(self.state(node, item)) != 0 => (Some(Sort::ReadHeld), Call::Read { node, item }),
            0..=4 => (Some(Sort::ReadFetched), Call::Read { node, item }),
            5..=6 => (Some(Sort::Write), Call::Write { node, item, value: self.random.word() }),
            _ => {
                let place = self.random.below(2);
                let goes_home = place == 1 || current(self.state(node, item)) > 1;
                (goes_home.then_some(Sort::Evict), Call::Evict { node, item, place })
            }
        }
    }

    /// Ordinary calls until one of each sort has been carried out.
    fn keep_ordinary(&mut self) {
        let mut wanted = vec![Sort::ReadHeld, Sort::ReadFetched, Sort::Write, Sort::Evict];
        for _ in 0..TRIES {
            let (sort, call) = self.any_ordinary();
            let before = self.table.clone();
            let done = self.call(call).0 == 0;
            if let Some(place) = wanted.iter().position(|wanted| done && Some(*wanted) == sort) {
                self.keep_on(&before, &[(wanted.remove(place), call)]);
            }
            if wanted.is_empty() {
                break;
            }
        }
    }

    fn keep_mixed(&mut self) {
        let lost = self.any_lost();
        self.keep(&[
            (Sort::CheckMixed, Call::Check),
            (Sort::Open, Call::Open),
            (Sort::NoneMixed, Call::Recover { lost: None }),
            (Sort::LostMixed, lost),
            (Sort::Format, Call::Format(self.geometry)),
            (Sort::FormatFilled, Call::FormatFilled(self.geometry)),
        ]);
    }

    /// Where a node has no frame left, it does not read.
    fn keep_shared(&mut self) {
        for item in 0..self.geometry.items {
            for node in 0..self.geometry.nodes {
                if self.random.percent(75) {
                    self.call(Call::Read { node, item });
                }
            }
        }
        self.keep(&[(Sort::CheckShared, Call::Check)]);
    }

    /// Evictions of recovery copies until one finds a home; it is cut before its last store, which
    /// would drop the old copy.
    fn keep_surplus(&mut self) {
        for _ in 0..TRIES {
            let (node, item) = (self.any_node(), self.random.below(self.geometry.items));
            let place = self.random.below(2);
            let number = copy_number(self.state(node, item), place);
            if number == 0 {
                continue;
            }
            let call = Call::Evict { node, item, place };
            let before = self.table.clone();
            let (answer, _, stores) = self.call(call);
            self.table = before;
            if answer == 0 {
                self.call_cut(call, stores - 1);
                self.keep_surplus_of(item, place, number);
                break;
            }
        }
    }

    /// The lost node is none of the two that hold the copy of this number.
    fn keep_surplus_of(&mut self, item: u64, place: u64, number: u64) {
        let holds = |day: &Day, node| copy_number(day.state(node, item), place) == number;
        let others: Vec<u64> = (0..self.geometry.nodes).filter(|node| !holds(self, *node)).collect();
        assert!(others.len() as u64 == self.geometry.nodes - 2, "no surplus copy");
        let lost = Some(self.random.one_of(&others));
        self.keep(&[(Sort::NoneSurplus, Call::Recover { lost: None }), (Sort::LostSurplus, Call::Recover { lost })]);
    }

    fn save(&mut self) {
        self.call(Call::Open);
        self.create_all();
        self.keep(&[(Sort::Commit, Call::Commit), (Sort::Length, Call::CommitLength), (Sort::Abandon, Call::Abandon)]);
        self.aside(Day::keep_forward);
        self.call(Call::Commit);
    }

    /// Any one of the creates is kept, each as likely as the others.
    fn create_all(&mut self) {
        let (mut chosen, mut made) = (None, 0);
        loop {
            let before = self.table.clone();
            if self.call(Call::Create).0 != 0 {
                break;
            }
            made += 1;
            if self.random.below(made) == 0 {
                chosen = Some(before);
            }
        }
        if let Some(table) = chosen {
            self.keep_on(&table, &[(Sort::Create, Call::Create)]);
        }
    }

    /// A recovery after a commit that was cut off somewhere between its two marks of the nodes.
    fn keep_forward(&mut self) {
        let (_, length, _) = self.call(Call::CommitLength);
        let nodes = self.geometry.nodes;
        let limit = self.random.between(nodes, length - nodes);
        self.call_cut(Call::Commit, limit);
        let lost = self.any_lost();
        self.keep(&[(Sort::LostForward, lost)]);
    }

    fn keep_clean_and_dirty(&mut self) {
        self.call(Call::Recover { lost: None });
        let lost = self.any_lost();
        self.keep(&[
            (Sort::CheckClean, Call::Check),
            (Sort::NoneClean, Call::Recover { lost: None }),
            (Sort::LostClean, lost),
        ]);
        for item in 0..self.geometry.items {
            self.write_anywhere(item);
        }
        let lost = self.any_lost();
        self.keep(&[(Sort::CheckDirty, Call::Check), (Sort::LostDirty, lost)]);
    }

    /// By any node that has a frame for it.
    fn write_anywhere(&mut self, item: u64) {
        for _ in 0..TRIES {
            let (node, value) = (self.any_node(), self.random.word());
            if self.call(Call::Write { node, item, value }).0 == 0 {
                break;
            }
        }
    }
}
