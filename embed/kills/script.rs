//! The calls that a child is to make, each with what it must say and store, by the reference.

use crate::calls::{listed, on_reference, Call, Said};
use crate::choices;
use crate::limits::{self, Store};
use crate::random::Random;
use crate::tables::{self, Geometry};

/// A call, what it says and its list of stores.
pub struct Step {
    pub call: Call,
    pub said: Said,
    pub list: Vec<Store>,
}

impl Step {
    fn of(call: Call, table: &[u64]) -> Step {
        let scratch = &mut vec![0; call.scratch_length()];
        let said = on_reference(call, &mut table.to_vec(), scratch, choices::WHOLE);
        let list = listed(call, table).map_or(Vec::new(), |(_, stores)| stores);
        Step { call, said, list }
    }

    /// The number of stores that change the table.
    fn changes(&self, table: &[u64]) -> usize {
        self.list.iter().filter(|(place, word)| table[*place] != *word).count()
    }
}

/// The most calls of a script.
pub const MOST_CALLS: usize = 600;

/// Calls one after the other.
pub struct Script {
    pub steps: Vec<Step>,
    /// They are made again and again: the first one formats the table, so that each time is as the last one.
    pub again: bool,
    /// The table after all of them.
    pub table: Vec<u64>,
}

/// The call that a script is to end with, by its place in `calls::ANSWERS`.
pub type Wish = usize;
pub const FORMAT: Wish = 3;
pub const READ: Wish = 4;
pub const WRITE: Wish = 5;
pub const EVICT: Wish = 6;
pub const OPEN: Wish = 7;
pub const CREATE: Wish = 8;
pub const COMMIT: Wish = 9;
pub const ABANDON: Wish = 10;
pub const RECOVER: Wish = 11;

pub const FIRST_WISH: Wish = FORMAT;
pub const LAST_WISH: Wish = RECOVER;

const TRIES: u64 = 80;

impl Script {
    pub fn new(table: &[u64]) -> Script {
        Script { steps: Vec::new(), again: false, table: table.to_vec() }
    }

    /// Begins with a formatting in the table's own layout, with no more frames than places.
    pub fn formatting(table: &[u64]) -> Script {
        let Geometry { nodes, items, frames } = Geometry::of_table(table).usable();
        let mut script = Script::of_one(table, Call::Format { nodes, items, frames });
        script.again = true;
        script
    }

    pub fn of_one(table: &[u64], call: Call) -> Script {
        let mut script = Script::new(table);
        script.push(call);
        script
    }

    /// One more call, if the script has room for it.
    pub fn push(&mut self, call: Call) {
        self.push_step(Step::of(call, &self.table));
    }

    fn push_step(&mut self, step: Step) {
        if self.steps.len() < MOST_CALLS {
            limits::make(&mut self.table, &step.list);
            self.steps.push(step);
        }
    }

    pub fn last(&self) -> &Step {
        self.steps.last().expect("a script has a call")
    }

    /// Random calls, few of them formattings or recoveries.
    pub fn push_random(&mut self, random: &mut Random, count: u64) {
        for _ in 0..count {
            let call = choices::likely_call(random, &self.table);
            let rare = matches!(call, Call::Format { .. } | Call::Recover { .. });
            if !rare || random.percent(20) {
                self.push(call);
            }
        }
    }

    /// Some saves of some items each, so that saved values differ.
    pub fn push_saves(&mut self, random: &mut Random, count: u64) {
        for _ in 0..count {
            self.close();
            self.push_wish(random, COMMIT);
        }
    }

    /// Calls that lead to the wished one, and that one, mostly with stores to make.
    pub fn push_wish(&mut self, random: &mut Random, wish: Wish) {
        match wish {
            FORMAT | RECOVER => (),
            READ | WRITE | EVICT | OPEN => self.close(),
            _ => self.open(random, wish),
        }
        let call = self.wished(random, wish);
        self.push(call);
    }

    fn is_creating(&self) -> bool {
        let nodes = Geometry::of_table(&self.table).nodes as usize;
        self.table[1..=nodes].iter().any(|mark| mark >> 61 & 3 == 1)
    }

    fn close(&mut self) {
        if self.is_creating() {
            self.push(Call::Abandon);
        }
    }

    /// Some writes, an open checkpoint, and its copies as far as the wish asks for them.
    fn open(&mut self, random: &mut Random, wish: Wish) {
        if !self.is_creating() {
            for _ in 0..random.between(1, 4) {
                let call = self.wished(random, WRITE);
                self.push(call);
            }
            self.push(Call::Open);
        }
        let creations = match wish {
            COMMIT => Geometry::of_table(&self.table).items,
            ABANDON => random.below(4),
            _ => random.below(2),
        };
        for _ in 0..creations {
            let step = Step::of(Call::Create, &self.table);
            if step.said.0 != 0 {
                break;
            }
            self.push_step(step);
        }
    }

    fn wished(&self, random: &mut Random, wish: Wish) -> Call {
        match wish {
            FORMAT => self.any_formatting(random),
            RECOVER => self.recovery(random),
            CREATE => Call::Create,
            COMMIT => Call::Commit,
            ABANDON => Call::Abandon,
            OPEN => Call::Open,
            _ => self.likely(random, wish),
        }
    }

    /// A random call of this name, if it can be found soon one that can be seen in mid-list.
    fn likely(&self, random: &mut Random, wish: Wish) -> Call {
        let mut call = Call::Check;
        for _ in 0..TRIES {
            let next = choices::likely_call(random, &self.table);
            if next.name_index() == wish {
                call = next;
                if Step::of(call, &self.table).changes(&self.table) > 1 {
                    break;
                }
            }
        }
        call
    }

    /// Any layout that the slice has room for, with no more frames than places.
    fn any_formatting(&self, random: &mut Random) -> Call {
        let mut geometry = Geometry::of_table(&self.table);
        for _ in 0..4 {
            let other = tables::allowed_geometry(random);
            if other.words() <= self.table.len() {
                geometry = other;
            }
        }
        let Geometry { nodes, items, frames } = geometry.usable();
        Call::Format { nodes, items, frames }
    }

    /// A recovery of any node or none, with scratch enough.
    fn recovery(&self, random: &mut Random) -> Call {
        let Geometry { nodes, items, .. } = Geometry::of_table(&self.table);
        let scratch = (nodes + items + random.one_of(&[0, 0, 7])) as usize;
        Call::Recover { none: random.percent(30) as u64, lost: random.below(nodes), scratch }
    }
}
