//! A run: a formatted table, and rounds of a killed child and a strike on it.

use crate::calls::{Call, Said};
use crate::children::{Aim, Children, Kill, Told};
use crate::choices::WHOLE;
use crate::lent::Lent;
use crate::library;
use crate::limits::{self, Store};
use crate::memory::Memory;
use crate::random::Random;
use crate::reference;
use crate::script::{Script, Step, Wish, FIRST_WISH, LAST_WISH};
use crate::tables::{self, Geometry};
use crate::tally::Tally;
use std::time::Duration;

/// Where the runs take place.
pub struct Place {
    pub lent: Lent,
    pub children: Children,
    /// A child that begins its call so long after it has set `TIMER` is mostly killed in it.
    wait: Duration,
}

const TIMER: Duration = Duration::from_micros(60);
const LEARNT: Duration = Duration::from_nanos(200);

impl Place {
    pub fn new() -> Place {
        Place { lent: Lent::shared(), children: Children::new(), wait: TIMER }
    }
}

pub struct Run<'a> {
    pub random: Random,
    /// What the shared table holds.
    pub table: Vec<u64>,
    pub memory: Memory,
    pub place: &'a mut Place,
    pub tally: &'a mut Tally,
}

/// The call in which a child was killed.
#[derive(Clone, Copy)]
pub struct Cut {
    pub call: Call,
    /// The stores that it had made, as far as they can be seen.
    pub limit: usize,
    /// The place of one of its stores.
    pub store: Option<usize>,
}

/// What a killed child left.
pub struct Found {
    /// The number of finished calls, and the table after them.
    pub made: u64,
    pub before: Vec<u64>,
    pub cut: Option<Cut>,
}

/// The share of kills at a moment, in percent.
const MOMENTS: u64 = 45;

/// Tables of at most so many words are stepped through from a call's beginning, or from its first store.
const SMALL: usize = 120;
const MIDDLING: usize = 400;

/// From four nodes on, all frames from the fewest to the most are allowed.
fn geometry(random: &mut Random) -> Geometry {
    if random.percent(96) {
        return tables::allowed_geometry(random);
    }
    let (nodes, items) = (random.between(6, 16), random.between(40, 256));
    let fewest = tables::fewest_frames(nodes, items);
    Geometry { nodes, items, frames: random.between(fewest, tables::MOST_FRAMES) }
}

impl Run<'_> {
    /// A table that the library formats in shared memory, perhaps with words to spare; a layout with more frames than
    /// places, which it refuses, is laid out there.
    pub fn begin<'a>(mut random: Random, place: &'a mut Place, tally: &'a mut Tally) -> Result<Run<'a>, String> {
        let geometry = geometry(&mut random);
        let Geometry { nodes, items, frames } = geometry;
        let words = geometry.words() + random.one_of(&[0, 0, 1, 5]) as usize;
        let before: Vec<u64> = (0..words).map(|_| random.word()).collect();
        let script = Script::of_one(&before, Call::Format { nodes, items, frames });
        let mut table = limits::table_at(&before, &script.last().list, script.last().list.len());
        place.lent.place(random.index(8), &before);
        let said = library::format(place.lent.slice_mut(), nodes, items, frames, WHOLE);
        if said != script.last().said || place.lent.slice() != table || !place.lent.guards_stand() {
            return Err(format!("formatting {nodes} nodes, {items} items, {frames} frames said {said:?}"));
        }
        if geometry.has_unusable_frames() {
            reference::lay_out(&mut table, nodes, items, frames);
            reference::lay_out(place.lent.slice_mut(), nodes, items, frames);
        }
        Ok(Run { random, table, memory: Memory::formatted(items), place, tally })
    }

    /// A child killed, and a strike; false if the run cannot go on.
    pub fn round(&mut self, wish: Wish) -> Result<bool, String> {
        let found = match self.random.percent(MOMENTS) {
            true => self.kill_at_moment(),
            false => self.kill_at_instruction(wish),
        };
        self.strike(found?)
    }

    /// The child makes a script again and again.
    fn kill_at_moment(&mut self) -> Result<Found, String> {
        let mut script = Script::formatting(&self.table);
        let saves = self.random.below(3);
        script.push_saves(&mut self.random, saves);
        for _ in 0..if self.table.len() > MIDDLING { 6 } else { 16 } {
            script.push_random(&mut self.random, 2);
            let wish = self.random.between(FIRST_WISH as u64, LAST_WISH as u64) as usize;
            script.push_wish(&mut self.random, wish);
        }
        let after = Duration::from_nanos(self.random.between(10_000, 300_000));
        let kill = match self.random.percent(50) {
            true => Kill::Parent { after },
            false => Kill::Timer { after, wait: Duration::ZERO },
        };
        self.kill(&script, kill)
    }

    /// The child makes some calls and is killed in the wished one.
    fn kill_at_instruction(&mut self, wish: Wish) -> Result<Found, String> {
        let count = self.random.below(if self.table.len() > MIDDLING { 5 } else { 16 });
        let saves = self.random.below(3);
        let mut script = Script::new(&self.table);
        script.push_saves(&mut self.random, saves);
        script.push_random(&mut self.random, count);
        script.push_wish(&mut self.random, wish);
        let aim = self.any_aim(&script);
        self.kill(&script, Kill::Instruction(aim))
    }

    /// Kills a child that makes this one call.
    pub fn kill_in(&mut self, call: Call) -> Result<(), String> {
        let script = Script::of_one(&self.table, call);
        if self.random.percent(MOMENTS) {
            return self.kill_by_timer(&script);
        }
        let aim = self.any_aim(&script);
        self.kill(&script, Kill::Instruction(aim)).map(|_| ())
    }

    /// The timer runs out about when the child makes its call; how long the child must wait for it, is learnt.
    fn kill_by_timer(&mut self, script: &Script) -> Result<(), String> {
        let wait = self.place.wait + Duration::from_nanos(self.random.below(800));
        let found = self.kill(script, Kill::Timer { after: TIMER, wait })?;
        match (found.cut, found.made) {
            (Some(_), _) => (),
            (None, 0) => self.place.wait -= LEARNT.min(self.place.wait),
            (None, _) => self.place.wait = (2 * TIMER).min(self.place.wait + LEARNT),
        }
        Ok(())
    }

    fn any_aim(&mut self, script: &Script) -> Aim {
        let stores = script.last().list.len() as u64;
        let draw = self.random.word();
        if self.table.len() <= SMALL && self.random.percent(2) {
            return Aim::Anywhere { draw };
        }
        if self.table.len() <= MIDDLING && self.random.percent(50) {
            return Aim::Storing { draw, most: 150 };
        }
        let count = self.place.lent.page_count();
        let (first, pages) = if self.random.percent(50) { (0, count) } else { (self.random.index(count), 1) };
        let stores = self.random.below(stores.clamp(1, 400));
        Aim::Late { first, pages, stores, instructions: self.random.below(8) }
    }

    /// Kills a child in the script and finds the table at a limit of the call that was cut.
    pub fn kill(&mut self, script: &Script, kill: Kill) -> Result<Found, String> {
        let told = self.place.children.killed(script, kill, &mut self.place.lent)?;
        let cut = script.steps.get(told.finished).filter(|_| told.one_cut);
        let at_moment = !matches!(kill, Kill::Instruction(_));
        self.tally.note_kill(cut.map(|step| step.call), at_moment);
        let before = self.table_before(script, &told)?;
        self.table = self.place.lent.slice().to_vec();
        if !self.place.lent.guards_stand() {
            return Err(format!("words around the table have changed; {kill:?}"));
        }
        let Some(step) = cut else {
            let same = before == self.table;
            let found = Found { made: told.made, before, cut: None };
            return if same { Ok(found) } else { Err(self.no_limit(&found.before, &[], "no call", kill)) };
        };
        let Some(limit) = limits::smallest(&before, &step.list, &self.table) else {
            return Err(self.no_limit(&before, &step.list, &format!("{:?}", step.call), kill));
        };
        if limits::is_inside(&before, &step.list, &self.table, limit) {
            self.tally.note_inside(step.call, at_moment);
        }
        let store = (!step.list.is_empty()).then(|| step.list[self.random.index(step.list.len())].0);
        Ok(Found { made: told.made, before, cut: Some(Cut { call: step.call, limit, store }) })
    }

    fn no_limit(&self, before: &[u64], list: &[Store], call: &str, kill: Kill) -> String {
        format!("the table is at no limit of {call}; {kill:?}; {}", limits::farness(before, list, &self.table))
    }

    /// The table after the finished calls, which the plain memory is fed with.
    fn table_before(&mut self, script: &Script, told: &Told) -> Result<Vec<u64>, String> {
        self.compare_said(script, told)?;
        let mut before = self.table.clone();
        if told.laps > 0 {
            self.feed(&script.steps, &told.said)?;
            before.clone_from(&script.table);
        }
        let finished = &script.steps[..told.finished];
        self.feed(finished, &told.said)?;
        finished.iter().for_each(|step| limits::make(&mut before, &step.list));
        Ok(before)
    }

    fn compare_said(&self, script: &Script, told: &Told) -> Result<(), String> {
        match script.steps.iter().zip(&told.said).find(|(step, said)| step.said != **said) {
            None => Ok(()),
            Some((step, said)) => Err(format!("{:?} said {said:?}, by the reference {:?}", step.call, step.said)),
        }
    }

    /// Feeds the plain memory with finished calls and what they said.
    fn feed(&mut self, steps: &[Step], said: &[Said]) -> Result<(), String> {
        match steps.iter().zip(said).find(|(step, said)| !self.memory.feed(step.call, **said)) {
            None => Ok(()),
            Some((step, said)) => Err(format!("{:?} said {said:?}, not the item's value", step.call)),
        }
    }
}
