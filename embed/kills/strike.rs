//! A strike on the table that a killed child left: a node's words anything, recoveries cut, a whole one.

use crate::calls::{Call, Said};
use crate::choices::{self, WHOLE};
use crate::limits;
use crate::on_library::{on_library, SCRATCH_WORD};
use crate::restored;
use crate::run::{Cut, Found, Run};
use crate::script::{Script, Step};
use crate::tables::{self, Geometry};

/// The node that the recoveries name, or none, and whether its words become anything.
struct Blow {
    lost: Option<u64>,
    hits: bool,
}

const TOO_FEW_SURVIVORS: u64 = 14;

impl Run<'_> {
    /// False if the table cannot be restored: a formatting was cut, or too few nodes are left.
    pub fn strike(&mut self, found: Found) -> Result<bool, String> {
        let Some(blow) = self.any_blow(&found) else { return Ok(false) };
        let survivors = restored::survivors(&self.table, blow.lost);
        let too_few = restored::are_too_few(&self.table, &survivors);
        if self.is_committed(&found, &survivors) {
            self.memory.commit();
            self.tally.finished_commits += 1;
        }
        self.memory.recover();
        if let (Some(node), true) = (blow.lost, blow.hits) {
            tables::hit(&mut self.random, &mut self.table, node);
            self.place.lent.slice_mut().copy_from_slice(&self.table);
        }
        let recovery = self.recovery_of(&blow);
        for _ in 0..self.random.below(4) {
            self.broken_off(recovery)?;
        }
        self.whole(recovery, too_few)?;
        if too_few {
            self.tally.refused += 1;
            return Ok(false);
        }
        restored::check(&self.table, &self.memory, &survivors)?;
        restored::read_back(&mut self.random, &self.table, &self.memory)?;
        self.tally.restored += 1;
        Ok(true)
    }

    /// Any live node, or none; a recovery that was cut goes on with its name. Nothing after a cut formatting.
    fn any_blow(&mut self, found: &Found) -> Option<Blow> {
        match found.cut {
            Some(Cut { limit: 1.., call: Call::Format { .. }, .. }) => None,
            Some(Cut { limit: 1.., call: Call::Recover { none, lost, .. }, .. }) => {
                let lost = (none == 0).then_some(lost);
                let hits = lost.is_some_and(|node| restored::live_nodes(&found.before).contains(&node));
                Some(Blow { lost, hits })
            }
            cut => {
                let any = self.any_live(cut.and_then(|cut| cut.store));
                Some(Blow { lost: (!self.random.percent(25)).then_some(any), hits: true })
            }
        }
    }

    /// A live node, often one with a copy of the item that a store was about.
    fn any_live(&mut self, store: Option<usize>) -> u64 {
        let live = restored::live_nodes(&self.table);
        let item = store.and_then(|place| restored::item_at(&self.table, place));
        let holders: Vec<u64> = match item {
            Some(item) if self.random.percent(50) => restored::holders(&self.table, item),
            _ => Vec::new(),
        };
        let choices = if holders.is_empty() { &live } else { &holders };
        choices[self.random.index(choices.len())]
    }

    /// The commit that was cut counts: a survivor of the cut table carries its number.
    fn is_committed(&self, found: &Found, survivors: &[u64]) -> bool {
        let carries = |&node: &u64| restored::number_of(&self.table, node) == self.memory.commits() + 1;
        matches!(found.cut, Some(Cut { call: Call::Commit, .. })) && survivors.iter().any(carries)
    }

    fn recovery_of(&mut self, blow: &Blow) -> Call {
        let Geometry { nodes, items, .. } = Geometry::of_table(&self.table);
        let scratch = (nodes + items + self.random.one_of(&[0, 0, 7])) as usize;
        Call::Recover { none: blow.lost.is_none() as u64, lost: blow.lost.unwrap_or(0), scratch }
    }

    /// A recovery that is broken off: its process killed, or at a limit.
    fn broken_off(&mut self, recovery: Call) -> Result<(), String> {
        if self.random.percent(60) {
            self.tally.recoveries += 1;
            return self.kill_in(recovery);
        }
        let script = Script::of_one(&self.table, recovery);
        let limit = choices::any_limit(&mut self.random);
        self.make(script.last(), limit)
    }

    fn whole(&mut self, recovery: Call, too_few: bool) -> Result<(), String> {
        let script = Script::of_one(&self.table, recovery);
        let answer = if too_few { TOO_FEW_SURVIVORS } else { 0 };
        if script.last().said.0 != answer {
            return Err(format!("{recovery:?} is answered {}, promised is {answer}", script.last().said.0));
        }
        self.make(script.last(), WHOLE)
    }

    /// A recovery made through the library, in this process.
    fn make(&mut self, step: &Step, limit: u64) -> Result<(), String> {
        let made = step.list.len().min(limit as usize);
        let mut scratch = vec![SCRATCH_WORD; step.call.scratch_length()];
        let said = on_library(step.call, self.place.lent.slice_mut(), &mut scratch, limit);
        let expected: Said = (step.said.0, step.said.1, made as u64);
        limits::make(&mut self.table, &step.list[..made]);
        if said != expected || !self.place.lent.guards_stand() || !self.is_cleared(&scratch, said) {
            return Err(format!("{:?}, limit {limit}, said {said:?}, by the reference {expected:?}", step.call));
        }
        if self.place.lent.slice() != self.table {
            let farness = limits::farness(&self.table, &[], self.place.lent.slice());
            return Err(format!("{:?}, limit {limit}, left another table: {farness}", step.call));
        }
        Ok(())
    }

    /// A recovery that was carried out leaves its scratch zero, a refused one as it was.
    fn is_cleared(&self, scratch: &[u64], said: Said) -> bool {
        let Geometry { nodes, items, .. } = Geometry::of_table(&self.table);
        let (used, rest) = scratch.split_at((nodes + items) as usize);
        let word = if said.0 == 0 { 0 } else { SCRATCH_WORD };
        used.iter().all(|left| *left == word) && rest.iter().all(|left| *left == SCRATCH_WORD)
    }
}
