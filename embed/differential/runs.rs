//! Random runs of calls: long ones, strikes, saves, damaged tables, scattered copies, words without order.

use crate::calls::{Call, Said};
use crate::choices::{self, WHOLE};
use crate::random::Random;
use crate::reference;
use crate::saves::{Save, NOTHING_LEFT};
use crate::tables::{self, Geometry};

/// Nodes and items: the most of both, and of each with few of the other.
const LARGE: [(u64, u64); 4] = [(16, 256), (3, 256), (16, 65), (9, 64)];

/// Enough for every call to meet an empty table.
const EMPTY_CALLS: u64 = 200;

/// The table that the calls of a run are made on, and what is asked of each call.
pub trait Subject {
    fn table(&self) -> &[u64];

    /// Gives the table these words, which may be more or fewer than before.
    fn set(&mut self, words: &[u64]);

    /// Makes the call; true if it did what it should.
    fn call(&mut self, call: Call, limit: u64) -> bool;

    /// What the last call said.
    fn said(&self) -> Said;

    /// Notes what is wrong with what calls did together.
    fn fault(&mut self, what: &str);

    /// Notes a save that was carried out whole.
    fn saved(&mut self);
}

/// Makes the call. Before a commit, how long it will be is asked for.
fn make(subject: &mut impl Subject, call: Call, limit: u64) -> bool {
    let asked = !matches!(call, Call::Commit) || subject.call(Call::CommitLength, limit);
    asked && subject.call(call, limit)
}

/// Makes the call whole; it must give this answer.
fn answered(subject: &mut impl Subject, call: Call, answer: u64) -> bool {
    if !subject.call(call, WHOLE) {
        return false;
    }
    let said = subject.said();
    let right = said.0 == answer;
    if !right {
        subject.fault(&format!("{call:?} said {said:?} in a save that has {answer} there"));
    }
    right
}

pub struct Runs {
    random: Random,
}

impl Runs {
    pub fn new(seed: u64) -> Runs {
        Runs { random: Random::new(seed) }
    }

    /// One run; it ends early where a call did what it should not.
    pub fn next(&mut self, subject: &mut impl Subject) -> bool {
        match self.random.below(11) {
            0 => self.long_run(subject),
            1..=3 => self.strikes(subject),
            4..=6 => self.damaged_calls(subject),
            7..=8 => self.scattered_recoveries(subject),
            9 => self.saves(subject),
            _ => self.noise(subject),
        }
    }

    /// What the other runs hardly meet: empty tables and the largest.
    pub fn rare(&mut self, subject: &mut impl Subject) -> bool {
        subject.set(&[]);
        self.any_calls(subject, EMPTY_CALLS) && self.large(subject)
    }

    /// Strikes at the largest geometries, with the most frames and the fewest.
    fn large(&mut self, subject: &mut impl Subject) -> bool {
        LARGE.iter().all(|&(nodes, items)| {
            let fewest = tables::fewest_frames(nodes, items);
            let wanted = self.random.one_of(&[fewest, fewest + 1, 2 * items, tables::MOST_FRAMES]);
            let frames = tables::allowed_frames(nodes, items, wanted);
            self.formatted_as(subject, Geometry { nodes, items, frames })
                && self.whole_calls(subject, 60)
                && self.prepare_commit(subject)
                && self.cut(subject, Call::Commit)
                && self.whole_calls(subject, 30)
        })
    }

    /// A formatted table, perhaps with words to spare, and perhaps of a layout that a format refuses.
    fn formatted(&mut self, subject: &mut impl Subject) -> bool {
        let geometry = tables::allowed_geometry(&mut self.random);
        self.formatted_as(subject, geometry)
    }

    fn formatted_as(&mut self, subject: &mut impl Subject, geometry: Geometry) -> bool {
        let Geometry { nodes, items, frames } = geometry;
        let words = geometry.words() + self.random.one_of(&[0, 0, 1, 5]) as usize;
        let before: Vec<u64> = (0..words).map(|_| self.random.word()).collect();
        subject.set(&before);
        if !subject.call(Call::Format { nodes, items, frames }, WHOLE) {
            return false;
        }
        if geometry.has_unusable_frames() {
            let mut table = before;
            reference::lay_out(&mut table, nodes, items, frames);
            subject.set(&table);
        }
        true
    }

    /// Whole calls, one after the other.
    fn whole_calls(&mut self, subject: &mut impl Subject, count: u64) -> bool {
        (0..count).all(|_| {
            let call = choices::likely_call(&mut self.random, subject.table());
            make(subject, call, WHOLE)
        })
    }

    /// A table that a short run of whole calls leaves.
    fn reached(&mut self, subject: &mut impl Subject) -> bool {
        if !self.formatted(subject) {
            return false;
        }
        if self.random.percent(10) {
            let mut table = subject.table().to_vec();
            tables::age(&mut self.random, &mut table);
            subject.set(&table);
        }
        let losses = if self.random.percent(30) { Geometry::of_table(subject.table()).nodes - 3 } else { 0 };
        let count = self.random.one_of(&[0, 3, 10, 30, 60]);
        self.lose_some(subject, losses) && self.whole_calls(subject, count)
    }

    /// At most so many nodes are lost, so that those left have few frames.
    fn lose_some(&mut self, subject: &mut impl Subject, most: u64) -> bool {
        let Geometry { nodes, items, .. } = Geometry::of_table(subject.table());
        let scratch = (nodes + items) as usize;
        (0..self.random.below(most + 1)).all(|_| {
            let lost = self.random.below(nodes);
            subject.call(Call::Recover { none: 0, lost, scratch }, WHOLE)
        })
    }

    /// One long run of whole calls, and a save; now and then a node is lost.
    fn long_run(&mut self, subject: &mut impl Subject) -> bool {
        let steps = self.random.between(50, 400);
        self.formatted(subject) && self.whole_calls(subject, steps) && self.save(subject)
    }

    /// A call cut off, a node's words gone, recoveries cut off, a whole one, and the run goes on.
    fn strikes(&mut self, subject: &mut impl Subject) -> bool {
        self.reached(subject)
            && (0..self.random.between(1, 3)).all(|_| self.strike(subject) && self.whole_calls(subject, 12))
    }

    /// With few frames, nodes are lost one after the other, and there is a save after each.
    fn saves(&mut self, subject: &mut impl Subject) -> bool {
        let (nodes, items) = (self.random.between(3, 8), self.random.between(1, 3));
        let frames = tables::fewest_frames(nodes, items);
        self.formatted_as(subject, Geometry { nodes, items, frames })
            && (0..nodes).all(|_| {
                let count = self.random.between(4, 16);
                let crowded = self.random.percent(50);
                self.whole_calls(subject, count)
                    && (!crowded || self.crowd(subject))
                    && self.save(subject)
                    && self.recoveries(subject)
            })
    }

    /// An item is written, and all others are read everywhere: Shared copies fill the frames.
    fn crowd(&mut self, subject: &mut impl Subject) -> bool {
        let Geometry { nodes, items, .. } = Geometry::of_table(subject.table());
        let (writer, written) = (self.random.below(nodes), self.random.below(items));
        let value = choices::any_value(&mut self.random);
        let entries = (0..nodes).flat_map(|node| (0..items).map(move |item| (node, item)));
        let mut others = entries.filter(|(_, item)| *item != written);
        subject.call(Call::Abandon, WHOLE)
            && subject.call(Call::Write { node: writer, item: written, value }, WHOLE)
            && others.all(|(node, item)| subject.call(Call::Read { node, item }, WHOLE))
    }

    /// A save; a checkpoint that is open is abandoned before.
    fn save(&mut self, subject: &mut impl Subject) -> bool {
        subject.call(Call::Abandon, WHOLE)
            && match Save::of(subject.table()) {
                Some(save) => self.save_whole(subject, &save),
                None => self.prepare_commit(subject) && make(subject, Call::Commit, WHOLE),
            }
    }

    /// A save of which nothing may be refused.
    fn save_whole(&mut self, subject: &mut impl Subject, save: &Save) -> bool {
        let whole = answered(subject, Call::Open, 0)
            && (0..save.dirty).all(|_| answered(subject, Call::Create, 0))
            && answered(subject, Call::Create, NOTHING_LEFT)
            && subject.call(Call::CommitLength, WHOLE)
            && answered(subject, Call::Commit, 0);
        if whole && !save.stands_in(subject.table()) {
            subject.fault("a save has left other marks, or an item that is not clean with its value");
            return false;
        }
        if whole {
            subject.saved();
        }
        whole
    }

    /// Opens a checkpoint and creates every item of it, as far as the table lets it.
    fn prepare_commit(&mut self, subject: &mut impl Subject) -> bool {
        let dirty_at_most = Geometry::of_table(subject.table()).items;
        subject.call(Call::Open, WHOLE) && (0..dirty_at_most).all(|_| subject.call(Call::Create, WHOLE))
    }

    fn strike(&mut self, subject: &mut impl Subject) -> bool {
        let mut cut = choices::likely_call(&mut self.random, subject.table());
        if self.random.percent(40) && Geometry::of_table(subject.table()).items <= 12 {
            if !self.prepare_commit(subject) {
                return false;
            }
            cut = Call::Commit;
        }
        self.cut(subject, cut)
    }

    /// The call is cut off, and recoveries follow.
    fn cut(&mut self, subject: &mut impl Subject, call: Call) -> bool {
        let limit = choices::any_limit(&mut self.random);
        make(subject, call, limit) && self.recoveries(subject)
    }

    /// A node is lost, or none; recoveries that are cut off, and a whole one.
    fn recoveries(&mut self, subject: &mut impl Subject) -> bool {
        let mut table = subject.table().to_vec();
        let geometry = Geometry::of_table(&table);
        if table.len() < geometry.words() {
            return true;
        }
        let lost = self.random.below(geometry.nodes);
        let none = self.random.percent(30);
        if !none {
            tables::hit(&mut self.random, &mut table, lost);
            subject.set(&table);
        }
        let scratch = (geometry.nodes + geometry.items) as usize;
        let recovery = Call::Recover { none: none as u64, lost, scratch };
        let broken_off = self.random.below(4);
        (0..broken_off).all(|_| subject.call(recovery, choices::any_limit(&mut self.random)))
            && subject.call(recovery, WHOLE)
    }

    /// Single calls on damaged copies of a table.
    fn damaged_calls(&mut self, subject: &mut impl Subject) -> bool {
        if !self.reached(subject) {
            return false;
        }
        let kept = subject.table().to_vec();
        (0..16).all(|_| {
            let mut table = kept.clone();
            tables::damage(&mut self.random, &mut table);
            subject.set(&table);
            let count = self.random.between(1, 3);
            self.any_calls(subject, count)
        })
    }

    fn any_calls(&mut self, subject: &mut impl Subject, count: u64) -> bool {
        (0..count).all(|_| {
            let call = choices::any_call(&mut self.random, subject.table());
            let limit = choices::any_limit(&mut self.random);
            make(subject, call, limit)
        })
    }

    /// Recoveries, cut and whole, of tables whose entries are arbitrary.
    fn scattered_recoveries(&mut self, subject: &mut impl Subject) -> bool {
        if !self.formatted(subject) {
            return false;
        }
        let kept = subject.table().to_vec();
        (0..12).all(|_| {
            let mut table = kept.clone();
            tables::scatter(&mut self.random, &mut table);
            subject.set(&table);
            (0..self.random.between(1, 3)).all(|_| {
                let call = choices::recovery(&mut self.random, &table);
                let limit = choices::any_limit(&mut self.random);
                subject.call(call, limit)
            })
        })
    }

    /// Calls on words without any order.
    fn noise(&mut self, subject: &mut impl Subject) -> bool {
        let words = tables::noise(&mut self.random);
        subject.set(&words);
        self.any_calls(subject, 8)
    }
}
