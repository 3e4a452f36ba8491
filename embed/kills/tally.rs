//! What has been met, and its report.

use crate::calls::{Call, ANSWERS};
use crate::script::{Wish, FIRST_WISH, LAST_WISH};

#[derive(Default, Clone, Copy)]
struct Row {
    kills: u64,
    /// In mid-list, at an instruction and at a moment.
    inside: [u64; 2],
}

#[derive(Default)]
pub struct Tally {
    calls: [Row; ANSWERS.len()],
    /// Kills at an instruction, and at a moment.
    kills: [u64; 2],
    /// Kills of which no call was under way.
    between: u64,
    /// Recoveries of a strike killed.
    pub recoveries: u64,
    pub restored: u64,
    pub refused: u64,
    pub finished_commits: u64,
    pub faults: u64,
}

const SHOWN: u64 = 10;

impl Tally {
    /// A child killed in a call, or in none.
    pub fn note_kill(&mut self, call: Option<Call>, at_moment: bool) {
        self.kills[at_moment as usize] += 1;
        match call {
            None => self.between += 1,
            Some(call) => self.calls[call.name_index()].kills += 1,
        }
    }

    /// It was killed in mid-list.
    pub fn note_inside(&mut self, call: Call, at_moment: bool) {
        self.calls[call.name_index()].inside[at_moment as usize] += 1;
    }

    pub fn note_fault(&mut self, seed: u64, run: u64, round: u64, fault: &str) {
        self.faults += 1;
        if self.faults <= SHOWN {
            println!("fault after {} kills, in seed {seed}, run {run}, round {round}: {fault}", self.kills());
        }
    }

    pub fn kills(&self) -> u64 {
        self.kills.iter().sum()
    }

    fn inside(&self) -> u64 {
        self.calls.iter().map(|row| row.inside.iter().sum::<u64>()).sum()
    }

    /// The calls that store and were never killed in mid-list.
    pub fn unmet(&self) -> Vec<&'static str> {
        let unmet = |call: &Wish| self.calls[*call].inside == [0, 0];
        (FIRST_WISH..=LAST_WISH).filter(unmet).map(|call| ANSWERS[call].0).collect()
    }

    pub fn print(&self) {
        println!("killed in      kills   in mid-list   (at a moment, at an instruction)");
        for (row, (name, _)) in self.calls.iter().zip(ANSWERS).filter(|(row, _)| row.kills > 0) {
            let [instructions, moments] = row.inside;
            let inside = instructions + moments;
            let share = 100 * inside / row.kills;
            println!("  {name:8} {:9} {inside:7} {share:4} %   ({moments}, {instructions})", row.kills);
        }
        println!("  {:8} {:9}", "no call", self.between);
        println!("{} cut commits were finished by their recovery", self.finished_commits);
    }

    /// In one line.
    pub fn result(&self) -> String {
        let [instructions, moments] = self.kills;
        let mut line = format!(
            "{} processes killed ({moments} at a moment, {instructions} at an instruction), {} in mid-list, \
             {} recoveries killed, {} strikes restored, {} refused with 14: {} faults",
            self.kills(),
            self.inside(),
            self.recoveries,
            self.restored,
            self.refused,
            self.faults
        );
        if !self.unmet().is_empty() {
            line += &format!("; never killed in mid-list: {}", self.unmet().join(", "));
        }
        line
    }
}
