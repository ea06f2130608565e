//! How the rounds of a comparison ended.

use super::Answer;
use crate::refusal;
use crate::rounds::most_rounds;
use crate::row::MOST;
use crate::Rounded;

/// Calls for rounds by how they ended, those by number of processes that did some.
#[derive(Clone, Debug, Default)]
pub struct Rounds {
    /// Rounds were done, and some process is at 30.
    pub arrived: [u64; MOST + 1],
    /// The most rounds were done, and none is.
    pub used_up: [u64; MOST + 1],
    /// No round was done, since some process was at 30.
    pub occupied: u64,
    /// No round was done, since nobody was at 20 to 24 or at 30.
    pub nobody: u64,
    /// A word broke the first round, with nobody at 30 then, or with some process.
    pub broken: [u64; 2],
    /// All rounds that were done.
    pub done: u64,
}

impl Rounds {
    pub fn note(&mut self, answer: &Answer) {
        let Answer::Rounds { rounded: Rounded { refusal, rounds, occupied }, rows } = answer else { return };
        let n = rows.inside.len();
        self.done += u64::from(*rounds);
        match (*refusal, rounds, occupied) {
            (refusal::FULL_COUNT, ..) => self.broken[usize::from(*occupied != 0)] += 1,
            (1.., ..) => {}
            (_, 0, 0) => self.nobody += 1,
            (_, 0, _) => self.occupied += 1,
            (_, _, 0) => self.used_up[n] += u64::from(*rounds == most_rounds(n)),
            _ => self.arrived[n] += 1,
        }
    }

    /// The ends that were never met.
    pub fn unseen(&self) -> Vec<String> {
        let missing = (2..=MOST).filter(|&n| self.arrived[n] == 0);
        let mut unseen: Vec<String> = missing.map(|n| format!("no rounds to 30 with {n} processes")).collect();
        let others = [
            (self.used_up.iter().sum(), "no limit of rounds that is used up"),
            (self.occupied, "no rounds asked for with a process at 30"),
            (self.nobody, "no rounds asked for with nobody at 20 to 24 or 30"),
            (self.broken[0], "no round broken with nobody at 30"),
            (self.broken[1], "no round broken with a process at 30"),
        ];
        unseen.extend(others.iter().filter(|(met, _)| *met == 0).map(|(_, what)| what.to_string()));
        unseen
    }

    pub fn report(&self) -> String {
        let Rounds { arrived, used_up, occupied, nobody, broken: [unoccupied, broken], done } = self;
        let [arrived, used_up] = [arrived, used_up].map(|met| met.iter().sum::<u64>());
        format!(
            "rounds [to 30: {arrived}, used up: {used_up}, at 30 before: {occupied}, nobody: {nobody}, \
             broken: {unoccupied}, broken with one at 30: {broken}, all: {done}]"
        )
    }
}
