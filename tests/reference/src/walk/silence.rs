//! Rounds from a table that a list of words made: with nobody at 30 and somebody at 20 to 24, some process is at 30
//! after at most 2 * N * N + 3 * N - 3 of them.

use crate::{Rounded, Row};

/// The tables of a walk from which rounds are done, how many these are together, and the most from one table.
#[derive(Clone, Copy, Debug, Default, PartialEq, Eq)]
pub struct Silence {
    pub tables: u64,
    pub rounds: u64,
    pub most: u16,
}

impl std::ops::AddAssign for Silence {
    fn add_assign(&mut self, more: Silence) {
        self.tables += more.tables;
        self.rounds += more.rounds;
        self.most = self.most.max(more.most);
    }
}

/// The most rounds that n processes need until one is at 30.
pub fn most_needed(n: usize) -> usize {
    2 * n * n + 3 * n - 3
}

impl Silence {
    /// What is counted of a table and the rounds from it; None where they are not as they must be.
    pub fn of(before: &[Row], rounded: &Rounded, after: &[Row]) -> Option<Silence> {
        let at = |rows: &[Row], first, last| rows.iter().any(|row| (first..=last).contains(&row.loc));
        let Rounded { refusal, rounds, occupied } = *rounded;
        if at(before, 30, 30) || !at(before, 20, 24) {
            let none = Rounded { refusal: 0, rounds: 0, occupied: at(before, 30, 30).into() };
            return (*rounded == none && before == after).then(Silence::default);
        }
        let ended = refusal == 0 && occupied == 1 && at(after, 30, 30);
        let in_time = rounds >= 1 && usize::from(rounds) <= most_needed(before.len());
        (ended && in_time).then_some(Silence { tables: 1, rounds: rounds.into(), most: rounds })
    }
}
