//! Words given to a table of two processes whose counts of passes are few or full.

use crate::row::Row;
use crate::word::{process_of, GO};
use crate::{refusal, StepAnswer};

/// What the passes of each process over the other are set to, each with each.
const COUNTS: [u16; 4] = [0, 1, 65_534, 65_535];

/// Words given to tables with such passes.
#[derive(Clone, Copy, Debug, Default, PartialEq, Eq)]
pub struct Full {
    /// All of them.
    pub words: u64,
    /// Accepted GOs at 20, and at 30.
    pub entries: u64,
    pub exits: u64,
    /// Those that met 15.
    pub full: u64,
}

impl std::ops::AddAssign for Full {
    fn add_assign(&mut self, more: Full) {
        self.words += more.words;
        self.entries += more.entries;
        self.exits += more.exits;
        self.full += more.full;
    }
}

impl Full {
    /// Counts a word that rows were given, by its answer.
    pub fn note(&mut self, rows: &[Row], word: u32, answer: StepAnswer) {
        let loc = rows[process_of(word) as usize].loc;
        let goes = word >> 28 == GO && answer.refusal == refusal::NONE;
        self.words += 1;
        self.entries += u64::from(goes && loc == 20);
        self.exits += u64::from(goes && loc == 30);
        self.full += u64::from(answer.refusal == refusal::FULL_COUNT);
    }
}

/// The table with each setting of passes; none where there are not two processes.
pub fn with_passes<const N: usize>(rows: &[Row; N]) -> impl Iterator<Item = [Row; N]> + '_ {
    let settings = if N == 2 { COUNTS.len() * COUNTS.len() } else { 0 };
    (0..settings).map(|setting| {
        let mut rows = *rows;
        rows[0].passes[1] = COUNTS[setting / COUNTS.len()];
        rows[1].passes[0] = COUNTS[setting % COUNTS.len()];
        rows
    })
}
