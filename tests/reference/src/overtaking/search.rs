//! Breadth first over the tables, ahead sets apart and passes cut off, that accepted words lead to under a turn setting.

use super::packed::{most_count, pack, unpack};
use super::set::Set;
use crate::compare::Engine;
use crate::walk::candidates;
use crate::word::CANCEL;
use crate::{refusal, Row, Settings};

/// What is searched: with which words, under which settings, and where counts of passes are cut off.
///
/// A count above `cut` is put back to it after each step. A step adds to counts, clears them, and reads them for refusal 15
/// alone, far above; so the tables met are just those of the search without a cut, each with its counts cut off, up to
/// entries that 15 would refuse. Nothing but the census reads ahead sets.
#[derive(Clone, Copy, Debug)]
pub struct Search {
    pub settings: Settings,
    pub cancels: bool,
    pub cut: u16,
}

/// What a search met.
#[derive(Clone, Copy, Debug, Default, PartialEq, Eq)]
pub struct Overtaken {
    pub tables: u64,
    /// Pairs of a table and an accepted word.
    pub words: u64,
    /// The largest count of passes, and the fewest words that lead to it.
    pub largest: u16,
    pub after: u32,
}

impl Search {
    /// Searches from the starts until no table is new. `progress` is told now and then how many tables are met.
    pub fn over<const N: usize>(
        &self,
        starts: &[[Row; N]],
        engine: &impl Engine,
        progress: impl Fn(usize),
    ) -> Overtaken {
        assert!(self.cut <= most_count(N));
        let words: Vec<u32> = candidates(N as u32).into_iter().filter(|word| self.gives(*word)).collect();
        let (mut met, mut overtaken) = (Set::default(), Overtaken::default());
        let mut layer: Vec<u64> = starts.iter().map(pack).filter(|&table| met.insert(table)).collect();
        for depth in 0.. {
            if layer.is_empty() {
                break;
            }
            let mut next = Vec::new();
            for (place, &table) in layer.iter().enumerate() {
                let rows = unpack::<N>(table);
                overtaken.note(&rows, depth);
                for led in self.accepted(&rows, &words, engine) {
                    overtaken.words += 1;
                    if led != table && met.insert(led) {
                        next.push(led);
                    }
                }
                if place % (1 << 16) == 0 {
                    progress(met.count());
                }
            }
            layer = next;
        }
        overtaken.tables = met.count() as u64;
        overtaken
    }

    fn gives(&self, word: u32) -> bool {
        self.cancels || word >> 28 != CANCEL
    }

    /// The tables that the words lead to which the rows accept.
    #[inline]
    fn accepted<'a, const N: usize>(
        &'a self,
        rows: &'a [Row; N],
        words: &'a [u32],
        engine: &'a impl Engine,
    ) -> impl Iterator<Item = u64> + 'a {
        words.iter().filter_map(move |&word| {
            let mut after = *rows;
            let answer = engine.step_under(&mut after, word, self.settings);
            (answer.refusal == refusal::NONE).then(|| {
                after.iter_mut().flat_map(|row| &mut row.passes).for_each(|count| *count = self.cut.min(*count));
                pack(&after)
            })
        })
    }
}

impl Overtaken {
    /// A table that is met after so many words.
    fn note(&mut self, rows: &[Row], depth: u32) {
        let largest = rows.iter().flat_map(|row| row.passes).max().unwrap_or(0);
        if largest > self.largest {
            (self.largest, self.after) = (largest, depth);
        }
    }
}
