//! An engine beside the naive model at one table.

use super::exchange::{exchange, Taken};
use super::full::{with_passes, Full};
use super::search::{Guide, Visited};
use super::silence::Silence;
use super::under::{other_settings, Under};
use crate::compare::{Case, Engine};
use crate::naive::{self, Fault, Standing};
use crate::{refusal, Census, Row, Settings, StepAnswer};

/// The engine, and the naive model with a fault or none: they must agree, on tables that must meet demand 3, at which
/// words without a clash can be exchanged, and from which rounds lead to 30 in time.
pub struct Beside<'a> {
    pub engine: &'a dyn Engine,
    pub fault: Fault,
    /// Whether a table of two processes is given every word again: with passes that are few or full, and under the other
    /// settings.
    pub again: bool,
}

/// What must not be found, as cases that both can be asked again.
#[derive(Clone, Debug)]
pub enum Finding {
    /// The answers differ.
    Difference(Box<Case>),
    /// Both say that more processes are held at some k, or are at 30, than demand 3 allows; or that the table is not sound.
    Demand3(Box<Case>),
    /// The order of two words makes a difference to the engine, though the cells that they used do not clash: the
    /// second after the first, and the first after the second.
    Exchange(Box<[Case; 2]>),
    /// Nobody is at 30 and somebody is at 20 to 24, and rounds lead nobody to 30, or not in time; or rounds are done
    /// though it is otherwise.
    Silence(Box<Case>),
}

impl<const N: usize> Guide<N> for Beside<'_> {
    type Finding = Finding;

    fn visit(
        &self,
        rows: &[Row; N],
        words: &[u32],
        mut each: impl FnMut(u32, Option<[Row; N]>),
    ) -> Result<Visited, Finding> {
        self.look(rows)?;
        let mut taken = Vec::with_capacity(4 * N);
        self.give(rows, words, Settings::SAFE, |word, answer, after| {
            let accepted = answer.refusal == refusal::NONE;
            if accepted {
                taken.push(Taken { word, cell: answer.cell, rows: *after });
            }
            each(word, accepted.then_some(*after));
        })?;
        let pairs = exchange(&taken, |rows, word| self.engine.step(rows, word));
        // last, so that a wrong step is found as such
        Ok(Visited {
            exchange: pairs.map_err(|pair| in_both_orders(&pair))?,
            silence: self.do_rounds(rows)?,
            full: self.give_with_passes(rows, words)?,
            under: self.give_under(rows, words)?,
        })
    }
}

fn in_both_orders<const N: usize>([first, second]: &[Taken<N>; 2]) -> Finding {
    let then = |led: &Taken<N>, word| Case::Step { rows: led.rows.to_vec(), word, settings: Settings::SAFE };
    Finding::Exchange(Box::new([then(first, second.word), then(second, first.word)]))
}

impl Beside<'_> {
    /// Gives every word to the rows under settings, each as if it were the first, and tells `each` the answer and what it
    /// led to.
    #[inline]
    fn give<const N: usize>(
        &self,
        rows: &[Row; N],
        words: &[u32],
        settings: Settings,
        mut each: impl FnMut(u32, StepAnswer, &[Row; N]),
    ) -> Result<(), Finding> {
        let model = Standing::new(rows, self.fault);
        let (mut after, mut model_after) = (*rows, *rows);
        for &word in words {
            let answer = self.engine.step_under(&mut after, word, settings);
            // leaves the rows as given where it refuses the word, so that they serve for the next
            let model_answer = model.step(word, settings.act, settings.turn, &mut model_after);
            if (answer, &after) != (model_answer, &model_after) {
                let case = Case::Step { rows: rows.to_vec(), word, settings };
                return Err(Finding::Difference(Box::new(case)));
            }
            each(word, answer, &after);
            if answer.refusal == refusal::NONE {
                (after, model_after) = (*rows, *rows);
            }
        }
        Ok(())
    }

    /// Gives every word to the table with each setting of passes.
    fn give_with_passes<const N: usize>(&self, rows: &[Row; N], words: &[u32]) -> Result<Full, Finding> {
        let mut full = Full::default();
        for rows in with_passes(rows).filter(|_| self.again) {
            self.give(&rows, words, Settings::SAFE, |word, answer, _| full.note(&rows, word, answer))?;
        }
        Ok(full)
    }

    /// Gives every word to the table under each of the other settings.
    fn give_under<const N: usize>(&self, rows: &[Row; N], words: &[u32]) -> Result<Under, Finding> {
        let mut under = Under::default();
        for settings in other_settings::<N>().filter(|_| self.again) {
            self.give(rows, words, settings, |_, answer, _| under.note(answer))?;
        }
        Ok(under)
    }

    /// The census of the table.
    fn look(&self, rows: &[Row]) -> Result<(), Finding> {
        let census = self.engine.census(rows);
        let case = || Box::new(Case::Census { rows: rows.to_vec() });
        if census != naive::census(rows, self.fault) {
            Err(Finding::Difference(case()))
        } else if !meets_demand_3(&census, rows.len()) {
            Err(Finding::Demand3(case()))
        } else {
            Ok(())
        }
    }

    /// Rounds from a copy of the table. Those of three processes are compared with the reference, since the naive model
    /// would take nearly half as long as the walk.
    fn do_rounds<const N: usize>(&self, rows: &[Row; N]) -> Result<Silence, Finding> {
        let (mut after, mut model_after) = (*rows, *rows);
        let rounded = self.engine.rounds(&mut after);
        let model_rounded = match N {
            2 => naive::rounds(&mut model_after, self.fault),
            _ => crate::rounds(&mut model_after),
        };
        let case = || Box::new(Case::Rounds { rows: rows.to_vec() });
        if (rounded, after) != (model_rounded, model_after) {
            return Err(Finding::Difference(case()));
        }
        Silence::of(rows, &rounded, &after).ok_or_else(|| Finding::Silence(case()))
    }
}

/// At most k processes are held at k, and at most one is at 30.
fn meets_demand_3(census: &Census, n: usize) -> bool {
    census.refusal == refusal::NONE && census.at_30 <= 1 && (0..=n).all(|k| usize::from(census.held[k]) <= k)
}
