//! Tables to do rounds from: those that lists make, sound ones that no list makes, and those that ask for no round.

use super::schedule::schedule;
use super::tables::{fresh_table, sound_table};
use super::Random;
use crate::row::Row;
use crate::{Settings, Tally};

/// A sound table of n processes.
pub fn table_for_rounds(rng: &mut Random, n: usize) -> Vec<Row> {
    match rng.below(18) {
        0..=5 => nobody_at_30(rng, n),
        6..=9 => made_by_a_list(rng, n),
        10 | 11 => after_every_come(rng, n),
        12 => placed(rng, n, &[10, 20, 40], Some(20)),
        13 => placed(rng, n, &[10, 40], Some(40)),
        14 => placed(rng, n, &[40], None),
        15 | 16 => broken(rng, n),
        _ => sound_table(rng, n),
    }
}

/// A fresh table after COME of each process, from where the rounds are as many as a list can leave to be done.
pub fn after_every_come(rng: &mut Random, n: usize) -> Vec<Row> {
    fresh_table(rng, n).into_iter().map(|row| Row { loc: 20, ..row }).collect()
}

/// A table that some words made from a fresh one.
fn made_by_a_list(rng: &mut Random, n: usize) -> Vec<Row> {
    let mut rows = fresh_table(rng, n);
    let count = rng.pick(&[20, 100, 600]);
    let count = rng.below(count);
    let words = schedule(rng, &rows, count, 0, Settings::SAFE);
    crate::run(&mut rows, &words, &mut Tally::default(), Settings::SAFE);
    rows
}

/// Any sound table with nobody at 30. A process at 10 whose act is 1 stays in est for good, so that the limit is used
/// up: among many processes, where that is long, such are rare.
fn nobody_at_30(rng: &mut Random, n: usize) -> Vec<Row> {
    let stuck = rng.chance(1, if n <= 4 { 2 } else { 4 * n });
    let mut rows = sound_table(rng, n);
    for row in &mut rows {
        if row.loc == 30 {
            row.loc = rng.pick(&[10, 20, 40]);
        }
        if row.loc == 10 && !stuck {
            row.act = 0;
        }
    }
    rows
}

/// Any sound table with nobody at 30, and with a process at 20 whose count is full over one that competes, or will once it
/// has entered; another may come to 30 before the round is broken.
fn broken(rng: &mut Random, n: usize) -> Vec<Row> {
    let mut rows = nobody_at_30(rng, n);
    let p = rng.below(n);
    let q = (p + rng.within(1, n - 1)) % n;
    rows[p].loc = 20;
    rows[p].passes[q] = rng.pick(&[u16::MAX, u16::MAX, u16::MAX - 1]);
    rows[q] = Row { loc: rng.pick(&[20, 21]), level: 0, ..rows[q] };
    rows
}

/// Any sound table with every process at one of some locations, which ask for no level, and one at another.
fn placed(rng: &mut Random, n: usize, locations: &[u16], one: Option<u16>) -> Vec<Row> {
    let mut rows = sound_table(rng, n);
    rows.iter_mut().for_each(|row| row.loc = rng.pick(locations));
    if let Some(loc) = one {
        rows[rng.below(n)].loc = loc;
    }
    rows
}
