//! The loads of the benchmark: words of one manner from a fresh table, the same at every making.

use super::schedule::deep_run;
use super::Random;
use crate::row::Row;
use crate::settings::Settings;
use crate::step::Machine;
use crate::word::{join, CANCEL, COME, FLICKER, GO, LOOK, STAY};

#[derive(Clone, Copy, Debug, PartialEq, Eq)]
pub enum Load {
    /// Words of every kind, in stretches that differ.
    Mixed,
    /// STAY of each process in turn.
    Stays,
    /// Process 0 goes from 10 through 30 and 40 back to 10, then process 1, and so on.
    OneByOne,
    /// All come first; then a random process takes its next step each time. Of 16 nobody comes to 30 in 8,192 words.
    AllAtOnce,
    /// The same, but most often one that writes a cell lets it flicker.
    Flickers,
    /// COME, CANCEL and GO of random processes.
    ComeCancel,
    /// Mixed, but the first word is refused with 10.
    RefusedFirst,
}

impl Load {
    pub const ALL: [Load; 7] = [
        Load::Mixed,
        Load::Stays,
        Load::OneByOne,
        Load::AllAtOnce,
        Load::Flickers,
        Load::ComeCancel,
        Load::RefusedFirst,
    ];

    pub fn name(self) -> &'static str {
        match self {
            Load::Mixed => "mixed",
            Load::Stays => "stays",
            Load::OneByOne => "one by one",
            Load::AllAtOnce => "all at once",
            Load::Flickers => "flickers",
            Load::ComeCancel => "come cancel",
            Load::RefusedFirst => "refused first",
        }
    }

    /// The rows to start from, and so many words. All are accepted under 0 and 0, but for those of `RefusedFirst`. From
    /// a fresh table no run is long enough to fill a count of passes.
    pub fn made(self, n: usize, count: usize) -> (Vec<Row>, Vec<u32>) {
        let mut rng = Random::new(1);
        let words = match self {
            Load::Mixed => deep_run(1, n, count).1,
            Load::Stays => taken(n, count, |place, _| word(STAY, place % n, 0)),
            Load::OneByOne => one_by_one(n, count),
            Load::AllAtOnce => taken(n, count, |place, rows| all_at_once(&mut rng, place, rows)),
            Load::Flickers => taken(n, count, |place, rows| flickering(&mut rng, place, rows)),
            Load::ComeCancel => taken(n, count, |_, rows| come_or_cancel(rng.below(n), rows)),
            Load::RefusedFirst => refused_first(n, count),
        };
        (vec![Row::IDLE; n], words)
    }
}

fn word(kind: u32, p: usize, argument: usize) -> u32 {
    join(kind, p as u32, argument as u32)
}

/// Words that `next` chooses by their place and the rows before them, each accepted in its turn.
fn taken(n: usize, count: usize, mut next: impl FnMut(usize, &[Row]) -> u32) -> Vec<u32> {
    let mut rows = vec![Row::IDLE; n];
    let mut machine = Machine::new(&mut rows, Settings::SAFE);
    let mut take = |place| {
        let word = next(place, machine.rows());
        machine.take(word).expect("an accepted word");
        word
    };
    (0..count).map(&mut take).collect()
}

/// The step of process p that leads on: COME, GO, or LOOK at a member of lis that `choose` takes.
fn onward(rows: &[Row], p: usize, choose: impl FnOnce(u16) -> usize) -> u32 {
    match rows[p] {
        Row { loc: 10, .. } => word(COME, p, 0),
        Row { loc: 22, lis, .. } if lis != 0 => word(LOOK, p, choose(lis)),
        _ => word(GO, p, 0),
    }
}

fn one_by_one(n: usize, count: usize) -> Vec<u32> {
    let mut p = n - 1;
    taken(n, count, |_, rows| {
        if rows[p].loc == 10 {
            p = (p + 1) % n;
        }
        onward(rows, p, |lis| lis.trailing_zeros() as usize)
    })
}

fn all_at_once(rng: &mut Random, place: usize, rows: &[Row]) -> u32 {
    let p = if place < rows.len() { place } else { rng.below(rows.len()) };
    onward(rows, p, |lis| rng.member(lis))
}

/// A FLICKER seven times in eight, if a process is where it may.
fn flickering(rng: &mut Random, place: usize, rows: &[Row]) -> u32 {
    let n = rows.len();
    let may = (0..n).fold(0, |set, p| set | u16::from([20, 24, 40].contains(&rows[p].loc)) << p);
    if place < n || may == 0 || !rng.chance(7, 8) {
        return all_at_once(rng, place, rows);
    }
    let p = rng.member(may);
    let values = if rows[p].loc == 24 { n } else { 2 };
    word(FLICKER, p, rng.below(values))
}

fn come_or_cancel(p: usize, rows: &[Row]) -> u32 {
    match rows[p].loc {
        10 => word(COME, p, 0),
        20 => word(CANCEL, p, 0),
        _ => word(GO, p, 0),
    }
}

/// GO is refused at 10.
fn refused_first(n: usize, count: usize) -> Vec<u32> {
    let (_, mut words) = deep_run(1, n, count);
    words[0] = word(GO, 0, 0);
    words
}
