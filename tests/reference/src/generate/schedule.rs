//! Schedules: words chosen with the rows and the settings at hand, so that runs go deep, and words that are refused for a
//! known reason.

use super::settings::{forbids, touchy_word, writer};
use super::Random;
use crate::refusal;
use crate::row::{competing, everyone, Row, MOST};
use crate::settings::Settings;
use crate::step::Machine;
use crate::word::{join, CANCEL, COME, FLICKER, GO, LOOK, STAY};

/// Which process moves next.
#[derive(Clone, Copy)]
enum Order {
    Any,
    Burst,
    LowestLevel,
    Round,
}

/// How a stretch of a run behaves. Processes away from 10 always take part, so that nobody blocks the others for good.
struct Mood {
    comers: u16,
    order: Order,
    flickers: usize,
    stays: usize,
    left: usize,
}

impl Mood {
    fn new(rng: &mut Random, n: usize) -> Mood {
        let few = (0..rng.within(1, 3)).fold(0, |set, _| set | 1 << rng.below(n));
        Mood {
            comers: match rng.below(4) {
                0 => everyone(n),
                1 => rng.next() as u16 & everyone(n),
                _ => few,
            },
            order: rng.pick(&[Order::Any, Order::Burst, Order::LowestLevel, Order::LowestLevel, Order::Round]),
            flickers: rng.pick(&[0, 1, 2, 8]),
            stays: rng.pick(&[0, 1]),
            left: rng.within(40, 600),
        }
    }

    /// `away` has the processes that are not at 10.
    fn choose(&self, rng: &mut Random, rows: &[Row], away: u16, last: usize) -> usize {
        let n = rows.len();
        let ready = away | self.comers;
        if ready == 0 || rng.chance(1, 64) {
            return rng.below(n);
        }
        match self.order {
            Order::Burst if ready >> last & 1 == 1 && !rng.chance(1, 24) => last,
            Order::LowestLevel if away != 0 && !rng.chance(1, 8) => lowest(rows, away, rng.member(away)),
            Order::Round => (1..=n).map(|i| (last + i) % n).find(|&p| ready >> p & 1 == 1).expect("one is ready"),
            _ => rng.member(ready),
        }
    }
}

/// The first of the lowest level among `set`, or `chosen` if it is as low.
fn lowest(rows: &[Row], set: u16, chosen: usize) -> usize {
    let rank = |p: usize| if rows[p].loc == 20 { u16::MAX } else { rows[p].level };
    (0..rows.len()).filter(|&p| set >> p & 1 == 1).fold(chosen, |best, p| if rank(p) < rank(best) { p } else { best })
}

/// Whether an entry of process p would carry a count too far.
fn is_full(rows: &[Row], p: usize) -> bool {
    let competing = competing(rows);
    rows[p].passes.iter().enumerate().any(|(r, &count)| count == u16::MAX && competing >> r & 1 == 1)
}

/// A word that is allowed for process p. Of those that go on from 20, one in ten cancels; of those whose entry would be
/// refused for a count, three in four.
fn word_for(rng: &mut Random, rows: &[Row], p: usize, mood: &Mood) -> u32 {
    let row = &rows[p];
    let flickers = rng.chance(mood.flickers, 16);
    let (kind, argument) = match row.loc {
        10 if rng.chance(mood.stays, 8) => (STAY, 0),
        10 => (COME, 0),
        20 | 40 if flickers => (FLICKER, rng.below(2)),
        24 if flickers => (FLICKER, rng.below(rows.len())),
        20 if is_full(rows, p) && rng.chance(3, 4) => (CANCEL, 0),
        20 if rng.chance(1, 10) => (CANCEL, 0),
        22 if row.lis != 0 => (LOOK, rng.member(row.lis)),
        _ => (GO, 0),
    };
    join(kind, p as u32, argument as u32)
}

/// `count` words, each accepted in its turn from the given rows under the settings, but for entries that meet a full count
/// and some words that are forbidden; `faulty` of them are replaced by words that may be refused. The schedule goes on as
/// if those that are refused had been left out. Settings that are none of the six count as 0 and 0.
pub fn schedule(rng: &mut Random, start: &[Row], count: usize, faulty: usize, settings: Settings) -> Vec<u32> {
    let mut rows = start.to_vec();
    let mut words = Vec::with_capacity(count);
    let mut wrong_at: Vec<usize> = (0..faulty.min(count)).map(|_| rng.below(count)).collect();
    wrong_at.sort_unstable();
    let n = rows.len();
    let mut away = (0..n).fold(0, |set, p| set | u16::from(rows[p].loc != 10) << p);
    let settings = if settings.check() == refusal::NONE { settings } else { Settings::SAFE };
    let kept = if settings == Settings::SAFE { 0 } else { rng.pick(&[0, 0, 1, 8]) };
    let mut machine = Machine::new(&mut rows, settings);
    let mut mood = Mood::new(rng, n);
    let mut last = 0;
    for place in 0..count {
        if mood.left == 0 {
            mood = Mood::new(rng, n);
        }
        mood.left -= 1;
        last = mood.choose(rng, machine.rows(), away, last);
        let mut good = word_for(rng, machine.rows(), last, &mood);
        if forbids(settings, machine.rows(), good) && !rng.chance(kept, 16) {
            (last, good) = instead(machine.rows(), last);
        }
        let wrong = wrong_at.binary_search(&place).is_ok();
        let word = if wrong { faulty_word(rng, machine.rows(), good) } else { good };
        words.push(word);
        if let Ok(event) = machine.take(word) {
            away = away & !(1 << event.p) | u16::from(event.after != 10) << event.p;
        }
    }
    words
}

/// What is done instead of a forbidden word of process p: GO, or, where that is forbidden, GO of the process at 24 that has
/// the level.
fn instead(rows: &[Row], p: usize) -> (usize, u32) {
    let q = if rows[p].loc == 23 { writer(rows, rows[p].level).expect("a writer") } else { p };
    (q, join(GO, q as u32, 0))
}

/// A word that is refused for one reason or another, or now and then taken.
pub fn faulty_word(rng: &mut Random, rows: &[Row], good: u32) -> u32 {
    let n = rows.len();
    let any = rng.below(n.max(1));
    let kind = rng.within(1, 6) as u32;
    match rng.below(14) {
        0 => good & 0x0FFF_FFFF | (rng.pick(&[0, 7, 8, 9, 14, 15])) << 28,
        1 => good | 1 << rng.pick(&[8, 9, 12, 15, 24, 25, 27]),
        2 => good & 0xFF00_FFFF | (rng.pick(&[n, n + 1, 15, 16, 17, 128, 255]) as u32) << 16,
        3 => join(kind, any as u32, 0),
        4 => join(kind, any as u32, rng.below(20) as u32),
        5 => good & !0xFF | rng.pick(&[1, 2, n - 1, n, n + 1, 15, 16, 31, 32, 255]) as u32,
        6 => wrong_argument(rng, rows),
        7 => good ^ 1 << rng.below(32),
        8 => join(rng.pick(&[GO, LOOK, CANCEL]), any as u32, rng.pick(&[0, 0, 1, 16])),
        9 | 10 => full_entry(rng, rows),
        11 | 12 => touchy_word(rng, rows),
        _ => rng.next() as u32,
    }
}

/// A word about a count that is full: GO of a process whose entry would carry one too far, with an argument at times, or
/// GO or another kind of one that is not at 20.
pub fn full_entry(rng: &mut Random, rows: &[Row]) -> u32 {
    let n = rows.len().min(MOST);
    let from = rng.below(n);
    let about = |at_20: bool| move |p: &usize| (rows[*p].loc == 20) == at_20 && is_full(rows, *p);
    let all = || (0..n).map(|i| (from + i) % n);
    let p = all().find(about(rng.chance(7, 8))).or_else(|| all().find(|&p| rows[p].loc == 20)).unwrap_or(from);
    let kind = if rng.chance(7, 8) { GO } else { rng.within(1, 6) as u32 };
    join(kind, p as u32, rng.pick(&[0, 0, 1, 16]))
}

/// A long run of accepted words from a fresh table.
pub fn deep_run(seed: u64, n: usize, count: usize) -> (Vec<Row>, Vec<u32>) {
    let rows = vec![Row::IDLE; n];
    let words = schedule(&mut Random::new(seed), &rows, count, 0, Settings::SAFE);
    (rows, words)
}

/// A word whose kind suits its process, with an argument about the edge of what is listed there; at 22 it may be the kind that
/// does not go with lis.
fn wrong_argument(rng: &mut Random, rows: &[Row]) -> u32 {
    let n = rows.len();
    let from = rng.below(n);
    let wanted = rng.pick(&[20, 22, 24, 40]);
    let p = (0..n).map(|i| (from + i) % n).find(|&p| rows[p].loc == wanted).unwrap_or(from);
    let kind = match rows[p].loc {
        20 if rng.chance(1, 2) => CANCEL,
        20 | 24 | 40 => FLICKER,
        22 if rng.chance(3, 4) => LOOK,
        _ => GO,
    };
    let argument = rng.pick(&[0, 1, 2, n - 1, n, n, n + 1, p, 15, 16]);
    join(kind, p as u32, argument as u32)
}
