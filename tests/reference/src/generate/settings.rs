//! Settings, tables in which two processes are about one turn cell, and words that settings may forbid.

use super::Random;
use crate::row::{everyone, Row, MOST};
use crate::settings::{Settings, ACT_PLAIN, TURN_ONE_WRITER, TURN_PLAIN};
use crate::word::{join, process_of, FLICKER, GO};

/// The six, 0 and 0 more often; and one time in eight none of them.
pub fn some_settings(rng: &mut Random) -> Settings {
    match rng.below(16) {
        0 | 1 => wrong_settings(rng),
        2..=5 => Settings::SAFE,
        _ => rng.pick(&Settings::ALL),
    }
}

/// One of the two numbers is none of its settings, or both are.
pub fn wrong_settings(rng: &mut Random) -> Settings {
    let Settings { act, turn } = rng.pick(&Settings::ALL);
    match rng.below(5) {
        0 | 1 => Settings::of(wrong(rng, act, ACT_PLAIN), turn),
        2 | 3 => Settings::of(act, wrong(rng, turn, TURN_PLAIN)),
        _ => Settings::of(wrong(rng, act, ACT_PLAIN), wrong(rng, turn, TURN_PLAIN)),
    }
}

/// A number above the last setting: the next, one whose low bits are those of a setting, or any.
fn wrong(rng: &mut Random, good: u32, last: u32) -> u32 {
    let above = match rng.below(8) {
        0..=2 => last + 1,
        3 => rng.pick(&[3, 4, 0x100, 0x1_0000, 0x8000_0000, u32::MAX]),
        4 => good | 1 << rng.pick(&[8, 16, 31]),
        5 | 6 => good | 1 << rng.within(2, 31),
        _ => rng.next() as u32,
    };
    above.max(last + 1)
}

/// Puts one process at 23 and another at 24, or at 23 too, most often of one level and such that GO leads the first to 24.
pub fn contend(rng: &mut Random, rows: &mut [Row]) {
    let n = rows.len();
    let p = rng.below(n);
    let q = (p + rng.within(1, n - 1)) % n;
    let mut some_level = || rng.within(1, n - 1) as u16;
    let (level, other) = (some_level(), some_level());
    let size = (level as usize + rng.pick(&[0, 0, 1, n])).saturating_sub(rng.below(4) / 3).min(n);
    let bb = rng.chance(1, 4).into();
    rows[p] = Row { loc: 23, level, bb, est: set_of(rng, n, size), ..rows[p] };
    let level = if rng.chance(2, 3) { level } else { other };
    rows[q] = Row { loc: rng.pick(&[24, 24, 24, 23]), level, ..rows[q] };
}

/// A set of so many of n processes.
fn set_of(rng: &mut Random, n: usize, size: usize) -> u16 {
    let mut set = everyone(n);
    while set.count_ones() as usize > size {
        set &= !(1 << rng.member(set));
    }
    set
}

/// Whether settings forbid a word that would be taken under 0 and 0.
pub fn forbids(settings: Settings, rows: &[Row], word: u32) -> bool {
    let row = &rows[process_of(word) as usize];
    match (word >> 28, row.loc) {
        (FLICKER, 24) => settings.turn == TURN_PLAIN,
        (FLICKER, _) => settings.act == ACT_PLAIN,
        (GO, 23) if settings.turn == TURN_ONE_WRITER => {
            row.bb == 0 && row.est.count_ones() >= row.level.into() && writer(rows, row.level).is_some()
        }
        _ => false,
    }
}

/// A process at 24 that has the level.
pub fn writer(rows: &[Row], level: u16) -> Option<usize> {
    rows.iter().position(|row| row.loc == 24 && row.level == level)
}

/// A word that some settings forbid at the rows, if a process is where they do: FLICKER at 20, 24 or 40, or GO at 23, most
/// often of one that would go to 24; with an argument about the edge of what is listed at times.
pub fn touchy_word(rng: &mut Random, rows: &[Row]) -> u32 {
    let n = rows.len().min(MOST);
    let from = rng.below(n);
    let wanted = rng.pick(&[20, 24, 40, 23, 23, 23]);
    let all = || (0..n).map(|i| (from + i) % n).filter(|&p| rows[p].loc == wanted);
    let pushes = |p: &usize| wanted == 23 && rows[*p].bb == 0 && rows[*p].est.count_ones() >= rows[*p].level.into();
    let p = all().find(pushes).filter(|_| rng.chance(2, 3)).or_else(|| all().next()).unwrap_or(from);
    let argument = match rows[p].loc {
        23 => rng.pick(&[0, 0, 0, 1]),
        24 if rng.chance(1, 4) => n,
        24 => rng.below(n),
        _ => rng.pick(&[0, 1, 1, 2]),
    };
    let kind = if rows[p].loc == 23 { GO } else { FLICKER };
    join(kind, p as u32, argument as u32)
}
