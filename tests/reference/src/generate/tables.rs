//! Start tables: fresh, random sound, and unsound; and rows of any content.

use super::Random;
use crate::row::{everyone, Row, LOCATIONS, MOST};

/// Fresh (manual, "Tables"): level, est, lis and turn are anything sound.
pub fn fresh_table(rng: &mut Random, n: usize) -> Vec<Row> {
    if rng.chance(1, 2) {
        return vec![Row::IDLE; n];
    }
    let mut rows = sound_table(rng, n);
    for row in &mut rows {
        *row = Row { loc: 10, act: 0, bb: 0, ahead: 0, passes: [0; MOST], ..*row };
    }
    rows
}

/// Any sound table, reachable or not. In a crowded one most are at 30, or at 21 with level 0, whence they arrive. Most have
/// passes, some of them near the most that a count can be, so that some entries are refused.
pub fn sound_table(rng: &mut Random, n: usize) -> Vec<Row> {
    let most_level = rng.pick(&[n, n, 2, 3]).min(n);
    let most_code = rng.pick(&[8, 8, 8, 7]);
    let crowded = rng.chance(1, 8);
    let passes = rng.pick(&PASSES);
    (0..n)
        .map(|k| {
            let in_crowd = crowded && rng.chance(7, 8);
            let loc = if in_crowd { rng.pick(&[21, 30, 30]) } else { LOCATIONS[rng.below(most_code)] };
            let level = match loc {
                22..=24 => rng.within(1, (most_level - 1).max(1)),
                21 if in_crowd => 0,
                30 => 0,
                _ => rng.below(most_level),
            };
            Row {
                loc,
                act: rng.below(2) as u16,
                bb: rng.below(2) as u16,
                level: level as u16,
                est: some_set(rng, n),
                lis: some_set(rng, n),
                ahead: some_set(rng, n),
                turn: if k == 0 { 0 } else { rng.below(n) as u16 },
                passes: some_passes(rng, n, k, passes),
            }
        })
        .collect()
}

/// How many of the counts of a table are near the most, one in so many, and how many others are any; 0 is none.
#[derive(Clone, Copy)]
struct Passes {
    near_full: usize,
    any: usize,
}

const PASSES: [Passes; 5] = [
    Passes { near_full: 0, any: 0 },
    Passes { near_full: 0, any: 2 },
    Passes { near_full: 24, any: 3 },
    Passes { near_full: 6, any: 0 },
    Passes { near_full: 2, any: 2 },
];

/// The passes of process q of n: none over itself.
fn some_passes(rng: &mut Random, n: usize, q: usize, Passes { near_full, any }: Passes) -> [u16; MOST] {
    let mut passes = [0; MOST];
    for r in (0..n).filter(|&r| r != q) {
        if near_full > 0 && rng.chance(1, near_full) {
            passes[r] = rng.pick(&[65_533, 65_534, 65_535, 65_535]);
        } else if any > 0 && rng.chance(1, any) {
            passes[r] = if rng.chance(1, 2) { rng.below(4) as u16 } else { rng.next() as u16 };
        }
    }
    passes
}

/// Rows of any content, as they may be lent to be written over.
pub fn old_rows(rng: &mut Random, count: usize) -> Vec<Row> {
    let mut cell = || rng.next() as u16;
    (0..count)
        .map(|_| Row {
            loc: cell(),
            act: cell(),
            bb: cell(),
            level: cell(),
            est: cell(),
            lis: cell(),
            ahead: cell(),
            turn: cell(),
            passes: std::array::from_fn(|_| cell()),
        })
        .collect()
}

fn some_set(rng: &mut Random, n: usize) -> u16 {
    let any = rng.next() as u16;
    let set = match rng.below(5) {
        0 => 0,
        1 => any & rng.next() as u16 & rng.next() as u16,
        2 => any | rng.next() as u16,
        3 => 1 << rng.below(n),
        _ => any,
    };
    set & everyone(n)
}

/// Puts something out of range, or leaves it just in range, in one cell.
pub fn damage_rows(rng: &mut Random, rows: &mut [Row]) {
    let n = rows.len();
    if n == 0 {
        return;
    }
    let k = if rng.chance(1, 4) { 0 } else { rng.below(n) };
    let edge = n as u16;
    let row = &mut rows[k];
    match rng.below(16) {
        0 => row.loc = rng.next() as u16,
        1 => row.loc = rng.pick(&[0, 1, 9, 11, 19, 25, 29, 31, 39, 41, 50, 64 + 10, 266, 65535]),
        2 => row.act = rng.pick(&[2, 3, 256, 65535]),
        3 => row.bb = rng.pick(&[2, 3, 256, 65535]),
        4 => row.level = rng.pick(&[edge, edge + 1, 255, 256, 65535]),
        5 => row.est ^= 1 << rng.below(16),
        6 => row.lis ^= 1 << rng.below(16),
        7 => row.ahead ^= 1 << rng.below(16),
        8 => row.turn = rng.pick(&[1, edge - 1, edge, edge + 1, 255, 256, 65535]),
        9 => *row = Row { loc: rng.pick(&[22, 23, 24]), level: 0, ..*row },
        10 => *row = Row { loc: 30, level: rng.below(n) as u16, ..*row },
        11 | 12 => row.passes[k % MOST] = rng.pick(&[0, 1, 256, 65_535]),
        13 => row.passes[rng.within(n.min(MOST) - 1, MOST - 1)] = rng.pick(&[0, 1, 256, 65_535]),
        14 => row.passes[rng.below(MOST)] = rng.next() as u16,
        _ => rows[0].turn = rng.pick(&[0, 1, 2, 256]),
    }
}
