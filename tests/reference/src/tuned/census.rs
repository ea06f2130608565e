//! The counts of a table.

use super::row::{check, size};
use crate::row::MOST;
use crate::{refusal, Census, Row};

/// Counts a sound table; an unsound one gets its refusal and no figures.
pub fn census(rows: &[Row]) -> Census {
    let mut counts = Census { refusal: check(rows), ..Census::default() };
    if counts.refusal != refusal::NONE {
        return counts;
    }
    let (mut below, mut held) = ([0; MOST], [0; MOST]);
    for row in rows {
        let nowhere = if row.competes() { 0 } else { NOWHERE };
        add(&mut below, row.level | nowhere);
        add(&mut held, held_from(row) | nowhere);
        counts.at_30 += u16::from(row.loc == 30);
    }
    let n = rows.len();
    for k in 0..n.min(MOST) {
        counts.below[k + 1] = below[k].into();
        counts.held[k + 1] = held[k].into();
    }
    counts.waiting = counts.below[n] - counts.at_30;
    counts
}

/// A competing process is held for every k above this, which is at most the level: the level at 24, elsewhere the
/// members of ahead if they are fewer.
#[inline(always)]
fn held_from(row: &Row) -> u16 {
    let unless_fewer = if row.loc == 24 { u16::MAX } else { 0 };
    row.level.min(size(row.ahead) | unless_fewer)
}

/// Adds one process to the counts for every k above `from`, of which the first is for k = 1.
#[inline(always)]
fn add(counts: &mut [u8; MOST], from: u16) {
    let ones = &ABOVE[usize::from(from) % ABOVE.len()];
    counts.iter_mut().zip(ones).for_each(|(count, one)| *count += one);
}

/// For each number the ones at the k above it; with the bit of `NOWHERE` there are none.
const ABOVE: [[u8; MOST]; 2 * MOST] = {
    let (mut above, mut from) = ([[0; MOST]; 2 * MOST], 0);
    while from < MOST {
        let mut k = from;
        while k < MOST {
            above[from][k] = 1;
            k += 1;
        }
        from += 1;
    }
    above
};

/// The bit that keeps a process out of every count.
const NOWHERE: u16 = MOST as u16;
