//! The counts of a table.

use crate::refusal;
use crate::row::{at_30, check, Row, MOST};

/// Entries above N are 0; on a refusal every figure is.
#[repr(C)]
#[derive(Clone, Copy, Debug, Default, PartialEq, Eq)]
pub struct Census {
    pub refusal: u16,
    pub at_30: u16,
    /// At 21 to 24: the write of act is complete, the critical section not reached.
    pub waiting: u16,
    pub below: [u16; MOST + 1],
    pub held: [u16; MOST + 1],
}

/// Counts a sound table; an unsound one gets its refusal and no figures.
pub fn census(rows: &[Row]) -> Census {
    let mut counts = Census { refusal: check(rows), ..Census::default() };
    if counts.refusal != refusal::NONE {
        return counts;
    }
    counts.at_30 = at_30(rows);
    counts.waiting = rows.iter().filter(|row| (21..=24).contains(&row.loc)).count() as u16;
    for row in rows {
        let one = u16::from(row.competes());
        counts.below[row.level as usize + 1] += one;
        counts.held[held_from(row) as usize + 1] += one;
    }
    for k in 0..rows.len() {
        counts.below[k + 1] += counts.below[k];
        counts.held[k + 1] += counts.held[k];
    }
    counts
}

/// A competing process is held for every k above this; it is at most the level.
fn held_from(row: &Row) -> u16 {
    let members = row.ahead.count_ones() as u16;
    row.level.min(if row.loc == 24 { row.level } else { members })
}
