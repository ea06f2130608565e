//! What makes a table of rows sound, looked at once, and the size of a set.

use crate::row::{FEWEST, LEVEL_0, LEVEL_ABOVE_0, LOCATIONS, MOST};
use crate::{refusal, Row, Settings};

/// How many members a set has. Its halves are looked up: not every x86-64 processor has an instruction that counts bits.
#[inline(always)]
pub fn size(set: u16) -> u16 {
    let [low, high] = set.to_le_bytes();
    u16::from(SIZES[usize::from(low)] + SIZES[usize::from(high)])
}

const SIZES: [u8; 256] = {
    let (mut sizes, mut set) = ([0; 256], 0usize);
    while set < 256 {
        sizes[set] = set.count_ones() as u8;
        set += 1;
    }
    sizes
};

/// 0 for a sound table, else the refusal: the number of rows comes before what is in them.
#[inline]
pub fn check(rows: &[Row]) -> u16 {
    if !(FEWEST..=MOST).contains(&rows.len()) {
        refusal::ROW_COUNT
    } else if are_sound(rows) {
        refusal::NONE
    } else {
        refusal::UNSOUND
    }
}

/// 0 for a sound table under one of the six settings, else the refusal: the table comes first.
#[inline]
pub fn check_under(rows: &[Row], settings: Settings) -> u16 {
    match check(rows) {
        refusal::NONE => settings.check(),
        refused => refused,
    }
}

/// Whether 2 to 16 rows are sound. All rows are put together before one look at what came out, since nearly all are
/// sound. `over` has by how much cells are above the highest that they may hold, `counts` all passes, `own` those of
/// processes over themselves, `places` whether all locations go with their levels. It is never inlined, since the
/// compiler makes vectors of it only where it stands alone.
#[inline(never)]
fn are_sound(rows: &[Row]) -> bool {
    let n = rows.len();
    let highest = &HIGHEST[n % HIGHEST.len()];
    let (mut over, mut counts, mut own, mut places) = ([0; 8], [0; 4], u64::from(rows[0].turn), 1);
    for (q, row) in rows.iter().enumerate() {
        let cells = cells(row);
        (0..8).for_each(|i| over[i] |= cells[i].saturating_sub(highest[i]));
        let passes = row.passes.as_chunks().0;
        (0..4).for_each(|i| counts[i] |= side_by_side(passes[i]));
        own |= u64::from(row.passes[q % MOST]);
        places &= place_of(row);
    }
    let past = (0..4).fold(0, |any, i| any | counts[i] & PAST[n % PAST.len()][i]);
    let over = over.iter().fold(0, |any, over| any | over);
    past | own | u64::from(over) | places ^ 1 == 0
}

/// The eight cells in their order.
#[inline(always)]
fn cells(row: &Row) -> [u16; 8] {
    [row.loc, row.act, row.bb, row.level, row.est, row.lis, row.ahead, row.turn]
}

/// Whether the location is one of the eight and goes with the level, in bit 0; what the other bits hold says nothing.
/// The location must be below 64.
#[inline(always)]
fn place_of(row: &Row) -> u64 {
    let allowed = if row.level == 0 { LEVEL_0 } else { LEVEL_ABOVE_0 };
    allowed >> (row.loc & 63)
}

/// For n processes, the highest that each of the eight cells may hold. There are 32, so that a remainder finds one.
const HIGHEST: [[u16; 8]; 32] = {
    let (mut highest, mut n) = ([[0; 8]; 32], FEWEST);
    while n <= MOST {
        let (number, set) = (n as u16 - 1, ((1u32 << n) - 1) as u16);
        highest[n] = [LOCATIONS[7], 1, 1, number, set, set, set, number];
        n += 1;
    }
    highest
};

/// Four cells or counts as one number, the first in its lowest bits.
#[inline(always)]
fn side_by_side([a, b, c, d]: [u16; 4]) -> u64 {
    u64::from(a) | u64::from(b) << 16 | u64::from(c) << 32 | u64::from(d) << 48
}

/// For n processes, the places of counts past the last of them, all bits of each.
const PAST: [[u64; 4]; 32] = {
    let (mut past, mut n) = ([[0; 4]; 32], FEWEST);
    while n <= MOST {
        let mut r = n;
        while r < MOST {
            past[n][r / 4] |= 0xFFFF << (r % 4 * 16);
            r += 1;
        }
        n += 1;
    }
    past
};
