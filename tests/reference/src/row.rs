//! The row of one process, what makes a table of rows sound, and the fresh table.

use crate::refusal;
use std::ops::{Deref, DerefMut};

/// The eight locations in rising order; a location's place here is its code in an image.
pub const LOCATIONS: [u16; 8] = [10, 20, 21, 22, 23, 24, 30, 40];

pub const FEWEST: usize = 2;
pub const MOST: usize = 16;

/// One process. `est`, `lis` and `ahead` have bit q for process q; row k holds the shared cell turn[k] in `turn`; `passes`
/// of q has at r how often q entered while r competed.
#[repr(C)]
#[derive(Clone, Copy, Debug, Default, PartialEq, Eq)]
pub struct Row {
    pub loc: u16,
    pub act: u16,
    pub bb: u16,
    pub level: u16,
    pub est: u16,
    pub lis: u16,
    pub ahead: u16,
    pub turn: u16,
    pub passes: [u16; MOST],
}

impl Row {
    pub const IDLE: Row =
        Row { loc: 10, act: 0, bb: 0, level: 0, est: 0, lis: 0, ahead: 0, turn: 0, passes: [0; MOST] };

    /// The row with no passes.
    pub fn without_passes(self) -> Row {
        Row { passes: [0; MOST], ..self }
    }

    /// Competing is being at 21 to 30.
    #[inline]
    pub fn competes(&self) -> bool {
        (21..=30).contains(&self.loc)
    }

    /// Whether each of the eight cells is in its range, without a branch: in a table that is sound the location is all
    /// that varies.
    #[inline]
    fn is_sound(&self, n: usize) -> bool {
        (self.loc <= LOCATIONS[7])
            & (self.act | self.bb <= 1)
            & (usize::from(self.level.max(self.turn)) < n)
            & ((self.est | self.lis | self.ahead) & !everyone(n) == 0)
            & self.is_placed()
    }

    /// Whether the location is one of the eight and goes with the level; it must be below 64.
    #[inline]
    pub(crate) fn is_placed(&self) -> bool {
        let allowed = if self.level == 0 { LEVEL_0 } else { LEVEL_ABOVE_0 };
        allowed >> (self.loc & 63) & 1 == 1
    }
}

/// The set of locations as bits of one number.
const fn locations(but: &[u16]) -> u64 {
    let (mut set, mut code) = (0, 0);
    while code < LOCATIONS.len() {
        set |= 1 << LOCATIONS[code];
        code += 1;
    }
    let mut i = 0;
    while i < but.len() {
        set &= !(1 << but[i]);
        i += 1;
    }
    set
}

/// Locations 22 to 24 ask for a level above 0, location 30 for level 0.
pub(crate) const LEVEL_0: u64 = locations(&[22, 23, 24]);
pub(crate) const LEVEL_ABOVE_0: u64 = locations(&[30]);

/// The set of all n processes.
#[inline]
pub fn everyone(n: usize) -> u16 {
    ((1u32 << n) - 1) as u16
}

/// The set of the one process p.
#[inline]
pub fn only(p: usize) -> u16 {
    1 << p
}

const CODES: [u8; 64] = {
    let (mut codes, mut code) = ([0; 64], 0);
    while code < LOCATIONS.len() {
        codes[LOCATIONS[code] as usize] = code as u8;
        code += 1;
    }
    codes
};

/// The place of one of the eight locations among them.
#[inline]
pub(crate) fn code(loc: u16) -> u8 {
    CODES[usize::from(loc & 63)]
}

/// 0 for a sound table, else the refusal: the number of rows comes before what is in them.
pub fn check(rows: &[Row]) -> u16 {
    let n = rows.len();
    if !(FEWEST..=MOST).contains(&n) {
        refusal::ROW_COUNT
    } else if rows[0].turn == 0 && rows.iter().all(|row| row.is_sound(n)) && passes_are_sound(rows) {
        refusal::NONE
    } else {
        refusal::UNSOUND
    }
}

/// Whether nobody has passes over itself, or over a process that is not there. All rows are put together before one look
/// at what stands past the last process.
fn passes_are_sound(rows: &[Row]) -> bool {
    let (mut own, mut all) = (0, [0; MOST]);
    for (q, row) in rows.iter().enumerate() {
        own |= row.passes[q % MOST];
        all.iter_mut().zip(row.passes).for_each(|(any, count)| *any |= count);
    }
    let past = (0..MOST).fold(0, |past, r| past | if r < rows.len() { 0 } else { all[r] });
    own | past == 0
}

/// The set of competing processes.
pub(crate) fn competing(rows: &[Row]) -> u16 {
    rows.iter().rev().fold(0, |set, row| set << 1 | u16::from(row.competes()))
}

/// The number of processes at 30.
pub(crate) fn at_30(rows: &[Row]) -> u16 {
    rows.iter().filter(|row| row.loc == 30).count() as u16
}

/// A table of its own, as an image gives it; it reads as a slice of its rows.
#[derive(Clone, Copy, Debug)]
pub struct Table {
    rows: [Row; MOST],
    n: usize,
}

impl Table {
    /// n idle rows; n is 2 to 16.
    #[inline]
    pub(crate) fn idle(n: usize) -> Table {
        debug_assert!((FEWEST..=MOST).contains(&n));
        const IDLE: [Row; MOST] = [Row::IDLE; MOST];
        Table { rows: IDLE, n }
    }
}

impl Deref for Table {
    type Target = [Row];
    #[inline]
    fn deref(&self) -> &[Row] {
        &self.rows[..self.n]
    }
}

impl DerefMut for Table {
    #[inline]
    fn deref_mut(&mut self) -> &mut [Row] {
        &mut self.rows[..self.n]
    }
}

/// Makes the lent rows the fresh table of that many processes, or answers 6 and changes none.
pub fn fresh_in(rows: &mut [Row]) -> u16 {
    if !(FEWEST..=MOST).contains(&rows.len()) {
        return refusal::ROW_COUNT;
    }
    rows.fill(Row::IDLE);
    refusal::NONE
}
