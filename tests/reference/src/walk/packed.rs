//! A table of two or three processes in one number, passes apart, and a set of such numbers.

use crate::row::{code, Row, LOCATIONS};
use std::collections::HashSet;
use std::hash::{BuildHasherDefault, Hasher};

/// The bits of a row: 3 the location's code, 1 act, 1 bb, 2 level, 3 est, 3 lis, 3 ahead, 2 turn.
const ROW: u32 = 18;

/// The number of a table, passes apart. Cells too large for their bits are not let through, since two tables that differ in
/// more than passes would then have one number.
pub fn pack<const N: usize>(rows: &[Row; N]) -> u64 {
    let packed = rows.iter().rev().fold(0, |packed, row| packed << ROW | pack_row(row));
    assert_eq!(unpack(packed), rows.map(Row::without_passes), "a table that does not fit its bits");
    packed
}

/// The table of a number, without passes.
pub fn unpack<const N: usize>(packed: u64) -> [Row; N] {
    std::array::from_fn(|p| unpack_row(packed >> (ROW * p as u32)))
}

fn pack_row(row: &Row) -> u64 {
    let cells = [
        (code(row.loc).into(), 3),
        (row.act, 1),
        (row.bb, 1),
        (row.level, 2),
        (row.est, 3),
        (row.lis, 3),
        (row.ahead, 3),
        (row.turn, 2),
    ];
    cells.iter().fold(0, |packed, &(cell, bits)| packed << bits | u64::from(cell) & ((1 << bits) - 1))
}

fn unpack_row(mut packed: u64) -> Row {
    let mut last = |bits: u32| {
        let cell = packed & ((1 << bits) - 1);
        packed >>= bits;
        cell as u16
    };
    let (turn, ahead, lis, est) = (last(2), last(3), last(3), last(3));
    let (level, bb, act) = (last(2), last(1), last(1));
    Row { loc: LOCATIONS[usize::from(last(3))], act, bb, level, est, lis, ahead, turn, ..Row::IDLE }
}

/// A set of packed tables.
pub type Tables = HashSet<u64, BuildHasherDefault<Mixed>>;

/// A cheap hash: a set of tables is asked for every accepted word.
#[derive(Default)]
pub struct Mixed(u64);

impl Hasher for Mixed {
    fn write(&mut self, _: &[u8]) {
        unreachable!("only packed tables are hashed");
    }

    fn write_u64(&mut self, table: u64) {
        let product = table.wrapping_mul(0x9E37_79B9_7F4A_7C15);
        self.0 = product ^ product >> 32;
    }

    fn finish(&self) -> u64 {
        self.0
    }
}
