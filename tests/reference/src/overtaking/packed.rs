//! A table of two or three processes in one number, ahead sets apart.

use crate::row::{code, Row, LOCATIONS};

/// The bits of a row but for turn and passes: 3 the location's code, 1 act, 1 bb, 2 level, 3 est, 3 lis.
const ROW: u32 = 13;
/// The bits of turn; row 0 has none.
const TURN: u32 = 2;

/// The bits of a count of passes.
const fn count_bits(n: usize) -> u32 {
    if n == 2 {
        4
    } else {
        2
    }
}

/// The largest count that has a number.
pub const fn most_count(n: usize) -> u16 {
    (1 << count_bits(n)) - 1
}

/// The number of a table, ahead sets apart. Cells too large for their bits are not let through, since two tables that differ
/// in more than ahead sets would then have one number.
pub fn pack<const N: usize>(rows: &[Row; N]) -> u64 {
    let mut packed = 0;
    for q in 0..N {
        for r in (0..N).filter(|&r| r != q) {
            packed = packed << count_bits(N) | u64::from(rows[q].passes[r]);
        }
    }
    packed = rows[1..].iter().fold(packed, |packed, row| packed << TURN | u64::from(row.turn));
    packed = rows.iter().fold(packed, |packed, row| packed << ROW | pack_row(row));
    assert_eq!(unpack(packed), rows.map(|row| Row { ahead: 0, ..row }), "a table that does not fit its bits");
    packed
}

/// The table of a number, with nobody ahead.
pub fn unpack<const N: usize>(mut packed: u64) -> [Row; N] {
    let mut last = |bits: u32| {
        let cell = packed & ((1 << bits) - 1);
        packed >>= bits;
        cell
    };
    let mut rows = [Row::IDLE; N];
    rows.iter_mut().rev().for_each(|row| *row = unpack_row(last(ROW)));
    rows[1..].iter_mut().rev().for_each(|row| row.turn = last(TURN) as u16);
    for q in (0..N).rev() {
        for r in (0..N).rev().filter(|&r| r != q) {
            rows[q].passes[r] = last(count_bits(N)) as u16;
        }
    }
    rows
}

fn pack_row(row: &Row) -> u64 {
    let cells = [(code(row.loc).into(), 3), (row.act, 1), (row.bb, 1), (row.level, 2), (row.est, 3), (row.lis, 3)];
    cells.iter().fold(0, |packed, &(cell, bits)| packed << bits | u64::from(cell) & ((1 << bits) - 1))
}

fn unpack_row(mut packed: u64) -> Row {
    let mut last = |bits: u32| {
        let cell = packed & ((1 << bits) - 1);
        packed >>= bits;
        cell as u16
    };
    let (lis, est, level, bb, act) = (last(3), last(3), last(2), last(1), last(1));
    Row { loc: LOCATIONS[usize::from(last(3))], act, bb, level, est, lis, ..Row::IDLE }
}
