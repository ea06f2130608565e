//! Fresh tables to start from: every process at 10 with act 0, bb 0 and nobody ahead.

use crate::row::{everyone, Row};

/// The fresh table in which all else is 0 as well.
pub fn zeros<const N: usize>() -> [Row; N] {
    [Row::IDLE; N]
}

/// Every fresh table: level, est, lis and, but for row 0, turn are anything sound.
pub fn every_fresh<const N: usize>() -> Vec<[Row; N]> {
    let mut tables = vec![zeros()];
    for k in 0..N {
        let rows = fresh_rows(k, N);
        let with = |mut table: [Row; N], row| {
            table[k] = row;
            table
        };
        tables = tables.iter().flat_map(|&table| rows.iter().map(move |&row| with(table, row))).collect();
    }
    tables
}

/// Every row k of a fresh table of n processes.
fn fresh_rows(k: usize, n: usize) -> Vec<Row> {
    let (below_n, sets) = (0..n as u16, 0..=everyone(n));
    let turns = if k == 0 { 0..1 } else { below_n.clone() };
    let mut rows = vec![Row::IDLE];
    rows = each(rows, below_n, |row, level| Row { level, ..row });
    rows = each(rows, sets.clone(), |row, est| Row { est, ..row });
    rows = each(rows, sets, |row, lis| Row { lis, ..row });
    each(rows, turns, |row, turn| Row { turn, ..row })
}

/// Each row with each of the values in one cell.
fn each(rows: Vec<Row>, values: impl Iterator<Item = u16> + Clone, with: impl Fn(Row, u16) -> Row) -> Vec<Row> {
    let with = &with;
    rows.into_iter().flat_map(|row| values.clone().map(move |value| with(row, value))).collect()
}
