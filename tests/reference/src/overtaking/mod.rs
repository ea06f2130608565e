//! How often one process overtakes another under each turn setting: the largest count of passes in any table that words lead
//! to, of two processes from every fresh table, and of three from those with zeros but for turn (the paper, section 4.1).

mod packed;
mod search;
mod set;

pub use packed::{pack, unpack};
pub use search::{Overtaken, Search};
pub use set::Set;

use crate::compare::Engine;
use crate::walk::{every_fresh, zeros};
use crate::{Row, Settings};

/// Where counts are cut off: of two processes, and of three.
pub const CUT_OF_2: u16 = 8;
pub const CUT_OF_3: u16 = 3;

/// The largest count under one writer and under plain turn.
pub const MOST: u16 = 2;

/// A search under a turn setting, act safe.
pub const fn under(turn: u32, cancels: bool, cut: u16) -> Search {
    Search { settings: Settings::of(0, turn), cancels, cut }
}

/// Two processes, from every fresh table.
pub fn of_2(turn: u32, cancels: bool, engine: &impl Engine, progress: impl Fn(usize)) -> Overtaken {
    under(turn, cancels, CUT_OF_2).over(&every_fresh::<2>(), engine, progress)
}

/// Three processes, from zeros with every turn. They stand for all fresh tables: what level, est and lis hold at 10 is
/// overwritten before a step reads it, level and est by GO at 20, lis by GO at 21.
pub fn of_3(turn: u32, cancels: bool, engine: &impl Engine, progress: impl Fn(usize)) -> Overtaken {
    under(turn, cancels, CUT_OF_3).over(&every_turn(), engine, progress)
}

fn every_turn() -> Vec<[Row; 3]> {
    let turned = |first, second| {
        let mut table = zeros::<3>();
        (table[1].turn, table[2].turn) = (first, second);
        table
    };
    (0..3).flat_map(|first| (0..3).map(move |second| turned(first, second))).collect()
}

/// Whether the largest count is the one expected: cut off under a write-safe turn, where it grows without end, and 2 under
/// the others.
pub fn is_expected(turn: u32, cut: u16, overtaken: &Overtaken) -> bool {
    overtaken.largest == if turn == 0 { cut } else { MOST }
}
