//! The shared cell that a word used (manual, "Shared cells").

use std::fmt;

pub const READ: u16 = 1;
pub const WRITTEN: u16 = 2;

pub const ACT: u16 = 1;
pub const TURN: u16 = 2;

/// Act of a process or turn[k], read or written, as the exported functions answer it. All three are 0 where a word used
/// none, and where it was refused.
#[repr(C)]
#[derive(Clone, Copy, Debug, Default, PartialEq, Eq)]
pub struct Cell {
    pub access: u16,
    pub variable: u16,
    pub index: u16,
}

impl Cell {
    pub const NONE: Cell = Cell { access: 0, variable: 0, index: 0 };

    #[inline]
    pub const fn act_read(q: usize) -> Cell {
        Cell { access: READ, variable: ACT, index: q as u16 }
    }

    #[inline]
    pub const fn act_written(q: usize) -> Cell {
        Cell { access: WRITTEN, variable: ACT, index: q as u16 }
    }

    #[inline]
    pub const fn turn_read(k: usize) -> Cell {
        Cell { access: READ, variable: TURN, index: k as u16 }
    }

    #[inline]
    pub const fn turn_written(k: usize) -> Cell {
        Cell { access: WRITTEN, variable: TURN, index: k as u16 }
    }

    /// Whether two words that used these touch one cell, and at least one of them writes it.
    pub fn clashes(self, other: Cell) -> bool {
        let same = self.variable != 0 && (self.variable, self.index) == (other.variable, other.index);
        same && (self.access == WRITTEN || other.access == WRITTEN)
    }

    /// The letters of the printed line: how the cell was used and which variable it is of; `-` where there is none.
    pub fn letters(self) -> &'static str {
        match (self.access, self.variable) {
            (READ, ACT) => "ra",
            (WRITTEN, ACT) => "wa",
            (READ, TURN) => "rt",
            (WRITTEN, TURN) => "wt",
            _ => "-",
        }
    }
}

/// As in a printed line; a cell that is no answer shows its numbers.
impl fmt::Display for Cell {
    fn fmt(&self, f: &mut fmt::Formatter) -> fmt::Result {
        match (self.letters(), *self) {
            ("-", Cell::NONE) => write!(f, "-"),
            ("-", Cell { access, variable, index }) => write!(f, "access {access} variable {variable} index {index}"),
            (letters, Cell { index, .. }) => write!(f, "{letters}{index}"),
        }
    }
}
