//! A cell as a run keeps it from word to word.

use crate::Cell;

/// A cell in one number: access in bits 7-0, variable in bits 15-8, index above.
#[derive(Clone, Copy)]
pub struct Used(u32);

impl Used {
    pub const NONE: Used = Used(0);

    #[inline(always)]
    pub fn of(access: u16, variable: u16, index: usize) -> Used {
        Used(u32::from(access) | u32::from(variable) << 8 | (index as u32) << 16)
    }

    #[inline(always)]
    pub fn cell(self) -> Cell {
        Cell { access: (self.0 & 0xFF) as u16, variable: (self.0 >> 8 & 0xFF) as u16, index: (self.0 >> 16) as u16 }
    }
}
