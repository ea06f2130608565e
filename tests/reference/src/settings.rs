//! The settings of a step and of a run: what the shared cells do while they are written (manual, "Settings").

use crate::refusal;
use crate::row::{check, Row};
use std::fmt;

/// The numbers that forbid something.
pub const ACT_PLAIN: u32 = 1;
pub const TURN_ONE_WRITER: u32 = 1;
pub const TURN_PLAIN: u32 = 2;

/// The two numbers as they are given, which may be any.
#[derive(Clone, Copy, Debug, PartialEq, Eq)]
pub struct Settings {
    pub act: u32,
    pub turn: u32,
}

impl Settings {
    /// Act safe and turn write-safe, which forbid nothing.
    pub const SAFE: Settings = Settings::of(0, 0);

    pub const ALL: [Settings; 6] = [
        Settings::SAFE,
        Settings::of(0, 1),
        Settings::of(0, 2),
        Settings::of(1, 0),
        Settings::of(1, 1),
        Settings::of(1, 2),
    ];

    pub const fn of(act: u32, turn: u32) -> Settings {
        Settings { act, turn }
    }

    /// 0, or 18 where they are none of the six.
    #[inline]
    pub fn check(self) -> u16 {
        if self.act <= ACT_PLAIN && self.turn <= TURN_PLAIN {
            refusal::NONE
        } else {
            refusal::SETTINGS
        }
    }

    /// 0 for a sound table under one of the six, else the refusal: the table comes first.
    #[inline]
    pub fn check_with(self, rows: &[Row]) -> u16 {
        match check(rows) {
            refusal::NONE => self.check(),
            refused => refused,
        }
    }
}

impl fmt::Display for Settings {
    fn fmt(&self, f: &mut fmt::Formatter) -> fmt::Result {
        write!(f, "act {} turn {}", self.act, self.turn)
    }
}
