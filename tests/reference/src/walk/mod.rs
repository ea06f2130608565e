//! Every table that accepted words lead to from fresh tables of two or three processes, passes apart, with every word given
//! to each, every two accepted words of different processes in both orders, rounds, and, for two processes, every word
//! again with passes that are few or full, and under every setting: an engine beside the naive model, or that model alone
//! as a control.

mod beside;
mod control;
mod exchange;
mod full;
mod packed;
mod search;
mod silence;
mod starts;
mod under;

pub use beside::{Beside, Finding};
pub use control::control;
pub use exchange::{exchange, Exchange, Taken};
pub use full::Full;
pub use search::{candidates, walk, Figures, Found, Visited};
pub use silence::{most_needed, Silence};
pub use under::Under;

use crate::naive::Fault;
pub(crate) use starts::{every_fresh, zeros};

/// A walk of an engine beside the naive model, and what it must count.
pub struct Walk {
    pub name: &'static str,
    pub expected: Figures,
    pub over: fn(&Beside) -> Result<Figures, Found<Finding>>,
}

pub const ZEROS_OF_2: Walk = Walk {
    name: "2 zeros",
    expected: Figures {
        tables: 1_116,
        accepted: 4_164,
        refused: 36_012,
        visited: Visited {
            exchange: Exchange {
                apart: 3_596,
                ahead_differs: 40,
                passes_differ: 16,
                clashing: 216,
                clash_differs: 110,
                full: 0,
            },
            silence: Silence { tables: 984, rounds: 5_012, most: 11 },
            full: Full { words: 642_816, entries: 3_680, exits: 1_536, full: 800 },
            under: Under { words: 200_880, accepted: 16_660, flickers: 4_144, goes: 16 },
        },
    },
    over: |beside| walk(&[zeros::<2>()], beside),
};

pub const EVERY_OF_2: Walk = Walk {
    name: "2 every",
    expected: Figures {
        tables: 61_704,
        accepted: 371_668,
        refused: 1_849_676,
        visited: Visited {
            exchange: Exchange {
                apart: 558_292,
                ahead_differs: 8_456,
                passes_differ: 8_192,
                clashing: 2_400,
                clash_differs: 1_202,
                full: 0,
            },
            silence: Silence { tables: 42_554, rounds: 293_170, most: 11 },
            full: Full { words: 35_541_504, entries: 701_920, exits: 11_488, full: 15_520 },
            under: Under { words: 11_106_720, accepted: 1_316_964, flickers: 541_360, goes: 16 },
        },
    },
    over: |beside| walk(&every_fresh::<2>(), beside),
};

pub const ZEROS_OF_3: Walk = Walk {
    name: "3 zeros",
    expected: Figures {
        tables: 3_426_399,
        accepted: 19_453_920,
        refused: 227_246_808,
        visited: Visited {
            exchange: Exchange {
                apart: 34_096_971,
                ahead_differs: 283_104,
                passes_differ: 66_816,
                clashing: 1_960_920,
                clash_differs: 1_019_472,
                full: 0,
            },
            silence: Silence { tables: 3_293_451, rounds: 33_802_163, most: 24 },
            full: Full { words: 0, entries: 0, exits: 0, full: 0 },
            under: Under { words: 0, accepted: 0, flickers: 0, goes: 0 },
        },
    },
    over: |beside| walk(&[zeros::<3>()], beside),
};

/// Words that use a shared cell and do not tell: controls in which the order of two words without a clash matters.
pub const UNTOLD: [Fault; 2] = [Fault::Go23UsesNone, Fault::FlickerAt24UsesNone];

/// Rounds that lead nobody to 30, and rounds of which one too many is counted: controls that break the bound.
pub const TOO_LONG: [Fault; 2] = [Fault::LookKeepsIdle, Fault::OneRoundMore];

/// In the control of three processes: the words of a shortest list after which two of them are at 30.
pub const SHORTEST: usize = 37;
