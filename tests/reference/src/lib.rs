//! An independent engine for the rules of docs/MANUAL.md: rows in place, one pass, no allocation in a run. It is what the proved
//! engine is compared with and measured against. `naive` is a second reading of the same rules, slow and obvious, that checks
//! this one. `tuned` has the same rules, tuned for speed, only to be measured against.

pub mod bytes;
pub mod cell;
pub mod census;
pub mod image;
pub mod rounds;
pub mod row;
pub mod run;
pub mod settings;
pub mod step;
pub mod text;
pub mod word;

pub mod naive;
pub mod tuned;

pub mod compare;
pub mod generate;
pub mod overtaking;
pub mod walk;

pub use bytes::c_call;
pub use cell::Cell;
pub use census::{census, Census};
pub use image::{read_into, write_image, Reading};
pub use rounds::{rounds, Rounded};
pub use row::{check, fresh_in, Row, Table};
pub use run::{run, Ran, Tally};
pub use settings::Settings;
pub use step::{step, step_in, Event, StepAnswer};
pub use text::{print_into, text};
pub use word::{put_together, take_apart, PartsAnswer, WordAnswer};

/// The refusals by number (manual, "Refusals"); 0 is none.
pub mod refusal {
    pub const NONE: u16 = 0;
    pub const NO_HEADER: u16 = 1;
    pub const IMAGE_LENGTH: u16 = 2;
    pub const IMAGE_FORM: u16 = 3;
    pub const IMAGE_RANGE: u16 = 4;
    pub const IMAGE_LEVEL: u16 = 5;
    pub const ROW_COUNT: u16 = 6;
    pub const UNSOUND: u16 = 7;
    pub const WORD_FORM: u16 = 8;
    pub const NO_PROCESS: u16 = 9;
    pub const NOT_ALLOWED: u16 = 10;
    pub const ARGUMENT: u16 = 11;
    pub const TOO_MANY_WORDS: u16 = 12;
    pub const LENT_TOO_FEW: u16 = 13;
    pub const INPUT_BYTES: u16 = 14;
    pub const FULL_COUNT: u16 = 15;
    pub const FORBIDDEN_FLICKER: u16 = 16;
    pub const FORBIDDEN_GO: u16 = 17;
    pub const SETTINGS: u16 = 18;
}
