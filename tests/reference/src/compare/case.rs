//! One case: a function, what it is given, and what it is lent.

use crate::generate::inputs::Input;
use crate::{Row, Settings, Tally};

/// The functions that are compared: those that are exported, and `Text`, which is the printing program.
#[derive(Clone, Copy, Debug, PartialEq, Eq)]
pub enum Kind {
    Call,
    Text,
    Print,
    Step,
    Run,
    Census,
    Rounds,
    Fresh,
    TakeApart,
    PutTogether,
    ReadImage,
    WriteImage,
}

impl Kind {
    pub const ALL: [Kind; 12] = [
        Kind::Call,
        Kind::Text,
        Kind::Print,
        Kind::Step,
        Kind::Run,
        Kind::Census,
        Kind::Rounds,
        Kind::Fresh,
        Kind::TakeApart,
        Kind::PutTogether,
        Kind::ReadImage,
        Kind::WriteImage,
    ];
}

/// `shift` moves the bytes in and the bytes out off their alignment. The rows of `Fresh` and `ReadImage` are lent with any
/// content, which is written over.
#[derive(Clone, Debug, PartialEq, Eq)]
pub enum Case {
    Call { input: Input, shift: usize, settings: Settings },
    Text { bytes: Vec<u8> },
    Print { input: Input, shift: usize },
    Step { rows: Vec<Row>, word: u32, settings: Settings },
    Run { rows: Vec<Row>, words: Vec<u32>, tally: Tally, settings: Settings },
    Census { rows: Vec<Row> },
    Rounds { rows: Vec<Row> },
    Fresh { rows: Vec<Row> },
    TakeApart { word: u32 },
    PutTogether { kind: u32, process: u32, argument: u32 },
    ReadImage { words: Vec<u32>, rows: Vec<Row> },
    WriteImage { rows: Vec<Row>, lent: usize },
}

impl Case {
    pub fn kind(&self) -> Kind {
        match self {
            Case::Call { .. } => Kind::Call,
            Case::Text { .. } => Kind::Text,
            Case::Print { .. } => Kind::Print,
            Case::Step { .. } => Kind::Step,
            Case::Run { .. } => Kind::Run,
            Case::Census { .. } => Kind::Census,
            Case::Rounds { .. } => Kind::Rounds,
            Case::Fresh { .. } => Kind::Fresh,
            Case::TakeApart { .. } => Kind::TakeApart,
            Case::PutTogether { .. } => Kind::PutTogether,
            Case::ReadImage { .. } => Kind::ReadImage,
            Case::WriteImage { .. } => Kind::WriteImage,
        }
    }
}
