//! What an engine answers to a case: its result and all lent memory, guards included.

use super::lent::{lend, lend_to_read, Lent, FILL, FILL_WORD};
use super::{Case, Engine};
use crate::generate::inputs::Input;
use crate::{refusal, Census, PartsAnswer, Ran, Reading, Rounded, Row, Settings, StepAnswer, Tally, WordAnswer};

#[derive(Clone, Debug, PartialEq, Eq)]
pub enum Answer {
    Call { number: u64, image: Lent<u8> },
    Text(Vec<u8>),
    Print { length: usize, text: Lent<u8> },
    Step { stepped: StepAnswer, rows: Lent<Row> },
    Run { ran: Ran, tally: Lent<Tally>, rows: Lent<Row> },
    Census { census: Census, input_whole: bool },
    Rounds { rounded: Rounded, rows: Lent<Row> },
    Fresh { refusal: u16, rows: Lent<Row> },
    TakeApart(PartsAnswer),
    PutTogether(WordAnswer),
    ReadImage { reading: Reading, rows: Lent<Row> },
    WriteImage { refusal: u16, words: Lent<u32> },
}

impl Case {
    pub fn answer(&self, engine: &dyn Engine) -> Answer {
        match self {
            Case::Call { input, shift, settings } => {
                let call = |bytes: &[u8], image: &mut [u8]| engine.call_under(bytes, image, *settings);
                let (number, image) = on_bytes(input, *shift, call);
                Answer::Call { number, image }
            }
            Case::Text { bytes } => Answer::Text(engine.text(bytes)),
            Case::Print { input, shift } => {
                let (length, text) = on_bytes(input, *shift, |bytes, text| engine.print(bytes, text));
                Answer::Print { length, text }
            }
            Case::Step { rows, word, settings } => {
                let (stepped, rows) = lend(rows, 0, |rows| (engine.step_under(rows, *word, *settings), true));
                Answer::Step { stepped, rows }
            }
            Case::Run { rows, words, tally, settings } => answer_run(engine, rows, words, *tally, *settings),
            Case::Census { rows } => {
                let (census, input_whole) = lend_to_read(rows, 0, |rows| engine.census(rows));
                Answer::Census { census, input_whole }
            }
            Case::Rounds { rows } => {
                let (rounded, rows) = lend(rows, 0, |rows| (engine.rounds(rows), true));
                Answer::Rounds { rounded, rows }
            }
            Case::Fresh { rows } => {
                let (refusal, rows) = lend(rows, 0, |rows| (engine.fresh(rows), true));
                Answer::Fresh { refusal, rows }
            }
            Case::TakeApart { word } => Answer::TakeApart(engine.take_apart(*word)),
            Case::PutTogether { kind, process, argument } => {
                Answer::PutTogether(engine.put_together(*kind, *process, *argument))
            }
            Case::ReadImage { words, rows } => answer_read(engine, words, rows),
            Case::WriteImage { rows, lent } => answer_write(engine, rows, *lent),
        }
    }
}

/// Lends the bytes in for reading and the bytes out for writing.
fn on_bytes<R>(input: &Input, shift: usize, call: impl FnOnce(&[u8], &mut [u8]) -> R) -> (R, Lent<u8>) {
    lend(&vec![FILL; input.lent], shift, |lent| lend_to_read(&input.bytes, shift, |bytes| call(bytes, lent)))
}

fn answer_run(engine: &dyn Engine, rows: &[Row], words: &[u32], tally: Tally, settings: Settings) -> Answer {
    let ((ran, tally), rows) = lend(rows, 0, |rows| {
        lend_to_read(words, 0, |words| {
            lend(&[tally], 0, |tally| (engine.run_under(rows, words, &mut tally[0], settings), true))
        })
    });
    Answer::Run { ran, tally, rows }
}

fn answer_read(engine: &dyn Engine, words: &[u32], rows: &[Row]) -> Answer {
    let (reading, rows) = lend(rows, 0, |rows| lend_to_read(words, 0, |words| engine.read_image(words, rows)));
    Answer::ReadImage { reading, rows }
}

fn answer_write(engine: &dyn Engine, rows: &[Row], lent: usize) -> Answer {
    let (refusal, words) =
        lend(&vec![FILL_WORD; lent], 0, |words| lend_to_read(rows, 0, |rows| engine.write_image(rows, words)));
    Answer::WriteImage { refusal, words }
}

impl Answer {
    /// The refusal in an answer. The printed text is asked for the one in its last line; one that was lent too few bytes counts
    /// as 13, though no number says so.
    pub fn refusal(&self) -> u16 {
        match self {
            Answer::Call { number, .. } => (number % 256) as u16,
            Answer::Text(text) => refusal_printed(text),
            Answer::Print { length, text } => text.inside.get(..*length).map_or(refusal::LENT_TOO_FEW, refusal_printed),
            Answer::Step { stepped, .. } => stepped.refusal,
            Answer::Fresh { refusal, .. } | Answer::WriteImage { refusal, .. } => *refusal,
            Answer::Run { ran, .. } => ran.refusal as u16,
            Answer::Census { census, .. } => census.refusal,
            Answer::Rounds { rounded, .. } => rounded.refusal,
            Answer::TakeApart(parts) => parts.refusal,
            Answer::PutTogether(word) => word.refusal as u16,
            Answer::ReadImage { reading, .. } => reading.refusal,
        }
    }
}

fn refusal_printed(text: &[u8]) -> u16 {
    let text = String::from_utf8_lossy(text);
    let last = text.lines().last().unwrap_or("");
    match last.split_once(' ') {
        Some(("done", _)) => 0,
        Some((_, rest)) => rest.split(' ').next_back().and_then(|number| number.parse().ok()).unwrap_or(0),
        None => 0,
    }
}
