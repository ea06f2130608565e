//! Cases and answers as they are printed for a difference.

use super::lent::{Lent, FILL};
use super::{Answer, Case};
use crate::generate::inputs::Input;
use crate::row::MOST;
use crate::{PartsAnswer, Ran, Reading, Rounded, Row, StepAnswer, Tally, WordAnswer};
use std::fmt;

/// Words in hexadecimal, ten a line.
pub struct Hex<'a>(pub &'a [u32]);

impl fmt::Display for Hex<'_> {
    fn fmt(&self, f: &mut fmt::Formatter) -> fmt::Result {
        for line in self.0.chunks(10) {
            let words: Vec<String> = line.iter().map(|word| format!("{word:08X}")).collect();
            write!(f, "\n    {}", words.join(" "))?;
        }
        Ok(())
    }
}

fn words_of(bytes: &[u8]) -> Vec<u32> {
    crate::bytes::words(bytes).collect()
}

fn show_rows(f: &mut fmt::Formatter, rows: &[Row]) -> fmt::Result {
    for (p, row) in rows.iter().enumerate() {
        write!(
            f,
            "\n    {p:2}: loc {} act {} bb {} level {} est {:04X} lis {:04X} ahead {:04X} turn {}",
            row.loc, row.act, row.bb, row.level, row.est, row.lis, row.ahead, row.turn
        )?;
        if row.passes != [0; MOST] {
            write!(f, " passes {:?}", row.passes)?;
        }
    }
    Ok(())
}

fn show_bytes(f: &mut fmt::Formatter, bytes: &[u8]) -> fmt::Result {
    write!(f, "{}", Hex(&words_of(bytes)))?;
    match bytes.chunks_exact(4).remainder() {
        [] => Ok(()),
        rest => write!(f, "\n    and the bytes {rest:02X?}"),
    }
}

/// A case or an answer with rows after what is said first.
fn show_with_rows(f: &mut fmt::Formatter, what: String, rows: &[Row]) -> fmt::Result {
    write!(f, "{what}, {} rows:", rows.len())?;
    show_rows(f, rows)
}

fn show_input(f: &mut fmt::Formatter, what: &str, input: &Input, shift: usize) -> fmt::Result {
    write!(f, "{what}, {} bytes lent, shifted by {shift}, words in:", input.lent)?;
    show_bytes(f, &input.bytes)
}

impl fmt::Display for Case {
    fn fmt(&self, f: &mut fmt::Formatter) -> fmt::Result {
        match self {
            Case::Call { input, shift, settings } => show_input(f, &format!("call, {settings}"), input, *shift),
            Case::Print { input, shift } => show_input(f, "printed run", input, *shift),
            Case::Text { bytes } => {
                write!(f, "printing program, words in:")?;
                show_bytes(f, bytes)
            }
            Case::Step { rows, word, settings } => {
                show_with_rows(f, format!("step, {settings}, word {word:08X}"), rows)
            }
            Case::Run { rows, words, tally, settings } => {
                show_with_rows(f, format!("run, {settings}, {tally:?} before"), rows)?;
                write!(f, "\n  {} words:{}", words.len(), Hex(words))
            }
            Case::Census { rows } => show_with_rows(f, "census".into(), rows),
            Case::Rounds { rows } => show_with_rows(f, "rounds".into(), rows),
            Case::Fresh { rows } => show_with_rows(f, "fresh table".into(), rows),
            Case::ReadImage { words, rows } => {
                show_with_rows(f, "image read".into(), rows)?;
                write!(f, "\n  {} words:{}", words.len(), Hex(words))
            }
            Case::WriteImage { rows, lent } => show_with_rows(f, format!("image write, {lent} words lent"), rows),
            Case::TakeApart { word } => write!(f, "taken apart: {word:08X}"),
            Case::PutTogether { kind, process, argument } => {
                write!(f, "put together: kind {kind}, process {process}, argument {argument}")
            }
        }
    }
}

fn show_lent<T>(f: &mut fmt::Formatter, lent: &Lent<T>) -> fmt::Result {
    show_whole(f, lent.guards_whole, lent.input_whole)
}

fn show_whole(f: &mut fmt::Formatter, guards_whole: bool, input_whole: bool) -> fmt::Result {
    if !guards_whole {
        write!(f, "\n    WROTE OUTSIDE the lent memory")?;
    }
    if !input_whole {
        write!(f, "\n    WROTE INTO memory lent for reading, or about it")?;
    }
    Ok(())
}

fn show_lent_rows(f: &mut fmt::Formatter, what: String, rows: &Lent<Row>) -> fmt::Result {
    show_with_rows(f, what, &rows.inside)?;
    show_lent(f, rows)
}

fn show_ran(f: &mut fmt::Formatter, ran: &Ran, tally: &Lent<Tally>, rows: &Lent<Row>) -> fmt::Result {
    let Ran { taken, refusal, cell } = ran;
    show_lent_rows(f, format!("taken {taken} refusal {refusal} cell {cell}, {:?}", tally.inside[0]), rows)?;
    show_lent(f, tally)
}

/// The text of a printed run, where it fits, and what else happened to the lent bytes.
fn show_text(f: &mut fmt::Formatter, length: usize, text: &Lent<u8>) -> fmt::Result {
    let (printed, rest) = text.inside.split_at_checked(length).unwrap_or((&[], &text.inside));
    write!(f, "length {length}, lent bytes:")?;
    show_lines(f, printed)?;
    let changed = rest.iter().filter(|&&byte| byte != FILL).count();
    if changed > 0 {
        write!(f, "\n    and {changed} of {} other bytes CHANGED", rest.len())?;
    }
    show_lent(f, text)
}

fn show_lines(f: &mut fmt::Formatter, text: &[u8]) -> fmt::Result {
    String::from_utf8_lossy(text).lines().try_for_each(|line| write!(f, "\n    {line}"))
}

impl fmt::Display for Answer {
    fn fmt(&self, f: &mut fmt::Formatter) -> fmt::Result {
        match self {
            Answer::Call { number, image } => {
                write!(f, "taken {} refusal {} (number {number}), image:", number / 256, number % 256)?;
                show_bytes(f, &image.inside)?;
                show_lent(f, image)
            }
            Answer::Text(text) => {
                write!(f, "printed:")?;
                show_lines(f, text)
            }
            Answer::Print { length, text } => show_text(f, *length, text),
            Answer::Step { stepped: StepAnswer { refusal, cell }, rows } => {
                show_lent_rows(f, format!("refusal {refusal}, cell {cell}"), rows)
            }
            Answer::Fresh { refusal, rows } => show_lent_rows(f, format!("refusal {refusal}"), rows),
            Answer::Run { ran, tally, rows } => show_ran(f, ran, tally, rows),
            Answer::Rounds { rounded: Rounded { refusal, rounds, occupied }, rows } => {
                show_lent_rows(f, format!("refusal {refusal}, rounds {rounds}, occupied {occupied}"), rows)
            }
            Answer::ReadImage { reading: Reading { refusal, place, size }, rows } => {
                show_lent_rows(f, format!("refusal {refusal}, place {place}, size {size}"), rows)
            }
            Answer::WriteImage { refusal, words } => {
                write!(f, "refusal {refusal}, words:{}", Hex(&words.inside))?;
                show_lent(f, words)
            }
            Answer::TakeApart(PartsAnswer { refusal, kind, process, argument }) => {
                write!(f, "refusal {refusal}, kind {kind}, process {process}, argument {argument}")
            }
            Answer::PutTogether(WordAnswer { refusal, word }) => write!(f, "refusal {refusal}, word {word:08X}"),
            Answer::Census { census, input_whole } => {
                write!(f, "{census:?}")?;
                show_whole(f, true, *input_whole)
            }
        }
    }
}
