//! The pieces of a case that shrinking changes: its words, its rows, its settings, and how much is lent.

use super::Case;
use crate::bytes::{read_input, words};
use crate::generate::inputs::{image_of, short_image_of, to_bytes};
use crate::image::{image_length, read, Header};
use crate::row::Row;
use crate::Settings;

fn bytes_of(case: &Case) -> Option<&[u8]> {
    match case {
        Case::Call { input, .. } | Case::Print { input, .. } => Some(&input.bytes),
        Case::Text { bytes } => Some(bytes),
        _ => None,
    }
}

/// Where the event words of an input begin: after its image if that can be read, else at the start.
fn events_from(bytes: &[u8]) -> usize {
    read_input(bytes).map_or(0, |input| bytes.len() - input.events.len())
}

/// How many bytes are asked for to be lent for the image after an input; 0 where that cannot be run.
fn asked_for(bytes: &[u8]) -> usize {
    read_input(bytes).map_or(0, |input| 4 * image_length(input.table.len()))
}

/// The header of words.
fn header_of(mut words: impl Iterator<Item = u32>) -> Option<Header> {
    words.next().and_then(Header::of)
}

/// The image of rows in the form that a header is of.
fn image_like(header: Option<Header>, rows: &[Row]) -> Vec<u32> {
    match header {
        Some(Header { passes: false, .. }) => short_image_of(rows),
        _ => image_of(rows),
    }
}

/// The case with other bytes in, which is lent as much too little or too much as before.
fn with_bytes(case: &Case, new: Vec<u8>) -> Case {
    let mut case = case.clone();
    match &mut case {
        Case::Call { input, .. } => {
            input.lent = (input.lent + asked_for(&new)).saturating_sub(asked_for(&input.bytes));
            input.bytes = new;
        }
        Case::Print { input, .. } => {
            let length = |bytes: &[u8]| crate::text(bytes).len();
            input.lent = (input.lent + length(&new)).saturating_sub(length(&input.bytes));
            input.bytes = new;
        }
        Case::Text { bytes } => *bytes = new,
        _ => {}
    }
    case
}

/// The words of a case that may be left out or changed.
pub fn word_list(case: &Case) -> Vec<u32> {
    match case {
        Case::Step { word, .. } | Case::TakeApart { word } => vec![*word],
        Case::PutTogether { kind, process, argument } => vec![*kind, *process, *argument],
        Case::Run { words, .. } | Case::ReadImage { words, .. } => words.clone(),
        _ => match bytes_of(case) {
            Some(bytes) if bytes.len() % 4 == 0 => words(&bytes[events_from(bytes)..]).collect(),
            _ => Vec::new(),
        },
    }
}

/// The case with other words; where their number is fixed, another number leaves the case as it is.
pub fn with_words(case: &Case, list: Vec<u32>) -> Case {
    if let Some(bytes) = bytes_of(case) {
        return with_bytes(case, [&bytes[..events_from(bytes)], &to_bytes(&list)].concat());
    }
    let mut case = case.clone();
    match (&mut case, list.as_slice()) {
        (Case::Step { word, .. } | Case::TakeApart { word }, [new]) => *word = *new,
        (Case::PutTogether { kind, process, argument }, [a, b, c]) => (*kind, *process, *argument) = (*a, *b, *c),
        (Case::Run { words, .. } | Case::ReadImage { words, .. }, _) => *words = list,
        _ => {}
    }
    case
}

/// The rows of a case, or those of the table in its image.
pub fn rows_of(case: &Case) -> Option<Vec<Row>> {
    match case {
        Case::Step { rows, .. } | Case::Run { rows, .. } | Case::Census { rows } => Some(rows.clone()),
        Case::Rounds { rows } | Case::Fresh { rows } | Case::WriteImage { rows, .. } => Some(rows.clone()),
        Case::ReadImage { words, .. } => read(words).ok().map(|table| table.to_vec()),
        _ => read_input(bytes_of(case)?).ok().map(|input| input.table.to_vec()),
    }
}

/// The case with other rows; an unsound table has no image, and then the case is left as it is.
pub fn with_rows(case: &Case, new: Vec<Row>) -> Case {
    let sound = crate::check(&new) == 0;
    if let Some(bytes) = bytes_of(case).filter(|_| sound) {
        let image = image_like(header_of(words(bytes)), &new);
        return with_bytes(case, [&to_bytes(&image), &bytes[events_from(bytes)..]].concat());
    }
    let mut case = case.clone();
    match &mut case {
        Case::Step { rows, .. } | Case::Run { rows, .. } | Case::Census { rows } => *rows = new,
        Case::Rounds { rows } | Case::Fresh { rows } | Case::WriteImage { rows, .. } => *rows = new,
        Case::ReadImage { words, rows } if sound => {
            let header = header_of(words.iter().copied());
            rows.truncate((rows.len() + new.len()).saturating_sub(header.map_or(0, |header| header.n)));
            *words = image_like(header, &new);
        }
        _ => {}
    }
    case
}

/// The case with its image in the short form, which has no passes.
pub fn in_short_form(case: &Case) -> Case {
    let Some(rows) = rows_of(case) else { return case.clone() };
    let image = short_image_of(&rows);
    if let Some(bytes) = bytes_of(case) {
        return with_bytes(case, [&to_bytes(&image), &bytes[events_from(bytes)..]].concat());
    }
    let mut case = case.clone();
    if let Case::ReadImage { words, .. } = &mut case {
        *words = image;
    }
    case
}

/// The settings of a case; 0 and 0 where it has none.
pub fn settings_of(case: &Case) -> Settings {
    match case {
        Case::Step { settings, .. } | Case::Run { settings, .. } | Case::Call { settings, .. } => *settings,
        _ => Settings::SAFE,
    }
}

/// The case with other settings, if it has any.
pub fn with_settings(case: &Case, new: Settings) -> Case {
    let mut case = case.clone();
    match &mut case {
        Case::Step { settings, .. } | Case::Run { settings, .. } | Case::Call { settings, .. } => *settings = new,
        _ => {}
    }
    case
}

/// How much is lent beside what the case gives.
pub fn lent_of(case: &Case) -> usize {
    match case {
        Case::Call { input, .. } | Case::Print { input, .. } => input.lent,
        Case::ReadImage { rows, .. } => rows.len(),
        Case::WriteImage { lent, .. } => *lent,
        _ => 0,
    }
}

/// The case with less lent.
pub fn with_lent(case: &Case, less: usize) -> Case {
    let mut case = case.clone();
    match &mut case {
        Case::Call { input, .. } | Case::Print { input, .. } => input.lent = less,
        Case::ReadImage { rows, .. } => rows.truncate(less),
        Case::WriteImage { lent, .. } => *lent = less,
        _ => {}
    }
    case
}
