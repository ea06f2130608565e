//! Makes the case of a number under a seed.

use super::{Case, Kind};
use crate::generate::inputs::{input, limit_chance, lone_image, some_count, some_size, some_table, Input};
use crate::generate::rounds::table_for_rounds;
use crate::generate::schedule::{faulty_word, full_entry, schedule};
use crate::generate::settings::{contend, some_settings, touchy_word};
use crate::generate::tables::{damage_rows, old_rows};
use crate::generate::Random;
use crate::image::{image_length, short_length, Header};
use crate::row::{Row, MOST};
use crate::run::MOST_WORDS;
use crate::text::MOST_TEXT;
use crate::{Settings, Tally};

/// A random case of a kind.
pub fn make_case(rng: &mut Random, kind: Kind) -> Case {
    match kind {
        Kind::Call => {
            let settings = some_settings(rng);
            Case::Call { input: input(rng, settings), shift: rng.below(8), settings }
        }
        Kind::Text => Case::Text { bytes: input(rng, Settings::SAFE).bytes },
        Kind::Print => make_print(rng),
        Kind::Step => {
            let (settings, rows) = (some_settings(rng), lent_rows(rng));
            let word = next_word(rng, &rows, settings);
            Case::Step { rows, word, settings }
        }
        Kind::Run => make_run(rng),
        Kind::Census => Case::Census { rows: lent_rows(rng) },
        Kind::Rounds => make_rounds(rng),
        Kind::Fresh => {
            let count = if rng.chance(1, 2) { some_size(rng) } else { rng.pick(&[0, 1, 2, 15, 16, 17, 18, 32, 33]) };
            Case::Fresh { rows: old_rows(rng, count) }
        }
        Kind::TakeApart => Case::TakeApart { word: loose_word(rng) },
        Kind::PutTogether => Case::PutTogether { kind: edge(rng, 7), process: edge(rng, 17), argument: edge(rng, 257) },
        Kind::ReadImage => make_read(rng),
        Kind::WriteImage => {
            let rows = lent_rows(rng);
            let exact = image_length(rows.len());
            let few = exact.saturating_sub(1);
            let lent = rng.pick(&[exact, exact, exact, few, few, exact + 1, exact + 9, short_length(rows.len()), 0]);
            Case::WriteImage { rows, lent }
        }
    }
}

/// Rows that are sound three times in four, else damaged or of a wrong number; in one table in four two processes are about
/// one turn cell.
fn lent_rows(rng: &mut Random) -> Vec<Row> {
    let n = some_size(rng);
    let mut rows = walked(rng, n);
    if rng.chance(1, 4) {
        contend(rng, &mut rows);
    }
    spoil(rng, &mut rows);
    rows
}

/// Damages one table in four, or gives it a wrong number of rows.
fn spoil(rng: &mut Random, rows: &mut Vec<Row>) {
    match rng.below(16) {
        0..=2 => damage_rows(rng, rows),
        3 => rows.resize(rng.pick(&[0, 1, 17, 18, 33]), Row::IDLE),
        _ => {}
    }
    if rng.chance(1, 64) {
        damage_rows(rng, rows);
    }
}

/// A table, as it is or after some words.
fn walked(rng: &mut Random, n: usize) -> Vec<Row> {
    let mut rows = some_table(rng, n);
    if rng.chance(1, 2) {
        let count = rng.below(300);
        let words = schedule(rng, &rows, count, 0, Settings::SAFE);
        crate::run(&mut rows, &words, &mut Tally::default(), Settings::SAFE);
    }
    rows
}

/// A word that suits the rows and the settings more often than not.
fn next_word(rng: &mut Random, rows: &[Row], settings: Settings) -> u32 {
    let good = match crate::check(rows) {
        0 => schedule(rng, rows, 1, 0, settings)[0],
        _ => 0x4000_0000,
    };
    match rng.below(12) {
        0..=2 if !rows.is_empty() => faulty_word(rng, rows, good),
        3 if !rows.is_empty() => full_entry(rng, rows),
        4..=6 if !rows.is_empty() => touchy_word(rng, rows),
        _ => good,
    }
}

fn make_run(rng: &mut Random) -> Case {
    let (settings, rows) = (some_settings(rng), lent_rows(rng));
    let over = rng.chance(1, limit_chance(settings));
    let count = if over { MOST_WORDS + rng.below(3) } else { some_count(rng) };
    let faulty = rng.pick(&[0, 0, 1, 2]);
    let words = match crate::check(&rows) {
        0 => schedule(rng, &rows, count, faulty, settings),
        _ => vec![0x1000_0000; count],
    };
    let mut old = || rng.below(1000) as u32;
    let tally = Tally { words: old(), comes: old(), arrivals: old() };
    Case::Run { rows, words, tally, settings }
}

/// Three tables in four are sound, most of them such that rounds are done.
fn make_rounds(rng: &mut Random) -> Case {
    let n = some_size(rng);
    let mut rows = table_for_rounds(rng, n);
    spoil(rng, &mut rows);
    Case::Rounds { rows }
}

/// A printed run with about as many bytes lent as its text has, or as every text may have.
fn make_print(rng: &mut Random) -> Case {
    let bytes = input(rng, Settings::SAFE).bytes;
    let exact = crate::text(&bytes).len();
    let lent = match rng.below(32) {
        0..=3 => exact - 1,
        4..=7 => exact + 1,
        8 => 0,
        9 => rng.below(exact),
        10 => exact + rng.within(2, 100),
        11 => rng.pick(&[MOST_TEXT, MOST_TEXT, MOST_TEXT - 1, MOST_TEXT + 1, MOST_TEXT + 700]),
        _ => exact,
    };
    Case::Print { input: Input { bytes, lent }, shift: rng.below(8) }
}

/// An image with about as many rows lent as its header asks for, or as every image may ask for.
fn make_read(rng: &mut Random) -> Case {
    let words = lone_image(rng);
    let exact = words.first().and_then(|&word| Header::of(word)).map_or(2, |header| header.n);
    let count = match rng.below(16) {
        0 | 1 => exact - 1,
        2 | 3 => exact + 1,
        4 => 0,
        5 => rng.below(exact),
        6..=9 => MOST,
        10 => rng.pick(&[MOST + 1, MOST + 4, MOST + 24]),
        _ => exact,
    };
    Case::ReadImage { words, rows: old_rows(rng, count) }
}

fn loose_word(rng: &mut Random) -> u32 {
    let word = (rng.below(8) as u32) << 28 | (rng.below(20) as u32) << 16 | rng.below(256) as u32;
    match rng.below(4) {
        0 => word ^ 1 << rng.below(32),
        1 => rng.next() as u32,
        _ => word,
    }
}

/// A number about an edge, or far beyond it.
fn edge(rng: &mut Random, above: usize) -> u32 {
    match rng.below(8) {
        0 => rng.next() as u32,
        1 => (1 << 16) + rng.below(above) as u32,
        _ => rng.below(above + 1) as u32,
    }
}
