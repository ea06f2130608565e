//! Inputs in bytes for the run and the printed run, with the number of lent bytes, and images by themselves.

use super::schedule::schedule;
use super::settings::contend;
use super::tables::{fresh_table, sound_table};
use super::Random;
use crate::image::{image_length, short_length, write};
use crate::refusal;
use crate::row::{Row, FEWEST, MOST};
use crate::run::MOST_WORDS;
use crate::settings::Settings;

/// Bytes in, and how many bytes are lent for the image or the text.
#[derive(Clone, Debug, PartialEq, Eq)]
pub struct Input {
    pub bytes: Vec<u8>,
    pub lent: usize,
}

/// 2 to 16 processes, the smallest and the largest number more often.
pub fn some_size(rng: &mut Random) -> usize {
    match rng.below(8) {
        0 => FEWEST,
        1 => MOST,
        _ => rng.within(FEWEST, MOST),
    }
}

/// Half of the tables are fresh; in one of the others in three, two processes are about one turn cell.
pub fn some_table(rng: &mut Random, n: usize) -> Vec<Row> {
    if rng.chance(1, 2) {
        return fresh_table(rng, n);
    }
    let mut rows = sound_table(rng, n);
    if rng.chance(1, 3) {
        contend(rng, &mut rows);
    }
    rows
}

/// Mostly short, at times long, and at the limit once in a while.
pub fn some_count(rng: &mut Random) -> usize {
    match rng.below(128) {
        0 => rng.pick(&[MOST_WORDS - 1, MOST_WORDS, MOST_WORDS]),
        1..=6 => rng.within(500, 3000),
        7..=40 => rng.within(50, 500),
        _ => rng.below(50),
    }
}

/// The image of sound rows in words.
pub fn image_of(rows: &[Row]) -> Vec<u32> {
    let mut words = vec![0; image_length(rows.len())];
    write(rows, &mut words);
    words
}

/// The image of sound rows in the short form, which leaves the passes out.
pub fn short_image_of(rows: &[Row]) -> Vec<u32> {
    let mut words = image_of(rows);
    words.truncate(short_length(rows.len()));
    words[0] ^= OTHER_FORM;
    words
}

/// The bit in which the headers of the two forms differ.
const OTHER_FORM: u32 = 1 << 24;

pub fn to_bytes(words: &[u32]) -> Vec<u8> {
    words.iter().flat_map(|word| word.to_le_bytes()).collect()
}

fn some_lent(rng: &mut Random, n: usize) -> usize {
    let (exact, short) = (4 * image_length(n), 4 * short_length(n));
    match rng.below(26) {
        0 => exact - 1,
        1 => 0,
        2 => exact + rng.within(1, 3),
        3 => exact + rng.within(1, 100),
        4 => rng.below(exact),
        5 => exact - 4,
        6 => exact + 4,
        7 => short + rng.pick(&[0, 0, 4, 80]).min(exact - short - 1),
        _ => exact,
    }
}

/// Any input: most can be run under the settings, the others are damaged in one of many ways.
pub fn input(rng: &mut Random, settings: Settings) -> Input {
    let n = some_size(rng);
    let lent = some_lent(rng, n);
    if rng.chance(1, 24) {
        return Input { bytes: garbage(rng), lent };
    }
    let (rows, mut image) = table_and_image(rng, n);
    let length = image.len();
    if rng.chance(1, 5) {
        damage_image(rng, &mut image, n);
    }
    let count = if rng.chance(1, limit_chance(settings)) { over_limit(rng, length) } else { some_count(rng) };
    let faulty = rng.pick(&[0, 0, 1, 2, 4]);
    let mut words = image;
    words.extend(schedule(rng, &rows, count, faulty, settings));
    let mut bytes = to_bytes(&words);
    if rng.chance(1, 12) {
        damage_bytes(rng, &mut bytes, length);
    }
    Input { bytes, lent }
}

/// A table and its image, which is of the short form one time in four; the table has no passes then.
fn table_and_image(rng: &mut Random, n: usize) -> (Vec<Row>, Vec<u32>) {
    let mut rows = some_table(rng, n);
    if rng.chance(3, 4) {
        let image = image_of(&rows);
        return (rows, image);
    }
    rows.iter_mut().for_each(|row| *row = row.without_passes());
    let image = short_image_of(&rows);
    (rows, image)
}

/// An image by itself: most can be read, the others are damaged, in two places at times, cut, too long, or no image at all.
pub fn lone_image(rng: &mut Random) -> Vec<u32> {
    if rng.chance(1, 24) {
        return crate::bytes::words(&garbage(rng)).collect();
    }
    let n = some_size(rng);
    let (_, mut words) = table_and_image(rng, n);
    let length = words.len();
    match rng.below(18) {
        0 => words.truncate(rng.below(length)),
        1 => words.extend((0..rng.within(1, 30)).map(|_| 0x1000_0000)),
        2 => wrong_length(rng, &mut words, n),
        3..=8 => damage_image(rng, &mut words, n),
        _ => {}
    }
    if words.len() == length && rng.chance(1, 8) {
        damage_image(rng, &mut words, n);
    }
    words
}

/// An image with the length of the other form, or nearly so.
fn wrong_length(rng: &mut Random, words: &mut Vec<u32>, n: usize) {
    let zeros = (0..n * n).map(|place| 0xE000_0000 | (place / n << 24 | place % n << 16) as u32);
    let mut longest: Vec<u32> = words.iter().copied().take(short_length(n)).chain(zeros).collect();
    longest.truncate(rng.pick(&[
        short_length(n) - 1,
        short_length(n),
        short_length(n) + n,
        image_length(n) - 1,
        image_length(n),
    ]));
    *words = longest;
}

/// One input in so many has words about the limits: more of those whose settings are refused before that.
pub fn limit_chance(settings: Settings) -> usize {
    if settings.check() == refusal::NONE {
        200
    } else {
        32
    }
}

/// A number of event words about the two limits, after an image of a length.
fn over_limit(rng: &mut Random, length: usize) -> usize {
    let most_in_bytes = MOST_WORDS + image_length(MOST) - length;
    rng.pick(&[MOST_WORDS, MOST_WORDS + 1, MOST_WORDS + 2, most_in_bytes, most_in_bytes + 1])
}

/// One thing wrong with an image, or nearly so.
fn damage_image(rng: &mut Random, words: &mut Vec<u32>, n: usize) {
    let place = rng.within(1, words.len() - 1);
    let state = 1 + 4 * rng.below(n);
    let set = state + rng.within(1, 3);
    let turn = 4 * n + rng.within(1, n - 1);
    let form = words[0] & !0xFF;
    match rng.below(if words.len() > short_length(n) { 25 } else { 17 }) {
        0 => words[0] = form + rng.pick(&[0, 1, 17, 18, 255, 256]),
        1 => words[0] ^= 1 << rng.below(32),
        2 => words[0] = form + rng.within(FEWEST, MOST) as u32,
        3 => words[state] = words[state] & !0xF000 | (rng.within(8, 15) as u32) << 12,
        4 => words[state] = words[state] & !0xFF | rng.pick(&[n, n + 1, 16, 255]) as u32,
        5 => words[state] = words[state] & !0xF0FF | rng.pick(&[3, 4, 5]) << 12,
        6 => words[state] = words[state] & !0xF0FF | 6 << 12 | rng.within(1, n) as u32,
        7 => words[set] |= 1 << rng.below(16),
        8 => words[turn] = words[turn] & !0xFF | rng.pick(&[n - 1, n, n + 1, 255]) as u32,
        9 => words[state] |= rng.pick(&[1 << 10, 1 << 11, 1 << 24, 1 << 27]),
        10 => words[turn] |= 1 << rng.pick(&[8, 15, 24, 27]),
        11 => words[place] = words[place] & 0x0FFF_FFFF | (rng.below(16) as u32) << 28,
        12 => words[place] = words[place] & 0xFF00_FFFF | (rng.below(18) as u32) << 16,
        13 => words.swap(place, place - 1),
        14 => {
            words.remove(place);
        }
        15 => words[place] ^= 1 << rng.below(32),
        16 => words[0] ^= OTHER_FORM,
        _ => damage_passes(rng, &mut words[short_length(n)..], n),
    }
}

/// One thing wrong with the passes at the end of an image, or nearly so.
fn damage_passes(rng: &mut Random, words: &mut [u32], n: usize) {
    let (q, r) = (rng.below(n), rng.below(n));
    let own = n * q + q;
    let word = &mut words[n * q + r];
    match rng.below(10) {
        0 => *word = *word & 0x0FFF_FFFF | (rng.below(16) as u32) << 28,
        1 => *word = *word & 0xF0FF_FFFF | (rng.below(16) as u32) << 24,
        2 => *word = *word & 0xFFF0_FFFF | (rng.below(16) as u32) << 16,
        3 => *word |= 1 << rng.within(20, 23),
        4 => *word = *word & 0xF0F0_FFFF | (r << 24 | q << 16) as u32,
        5 => *word |= rng.pick(&[1, 0xFFFE, 0xFFFF]),
        6 => words[own] |= rng.pick(&[1, 256, 0x8000, 0xFFFF]),
        7 => words[own] |= 1 | 1 << rng.within(16, 31),
        8 => words.swap(n * q + r, n * r + q),
        _ => words.swap(n * q + r, n * q),
    }
}

/// One thing wrong with the bytes of an input, whose image has so many words.
fn damage_bytes(rng: &mut Random, bytes: &mut Vec<u8>, image: usize) {
    let length = bytes.len();
    match rng.below(8) {
        0 => bytes.truncate(rng.below(length)),
        1 => bytes.truncate(4 * rng.below(image)),
        2 => bytes.truncate(4 * (image - 1)),
        3 => bytes.truncate(4 * image),
        4 => bytes.extend((0..rng.within(1, 3)).map(|i| i as u8)),
        5 => bytes.insert(rng.below(length), 0),
        6 => bytes.resize(rng.pick(&[33_092, 34_108, 34_112, 34_113, 34_116, 40_000]), 0),
        _ => bytes[rng.below(length)] ^= 1 << rng.below(8),
    }
}

fn garbage(rng: &mut Random) -> Vec<u8> {
    let count = rng.below(120);
    let mut words: Vec<u32> = (0..count).map(|_| rng.next() as u32).collect();
    if count > 0 && rng.chance(2, 3) {
        words[0] = rng.pick(&[0x8000_0000, 0x8100_0000, 0x8100_0000]) + rng.below(20) as u32;
    }
    let mut bytes = to_bytes(&words);
    if rng.chance(1, 6) {
        bytes.pop();
    }
    bytes
}
