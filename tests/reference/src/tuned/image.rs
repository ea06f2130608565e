//! Images: a header 81000000 + N, four words for each process, a word for each turn cell from 1, then N words of passes
//! for each process. Those of the short form have the header 80000000 + N and no passes; they are read, not written.

use super::row::check;
use crate::image::{image_length, of_pair, state, word, Header, Word};
use crate::image::{AHEAD, EST, HEADER, LIS, PASSES, STATE, TURN};
use crate::row::{everyone, LOCATIONS, MOST};
use crate::{refusal, Reading, Row};

/// Reads an image into the first lent rows and touches no other: 1 to 5, then 13.
pub fn read_into(words: &[u32], lent: &mut [Row]) -> Reading {
    let image = match Image::of(words) {
        Ok(image) => image,
        Err((refusal, place)) => return Reading { refusal, place: place as u16, size: 0 },
    };
    let n = image.header.n;
    let Some(lent) = lent.get_mut(..n) else {
        return Reading { refusal: refusal::LENT_TOO_FEW, place: 0, size: 0 };
    };
    image.read(lent);
    Reading { refusal: refusal::NONE, place: 0, size: n as u16 }
}

/// The words of an image without a fault.
#[derive(Clone, Copy)]
pub struct Image<'a, W> {
    pub header: Header,
    words: &'a [W],
}

/// The words after a header by what they are about: four for each process, the turn cells from 1, the passes if there
/// are any.
struct Sections<'a, W> {
    rows: &'a [[W; 4]],
    turns: &'a [W],
    passes: &'a [W],
}

impl<'a, W: Word> Image<'a, W> {
    /// The image of these words, or the refusal and the place of the word that met it.
    #[inline]
    pub fn of(words: &'a [W]) -> Result<Self, (u16, usize)> {
        let header = words.first().and_then(|word| Header::of(word.number())).ok_or((refusal::NO_HEADER, 0))?;
        if words.len() != header.length() {
            return Err((refusal::IMAGE_LENGTH, words.len().min(header.length())));
        }
        let image = Image { header, words };
        if image.is_right() {
            Ok(image)
        } else {
            Err(image.first_fault())
        }
    }

    #[inline(always)]
    fn sections(&self) -> Sections<'a, W> {
        let n = self.header.n;
        let (rows, others) = self.words[1..].split_at(4 * n);
        let (turns, passes) = others.split_at(n - 1);
        Sections { rows: rows.as_chunks().0, turns, passes }
    }

    /// Whether no word has a fault. All words are put together before one look at what came out, since nearly all images
    /// are right: bits that must be 0, and whether all codes go with their levels. A number that is too large, taken from
    /// the largest, leaves bit 31.
    #[inline(always)]
    fn is_right(&self) -> bool {
        let n = self.header.n;
        let Sections { rows, turns, passes } = self.sections();
        let (mut wrong, mut sets, mut high, mut places) = (0, 0, 0, 1);
        let too_large = |number: u32| (n as u32 - 1).wrapping_sub(number);
        for (p, row) in (0..).zip(rows) {
            let [state, est, lis, ahead] = row.map(W::number);
            wrong |= (state ^ word(STATE, p)) & !0x73FF;
            sets |= est ^ word(EST, p) | lis ^ word(LIS, p) | ahead ^ word(AHEAD, p);
            high |= too_large(state & 0xFF);
            places &= places_of(state);
        }
        for (k, turn) in (1..).zip(turns) {
            let turn = turn.number() ^ word(TURN, k);
            high |= turn | too_large(turn);
        }
        let (mut heads, mut own) = (0, 0);
        each(passes, n, |q, words| {
            let first = word(PASSES, of_pair(q, 0));
            heads |= words.iter().zip(&NUMBERS).fold(0, |any, (word, r)| any | word.number() ^ r ^ first);
            own |= words.get(q).map_or(0, |word| word.number());
        });
        wrong |= heads & 0xFFFF_0000 | own & 0xFFFF;
        wrong | sets & !u32::from(everyone(n)) | high >> 31 | places ^ 1 == 0
    }

    /// The first fault of an image that has one, found word by word.
    #[cold]
    #[inline(never)]
    fn first_fault(&self) -> (u16, usize) {
        let n = self.header.n;
        let refused = |place: &usize| refusal_at(n, *place, self.words[*place].number());
        let place = (1..self.words.len()).find(|place| refused(place) != refusal::NONE).expect("a fault");
        (refused(&place), place)
    }

    /// Makes rows, as many as it has processes, its table.
    #[inline(always)]
    pub fn read(&self, lent: &mut [Row]) {
        let n = self.header.n;
        let Sections { rows, turns, passes } = self.sections();
        for (row, words) in lent.iter_mut().zip(rows) {
            let [state, est, lis, ahead] = words.map(W::number);
            *row = Row {
                loc: LOCATIONS[(state >> 12 & 7) as usize],
                act: (state >> 9 & 1) as u16,
                bb: (state >> 8 & 1) as u16,
                level: (state & 0xFF) as u16,
                est: est as u16,
                lis: lis as u16,
                ahead: ahead as u16,
                turn: 0,
                passes: [0; MOST],
            };
        }
        for (row, turn) in lent[1..].iter_mut().zip(turns) {
            row.turn = turn.number() as u16;
        }
        each(passes, n, |q, words| {
            for (count, word) in lent[q].passes.iter_mut().zip(words) {
                *count = word.number() as u16;
            }
        });
    }
}

/// Gives the n words of each process with its number. For sixteen processes they are slices of a length that the compiler
/// knows.
#[inline(always)]
fn each<W>(mut words: &[W], n: usize, mut see: impl FnMut(usize, &[W])) {
    if n == MOST {
        words.as_chunks::<MOST>().0.iter().enumerate().for_each(|(q, words)| see(q, words));
        return;
    }
    for q in 0..n {
        let Some((first, others)) = words.split_at_checked(n) else { return };
        see(q, first);
        words = others;
    }
}

/// The same for writing.
#[inline(always)]
fn each_mut<W>(mut words: &mut [W], n: usize, mut see: impl FnMut(usize, &mut [W])) {
    if n == MOST {
        words.as_chunks_mut::<MOST>().0.iter_mut().enumerate().for_each(|(q, words)| see(q, words));
        return;
    }
    for q in 0..n {
        let Some((first, others)) = words.split_at_mut_checked(n) else { return };
        see(q, first);
        words = others;
    }
}

/// The numbers of processes where words have them.
const NUMBERS: [u32; MOST] = {
    let (mut numbers, mut r) = ([0; MOST], 0);
    while r < MOST {
        numbers[r] = (r as u32) << 16;
        r += 1;
    }
    numbers
};

/// Whether the code of a word of kind 9 goes with its level, in bit 0; what the other bits hold says nothing.
#[inline(always)]
fn places_of(state: u32) -> u32 {
    let allowed = if state & 0xFF == 0 { LEVEL_0_CODES } else { LEVEL_ABOVE_0_CODES };
    allowed >> (state >> 12 & 7)
}

/// Codes of locations, bit c for code c: 22 to 24 ask for a level above 0, 30 for level 0.
const LEVEL_0_CODES: u32 = 0b1100_0111;
const LEVEL_ABOVE_0_CODES: u32 = 0b1011_1111;

/// The refusal of the word at a place past the header in an image of n processes, or 0.
fn refusal_at(n: usize, place: usize, found: u32) -> u16 {
    let (kind, number, used) = if place <= 4 * n {
        let kind = [STATE, EST, LIS, AHEAD][(place - 1) % 4];
        (kind, (place as u32 - 1) / 4, if kind == STATE { 0xF3FF } else { 0xFFFF })
    } else if place < 5 * n {
        (TURN, (place - 4 * n) as u32, 0xFF)
    } else {
        (PASSES, of_pair((place - 5 * n) / n, (place - 5 * n) % n), 0xFFFF)
    };
    let bits = found & used;
    let in_range = match kind {
        STATE => bits >> 12 < 8 && (bits & 0xFF) < n as u32,
        TURN => bits < n as u32,
        PASSES => number >> 8 != number & 0xFF || bits == 0,
        _ => bits <= everyone(n).into(),
    };
    if found & !used != word(kind, number) {
        refusal::IMAGE_FORM
    } else if !in_range {
        refusal::IMAGE_RANGE
    } else if kind == STATE && places_of(bits) & 1 == 0 {
        refusal::IMAGE_LEVEL
    } else {
        refusal::NONE
    }
}

/// Writes the image of a sound table into the first lent words, as many as it has, and touches no other: 6, 7, then 13.
pub fn write_image(rows: &[Row], lent: &mut [u32]) -> u16 {
    let refused = check(rows);
    if refused != refusal::NONE {
        return refused;
    }
    let Some(lent) = lent.get_mut(..image_length(rows.len())) else {
        return refusal::LENT_TOO_FEW;
    };
    write(rows, lent);
    refusal::NONE
}

/// Writes the image of a sound table into lent words, which are as many as it has.
#[inline(always)]
pub fn write<W: Word>(rows: &[Row], lent: &mut [W]) {
    let n = rows.len();
    let (header, others) = lent.split_first_mut().expect("as many words as an image has");
    let (cells, others) = others.split_at_mut(4 * n);
    let (turns, passes) = others.split_at_mut(n - 1);
    *header = W::of(HEADER + n as u32);
    for (p, (row, words)) in (0..).zip(rows.iter().zip(cells.as_chunks_mut().0)) {
        let [est, lis, ahead] = [row.est, row.lis, row.ahead].map(u32::from);
        *words =
            [word(STATE, p) | state(row), word(EST, p) | est, word(LIS, p) | lis, word(AHEAD, p) | ahead].map(W::of);
    }
    for (k, (row, turn)) in (1..).zip(rows[1..].iter().zip(turns)) {
        *turn = W::of(word(TURN, k) | u32::from(row.turn));
    }
    each_mut(passes, n, |q, words| {
        let first = word(PASSES, of_pair(q, 0));
        for (r, (word, count)) in words.iter_mut().zip(&rows[q].passes).enumerate() {
            *word = W::of(first | (r as u32) << 16 | u32::from(*count));
        }
    });
}
