//! The printed run.

use super::bytes::divide;
use super::image::Image;
use super::run::take_all;
use crate::bytes::{words, Bad};
use crate::row::{at_30, MOST};
use crate::run::MOST_WORDS;
use crate::text::MOST_TEXT;
use crate::{refusal, Cell, Event, Ran, Row, Settings};

/// Prints into the first lent bytes and touches no other, or none where the text does not fit. Answers the text's length.
pub fn print_into(input: &[u8], lent: &mut [u8]) -> usize {
    if let Some(room) = lent.get_mut(..room_for(input)) {
        return print(input, room);
    }
    let text = text(input);
    if let Some(lent) = lent.get_mut(..text.len()) {
        lent.copy_from_slice(&text);
    }
    text.len()
}

/// What the printing program writes for an input.
pub fn text(input: &[u8]) -> Vec<u8> {
    let mut text = vec![0; room_for(input)];
    let length = print(input, &mut text);
    text.truncate(length);
    text
}

/// Room for the text of an input, and for the 40 bytes that the line of a taken word is put into. A word of 4 bytes has a
/// line of at most 22, the first line has at most 9, and the last at most 13.
fn room_for(input: &[u8]) -> usize {
    MOST_TEXT.min(22 * (input.len() / 4) + 36)
}

/// Prints into bytes that have room, touches none past the text, and answers its length.
fn print(input: &[u8], room: &mut [u8]) -> usize {
    let mut page = Page { room, at: 0 };
    match divide(input) {
        Ok((image, events)) => print_run(&mut page, image, events),
        Err(Bad::Bytes) => page.line(b"input ", &[refusal::INPUT_BYTES.into()]),
        Err(Bad::Image { refusal, place }) => page.line(b"image ", &[place as u32, refusal.into()]),
    }
    page.at
}

#[inline(always)]
fn print_run(page: &mut Page, image: Image<[u8; 4]>, events: &[u8]) {
    page.line(b"posts ", &[image.header.n as u32]);
    let ran = if events.len() > 4 * MOST_WORDS {
        Ran::refused(refusal::TOO_MANY_WORDS)
    } else {
        let mut room = [Row::default(); MOST];
        let rows = &mut room[..image.header.n];
        image.read(rows);
        taken_lines(page, rows, events)
    };
    match ran.refusal {
        0 => page.line(b"done ", &[ran.taken]),
        refused => page.line(b"stop ", &[ran.taken, refused]),
    }
}

/// The lines of the words taken; apart from the reading of the image, so that it has the registers to itself.
#[inline(never)]
fn taken_lines(page: &mut Page, rows: &mut [Row], events: &[u8]) -> Ran {
    let (mut place, mut inside) = (Place::FIRST, at_30(rows));
    let mut lines = Page { room: page.room, at: page.at };
    let ran = take_all(rows, words(events), Settings::SAFE, |event| {
        inside += u16::from(event.after == 30);
        inside -= u16::from(event.before == 30);
        lines.taken_line(&place, event, inside);
        place.next();
    });
    page.at = lines.at;
    ran
}

/// Bytes with room for a text, and how many of them it has by now.
struct Page<'a> {
    room: &'a mut [u8],
    at: usize,
}

impl Page<'_> {
    /// The line of a taken word: five numbers, and then the cell that it used. It is put in three parts of eight bytes,
    /// of which the later ones cover what an earlier one has too many. The last part has at most five too many, which the
    /// last line of the text covers, if no other does.
    #[inline(always)]
    fn taken_line(&mut self, place: &Place, event: Event, inside: u16) {
        let (process, inside) = (spaced(event.p as u16), spaced(inside));
        let (before, after) = (spaced(event.before), spaced(event.after));
        let Cell { access, variable, index } = event.cell;
        let letters = LETTERS[usize::from(2 * access + variable) % LETTERS.len()];
        let index = if access == 0 { 0 } else { spaced(index) ^ ENDED[usize::from(index > 9)] };
        let first = place.spaced | bytes(process) << (8 * place.length);
        let second = bytes(before) | bytes(after) << 24 | bytes(inside) << 48;
        let third = bytes(letters) | bytes(index) << 24;
        let from_second = (place.length + length(process)) as usize % 16;
        let from_third = from_second + (5 + length(inside)) as usize % 16;
        let line: &mut [u8; 40] = self.room[self.at..].first_chunk_mut().expect("room for a line");
        line[..8].copy_from_slice(&first.to_le_bytes());
        line[from_second..from_second + 8].copy_from_slice(&second.to_le_bytes());
        line[from_third..from_third + 8].copy_from_slice(&third.to_le_bytes());
        self.at += from_third + (3 + length(index)) as usize;
    }

    /// A line: what it begins with, then numbers with single spaces between them.
    #[inline(never)]
    fn line(&mut self, begin: &[u8], numbers: &[u32]) {
        let mut made = [b'\n'; 32];
        let mut from = 31;
        for (i, &number) in numbers.iter().enumerate().rev() {
            from = decimal(&mut made, from, number);
            if i > 0 {
                from -= 1;
                made[from] = b' ';
            }
        }
        for part in [begin, &made[from..]] {
            self.room[self.at..][..part.len()].copy_from_slice(part);
            self.at += part.len();
        }
    }
}

/// Puts the digits of a number before place `from`, and answers where they begin.
fn decimal(made: &mut [u8; 32], mut from: usize, mut number: u32) -> usize {
    loop {
        from -= 1;
        made[from] = b'0' + (number % 10) as u8;
        number /= 10;
        if number == 0 {
            return from;
        }
    }
}

/// The place of a word among the event words: its number below 10,000, and its digits with a space after them.
struct Place {
    number: u32,
    spaced: u64,
    length: u32,
}

impl Place {
    const FIRST: Place = Place { number: 0, spaced: SPACED[0] as u64 & 0xFFFF, length: 2 };

    /// The next place: one more in the last digit, or, after nine, all digits anew.
    #[inline(always)]
    fn next(&mut self) {
        self.number += 1;
        let last = 8 * (self.length - 2);
        if self.spaced >> last & 0xF == 9 {
            let mut number = self.number;
            (self.spaced, self.length) = (b' '.into(), 1);
            while number > 0 {
                self.spaced = self.spaced << 8 | u64::from(b'0' + (number % 10) as u8);
                self.length += 1;
                number /= 10;
            }
        } else {
            self.spaced += 1 << last;
        }
    }
}

/// A few bytes of text with their number in the highest of four.
type Short = u32;

#[inline(always)]
fn bytes(short: Short) -> u64 {
    (short & 0xFF_FFFF).into()
}

#[inline(always)]
fn length(short: Short) -> u32 {
    short >> 24
}

/// The digits of a number below 64 and a space.
#[inline(always)]
fn spaced(number: u16) -> Short {
    SPACED[usize::from(number) % SPACED.len()]
}

const SPACED: [Short; 64] = {
    let (mut table, mut number) = ([0; 64], 0);
    while number < 64 {
        let (tens, ones) = (b'0' as u32 + number / 10, b'0' as u32 + number % 10);
        table[number as usize] = match number {
            0..10 => 2 << 24 | (b' ' as u32) << 8 | ones,
            _ => 3 << 24 | (b' ' as u32) << 16 | ones << 8 | tens,
        };
        number += 1;
    }
    table
};

/// What makes the space after one digit, or after two, the end of a line.
const ENDED: [Short; 2] = [((b' ' ^ b'\n') as u32) << 8, ((b' ' ^ b'\n') as u32) << 16];

/// The end of a line without a cell, and by twice the access plus the variable the letters of one.
const LETTERS: [Short; 8] = {
    const fn three(bytes: [u8; 3]) -> Short {
        u32::from_le_bytes([bytes[0], bytes[1], bytes[2], 3])
    }
    let none = three(*b" -\n");
    [none, none, none, three(*b" ra"), three(*b" rt"), three(*b" wa"), three(*b" wt"), none]
};
